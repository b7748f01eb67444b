void print_int(long n);
void newline(void);
void *allocate(unsigned long bytes);

static long total;
static long refused;

/* three functions, each with its data: the cell of its account */
struct account {
    struct {
        long (*call)(long *own, long n);
        long *own;
    } deposit;
    struct {
        int (*call)(long *own, long n);
        long *own;
    } withdraw;
    struct {
        long (*call)(long *own);
        long *own;
    } balance;
};

static void change(long *own, long n) {
    *own = *own + n;
    total = total + n;
}

static long put(long *own, long n) {
    change(own, n);
    return *own;
}

static int take(long *own, long n) {
    if (*own < n) {
        refused = refused + 1;
        return 0;
    }
    change(own, 0 - n);
    return 1;
}

static long look(long *own) { return *own; }

static struct account *open(long first) {
    long *own = allocate(sizeof(long));
    struct account *a = allocate(sizeof(struct account));
    *own = 0;
    change(own, first);
    a->deposit.call = put;
    a->deposit.own = own;
    a->withdraw.call = take;
    a->withdraw.own = own;
    a->balance.call = look;
    a->balance.own = own;
    return a;
}

static long deposit(struct account *a, long n) { return a->deposit.call(a->deposit.own, n); }

static int withdraw(struct account *a, long n) { return a->withdraw.call(a->withdraw.own, n); }

static long balance(struct account *a) { return a->balance.call(a->balance.own); }

static int transfer(struct account *from, struct account *to, long n) {
    if (!withdraw(from, n))
        return 0;
    deposit(to, n);
    return 1;
}

static void show(long n) {
    print_int(n);
    newline();
}

long program(void) {
    struct account *ann = open(100), *bob = open(50), *eve = open(0);
    for (long month = 0; month < 4; month++) {
        transfer(ann, bob, 30);
        transfer(bob, eve, 45);
    }
    show(balance(ann));
    show(balance(bob));
    show(balance(eve));
    show(deposit(eve, 8));
    show(refused);
    return total;
}
