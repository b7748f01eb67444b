void print_int(long n);
void newline(void);
void *allocate(unsigned long bytes);

#define SIZE 3

struct row {
    long length;
    long entries[];
};

struct matrix {
    long length;
    struct row *rows[];
};

static struct row *make_row(long length, long x) {
    struct row *made = allocate(sizeof(struct row) + length * sizeof(long));
    made->length = length;
    for (long i = 0; i < length; i++)
        made->entries[i] = x;
    return made;
}

static struct matrix *make_rows(long length, struct row *row) {
    struct matrix *made = allocate(sizeof(struct matrix) + length * sizeof(struct row *));
    made->length = length;
    for (long i = 0; i < length; i++)
        made->rows[i] = row;
    return made;
}

static struct matrix *zero(long rows, long columns) {
    struct matrix *m = make_rows(rows, make_row(0, 0));
    for (long i = 0; i < rows; i++)
        m->rows[i] = make_row(columns, 0);
    return m;
}

static long entry(struct matrix *m, long i, long j) { return m->rows[i]->entries[j]; }

static void set_entry(struct matrix *m, long i, long j, long x) { m->rows[i]->entries[j] = x; }

/* a function of a place, with its data behind it */
struct rule {
    long (*call)(struct rule *self, long i, long j);
};

static struct matrix *matrix(long rows, long columns, struct rule *f) {
    struct matrix *m = zero(rows, columns);
    for (long i = 0; i < rows; i++)
        for (long j = 0; j < columns; j++)
            set_entry(m, i, j, f->call(f, i, j));
    return m;
}

struct product {
    struct rule rule;
    struct matrix *a;
    struct matrix *b;
};

static long sum(struct rule *self, long i, long j) {
    struct product *own = (struct product *)self;
    long sum = 0;
    for (long k = 0; k < own->b->length; k++)
        sum = sum + entry(own->a, i, k) * entry(own->b, k, j);
    return sum;
}

static struct matrix *product(struct matrix *a, struct matrix *b) {
    struct product f = {{sum}, a, b};
    return matrix(a->length, b->rows[0]->length, &f.rule);
}

static long is_same(struct rule *self, long i, long j) { return i == j ? 1 : 0; }

static struct matrix *power(struct matrix *m, long n) {
    if (n == 0) {
        struct rule f = {is_same};
        return matrix(SIZE, SIZE, &f);
    }
    struct matrix *half = power(m, n / 2);
    struct matrix *square = product(half, half);
    return n % 2 == 0 ? square : product(square, m);
}

static void show(struct matrix *m) {
    for (long i = 0; i < m->length; i++)
        for (long j = 0; j < m->rows[i]->length; j++) {
            print_int(entry(m, i, j));
            newline();
        }
}

static long rising(struct rule *self, long i, long j) { return 3 * i + j; }

static long falling(struct rule *self, long i, long j) { return i - 2 * j; }

static long following(struct rule *self, long i, long j) { return i == 0 ? 1 : j == i - 1 ? 1 : 0; }

long program(void) {
    struct rule of_a = {rising}, of_b = {falling}, of_step = {following};
    struct matrix *a = matrix(2, 3, &of_a);
    struct matrix *b = matrix(3, 2, &of_b);
    show(product(a, b));
    struct matrix *step = matrix(SIZE, SIZE, &of_step);
    return entry(power(step, 40), 0, 2);
}
