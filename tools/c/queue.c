void print_int(long n);
void newline(void);
void *allocate(unsigned long bytes);

#define ROOM 5

struct queue {
    long *places[ROOM];
    long first;
    long length;
};

static long *box(long n) {
    long *made = allocate(sizeof(long));
    *made = n;
    return made;
}

static struct queue *empty(void) {
    struct queue *q = allocate(sizeof(struct queue));
    long *content = box(0);
    for (long i = 0; i < ROOM; i++)
        q->places[i] = content;
    q->first = 0;
    q->length = 0;
    return q;
}

static long length(struct queue *q) { return q->length; }

static int is_full(struct queue *q) { return length(q) == ROOM; }

static int enter(struct queue *q, long *b) {
    if (is_full(q))
        return 0;
    q->places[(q->first + length(q)) % ROOM] = b;
    q->length = length(q) + 1;
    return 1;
}

static long *leave(struct queue *q) {
    long first = q->first;
    long *b = q->places[first];
    q->first = (first + 1) % ROOM;
    q->length = length(q) - 1;
    return b;
}

static void drain(struct queue *q) {
    while (length(q) != 0) {
        print_int(*leave(q));
        newline();
    }
}

static struct queue *line;
static long *kept;

static void arrive(long n) {
    for (long i = 0; i < n; i++) {
        if (is_full(line)) {
            print_int(*leave(line));
            newline();
        }
        if (!enter(line, i == 4 ? kept : box(i * i)))
            print_int(-1);
    }
}

long program(void) {
    line = empty();
    kept = box(100);
    arrive(7);
    *kept = *kept + 23;
    drain(line);
    enter(line, kept);
    return length(line);
}
