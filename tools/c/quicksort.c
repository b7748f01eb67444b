void print_int(long n);
void newline(void);
void *allocate(unsigned long bytes);
_Noreturn void answer_truth(long b);

#define COUNT 24
static long seed;

struct vector {
    long length;
    long elements[];
};

static long next(void) {
    seed = (37 * seed + 11) % 101;
    return seed;
}

static struct vector *filled(long size) {
    struct vector *v = allocate(sizeof(struct vector) + size * sizeof(long));
    v->length = size;
    for (long i = 0; i < size; i++)
        v->elements[i] = 0;
    for (long i = 0; i < size; i++)
        v->elements[i] = next();
    return v;
}

static void swap(struct vector *v, long i, long j) {
    long kept = v->elements[i];
    v->elements[i] = v->elements[j];
    v->elements[j] = kept;
}

static long partition(struct vector *v, long low, long high) {
    long pivot = v->elements[high];
    long place = low;
    for (long i = low; i < high; i++)
        if (v->elements[i] < pivot) {
            swap(v, i, place);
            place = place + 1;
        }
    swap(v, place, high);
    return place;
}

static void sort(struct vector *v, long low, long high) {
    if (low < high) {
        long place = partition(v, low, high);
        sort(v, low, place - 1);
        sort(v, place + 1, high);
    }
}

static void show(struct vector *v) {
    for (long i = 0; i < v->length; i++) {
        print_int(v->elements[i]);
        newline();
    }
}

static int is_sorted(struct vector *v) {
    int all = 1;
    for (long i = 1; i < v->length; i++)
        all = all && v->elements[i - 1] <= v->elements[i];
    return all;
}

long program(void) {
    seed = 7;
    struct vector *numbers = filled(COUNT);
    sort(numbers, 0, COUNT - 1);
    show(numbers);
    answer_truth(is_sorted(numbers));
}
