void print_int(long n);
void newline(void);

#define SIZE 6
static long columns[SIZE];
static long found;

static long absolute(long n) { return n < 0 ? 0 - n : n; }

static int attacks(long row, long column, long earlier) {
    long other = columns[earlier];
    return other == column || absolute(other - column) == row - earlier;
}

static int is_free(long row, long column) {
    int free = 1;
    for (long earlier = 0; earlier < row; earlier++)
        free = free && !attacks(row, column, earlier);
    return free;
}

static void show(void) {
    for (long row = 0; row < SIZE; row++) {
        print_int(columns[row]);
        newline();
    }
}

static void place(long row, void (*visit)(void)) {
    if (row == SIZE) {
        visit();
        return;
    }
    for (long column = 0; column < SIZE; column++)
        if (is_free(row, column)) {
            columns[row] = column;
            place(row + 1, visit);
        }
}

static void count(void) {
    if (found == 0)
        show();
    found = found + 1;
}

long program(void) {
    place(0, count);
    return found;
}
