void print_int(long n);
void newline(void);
_Noreturn void answer_truth(long b);

static int odd(long n);

static int even(long n) { return n == 0 ? 1 : odd(n - 1); }

static int odd(long n) { return n == 0 ? 0 : even(n - 1); }

long program(void) {
    print_int(even(10000) ? 1 : 0);
    newline();
    answer_truth(even(10001));
}
