void print_int(long n);
void newline(void);

static long ackermann(long m, long n) {
    if (m == 0)
        return n + 1;
    if (n == 0)
        return ackermann(m - 1, 1);
    return ackermann(m - 1, ackermann(m, n - 1));
}

long program(void) {
    print_int(ackermann(2, 5));
    newline();
    return ackermann(3, 3);
}
