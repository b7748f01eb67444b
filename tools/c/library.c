/* What programs take of a library. It is compiled with -O2 whatever their own level is.

   RV64I has no products and no remainders: GCC calls __muldi3 and __moddi3 of libgcc for them. These stand here, doing
   the same bit by bit, since a libgcc without instructions of extensions is rarely installed. */

static long words[4096];
static long used;

/* memory that nobody else has; nothing is given back */
void *allocate(unsigned long bytes) {
    void *place = &words[used];
    used = used + bytes / 8;
    return place;
}

long __muldi3(long a, long b) {
    unsigned long product = 0, part = a, left = b;
    do {
        if (left & 1)
            product += part;
        left >>= 1;
        part <<= 1;
    } while (left != 0);
    return product;
}

static unsigned long magnitude(long n) { return n < 0 ? 0 - (unsigned long)n : (unsigned long)n; }

/* d isn't 0, and the remainder has the sign of n */
long __moddi3(long n, long d) {
    unsigned long rest = magnitude(n), part = magnitude(d), bit = 1;
    for (; part < rest; part <<= 1)
        bit <<= 1;
    for (; bit != 0; bit >>= 1, part >>= 1)
        if (rest >= part)
            rest -= part;
    return n < 0 ? 0 - rest : rest;
}
