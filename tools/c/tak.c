static long tak(long x, long y, long z) {
    if (y < x)
        return tak(tak(x - 1, y, z), tak(y - 1, z, x), tak(z - 1, x, y));
    return z;
}

long program(void) { return tak(18, 12, 6); }
