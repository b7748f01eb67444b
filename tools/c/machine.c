void print_int(long n);
void newline(void);

enum { HALT, PUSH, ADD, MULTIPLY, COPY, OVER, SWAP, JUMP_IF, PRINT };

static long stack[16];
static long top;

static void put(long n) {
    stack[top] = n;
    top = top + 1;
}

static long take(void) {
    top = top - 1;
    return stack[top];
}

static void combine(long (*f)(long a, long b)) {
    long second = take();
    long first = take();
    put(f(first, second));
}

static void turn_round(void) {
    long second = take();
    long first = take();
    put(second);
    put(first);
}

static void reach(void) {
    long second = take();
    long first = take();
    put(first);
    put(second);
    put(first);
}

static long sum(long a, long b) { return a + b; }

static long product(long a, long b) { return a * b; }

static long argument(long *code, long at) { return code[at + 1]; }

static long step(long *code, long at) {
    long instruction = code[at];
    if (instruction == PUSH) {
        put(argument(code, at));
        return at + 2;
    }
    if (instruction == ADD) {
        combine(sum);
        return at + 1;
    }
    if (instruction == MULTIPLY) {
        combine(product);
        return at + 1;
    }
    if (instruction == COPY) {
        long n = take();
        put(n);
        put(n);
        return at + 1;
    }
    if (instruction == OVER) {
        reach();
        return at + 1;
    }
    if (instruction == SWAP) {
        turn_round();
        return at + 1;
    }
    if (instruction == JUMP_IF)
        return take() == 0 ? at + 2 : argument(code, at);
    if (instruction == PRINT) {
        long n = take();
        print_int(n);
        newline();
        put(n);
        return at + 1;
    }
    return -1;
}

static long run(long *code, long at) {
    while (at >= 0)
        at = step(code, at);
    return take();
}

static long code[32];
static long end;

static void write(long n) {
    code[end] = n;
    end = end + 1;
}

long program(void) {
    write(PUSH), write(1);
    write(PUSH), write(10);
    /* place 4, to which the jump goes */
    write(SWAP);
    write(OVER);
    write(MULTIPLY);
    write(PRINT);
    write(SWAP);
    write(PUSH), write(-1);
    write(ADD);
    write(COPY);
    write(JUMP_IF), write(4);
    write(SWAP);
    write(HALT);
    return run(code, 0);
}
