/* The start of a program under Linux. For each environment call of start.c the registers that it takes are written to
   standard output, three words: x17, x10 and x11. A call takes ten instructions more so, and the end, which exits, four
   further ones. */
long program(void);

__attribute__((naked, section(".text.start"))) void start(void) {
    __asm__ volatile(
        "call program\n"
        "mv a1, a0\n"
        "li a0, 0\n"
        "end:\n"
        "li a7, 0\n"
        "call tell\n"
        "li a0, 0\n"
        "li a7, 93\n"
        "ecall\n"
        "tell:\n"
        "addi sp, sp, -32\n"
        "sd a7, 0(sp)\n"
        "sd a0, 8(sp)\n"
        "sd a1, 16(sp)\n"
        "li a0, 1\n"
        "mv a1, sp\n"
        "li a2, 24\n"
        "li a7, 64\n"
        "ecall\n"
        "addi sp, sp, 32\n"
        "ret\n");
}

__attribute__((naked)) void answer_truth(long b) {
    __asm__ volatile(
        "mv a1, a0\n"
        "li a0, 1\n"
        "j end\n");
}

__attribute__((naked)) void print_int(long n) {
    __asm__ volatile(
        "li a7, 1\n"
        "j tell\n");
}

__attribute__((naked)) void newline(void) {
    __asm__ volatile(
        "li a0, 10\n"
        "li a7, 2\n"
        "j tell\n");
}
