/* The start of a program as an image, and its environment calls. It is compiled with -O2 whatever the program's level
   is: an integer is printed by three instructions, and a line feed by four. */
long program(void);

/* the answer of a program is an integer, */
__attribute__((naked, section(".text.start"))) void start(void) {
    __asm__ volatile(
        "call program\n"
        "mv a1, a0\n"
        "li a0, 0\n"
        "end:\n"
        "li a7, 0\n"
        "ecall\n");
}

/* or it ends by this with a truth value */
__attribute__((naked)) void answer_truth(long b) {
    __asm__ volatile(
        "mv a1, a0\n"
        "li a0, 1\n"
        "j end\n");
}

/* prints an integer */
void print_int(long n) {
    register long a0 __asm__("a0") = n;
    register long a7 __asm__("a7") = 1;
    __asm__ volatile("ecall" : : "r"(a0), "r"(a7));
}

/* prints a line feed */
void newline(void) {
    register long a0 __asm__("a0") = 10;
    register long a7 __asm__("a7") = 2;
    __asm__ volatile("ecall" : : "r"(a0), "r"(a7));
}
