/* Linux without a C library, on x86-64 and AArch64: a program's start, and the calls that it makes. */
#ifndef LINUX_H
#define LINUX_H

/* Where a program starts: begin() is called, and ends the program. On the stack lie, as Linux leaves them, the count of the command line's words, and the words. */
void begin(char **stack);

#if defined(__aarch64__)
enum { READ = 63, WRITE = 64, OPEN_AT = 56, CLOSE = 57, ACCESS_AT = 48, CONTROL = 29, EXIT = 93 };

#define LINUX_START __asm__(".globl _start\n_start:\n\tmov x29, #0\n\tmov x30, #0\n\tmov x0, sp\n\tbl begin\n")

static inline long call(long number, long a, long b, long c) {
    register long x8 __asm__("x8") = number;
    register long x0 __asm__("x0") = a;
    register long x1 __asm__("x1") = b;
    register long x2 __asm__("x2") = c;
    __asm__ volatile("svc #0" : "+r"(x0) : "r"(x8), "r"(x1), "r"(x2) : "memory");
    return x0;
}
#else
enum { READ = 0, WRITE = 1, OPEN_AT = 257, CLOSE = 3, ACCESS_AT = 269, CONTROL = 16, EXIT = 60 };

#define LINUX_START __asm__(".globl _start\n_start:\n\txor %ebp, %ebp\n\tmov %rsp, %rdi\n\tand $-16, %rsp\n\tcall begin\n")

static inline long call(long number, long a, long b, long c) {
    long result;
    __asm__ volatile("syscall" : "=a"(result) : "a"(number), "D"(a), "S"(b), "d"(c) : "rcx", "r11", "memory");
    return result;
}
#endif

static inline void end(long status) {
    for (;;) {
        call(EXIT, status, 0, 0);
    }
}

#endif
