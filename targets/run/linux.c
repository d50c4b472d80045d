/*
 * port.h on Linux without a C library, for machines that have none in Debian: 32-bit RISC-V, and
 * AArch64 alike. Also what runs before main.
 */
#include "port.h"

/* The numbers that all newer machines of Linux share. */
enum { READ = 63, WRITE = 64, EXIT = 93 };

#if defined(__riscv)
__asm__(".globl _start\n_start:\n.option push\n.option norelax\n    la gp, __global_pointer$\n.option pop\n    call begin\n");
static long ask(long what, long a, const void *b, long c)
{
    register long a0 __asm__("a0") = a;
    register const void *a1 __asm__("a1") = b;
    register long a2 __asm__("a2") = c;
    register long a7 __asm__("a7") = what;
    __asm__ volatile("ecall" : "+r"(a0) : "r"(a1), "r"(a2), "r"(a7) : "memory");
    return a0;
}
#elif defined(__aarch64__)
__asm__(".globl _start\n_start:\n    bl begin\n");
static long ask(long what, long a, const void *b, long c)
{
    register long x0 __asm__("x0") = a;
    register const void *x1 __asm__("x1") = b;
    register long x2 __asm__("x2") = c;
    register long x8 __asm__("x8") = what;
    __asm__ volatile("svc 0" : "+r"(x0) : "r"(x1), "r"(x2), "r"(x8) : "memory");
    return x0;
}
#endif

int main(void);

void begin(void) __attribute__((noreturn, used));
void begin(void)
{
    const long status = main();
    for (;;)
        ask(EXIT, status, NULL, 0);
}

size_t port_read(uint8_t *into, size_t room)
{
    const long got = ask(READ, 0, into, (long)room);
    return got > 0 ? (size_t)got : 0;
}

void port_write(const uint8_t *bytes, size_t count)
{
    while (count > 0) {
        const long put = ask(WRITE, 1, bytes, (long)count);
        if (put <= 0)
            ask(EXIT, 2, NULL, 0);
        bytes += put;
        count -= (size_t)put;
    }
}
