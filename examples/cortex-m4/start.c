/*
 * What runs before main on a bare Cortex-M: the vectors, the stack, and memory as C wants it. No
 * interrupt is used; a fault ends the program with a word.
 */
#include <stdint.h>

#include "honecerise.h"
#include "semihosting.h"

/* The library's deepest call, and what main and its functions take above it. */
#ifndef STACK
#define STACK (HONECERISE_STACK + 2048u)
#endif

static uint8_t stack[STACK] __attribute__((section(".stack"), aligned(8), used));

extern uint32_t data_begin[], data_end[], data_load[], bss_begin[], bss_end[];

int main(void);

void reset(void)
{
    uint32_t *to;
    const uint32_t *from = data_load;
    for (to = data_begin; to < data_end; to++)
        *to = *from++;
    for (to = bss_begin; to < bss_end; to++)
        *to = 0;
#ifdef TRAP_UNALIGNED
    *(volatile uint32_t *)0xe000ed14 |= 1u << 3;
#endif
#ifdef __ARM_FP
    *(volatile uint32_t *)0xe000ed88 |= 0xfu << 20; /* a program compiled for the floating-point unit may use it */
    __asm__ volatile("dsb\n    isb");
#endif
    semihosting_exit(main());
}

static void fault(void)
{
    semihosting_print("a fault\n");
    semihosting_exit(3);
}

/* The first stack pointer, then where to go: reset, NMI, and the four faults. */
__attribute__((section(".vectors"), used)) static const struct {
    void *stack;
    void (*handlers[15])(void);
} vectors = { stack + sizeof stack, { reset, fault, fault, fault, fault, fault } };
