/*
 * How deep the library's calls go on this machine: bindings/c/depth.h has the calls. Fails if they go deeper
 * than include/honecerise.h says, or honecerise_keep deeper than KEEP, or if the copy whose block's own
 * number is taken did not come about.
 */
#include "../../bindings/c/depth.h"
#include "port.h"

/* 3 KB on x86-64; smaller machines keep more in frames. */
enum { KEEP = 3328 };

#if defined(__wasm__)

/* The library is a module of its own, with its stack at the front of the memory: wasm.mjs paints it. */
void port_paint(void);
size_t port_painted(void);

static size_t depth_of(void (*what)(void))
{
    port_paint();
    what();
    return port_painted();
}

#else

enum { STACK_BYTES = 1 << 16, PAINT = 0xa5 };
static uint8_t painted[STACK_BYTES] __attribute__((aligned(16)));

/* Calls a function with the stack pointer at top. */
void on_stack(uint8_t *top, void (*what)(void));

#if defined(__arm__)
__asm__(".syntax unified\n.thumb\n.globl on_stack\n.type on_stack, %function\n.thumb_func\non_stack:\n"
        "    push {r4, lr}\n    mov r4, sp\n    mov sp, r0\n    blx r1\n    mov sp, r4\n    pop {r4, pc}\n");
#elif defined(__riscv)
__asm__(".globl on_stack\non_stack:\n"
        "    addi sp, sp, -16\n    sw ra, 12(sp)\n    sw s0, 8(sp)\n    mv s0, sp\n    mv sp, a0\n    jalr a1\n"
        "    mv sp, s0\n    lw ra, 12(sp)\n    lw s0, 8(sp)\n    addi sp, sp, 16\n    ret\n");
#elif defined(__aarch64__)
__asm__(".globl on_stack\non_stack:\n"
        "    stp x19, x30, [sp, -16]!\n    mov x19, sp\n    mov sp, x0\n    blr x1\n    mov sp, x19\n"
        "    ldp x19, x30, [sp], 16\n    ret\n");
#endif

/* How many bytes of a painted stack are no longer paint. */
static size_t depth_of(void (*what)(void))
{
    size_t clean;
    for (clean = 0; clean < sizeof painted; clean++)
        painted[clean] = PAINT;
    on_stack(painted + sizeof painted, what);
    for (clean = 0; clean < sizeof painted && painted[clean] == PAINT; clean++)
        ;
    return sizeof painted - clean;
}

#endif

static void put(const char *text)
{
    size_t length = 0;
    while (text[length])
        length++;
    port_write((const uint8_t *)text, length);
}

static void put_number(size_t n)
{
    uint8_t digits[20];
    size_t at = sizeof digits;
    do
        digits[--at] = (uint8_t)('0' + n % 10);
    while ((n /= 10) != 0);
    port_write(digits + at, sizeof digits - at);
}

int main(void)
{
    size_t most = 0, kept, used;
    unsigned k;
    for (k = 0; k < LISTS; k++) {
        used = depth_of(lists_of_calls[k]);
        most = used > most ? used : most;
    }
    kept = depth_of(keeps);
    put("stack: ");
    put_number(most);
    put(" bytes at the deepest, of ");
    put_number(HONECERISE_STACK);
    put("; keep ");
    put_number(kept);
    put(", of ");
    put_number(KEEP);
    put(taken == TAKEN ? "\n" : "; no block's own number was taken\n");
    return most <= HONECERISE_STACK && kept <= KEEP && taken == TAKEN ? 0 : 1;
}
