/*
 * How deep the library's calls go: all of them on a painted stack, with no copy running and with
 * one (depth.h). Fails if they go deeper than include/honecerise.h says, or honecerise_keep deeper than
 * 3 KB, or if the copy whose block's own number is taken did not come about.
 */
#include <stdio.h>
#include <string.h>
#include <ucontext.h>

#include "depth.h"

enum { STACK = 1 << 18, PAINT = 0xa5, KEEP = 3072 };

static uint8_t stack[STACK];
static ucontext_t here, there;

static void nothing(void)
{
}

/* How many bytes of a painted stack are no longer paint. */
static size_t depth(void (*what)(void))
{
    size_t clean = 0;
    memset(stack, PAINT, sizeof stack);
    getcontext(&there);
    there.uc_stack.ss_sp = stack;
    there.uc_stack.ss_size = sizeof stack;
    there.uc_link = &here;
    makecontext(&there, what, 0);
    swapcontext(&here, &there);
    while (clean < sizeof stack && stack[clean] == PAINT)
        clean++;
    return sizeof stack - clean;
}

int main(void)
{
    size_t most = 0, kept;
    unsigned k;
    copied(); /* the loader looks up memset on the first call: not on the painted stack */
    for (k = 0; k < LISTS; k++) {
        const size_t used = depth(lists_of_calls[k]) - depth(nothing);
        most = used > most ? used : most;
    }
    kept = depth(keeps) - depth(nothing);
    printf("stack: %u bytes at the deepest, of %u; keep %u, of %u\n",
           (unsigned)most, HONECERISE_STACK, (unsigned)kept, KEEP);
    if (taken != TAKEN)
        printf("stack: no block's own number was taken\n");
    return most <= HONECERISE_STACK && kept <= KEEP && taken == TAKEN ? 0 : 1;
}
