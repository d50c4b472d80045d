/*
 * A watch's laps against the track's timing mat: how far the watch's clock is off, and which laps both
 * recorded.
 *
 *     cc -std=c99 -Iinclude examples/c/laps.c target/staticlib/libapi.a -o laps
 *
 * The watch is 0.7 seconds late, so that nothing pairs as it stands. The pupil forgot to press at the
 * third lap, and at the second came down on the mat with both feet.
 */
#include <stdio.h>
#include <stdlib.h>

#include "honecerise.h"

enum { LAPS = 4, CROSSINGS = 6, FURTHEST = 100, SHIFT = 5 };

/* in hundredths of a second */
static const uint32_t watch[LAPS] = { 7230, 14455, 28912, 36118 };
static const uint32_t mat[CROSSINGS] = { 7161, 14385, 14393, 21630, 28840, 36048 };

static uint32_t paired_watch[LAPS], alone_watch[LAPS];
static uint32_t paired_mat[CROSSINGS], alone_mat[CROSSINGS];

/* The number of pairs if so much is added to the watch's times; none of them goes below 0. */
static int32_t match(int32_t shift)
{
    uint32_t shifted[LAPS];
    int32_t pairs;
    size_t i;
    for (i = 0; i < LAPS; i++)
        shifted[i] = watch[i] + (uint32_t)shift;
    pairs = honecerise_match_laps(shifted, LAPS, mat, CROSSINGS, paired_watch, LAPS, paired_mat, CROSSINGS,
                                  alone_watch, LAPS, alone_mat, CROSSINGS);
    if (pairs < 0) {
        printf("refused with %d\n", (int)-pairs);
        exit(1);
    }
    return pairs;
}

/* The shift with the most pairs, and of those the one nearest to 0. */
static int32_t best_shift(void)
{
    int32_t shift, best = 0, most = match(0);
    for (shift = -FURTHEST; shift <= FURTHEST; shift += SHIFT) {
        int32_t pairs = match(shift);
        if (pairs > most || (pairs == most && abs(shift) < abs(best))) {
            most = pairs;
            best = shift;
        }
    }
    return best;
}

static int by_size(const void *a, const void *b)
{
    return *(const int32_t *)a - *(const int32_t *)b;
}

/* The middle difference mat minus watch of the pairs that the last match reported. */
static int32_t middle_difference(int32_t pairs)
{
    int32_t differences[LAPS], k;
    for (k = 0; k < pairs; k++)
        differences[k] = (int32_t)(paired_mat[k] - paired_watch[k]);
    qsort(differences, (size_t)pairs, sizeof *differences, by_size);
    return differences[pairs / 2];
}

int main(void)
{
    int32_t k, best, pairs, off;

    printf("as it stands: %d pairs\n", (int)match(0));
    best = best_shift();
    /* The loop left the report of the last shift: match once more. The best shift alone may be up to
     * 50 off. */
    pairs = match(best);
    if (pairs == 0) {
        printf("no shift pairs anything\n");
        return 1;
    }
    off = best + middle_difference(pairs);
    printf("shifted by %d: %d pairs; add %d to the watch's times\n", (int)best, (int)pairs, (int)off);

    pairs = match(off);
    for (k = 0; k < pairs; k++)
        printf("watch %u mat %u\n", (unsigned)paired_watch[k], (unsigned)paired_mat[k]);
    for (k = 0; k < LAPS - pairs; k++)
        printf("watch %u alone\n", (unsigned)alone_watch[k]);
    for (k = 0; k < CROSSINGS - pairs; k++)
        printf("mat %u alone\n", (unsigned)alone_mat[k]);
    return 0;
}
