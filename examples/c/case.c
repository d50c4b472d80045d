/*
 * A charging case: one radio copies the watches in its bays, a few steps for each in turn.
 *
 *     cc -std=c99 -Iinclude examples/c/case.c target/staticlib/libapi.a -o case
 *
 * Four watches are in the case, one joins later and one is taken out. It prints for each turn the steps
 * that were dealt, bay by bay, and the bay last served; then how many steps each copy took.
 */
#include <stdio.h>
#include <stdlib.h>
#include <string.h>

#include "honecerise.h"

enum { INODES = 8, BLOCKS = 64, IMAGE_BLOCKS = HONECERISE_ENOUGH_IMAGE(INODES), STEPS_A_TURN = 22 };

struct watch {
    uint8_t store[HONECERISE_STORE_LENGTH(INODES, BLOCKS)];
    uint8_t image[HONECERISE_IMAGE_LENGTH(INODES, IMAGE_BLOCKS)];
    uint8_t desk[HONECERISE_DESK_LENGTH(INODES)];
    int there;
};

static struct watch bays[HONECERISE_BAYS];

#define WATCH(w) (w)->store, sizeof (w)->store, (w)->image, sizeof (w)->image, (w)->desk, sizeof (w)->desk
#define TEXT(text) (const uint8_t *)(text), strlen(text)

/* An answer that must not be a refusal. */
static size_t done(const char *what, int32_t answer)
{
    if (answer < 0) {
        printf("%s: refused with %d\n", what, (int)-answer);
        exit(1);
    }
    return (size_t)answer;
}

/* A watch with a run of so many bytes is put into a bay, and its copy started. */
static void put_in(size_t bay, size_t bytes)
{
    static const uint8_t laps[HONECERISE_MAX_FILE] = "71.2 70.8 72.0 69.9";
    struct watch *w = &bays[bay];
    size_t run;
    done("lay out", honecerise_lay_out_store(w->store, sizeof w->store, INODES, BLOCKS));
    done("lay out", honecerise_lay_out_desk(w->desk, sizeof w->desk, INODES));
    run = done("create", honecerise_create_file(WATCH(w), HONECERISE_ROOT, TEXT("run1")));
    done("write", honecerise_write(WATCH(w), run, 0, laps, bytes));
    done("start", honecerise_start(WATCH(w)));
    w->there = 1;
}

/* The state of a watch's copy; the steps that it has taken. */
static honecerise_size state_of(const struct watch *w, honecerise_size *steps)
{
    honecerise_size state, locked;
    done("state", honecerise_state(WATCH(w), &state, &locked, steps));
    return state;
}

/* A bay runs if a watch is there whose copy is neither finished nor stopped. */
static uint16_t running_bays(void)
{
    uint16_t running = 0;
    honecerise_size steps;
    size_t b;
    for (b = 0; b < HONECERISE_BAYS; b++)
        if (bays[b].there && state_of(&bays[b], &steps) == HONECERISE_RUNNING)
            running = (uint16_t)(running | 1u << b);
    return running;
}

/* One turn: deals, and bursts. It answers the bay that was dealt the last step, whatever the bursts did:
 * a copy may finish early, and its steps are then lost for this turn. */
static size_t turn(uint16_t running, size_t last)
{
    uint8_t counts[HONECERISE_BAYS];
    size_t b, next = done("deal", honecerise_deal(running, STEPS_A_TURN, last, counts));
    for (b = 0; b < HONECERISE_BAYS; b++)
        if (counts[b] > 0) {
            printf("bay %u: %u, ", (unsigned)b, counts[b]);
            /* short or refused: the next state question tells */
            (void)honecerise_burst(WATCH(&bays[b]), counts[b]);
        }
    printf("last %u\n", (unsigned)next);
    return next;
}

int main(void)
{
    size_t b, turns = 0, last = HONECERISE_BAYS - 1; /* so that the first turn begins at bay 0 */
    honecerise_size steps;
    uint16_t running;

    put_in(0, 100);
    put_in(3, 2752);
    put_in(9, 768);
    put_in(14, 2000);
    while ((running = running_bays()) != 0) {
        last = turn(running, last);
        turns++;
        if (turns == 2)
            put_in(10, 1500);
        if (turns == 4)
            bays[14].there = 0; /* taken out */
    }

    for (b = 0; b < HONECERISE_BAYS; b++)
        if (bays[b].there && state_of(&bays[b], &steps) == HONECERISE_FINISHED
            && honecerise_check(1, bays[b].image, sizeof bays[b].image))
            printf("bay %u has a copy, taken in %u steps\n", (unsigned)b, (unsigned)steps);
    return 0;
}
