/*
 * The calls that go deepest, for programs that paint a stack and look how far they came: bindings/c/stack.c
 * and, on other machines, targets/run/stack.c. It takes nothing from a C library.
 */
#ifndef DEPTH_H
#define DEPTH_H

#include "honecerise.h"

enum { INODES = 16, BLOCKS = 128, IMAGE_BLOCKS = 704 };

static uint8_t store[HONECERISE_STORE_LENGTH(INODES, BLOCKS)];
static uint8_t image[HONECERISE_IMAGE_LENGTH(INODES, IMAGE_BLOCKS)];
static uint8_t desk[HONECERISE_DESK_LENGTH(INODES)];
static const uint32_t times[3] = { 7100, 7200, 7300 };
static const uint32_t dates[4] = { 20230904, 20231221, 20231220, 20231221 };
static const uint8_t laps[2000] = "71.2 70.8 72.0 69.9";

#define WATCH store, sizeof store, image, sizeof image, desk, sizeof desk
#define NAME(text) (const uint8_t *)(text), sizeof(text) - 1

/* A directory, and a long file. */
static void lay_out(void)
{
    honecerise_lay_out_store(store, sizeof store, INODES, BLOCKS);
    honecerise_lay_out_desk(desk, sizeof desk, INODES);
    honecerise_create_file(WATCH, 1, NAME("a"));
    honecerise_write(WATCH, 2, 0, laps, sizeof laps);
    honecerise_create_directory(WATCH, 1, NAME("d"));
}

static void keeps(void)
{
    static uint8_t out[4];
    honecerise_keep(dates, 4, dates, 2, 20240201, out, sizeof out);
}

/* Each call past its guards, on a store with files that end inside a block, a long one among them that
 * goes past 768 bytes and back; while a copy runs or not. */
static void each(int copied)
{
    static uint8_t out[16];
    static uint32_t lists[4][3];
    static honecerise_size n[3];
    honecerise_match_laps(times, 3, times, 2, lists[0], 3, lists[1], 3, lists[2], 3, lists[3], 3);
    if (copied) {
        /* the root is copied, and nothing locked */
        honecerise_start(WATCH);
        honecerise_step(WATCH);
        honecerise_step(WATCH);
        honecerise_step(WATCH);
    }
    honecerise_check(0, store, sizeof store);
    honecerise_look_up(store, sizeof store, 1, NAME("a"));
    honecerise_read(store, sizeof store, 2, 0, out, sizeof out);
    honecerise_create_file(WATCH, 1, NAME("f"));
    honecerise_create_directory(WATCH, 1, NAME("g"));
    honecerise_write(WATCH, 4, 0, laps, 750);
    honecerise_write(WATCH, 4, 750, laps, 1000);
    honecerise_shorten(WATCH, 4, 1000);
    honecerise_shorten(WATCH, 4, 10);
    honecerise_link(WATCH, 3, NAME("l"), 4);
    honecerise_rename(WATCH, 3, NAME("l"), 1, NAME("m"));
    honecerise_rename(WATCH, 1, NAME("m"), 1, NAME("n"));
    /* onto a long run of its own, within a directory and from another; then to new names */
    honecerise_create_file(WATCH, 1, NAME("o"));
    honecerise_write(WATCH, 6, 0, laps, sizeof laps);
    honecerise_rename(WATCH, 1, NAME("n"), 1, NAME("o"));
    honecerise_create_file(WATCH, 3, NAME("p"));
    honecerise_write(WATCH, 6, 0, laps, sizeof laps);
    honecerise_rename(WATCH, 1, NAME("o"), 3, NAME("p"));
    honecerise_rename_new(WATCH, 3, NAME("p"), 3, NAME("q"));
    honecerise_rename_new(WATCH, 3, NAME("q"), 1, NAME("n"));
    honecerise_unlink(WATCH, 1, NAME("n"));
    honecerise_unlink(WATCH, 1, NAME("g"));
    honecerise_unlink(WATCH, 1, NAME("f"));
    while (honecerise_step(WATCH) > 0)
        honecerise_state(WATCH, &n[0], &n[1], &n[2]);
    honecerise_check(1, image, sizeof image);
    if (copied)
        honecerise_start(WATCH);
    while (honecerise_burst(WATCH, 20) > 0)
        ;
    honecerise_deal(0xffff, 64, 15, out);
}

static void idle(void)
{
    lay_out();
    each(0);
}

static void copied(void)
{
    lay_out();
    each(1);
}

/* A step, or a burst of so many. */
static int32_t step_by(honecerise_size count)
{
    return count ? honecerise_burst(WATCH, count) : honecerise_step(WATCH);
}

/* The first address of an inode. */
static unsigned first_address(const uint8_t *bytes, unsigned inode)
{
    const uint8_t *at = bytes + 16 + 8 * INODES + 24 * (inode - 1);
    return at[0] | (unsigned)at[1] << 8;
}

/* A copy with a block whose own number is taken in the image, so that it looks for a free one: file 2 is
 * copied, then its blocks go to file 4. Whether it came to that. */
static int own_number_taken(honecerise_size count)
{
    int32_t closed;
    honecerise_lay_out_store(store, sizeof store, INODES, BLOCKS);
    honecerise_lay_out_desk(desk, sizeof desk, INODES);
    honecerise_create_file(WATCH, 1, NAME("a"));
    honecerise_create_file(WATCH, 1, NAME("b"));
    honecerise_create_file(WATCH, 1, NAME("c"));
    honecerise_write(WATCH, 2, 0, laps, 200);
    honecerise_write(WATCH, 3, 0, laps, 70);
    honecerise_start(WATCH);
    /* the root in three steps, file 2 in six: then nothing is locked */
    for (closed = 0; closed < 9; closed++)
        honecerise_step(WATCH);
    honecerise_shorten(WATCH, 2, 0);
    honecerise_write(WATCH, 4, 0, laps, 200);
    while (step_by(count) > 0)
        ;
    return honecerise_check(1, image, sizeof image) && first_address(store, 4) != 0
        && first_address(image, 4) != first_address(store, 4);
}

static int taken;

static void taken_by_steps(void)
{
    taken += own_number_taken(0);
}

static void taken_by_bursts(void)
{
    taken += own_number_taken(5);
}

/* All of them; two must find what they are for. */
enum { LISTS = 5, TAKEN = 2 };
static void (*const lists_of_calls[LISTS])(void) = { idle, copied, taken_by_steps, taken_by_bursts, keeps };

#endif
