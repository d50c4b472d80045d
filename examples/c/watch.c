/*
 * A watch that records two runs, and is copied while the second one is still being recorded. Meanwhile the
 * first one takes the place of yesterday's best.
 *
 *     cc -std=c99 -Iinclude examples/c/watch.c target/staticlib/libapi.a -o watch
 *
 * It prints where it had to wait for the copier, then the image: its inodes, blocks, free inodes,
 * free blocks and steps, and of each entry directory, slot, inode, kind, size, links and name.
 */
#include <stdio.h>
#include <stdlib.h>
#include <string.h>

#include "honecerise.h"
#include "honecerise_list.h"

enum { INODES = 16, BLOCKS = 64, IMAGE_BLOCKS = HONECERISE_ENOUGH_IMAGE(INODES) };

static uint8_t store[HONECERISE_STORE_LENGTH(INODES, BLOCKS)];
static uint8_t image[HONECERISE_IMAGE_LENGTH(INODES, IMAGE_BLOCKS)];
static uint8_t desk[HONECERISE_DESK_LENGTH(INODES)];

/* Firmware writes such a thing once: the three buffers that most calls begin with. */
#define WATCH store, sizeof store, image, sizeof image, desk, sizeof desk
#define TEXT(text) (const uint8_t *)(text), strlen(text)

/* An answer that must not be a refusal. */
static size_t done(const char *what, int32_t answer)
{
    if (answer < 0) {
        printf("%s: refused with %d\n", what, (int)-answer);
        exit(1);
    }
    return (size_t)answer;
}

static int running(honecerise_size *steps)
{
    honecerise_size state, locked;
    done("state", honecerise_state(WATCH, &state, &locked, steps));
    return state == HONECERISE_RUNNING;
}

/* A lap is recorded as soon as the copier lets go of the run: 14 says that it has it just now. */
static void record(size_t run, size_t offset, const char *lap)
{
    int32_t answer = honecerise_write(WATCH, run, offset, TEXT(lap));
    while (answer == -HONECERISE_BUSY) {
        printf("busy with the run, one step on\n");
        done("step", honecerise_step(WATCH));
        answer = honecerise_write(WATCH, run, offset, TEXT(lap));
    }
    done("write", answer);
}

static void list(const uint8_t *bytes, honecerise_size steps)
{
    size_t directory, slot;
    struct honecerise_entry e;
    printf("image %u %u %u %u %u\n", honecerise_inodes(bytes), honecerise_blocks(bytes),
           honecerise_free_inodes(bytes), honecerise_free_blocks(bytes), (unsigned)steps);
    for (directory = 1; directory <= honecerise_inodes(bytes); directory++)
        for (slot = 0; slot < honecerise_slots(bytes, directory); slot++)
            if (honecerise_entry_at(bytes, directory, slot, &e))
                printf("%u %u %u %c %u %u %s\n", (unsigned)directory, (unsigned)slot, e.inode,
                       e.kind == HONECERISE_DIRECTORY ? 'd' : 'f', e.size, e.links, e.name);
}

int main(void)
{
    uint8_t text[HONECERISE_MAX_FILE];
    size_t laps, first, second, best, size;
    honecerise_size steps = 0;

    done("lay out", honecerise_lay_out_store(store, sizeof store, INODES, BLOCKS));
    done("lay out", honecerise_lay_out_desk(desk, sizeof desk, INODES));

    /* two runs in a folder */
    laps = done("create", honecerise_create_directory(WATCH, HONECERISE_ROOT, TEXT("laps")));
    first = done("create", honecerise_create_file(WATCH, laps, TEXT("run1")));
    record(first, 0, "71.2 70.8 72.0 69.9");
    second = done("create", honecerise_create_file(WATCH, laps, TEXT("run2")));
    record(second, 0, "68.4 ");
    best = done("create", honecerise_create_file(WATCH, laps, TEXT("best")));
    record(best, 0, "72.5 71.9 73.0 70.8");

    /* the copy: one step for each turn of the watch's loop, and the pupil goes on meanwhile */
    done("start", honecerise_start(WATCH));
    while (steps < 10) {
        steps = done("step", honecerise_step(WATCH));
        if (steps == 5)
            record(second, 5, "67.9 ");
        if (steps == 8) {
            /* the recorder's own call keeps what has the name; the phone app's replaces it */
            if (honecerise_rename_new(WATCH, laps, TEXT("run1"), laps, TEXT("best")) == -HONECERISE_NAME_TAKEN)
                printf("the recorder leaves yesterday's best\n");
            done("rename", honecerise_rename(WATCH, laps, TEXT("run1"), laps, TEXT("best")));
        }
        if (steps == 10)
            record(second, 10, "69.1 ");
    }
    /* the run is over: the rest goes in bursts, as the radio works */
    while (running(&steps))
        done("burst", honecerise_burst(WATCH, HONECERISE_MOST_BURST));

    /* what was sent is looked at before it is believed */
    if (!honecerise_check(1, image, sizeof image)) {
        printf("the image is not sound\n");
        return 1;
    }
    list(image, steps);
    size = honecerise_file_bytes(image, second, 0, text, sizeof text);
    printf("run2 in the copy: %.*s\n", (int)size, (const char *)text);
    size = done("read", honecerise_read(store, sizeof store, second, 0, text, sizeof text));
    printf("run2 in the store: %.*s\n", (int)size, (const char *)text);
    return 0;
}
