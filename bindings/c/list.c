/*
 * include/honecerise_list.h against the library: every entry that it lists is the one that look up
 * finds, every file has the bytes that read gives, on a store and on its finished image; and numbers
 * beyond 32 bits are none of either.
 */
#include <stdio.h>
#include <stdlib.h>
#include <string.h>

#include "honecerise.h"
#include "honecerise_list.h"

enum { INODES = 40, BLOCKS = 900, IMAGE_BLOCKS = HONECERISE_ENOUGH_IMAGE(INODES) };

static uint8_t store[HONECERISE_STORE_LENGTH(INODES, BLOCKS)];
static uint8_t image[HONECERISE_IMAGE_LENGTH(INODES, IMAGE_BLOCKS)];
static uint8_t desk[HONECERISE_DESK_LENGTH(INODES)];

/* What a number of 32 bits would cut to 0. */
#define BEYOND (UINT64_C(1) << 32)

#define WATCH store, sizeof store, image, sizeof image, desk, sizeof desk

static void expect(const char *what, int holds)
{
    if (!holds) {
        printf("list: %s\n", what);
        exit(1);
    }
}

/* Directories and files of all sizes, long ones among them, with a gap among the slots. */
static void fill(void)
{
    uint8_t bytes[HONECERISE_MAX_FILE];
    char name[] = "fourteen bytes";
    size_t k, size, directory = HONECERISE_ROOT;
    for (k = 0; k < sizeof bytes; k++)
        bytes[k] = (uint8_t)(k * 7 + 1);
    expect("lay out", honecerise_lay_out_store(store, sizeof store, INODES, BLOCKS) == 0);
    expect("lay out", honecerise_lay_out_desk(desk, sizeof desk, INODES) == 0);
    for (k = 0; k + 1 < INODES; k++) {
        const uint8_t *at = (const uint8_t *)name;
        int32_t made;
        name[0] = (char)('A' + k);
        if (k % 9 == 0) {
            made = honecerise_create_directory(WATCH, directory, at, 14 - k % 14);
            expect("create", made > 0);
            directory = (size_t)made;
        } else {
            made = honecerise_create_file(WATCH, directory, at, 14 - k % 14);
            expect("create", made > 0);
            size = k * 67 % 769;
            expect("write", honecerise_write(WATCH, (size_t)made, 0, bytes, size) >= 0);
            if (k % 2) /* half of them grow on */
                expect("write", honecerise_write(WATCH, (size_t)made, size, bytes, k * 317 % 1985) >= 0);
        }
    }
    name[0] = 'C';
    expect("unlink", honecerise_unlink(WATCH, 2, (const uint8_t *)name, 12) == 0);
}

static unsigned compare(const uint8_t *bytes)
{
    uint8_t listed[HONECERISE_MAX_FILE + 32], read[HONECERISE_MAX_FILE + 32];
    struct honecerise_entry e;
    size_t directory, slot, offset, count = 0;
    expect("counts", honecerise_inodes(bytes) == INODES && honecerise_free_inodes(bytes) == 1);
    for (directory = 0; directory <= INODES + 1; directory++)
        for (slot = 0; slot <= HONECERISE_MAX_SLOTS; slot++) {
            if (!honecerise_entry_at(bytes, directory, slot, &e))
                continue;
            count++;
            expect("look up finds another inode",
                   honecerise_look_up(store, sizeof store, directory, (const uint8_t *)e.name, strlen(e.name))
                       == (int32_t)e.inode);
            expect("links", e.links == 1);
            if (e.kind == HONECERISE_DIRECTORY)
                expect("bytes of a directory", honecerise_file_bytes(bytes, e.inode, 0, listed, 9) == 0);
            for (offset = 0; e.kind == HONECERISE_FILE && offset <= e.size; offset += 1 + offset % 50) {
                const size_t room = offset * 13 % sizeof listed;
                const int32_t had = honecerise_read(store, sizeof store, e.inode, offset, read, room);
                expect("read gives another count",
                       honecerise_file_bytes(bytes, e.inode, offset, listed, room) == (size_t)had);
                expect("read gives other bytes", memcmp(read, listed, (size_t)had) == 0);
            }
        }
    expect("past the size", honecerise_file_bytes(bytes, 3, 1 << 20, listed, 9) == 0);
    expect("an entry is missing", count == INODES - 2);
    return (unsigned)count;
}

/* Inode 1 is a directory with an entry in slot 0, inode 3 a file: no other number may stand for them. */
static void wide_numbers(const uint8_t *bytes)
{
    const honecerise_size past[3] = { BEYOND, BEYOND << 16, UINT64_MAX - UINT32_MAX };
    struct honecerise_entry e;
    uint8_t out[9];
    size_t k;
    e.inode = 77;
    expect("inode 1 is a directory", honecerise_slots(bytes, 1) > 0);
    expect("inode 3 is a file", honecerise_file_bytes(bytes, 3, 0, out, sizeof out) == sizeof out);
    for (k = 0; k < 3; k++) {
        expect("a wide number has a kind", honecerise_kind_of(bytes, past[k] + 1) == HONECERISE_FREE);
        expect("a wide number has a size", honecerise_size_of(bytes, past[k] + 3) == 0);
        expect("a wide number has slots", honecerise_slots(bytes, past[k] + 1) == 0);
        expect("a wide number has an entry", !honecerise_entry_at(bytes, past[k] + 1, 0, &e));
        expect("a wide slot has an entry", !honecerise_entry_at(bytes, 1, past[k], &e));
        expect("a wide number has bytes", honecerise_file_bytes(bytes, past[k] + 3, 0, out, sizeof out) == 0);
        expect("bytes from a wide offset", honecerise_file_bytes(bytes, 3, past[k], out, sizeof out) == 0);
    }
    expect("bytes from the last offset", honecerise_file_bytes(bytes, 3, UINT64_MAX, out, sizeof out) == 0);
    expect("the last number has a kind", honecerise_kind_of(bytes, UINT64_MAX) == HONECERISE_FREE);
    expect("an entry that is none was written", e.inode == 77);
}

int main(void)
{
    unsigned count;
    fill();
    expect("start", honecerise_start(WATCH) == 0);
    while (honecerise_step(WATCH) > 0)
        ;
    expect("the store is not sound", honecerise_check(0, store, sizeof store));
    expect("the image is not sound", honecerise_check(1, image, sizeof image));
    expect("blocks", honecerise_blocks(store) == BLOCKS && honecerise_blocks(image) == IMAGE_BLOCKS);
    count = compare(store) + compare(image);
    wide_numbers(store);
    wide_numbers(image);
    printf("list: %u entries as looked up and read\n", count);
    return 0;
}
