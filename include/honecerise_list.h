/*
 * Reading a store or a finished image by its layout: what stands in a directory, and the bytes of
 * an image's files (honecerise_read takes stores of at most 1,024 blocks). Plain C, in this header
 * alone, and not proved. It takes nothing from a C library but stddef.h and stdint.h.
 *
 * Hand in only bytes that honecerise_check has said yes to: these functions look at numbers in them
 * without asking again. A store stays sound through every call of the library. A honecerise_size that
 * is handed in may be any number: none is cut, also where size_t has 32 bits.
 */
#ifndef HONECERISE_LIST_H
#define HONECERISE_LIST_H

#include "honecerise.h"

#ifdef __cplusplus
extern "C" {
#endif

enum honecerise_kind { HONECERISE_FREE = 0, HONECERISE_FILE = 1, HONECERISE_DIRECTORY = 2 };

/* One entry of a directory, and the inode that it names. */
struct honecerise_entry {
    unsigned inode;
    unsigned kind;                     /* enum honecerise_kind                   */
    unsigned size;                     /* in bytes; a directory's is 64 a block  */
    unsigned links;
    char name[HONECERISE_MAX_NAME + 1]; /* ends in 0                              */
};

/* A number of two bytes, low byte first. */
static inline unsigned honecerise_number(const uint8_t *bytes)
{
    return bytes[0] | (unsigned)bytes[1] << 8;
}

static inline unsigned honecerise_inodes(const uint8_t *bytes)
{
    return honecerise_number(bytes);
}

static inline unsigned honecerise_blocks(const uint8_t *bytes)
{
    return honecerise_number(bytes + 2);
}

static inline unsigned honecerise_free_inodes(const uint8_t *bytes)
{
    return honecerise_number(bytes + 4);
}

static inline unsigned honecerise_free_blocks(const uint8_t *bytes)
{
    return honecerise_number(bytes + 6);
}

/* The 8 attribute bytes of an inode, 1 to the inode count: kind, 0, links (2), size (2), parent (2). */
static inline const uint8_t *honecerise_attributes(const uint8_t *bytes, unsigned inode)
{
    return bytes + 16 + 8 * (size_t)(inode - 1);
}

/* A number that is no inode's counts as free. */
static inline unsigned honecerise_kind_of(const uint8_t *bytes, honecerise_size inode)
{
    if (inode < 1 || inode > honecerise_inodes(bytes))
        return HONECERISE_FREE;
    return honecerise_attributes(bytes, (unsigned)inode)[0];
}

static inline unsigned honecerise_size_of(const uint8_t *bytes, honecerise_size inode)
{
    if (honecerise_kind_of(bytes, inode) == HONECERISE_FREE)
        return 0;
    return honecerise_number(honecerise_attributes(bytes, (unsigned)inode) + 4);
}

/* The block whose number stands at an address. */
static inline const uint8_t *honecerise_block_named(const uint8_t *bytes, const uint8_t *address)
{
    const size_t inodes = honecerise_inodes(bytes);
    return bytes + 16 + 32 * inodes + 64 * (size_t)(honecerise_number(address) - 1);
}

/* The 64 bytes of a block of an inode in use, at place 0 to 42; the place lies inside its size. A
 * file above 768 bytes has eleven addresses of its own, and the block that its twelfth names has the
 * others. */
static inline const uint8_t *honecerise_block(const uint8_t *bytes, unsigned inode, unsigned place)
{
    const size_t inodes = honecerise_inodes(bytes);
    const uint8_t *addresses = bytes + 16 + 8 * inodes + 24 * (size_t)(inode - 1), *further;
    if (place < 11 || honecerise_size_of(bytes, inode) <= 768)
        return honecerise_block_named(bytes, addresses + 2 * place);
    further = honecerise_block_named(bytes, addresses + 2 * 11);
    return honecerise_block_named(bytes, further + 2 * (place - 11));
}

/* Slots are counted from 0 up to this number; 0 if it is no directory. */
static inline unsigned honecerise_slots(const uint8_t *bytes, honecerise_size directory)
{
    if (honecerise_kind_of(bytes, directory) != HONECERISE_DIRECTORY)
        return 0;
    return honecerise_size_of(bytes, directory) / 16;
}

/* The entry in a slot: 1, or 0 if the slot is empty or there is none; then entry stays. */
static inline int honecerise_entry_at(const uint8_t *bytes, honecerise_size directory,
                                      honecerise_size slot, struct honecerise_entry *entry)
{
    const uint8_t *at, *attributes;
    unsigned k;
    if (slot >= honecerise_slots(bytes, directory))
        return 0;
    at = honecerise_block(bytes, (unsigned)directory, (unsigned)slot / 4) + 16 * ((unsigned)slot % 4);
    if (honecerise_number(at) == 0)
        return 0;
    entry->inode = honecerise_number(at);
    attributes = honecerise_attributes(bytes, entry->inode);
    entry->kind = attributes[0];
    entry->links = honecerise_number(attributes + 2);
    entry->size = honecerise_number(attributes + 4);
    for (k = 0; k < HONECERISE_MAX_NAME; k++)
        entry->name[k] = (char)at[2 + k];
    entry->name[HONECERISE_MAX_NAME] = 0;
    return 1;
}

/* Bytes of a file from offset on, as many as there are and fit: answers how many; 0 if it is no
 * file. */
static inline size_t honecerise_file_bytes(const uint8_t *bytes, honecerise_size inode,
                                           honecerise_size offset,
                                           uint8_t *out, honecerise_size out_length)
{
    const unsigned size = honecerise_size_of(bytes, inode);
    const uint8_t *block = NULL;
    unsigned at;
    size_t done = 0;
    if (honecerise_kind_of(bytes, inode) != HONECERISE_FILE || offset >= size)
        return 0;
    for (at = (unsigned)offset; at < size && done < out_length; at++) {
        if (done == 0 || at % 64 == 0)
            block = honecerise_block(bytes, (unsigned)inode, at / 64);
        out[done++] = block[at % 64];
    }
    return done;
}

#ifdef __cplusplus
}
#endif

#endif
