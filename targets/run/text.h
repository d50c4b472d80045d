/* Lines of text: what the test programs read and write. Nothing of it is taken from a C library. */
#ifndef TEXT_H
#define TEXT_H

#include <stddef.h>
#include <stdint.h>

/* A longer line is answered like an empty one; bytes in hex have at most half its length. */
enum { LINE = 65536, BYTES = LINE / 2 };

/* ---- output, kept until there is enough of it */

void put_byte(uint8_t byte);
void put(const char *text);
/* A space, and a number. */
void put_number(uint64_t n);
void put_hex(uint64_t n, unsigned digits);

/* ---- a line's fields, parted by one space each */

struct field {
    const uint8_t *at;
    size_t length;
};

/* The field that begins at a place of a line; the place after it, behind its space, is the next one's. */
struct field field_at(const uint8_t *line, size_t length, size_t *place);
int is(struct field f, const char *word, size_t length);
/* Decimal; the largest number if that is less. 0 if it is no number. */
int number(struct field f, uint64_t *n);
/* Bytes in hex, - for none. 0 if they are not. */
int hex(struct field f, uint8_t *bytes, size_t *count);

/* ---- lines */

/* Writes the answer to a line, of which only what stands before " => " is given. */
void respond(const uint8_t *line, size_t length);

#endif
