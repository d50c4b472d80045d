/* The calls that take no store. */
#ifndef LISTS_H
#define LISTS_H

#include <stddef.h>
#include <stdint.h>

/* Whether the line is one of turns, matched or kept (docs/TESTS.md has their forms); if so it is answered. */
int respond_list(const uint8_t *line, size_t length);

#endif
