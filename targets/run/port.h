/*
 * What a test program has of the machine that it runs on: input and output in large pieces, and
 * main's answer as its exit status. One of semihosting_port.c, linux.c, hosted.c and wasm.mjs has them.
 */
#ifndef PORT_H
#define PORT_H

#include <stddef.h>
#include <stdint.h>

/* Input goes to the front of a buffer: how many bytes, 0 at the end. */
size_t port_read(uint8_t *into, size_t room);

void port_write(const uint8_t *bytes, size_t count);

#endif
