/*
 * Semihosting: a program on a bare Arm asks the debugger or emulator that it runs in to open files,
 * to read and write, and to end.
 */
#ifndef SEMIHOSTING_H
#define SEMIHOSTING_H

#include <stddef.h>
#include <stdint.h>

/* A host's file, for reading or writing: its handle, or -1. */
int32_t semihosting_open(const char *path, int to_write);

/* How many bytes came, 0 at the end. */
size_t semihosting_read(int32_t handle, uint8_t *into, size_t room);

/* 1 if all were taken. */
int semihosting_write(int32_t handle, const uint8_t *bytes, size_t count);

/* A text that ends in 0, to the host's console. */
void semihosting_print(const char *text);

void semihosting_exit(int status) __attribute__((noreturn));

#endif
