#include "semihosting.h"

/* Arm's numbers for what is asked, and for the ways to open a file. */
enum { OPEN = 0x01, WRITE0 = 0x04, WRITE = 0x05, READ = 0x06, EXIT_EXTENDED = 0x20 };
enum { READ_BYTES = 1, WRITE_BYTES = 5, APPLICATION_EXIT = 0x20026 };

static int32_t ask(uint32_t what, const void *block)
{
    register uint32_t r0 __asm__("r0") = what;
    register const void *r1 __asm__("r1") = block;
    __asm__ volatile("bkpt 0xab" : "+r"(r0) : "r"(r1) : "memory");
    return (int32_t)r0;
}

int32_t semihosting_open(const char *path, int to_write)
{
    uintptr_t block[3];
    size_t length = 0;
    while (path[length])
        length++;
    block[0] = (uintptr_t)path;
    block[1] = to_write ? WRITE_BYTES : READ_BYTES;
    block[2] = length;
    return ask(OPEN, block);
}

/* Both answer how many bytes were not taken. */
size_t semihosting_read(int32_t handle, uint8_t *into, size_t room)
{
    const uintptr_t block[3] = { (uintptr_t)handle, (uintptr_t)into, room };
    const int32_t left = ask(READ, block);
    return left < 0 || (size_t)left > room ? 0 : room - (size_t)left;
}

int semihosting_write(int32_t handle, const uint8_t *bytes, size_t count)
{
    const uintptr_t block[3] = { (uintptr_t)handle, (uintptr_t)bytes, count };
    return ask(WRITE, block) == 0;
}

void semihosting_print(const char *text)
{
    ask(WRITE0, text);
}

void semihosting_exit(int status)
{
    const uintptr_t block[2] = { APPLICATION_EXIT, (uintptr_t)status };
    for (;;)
        ask(EXIT_EXTENDED, block);
}
