/* port.h where there is an operating system with a C library. */
#define _POSIX_C_SOURCE 200112L
#include <unistd.h>

#include "port.h"

size_t port_read(uint8_t *into, size_t room)
{
    const ssize_t got = read(0, into, room);
    return got > 0 ? (size_t)got : 0;
}

void port_write(const uint8_t *bytes, size_t count)
{
    while (count > 0) {
        const ssize_t put = write(1, bytes, count);
        if (put <= 0)
            _exit(2);
        bytes += put;
        count -= (size_t)put;
    }
}
