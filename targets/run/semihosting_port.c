/* port.h on a bare Arm: the host's files input and output in the folder where the emulator runs. */
#include "port.h"
#include "semihosting.h"

size_t port_read(uint8_t *into, size_t room)
{
    static int32_t file = -1;
    if (file < 0)
        file = semihosting_open("input", 0);
    if (file < 0)
        semihosting_exit(2);
    return semihosting_read(file, into, room);
}

void port_write(const uint8_t *bytes, size_t count)
{
    static int32_t file = -1;
    if (file < 0)
        file = semihosting_open("output", 1);
    if (file < 0 || !semihosting_write(file, bytes, count))
        semihosting_exit(2);
}
