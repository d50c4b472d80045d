#include "text.h"
#include "port.h"

static uint8_t out[65536];
static size_t out_length;

void put_byte(uint8_t byte)
{
    if (out_length == sizeof out) {
        port_write(out, out_length);
        out_length = 0;
    }
    out[out_length++] = byte;
}

void put(const char *text)
{
    while (*text)
        put_byte((uint8_t)*text++);
}

void put_number(uint64_t n)
{
    uint8_t digits[20];
    size_t count = 0;
    do {
        digits[count++] = (uint8_t)('0' + n % 10);
        n /= 10;
    } while (n);
    put_byte(' ');
    while (count)
        put_byte(digits[--count]);
}

void put_hex(uint64_t n, unsigned digits)
{
    while (digits--)
        put_byte((uint8_t)"0123456789abcdef"[n >> (4 * digits) & 15]);
}

struct field field_at(const uint8_t *line, size_t length, size_t *place)
{
    struct field f;
    f.at = line + *place;
    f.length = 0;
    while (*place + f.length < length && f.at[f.length] != ' ')
        f.length++;
    *place += f.length + 1;
    return f;
}

int is(struct field f, const char *word, size_t length)
{
    size_t i;
    if (f.length != length)
        return 0;
    for (i = 0; i < length; i++)
        if (f.at[i] != (uint8_t)word[i])
            return 0;
    return 1;
}

int number(struct field f, uint64_t *n)
{
    size_t i;
    *n = 0;
    for (i = 0; i < f.length; i++) {
        const unsigned digit = (unsigned)f.at[i] - '0';
        if (digit > 9)
            return 0;
        *n = *n <= (UINT64_MAX - digit) / 10 ? 10 * *n + digit : UINT64_MAX;
    }
    return f.length > 0;
}

static unsigned hex_digit(uint8_t x)
{
    return x >= '0' && x <= '9' ? x - (unsigned)'0' : x >= 'a' && x <= 'f' ? x - (unsigned)'a' + 10
         : x >= 'A' && x <= 'F' ? x - (unsigned)'A' + 10 : 16;
}

int hex(struct field f, uint8_t *bytes, size_t *count)
{
    size_t i;
    *count = 0;
    if (is(f, "-", 1))
        return 1;
    if (f.length == 0 || f.length % 2 || f.length / 2 > BYTES)
        return 0;
    for (i = 0; i < f.length; i++)
        if (hex_digit(f.at[i]) == 16)
            return 0;
    for (i = 0; i < f.length / 2; i++)
        bytes[i] = (uint8_t)(16 * hex_digit(f.at[2 * i]) + hex_digit(f.at[2 * i + 1]));
    *count = f.length / 2;
    return 1;
}

/* The part of a line before " => ", or all of it. */
static void answer(const uint8_t *line, size_t length)
{
    size_t i;
    if (length > LINE)
        length = 0;
    for (i = 0; i + 4 <= length; i++)
        if (line[i] == ' ' && line[i + 1] == '=' && line[i + 2] == '>' && line[i + 3] == ' ')
            length = i;
    respond(line, length);
}

int main(void)
{
    static uint8_t in[65536], line[LINE];
    size_t i, got, used = 0;
    while ((got = port_read(in, sizeof in)) > 0)
        for (i = 0; i < got; i++)
            if (in[i] != '\n') {
                if (used < LINE)
                    line[used] = in[i];
                used++;
            } else {
                answer(line, used);
                used = 0;
            }
    if (used)
        answer(line, used);
    port_write(out, out_length);
    return 0;
}
