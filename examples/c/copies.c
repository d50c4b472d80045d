/*
 * A case's finished images through a school year: on each day asked, what stays; and what would go if a
 * term were entered otherwise.
 *
 *     cc -std=c99 -Iinclude examples/c/copies.c target/staticlib/libapi.a -o copies
 *
 * The case copied the watches on Mondays and Thursdays in September and December, and twice in the
 * holidays. What goes is deleted at once: that changes nothing for the others.
 */
#include <stdio.h>
#include <stdlib.h>

#include "honecerise.h"

enum { MOST = HONECERISE_MAX_COPIES };

static const uint32_t terms[] = {
    HONECERISE_DATE(2023, 9, 4), HONECERISE_DATE(2023, 12, 21),
    HONECERISE_DATE(2024, 1, 8), HONECERISE_DATE(2024, 3, 28),
};

static uint32_t copies[MOST];
static size_t count;
static uint8_t kept[MOST];

/* How many are kept on that day. */
static int32_t ask(uint32_t day, const uint32_t *school, size_t days)
{
    const int32_t n = honecerise_keep(copies, count, school, days, day, kept, MOST);
    if (n < 0) {
        printf("refused with %d\n", (int)-n);
        exit(1);
    }
    return n;
}

static void copy_on(uint32_t day)
{
    copies[count++] = day;
}

static void delete_what_goes(uint32_t day)
{
    size_t i, left = 0;
    ask(day, terms, 4);
    for (i = 0; i < count; i++)
        if (kept[i])
            copies[left++] = copies[i];
    printf("%u: %u of %u stay\n", (unsigned)day, (unsigned)left, (unsigned)count);
    count = left;
}

int main(void)
{
    static const uint32_t autumn[] = { 20230904, 20230907, 20230911, 20230914,
                                       20230918, 20230921, 20230925, 20230928 };
    static const uint32_t december[] = { 20231204, 20231207, 20231211, 20231214, 20231218, 20231221 };
    uint32_t moved[4];
    size_t i;

    for (i = 0; i < sizeof autumn / sizeof *autumn; i++)
        copy_on(autumn[i]);
    delete_what_goes(HONECERISE_DATE(2023, 9, 28));
    delete_what_goes(HONECERISE_DATE(2023, 10, 20));

    for (i = 0; i < sizeof december / sizeof *december; i++)
        copy_on(december[i]);
    copy_on(HONECERISE_DATE(2023, 12, 28));
    copy_on(HONECERISE_DATE(2024, 1, 3));
    delete_what_goes(HONECERISE_DATE(2024, 1, 8));
    delete_what_goes(HONECERISE_DATE(2024, 1, 31));

    /* before a term is moved: ask, and delete nothing */
    for (i = 0; i < 4; i++)
        moved[i] = terms[i];
    moved[1] = HONECERISE_DATE(2023, 12, 15);
    printf("with a term that ends on %u: %d would stay\n", (unsigned)moved[1],
           (int)ask(HONECERISE_DATE(2024, 1, 31), moved, 4));

    delete_what_goes(HONECERISE_DATE(2024, 2, 15));
    delete_what_goes(HONECERISE_DATE(2024, 2, 16));
    for (i = 0; i < count; i++)
        printf("for ever: %u\n", (unsigned)copies[i]);
    return 0;
}
