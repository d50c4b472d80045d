/*
 * What include/honecerise.h says of buffers, tried on the library.
 *
 * - The names of refusals and limits stand for the paper's numbers (paper.h, when it is compiled).
 * - A buffer of length 0 may be NULL: each slice of each call in turn, with no copy running and
 *   with one.
 * - Nothing outside of a buffer is touched: buffers that begin or end at a page that may not be
 *   touched, with whole copies taken on them, by single steps and by bursts.
 * - A burst has 1 to 64 steps, whatever else is wrong but a buffer's length.
 * - A turn of a charging case has 1 to 64 steps and a last bay from 0 to 15, and its counts are written
 *   in every case.
 * - Lists of laps are tested before the lists that the report goes to, and nothing is written if one
 *   is refused.
 * - A case has at most 256 copies and twelve terms; dates are tested before terms, and these before the
 *   day asked; nothing is written if one is refused.
 */
#define _DEFAULT_SOURCE
#include <stdio.h>
#include <stdlib.h>
#include <string.h>
#include <sys/mman.h>
#include <unistd.h>

#include "honecerise.h"
#include "paper.h"

static uint8_t *store, *image, *desk;
static size_t store_length, image_length, desk_length;

#define STORE store, store_length
#define IMAGE image, image_length
#define DESK desk, desk_length
#define NONE NULL, 0
static const uint8_t lap[200] = "71.2 70.8 72.0 69.9";
#define NAME(text) (const uint8_t *)(text), strlen(text)

/* What a number of 32 bits would cut to 0. */
#define BEYOND (UINT64_C(1) << 32)

static unsigned tried;

static void same(const char *what, int32_t expected, int32_t answer)
{
    tried++;
    if (answer != expected) {
        printf("%s: answered %d, not %d\n", what, (int)answer, (int)expected);
        exit(1);
    }
}
#define IS(expected, call) same(#call, expected, call)

static void accepted(const char *what, int32_t answer)
{
    same(what, 0, answer < 0 ? answer : 0);
}
#define TAKEN(call) accepted(#call, call)

/* ---- empty buffers without an address */

static void null_store(honecerise_size *n)
{
    IS(-1, honecerise_lay_out_store(NONE, 16, 64));
    IS(-1, honecerise_lay_out_desk(NONE, 16));
    IS(0, honecerise_check(0, NONE));
    IS(0, honecerise_check(1, NONE));
    IS(-1, honecerise_look_up(NONE, 1, NAME("a")));
    IS(-1, honecerise_read(NONE, 2, 0, NONE));
    IS(-1, honecerise_create_file(NONE, IMAGE, DESK, 1, NAME("z")));
    IS(-1, honecerise_create_directory(NONE, IMAGE, DESK, 1, NAME("z")));
    IS(-1, honecerise_write(NONE, IMAGE, DESK, 2, 0, NAME("z")));
    IS(-1, honecerise_shorten(NONE, IMAGE, DESK, 2, 0));
    IS(-1, honecerise_link(NONE, IMAGE, DESK, 1, NAME("z"), 2));
    IS(-1, honecerise_unlink(NONE, IMAGE, DESK, 1, NAME("a")));
    IS(-1, honecerise_rename(NONE, IMAGE, DESK, 1, NAME("a"), 1, NAME("z")));
    IS(-1, honecerise_rename_new(NONE, IMAGE, DESK, 1, NAME("a"), 1, NAME("z")));
    IS(-1, honecerise_start(NONE, IMAGE, DESK));
    IS(-1, honecerise_step(NONE, IMAGE, DESK));
    IS(-1, honecerise_burst(NONE, IMAGE, DESK, 1));
    IS(-1, honecerise_burst(NONE, IMAGE, DESK, 0));
    IS(-1, honecerise_state(NONE, IMAGE, DESK, n, n + 1, n + 2));
    IS(-1, honecerise_state(NONE, NONE, NONE, n, n + 1, n + 2));
}

static void null_desk(honecerise_size *n)
{
    IS(-1, honecerise_create_file(STORE, IMAGE, NONE, 1, NAME("z")));
    IS(-1, honecerise_create_directory(STORE, IMAGE, NONE, 1, NAME("z")));
    IS(-1, honecerise_write(STORE, IMAGE, NONE, 2, 0, NAME("z")));
    IS(-1, honecerise_shorten(STORE, IMAGE, NONE, 2, 0));
    IS(-1, honecerise_link(STORE, IMAGE, NONE, 1, NAME("z"), 2));
    IS(-1, honecerise_unlink(STORE, IMAGE, NONE, 1, NAME("a")));
    IS(-1, honecerise_rename(STORE, IMAGE, NONE, 1, NAME("a"), 1, NAME("z")));
    IS(-1, honecerise_rename_new(STORE, IMAGE, NONE, 1, NAME("a"), 1, NAME("z")));
    IS(-1, honecerise_start(STORE, IMAGE, NONE));
    IS(-1, honecerise_step(STORE, IMAGE, NONE));
    IS(-1, honecerise_burst(STORE, IMAGE, NONE, 1));
    IS(-1, honecerise_burst(STORE, IMAGE, NONE, 65));
    IS(-1, honecerise_state(STORE, IMAGE, NONE, n, n + 1, n + 2));
}

/* While a copy runs an empty image is not the one that it began on; else no call but start looks. */
static void null_image(honecerise_size *n, int running)
{
    const int32_t off = running ? -3 : 0;
    IS(running ? -3 : 4, honecerise_create_file(STORE, NONE, DESK, 1, NAME("x")));
    IS(running ? -3 : 5, honecerise_create_directory(STORE, NONE, DESK, 1, NAME("y")));
    IS(running ? -3 : 3, honecerise_write(STORE, NONE, DESK, 4, 0, NAME("abc")));
    IS(running ? -3 : 2, honecerise_shorten(STORE, NONE, DESK, 4, 2));
    IS(off, honecerise_link(STORE, NONE, DESK, 1, NAME("l"), 4));
    IS(running ? -3 : -7, honecerise_rename_new(STORE, NONE, DESK, 1, NAME("l"), 1, NAME("X")));
    IS(off, honecerise_rename_new(STORE, NONE, DESK, 1, NAME("l"), 5, NAME("n")));
    IS(off, honecerise_link(STORE, NONE, DESK, 1, NAME("l"), 2));
    IS(off, honecerise_rename(STORE, NONE, DESK, 5, NAME("n"), 1, NAME("l")));
    IS(off, honecerise_rename(STORE, NONE, DESK, 1, NAME("l"), 5, NAME("m")));
    IS(off, honecerise_unlink(STORE, NONE, DESK, 5, NAME("m")));
    IS(off, honecerise_unlink(STORE, NONE, DESK, 1, NAME("y")));
    IS(off, honecerise_unlink(STORE, NONE, DESK, 1, NAME("x")));
    IS(-1, honecerise_start(STORE, NONE, DESK));
    IS(running ? -3 : -15, honecerise_step(STORE, NONE, DESK));
    IS(running ? -3 : -15, honecerise_burst(STORE, NONE, DESK, 1));
    IS(-17, honecerise_burst(STORE, NONE, DESK, 0));
    IS(off, honecerise_state(STORE, NONE, DESK, n, n + 1, n + 2));
}

static void null_names(int32_t size)
{
    IS(-4, honecerise_look_up(STORE, 1, NONE));
    IS(0, honecerise_read(STORE, 2, 0, NONE));
    IS(0, honecerise_read(STORE, 2, (size_t)size, NONE));
    IS(-4, honecerise_create_file(STORE, IMAGE, DESK, 1, NONE));
    IS(-4, honecerise_create_directory(STORE, IMAGE, DESK, 1, NONE));
    IS(size, honecerise_write(STORE, IMAGE, DESK, 2, 0, NONE));
    IS(size, honecerise_write(STORE, IMAGE, DESK, 2, (size_t)size, NONE));
    IS(-4, honecerise_link(STORE, IMAGE, DESK, 1, NONE, 2));
    IS(-4, honecerise_unlink(STORE, IMAGE, DESK, 1, NONE));
    IS(-4, honecerise_rename(STORE, IMAGE, DESK, 1, NONE, 1, NAME("z")));
    IS(-4, honecerise_rename(STORE, IMAGE, DESK, 1, NAME("a"), 1, NONE));
    IS(-4, honecerise_rename(STORE, IMAGE, DESK, 1, NONE, 1, NONE));
    IS(-4, honecerise_rename_new(STORE, IMAGE, DESK, 1, NONE, 1, NAME("z")));
    IS(-4, honecerise_rename_new(STORE, IMAGE, DESK, 1, NAME("a"), 1, NONE));
    IS(-4, honecerise_rename_new(STORE, IMAGE, DESK, 1, NONE, 1, NONE));
}

/* Numbers are never cut, whatever a machine's own width is. */
static void wide_numbers(void)
{
    IS(-1, honecerise_lay_out_store(STORE, BEYOND + 16, 64));
    IS(-1, honecerise_lay_out_store(STORE, 16, BEYOND + 64));
    IS(-1, honecerise_lay_out_desk(DESK, BEYOND + 16));
    IS(-5, honecerise_look_up(STORE, BEYOND + 1, NAME("a")));
    IS(-5, honecerise_read(STORE, BEYOND + 2, 0, NONE));
    IS(-9, honecerise_read(STORE, 2, BEYOND, NONE));
    IS(-5, honecerise_create_file(STORE, IMAGE, DESK, BEYOND + 1, NAME("w")));
    IS(-5, honecerise_write(STORE, IMAGE, DESK, BEYOND + 2, 0, NONE));
    IS(-9, honecerise_write(STORE, IMAGE, DESK, 2, BEYOND, NONE));
    IS(-9, honecerise_shorten(STORE, IMAGE, DESK, 2, BEYOND));
    IS(-5, honecerise_link(STORE, IMAGE, DESK, 1, NAME("w"), BEYOND + 2));
    IS(-5, honecerise_rename(STORE, IMAGE, DESK, BEYOND + 1, NAME("a"), 1, NAME("d")));
    IS(-5, honecerise_rename(STORE, IMAGE, DESK, 1, NAME("a"), BEYOND + 1, NAME("d")));
    IS(-5, honecerise_rename_new(STORE, IMAGE, DESK, BEYOND + 1, NAME("a"), 1, NAME("w")));
    IS(-5, honecerise_rename_new(STORE, IMAGE, DESK, 1, NAME("a"), BEYOND + 1, NAME("w")));
}

static void nulls(void)
{
    honecerise_size n[3] = { 7, 7, 7 };
    int running;
    TAKEN(honecerise_lay_out_store(STORE, 16, 64));
    TAKEN(honecerise_lay_out_desk(DESK, 16));
    IS(2, honecerise_create_file(STORE, IMAGE, DESK, 1, NAME("a")));
    IS(70, honecerise_write(STORE, IMAGE, DESK, 2, 0, lap, 70));
    IS(3, honecerise_create_directory(STORE, IMAGE, DESK, 1, NAME("d")));
    for (running = 0; running < 2; running++) {
        if (running)
            TAKEN(honecerise_start(STORE, IMAGE, DESK));
        n[0] = n[1] = n[2] = 7;
        null_store(n);
        null_desk(n);
        if (n[0] != 7 || n[1] != 7 || n[2] != 7)
            same("a refused state leaves its numbers", 0, 1);
        null_image(n, running);
        null_names(70);
        wide_numbers();
    }
}

/* ---- buffers between pages that may not be touched */

static uint8_t *fenced(size_t length, int at_end)
{
    const size_t page = (size_t)sysconf(_SC_PAGESIZE);
    const size_t room = (length + page - 1) / page * page;
    uint8_t *all = (uint8_t *)mmap(NULL, room + 2 * page, PROT_READ | PROT_WRITE,
                                   MAP_PRIVATE | MAP_ANONYMOUS, -1, 0);
    if (all == MAP_FAILED || mprotect(all, page, PROT_NONE) || mprotect(all + page + room, page, PROT_NONE)) {
        printf("no memory\n");
        exit(1);
    }
    return all + page + (at_end ? room - length : 0);
}

static void lend(size_t inodes, size_t blocks, size_t image_blocks, int at_end)
{
    store_length = HONECERISE_STORE_LENGTH(inodes, blocks);
    image_length = HONECERISE_IMAGE_LENGTH(inodes, image_blocks);
    desk_length = HONECERISE_DESK_LENGTH(inodes);
    store = fenced(store_length, at_end);
    image = fenced(image_length, at_end);
    desk = fenced(desk_length, at_end);
}

/* A step, or a burst of so many. */
static int32_t step_by(size_t count)
{
    return count ? honecerise_burst(STORE, IMAGE, DESK, count) : honecerise_step(STORE, IMAGE, DESK);
}

/* Files until the store is full, in the root and a folder, then copies with changes in between:
 * files grow to the limit and are cut, past the edge of 768 bytes both ways. */
static void copy_all(size_t inodes, size_t blocks)
{
    const size_t most = HONECERISE_MAX_FILE;
    uint8_t *name = fenced(14, 1), *bytes = fenced(most, 1), *out = fenced(most, 1);
    honecerise_size n[3];
    size_t i, length, folder = 1, count;
    int32_t made;
    memset(bytes, 'b', most);
    TAKEN(honecerise_lay_out_store(STORE, inodes, blocks));
    TAKEN(honecerise_lay_out_desk(DESK, inodes));
    for (i = 0; i < inodes; i++) {
        memcpy(name, "run 0000000000", 14);
        name[12] = (uint8_t)('A' + i / 16);
        name[13] = (uint8_t)('A' + i % 16);
        length = 1 + 192 * i % most;
        made = i % 20 == 0 ? honecerise_create_directory(STORE, IMAGE, DESK, 1, name, 14)
                           : honecerise_create_file(STORE, IMAGE, DESK, folder, name, 14);
        if (made > 0 && i % 20 == 0)
            folder = (size_t)made;
        else if (made > 0)
            honecerise_write(STORE, IMAGE, DESK, (size_t)made, 0, bytes + most - length, length);
    }
    for (count = 0; count <= HONECERISE_MOST_BURST; count += 32) {
        TAKEN(honecerise_start(STORE, IMAGE, DESK));
        for (i = 0; step_by(count) > 0; i++) {
            honecerise_rename(STORE, IMAGE, DESK, folder, name, 14, 1, NAME("moved"));
            honecerise_write(STORE, IMAGE, DESK, 1 + i % inodes, 0, bytes, most);
            honecerise_read(STORE, 1 + i % inodes, 0, out, most);
            honecerise_shorten(STORE, IMAGE, DESK, 1 + (i + 1) % inodes, 700 + i % 70);
            honecerise_rename_new(STORE, IMAGE, DESK, 1, NAME("moved"), folder, name, 14);
            honecerise_link(STORE, IMAGE, DESK, 1, NAME("held"), 2 + i % inodes);
            honecerise_rename(STORE, IMAGE, DESK, folder, name, 14, 1, NAME("held"));
            honecerise_rename(STORE, IMAGE, DESK, 1, NAME("held"), folder, name, 14);
        }
        IS(0, honecerise_state(STORE, IMAGE, DESK, n, n + 1, n + 2));
        IS(2, (int32_t)n[0]);
        IS(1, honecerise_check(0, STORE));
        IS(1, honecerise_check(1, IMAGE));
    }
}

/* ---- renames onto a taken name */

static void replaced(void)
{
    TAKEN(honecerise_lay_out_store(STORE, 16, 64));
    TAKEN(honecerise_lay_out_desk(DESK, 16));
    IS(2, honecerise_create_file(STORE, IMAGE, DESK, 1, NAME("a")));
    IS(3, honecerise_create_directory(STORE, IMAGE, DESK, 1, NAME("d")));
    IS(4, honecerise_create_file(STORE, IMAGE, DESK, 3, NAME("b")));
    IS(5, honecerise_create_directory(STORE, IMAGE, DESK, 1, NAME("e")));
    IS(-7, honecerise_rename_new(STORE, IMAGE, DESK, 3, NAME("b"), 1, NAME("A")));
    IS(-7, honecerise_rename_new(STORE, IMAGE, DESK, 1, NAME("a"), 1, NAME("e")));
    IS(-8, honecerise_rename(STORE, IMAGE, DESK, 1, NAME("a"), 1, NAME("d")));
    IS(-8, honecerise_rename(STORE, IMAGE, DESK, 1, NAME("e"), 1, NAME("d")));
    IS(-10, honecerise_rename(STORE, IMAGE, DESK, 1, NAME("d"), 3, NAME("b")));
    IS(-18, honecerise_rename(STORE, IMAGE, DESK, 1, NAME("a"), 1, NAME("e")));
    IS(-18, honecerise_rename(STORE, IMAGE, DESK, 1, NAME("e"), 3, NAME("b")));
    IS(0, honecerise_rename(STORE, IMAGE, DESK, 3, NAME("b"), 1, NAME("A")));
    IS(4, honecerise_look_up(STORE, 1, NAME("a")));
    IS(0, honecerise_rename(STORE, IMAGE, DESK, 1, NAME("e"), 1, NAME("d")));
    IS(5, honecerise_look_up(STORE, 1, NAME("d")));
    /* both are free again */
    IS(2, honecerise_create_file(STORE, IMAGE, DESK, 1, NAME("f")));
    IS(3, honecerise_create_file(STORE, IMAGE, DESK, 1, NAME("g")));
    /* one name lent twice, to the same entry or to another */
    IS(0, honecerise_rename(STORE, IMAGE, DESK, 1, NAME("f"), 1, NAME("f")));
    IS(0, honecerise_rename_new(STORE, IMAGE, DESK, 1, NAME("f"), 1, NAME("f")));
    IS(0, honecerise_link(STORE, IMAGE, DESK, 5, NAME("f"), 3));
    IS(0, honecerise_rename(STORE, IMAGE, DESK, 1, NAME("f"), 5, NAME("f")));
    IS(2, honecerise_look_up(STORE, 5, NAME("f")));
    IS(1, honecerise_check(0, STORE));
}

/* ---- how many steps a burst may have */

static void bad_counts(void)
{
    IS(-17, honecerise_burst(STORE, IMAGE, DESK, 0));
    IS(-17, honecerise_burst(STORE, IMAGE, DESK, HONECERISE_MOST_BURST + 1));
    IS(-17, honecerise_burst(STORE, IMAGE, DESK, UINT64_MAX));
    IS(-17, honecerise_burst(STORE, IMAGE, DESK, UINT64_MAX / 2 + 2));
    IS(-17, honecerise_burst(STORE, IMAGE, DESK, BEYOND + 1));
}

/* A copy of 68 steps: the root in 3, the long file in 46, the other in 18, the finish. */
static void counts(void)
{
    uint8_t bytes[HONECERISE_MAX_FILE] = { 1 };
    TAKEN(honecerise_lay_out_store(STORE, 16, 64));
    TAKEN(honecerise_lay_out_desk(DESK, 16));
    IS(2, honecerise_create_file(STORE, IMAGE, DESK, 1, NAME("a")));
    IS(3, honecerise_create_file(STORE, IMAGE, DESK, 1, NAME("b")));
    IS(2752, honecerise_write(STORE, IMAGE, DESK, 2, 0, bytes, sizeof bytes));
    IS(900, honecerise_write(STORE, IMAGE, DESK, 3, 0, bytes, 900));
    bad_counts();
    IS(-15, honecerise_burst(STORE, IMAGE, DESK, 1));
    IS(-15, honecerise_burst(STORE, IMAGE, DESK, HONECERISE_MOST_BURST));
    TAKEN(honecerise_start(STORE, IMAGE, DESK));
    bad_counts();
    IS(1, honecerise_burst(STORE, IMAGE, DESK, 1));
    IS(64, honecerise_burst(STORE, IMAGE, DESK, HONECERISE_MOST_BURST));
    store[9] = 1; /* no sound store: 17 is looked at before it */
    bad_counts();
    IS(-2, honecerise_burst(STORE, IMAGE, DESK, 1));
    store[9] = 0;
    IS(3, honecerise_burst(STORE, IMAGE, DESK, HONECERISE_MOST_BURST));
    IS(1, honecerise_check(1, IMAGE));
    IS(-15, honecerise_burst(STORE, IMAGE, DESK, 1));
}

/* ---- what a turn may be told */

static void turns(int at_end)
{
    static const uint8_t none[HONECERISE_BAYS] = { 0 };
    static const uint8_t three[HONECERISE_BAYS] = { 2, 0, 0, 0, 0, 0, 0, 0, 0, 0, 0, 0, 0, 0, 0, 1 };
    static const honecerise_size refused[][2] = { { 0, 0 }, { 65, 0 }, { 1, 16 }, { 257, 272 },
                                                  { UINT64_MAX, 0 }, { 1, UINT64_MAX },
                                                  { BEYOND + 1, 0 }, { 1, BEYOND } };
    uint8_t *counts = fenced(HONECERISE_BAYS, at_end);
    size_t i;
    for (i = 0; i < sizeof refused / sizeof refused[0]; i++) {
        memset(counts, 7, HONECERISE_BAYS);
        IS(-21, honecerise_deal(0xffff, refused[i][0], refused[i][1], counts));
        IS(0, memcmp(counts, none, HONECERISE_BAYS));
    }
    memset(counts, 7, HONECERISE_BAYS);
    IS(9, honecerise_deal(0, HONECERISE_MOST_TURN, 9, counts));
    IS(0, memcmp(counts, none, HONECERISE_BAYS));
    IS(0, honecerise_deal(0x8001, 3, 15, counts));
    IS(0, memcmp(counts, three, HONECERISE_BAYS));
}

/* ---- laps against the mat */

enum { TIMES = HONECERISE_MAX_TIMES };

static uint32_t *times_fenced(size_t count, int at_end)
{
    return (uint32_t *)(void *)fenced(count * sizeof(uint32_t), at_end);
}

/* How many places hold 7 in all four lists. */
static int sevens(const uint32_t *pw, const uint32_t *pm, const uint32_t *aw, const uint32_t *am)
{
    int i, count = 0;
    for (i = 0; i < TIMES; i++)
        count += pw[i] == 7 && pm[i] == 7 && aw[i] == 7 && am[i] == 7;
    return count;
}

#define LAPS(w, wn, m, mn) honecerise_match_laps(w, wn, m, mn, pw, TIMES, pm, TIMES, aw, TIMES, am, TIMES)

/* Full lists of laps and full reports, between pages that may not be touched. */
static void laps(int at_end)
{
    uint32_t *watch = times_fenced(TIMES, at_end), *mat = times_fenced(TIMES, at_end);
    uint32_t *pw = times_fenced(TIMES, at_end), *pm = times_fenced(TIMES, at_end);
    uint32_t *aw = times_fenced(TIMES, at_end), *am = times_fenced(TIMES, at_end);
    uint32_t more[TIMES + 1], few[2] = { 7, 7 };
    size_t i;
    for (i = 0; i <= TIMES; i++)
        more[i] = 60 * (uint32_t)i;
    memcpy(watch, more, TIMES * sizeof *watch);
    for (i = 0; i < TIMES; i++)
        mat[i] = watch[i] + (i % 2 ? 50 : 30);
    IS(TIMES, LAPS(watch, TIMES, mat, TIMES));
    IS(0, memcmp(pw, watch, TIMES * sizeof *pw));
    IS(0, memcmp(pm, mat, TIMES * sizeof *pm));
    for (i = 0; i < TIMES; i++)
        mat[i] = 1000000 + (uint32_t)i;
    IS(0, LAPS(watch, TIMES, mat, TIMES));
    IS(0, memcmp(aw, watch, TIMES * sizeof *aw));
    IS(0, memcmp(am, mat, TIMES * sizeof *am));
    IS(0, honecerise_match_laps(NONE, NONE, NONE, NONE, NONE, NONE));
    IS(0, honecerise_match_laps(NONE, mat, 1, NONE, pm, 1, NONE, am, 1));
    IS(0, honecerise_match_laps(watch, 1, NONE, pw, 1, NONE, aw, 1, NONE));
    IS(-26, honecerise_match_laps(more, TIMES + 1, NONE, NONE, NONE, NONE, NONE));
    IS(-26, honecerise_match_laps(NONE, few, 2, NONE, pm, 2, NONE, am, 2));
    for (i = 0; i < TIMES; i++)
        pw[i] = pm[i] = aw[i] = am[i] = 7;
    IS(-26, LAPS(more, TIMES + 1, mat, TIMES));
    IS(-26, LAPS(watch, TIMES, few, 2));
    few[0] = 0;
    IS(-1, honecerise_match_laps(few, 2, NONE, pw, 1, NONE, aw, 2, NONE));
    IS(-1, honecerise_match_laps(few, 2, NONE, pw, 2, NONE, aw, 1, NONE));
    IS(-1, honecerise_match_laps(NONE, few, 2, NONE, pm, 1, NONE, am, 2));
    IS(-1, honecerise_match_laps(NONE, few, 2, NONE, pm, 2, NONE, am, 1));
    IS(TIMES, sevens(pw, pm, aw, am));
}

/* ---- which copies to keep */

enum { COPIES = HONECERISE_MAX_COPIES, TERM_DAYS = 2 * HONECERISE_MAX_TERMS };

/* Full lists, between pages that may not be touched. */
static void copies(int at_end)
{
    uint32_t *dates = times_fenced(COPIES, at_end), *terms = times_fenced(TERM_DAYS, at_end);
    uint8_t *out = fenced(COPIES, at_end);
    uint32_t more[COPIES + 1], long_terms[TERM_DAYS + 2];
    const uint32_t asked = HONECERISE_DATE(2024, 12, 31);
    size_t i, nines = 0;
    /* a term each month, and copies on its first 21 days */
    for (i = 0; i < TERM_DAYS; i++)
        terms[i] = HONECERISE_DATE(2024, i / 2 + 1, i % 2 ? 28 : 1);
    for (i = 0; i < COPIES; i++)
        dates[i] = HONECERISE_DATE(2024, i % 12 + 1, i / 12 % 21 + 1);
    for (i = 0; i <= COPIES; i++)
        more[i] = asked;
    for (i = 0; i < TERM_DAYS + 2; i++)
        long_terms[i] = i < TERM_DAYS ? terms[i] : asked;
#define KEEP(n, t, day) honecerise_keep(dates, n, terms, t, day, out, COPIES)
    memset(out, 9, COPIES);
    /* the last of each term, of each week in November's and December's, and three young ones more */
    IS(21, KEEP(COPIES, TERM_DAYS, asked));
    for (i = 0; i < COPIES; i++)
        nines += out[i] > 1;
    IS(0, (int32_t)nines);
    IS(0, honecerise_keep(NONE, NONE, asked, NONE));
    IS(1, honecerise_keep(more, COPIES, NONE, asked, out, COPIES));
    IS(1, out[COPIES - 1]);
    memset(out, 9, COPIES);
    IS(-1, honecerise_keep(more, COPIES + 1, NONE, asked, out, COPIES));
    IS(-1, honecerise_keep(dates, COPIES, NONE, asked, out, COPIES - 1));
    IS(-1, honecerise_keep(dates, COPIES, long_terms, TERM_DAYS + 2, asked, out, COPIES));
    IS(-1, KEEP(COPIES, 3, asked));
    IS(-23, KEEP(COPIES, TERM_DAYS, HONECERISE_DATE(2023, 2, 29)));
    IS(-23, KEEP(COPIES, TERM_DAYS, UINT32_MAX));
    dates[COPIES - 1] = 0;
    IS(-23, KEEP(COPIES, TERM_DAYS, asked));
    IS(12, KEEP(12, TERM_DAYS, asked));
    memset(out, 9, COPIES);
    terms[2] = terms[1];
    IS(-24, KEEP(COPIES - 1, TERM_DAYS, terms[0]));
    terms[2] = terms[1] + 1;
    IS(-25, KEEP(COPIES - 1, TERM_DAYS, terms[0]));
    for (i = nines = 0; i < COPIES; i++)
        nines += out[i] == 9;
    IS(COPIES, (int32_t)nines);
}

int main(void)
{
    int at_end;
    for (at_end = 0; at_end < 2; at_end++) {
        lend(1, 1, 1, at_end);
        copy_all(1, 1);
        lend(21, 100, HONECERISE_ENOUGH_IMAGE(21), at_end);
        copy_all(21, 100);
        lend(256, 1024, 4096, at_end);
        copy_all(256, 1024);
        lend(16, 64, 704, at_end);
        nulls();
        replaced();
        counts();
        turns(at_end);
        laps(at_end);
        copies(at_end);
    }
    printf("edges: %u answers as expected\n", tried);
    return 0;
}
