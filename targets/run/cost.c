/*
 * What each call costs on a bare Cortex-M, in instructions: targets/cost runs it in an emulator whose clock
 * goes on by a nanosecond an instruction, and reads the processor's own timer of 25 MHz around each call.
 * One tick is 40 instructions, so a number is right to about that many.
 *
 * Every call is made on the same buffers: they are put back before each.
 */
#include <string.h>

#include "honecerise.h"
#include "port.h"

enum { INODES = 64, BLOCKS = 256, IMAGE_BLOCKS = 256, TIMES = 512, COPIES = 256, TERM_DAYS = 24 };

struct buffers {
    uint8_t store[HONECERISE_STORE_LENGTH(INODES, BLOCKS)];
    uint8_t image[HONECERISE_IMAGE_LENGTH(INODES, IMAGE_BLOCKS)];
    uint8_t desk[HONECERISE_DESK_LENGTH(INODES)];
};
static struct buffers now, before;

#define STORE now.store, sizeof now.store
#define WATCH STORE, now.image, sizeof now.image, now.desk, sizeof now.desk
#define NAME(text) (const uint8_t *)(text), sizeof(text) - 1

static uint8_t bytes[HONECERISE_MAX_FILE];

/* ---- printing */

static void put(const char *text)
{
    port_write((const uint8_t *)text, strlen(text));
}

/* With a comma before each three digits. */
static void put_number(uint32_t n)
{
    char digits[14];
    char *at = digits + sizeof digits - 1;
    unsigned count = 0;
    *at = 0;
    do {
        if (count && count % 3 == 0)
            *--at = ',';
        *--at = (char)('0' + n % 10);
        count++;
    } while ((n /= 10) != 0);
    put(at);
}

/* ---- the timer counts down from its 24-bit most */

enum { MOST = 0xffffff, INSTRUCTIONS_A_TICK = 40 };
#define TIMER ((volatile uint32_t *)0xe000e010)

static uint32_t ticks(int32_t (*call)(void), int32_t *answer)
{
    uint32_t from, to;
    from = TIMER[2];
    *answer = call();
    to = TIMER[2];
    return (from - to) & MOST;
}

static int32_t nothing(void)
{
    return 0;
}

/* Half a million times two instructions: says whether the timer tells the truth. */
static int32_t million(void)
{
    __asm__ volatile("    .syntax unified\n    ldr r3, =500000\n1:  subs r3, #1\n    bne 1b\n" : : : "r3", "cc");
    return 0;
}

/* ---- stores */

static int refused;

static void must(int32_t answer)
{
    refused |= answer < 0;
}

static uint8_t name[] = "run 00";

/* Runs of a size each in a folder. */
static void fill(const char *folder, unsigned runs, unsigned size)
{
    const int32_t directory = honecerise_create_directory(WATCH, 1, (const uint8_t *)folder, strlen(folder));
    unsigned k;
    must(directory);
    for (k = 0; k < runs; k++) {
        int32_t run;
        name[4] = (uint8_t)('0' + k / 10);
        name[5] = (uint8_t)('0' + k % 10);
        run = honecerise_create_file(WATCH, (honecerise_size)directory, name, 6);
        must(run);
        must(honecerise_write(WATCH, (honecerise_size)run, 0, bytes, size));
    }
}

/* A number of two bytes of the store. */
static unsigned number_at(unsigned at)
{
    return now.store[at] | (unsigned)now.store[at + 1] << 8;
}

enum { FREE_INODES = 4, FREE_BLOCKS = 6, SIZE_OF_3 = 16 + 8 * 2 + 4 };

static void lay_out(void)
{
    memset(&now, 0, sizeof now);
    must(honecerise_lay_out_store(STORE, INODES, BLOCKS));
    must(honecerise_lay_out_desk(now.desk, sizeof now.desk, INODES));
}

/* Twelve runs in three folders. */
static void typical(void)
{
    lay_out();
    fill("a", 4, 300);
    fill("b", 4, 450);
    fill("c", 4, 500);
}

/* All but an inode and twelve blocks. */
static void full(void)
{
    lay_out();
    fill("a", 19, 256);
    fill("b", 20, 256);
    fill("c", 20, 150);
    while (number_at(FREE_BLOCKS) > 12)
        must(honecerise_write(WATCH, 3, number_at(SIZE_OF_3), bytes, 64));
}

/* ---- calls: inode 2 is a folder, 3 its first file, whose name is run 00 */

static uint8_t out[HONECERISE_MAX_FILE];

static int32_t check_store(void) { return honecerise_check(0, STORE) - 1; }
static int32_t look_up(void) { return honecerise_look_up(STORE, 2, NAME("run 00")); }
static int32_t look_up_absent(void) { return honecerise_look_up(STORE, 2, NAME("absent")) == -6 ? 0 : -1; }
static int32_t read_block(void) { return honecerise_read(STORE, 3, 0, out, 64); }
static int32_t read_all(void) { return honecerise_read(STORE, 3, 0, out, sizeof out); }
static int32_t create(void) { return honecerise_create_file(WATCH, 2, NAME("new run")); }
static int32_t create_directory(void) { return honecerise_create_directory(WATCH, 1, NAME("new")); }
static int32_t write_over(void) { return honecerise_write(WATCH, 3, 0, bytes, 20); }
static int32_t write_block(void) { return honecerise_write(WATCH, 3, number_at(SIZE_OF_3), bytes, 64); }
static int32_t shorten(void) { return honecerise_shorten(WATCH, 3, 10); }
static int32_t link_run(void) { return honecerise_link(WATCH, 1, NAME("link"), 3); }
static int32_t unlink_run(void) { return honecerise_unlink(WATCH, 2, NAME("run 00")); }
static int32_t rename_within(void) { return honecerise_rename(WATCH, 2, NAME("run 00"), 2, NAME("best")); }
static int32_t rename_new(void) { return honecerise_rename_new(WATCH, 2, NAME("run 00"), 2, NAME("best")); }
static int32_t move_run(void) { return honecerise_rename(WATCH, 2, NAME("run 00"), 1, NAME("best")); }
static int32_t replace_run(void) { return honecerise_rename(WATCH, 2, NAME("run 00"), 2, NAME("run 01")); }
static int32_t start(void) { return honecerise_start(WATCH); }
static int32_t step(void) { return honecerise_step(WATCH); }
static int32_t burst(void) { return honecerise_burst(WATCH, HONECERISE_MOST_BURST); }
static int32_t check_image(void) { return honecerise_check(1, now.image, sizeof now.image) - 1; }
static int32_t state(void)
{
    static honecerise_size n[3];
    return honecerise_state(WATCH, &n[0], &n[1], &n[2]);
}
static int32_t lay_out_store(void) { return honecerise_lay_out_store(STORE, INODES, BLOCKS); }
static int32_t lay_out_desk(void) { return honecerise_lay_out_desk(now.desk, sizeof now.desk, INODES); }

static uint32_t watch[TIMES], mat[TIMES], pw[TIMES], pm[TIMES], aw[TIMES], am[TIMES];
static int32_t laps(void)
{
    return honecerise_match_laps(watch, TIMES, mat, TIMES, pw, TIMES, pm, TIMES, aw, TIMES, am, TIMES);
}

static uint32_t dates[COPIES], terms[TERM_DAYS];
static int32_t keep(void)
{
    return honecerise_keep(dates, COPIES, terms, TERM_DAYS, HONECERISE_DATE(2024, 12, 31), out, sizeof out);
}
static int32_t deal(void) { return honecerise_deal(0xffff, HONECERISE_MOST_TURN, 15, out); }

/* ---- tables */

static uint32_t empty;

/* The call's instructions, on the buffers as they were. */
static uint32_t cost(int32_t (*call)(void))
{
    int32_t answer;
    uint32_t taken;
    memcpy(&now, &before, sizeof now);
    taken = ticks(call, &answer);
    must(answer);
    return (taken - empty) * INSTRUCTIONS_A_TICK;
}

struct row {
    const char *what;
    int32_t (*call)(void);
    /* made while no copy runs, while one does, on a finished copy */
    unsigned idle, running, finished;
};

static const struct row rows[] = {
    { "check of the store", check_store, 1, 1, 0 },
    { "look up, found in the first slot", look_up, 1, 1, 0 },
    { "look up of an absent name", look_up_absent, 1, 1, 0 },
    { "read of 64 bytes", read_block, 1, 1, 0 },
    { "read of a whole file", read_all, 1, 1, 0 },
    { "create a file", create, 1, 1, 0 },
    { "create a directory", create_directory, 1, 1, 0 },
    { "write of 20 bytes over others", write_over, 1, 1, 0 },
    { "write of 64 bytes at the end", write_block, 1, 1, 0 },
    { "shorten", shorten, 1, 1, 0 },
    { "link", link_run, 1, 1, 0 },
    { "unlink, which frees the file", unlink_run, 1, 1, 0 },
    { "rename within a directory", rename_within, 1, 1, 0 },
    { "the recorder's rename within a directory", rename_new, 1, 1, 0 },
    { "move to another directory", move_run, 1, 1, 0 },
    { "rename onto another run, which is freed", replace_run, 1, 1, 0 },
    { "state", state, 1, 1, 0 },
    { "start", start, 1, 0, 0 },
    { "step that copies a block", step, 0, 1, 0 },
    { "burst of 64 steps", burst, 0, 1, 0 },
    { "check of the finished image", check_image, 0, 0, 1 },
};
enum { ROWS = sizeof rows / sizeof rows[0] };

static uint32_t costs[ROWS][4];

/* A copy that runs, with the first folder copied and a later file locked and begun: no call above meets the lock. */
static void run_copy(void)
{
    static honecerise_size n[3];
    must(honecerise_start(WATCH));
    do {
        must(honecerise_step(WATCH));
        must(honecerise_state(WATCH, &n[0], &n[1], &n[2]));
    } while (n[1] < 9 || now.desk[8] == 0);
}

static void measure(const char *what, void (*make)(void), unsigned column)
{
    unsigned k;
    make();
    put(what);
    put(": ");
    put_number(INODES - number_at(FREE_INODES));
    put(" of 64 inodes and ");
    put_number(BLOCKS - number_at(FREE_BLOCKS));
    put(" of 256 blocks are used\n");
    before = now;
    for (k = 0; k < ROWS; k++)
        if (rows[k].idle)
            costs[k][column] = cost(rows[k].call);
    now = before;
    run_copy();
    before = now;
    for (k = 0; k < ROWS; k++)
        if (rows[k].running)
            costs[k][column + 1] = cost(rows[k].call);
    now = before;
    while (honecerise_burst(WATCH, HONECERISE_MOST_BURST) > 0)
        ;
    before = now;
    for (k = 0; k < ROWS; k++)
        if (rows[k].finished)
            costs[k][column] = cost(rows[k].call);
}

static void put_cell(uint32_t n)
{
    put(" | ");
    if (n)
        put_number(n);
    else
        put("–");
}

static void put_row(const char *what, int32_t (*call)(void))
{
    put("| ");
    put(what);
    put_cell(cost(call));
    put(" |\n");
}

int main(void)
{
    int32_t answer;
    unsigned k, c;
    TIMER[1] = MOST;
    TIMER[2] = 0;
    TIMER[0] = 5; /* on, by the processor's clock, no interrupt */
    for (k = 0; k < sizeof bytes; k++)
        bytes[k] = (uint8_t)(1 + k % 255);
    empty = ticks(nothing, &answer);
    put("a loop of 1,000,000 instructions: ");
    put_number((ticks(million, &answer) - empty) * INSTRUCTIONS_A_TICK);
    put("\n");
    measure("typical", typical, 0);
    measure("full", full, 2);
    put("\n| call | typical | typical, copied | full | full, copied |\n|---|---|---|---|---|\n");
    for (k = 0; k < ROWS; k++) {
        put("| ");
        put(rows[k].what);
        for (c = 0; c < 4; c++)
            put_cell(costs[k][c]);
        put(" |\n");
    }
    for (k = 0; k < TIMES; k++) {
        watch[k] = 60 * k;
        mat[k] = 60 * k + 30;
    }
    for (k = 0; k < TERM_DAYS; k++)
        terms[k] = HONECERISE_DATE(2024, k / 2 + 1, k % 2 ? 28 : 1);
    for (k = 0; k < COPIES; k++)
        dates[k] = HONECERISE_DATE(2024, k % 12 + 1, k / 12 % 21 + 1);
    put("\n| call | |\n|---|---|\n");
    put_row("lay out the store", lay_out_store);
    put_row("lay out the desk", lay_out_desk);
    put_row("laps: 512 and 512 times, all pair", laps);
    put_row("copies: 256, twelve terms", keep);
    put_row("a turn of 64 steps, sixteen bays", deal);
    if (refused)
        put("\nA call was refused: what stands above is not what it costs.\n");
    return refused;
}
