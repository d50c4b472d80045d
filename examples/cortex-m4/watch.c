/*
 * A watch on a bare Cortex-M4: it records two runs, is copied while the second one is still being
 * recorded and the first one takes the place of yesterday's best, and prints the copy over semihosting.
 * No operating system, no heap, no printf.
 *
 *     targets/build cortex-m4
 *     cd examples/cortex-m4
 *     arm-none-eabi-gcc -std=c99 -mcpu=cortex-m4 -mthumb -Os -ffunction-sections -nostartfiles \
 *         -Wl,--gc-sections,--no-warn-execstack -T link.ld -I../../include watch.c start.c semihosting.c \
 *         ../../target/cortex-m4/libhonecerise.a -o watch.elf
 *     qemu-system-arm -M mps2-an386 -nographic -monitor none -serial none -chardev stdio,id=out \
 *         -semihosting-config enable=on,target=native,chardev=out -kernel watch.elf
 *
 * It prints where it had to wait for the copier, then the image: its inodes, blocks, free inodes,
 * free blocks and steps, and of each entry directory, slot, inode, kind, size, links and name.
 */
#include <string.h>

#include "honecerise.h"
#include "honecerise_list.h"
#include "semihosting.h"

enum { INODES = 64, BLOCKS = 256, IMAGE_BLOCKS = BLOCKS };

static uint8_t store[HONECERISE_STORE_LENGTH(INODES, BLOCKS)];
static uint8_t image[HONECERISE_IMAGE_LENGTH(INODES, IMAGE_BLOCKS)];
static uint8_t desk[HONECERISE_DESK_LENGTH(INODES)];

#define WATCH store, sizeof store, image, sizeof image, desk, sizeof desk
#define TEXT(text) (const uint8_t *)(text), strlen(text)

/* ---- printing */

static void print_number(unsigned n)
{
    char digits[11];
    char *at = digits + sizeof digits - 1;
    *at = 0;
    do
        *--at = (char)('0' + n % 10);
    while ((n /= 10) != 0);
    semihosting_print(at);
}

/* Numbers, with a space between two. */
static void print_numbers(const unsigned *numbers, size_t count)
{
    size_t i;
    for (i = 0; i < count; i++) {
        if (i > 0)
            semihosting_print(" ");
        print_number(numbers[i]);
    }
}

/* ---- recording */

/* An answer that must not be a refusal. */
static unsigned done(const char *what, int32_t answer)
{
    if (answer < 0) {
        semihosting_print(what);
        semihosting_print(": refused with ");
        print_number((unsigned)-answer);
        semihosting_print("\n");
        semihosting_exit(1);
    }
    return (unsigned)answer;
}

static int running(honecerise_size *steps)
{
    honecerise_size state, locked;
    done("state", honecerise_state(WATCH, &state, &locked, steps));
    return state == HONECERISE_RUNNING;
}

/* A lap is recorded as soon as the copier lets go of the run: 14 says that it has it just now. */
static void record(unsigned run, unsigned offset, const char *lap)
{
    int32_t answer = honecerise_write(WATCH, run, offset, TEXT(lap));
    while (answer == -HONECERISE_BUSY) {
        semihosting_print("busy with the run, one step on\n");
        done("step", honecerise_step(WATCH));
        answer = honecerise_write(WATCH, run, offset, TEXT(lap));
    }
    done("write", answer);
}

/* ---- listing */

static void list(const uint8_t *bytes, honecerise_size steps)
{
    const unsigned counts[5] = { honecerise_inodes(bytes), honecerise_blocks(bytes),
                                 honecerise_free_inodes(bytes), honecerise_free_blocks(bytes),
                                 (unsigned)steps };
    unsigned directory, slot;
    struct honecerise_entry e;
    semihosting_print("image ");
    print_numbers(counts, 5);
    semihosting_print("\n");
    for (directory = 1; directory <= honecerise_inodes(bytes); directory++)
        for (slot = 0; slot < honecerise_slots(bytes, directory); slot++)
            if (honecerise_entry_at(bytes, directory, slot, &e)) {
                const unsigned where[3] = { directory, slot, e.inode };
                const unsigned size[2] = { e.size, e.links };
                print_numbers(where, 3);
                semihosting_print(e.kind == HONECERISE_DIRECTORY ? " d " : " f ");
                print_numbers(size, 2);
                semihosting_print(" ");
                semihosting_print(e.name);
                semihosting_print("\n");
            }
}

static void print_run(const char *where, const uint8_t *bytes, unsigned run)
{
    static char text[HONECERISE_MAX_FILE + 1];
    const size_t size = honecerise_file_bytes(bytes, run, 0, (uint8_t *)text, HONECERISE_MAX_FILE);
    text[size] = 0;
    semihosting_print(where);
    semihosting_print(text);
    semihosting_print("\n");
}

int main(void)
{
    unsigned laps, first, second, best;
    honecerise_size steps = 0;

    done("lay out", honecerise_lay_out_store(store, sizeof store, INODES, BLOCKS));
    done("lay out", honecerise_lay_out_desk(desk, sizeof desk, INODES));

    /* two runs in a folder */
    laps = done("create", honecerise_create_directory(WATCH, HONECERISE_ROOT, TEXT("laps")));
    first = done("create", honecerise_create_file(WATCH, laps, TEXT("run1")));
    record(first, 0, "71.2 70.8 72.0 69.9");
    second = done("create", honecerise_create_file(WATCH, laps, TEXT("run2")));
    record(second, 0, "68.4 ");
    best = done("create", honecerise_create_file(WATCH, laps, TEXT("best")));
    record(best, 0, "72.5 71.9 73.0 70.8");

    /* the copy: one step for each turn of the watch's loop, and the pupil goes on meanwhile */
    done("start", honecerise_start(WATCH));
    while (steps < 10) {
        steps = done("step", honecerise_step(WATCH));
        if (steps == 5)
            record(second, 5, "67.9 ");
        if (steps == 8) {
            /* the recorder's own call keeps what has the name; the phone app's replaces it */
            if (honecerise_rename_new(WATCH, laps, TEXT("run1"), laps, TEXT("best")) == -HONECERISE_NAME_TAKEN)
                semihosting_print("the recorder leaves yesterday's best\n");
            done("rename", honecerise_rename(WATCH, laps, TEXT("run1"), laps, TEXT("best")));
        }
        if (steps == 10)
            record(second, 10, "69.1 ");
    }
    /* the run is over: the rest goes in bursts, as the radio works */
    while (running(&steps))
        done("burst", honecerise_burst(WATCH, HONECERISE_MOST_BURST));

    /* what is sent is looked at before it is believed */
    if (!honecerise_check(1, image, sizeof image)) {
        semihosting_print("the image is not sound\n");
        return 1;
    }
    list(image, steps);
    print_run("run2 in the copy: ", image, second);
    print_run("run2 in the store: ", store, second);
    return 0;
}
