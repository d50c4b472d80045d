#include <stdio.h>
#include <stdlib.h>
#include <string.h>
#include "honecerise.h"
#include "honecerise_list.h"

enum { N = 16, B = 64, I = HONECERISE_ENOUGH_IMAGE(N) }; /* inodes, blocks, image blocks */
static uint8_t store[HONECERISE_STORE_LENGTH(N, B)];
static uint8_t image[HONECERISE_IMAGE_LENGTH(N, I)];
static uint8_t desk[HONECERISE_DESK_LENGTH(N)];
#define WATCH store, sizeof store, image, sizeof image, desk, sizeof desk
#define TEXT(text) (const uint8_t *)(text), strlen(text)

static size_t done(const char *call, int32_t answer) /* below 0: minus a refusal's number */
{
    if (answer < 0)
        printf("%s: refused with %d\n", call, (int)-answer), exit(1);
    return (size_t)answer;
}

int main(void)
{
    size_t run, size = 0;
    honecerise_size state, locked, steps;
    uint8_t laps[HONECERISE_MAX_FILE];

    done("lay out", honecerise_lay_out_store(store, sizeof store, N, B));
    done("lay out", honecerise_lay_out_desk(desk, sizeof desk, N));
    run = done("create", honecerise_create_file(WATCH, HONECERISE_ROOT, TEXT("run1")));
    done("start", honecerise_start(WATCH));
    do { /* a turn of the watch's loop: a lap, then one step of the copy */
        int32_t answer = honecerise_write(WATCH, run, size, TEXT("71.2,"));
        if (answer == -HONECERISE_BUSY)
            printf("the copier has the run: the lap waits a turn\n");
        else
            size = done("write", answer);
        done("step", honecerise_step(WATCH));
        done("state", honecerise_state(WATCH, &state, &locked, &steps));
    } while (state == HONECERISE_RUNNING);
    if (!honecerise_check(1, image, sizeof image))
        return 1;
    size = done("read", honecerise_read(store, sizeof store, run, 0, laps, sizeof laps));
    printf("in the store: %.*s\n", (int)size, (const char *)laps);
    size = honecerise_file_bytes(image, run, 0, laps, sizeof laps);
    printf("in the copy:  %.*s\n", (int)size, (const char *)laps);
    return 0;
}
