/*
 * The vectors through the C names: reads command lines, and writes for each the answer and the
 * checksums of store, image and desk, as the program replay does (docs/TESTS.md has the commands).
 * So what it writes for crates/replay/stdin is crates/replay/stdout. Lines of the programs turns, matched
 * and kept are answered as these do (lists.c).
 *
 * It takes nothing from a C library, so that it runs on a bare machine as well.
 */
#include "honecerise.h"
#include "lists.h"
#include "text.h"

/* Room for stores of 300 inodes and 1,025 blocks and images of 4,097, as replay has. */
enum { INODES = 300, BLOCKS = 1025, IMAGE_BLOCKS = 4097, PAGE = 4096 };
enum { FIELDS = 5, FILLER = 0xaa, MOST = 65536 };
enum { STORE_ROOM = HONECERISE_STORE_LENGTH(INODES, BLOCKS),
       IMAGE_ROOM = HONECERISE_IMAGE_LENGTH(INODES, IMAGE_BLOCKS),
       DESK_ROOM = HONECERISE_DESK_LENGTH(INODES) };

/* Buffers need no alignment, so they have none. */
static uint64_t rooms[3][IMAGE_ROOM / 8 + 2];
static uint8_t *const store = (uint8_t *)rooms[0] + 1;
static uint8_t *const image = (uint8_t *)rooms[1] + 3;
static uint8_t *const desk = (uint8_t *)rooms[2] + 7;
static size_t store_length, image_length, desk_length;
#define STORE store, store_length
#define WATCH store, store_length, image, image_length, desk, desk_length

static void put_sum(const uint8_t *bytes, size_t length)
{
    uint64_t sum = 0xcbf29ce484222325u;
    size_t i;
    for (i = 0; i < length; i++)
        sum = (sum ^ bytes[i]) * 0x100000001b3u;
    put_byte(' ');
    put_hex(sum, 16);
}

static void put_sums(void)
{
    put(" |");
    put_sum(store, store_length);
    put_sum(image, image_length);
    put_sum(desk, desk_length);
    put("\n");
}

/* ---- commands */

enum command {
    NEW, POKE_STORE, POKE_IMAGE, POKE_DESK, LAY_STORE, LAY_DESK, CHECK_STORE, CHECK_IMAGE, LOOK_UP,
    CREATE_FILE, CREATE_DIRECTORY, READ, WRITE, SHORTEN, LINK, UNLINK, RENAME, RENAME_NEW, START, STEP,
    BURST, ASK, NONE
};

/* In the same order: # is a number, * a name or bytes, + a second name. */
static const char *const forms[NONE] = {
    "new # # #", "poke store # #", "poke image # #", "poke desk # #", "lay store # #", "lay desk #",
    "chk store", "chk image", "lk # *", "mk # * f", "mk # * d", "rd # # #", "wr # # *", "sh # #",
    "ln # * #", "rm # *", "mv # * # +", "mvo # * # +", "go", "st", "bu #", "ask"
};

static uint8_t name[BYTES], other[BYTES], page[PAGE];
static size_t name_length, other_length;
static uint64_t n[FIELDS];

/* Whether the fields are those of a form; their numbers and names are taken. */
static int fits(const char *form, const struct field *fields, size_t count)
{
    size_t i, length;
    for (i = 0; i < count; i++) {
        for (length = 0; form[length] && form[length] != ' '; length++)
            ;
        if (length == 1 && *form == '#' ? !number(fields[i], &n[i])
            : length == 1 && *form == '*' ? !hex(fields[i], name, &name_length)
            : length == 1 && *form == '+' ? !hex(fields[i], other, &other_length)
                                          : !is(fields[i], form, length))
            return 0;
        form += length;
        if (!*form)
            return i + 1 == count;
        form++;
    }
    return 0;
}

static enum command parse(const uint8_t *line, size_t length)
{
    struct field fields[FIELDS];
    size_t count = 0, place = 0;
    unsigned form;
    while (place <= length) {
        if (count == FIELDS)
            return NONE;
        fields[count++] = field_at(line, length, &place);
    }
    for (form = 0; form < NONE && !fits(forms[form], fields, count); form++)
        ;
    return (enum command)form;
}

/* ---- answers */

static void plain(const char *text)
{
    put(text);
    put_sums();
}

static void answered(int32_t answer)
{
    put(answer < 0 ? "no" : "ok");
    put_number((uint64_t)(answer < 0 ? -(int64_t)answer : answer));
    put_sums();
}

static void zero(uint8_t *bytes, size_t length)
{
    size_t i;
    for (i = 0; i < length; i++)
        bytes[i] = 0;
}

/* Fresh buffers, if there is room for them, and the two layout calls. */
static void renew(uint64_t inodes, uint64_t blocks, uint64_t image_blocks)
{
    if (inodes > MOST || blocks > MOST || image_blocks > MOST
        || HONECERISE_STORE_LENGTH(inodes, blocks) > STORE_ROOM
        || HONECERISE_IMAGE_LENGTH(inodes, image_blocks) > IMAGE_ROOM
        || HONECERISE_DESK_LENGTH(inodes) > DESK_ROOM) {
        put("err\n");
        return;
    }
    store_length = (size_t)HONECERISE_STORE_LENGTH(inodes, blocks);
    image_length = (size_t)HONECERISE_IMAGE_LENGTH(inodes, image_blocks);
    desk_length = (size_t)HONECERISE_DESK_LENGTH(inodes);
    zero(store, store_length);
    zero(image, image_length);
    zero(desk, desk_length);
    put("ok");
    put_number((uint64_t)-(int64_t)honecerise_lay_out_store(STORE, inodes, blocks));
    put_number((uint64_t)-(int64_t)honecerise_lay_out_desk(desk, desk_length, inodes));
    put_sums();
}

static void poke(uint8_t *bytes, size_t length, uint64_t offset, uint64_t byte)
{
    if (offset >= length || byte > 255) {
        put("err\n");
        return;
    }
    bytes[offset] = (uint8_t)byte;
    plain("ok");
}

/* The whole out-buffer is shown, what the read left alone too. */
static void show_read(uint64_t inode, uint64_t offset, uint64_t length)
{
    int32_t answer;
    size_t i;
    if (length > sizeof page) {
        put("err\n");
        return;
    }
    for (i = 0; i < sizeof page; i++)
        page[i] = FILLER;
    answer = honecerise_read(STORE, inode, offset, page, length);
    if (answer < 0) {
        answered(answer);
        return;
    }
    put("ok");
    put_number((uint64_t)answer);
    put_byte(' ');
    if (length == 0)
        put_byte('-');
    for (i = 0; i < length; i++)
        put_hex(page[i], 2);
    put_sums();
}

static void ask(void)
{
    honecerise_size state, locked, steps;
    const int32_t answer = honecerise_state(WATCH, &state, &locked, &steps);
    if (answer < 0) {
        answered(answer);
        return;
    }
    put("ok");
    put_number(state);
    put_number(locked);
    put_number(steps);
    put_sums();
}

#define NAME name, name_length
void respond(const uint8_t *line, size_t length)
{
    if (respond_list(line, length))
        return;
    switch (parse(line, length)) {
    case NEW: renew(n[1], n[2], n[3]); break;
    case POKE_STORE: poke(store, store_length, n[2], n[3]); break;
    case POKE_IMAGE: poke(image, image_length, n[2], n[3]); break;
    case POKE_DESK: poke(desk, desk_length, n[2], n[3]); break;
    case LAY_STORE: answered(honecerise_lay_out_store(STORE, n[2], n[3])); break;
    case LAY_DESK: answered(honecerise_lay_out_desk(desk, desk_length, n[2])); break;
    case CHECK_STORE: plain(honecerise_check(0, STORE) ? "yes" : "no"); break;
    case CHECK_IMAGE: plain(honecerise_check(1, image, image_length) ? "yes" : "no"); break;
    case LOOK_UP: answered(honecerise_look_up(STORE, n[1], NAME)); break;
    case CREATE_FILE: answered(honecerise_create_file(WATCH, n[1], NAME)); break;
    case CREATE_DIRECTORY: answered(honecerise_create_directory(WATCH, n[1], NAME)); break;
    case READ: show_read(n[1], n[2], n[3]); break;
    case WRITE: answered(honecerise_write(WATCH, n[1], n[2], NAME)); break;
    case SHORTEN: answered(honecerise_shorten(WATCH, n[1], n[2])); break;
    case LINK: answered(honecerise_link(WATCH, n[1], NAME, n[3])); break;
    case UNLINK: answered(honecerise_unlink(WATCH, n[1], NAME)); break;
    case RENAME: answered(honecerise_rename(WATCH, n[1], NAME, n[3], other, other_length)); break;
    case RENAME_NEW: answered(honecerise_rename_new(WATCH, n[1], NAME, n[3], other, other_length)); break;
    case START: answered(honecerise_start(WATCH)); break;
    case STEP: answered(honecerise_step(WATCH)); break;
    case BURST: answered(honecerise_burst(WATCH, n[1])); break;
    case ASK: ask(); break;
    case NONE: put("err\n"); break;
    }
}
