/*
 * Honecerise: the file store of a running watch, and a copy of it that is taken while the watch
 * goes on recording. Every function below is proved: it is safe on any bytes and numbers, it
 * returns, and it does to every byte what its definition says.
 *
 * Three byte buffers, all yours:
 *
 *     store   the live files
 *     image   the copy
 *     desk    the copier's notes
 *
 * The library allocates nothing, has no globals, keeps no pointer after a call returns, and does
 * no input or output. A buffer may lie anywhere and needs no alignment, save the lists of times and
 * dates that honecerise_match_laps and honecerise_keep take, which must be aligned for uint32_t. You
 * may move or save a buffer between two calls; the bytes of store, image and desk are the same on
 * every machine.
 *
 * Buffers
 *     A buffer is a pointer and a length in bytes; a list of times or dates is a pointer and a count.
 *     What a call may write (store, image, desk, an out-buffer, state's three numbers, deal's counts,
 *     a report's lists) must not overlap anything else that it is lent, and nothing else may write
 *     what it is lent until it returns: no interrupt, no other thread. The two names of a rename may be
 *     the same bytes. Calls on different buffers may run at the same time.
 *     Where a length or count is 0, the pointer may be anything, NULL included: an empty name is
 *     refused with 4, a write of no bytes is a write of no bytes. An empty image will do as long as
 *     no copy is started. The three pointers that honecerise_state takes, and honecerise_deal's
 *     counts, must not be NULL.
 *
 * Numbers
 *     Inodes are numbered from 1, and 1 is the root directory. Numbers are never cut: one that is
 *     too large is refused. Lengths and numbers are 64 bits wide on every machine (honecerise_size);
 *     any unsigned type will do for what is passed by value.
 *
 * Answers
 *     An int32_t: the result if it is not negative, else minus the number of the refusal (below).
 *     0 where no result is named. A refused call has changed nothing, save that 16 marks the copy
 *     stopped in the desk, and that 21 leaves honecerise_deal's counts at 0.
 *
 * Stack
 *     No call takes more than HONECERISE_STACK bytes.
 *
 * To link: libapi.a on x86-64 Linux, and memcpy and memset from any C library; elsewhere the
 * libhonecerise.a that targets/build writes, which says what it wants from outside.
 */
#ifndef HONECERISE_H
#define HONECERISE_H

#include <stddef.h>
#include <stdint.h>

#ifdef __cplusplus
extern "C" {
#endif

/* ---- the width of lengths and numbers -------------------------------------------------------
 * size_t where that is 64 bits wide, so that a size_t's address can be handed to honecerise_state
 * there; elsewhere uint64_t. */

#if SIZE_MAX == UINT64_MAX
typedef size_t honecerise_size;
#else
typedef uint64_t honecerise_size;
#endif
/* does not compile where the two limits above are not what they should be */
typedef char honecerise_size_has_64_bits[sizeof(honecerise_size) == 8 ? 1 : -1];

/* ---- limits -------------------------------------------------------------------------------- */

#define HONECERISE_ROOT             1u /* the root directory's inode                            */
#define HONECERISE_MAX_INODES     256u /* a store, its image and its desk: 1 to 256             */
#define HONECERISE_MAX_BLOCKS    1024u /* of a store: 1 to 1,024                                */
#define HONECERISE_MAX_IMAGE     4096u /* blocks of an image: 1 to 4,096                        */
#define HONECERISE_MAX_NAME        14u /* bytes of a name: 1 to 14, none 0 or '/', not . or ..;
                                          A to Z and a to z are alike                           */
#define HONECERISE_MAX_FILE      2752u /* bytes of a file                                       */
#define HONECERISE_MAX_SLOTS       48u /* entries of a directory                                */
#define HONECERISE_MOST_BURST      64u /* steps of a burst: 1 to 64                             */
#define HONECERISE_BAYS            16u /* bays of a charging case: 0 to 15                      */
#define HONECERISE_MOST_TURN       64u /* steps of a case's turn: 1 to 64                       */
#define HONECERISE_MAX_TIMES      512u /* times of a list of laps                               */
#define HONECERISE_MOST_APART      50u /* of the two times of a pair, in hundredths of a second */
#define HONECERISE_MAX_COPIES     256u /* finished images of a case                             */
#define HONECERISE_MAX_TERMS       12u /* terms of a school                                     */

/*
 * The deepest stack of any call, below its caller's frame, with room to spare, by machine; beside it what
 * was measured. By frames: the frames of the deepest row of calls added up, without memcpy's and its like's
 * (targets/build says them). Painted: all calls made on a painted stack (bindings/c/stack.c on x86-64,
 * targets/run/stack.c on the others).
 */
#if defined(__ARM_ARCH_6M__)        /* Cortex-M0+ */
#define HONECERISE_STACK         4200u /* by frames 3,912, painted 3,964 */
#elif defined(__ARM_ARCH_8M_MAIN__) /* Cortex-M33 */
#define HONECERISE_STACK         4200u /* by frames 3,672, painted 3,728 */
#elif defined(__arm__)              /* Cortex-M4; 32-bit Arm Linux */
#define HONECERISE_STACK         4200u /* by frames 3,704, painted 3,800 */
#elif defined(__riscv)              /* RISC-V, 32 bits */
#define HONECERISE_STACK         4200u /* by frames 3,712, painted 3,736 */
#elif defined(__aarch64__)
#define HONECERISE_STACK         4200u /* by frames 3,696, painted 3,752 */
#elif defined(__wasm__)             /* of its linear memory; what the engine takes beside it is not in it */
#define HONECERISE_STACK         4200u /* by frames 3,264, painted 3,202 */
#else                               /* x86-64 */
#define HONECERISE_STACK         4200u /* painted 3,960 */
#endif

/* ---- lengths in bytes: exact, and constant where the arguments are ------------------------- */

#define HONECERISE_STORE_LENGTH(inodes, blocks) (16u + 32u * (inodes) + 64u * (blocks))
#define HONECERISE_IMAGE_LENGTH(inodes, blocks) (16u + 32u * (inodes) + 64u * (blocks))
#define HONECERISE_DESK_LENGTH(inodes)          (16u + 9u * (inodes))

/* With this many blocks in the image a copy always finishes: 16 never comes. With fewer it depends
 * on how many blocks the files and directories have when they are copied. From 94 inodes on it is
 * more than HONECERISE_MAX_IMAGE. A store that nothing changes while it is copied needs no more
 * blocks than it has itself (by counting them; this is not proved). */
#define HONECERISE_ENOUGH_IMAGE(inodes)         (44u * (inodes))

/* A copy finishes, or is stopped by 16, within this many steps. */
#define HONECERISE_MOST_STEPS(inodes)           (46u * (inodes) + 1u)

/* ---- refusals, by who causes them ----------------------------------------------------------
 * Where several apply, the lowest is answered, save that 17 is looked at right after 1, 18 right after
 * 10, and 26 before 1. 18 comes to honecerise_rename alone, which never answers 7. 21 is
 * honecerise_deal's only refusal, and no other call's; 26 comes to honecerise_match_laps alone, and 23
 * to 25 to honecerise_keep. A call answers one when, and only when, its condition holds for that call. */

enum honecerise_refusal {
    /* whoever wires the buffers */
    HONECERISE_BAD_BUFFER    =  1, /* no length or count allowed: a store or desk by its own counts, a
                                      layout call's by the numbers told, at start the image; or a list
                                      that a report goes to is shorter than the list its times come
                                      from; or a list of copies or terms is too long, a term has no
                                      last day, or there is no room for a byte a copy                 */
    HONECERISE_UNSOUND_STORE =  2, /* the store is not sound: something else wrote to it, or it is from
                                      before and has two spellings of a name in a directory           */
    HONECERISE_BAD_DESK      =  3, /* the desk breaks its layout or is of another inode count; or,
                                      while a copy runs, the image's length or counts are not the
                                      desk's, its root is not 1, its byte 8 is not 0, an address is
                                      above its block count, or the locked file lacks its block of
                                      addresses. Another image that passes these is not noticed, and
                                      spoils the copy                                                 */
    /* the app that names things */
    HONECERISE_ILLEGAL_NAME  =  4, /* not 1 to 14 bytes, a byte that is 0 or '/', or . or ..          */
    HONECERISE_WRONG_INODE   =  5, /* a number that is not the file or directory needed               */
    HONECERISE_NAME_ABSENT   =  6, /* no entry of that name                                           */
    HONECERISE_NAME_TAKEN    =  7, /* the new name is another entry's, in whatever spelling;
                                      honecerise_rename replaces that entry instead                   */
    HONECERISE_NOT_EMPTY     =  8, /* a directory to be unlinked, or to be replaced by a rename, has
                                      entries                                                         */
    HONECERISE_PAST_END      =  9, /* offset or new length past the size, or a write ending past 2752 */
    HONECERISE_INTO_ITSELF   = 10, /* a directory moved into itself or below                          */
    /* a full watch */
    HONECERISE_NO_INODE      = 11, /* no free inode                                                   */
    HONECERISE_NO_BLOCKS     = 12, /* too few free blocks; above 768 bytes a file takes one for
                                      addresses, too                                                  */
    HONECERISE_NO_SLOT       = 13, /* all 48 slots of the directory are used                          */
    /* the copy's timing */
    HONECERISE_BUSY          = 14, /* a write or shortening of the inode that the copier has locked; a
                                      create, link, unlink or rename in a locked directory; a link to,
                                      unlink or move of the locked inode, or a rename that would
                                      replace an entry of it: step, and try again                     */
    HONECERISE_WRONG_STATE   = 15, /* a start while a copy runs, or a step while none does            */
    HONECERISE_IMAGE_FULL    = 16, /* a step had a block to copy and no image block for it: the copy
                                      is stopped, and what was locked is free again                   */
    HONECERISE_BAD_COUNT     = 17, /* a burst of no steps, or of more than 64                         */
    /* the app that names things, once more */
    HONECERISE_KINDS_DIFFER  = 18, /* a rename onto another entry's name: one of the two is a file's,
                                      the other a directory's                                         */
    /* the charging case */
    HONECERISE_BAD_TURN      = 21, /* a turn of no steps, or of more than 64, or a last bay above 15  */
    /* which copies to keep: whoever enters dates and terms */
    HONECERISE_NO_DATE       = 23, /* no date that exists, from 2000-01-01 to 2049-12-31              */
    HONECERISE_BAD_TERMS     = 24, /* terms that share a day, run backwards or are out of order       */
    HONECERISE_AFTER_ASKED   = 25, /* a copy dated after the day asked                                */
    /* laps against the mat */
    HONECERISE_BAD_TIMES     = 26  /* a list of more than 512 times, or one that does not rise        */
};

/* ---- laying out ----------------------------------------------------------------------------
 * Zeroes the buffer and writes a store with an empty root, or an idle desk. The length must be
 * HONECERISE_STORE_LENGTH or HONECERISE_DESK_LENGTH of the numbers told. An image needs no laying
 * out: a start does it. Refused with 1. */

int32_t honecerise_lay_out_store(uint8_t *store, honecerise_size store_length,
                                 honecerise_size inodes, honecerise_size blocks);

int32_t honecerise_lay_out_desk(uint8_t *desk, honecerise_size desk_length, honecerise_size inodes);

/* ---- the check -----------------------------------------------------------------------------
 * 1 if the bytes are a sound store (image 0) or a sound finished image (image not 0), else 0. It
 * takes any bytes, and is the call for what came over the air. */

uint8_t honecerise_check(uint8_t image, const uint8_t *bytes, honecerise_size length);

/* ---- looking and reading: the store alone, at any time -------------------------------------
 * Both refuse with 1 and 2. */

/* The inode that a name stands for. 4, 5, 6. */
int32_t honecerise_look_up(const uint8_t *store, honecerise_size store_length,
                           honecerise_size directory, const uint8_t *name, honecerise_size name_length);

/* Bytes of a file from offset on, as many as there are and fit: answers how many. At the size it
 * answers 0. Bytes of out beyond that stay as they were. 5, 9. */
int32_t honecerise_read(const uint8_t *store, honecerise_size store_length,
                        honecerise_size inode, honecerise_size offset,
                        uint8_t *out, honecerise_size out_length);

/* ---- changing the store --------------------------------------------------------------------
 * With a copy running or not, always with all three buffers, so that the copier learns of it: a
 * change that went past it would spoil the copy. While no copy runs the image is neither read nor
 * written, and may be empty. All refuse with 1, 2 and 3, and with 14 while a copy runs. */

/* A new empty file or directory: answers its inode, the lowest that is free. 4, 5, 7, 11 to 14. */
int32_t honecerise_create_file(uint8_t *store, honecerise_size store_length,
                               uint8_t *image, honecerise_size image_length,
                               uint8_t *desk, honecerise_size desk_length,
                               honecerise_size directory,
                               const uint8_t *name, honecerise_size name_length);

int32_t honecerise_create_directory(uint8_t *store, honecerise_size store_length,
                                    uint8_t *image, honecerise_size image_length,
                                    uint8_t *desk, honecerise_size desk_length,
                                    honecerise_size directory,
                                    const uint8_t *name, honecerise_size name_length);

/* Lays bytes over a file from offset, which is at most its size, and grows it as needed: answers
 * the new size. 5, 9, 12, 14. */
int32_t honecerise_write(uint8_t *store, honecerise_size store_length,
                         uint8_t *image, honecerise_size image_length,
                         uint8_t *desk, honecerise_size desk_length,
                         honecerise_size inode, honecerise_size offset,
                         const uint8_t *bytes, honecerise_size length);

/* Cuts a file to length, which is at most its size: answers the new size. 5, 9, 14. */
int32_t honecerise_shorten(uint8_t *store, honecerise_size store_length,
                           uint8_t *image, honecerise_size image_length,
                           uint8_t *desk, honecerise_size desk_length,
                           honecerise_size inode, honecerise_size length);

/* A further name for a file. 4, 5, 7, 12, 13, 14. */
int32_t honecerise_link(uint8_t *store, honecerise_size store_length,
                        uint8_t *image, honecerise_size image_length,
                        uint8_t *desk, honecerise_size desk_length,
                        honecerise_size directory, const uint8_t *name, honecerise_size name_length,
                        honecerise_size inode);

/* Takes a name out: of a file, which is freed with its last name, or of an empty directory.
 * 4, 5, 6, 8, 14. */
int32_t honecerise_unlink(uint8_t *store, honecerise_size store_length,
                          uint8_t *image, honecerise_size image_length,
                          uint8_t *desk, honecerise_size desk_length,
                          honecerise_size directory, const uint8_t *name, honecerise_size name_length);

/* Another name, another directory, or both. An entry that has the new name is replaced: it is unlinked
 * first, so a file is freed with its last name, and its blocks and its slot are there for the rename; a
 * directory is replaced only if it is empty, and only by a directory. If both names stand for the same
 * file already, nothing changes. To another spelling of its own name the entry gets that spelling.
 * 4, 5, 6, 8, 10, 12, 13, 14, 18; where an entry is replaced, 12 and 13 never come. */
int32_t honecerise_rename(uint8_t *store, honecerise_size store_length,
                          uint8_t *image, honecerise_size image_length,
                          uint8_t *desk, honecerise_size desk_length,
                          honecerise_size directory, const uint8_t *name, honecerise_size name_length,
                          honecerise_size to_directory,
                          const uint8_t *to_name, honecerise_size to_name_length);

/* The same, but it replaces nothing: a name that another entry has, in whatever spelling, refuses, also
 * where both stand for the same file. For a recorder that must not lose yesterday's run.
 * 4 to 7, 10, 12, 13, 14. */
int32_t honecerise_rename_new(uint8_t *store, honecerise_size store_length,
                              uint8_t *image, honecerise_size image_length,
                              uint8_t *desk, honecerise_size desk_length,
                              honecerise_size directory, const uint8_t *name, honecerise_size name_length,
                              honecerise_size to_directory,
                              const uint8_t *to_name, honecerise_size to_name_length);

/* ---- the copier ----------------------------------------------------------------------------
 * Start once, then step until the state is finished, with any calls in between: a step is short,
 * and copies one block at most. A burst is up to 64 steps in one call, which examines its buffers
 * once. All refuse with 1, 2 and 3. */

enum honecerise_copy_state {
    HONECERISE_IDLE     = 0, /* no copy since the desk was laid out        */
    HONECERISE_RUNNING  = 1,
    HONECERISE_FINISHED = 2, /* the image is a sound copy                  */
    HONECERISE_STOPPED  = 3  /* refusal 16 ended it; the image is no copy  */
};

/* Begins a copy and writes over the whole image, of 1 to HONECERISE_MAX_IMAGE blocks and as many
 * inodes as the store has. 15. */
int32_t honecerise_start(const uint8_t *store, honecerise_size store_length,
                         uint8_t *image, honecerise_size image_length,
                         uint8_t *desk, honecerise_size desk_length);

/* One step: answers the steps of this copy so far. 15, 16. */
int32_t honecerise_step(const uint8_t *store, honecerise_size store_length,
                        uint8_t *image, honecerise_size image_length,
                        uint8_t *desk, honecerise_size desk_length);

/* Does what so many single steps would, 1 to HONECERISE_MOST_BURST, and answers how many of this call
 * were accepted. It ends early when the copy finishes or a step is refused: if that is the first, its
 * refusal is the answer; a later one only cuts the count short, and after 16 the copy is stopped.
 * 15, 16, 17. */
int32_t honecerise_burst(const uint8_t *store, honecerise_size store_length,
                         uint8_t *image, honecerise_size image_length,
                         uint8_t *desk, honecerise_size desk_length,
                         honecerise_size count);

/* Puts the state (enum honecerise_copy_state), the locked inode (0: none) and the accepted steps
 * since the latest start through the three pointers, which are three different ones, and answers
 * 0. A refusal leaves the three as they were. */
int32_t honecerise_state(const uint8_t *store, honecerise_size store_length,
                         const uint8_t *image, honecerise_size image_length,
                         const uint8_t *desk, honecerise_size desk_length,
                         honecerise_size *state, honecerise_size *locked, honecerise_size *steps);

/* ---- the charging case ---------------------------------------------------------------------
 * One radio, sixteen bays. Each turn of the case has 1 to HONECERISE_MOST_TURN steps to give away:
 * starting after the bay last served, one step goes to each running bay, in a circle, until the number
 * is used. Bit b of running says that bay b runs; C itself cuts a wider number that is passed to these
 * sixteen bits. counts gets the sixteen counts, bay 0's first, in every case: a refusal sets them to 0.
 * The answer is the bay last served, which the next turn is told:
 *
 *     answer = honecerise_deal(running, steps, last, counts);
 *     if (answer >= 0) last = (honecerise_size)answer;
 *     for each bay b with counts[b] > 0: honecerise_burst(.. the watch in bay b .., counts[b]);
 *
 * After a refusal keep the bay you had.
 *
 * The counts add up to the steps. If no bay runs they are 0, and the bay told is answered. Two running
 * bays differ by at most one step in a turn. A bay that runs in each of sixteen turns gets a step in one
 * of them, whichever others start or end, if each turn is told the bay that the turn before answered:
 * so feed that bay to the next turn whatever the bursts did. A burst may end early, since the copy
 * finished or the watch was taken out; its steps are lost for this turn. If the next turn is told the
 * last bay that really took a step, the promise need not hold then. With at least as many steps a turn
 * as bays run, every running bay gets a step in every turn; only with one step a turn can a bay wait for
 * sixteen (by counting; not proved).
 *
 * Tell a bay whose copy is finished or stopped as not running (ask honecerise_state), or it goes on
 * getting its share. examples/c/case.c is such a loop. 21. */

int32_t honecerise_deal(uint16_t running, honecerise_size steps, honecerise_size last,
                        uint8_t counts[HONECERISE_BAYS]);

/* ---- laps against the mat -------------------------------------------------------------------
 * Takes no store. Holds the lap times of a watch against the crossings that the track's timing mat
 * recorded, both in hundredths of a second and strictly rising, at most HONECERISE_MAX_TIMES each.
 * A watch time and a mat time may be paired if they are at most HONECERISE_MOST_APART apart; each is
 * used once, and pairs keep their order. Times are numbers and don't wrap.
 *
 * Answers the number of pairs p, the largest that any such pairing has. Pair k is paired_watch[k]
 * and paired_mat[k], for k below p. The unmatched times are the first watch_count - p of alone_watch
 * and the first mat_count - p of alone_mat. All four rise, and what lies behind stays as it was.
 * Refused with 26, looked at first; then with 1 if one of the four is shorter than the list that its
 * times come from.
 *
 * Unmatched: no time of the other list is near, or those near stand in earlier pairs (by the walk;
 * this is not proved). It does not say who is wrong: a mat time may be a missed lap, another runner,
 * or a second foot just after the first; don't show it as a missed lap if a pair stands just before
 * it. A watch whose clock is off by more than half a second as a rule pairs little: examples/c/laps.c
 * shifts its times, takes the shift with the most pairs, and finds how far the clock is off. */

int32_t honecerise_match_laps(const uint32_t *watch, honecerise_size watch_count,
                              const uint32_t *mat, honecerise_size mat_count,
                              uint32_t *paired_watch, honecerise_size paired_watch_count,
                              uint32_t *paired_mat, honecerise_size paired_mat_count,
                              uint32_t *alone_watch, honecerise_size alone_watch_count,
                              uint32_t *alone_mat, honecerise_size alone_mat_count);

/* ---- which copies to keep -------------------------------------------------------------------
 * Takes no store, and deletes nothing: it says which of a case's finished images are kept on the day
 * asked, so it can be asked before anything goes, and before new terms are applied.
 *
 * A date is one number, HONECERISE_DATE(2024, 2, 29) or 20240229; every date after 2049 is refused
 * with 23, a term's too. The copies are dated in any order. Terms are their first and last days, both
 * included, one after the other: term_days is twice their number. Terms rise and share no day; one may
 * begin the day after another ends.
 *
 * A copy aged 0 to 13 days on the day asked is kept. An older one that lies in a term is kept until 56
 * days after the term's last day, that day included, if it is the last of its Monday-to-Sunday week
 * within that term; the last copy of a term is always kept. Other copies go. Of several on one date
 * only the last in the list is looked at; the others go at any age.
 *
 * Answers how many are kept, and sets out[i] to 1 if copy i is kept, else to 0; what lies behind stays
 * as it was. Refused with 1, 23 (a copy's date, a term's, or the day asked), 24 or 25, in that order.
 *
 * What goes on one day goes on every later day, and deleting it changes nothing for the others.
 * Holidays within a term make it two terms, so the last copy before them is kept for ever; copies
 * between terms go at 14 days. A case that holds 256 copies must ask before it takes the next one. */

/* for a month and a day of at most two digits */
#define HONECERISE_DATE(year, month, day) \
    ((uint32_t)(year) * 10000u + (uint32_t)(month) * 100u + (uint32_t)(day))

int32_t honecerise_keep(const uint32_t *copies, honecerise_size count,
                        const uint32_t *terms, honecerise_size term_days,
                        uint32_t asked,
                        uint8_t *out, honecerise_size out_length);

#ifdef __cplusplus
}
#endif

#endif
