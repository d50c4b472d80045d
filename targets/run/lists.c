#include "lists.h"

#include "honecerise.h"
#include "text.h"

/* As many as the programs have room for, of times or dates in a list. */
enum { TIMES = 600, DATES = 300 };

struct line {
    const uint8_t *at;
    size_t length, place;
};

static int more(const struct line *l)
{
    return l->place <= l->length;
}

static int next_number(struct line *l, uint64_t most, uint64_t *n)
{
    return more(l) && number(field_at(l->at, l->length, &l->place), n) && *n <= most;
}

static int take(struct line *l, uint32_t *to, uint64_t count)
{
    uint64_t i, n;
    for (i = 0; i < count; i++) {
        if (!next_number(l, UINT32_MAX, &n))
            return 0;
        to[i] = (uint32_t)n;
    }
    return 1;
}

static void put_list(const uint32_t *times, size_t count)
{
    size_t i;
    for (i = 0; i < count; i++)
        put_number(times[i]);
}

/* The refusal, if it is one. */
static int refused(int32_t answer)
{
    put(answer < 0 ? "no" : "ok");
    if (answer < 0)
        put_number((uint64_t)-(int64_t)answer);
    return answer < 0;
}

/* deal FLAGS STEPS LAST */
static int deal(struct line *l)
{
    uint8_t counts[HONECERISE_BAYS];
    uint64_t steps, last;
    unsigned running = 0, bay;
    int32_t answer;
    struct field flags;
    if (!more(l))
        return 0;
    flags = field_at(l->at, l->length, &l->place);
    if (flags.length != HONECERISE_BAYS || !next_number(l, UINT64_MAX, &steps) || !next_number(l, UINT64_MAX, &last)
        || more(l))
        return 0;
    for (bay = 0; bay < HONECERISE_BAYS; bay++) {
        if (flags.at[bay] != '0' && flags.at[bay] != '1')
            return 0;
        running |= (unsigned)(flags.at[bay] - '0') << bay;
    }
    answer = honecerise_deal((uint16_t)running, steps, last, counts);
    if (refused(answer))
        return 1;
    for (bay = 0; bay < HONECERISE_BAYS; bay++)
        put_number(counts[bay]);
    put_number((uint64_t)answer);
    return 1;
}

/* laps W M times.. times.. */
static int laps(struct line *l)
{
    static uint32_t watch[TIMES], mat[TIMES], pw[TIMES], pm[TIMES], aw[TIMES], am[TIMES];
    uint64_t w, m;
    int32_t answer, k;
    if (!next_number(l, TIMES, &w) || !next_number(l, TIMES, &m) || !take(l, watch, w) || !take(l, mat, m) || more(l))
        return 0;
    answer = honecerise_match_laps(watch, w, mat, m, pw, TIMES, pm, TIMES, aw, TIMES, am, TIMES);
    if (refused(answer))
        return 1;
    put_number((uint64_t)answer);
    put_number(w - (uint64_t)answer);
    put_number(m - (uint64_t)answer);
    for (k = 0; k < answer; k++) {
        put_number(pw[k]);
        put_number(pm[k]);
    }
    put_list(aw, (size_t)w - (size_t)answer);
    put_list(am, (size_t)m - (size_t)answer);
    return 1;
}

/* keep ASKED T FIRST LAST .. COPY .. */
static int keep(struct line *l)
{
    static uint32_t terms[DATES], copies[DATES];
    static uint8_t out[DATES];
    uint64_t asked, count, copied = 0, i;
    int32_t answer;
    if (!next_number(l, UINT32_MAX, &asked) || !next_number(l, DATES / 2, &count) || !take(l, terms, 2 * count))
        return 0;
    while (more(l))
        if (copied == DATES || !take(l, &copies[copied++], 1))
            return 0;
    answer = honecerise_keep(copies, copied, terms, 2 * count, (uint32_t)asked, out, DATES);
    if (refused(answer))
        return 1;
    put_number((uint64_t)answer);
    if (copied)
        put(" ");
    for (i = 0; i < copied; i++)
        put(out[i] ? "k" : "g");
    return 1;
}

int respond_list(const uint8_t *line, size_t length)
{
    struct line l;
    struct field word;
    int answered;
    l.at = line;
    l.length = length;
    l.place = 0;
    word = field_at(line, length, &l.place);
    if (is(word, "deal", 4))
        answered = deal(&l);
    else if (is(word, "laps", 4))
        answered = laps(&l);
    else if (is(word, "keep", 4))
        answered = keep(&l);
    else
        return 0;
    put(answered ? "\n" : "err\n");
    return 1;
}
