/*
 * samples.h - sequences and parts of them, changes of a state and a list, for
 * the self test and the case writer.
 */
#ifndef IND_SAMPLES_H
#define IND_SAMPLES_H

#include <string.h>

#include "press.h"
#include "random.h"

/* Adds an IF, WHILE or AWAIT with this condition, each list of statements in
 * it a SKIP. */
static inline void add_block(struct sequence *p, uint8_t kind, uint8_t b,
                             uint8_t op, uint32_t k)
{
    add(p, kind, 0, b, op, k);
    add_bare(p, IND_SKIP);
    if (kind == IND_IF) {
        add_bare(p, IND_ELSE);
        add_bare(p, IND_SKIP);
    }
    add_bare(p, kind == IND_IF ? IND_FI
                : kind == IND_WHILE ? IND_OD : IND_END);
}

/* Stations that loop for ever and are always ready. */
static inline void loops(struct sequence *p, size_t count)
{
    p->len = 0;
    for (size_t i = 0; i < count; i++) {
        add_bare(p, IND_STATION);
        add(p, IND_WHILE, 0, 0, 4, 0);
        add_bare(p, IND_SKIP);
        add_bare(p, IND_OD);
    }
}

/* Station 0 puts variable 0 at 1 and back at 0, for ever; station 1 awaits the
 * 1, again and again, and so is ready and waits by turns; station 2 ends;
 * station 3 waits for ever; station 4 is always ready. */
static inline void flickers(struct sequence *p)
{
    p->len = 0;
    add_bare(p, IND_STATION);
    add(p, IND_WHILE, 0, 1, 4, 1);
    add(p, IND_SET, 0, 0, 0, 1);
    add(p, IND_SET, 0, 0, 0, 0);
    add_bare(p, IND_OD);
    add_bare(p, IND_STATION);
    add(p, IND_WHILE, 0, 1, 4, 1);
    add_block(p, IND_AWAIT, 0, 0, 1);
    add_bare(p, IND_OD);
    add_bare(p, IND_STATION);
    add_bare(p, IND_SKIP);
    add_bare(p, IND_STATION);
    add_block(p, IND_AWAIT, 0, 0, 2);
    add_bare(p, IND_STATION);
    add_block(p, IND_WHILE, 1, 4, 1);
}

/* A start and picks that pass station n-1 over B+n-1 times, then pick it: of n
 * stations that are always ready, two at least; one is picked at every step.
 * Answers how many. */
static inline size_t longest_wait(size_t n, uint8_t b, uint8_t start[9],
                                  uint8_t *picks)
{
    size_t count = 0;

    start[0] = b;
    start[1] = 0;
    memset(start + 2, b, n - 1);
    for (; count <= b; count++)
        memset(picks + 2 * count, 0, 2);
    for (uint8_t i = 1; i < n; i++, count++) {
        picks[2 * count] = i;
        picks[2 * count + 1] = i + 1u < n ? 0 : b;
    }
    return count;
}

/* A field of a state, which of its entries, and another number for it. */
struct change {
    enum { CHANGE_N, CHANGE_M, CHANGE_POS, CHANGE_PRI, CHANGE_CNT } field;
    uint8_t entry;
    int number;
};

/* The state with the change made. */
static inline struct ind_state changed(struct ind_state s, struct change c)
{
    if (c.field == CHANGE_N)
        s.n = (uint8_t)c.number;
    else if (c.field == CHANGE_M)
        s.m = (uint16_t)c.number;
    else if (c.field == CHANGE_POS)
        s.pos[c.entry] = (uint16_t)c.number;
    else if (c.field == CHANGE_PRI)
        s.pri[c.entry] = (int16_t)c.number;
    else
        s.cnt[c.entry] = (uint16_t)c.number;
    return s;
}

/* Puts the counts at 0, so that each priority may go up to B. */
static inline void clear_counts(struct ind_state *s)
{
    memset(s->cnt, 0, sizeof s->cnt);
}

/* Three stations mixed: the first has three STOPs, one that nobody reaches, the
 * others have none and their AWAITs lead them back. */
static const uint8_t three_list[] = {
    16, 0, 0, 0, 0, 0, 0, 0, 0, 0, 4, 0, 0, 0, 0, 0,
    16, 1, 0, 0, 0, 0, 0, 0, 1, 0, 6, 0, 0, 0, 0, 0,
    16, 2, 0, 0, 0, 0, 0, 0, 2, 0, 9, 0, 0, 0, 0, 0,
    17, 0, 0, 0, 0, 0, 0, 0, 0, 0, 0, 0, 0, 0, 0, 0,
    4, 0, 0, 0, 0, 0, 0, 0, 0, 0, 8, 0, 3, 0, 0, 0,
    2, 0, 0, 0, 0, 0, 0, 0, 1, 0, 6, 0, 0, 0, 0, 0,
    9, 0, 9, 6, 4, 0, 0, 0, 1, 0, 7, 0, 6, 0, 0, 0,
    3, 9, 9, 2, 1, 0, 0, 0, 1, 1, 0, 0, 0, 0, 0, 0,
    17, 0, 0, 0, 0, 0, 0, 0, 0, 0, 0, 0, 0, 0, 0, 0,
    2, 0, 0, 0, 0, 0, 0, 0, 2, 0, 11, 0, 0, 0, 0, 0,
    17, 0, 0, 0, 0, 0, 0, 0, 0, 0, 0, 0, 0, 0, 0, 0,
    9, 0, 4, 3, 9, 0, 0, 0, 2, 0, 12, 0, 9, 0, 0, 0,
    2, 0, 0, 0, 0, 0, 0, 0, 2, 1, 0, 0, 0, 0, 0, 0
};

#endif
