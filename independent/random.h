/*
 * random.h - a seeded generator and random written sequences, for the self
 * test and the case writer.  The same seed gives the same numbers with every
 * compiler: no expression here draws twice.
 */
#ifndef IND_RANDOM_H
#define IND_RANDOM_H

#include "press.h"

struct rng {
    uint64_t s;
};

/* The next 32 random bits. */
static inline uint32_t draw(struct rng *g)
{
    uint64_t x;

    g->s = g->s * UINT64_C(6364136223846793005) + UINT64_C(1442695040888963407);
    x = g->s;
    x ^= x >> 29;
    x *= UINT64_C(0x9E3779B97F4A7C15);
    x ^= x >> 32;
    return (uint32_t)x;
}

/* A number below `bound`, which is not 0. */
static inline uint32_t below(struct rng *g, uint32_t bound)
{
    return draw(g) % bound;
}

/* Whether an event with `of` chances in 100 happens. */
static inline int chance(struct rng *g, uint32_t of)
{
    return below(g, 100) < of;
}

/* A written sequence being put together. */
struct sequence {
    uint8_t bytes[IND_MAX_FILE + 64];
    size_t len;
};

/* Adds a record, where there is room. */
static inline void add(struct sequence *p, uint8_t kind, uint8_t a, uint8_t b,
                       uint8_t op, uint32_t k)
{
    uint8_t *r = p->bytes + p->len;

    if (p->len + IND_RECORD > sizeof p->bytes)
        return;
    r[0] = kind;
    r[1] = a;
    r[2] = b;
    r[3] = op;
    r[4] = (uint8_t)(k & 255);
    r[5] = (uint8_t)(k >> 8 & 255);
    r[6] = (uint8_t)(k >> 16 & 255);
    r[7] = (uint8_t)(k >> 24 & 255);
    p->len += IND_RECORD;
}

/* Adds a record whose fields are all zero. */
static inline void add_bare(struct sequence *p, uint8_t kind)
{
    add(p, kind, 0, 0, 0, 0);
}

/* A variable, mostly one of few, so that stations meet in it. */
static inline uint8_t random_variable(struct rng *g)
{
    if (chance(g, 90))
        return (uint8_t)below(g, 3);
    return (uint8_t)below(g, IND_VARS);
}

/* A constant, mostly small, sometimes near the ends of the range. */
static inline uint32_t random_constant(struct rng *g)
{
    if (chance(g, 85))
        return below(g, 4);
    if (chance(g, 50))
        return UINT32_MAX - below(g, 3);
    return draw(g);
}

/* The fields of a SET that obeys the table. */
static inline void random_set(struct rng *g, uint8_t r[IND_RECORD])
{
    struct sequence one;
    uint8_t a = random_variable(g);
    uint8_t b = random_variable(g);
    uint8_t op = (uint8_t)below(g, 6);
    uint32_t k = op >= 4 ? random_variable(g) : random_constant(g);

    if (op == 0)
        b = 0;
    if (op == 1)
        k = 0;
    one.len = 0;
    add(&one, IND_SET, a, b, op, k);
    for (size_t i = 0; i < IND_RECORD; i++)
        r[i] = one.bytes[i];
}

/* The fields of an IF, WHILE or AWAIT that obeys the table. */
static inline void random_test(struct rng *g, uint8_t kind,
                               uint8_t r[IND_RECORD])
{
    struct sequence one;
    uint8_t b = random_variable(g);
    uint8_t op = (uint8_t)below(g, 8);
    uint32_t k = op >= 4 ? random_variable(g) : random_constant(g);

    one.len = 0;
    add(&one, kind, 0, b, op, k);
    for (size_t i = 0; i < IND_RECORD; i++)
        r[i] = one.bytes[i];
}

static inline void add_record(struct sequence *p, const uint8_t r[IND_RECORD])
{
    if (p->len + IND_RECORD > sizeof p->bytes)
        return;
    for (size_t i = 0; i < IND_RECORD; i++)
        p->bytes[p->len + i] = r[i];
    p->len += IND_RECORD;
}

/* Adds a list of statements, `depth` of them open already.  Past `soft` bytes
 * nothing is opened any more. */
static inline void add_statements(struct rng *g, struct sequence *p,
                                  unsigned depth, int in_body, size_t soft)
{
    uint32_t many = 1 + below(g, 3);
    uint8_t r[IND_RECORD];

    for (uint32_t i = 0; i < many; i++) {
        uint32_t what = below(g, 10);

        if (p->len >= soft || depth >= 5)
            what = what % 4;
        if (in_body && what >= 6)
            what = what - 5;
        if (what <= 1) {
            add_bare(p, IND_SKIP);
        } else if (what <= 3) {
            random_set(g, r);
            add_record(p, r);
        } else if (what <= 5) {
            random_test(g, IND_IF, r);
            add_record(p, r);
            add_statements(g, p, depth + 1, in_body, soft);
            add_bare(p, IND_ELSE);
            add_statements(g, p, depth + 1, in_body, soft);
            add_bare(p, IND_FI);
        } else if (what <= 7) {
            random_test(g, IND_WHILE, r);
            add_record(p, r);
            add_statements(g, p, depth + 1, 0, soft);
            add_bare(p, IND_OD);
        } else {
            random_test(g, IND_AWAIT, r);
            add_record(p, r);
            add_statements(g, p, depth + 1, 1, soft);
            add_bare(p, IND_END);
        }
    }
}

/* A well-shaped sequence of 1 to `most` stations, of about `soft` bytes at
 * most. */
static inline void random_sequence(struct rng *g, struct sequence *p,
                                   uint32_t most, size_t soft)
{
    uint32_t stations = 1 + below(g, most);
    uint32_t initial = chance(g, 50) ? below(g, 4) : 0;
    uint8_t r[IND_RECORD];

    p->len = 0;
    for (uint32_t i = 0; i < initial; i++) {
        random_set(g, r);
        add_record(p, r);
    }
    for (uint32_t i = 0; i < stations; i++) {
        add_bare(p, IND_STATION);
        add_statements(g, p, 0, 0, soft * (i + 1) / stations);
    }
}

#endif
