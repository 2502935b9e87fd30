/*
 * Compares the panel's library with the independent program, call by call: reads a stream of cases (see cases.c) and makes
 * each call with both, on buffers of their own; whole answers and whole buffers must be the same. On a difference it cuts
 * the case down, prints it and ends with status 1. Trace cases are passed by: a trace is a program and no call of the
 * library, and the conformance program has them. A kept buffer's field says how its bytes are made; here it is the bytes.
 *
 *   compare FILE
 */
#include "both.h"

#include <stdio.h>
#include <stdlib.h>
#include <string.h>

enum { FIELDS = 6, FIELD_BYTES = 65536 };

/* A case: the call and its fields, in the order that cases.c gives. */
struct field {
    size_t len;
    uint8_t bytes[FIELD_BYTES];
};

struct call {
    int number;
    int count;
    struct field fields[FIELDS];
};

static struct field ours[FIELDS], theirs[FIELDS];

/* The calls are numbered from 1; the trace is no call of the library. */
enum { TRACE = 8, CALLS = 10 };

static const int field_counts[] = {0, 1, 2, 5, 5, 6, 4, 2, 3, 3, 3};

/* Which field of a call is its kept buffer; 0 where it is lent none. */
static const int kept_fields[] = {0, 0, 0, 4, 3, 3, 3, 0, 0, 0, 0};

static uint32_t word(const uint8_t *p)
{
    return p[0] | (uint32_t)p[1] << 8 | (uint32_t)p[2] << 16 | (uint32_t)p[3] << 24;
}

static uint16_t half(const uint8_t *p)
{
    return (uint16_t)(p[0] | p[1] << 8);
}

/* Puts the bytes of a kept buffer in the place of the field that makes them. */
static void make_kept(struct field *f)
{
    static struct field made;
    const uint8_t fill = f->len > 2 ? f->bytes[2] : 0;
    made.len = f->len > 1 ? half(f->bytes) : 0;
    for (size_t i = 0; i < made.len; i++)
        made.bytes[i] = (uint8_t)(fill * (i + 1));
    for (size_t at = 3; at + 4 <= f->len;) {
        const size_t offset = half(f->bytes + at), count = half(f->bytes + at + 2);
        at += 4;
        for (size_t i = 0; i < count && at + i < f->len && offset + i < made.len; i++)
            made.bytes[offset + i] = f->bytes[at + i];
        at += count;
    }
    *f = made;
}

/* The state that 180 bytes spell, as each library has it. */
static struct ind_state their_state(const uint8_t *p)
{
    struct ind_state s;
    memset(&s, 0, sizeof s);
    for (int i = 0; i < 32; i++)
        s.var[i] = word(p + 4 * i);
    for (int i = 0; i < 8; i++) {
        s.pos[i] = half(p + 128 + 2 * i);
        s.pri[i] = (int16_t)half(p + 144 + 2 * i);
        s.cnt[i] = half(p + 160 + 2 * i);
    }
    s.n = p[176];
    s.b = p[177];
    s.m = half(p + 178);
    return s;
}

static press_state our_state(const uint8_t *p)
{
    struct ind_state t = their_state(p);
    return same_as(&t);
}

/* Both answers to a case are the same, and so are the buffers afterwards. */
static int agree(const struct call *c)
{
    struct field *a = ours, *b = theirs;
    int same = 1;
    for (int i = 0; i < c->count; i++) {
        a[i].len = b[i].len = c->fields[i].len;
        memcpy(a[i].bytes, c->fields[i].bytes, c->fields[i].len);
        memcpy(b[i].bytes, c->fields[i].bytes, c->fields[i].len);
    }
    switch (c->number) {
    case 1: {
        press_checked r = press_check(a[0].bytes, a[0].len);
        struct ind_check_answer t = ind_check(b[0].bytes, b[0].len);
        same = r.number == t.number && r.place == t.place;
        break;
    }
    case 2: {
        press_built r = press_build(a[0].bytes, a[0].len, a[1].bytes, a[1].len);
        struct ind_build_answer t = ind_build(b[0].bytes, b[0].len, b[1].bytes, b[1].len);
        same = r.number == t.number && r.place == t.place && r.count == t.count;
        break;
    }
    case 3: {
        press_outcome r = press_start(a[0].bytes, a[0].len, a[1].bytes[0], a[2].bytes, a[2].len, a[3].bytes, a[3].len,
                                      a[4].bytes, a[4].len);
        struct ind_state_answer t = ind_start(b[0].bytes, b[0].len, b[1].bytes[0], b[2].bytes, b[2].len, b[3].bytes,
                                              b[3].len, b[4].bytes, b[4].len);
        same = r.number == t.number && same_state(&r.state, &t.state);
        break;
    }
    case 4: {
        static struct field log, kept;
        press_state lent = our_state(a[1].bytes);
        log = a[2];
        kept = a[3];
        press_outcome r = press_step(our_state(a[1].bytes), a[0].bytes, a[0].len, a[2].bytes, a[2].len, a[3].bytes,
                                     a[3].len, a[4].bytes[0], a[4].bytes[1]);
        uint8_t number = press_advance(&lent, a[0].bytes, a[0].len, log.bytes, log.len, kept.bytes, kept.len,
                                       a[4].bytes[0], a[4].bytes[1]);
        struct ind_state_answer t = ind_step(b[0].bytes, b[0].len, their_state(b[1].bytes), b[2].bytes, b[2].len,
                                             b[3].bytes, b[3].len, b[4].bytes[0], b[4].bytes[1]);
        same = r.number == t.number && same_state(&r.state, &t.state) && number == t.number && same_state(&lent, &t.state)
            && memcmp(log.bytes, b[2].bytes, log.len) == 0 && memcmp(kept.bytes, b[3].bytes, kept.len) == 0;
        break;
    }
    case 5: {
        size_t most = word(a[5].bytes) | (size_t)word(a[5].bytes + 4) << 32;
        press_ran r = press_run(our_state(a[1].bytes), a[0].bytes, a[0].len, a[2].bytes, a[2].len, a[3].bytes, a[3].len,
                                a[4].bytes, a[4].len, most);
        struct ind_run_answer t = ind_run(b[0].bytes, b[0].len, their_state(b[1].bytes), b[2].bytes, b[2].len,
                                          b[3].bytes, b[3].len, b[4].bytes, b[4].len, most);
        same = r.number == t.number && same_state(&r.state, &t.state) && r.steps == t.steps;
        break;
    }
    case 6: {
        press_outcome r = press_undo(our_state(a[1].bytes), a[0].bytes, a[0].len, a[2].bytes, a[2].len, a[3].bytes,
                                     a[3].len);
        struct ind_state_answer t = ind_undo(b[0].bytes, b[0].len, their_state(b[1].bytes), b[2].bytes, b[2].len,
                                             b[3].bytes, b[3].len);
        same = r.number == t.number && same_state(&r.state, &t.state);
        break;
    }
    case 7: {
        press_lit r = press_lights(our_state(a[1].bytes), a[0].bytes, a[0].len);
        struct ind_lights_answer t = ind_lights(b[0].bytes, b[0].len, their_state(b[1].bytes));
        same = r.number == t.number && r.ready == t.ready && r.in_turn == t.in_turn && r.waiting == t.waiting
            && r.ended == t.ended && memcmp(r.rows, t.rows, sizeof r.rows) == 0;
        break;
    }
    case 9: {
        press_told r = press_readiness(our_state(a[1].bytes), a[0].bytes, a[0].len, a[2].bytes[0]);
        struct ind_readiness_answer t =
            ind_readiness(b[0].bytes, b[0].len, their_state(b[1].bytes), b[2].bytes[0]);
        same = r.number == t.number && r.place == t.place;
        break;
    }
    case 10: {
        press_reason r = press_why(our_state(a[1].bytes), a[0].bytes, a[0].len, a[2].bytes[0]);
        struct ind_why_answer t = ind_why(b[0].bytes, b[0].len, their_state(b[1].bytes), b[2].bytes[0]);
        same = same_reason(&r, &t);
        break;
    }
    default:
        break;
    }
    for (int i = 0; i < c->count; i++)
        same = same && memcmp(a[i].bytes, b[i].bytes, a[i].len) == 0;
    return same;
}

/* Bytes that a field must keep: a state, B, a pick, a most-steps number and a station have a fixed length. */
static int fixed(const struct call *c, int i)
{
    return (c->number >= 3 && i == 1) || (c->number == 4 && i == 4) || (c->number == 5 && i == 5)
        || (c->number >= 9 && i == 2);
}

/* Cuts bytes off the ends of the fields and sets bytes to zero while the two still differ. */
static void cut(struct call *c)
{
    static struct call shorter;
    int again = 1;
    while (again) {
        again = 0;
        for (int i = 0; i < c->count; i++) {
            for (size_t by = c->fields[i].len; by > 0 && !fixed(c, i); by /= 2) {
                shorter = *c;
                shorter.fields[i].len -= by;
                if (!agree(&shorter)) {
                    *c = shorter;
                    again = 1;
                    break;
                }
            }
            for (size_t at = 0; at < c->fields[i].len; at++) {
                if (c->fields[i].bytes[at] == 0)
                    continue;
                shorter = *c;
                shorter.fields[i].bytes[at] = 0;
                if (!agree(&shorter)) {
                    *c = shorter;
                    again = 1;
                }
            }
        }
    }
}

static void show(const struct call *c)
{
    printf("call %d\n", c->number);
    for (int i = 0; i < c->count; i++) {
        printf("field %d, %zu bytes:", i, c->fields[i].len);
        for (size_t at = 0; at < c->fields[i].len; at++)
            printf(" %d", c->fields[i].bytes[at]);
        printf("\n");
    }
}

int main(int argc, char **argv)
{
    static struct call c;
    size_t compared = 0, passed_by = 0;
    FILE *stream = argc == 2 ? fopen(argv[1], "rb") : NULL;
    if (!stream) {
        fprintf(stderr, "usage: compare FILE\n");
        return 2;
    }
    while ((c.number = fgetc(stream)) != EOF) {
        if (c.number < 1 || c.number > CALLS) {
            fprintf(stderr, "compare: no such call: %d\n", c.number);
            return 2;
        }
        c.count = field_counts[c.number];
        for (int i = 0; i < c.count; i++) {
            int low = fgetc(stream), high = fgetc(stream);
            c.fields[i].len = (size_t)(low | high << 8);
            if (high == EOF || fread(c.fields[i].bytes, 1, c.fields[i].len, stream) != c.fields[i].len) {
                fprintf(stderr, "compare: the stream ends in the middle of a case\n");
                return 2;
            }
        }
        if (c.number == TRACE) {
            passed_by++;
            continue;
        }
        if (kept_fields[c.number] != 0)
            make_kept(&c.fields[kept_fields[c.number]]);
        if (!agree(&c)) {
            cut(&c);
            show(&c);
            return 1;
        }
        compared++;
    }
    fclose(stream);
    printf("%zu %zu\n", compared, passed_by);
    return 0;
}
