/*
 * selftest.c - the documents' bench cases and some properties.
 *
 * Prints each check that failed, then a count; ends with 1 if any failed.
 */
#include <stdio.h>
#include <string.h>

#include "press.h"
#include "random.h"
#include "samples.h"

static unsigned long checks, failures;

/* The kept buffer of every test that has none of its own; junk at first. */
static uint8_t kept[IND_KEPT_BYTES];

#define CHECK(what) check((what), #what, __LINE__)

static void check(int good, const char *what, int line)
{
    checks++;
    if (!good) {
        failures++;
        if (failures <= 50)
            printf("line %d failed: %s\n", line, what);
    }
}

/* Whether the sequence gets this answer from check, and from build with a
 * buffer that has room, which must stay as it was where it is refused. */
static int refused(const struct sequence *p, uint8_t number, uint16_t place)
{
    static uint8_t buf[IND_ITEM * IND_MAX_ITEMS];
    struct ind_check_answer c = ind_check(p->bytes, p->len);
    struct ind_build_answer b;

    memset(buf, 0xA5, sizeof buf);
    b = ind_build(p->bytes, p->len, buf, sizeof buf);
    if (number != IND_FINE) {
        for (size_t i = 0; i < sizeof buf; i++)
            if (buf[i] != 0xA5)
                return 0;
        if (b.count != 0)
            return 0;
    }
    return c.number == number && c.place == place
        && b.number == number && b.place == place;
}

static int same_state(const struct ind_state *x, const struct ind_state *y)
{
    return memcmp(x->var, y->var, sizeof x->var) == 0
        && memcmp(x->pos, y->pos, sizeof x->pos) == 0
        && memcmp(x->pri, y->pri, sizeof x->pri) == 0
        && memcmp(x->cnt, y->cnt, sizeof x->cnt) == 0
        && x->n == y->n && x->b == y->b && x->m == y->m;
}

static int zero_state(const struct ind_state *x)
{
    static const struct ind_state zero = { 0 };

    return same_state(x, &zero);
}

/* Whether the lights were given and the station is lit on just these
 * variables, bit v for variable v. */
static int lit(const struct ind_lights_answer *l, size_t station,
               uint32_t reads, uint32_t writes)
{
    uint32_t row[2] = { 0, 0 };

    for (int i = 0; i < 2; i++)
        for (int v = 0; v < IND_VARS; v++)
            row[i] |= (uint32_t)(l->rows[i][v] >> station & 1) << v;
    return l->number == IND_FINE && row[0] == reads && row[1] == writes;
}

static void nested_whiles(struct sequence *p, int deep)
{
    p->len = 0;
    add_bare(p, IND_STATION);
    for (int i = 0; i < deep; i++)
        add_bare(p, IND_WHILE);
    add_bare(p, IND_SKIP);
    for (int i = 0; i < deep; i++)
        add_bare(p, IND_OD);
}

static void dryer(struct sequence *p)
{
    p->len = 0;
    add_bare(p, IND_STATION);
    add(p, IND_SET, 0, 0, 0, 1);       /* SET v0 := 1 */
    add_bare(p, IND_STATION);
    add(p, IND_AWAIT, 0, 0, 0, 1);     /* AWAIT v0 = 1 */
    add(p, IND_SET, 0, 0, 2, 1);       /* SET v0 := v0+1 */
    add_bare(p, IND_END);
}

static void test_check_cases(void)
{
    static struct sequence p;
    static uint8_t buf[IND_ITEM * IND_MAX_ITEMS];
    struct ind_build_answer b;

    /* P1 no bytes: LENGTH. */
    p.len = 0;
    CHECK(refused(&p, IND_LENGTH, 0));
    CHECK(ind_check(NULL, 0).number == IND_LENGTH);

    /* P2 STATION, SKIP: accepted, list of 3 records. */
    add_bare(&p, IND_STATION);
    add_bare(&p, IND_SKIP);
    CHECK(refused(&p, IND_FINE, 0));
    memset(buf, 0x5A, sizeof buf);
    b = ind_build(p.bytes, p.len, buf, 48);
    CHECK(b.number == IND_FINE && b.place == 0 && b.count == 3);
    {
        static const uint8_t want[48] = {
            16, 0, 0, 0, 0, 0, 0, 0, 0, 0, 1, 0, 0, 0, 0, 0,
            2, 0, 0, 0, 0, 0, 0, 0, 0, 0, 2, 0, 0, 0, 0, 0,
            17, 0, 0, 0, 0, 0, 0, 0, 0, 0, 0, 0, 0, 0, 0, 0
        };
        CHECK(memcmp(buf, want, 48) == 0);
        CHECK(buf[48] == 0x5A);
    }
    memset(buf, 0x5A, sizeof buf);
    b = ind_build(p.bytes, p.len, buf, 47);
    CHECK(b.number == IND_ROOM && b.place == 0 && b.count == 0);
    CHECK(buf[0] == 0x5A && buf[46] == 0x5A);

    /* P3 STATION: SHAPE at 1. */
    p.len = 0;
    add_bare(&p, IND_STATION);
    CHECK(refused(&p, IND_SHAPE, 1));

    /* P4 SKIP, STATION, SKIP: SHAPE at 0. */
    p.len = 0;
    add_bare(&p, IND_SKIP);
    add_bare(&p, IND_STATION);
    add_bare(&p, IND_SKIP);
    CHECK(refused(&p, IND_SHAPE, 0));

    /* P5 STATION, IF, SKIP, FI: SHAPE at 3. */
    p.len = 0;
    add_bare(&p, IND_STATION);
    add_bare(&p, IND_IF);
    add_bare(&p, IND_SKIP);
    add_bare(&p, IND_FI);
    CHECK(refused(&p, IND_SHAPE, 3));

    /* P6 STATION, AWAIT, WHILE: SHAPE at 2. */
    p.len = 0;
    add_bare(&p, IND_STATION);
    add_bare(&p, IND_AWAIT);
    add_bare(&p, IND_WHILE);
    CHECK(refused(&p, IND_SHAPE, 2));

    /* P7 SET op 0 with b = 1: FIELD. */
    p.len = 0;
    add(&p, IND_SET, 0, 1, 0, 0);
    CHECK(refused(&p, IND_FIELD, 0));
    p.len = 0;
    add_bare(&p, IND_STATION);
    add(&p, IND_SET, 0, 1, 0, 0);
    CHECK(refused(&p, IND_FIELD, 1));

    /* P8 SET op 4, k = 32: FIELD; with k = 31 the record is right. */
    p.len = 0;
    add_bare(&p, IND_STATION);
    add(&p, IND_SET, 0, 0, 4, 32);
    CHECK(refused(&p, IND_FIELD, 1));
    p.len = 0;
    add_bare(&p, IND_STATION);
    add(&p, IND_SET, 0, 0, 4, 31);
    CHECK(refused(&p, IND_FINE, 0));

    /* Seventeen nested WHILEs round a SKIP, closed, after STATION: DEPTH at
     * 17; sixteen pass. */
    nested_whiles(&p, 17);
    CHECK(refused(&p, IND_DEPTH, 17));
    nested_whiles(&p, 16);
    CHECK(refused(&p, IND_FINE, 0));

    /* Nine stations of one SKIP: COUNT. */
    for (int n = 0; n <= 9; n++) {
        p.len = 0;
        add(&p, IND_SET, 0, 0, 0, 0);
        for (int i = 0; i < n; i++) {
            add_bare(&p, IND_STATION);
            add_bare(&p, IND_SKIP);
        }
        CHECK(refused(&p, n == 0 || n == 9 ? IND_COUNT : IND_FINE, 0));
    }

    /* 8,192 bytes pass LENGTH, 8,200 don't. */
    p.len = 0;
    add_bare(&p, IND_STATION);
    while (p.len < 8192)
        add_bare(&p, IND_SKIP);
    CHECK(refused(&p, IND_FINE, 0));
    add_bare(&p, IND_SKIP);
    CHECK(p.len == 8200);
    CHECK(refused(&p, IND_LENGTH, 0));
    p.len = 8191;
    CHECK(refused(&p, IND_LENGTH, 0));

    /* The longest list. */
    p.len = 0;
    for (int i = 0; i < 8; i++) {
        add_bare(&p, IND_STATION);
        for (int j = 0; j < 127; j++)
            add_bare(&p, IND_SKIP);
    }
    CHECK(p.len == 8192);
    b = ind_build(p.bytes, p.len, buf, sizeof buf);
    CHECK(b.number == IND_FINE && b.count == 1032);
    b = ind_build(p.bytes, p.len, buf, sizeof buf - 1);
    CHECK(b.number == IND_ROOM && b.count == 0);

    /* A thousand unclosed WHILEs, alone and with a late fault; a thousand
     * deep is SHAPE where it is not closed and DEPTH where it is. */
    p.len = 0;
    add_bare(&p, IND_STATION);
    for (int i = 0; i < 1000; i++)
        add_bare(&p, IND_WHILE);
    CHECK(refused(&p, IND_SHAPE, 1001));
    add_bare(&p, IND_END);
    CHECK(refused(&p, IND_SHAPE, 1001));
    p.len = 0;
    add_bare(&p, IND_STATION);
    while (p.len < IND_MAX_FILE)
        add_bare(&p, IND_IF);
    CHECK(refused(&p, IND_SHAPE, 1024));
    nested_whiles(&p, 511);
    CHECK(p.len == IND_MAX_FILE);
    CHECK(refused(&p, IND_DEPTH, 17));
    p.bytes[IND_MAX_FILE - 8] = IND_FI;
    CHECK(refused(&p, IND_SHAPE, 1023));
}

static void test_p9_p10(void)
{
    static struct sequence p;
    uint8_t list[IND_ITEM * 16], log[16], before[16];
    uint8_t resets[2] = { 0, 0 };
    static const uint8_t picks[6] = { 0, 0, 0, 0, 1, 1 };
    struct ind_build_answer b;
    struct ind_state_answer s;
    struct ind_run_answer r;

    /* P9 zero minus 1 is 4,294,967,295: in the initial part, in a step, and
     * against a variable. */
    p.len = 0;
    add(&p, IND_SET, 0, 0, 3, 1);
    add_bare(&p, IND_STATION);
    add(&p, IND_SET, 1, 1, 3, 1);
    add(&p, IND_SET, 2, 2, 5, 1);
    b = ind_build(p.bytes, p.len, list, sizeof list);
    CHECK(b.number == IND_FINE && b.count == 5);
    s = ind_start(list, 80, 0, resets, 1, log, sizeof log, kept, sizeof kept);
    CHECK(s.number == IND_FINE && s.state.var[0] == 4294967295u);
    s = ind_step(list, 80, s.state, log, sizeof log, kept, sizeof kept, 0, 0);
    CHECK(s.number == IND_FINE && s.state.var[1] == 4294967295u);
    s = ind_step(list, 80, s.state, log, sizeof log, kept, sizeof kept, 0, 0);
    CHECK(s.number == IND_FINE && s.state.var[2] == 1);

    /* P10 two stations, each WHILE v0 = v0 around SKIP, B = 1, resets 0 and
     * 1. */
    loops(&p, 2);
    b = ind_build(p.bytes, p.len, list, sizeof list);
    CHECK(b.number == IND_FINE && b.count == 8);
    resets[1] = 1;
    s = ind_start(list, 128, 1, resets, 2, log, sizeof log, kept, sizeof kept);
    CHECK(s.number == IND_FINE && s.state.pri[0] == 0 && s.state.pri[1] == 1);
    CHECK(log[0] == 0 && log[1] == 0 && log[2] == 1 && log[3] == 1);
    r = ind_run(list, 128, s.state, log, sizeof log, kept, sizeof kept, picks,
                4, 100);
    CHECK(r.number == IND_FINE && r.steps == 2);
    CHECK(r.state.pri[0] == 0 && r.state.pri[1] == -1);
    CHECK(r.state.cnt[0] == 0 && r.state.cnt[1] == 2);
    memcpy(before, log, sizeof log);
    s = ind_step(list, 128, r.state, log, sizeof log, kept, sizeof kept, 0, 0);
    CHECK(s.number == IND_TURN && same_state(&s.state, &r.state));
    CHECK(memcmp(before, log, sizeof log) == 0);
    s = ind_step(list, 128, r.state, log, sizeof log, kept, sizeof kept, 1, 1);
    CHECK(s.number == IND_FINE);
    CHECK(s.state.pri[0] == -1 && s.state.pri[1] == 1);
    CHECK(s.state.cnt[0] == 1 && s.state.cnt[1] == 0);
    CHECK(log[8] == 1 && log[9] == 1);

    /* the same in one run, by the picks' end, by the number, by a refusal */
    s = ind_start(list, 128, 1, resets, 2, log, sizeof log, kept, sizeof kept);
    r = ind_run(list, 128, s.state, log, sizeof log, kept, sizeof kept, picks,
                6, 3);
    CHECK(r.number == IND_FINE && r.steps == 3 && r.state.m == 3);
    r = ind_run(list, 128, s.state, log, sizeof log, kept, sizeof kept, picks,
                6, 1);
    CHECK(r.number == IND_FINE && r.steps == 1 && r.state.m == 1);
    r = ind_run(list, 128, s.state, log, sizeof log, kept, sizeof kept, picks,
                6, 0);
    CHECK(r.number == IND_FINE && r.steps == 0 && same_state(&r.state, &s.state));
    r = ind_run(list, 128, s.state, log, 8, kept, sizeof kept, picks, 6,
                SIZE_MAX);
    CHECK(r.number == IND_ROOM && r.steps == 2 && r.state.m == 2);
    r = ind_run(list, 128, s.state, log, 8, kept, sizeof kept, picks, 5, 0);
    CHECK(r.number == IND_LENGTH && r.steps == 0);
    r = ind_run(list, 127, s.state, log, 8, kept, sizeof kept, picks, 6, 0);
    CHECK(r.number == IND_LIST && r.steps == 0);
    s.state.n = 1;
    r = ind_run(list, 128, s.state, log, 8, kept, sizeof kept, picks, 6, 0);
    CHECK(r.number == IND_STATE && r.steps == 0);
}

static void test_dryer(void)
{
    static struct sequence p;
    uint8_t list[IND_ITEM * 7], log[8];
    static const uint8_t resets[2] = { 0, 0 };
    static const uint8_t start[3] = { 0, 0, 0 };
    static const uint8_t picks[8] = { 0, 0, 1, 0, 255, 0, 255, 0 };
    static const char want[] = "0 1 1 0 0 0 0\n1 2 2 0 0 0 0\n"
                               "2 0 0 0 0 0 0\n1 2 2 0 0 0 0\n"
                               "0 1 1 0 0 0 0\nend 0\n";
    struct ind_build_answer b;
    struct ind_state_answer first, s, t;
    struct ind_lights_answer l;
    uint8_t out[128];
    size_t len;

    dryer(&p);
    b = ind_build(p.bytes, p.len, list, sizeof list);
    CHECK(b.number == IND_FINE && b.count == 7);   /* "List: 7 records." */
    {
        static const uint8_t built[112] = {
            16, 0, 0, 0, 0, 0, 0, 0, 0, 0, 2, 0, 0, 0, 0, 0,
            16, 1, 0, 0, 0, 0, 0, 0, 1, 0, 4, 0, 0, 0, 0, 0,
            3, 0, 0, 0, 1, 0, 0, 0, 0, 0, 3, 0, 0, 0, 0, 0,
            17, 0, 0, 0, 0, 0, 0, 0, 0, 0, 0, 0, 0, 0, 0, 0,
            9, 0, 0, 0, 1, 0, 0, 0, 1, 0, 5, 0, 6, 0, 0, 0,
            3, 0, 0, 2, 1, 0, 0, 0, 1, 1, 0, 0, 0, 0, 0, 0,
            17, 0, 0, 0, 0, 0, 0, 0, 1, 0, 0, 0, 0, 0, 0, 0
        };
        CHECK(memcmp(list, built, sizeof built) == 0);
    }
    first = ind_start(list, 112, 0, resets, 2, log, sizeof log, kept,
                      sizeof kept);
    CHECK(first.number == IND_FINE);

    /* "picking 1 first is NOT READY" */
    s = ind_step(list, 112, first.state, log, sizeof log, kept, sizeof kept, 1,
                 0);
    CHECK(s.number == IND_NOT_READY && same_state(&s.state, &first.state));

    /* "In "Dryer" the start then has write mask 1 for variable 0, and read
     * mask 2 as before." */
    l = ind_lights(list, 112, first.state);
    CHECK(l.number == IND_FINE && l.rows[0][0] == 2 && l.rows[1][0] == 1);
    CHECK(lit(&l, 0, 0, 1) && lit(&l, 1, 1, 0));
    CHECK(l.ready == 1 && l.in_turn == 1 && l.waiting == 2 && l.ended == 0);

    /* P12 picks 0, 1, then two undos give back the start state. */
    s = ind_step(list, 112, first.state, log, sizeof log, kept, sizeof kept, 0,
                 0);
    CHECK(s.number == IND_FINE && s.state.var[0] == 1);
    l = ind_lights(list, 112, s.state);  /* station 1 is ready, 0 has ended */
    CHECK(l.number == IND_FINE && l.rows[0][0] == 2 && l.rows[1][0] == 2);
    CHECK(lit(&l, 0, 0, 0) && lit(&l, 1, 1, 1));
    CHECK(l.ready == 2 && l.in_turn == 2 && l.waiting == 0 && l.ended == 1);
    t = ind_step(list, 112, s.state, log, sizeof log, kept, sizeof kept, 1, 0);
    CHECK(t.number == IND_FINE && t.state.var[0] == 2 && t.state.m == 2);
    l = ind_lights(list, 112, t.state);
    CHECK(l.ready == 0 && l.in_turn == 0 && l.waiting == 0 && l.ended == 3);
    CHECK(lit(&l, 0, 0, 0) && lit(&l, 1, 0, 0));
    t = ind_undo(list, 112, t.state, log, sizeof log, kept, sizeof kept);
    CHECK(t.number == IND_FINE && same_state(&t.state, &s.state));
    l = ind_lights(list, 112, t.state);
    CHECK(l.number == IND_FINE && l.rows[0][0] == 2 && l.rows[1][0] == 2);
    t = ind_undo(list, 112, t.state, log, sizeof log, kept, sizeof kept);
    CHECK(t.number == IND_FINE && same_state(&t.state, &first.state));
    l = ind_lights(list, 112, t.state);  /* station 1 waits again */
    CHECK(l.number == IND_FINE && l.rows[0][0] == 2 && l.rows[1][0] == 1);
    CHECK(l.ready == 1 && l.in_turn == 1 && l.waiting == 2 && l.ended == 0);
    t = ind_undo(list, 112, t.state, log, sizeof log, kept, sizeof kept);
    CHECK(t.number == IND_EMPTY && same_state(&t.state, &first.state));

    /* The trace. */
    memset(out, '?', sizeof out);
    len = ind_trace(p.bytes, p.len, start, 3, picks, 8, out, sizeof out);
    CHECK(len == strlen(want) && memcmp(out, want, len) == 0);
    CHECK(out[len] == '?');
    memset(out, '?', sizeof out);
    CHECK(ind_trace(p.bytes, p.len, start, 3, picks, 8, out, 12) == len);
    CHECK(memcmp(out, want, 12) == 0 && out[12] == '?');
    CHECK(ind_trace(p.bytes, p.len, start, 3, picks, 8, NULL, 0) == len);
    len = ind_trace(p.bytes, p.len, NULL, 0, picks, 8, out, sizeof out);
    CHECK(len == 7 && memcmp(out, "end 13\n", 7) == 0);
    len = ind_trace(p.bytes, p.len, start, 3, picks, 7, out, sizeof out);
    CHECK(len == 20 && memcmp(out, "0 1 1 0 0 0 0\nend 1\n", 20) == 0);
    len = ind_trace(NULL, 0, NULL, 0, NULL, 0, out, sizeof out);
    CHECK(len == 6 && memcmp(out, "end 1\n", 6) == 0);
    len = ind_trace(p.bytes, p.len, start, 3, picks + 4, 4, out, sizeof out);
    CHECK(len == 21 && memcmp(out, "0 1 1 0 0 0 0\nend 14\n", 21) == 0);
}

/* ------------------------------------------------------------------ */
/* Ready, ended, waiting                                              */
/* ------------------------------------------------------------------ */

/* Whether readiness tells this of the station. */
static int told(const uint8_t *list, size_t len, struct ind_state state,
                uint8_t station, uint8_t number, uint16_t place)
{
    struct ind_readiness_answer a = ind_readiness(list, len, state, station);

    return a.number == number && a.place == place;
}

/* Whether the trace of the sequence is this text. */
static int traced(const struct sequence *p, const uint8_t *start, size_t slen,
                  const uint8_t *picks, size_t klen, const char *want)
{
    uint8_t out[1024];
    size_t len = ind_trace(p->bytes, p->len, start, slen, picks, klen, out,
                           sizeof out);

    return len == strlen(want) && memcmp(out, want, len) == 0;
}

/* Builds the longest file, SKIPs and at its end an AWAIT, which is record 1,021
 * of the list.  Answers the list's length. */
static size_t late_await(uint8_t *list, size_t room, uint8_t b, uint8_t op,
                         uint32_t k)
{
    static struct sequence p;

    p.len = 0;
    add_bare(&p, IND_STATION);
    while (p.len < 8 * 1021)
        add_bare(&p, IND_SKIP);
    add_block(&p, IND_AWAIT, b, op, k);
    return ind_build(p.bytes, p.len, list, room).count * 16u;
}

/* One station that ends, one that waits for ever, one that loops: records
 * 3 and 4, 5 to 7, 8 to 10 of the list. */
static void purge(struct sequence *p)
{
    p->len = 0;
    add_bare(p, IND_STATION);
    add_bare(p, IND_SKIP);
    add_bare(p, IND_STATION);
    add(p, IND_AWAIT, 0, 0, 3, 1);     /* AWAIT v0 is at least 1 */
    add_bare(p, IND_SKIP);
    add_bare(p, IND_END);
    add_bare(p, IND_STATION);
    add(p, IND_WHILE, 0, 0, 4, 0);     /* WHILE v0 = v0 */
    add_bare(p, IND_SKIP);
    add_bare(p, IND_OD);
}

/* Step, run, undo and the trace tell ended from waiting. */
static void test_ended(void)
{
    static struct sequence p;
    static uint8_t whole[8300];
    uint8_t list[IND_ITEM * 11], log[16], before[16];
    static const uint8_t resets[3] = { 0, 0, 0 };
    static const uint8_t start[4] = { 0, 0, 0, 0 };
    static const uint8_t end_0[6] = { 0, 0, 2, 0, 0, 0 };
    static const uint8_t wait_1[6] = { 0, 0, 2, 0, 1, 0 };
    static const uint8_t withdrawn[8] = { 0, 0, 255, 0, 0, 0, 0, 0 };
    size_t len = sizeof list;
    struct ind_state_answer first, s, t;
    struct ind_run_answer r;
    struct ind_lights_answer l;
    struct ind_state u;

    purge(&p);
    CHECK(ind_build(p.bytes, p.len, list, len).count == 11);
    memset(log, 0xEE, sizeof log);
    first = ind_start(list, len, 0, resets, 3, log, sizeof log, kept,
                      sizeof kept);
    s = ind_step(list, len, first.state, log, sizeof log, kept, sizeof kept, 0,
                 0);
    CHECK(s.number == IND_FINE && s.state.pos[0] == 4);

    /* ended is 16, waiting is 11 */
    memcpy(before, log, sizeof log);
    t = ind_step(list, len, s.state, log, sizeof log, kept, sizeof kept, 0, 0);
    CHECK(t.number == IND_ENDED && same_state(&t.state, &s.state));
    t = ind_step(list, len, s.state, log, sizeof log, kept, sizeof kept, 1, 0);
    CHECK(t.number == IND_NOT_READY && same_state(&t.state, &s.state));
    CHECK(memcmp(before, log, sizeof log) == 0);

    /* the lights' three masks are the three cases */
    l = ind_lights(list, len, s.state);
    CHECK(l.ready == 4 && l.waiting == 2 && l.ended == 1);

    /* 16 and 11 after 7, 8, 9, 6 and 10, before 12 and 13 */
    for (uint8_t i = 0; i <= 1; i++) {
        uint8_t number = i == 0 ? IND_ENDED : IND_NOT_READY;

        u = s.state;
        u.b = 9;
        u.pri[i] = 9;
        CHECK(ind_step(list, len, u, log, 10, kept, sizeof kept, i,
                       10).number == number);
        CHECK(ind_step(list, len, u, log, 9, kept, sizeof kept, i,
                       10).number == IND_ROOM);
        CHECK(ind_step(list, len, u, log, 10, kept, sizeof kept, 3,
                       10).number == IND_COMPONENT);
        u.m = 4096;
        CHECK(ind_step(list, len, u, log, 10, kept, sizeof kept, i,
                       10).number == IND_FULL);
        CHECK(ind_step(list, len, u, whole, sizeof whole, kept, sizeof kept, i,
                       10).number == IND_FULL);
        u.m = 4097;
        CHECK(ind_step(list, len, u, log, 10, kept, sizeof kept, i,
                       10).number == IND_STATE);
        CHECK(ind_step(list, len - 1, u, log, 10, kept, sizeof kept, i,
                       10).number == IND_LIST);
    }
    CHECK(memcmp(before, log, sizeof log) == 0);

    /* run: refused at once, behind two steps, and not where the number of
     * steps ends before it */
    r = ind_run(list, len, s.state, log, sizeof log, kept, sizeof kept, end_0,
                2, 1);
    CHECK(r.number == IND_ENDED && r.steps == 0);
    CHECK(same_state(&r.state, &s.state));
    r = ind_run(list, len, first.state, log, sizeof log, kept, sizeof kept,
                end_0, 6, 9);
    CHECK(r.number == IND_ENDED && r.steps == 2 && r.state.m == 2);
    r = ind_run(list, len, first.state, log, sizeof log, kept, sizeof kept,
                end_0, 6, 2);
    CHECK(r.number == IND_FINE && r.steps == 2);
    r = ind_run(list, len, first.state, log, 10, kept, sizeof kept, end_0, 6,
                9);
    CHECK(r.number == IND_ROOM && r.steps == 2);
    r = ind_run(list, len, first.state, log, sizeof log, kept, sizeof kept,
                wait_1, 2, 1);
    CHECK(r.number == IND_FINE && r.steps == 1);
    r = ind_run(list, len, first.state, log, sizeof log, kept, sizeof kept,
                wait_1, 6, 9);
    CHECK(r.number == IND_NOT_READY && r.steps == 2 && r.state.m == 2);

    /* undo: a pick of an ended station in the log is 15, and so is one of a
     * waiting station; the record withdrawn is not judged */
    r = ind_run(list, len, r.state, log, sizeof log, kept, sizeof kept,
                end_0 + 2, 2, 1);
    CHECK(r.number == IND_FINE && r.state.m == 3);
    s = ind_undo(list, len, r.state, log, sizeof log, kept, sizeof kept);
    CHECK(s.number == IND_FINE && s.state.m == 2);
    for (uint8_t i = 0; i <= 1; i++) {
        memcpy(before, log, sizeof log);
        before[8] = i;
        t = ind_undo(list, len, r.state, before, sizeof before, kept,
                     sizeof kept);
        CHECK(t.number == IND_LOG && same_state(&t.state, &r.state));
        memcpy(before, log, sizeof log);
        before[10] = i;
        t = ind_undo(list, len, r.state, before, sizeof before, kept,
                     sizeof kept);
        CHECK(t.number == IND_FINE && same_state(&t.state, &s.state));
    }

    /* the trace */
    CHECK(traced(&p, start, 4, end_0, 6,
                 "0 5 5 0 0 0 0 0 0\n1 4 4 0 0 -1 0 0 1\n"
                 "2 4 4 0 0 0 0 0 0\nend 16\n"));
    CHECK(traced(&p, start, 4, wait_1, 6,
                 "0 5 5 0 0 0 0 0 0\n1 4 4 0 0 -1 0 0 1\n"
                 "2 4 4 0 0 0 0 0 0\nend 11\n"));
    CHECK(traced(&p, start, 4, wait_1 + 4, 2,
                 "0 5 5 0 0 0 0 0 0\nend 11\n"));
    CHECK(traced(&p, start, 4, withdrawn, 8,
                 "0 5 5 0 0 0 0 0 0\n1 4 4 0 0 -1 0 0 1\n"
                 "0 5 5 0 0 0 0 0 0\n1 4 4 0 0 -1 0 0 1\nend 16\n"));

    /* 10 where every station has ended */
    p.len = 0;
    add_bare(&p, IND_STATION);
    add_bare(&p, IND_SKIP);
    CHECK(ind_build(p.bytes, p.len, list, len).count == 3);
    s = ind_start(list, 48, 0, resets, 1, log, sizeof log, kept, sizeof kept);
    s = ind_step(list, 48, s.state, log, sizeof log, kept, sizeof kept, 0, 0);
    t = ind_step(list, 48, s.state, log, sizeof log, kept, sizeof kept, 0, 0);
    CHECK(t.number == IND_ENDED);
    t = ind_step(list, 48, s.state, log, sizeof log, kept, sizeof kept, 1, 0);
    CHECK(t.number == IND_COMPONENT);
    t = ind_step(list, 48, s.state, log, sizeof log, kept, sizeof kept, 255,
                 0);
    CHECK(t.number == IND_COMPONENT);

    /* "Dryer": station 1 waits, then is ready, then has ended */
    dryer(&p);
    CHECK(traced(&p, start, 3, wait_1 + 4, 2, "0 1 1 0 0 0 0\nend 11\n"));
    CHECK(traced(&p, start, 3, withdrawn + 4, 4,
                 "0 1 1 0 0 0 0\n1 2 2 0 0 0 0\nend 16\n"));
}

/* The call: each case, each refusal, their order. */
static void test_readiness(void)
{
    static struct sequence p;
    static uint8_t longest[IND_ITEM * IND_MAX_ITEMS];
    uint8_t list[IND_ITEM * 32], log[32];
    static const uint8_t resets[8] = { 0 };
    struct ind_state_answer s;
    struct ind_state u;
    size_t len = IND_ITEM * 11;

    purge(&p);
    CHECK(ind_build(p.bytes, p.len, list, sizeof list).count == 11);
    s = ind_start(list, len, 1, resets, 3, log, sizeof log, kept, sizeof kept);
    CHECK(told(list, len, s.state, 0, IND_FINE, 0));
    CHECK(told(list, len, s.state, 1, IND_NOT_READY, 5));
    CHECK(told(list, len, s.state, 2, IND_FINE, 0));
    s = ind_step(list, len, s.state, log, sizeof log, kept, sizeof kept, 0, 1);
    CHECK(told(list, len, s.state, 0, IND_ENDED, 0));

    /* ready at AWAIT; whose turn it is does not matter, nor do the steps
     * that stand */
    u = s.state;
    u.var[0] = 1;
    u.pri[1] = 1;
    CHECK(told(list, len, u, 1, IND_FINE, 0));
    CHECK(ind_step(list, len, u, log, sizeof log, kept, sizeof kept, 1,
                   0).number == IND_TURN);
    u = s.state;
    u.m = 4096;
    CHECK(told(list, len, u, 0, IND_ENDED, 0));
    CHECK(told(list, len, u, 1, IND_NOT_READY, 5));
    CHECK(told(list, len, u, 2, IND_FINE, 0));

    /* 10 by station n, by one above it and by the last */
    CHECK(told(list, len, s.state, 3, IND_COMPONENT, 0));
    CHECK(told(list, len, s.state, 4, IND_COMPONENT, 0));
    CHECK(told(list, len, s.state, 8, IND_COMPONENT, 0));
    CHECK(told(list, len, s.state, 255, IND_COMPONENT, 0));

    /* 8, before 10, of a waiting station too */
    u.m = 4097;
    CHECK(told(list, len, u, 1, IND_STATE, 0));
    CHECK(told(list, len, u, 3, IND_STATE, 0));
    u = s.state;
    u.n = 4;
    CHECK(told(list, len, u, 1, IND_STATE, 0));
    CHECK(told(list, len, u, 3, IND_STATE, 0));
    u = s.state;
    u.pos[0] = 6;                      /* another station's, inside */
    CHECK(told(list, len, u, 1, IND_STATE, 0));

    /* 7, before 8 and 10 */
    CHECK(told(list, len - 16, s.state, 1, IND_LIST, 0));
    CHECK(told(list, len - 16, u, 1, IND_LIST, 0));
    CHECK(told(list, len - 16, u, 255, IND_LIST, 0));
    CHECK(told(NULL, 0, s.state, 0, IND_LIST, 0));

    /* an AWAIT of each op, against a constant and a variable; IF and WHILE
     * with the same condition never wait */
    for (uint8_t op = 0; op < 8; op++) {
        static const uint8_t kind[3] = { IND_AWAIT, IND_IF, IND_WHILE };
        static const uint32_t left[5] = { 4, 5, 6, 0, UINT32_MAX };
        static const uint8_t holds[4][5] = {
            { 0, 1, 0, 0, 0 },         /* "b equals," */
            { 1, 0, 1, 1, 1 },         /* "differs from," */
            { 1, 0, 0, 1, 0 },         /* "is below," */
            { 0, 1, 1, 0, 1 }          /* "is at least k" */
        };

        for (int i = 0; i < 3; i++) {
            p.len = 0;
            add(&p, IND_SET, 7, 0, 0, 5);
            add_bare(&p, IND_STATION);
            add_block(&p, kind[i], 2, op, op < 4 ? 5 : 7);
            len = ind_build(p.bytes, p.len, list, sizeof list).count * 16u;
            s = ind_start(list, len, 0, resets, 1, log, sizeof log, kept,
                          sizeof kept);
            CHECK(s.number == IND_FINE);
            for (int j = 0; j < 5; j++) {
                int waits = i == 0 && !holds[op % 4][j];

                s.state.var[2] = left[j];
                CHECK(told(list, len, s.state, 0,
                           waits ? IND_NOT_READY : IND_FINE, waits ? 2 : 0));
            }
        }
    }

    /* eight stations: the even ones wait, each at a place of its own */
    p.len = 0;
    for (int i = 0; i < 8; i++) {
        add_bare(&p, IND_STATION);
        if (i % 2 == 0)
            add(&p, IND_AWAIT, 0, 0, 1, 0);
        add_bare(&p, IND_SKIP);
        if (i % 2 == 0)
            add_bare(&p, IND_END);
    }
    len = ind_build(p.bytes, p.len, list, sizeof list).count * 16u;
    CHECK(len == 16 * 28);
    s = ind_start(list, len, 0, resets, 8, log, sizeof log, kept, sizeof kept);
    for (uint8_t i = 0; i < 8; i++)
        CHECK(told(list, len, s.state, i,
                   i % 2 == 0 ? IND_NOT_READY : IND_FINE,
                   i % 2 == 0 ? (uint16_t)(8 + 5 * (i / 2)) : 0));
    CHECK(told(list, len, s.state, 8, IND_COMPONENT, 0));
    CHECK(told(list, len, s.state, 255, IND_COMPONENT, 0));

    /* a place of two bytes */
    len = late_await(longest, sizeof longest, 0, 1, 0);
    s = ind_start(longest, len, 0, resets, 1, log, sizeof log, kept,
                  sizeof kept);
    CHECK(told(longest, len, s.state, 0, IND_FINE, 0));
    s.state.pos[0] = 1021;
    CHECK(told(longest, len, s.state, 0, IND_NOT_READY, 1021));
    s.state.pos[0] = 1023;
    CHECK(told(longest, len, s.state, 0, IND_ENDED, 0));
}

/* Lists that someone else wrote: several STOPs of a station, or none. */
static void test_foreign_stops(void)
{
    /* station 0 has three STOPs, one that nobody reaches; station 1 has none
     * and waits where its AWAIT leads back to itself */
    static const uint8_t list[] = {
        16, 0, 0, 0, 0, 0, 0, 0, 0, 0, 3, 0, 0, 0, 0, 0,
        16, 1, 0, 0, 0, 0, 0, 0, 1, 0, 5, 0, 0, 0, 0, 0,
        17, 0, 0, 0, 0, 0, 0, 0, 0, 0, 0, 0, 0, 0, 0, 0,
        4, 0, 0, 0, 0, 0, 0, 0, 0, 0, 7, 0, 2, 0, 0, 0,
        2, 0, 0, 0, 0, 0, 0, 0, 1, 0, 5, 0, 0, 0, 0, 0,
        9, 0, 0, 1, 0, 0, 0, 0, 1, 0, 6, 0, 5, 0, 0, 0,
        3, 0, 0, 3, 1, 0, 0, 0, 1, 1, 0, 0, 0, 0, 0, 0,
        17, 0, 0, 0, 0, 0, 0, 0, 0, 0, 0, 0, 0, 0, 0, 0,
        17, 0, 0, 0, 0, 0, 0, 0, 0, 0, 0, 0, 0, 0, 0, 0
    };
    static const uint8_t resets[2] = { 0, 0 };
    static const uint16_t stop[3] = { 2, 7, 8 };
    uint8_t log[32];
    struct ind_state_answer s, t;

    s = ind_start(list, sizeof list, 0, resets, 2, log, sizeof log, kept,
                  sizeof kept);
    CHECK(s.number == IND_FINE);
    CHECK(told(list, sizeof list, s.state, 0, IND_FINE, 0));
    CHECK(told(list, sizeof list, s.state, 1, IND_NOT_READY, 5));
    t = ind_step(list, sizeof list, s.state, log, sizeof log, kept,
                 sizeof kept, 0, 0);
    CHECK(t.number == IND_FINE && t.state.pos[0] == 7);
    for (int i = 0; i < 3; i++) {
        struct ind_lights_answer l;

        t.state.pos[0] = stop[i];
        CHECK(told(list, sizeof list, t.state, 0, IND_ENDED, 0));
        CHECK(ind_step(list, sizeof list, t.state, log, sizeof log, kept,
                       sizeof kept, 0, 0).number == IND_ENDED);
        l = ind_lights(list, sizeof list, t.state);
        CHECK(l.number == IND_FINE && l.ended == 1 && l.waiting == 2);
    }

    /* without a STOP a station waits and is ready by turns, and never ends */
    s.state.var[0] = 2;
    for (int i = 0; i < 2; i++) {
        CHECK(told(list, sizeof list, s.state, 1, IND_FINE, 0));
        s.state.pri[0] = 0;            /* so that station 1 is in turn */
        clear_counts(&s.state);
        s = ind_step(list, sizeof list, s.state, log, sizeof log, kept,
                     sizeof kept, 1, 0);
        CHECK(s.number == IND_FINE && s.state.pos[1] == 5);
    }
    CHECK(told(list, sizeof list, s.state, 1, IND_NOT_READY, 5));
    s.state.pos[1] = 4;                /* the SKIP that nobody reaches */
    CHECK(told(list, sizeof list, s.state, 1, IND_FINE, 0));
}

/* ------------------------------------------------------------------ */
/* The lights of a waiting and of a ready AWAIT                       */
/* ------------------------------------------------------------------ */

/* The bits of up to three variables. */
static uint32_t bits(unsigned u, unsigned v, unsigned x)
{
    return UINT32_C(1) << u | UINT32_C(1) << v | UINT32_C(1) << x;
}

/* Adds a body that touches each variable from 10 to 20 once: it reads 10, 11,
 * 13, 14, 15, 18 and 20, and writes 12, 16, 17 and 19. */
static void add_body(struct sequence *p)
{
    add(p, IND_IF, 0, 10, 4, 11);      /* IF v10 = v11 */
    add(p, IND_SET, 12, 13, 5, 14);    /* SET v12 := v13-v14 */
    add_bare(p, IND_ELSE);
    add(p, IND_IF, 0, 15, 2, 3);       /* IF v15 < 3 */
    add(p, IND_SET, 16, 0, 0, 7);      /* SET v16 := 7 */
    add_bare(p, IND_ELSE);
    add(p, IND_SET, 17, 18, 1, 0);     /* SET v17 := v18 */
    add_bare(p, IND_FI);
    add_bare(p, IND_FI);
    add(p, IND_SET, 19, 20, 2, 1);     /* SET v19 := v20+1 */
}

#define BODY_READS (bits(10, 11, 13) | bits(14, 15, 18) | bits(20, 20, 20))
#define BODY_WRITES (bits(12, 16, 17) | bits(19, 19, 19))

/* "b equals, differs from, is below, is at least": each op fails with this
 * number on the left of 5, and holds with the other of 4 and 5. */
static const uint32_t fails[4] = { 4, 5, 5, 4 };

/* Station 0 releases station 1; the undo of that makes it wait again. */
static void test_waiting_lights(void)
{
    static struct sequence p;
    uint8_t list[IND_ITEM * 32], log[16];
    static const uint8_t resets[2] = { 0, 0 };
    struct ind_state_answer first, s, t;
    struct ind_lights_answer l;
    size_t len;

    for (uint8_t op = 0; op < 8; op++) {
        uint32_t cond = op < 4 ? bits(4, 4, 4) : bits(4, 9, 9);

        p.len = 0;
        add(&p, IND_SET, 4, 0, 0, fails[op % 4]);
        add(&p, IND_SET, 9, 0, 0, 5);
        add_bare(&p, IND_STATION);
        add(&p, IND_SET, 4, 0, 0, 9 - fails[op % 4]);
        add_bare(&p, IND_STATION);
        add(&p, IND_AWAIT, 0, 4, op, op < 4 ? 5 : 9);
        add_body(&p);
        add_bare(&p, IND_END);
        len = ind_build(p.bytes, p.len, list, sizeof list).count * 16u;
        first = ind_start(list, len, 0, resets, 2, log, sizeof log, kept,
                          sizeof kept);

        /* waiting: the condition's variables, and nothing written */
        l = ind_lights(list, len, first.state);
        CHECK(l.ready == 1 && l.in_turn == 1 && l.waiting == 2);
        CHECK(lit(&l, 0, 0, bits(4, 4, 4)) && lit(&l, 1, cond, 0));
        /* released: the body whole, all branches */
        s = ind_step(list, len, first.state, log, sizeof log, kept,
                     sizeof kept, 0, 0);
        l = ind_lights(list, len, s.state);
        CHECK(l.ready == 2 && l.in_turn == 2 && l.waiting == 0);
        CHECK(lit(&l, 0, 0, 0));
        CHECK(lit(&l, 1, cond | BODY_READS, BODY_WRITES));
        /* done */
        t = ind_step(list, len, s.state, log, sizeof log, kept, sizeof kept, 1,
                     0);
        l = ind_lights(list, len, t.state);
        CHECK(l.ended == 3 && lit(&l, 0, 0, 0) && lit(&l, 1, 0, 0));
        /* withdrawn: ready, then waiting */
        t = ind_undo(list, len, t.state, log, sizeof log, kept, sizeof kept);
        l = ind_lights(list, len, t.state);
        CHECK(l.ready == 2 && l.waiting == 0);
        CHECK(lit(&l, 1, cond | BODY_READS, BODY_WRITES));
        t = ind_undo(list, len, t.state, log, sizeof log, kept, sizeof kept);
        l = ind_lights(list, len, t.state);
        CHECK(l.ready == 1 && l.waiting == 2);
        CHECK(lit(&l, 0, 0, bits(4, 4, 4)) && lit(&l, 1, cond, 0));

        /* the same variable twice: ops 4 and 7 hold, 5 and 6 fail */
        if (op >= 4) {
            int holds = op == 4 || op == 7;

            p.len = 0;
            add_bare(&p, IND_STATION);
            add(&p, IND_AWAIT, 0, 4, op, 4);
            add_body(&p);
            add_bare(&p, IND_END);
            len = ind_build(p.bytes, p.len, list, sizeof list).count * 16u;
            s = ind_start(list, len, 0, resets, 1, log, sizeof log, kept,
                          sizeof kept);
            l = ind_lights(list, len, s.state);
            CHECK(l.ready == holds && l.waiting == !holds);
            CHECK(lit(&l, 0, bits(4, 4, 4) | (holds ? BODY_READS : 0),
                      holds ? BODY_WRITES : 0));
        }

        /* a body that writes the condition's variables, and reads them in a
         * branch not taken */
        p.len = 0;
        add_bare(&p, IND_STATION);
        add(&p, IND_AWAIT, 0, 4, op, op < 4 ? 5 : 9);
        add(&p, IND_SET, 9, 4, 1, 0);
        add(&p, IND_IF, 0, 2, 0, 9);
        add(&p, IND_SET, 3, 9, 4, 4);
        add_bare(&p, IND_ELSE);
        add(&p, IND_SET, 4, 2, 2, 1);
        add_bare(&p, IND_FI);
        add_bare(&p, IND_END);
        len = ind_build(p.bytes, p.len, list, sizeof list).count * 16u;
        s = ind_start(list, len, 0, resets, 1, log, sizeof log, kept,
                      sizeof kept);
        s.state.var[9] = 5;
        s.state.var[4] = fails[op % 4];
        l = ind_lights(list, len, s.state);
        CHECK(l.waiting == 1 && lit(&l, 0, cond, 0));
        s.state.var[4] = 9 - fails[op % 4];
        l = ind_lights(list, len, s.state);
        CHECK(l.ready == 1 && lit(&l, 0, bits(2, 4, 9), bits(3, 4, 9)));
    }
}

/* Stations at the same kind of AWAIT with the same body, each waiting or ready
 * by itself. */
static void test_waiting_beside(void)
{
    static struct sequence p;
    static uint8_t list[IND_ITEM * 96];
    uint8_t log[16];
    static const uint8_t resets[8] = { 0 };
    struct ind_state_answer s;
    struct ind_lights_answer l;
    size_t len;

    /* eight stations, each with a variable of its own: all 256 states */
    p.len = 0;
    for (uint8_t i = 0; i < 8; i++) {
        add_bare(&p, IND_STATION);
        add(&p, IND_AWAIT, 0, i, 7, 31);       /* AWAIT vi is at least v31 */
        add_body(&p);
        add_bare(&p, IND_END);
    }
    len = ind_build(p.bytes, p.len, list, sizeof list).count * 16u;
    s = ind_start(list, len, 0, resets, 8, log, sizeof log, kept, sizeof kept);
    s.state.var[31] = 1;
    for (unsigned mask = 0; mask < 256; mask++) {
        for (unsigned i = 0; i < 8; i++)
            s.state.var[i] = mask >> i & 1;
        l = ind_lights(list, len, s.state);
        CHECK(l.ready == mask && l.in_turn == mask && l.waiting == 255 - mask);
        CHECK(l.rows[0][31] == 255 && l.rows[1][31] == 0);
        CHECK(l.rows[0][20] == mask && l.rows[1][20] == 0);
        CHECK(l.rows[0][19] == 0 && l.rows[1][19] == mask);
        for (unsigned i = 0; i < 8; i++) {
            if ((mask >> i & 1) != 0)
                CHECK(lit(&l, i, bits(i, i, 31) | BODY_READS, BODY_WRITES));
            else
                CHECK(lit(&l, i, bits(i, i, 31), 0));
        }
    }
    /* an ended station has no light; whose turn it is does not matter */
    s.state.b = 1;
    for (unsigned i = 0; i < 8; i++) {
        s.state.var[i] = i % 2;
        s.state.pri[i] = (int16_t)(i == 1 ? 1 : 0);
    }
    s.state.pos[3] = (uint16_t)(s.state.pos[4] - 1);
    l = ind_lights(list, len, s.state);
    CHECK(l.ready == 0xA2 && l.in_turn == 0xA0);
    CHECK(l.waiting == 0x55 && l.ended == 0x08);
    CHECK(lit(&l, 0, bits(0, 0, 31), 0) && lit(&l, 3, 0, 0));
    CHECK(lit(&l, 1, bits(1, 1, 31) | BODY_READS, BODY_WRITES));

    /* two stations with one condition and its contrary */
    p.len = 0;
    for (uint8_t i = 0; i < 2; i++) {
        add_bare(&p, IND_STATION);
        add(&p, IND_AWAIT, 0, 0, i == 0 ? 4 : 5, 1);
        add_body(&p);
        add_bare(&p, IND_END);
    }
    len = ind_build(p.bytes, p.len, list, sizeof list).count * 16u;
    s = ind_start(list, len, 0, resets, 2, log, sizeof log, kept, sizeof kept);
    for (uint8_t ready = 0; ready < 2; ready++) {
        size_t waits = 1u - ready;

        s.state.var[0] = ready;
        l = ind_lights(list, len, s.state);
        CHECK(l.ready == 1 << ready && l.waiting == 1 << waits);
        CHECK(lit(&l, ready, bits(0, 1, 1) | BODY_READS, BODY_WRITES));
        CHECK(lit(&l, waits, bits(0, 1, 1), 0));
    }

    /* IF and WHILE never wait: they are lit alike where they hold and where
     * they fail, and what they lead to is not */
    for (uint8_t op = 0; op < 8; op++) {
        for (int i = 0; i < 2; i++) {
            p.len = 0;
            add_bare(&p, IND_STATION);
            add(&p, i == 0 ? IND_IF : IND_WHILE, 0, 4, op, op < 4 ? 5 : 9);
            add_body(&p);
            if (i == 0) {
                add_bare(&p, IND_ELSE);
                add_bare(&p, IND_SKIP);
            }
            add_bare(&p, i == 0 ? IND_FI : IND_OD);
            len = ind_build(p.bytes, p.len, list, sizeof list).count * 16u;
            s = ind_start(list, len, 0, resets, 1, log, sizeof log, kept,
                          sizeof kept);
            s.state.var[9] = 5;
            for (uint32_t left = 4; left <= 5; left++) {
                s.state.var[4] = left;
                l = ind_lights(list, len, s.state);
                CHECK(l.ready == 1 && l.waiting == 0);
                CHECK(lit(&l, 0, op < 4 ? bits(4, 4, 4) : bits(4, 9, 9), 0));
            }
        }
    }
}

/* A list that someone else wrote: no STOP, and two bodies that share a
 * record. */
static void test_foreign_waiting(void)
{
    /* AWAITs at 1 and at 4: the first body is 2, 3 and 6, the second 5 and 6;
     * nobody reaches 7 */
    static const uint8_t list[] = {
        16, 0, 0, 0, 0, 0, 0, 0, 0, 0, 1, 0, 0, 0, 0, 0,
        9, 0, 1, 4, 2, 0, 0, 0, 0, 0, 2, 0, 4, 0, 0, 0,
        4, 0, 3, 1, 0, 0, 0, 0, 0, 1, 3, 0, 6, 0, 0, 0,
        3, 4, 5, 3, 1, 0, 0, 0, 0, 1, 0, 0, 0, 0, 0, 0,
        9, 0, 6, 6, 7, 0, 0, 0, 0, 0, 5, 0, 1, 0, 0, 0,
        3, 8, 9, 4, 10, 0, 0, 0, 0, 1, 6, 0, 0, 0, 0, 0,
        3, 11, 12, 2, 1, 0, 0, 0, 0, 1, 0, 0, 0, 0, 0, 0,
        3, 13, 14, 2, 1, 0, 0, 0, 0, 1, 0, 0, 0, 0, 0, 0
    };
    static const uint8_t resets[1] = { 0 };
    uint8_t log[16];
    struct ind_state_answer s, t;
    struct ind_lights_answer l;

    s = ind_start(list, sizeof list, 0, resets, 1, log, sizeof log, kept,
                  sizeof kept);
    CHECK(s.number == IND_FINE);
    l = ind_lights(list, sizeof list, s.state);        /* v1 = v2 */
    CHECK(l.ready == 1);
    CHECK(lit(&l, 0, bits(1, 2, 3) | bits(5, 5, 12), bits(4, 11, 11)));
    t = ind_step(list, sizeof list, s.state, log, sizeof log, kept,
                 sizeof kept, 0, 0);
    CHECK(t.number == IND_FINE && t.state.pos[0] == 4);
    l = ind_lights(list, sizeof list, t.state);        /* v6 is not below v7 */
    CHECK(l.waiting == 1 && lit(&l, 0, bits(6, 7, 7), 0));
    t.state.var[7] = 1;
    l = ind_lights(list, sizeof list, t.state);
    CHECK(l.ready == 1);
    CHECK(lit(&l, 0, bits(6, 7, 9) | bits(10, 12, 12), bits(8, 11, 11)));
    t.state.pos[0] = 1;
    t.state.var[2] = 1;
    l = ind_lights(list, sizeof list, t.state);
    CHECK(l.waiting == 1 && lit(&l, 0, bits(1, 2, 2), 0));

    /* 7 and 8 with a waiting station: all zeros */
    l = ind_lights(list, sizeof list - 8, t.state);
    CHECK(l.number == IND_LIST && l.waiting == 0);
    for (int v = 0; v < IND_VARS; v++)
        CHECK(l.rows[0][v] == 0 && l.rows[1][v] == 0);
    t.state.m = 4096;
    l = ind_lights(list, sizeof list, t.state);
    CHECK(l.waiting == 1 && lit(&l, 0, bits(1, 2, 2), 0));
    t.state.m = 4097;
    l = ind_lights(list, sizeof list, t.state);
    CHECK(l.number == IND_STATE && l.waiting == 0);
    for (int v = 0; v < IND_VARS; v++)
        CHECK(l.rows[0][v] == 0 && l.rows[1][v] == 0);
}

/* The step limit: 4,096 steps stand, one more is FULL, and each can be
 * withdrawn. */
static void test_full(void)
{
    static struct sequence p;
    static uint8_t list[64], log[8300], picks[8200], out[60000];
    static const uint8_t reset[1] = { 0 };
    static const uint8_t start[2] = { 0, 0 };
    struct ind_state_answer s, t;
    struct ind_run_answer r;
    size_t len;

    p.len = 0;
    add_bare(&p, IND_STATION);
    add_bare(&p, IND_WHILE);
    add_bare(&p, IND_SKIP);
    add_bare(&p, IND_OD);
    CHECK(ind_build(p.bytes, p.len, list, sizeof list).count == 4);
    s = ind_start(list, 64, 0, reset, 1, log, sizeof log, kept, sizeof kept);
    r = ind_run(list, 64, s.state, log, sizeof log, kept, sizeof kept, picks,
                8200, SIZE_MAX);
    CHECK(r.number == IND_FULL && r.steps == 4096 && r.state.m == 4096);
    r = ind_run(list, 64, s.state, log, 8193, kept, sizeof kept, picks, 8200,
                SIZE_MAX);
    CHECK(r.number == IND_ROOM && r.steps == 4095 && r.state.m == 4095);
    r = ind_run(list, 64, s.state, log, 8194, kept, sizeof kept, picks, 8192,
                SIZE_MAX);
    CHECK(r.number == IND_FINE && r.steps == 4096);
    s = ind_step(list, 64, r.state, NULL, 0, kept, sizeof kept, 9, 9);
    CHECK(s.number == IND_FULL && same_state(&s.state, &r.state));
    t = ind_undo(list, 64, r.state, log, 8193, kept, sizeof kept);
    CHECK(t.number == IND_LOG && same_state(&t.state, &r.state));
    t = ind_undo(list, 64, r.state, log, 8194, kept, sizeof kept);
    CHECK(t.number == IND_FINE && t.state.m == 4095);
    r = ind_run(list, 64, t.state, log, 8194, kept, sizeof kept, picks, 2, 1);
    CHECK(r.number == IND_FINE && r.state.m == 4096);

    len = ind_trace(p.bytes, p.len, start, 2, picks, 8192, out, sizeof out);
    CHECK(len < sizeof out
          && memcmp(out + len - 19, "4096 1 1 0 0\nend 0\n", 19) == 0);
    len = ind_trace(p.bytes, p.len, start, 2, picks, 8194, out, sizeof out);
    CHECK(len == 16 && memcmp(out, "0 1 1 0 0\nend 1\n", 16) == 0);
}

/* ------------------------------------------------------------------ */
/* SHAPE against a reader that follows the grammar                    */
/* ------------------------------------------------------------------ */

/* The grammar is read with one record of sight, so the record at which this
 * reader fails is the first after which nothing is well shaped. */
struct reader {
    const uint8_t *kinds;
    size_t count;
    size_t at;
    int failed;
};

static int sees(const struct reader *r, uint8_t kind)
{
    return !r->failed && r->at < r->count && r->kinds[r->at] == kind;
}

static void take(struct reader *r, uint8_t kind)
{
    if (sees(r, kind))
        r->at++;
    else
        r->failed = 1;
}

static void read_statements(struct reader *r, int body)
{
    int any = 0;

    for (;;) {
        if (sees(r, IND_SKIP) || sees(r, IND_SET)) {
            r->at++;
        } else if (sees(r, IND_IF)) {
            r->at++;
            read_statements(r, body);
            take(r, IND_ELSE);
            read_statements(r, body);
            take(r, IND_FI);
        } else if (!body && sees(r, IND_WHILE)) {
            r->at++;
            read_statements(r, 0);
            take(r, IND_OD);
        } else if (!body && sees(r, IND_AWAIT)) {
            r->at++;
            read_statements(r, 1);
            take(r, IND_END);
        } else {
            break;
        }
        any = 1;
    }
    if (!any)
        r->failed = 1;
}

static void read_sequence(struct reader *r)
{
    while (sees(r, IND_SET))
        r->at++;
    do {
        take(r, IND_STATION);
        read_statements(r, 0);
    } while (sees(r, IND_STATION));
    if (r->at < r->count)
        r->failed = 1;
}

/* Every sequence of up to `most` kinds. */
static void test_shape(size_t most)
{
    uint8_t kinds[8], file[64];

    for (size_t count = 1; count <= most; count++) {
        memset(kinds, 1, sizeof kinds);
        for (;;) {
            struct reader r = { kinds, count, 0, 0 };
            struct ind_check_answer c;
            size_t stations = 0, i;

            memset(file, 0, sizeof file);
            for (i = 0; i < count; i++) {
                file[8 * i] = kinds[i];
                stations += kinds[i] == IND_STATION;
            }
            c = ind_check(file, 8 * count);
            read_sequence(&r);
            if (stations < 1)
                CHECK(c.number == IND_COUNT && c.place == 0);
            else if (r.failed)
                CHECK(c.number == IND_SHAPE && c.place == r.at);
            else
                CHECK(c.number == IND_FINE && c.place == 0);

            for (i = 0; i < count && kinds[i] == 10; i++)
                kinds[i] = 1;
            if (i == count)
                break;
            kinds[i]++;
        }
    }
}

/* ------------------------------------------------------------------ */
/* Build against a builder that hands the next step down              */
/* ------------------------------------------------------------------ */

struct maker {
    const uint8_t *file;
    size_t at;          /* the record being read */
    size_t next;        /* the next free place of the list */
    uint8_t list[IND_ITEM * IND_MAX_ITEMS];
    uint8_t station;
};

/* How many records stand from `at` to the close of the statement there. */
static size_t statement_length(const uint8_t *file, size_t at)
{
    size_t open = 0, i = at;

    do {
        uint8_t kind = file[8 * i];

        if (kind == IND_IF || kind == IND_WHILE || kind == IND_AWAIT)
            open++;
        if (kind == IND_FI || kind == IND_OD || kind == IND_END)
            open--;
        i++;
    } while (open > 0);
    return i - at;
}

/* How many list records the statement at `at` makes. */
static size_t statement_steps(const uint8_t *file, size_t at)
{
    size_t steps = 0, len = statement_length(file, at);

    for (size_t i = at; i < at + len; i++) {
        uint8_t kind = file[8 * i];

        steps += kind == IND_SKIP || kind == IND_SET || kind == IND_IF
              || kind == IND_WHILE || kind == IND_AWAIT;
    }
    return steps;
}

static int opens_statement(uint8_t kind)
{
    return kind == IND_SKIP || kind == IND_SET || kind == IND_IF
        || kind == IND_WHILE || kind == IND_AWAIT;
}

/* Makes the statements up to a record that opens none; `after` is the step
 * that follows the last. */
static void make_statements(struct maker *k, size_t end, uint8_t inside,
                            size_t after)
{
    while (k->at < end && opens_statement(k->file[8 * k->at])) {
        uint8_t kind = k->file[8 * k->at];
        size_t behind = k->at + statement_length(k->file, k->at);
        size_t mine = k->next++;
        uint8_t *r = k->list + 16 * mine;
        size_t follow, t1, t2 = 0;

        if (behind < end && opens_statement(k->file[8 * behind]))
            follow = mine + statement_steps(k->file, k->at);
        else
            follow = after;
        memcpy(r, k->file + 8 * k->at, 8);
        r[8] = k->station;
        r[9] = inside;
        k->at++;
        if (kind == IND_IF) {
            t1 = k->next;
            make_statements(k, end, inside, follow);
            k->at++;
            t2 = k->next;
            make_statements(k, end, inside, follow);
            k->at++;
        } else if (kind == IND_WHILE) {
            t1 = k->next;
            t2 = follow;
            make_statements(k, end, 0, mine);
            k->at++;
        } else if (kind == IND_AWAIT) {
            t1 = k->next;
            t2 = follow;
            make_statements(k, end, 1, 0);
            k->at++;
        } else {
            t1 = follow;
        }
        r[10] = (uint8_t)(t1 & 255);
        r[11] = (uint8_t)(t1 >> 8);
        r[12] = (uint8_t)(t2 & 255);
        r[13] = (uint8_t)(t2 >> 8);
    }
}

static void make_list(struct maker *k, const uint8_t *file, size_t count)
{
    size_t n = 0;

    memset(k, 0, sizeof *k);
    k->file = file;
    for (size_t i = 0; i < count; i++)
        n += file[8 * i] == IND_STATION;
    k->next = n;
    while (file[8 * k->at] == IND_SET) {
        memcpy(k->list + 16 * k->next, file + 8 * k->at, 8);
        k->list[16 * k->next + 8] = 255;
        k->next++;
        k->at++;
    }
    for (size_t j = 0; j < n; j++) {
        size_t end = ++k->at, stop = k->next;

        while (end < count && file[8 * end] != IND_STATION)
            stop += (size_t)opens_statement(file[8 * end++]);
        k->station = (uint8_t)j;
        k->list[16 * j] = IND_INIT;
        k->list[16 * j + 1] = (uint8_t)j;
        k->list[16 * j + 8] = (uint8_t)j;
        k->list[16 * j + 10] = (uint8_t)(k->next & 255);
        k->list[16 * j + 11] = (uint8_t)(k->next >> 8);
        make_statements(k, end, 0, stop);
        k->list[16 * k->next] = IND_STOP;
        k->list[16 * k->next + 8] = (uint8_t)j;
        k->next++;
    }
}

/* Whether the list's record by itself reads (row 0) or writes (row 1) the
 * variable. */
static int touches(const uint8_t *r, int row, uint32_t v)
{
    uint32_t k = 0;

    for (int i = 3; i >= 0; i--)
        k = k << 8 | r[4 + i];
    if (row == 1)
        return r[0] == IND_SET && r[1] == v;
    if (r[0] == IND_SET)
        return (r[3] >= 1 && r[2] == v) || (r[3] >= 4 && k == v);
    if (r[0] == IND_IF || r[0] == IND_WHILE || r[0] == IND_AWAIT)
        return r[2] == v || (r[3] >= 4 && k == v);
    return 0;
}

/* For each row and place the variables, bit v for variable v: of an inside
 * record what is touched from it on, of any other what it touches itself. */
struct touched {
    uint32_t row[2][IND_MAX_ITEMS];
};

/* An inside record's targets are higher, so they are done before it. */
static void find_touched(struct touched *t, const uint8_t *list, size_t len)
{
    for (size_t place = len / 16; place-- > 0;) {
        const uint8_t *r = list + 16 * place;
        size_t t1 = (size_t)r[10] | (size_t)r[11] << 8;
        size_t t2 = (size_t)r[12] | (size_t)r[13] << 8;

        for (int row = 0; row < 2; row++) {
            uint32_t mine = 0;

            for (uint32_t v = 0; v < IND_VARS; v++)
                if (touches(r, row, v))
                    mine |= UINT32_C(1) << v;
            if (r[9] == 1 && t1 != 0)
                mine |= t->row[row][t1];
            if (r[9] == 1 && t2 != 0)
                mine |= t->row[row][t2];
            t->row[row][place] = mine;
        }
    }
}

/* How often a station was met waiting and ready at an AWAIT of each op. */
static unsigned long met[2][8];

/* "b equals, differs from, is below, is at least": whether the op fails. */
static int fails_with(uint8_t op, uint32_t left, uint32_t right)
{
    return op % 4 == 0 ? left != right
         : op % 4 == 1 ? left == right
         : op % 4 == 2 ? left >= right : left < right;
}

/* What readiness has to tell of the station, by its record in the list. */
static uint8_t by_record(const uint8_t *list, const struct ind_state *state,
                         size_t j)
{
    const uint8_t *r = list + 16 * (size_t)state->pos[j];
    uint32_t left = state->var[r[2] % 32], k = 0;

    for (int i = 3; i >= 0; i--)
        k = k << 8 | r[4 + i];
    if (r[3] > 3)
        k = state->var[k % 32];
    if (r[0] == IND_STOP)
        return IND_ENDED;
    if (r[0] == IND_AWAIT && fails_with(r[3], left, k))
        return IND_NOT_READY;
    return IND_FINE;
}

/* Readiness of a station against its record in the list, against its lights
 * and against a step that picks it; its lights against what is touched. */
static void check_station(const uint8_t *list, size_t len,
                          const struct touched *touched,
                          const struct ind_state *state,
                          const struct ind_lights_answer *l, size_t j)
{
    const uint8_t *r = list + 16 * (size_t)state->pos[j];
    uint8_t number = by_record(list, state, j);
    uint8_t log[200], other[IND_KEPT_BYTES];
    struct ind_state_answer s;

    CHECK(told(list, len, *state, (uint8_t)j, number,
               number == IND_NOT_READY ? state->pos[j] : 0));
    CHECK((l->ready >> j & 1) == (number == IND_FINE));
    CHECK((l->ended >> j & 1) == (number == IND_ENDED));
    CHECK((l->waiting >> j & 1) == (number == IND_NOT_READY));

    /* "a waiting AWAIT reads only the variables of its condition and writes
     * none"; a ready one touches what is touched from its t1 on, too */
    {
        uint32_t reads = touched->row[0][state->pos[j]];
        uint32_t writes = touched->row[1][state->pos[j]];

        if (r[0] == IND_AWAIT) {
            met[number == IND_FINE][r[3]]++;
            if (number == IND_FINE) {
                reads |= touched->row[0][state->pos[j] + 1];
                writes |= touched->row[1][state->pos[j] + 1];
            }
        }
        CHECK(lit(l, j, reads, writes));
    }

    s = ind_step(list, len, *state, log, sizeof log, other, sizeof other,
                 (uint8_t)j, 255);
    if (number != IND_FINE)
        CHECK(s.number == number);
    else
        CHECK(s.number != IND_ENDED && s.number != IND_NOT_READY);
}

/* Random sequences: built twice, run, withdrawn. */
static void test_random(struct rng *g, int rounds)
{
    static struct sequence p;
    static struct maker k;
    static struct touched touched;
    static uint8_t list[IND_ITEM * IND_MAX_ITEMS], log[200], log2[200];
    static uint8_t kept2[IND_KEPT_BYTES];

    for (int round = 0; round < rounds; round++) {
        uint8_t resets[8] = { 0 }, picks[160];
        uint8_t b = chance(g, 80) ? (uint8_t)below(g, 4) : 255;
        struct ind_state_answer s, t, first;
        struct ind_run_answer r;
        struct ind_build_answer built;
        struct ind_state seen[81];
        size_t len, n = 0, steps = 0;
        int passed[8] = { 0 };

        random_sequence(g, &p, 8, 80 + below(g, 800));
        built = ind_build(p.bytes, p.len, list, sizeof list);
        CHECK(built.number == IND_FINE);
        if (built.number != IND_FINE)
            continue;
        make_list(&k, p.bytes, p.len / 8);
        len = 16 * (size_t)built.count;
        CHECK(k.next == built.count && memcmp(k.list, list, len) == 0);
        find_touched(&touched, list, len);

        for (size_t i = 0; i < p.len; i += 8)
            n += p.bytes[i] == IND_STATION;
        for (size_t i = 0; i < n; i++)
            resets[i] = (uint8_t)below(g, b + 1u);
        first = ind_start(list, len, b, resets, n, log, sizeof log, kept,
                          sizeof kept);
        CHECK(first.number == IND_FINE);
        s = first;
        seen[0] = s.state;
        while (steps < 80) {
            struct ind_lights_answer l = ind_lights(list, len, s.state);
            size_t i = below(g, 8);

            CHECK(l.number == IND_FINE);
            CHECK((l.ready & l.waiting) == 0 && (l.ready & l.ended) == 0);
            CHECK((l.ready | l.waiting | l.ended) == (1 << n) - 1);
            CHECK((l.in_turn & ~l.ready) == 0);
            CHECK((l.ready == 0) == (l.in_turn == 0));
            for (size_t j = 0; j < n; j++)
                check_station(list, len, &touched, &s.state, &l, j);
            if (l.in_turn == 0)
                break;
            while ((l.in_turn >> i & 1) == 0)
                i = (i + 1) % 8;
            picks[2 * steps] = (uint8_t)i;
            picks[2 * steps + 1] = (uint8_t)below(g, b + 1u);
            t = ind_step(list, len, s.state, log, sizeof log, kept,
                         sizeof kept, picks[2 * steps], picks[2 * steps + 1]);
            CHECK(t.number == IND_FINE && t.state.m == s.state.m + 1);

            /* Only what the lights said is written may change. */
            for (int v = 0; v < 32; v++)
                if (t.state.var[v] != s.state.var[v])
                    CHECK((l.rows[1][v] >> i & 1) != 0);

            /* "passed over twice, which is B+n-1": ready stations are passed
             * over no more often than that in a row. */
            for (size_t j = 0; j < n; j++) {
                if (j == i)
                    passed[j] = 0;
                else if ((l.ready >> j & 1) != 0)
                    passed[j]++;
                CHECK(passed[j] <= (int)b + (int)n - 1);
                CHECK(t.state.cnt[j] == passed[j]);
            }

            /* Withdrawn at once, the step gives back the state; what else the
             * state given holds does not matter. */
            {
                struct ind_state other = t.state;
                struct ind_state_answer u;

                other.var[steps % 32] ^= draw(g);
                other.pri[below(g, (uint32_t)n)] = 0;
                u = ind_undo(list, len, other, log, sizeof log, kept,
                             sizeof kept);
                CHECK(u.number == IND_FINE || u.number == IND_STATE);
                if (u.number == IND_FINE)
                    CHECK(same_state(&u.state, &s.state));
                u = ind_undo(list, len, t.state, log, sizeof log, kept,
                             sizeof kept);
                CHECK(u.number == IND_FINE && same_state(&u.state, &s.state));
            }
            s = t;
            steps++;
            seen[steps] = s.state;
        }

        /* The same steps in one run, with its own log and kept buffer. */
        memset(log2, 0, sizeof log2);
        t = ind_start(list, len, b, resets, n, log2, sizeof log2, kept2,
                      sizeof kept2);
        r = ind_run(list, len, t.state, log2, sizeof log2, kept2, sizeof kept2,
                    picks, 2 * steps, 1000);
        CHECK(r.number == IND_FINE && r.steps == steps);
        CHECK(same_state(&r.state, &s.state));
        CHECK(memcmp(log, log2, 2 * (n + steps)) == 0);
        if (steps >= IND_KEPT_EVERY)
            CHECK(memcmp(kept, kept2, IND_KEPT_PLACE) == 0);

        /* All withdrawn. */
        for (size_t i = steps; i > 0; i--) {
            s = ind_undo(list, len, s.state, log, sizeof log, kept,
                         sizeof kept);
            CHECK(s.number == IND_FINE && same_state(&s.state, &seen[i - 1]));
        }
        s = ind_undo(list, len, s.state, log, sizeof log, kept, sizeof kept);
        CHECK(s.number == IND_EMPTY && same_state(&s.state, &first.state));

        t = ind_start(list, len - 16, b, resets, n, log, sizeof log, kept,
                      sizeof kept);
        CHECK(t.number == IND_LIST && zero_state(&t.state));
        t = ind_start(list, len, b, resets, n - 1, log, sizeof log, kept,
                      sizeof kept);
        CHECK(t.number == IND_RESET && zero_state(&t.state));
        t = ind_start(list, len, b, resets, n, log, 2 * n - 1, kept,
                      sizeof kept);
        CHECK(t.number == IND_ROOM && zero_state(&t.state));
    }
}

/* Gives a built list other targets, and it stays sound: a body may lead into
 * another, and an outside record anywhere outside. */
static void scramble(struct rng *g, uint8_t *list, size_t len)
{
    size_t items = len / 16;

    for (size_t i = 0; i < items; i++) {
        uint8_t *r = list + 16 * i;
        int both = r[0] == IND_IF || r[0] == IND_WHILE;

        for (int at = 10; at <= 12; at += 2) {
            size_t from = r[9] == 1 ? i + 1 : 0, to;

            if (r[0] == IND_INIT || r[8] == IND_INITIAL || r[0] == IND_STOP
                || (r[0] == IND_AWAIT && at == 10)
                || (at == 12 && !both && r[0] != IND_AWAIT)
                || chance(g, 60))
                continue;
            to = from + below(g, (uint32_t)(items - from) + 1);
            while (to < items && (list[16 * to] == IND_INIT
                                  || list[16 * to + 8] != r[8]
                                  || list[16 * to + 9] != r[9]))
                to++;
            if (to >= items && r[9] == 0)
                continue;
            if (to >= items)
                to = 0;
            r[at] = (uint8_t)(to & 255);
            r[at + 1] = (uint8_t)(to >> 8);
        }
    }
}

/* A random list of about `size` bytes of sequence, built and mostly scrambled,
 * started with B and random resets.  Answers its length. */
static size_t start_random(struct rng *g, size_t size, uint8_t b,
                           uint8_t list[IND_ITEM * IND_MAX_ITEMS],
                           struct ind_state_answer *s, uint8_t *log,
                           size_t loglen)
{
    static struct sequence p;
    uint8_t resets[8];
    size_t len, n = 0;

    random_sequence(g, &p, 8, size);
    len = ind_build(p.bytes, p.len, list,
                    IND_ITEM * IND_MAX_ITEMS).count * 16u;
    while (list[16 * n] == IND_INIT)
        n++;
    if (chance(g, 60))
        scramble(g, list, len);
    for (size_t i = 0; i < 8; i++)
        resets[i] = (uint8_t)below(g, b + 1u);
    *s = ind_start(list, len, b, resets, n, log, loglen, kept, sizeof kept);
    CHECK(s->number == IND_FINE);
    return len;
}

/* An undo, at times or where nobody is in turn, or else a step of the first
 * station in turn from station i on. */
static struct ind_state_answer step_or_undo(struct rng *g, const uint8_t *list,
                                            size_t len, struct ind_state state,
                                            uint8_t *log, size_t loglen,
                                            size_t i)
{
    struct ind_state_answer s = { IND_FINE, state };
    uint8_t in_turn = ind_lights(list, len, state).in_turn;

    if (state.m > 0 && (in_turn == 0 || chance(g, 30))) {
        s = ind_undo(list, len, state, log, loglen, kept, sizeof kept);
    } else if (in_turn != 0) {
        while ((in_turn >> i & 1) == 0)
            i = (i + 1) % 8;
        s = ind_step(list, len, state, log, loglen, kept, sizeof kept,
                     (uint8_t)i, (uint8_t)below(g, state.b + 1u));
    }
    CHECK(s.number == IND_FINE);
    return s;
}

/* Random lists, the built and the scrambled: steps, undos and changes of
 * variables that no call makes, and after each the lights of each station. */
static void test_random_lights(struct rng *g, int rounds)
{
    static struct touched touched;
    static uint8_t list[IND_ITEM * IND_MAX_ITEMS], log[400];

    memset(met, 0, sizeof met);
    for (int round = 0; round < rounds; round++) {
        uint8_t b = (uint8_t)below(g, 3);
        size_t size = 80 + below(g, 400);
        struct ind_state_answer s;
        size_t len = start_random(g, size, b, list, &s, log, sizeof log);
        size_t n = s.state.n;

        find_touched(&touched, list, len);
        for (int turn = 0; turn < 60; turn++) {
            struct ind_state other = s.state;
            struct ind_lights_answer l = ind_lights(list, len, s.state);
            size_t i = below(g, 8);

            for (size_t j = 0; j < n; j++)
                check_station(list, len, &touched, &s.state, &l, j);

            /* variables and positions as no call left them */
            for (uint8_t v = 0; v < 3; v++)
                other.var[v] = random_constant(g);
            for (size_t j = 0; j < n; j++) {
                size_t to = below(g, (uint32_t)(len / 16));

                if (list[16 * to] != IND_INIT && list[16 * to + 8] == j
                    && list[16 * to + 9] == 0)
                    other.pos[j] = (uint16_t)to;
            }
            l = ind_lights(list, len, other);
            for (size_t j = 0; j < n; j++)
                check_station(list, len, &touched, &other, &l, j);

            s = step_or_undo(g, list, len, s.state, log, sizeof log, i);
        }
    }
    for (int op = 0; op < 8; op++)
        CHECK(met[0][op] > 1000 && met[1][op] > 1000);
}

/* A SKIP that ends a loop which ends a branch goes to its own WHILE: one of
 * "what the bench would wrongly let through". */
static void test_loop_ends_branch(void)
{
    static struct sequence p;
    uint8_t list[IND_ITEM * 8];
    struct ind_build_answer b;

    p.len = 0;
    add_bare(&p, IND_STATION);
    add_bare(&p, IND_IF);          /* 1 */
    add_bare(&p, IND_WHILE);       /* 2 */
    add_bare(&p, IND_SKIP);        /* 3 */
    add_bare(&p, IND_OD);
    add_bare(&p, IND_ELSE);
    add_bare(&p, IND_SKIP);        /* 4 */
    add_bare(&p, IND_FI);
    b = ind_build(p.bytes, p.len, list, sizeof list);
    CHECK(b.count == 6);
    CHECK(list[16 + 10] == 2 && list[16 + 12] == 4);
    CHECK(list[32 + 10] == 3 && list[32 + 12] == 5);
    CHECK(list[48 + 10] == 2 && list[48 + 12] == 0);
    CHECK(list[64 + 10] == 5 && list[64 + 12] == 0);
}

/* ------------------------------------------------------------------ */
/* Why a station was not picked                                       */
/* ------------------------------------------------------------------ */

/* The answers: a number alone, behind, waiting for a variable, and for another
 * beside it. */
static struct ind_why_answer only(uint8_t number)
{
    struct ind_why_answer a = { 0 };

    a.number = number;
    return a;
}

static struct ind_why_answer behind(uint8_t ahead)
{
    struct ind_why_answer a = only(IND_TURN);

    a.ahead = ahead;
    return a;
}

static struct ind_why_answer waits_for(uint16_t place, uint8_t variable,
                                       uint32_t value)
{
    struct ind_why_answer a = only(IND_NOT_READY);

    a.place = place;
    a.count = 1;
    a.variables[0] = variable;
    a.values[0] = value;
    return a;
}

static struct ind_why_answer and_for(struct ind_why_answer a, uint8_t variable,
                                     uint32_t value)
{
    a.count = 2;
    a.variables[1] = variable;
    a.values[1] = value;
    return a;
}

static int same_reason(const struct ind_why_answer *x,
                       const struct ind_why_answer *y)
{
    return x->number == y->number && x->place == y->place
        && x->ahead == y->ahead && x->count == y->count
        && memcmp(x->variables, y->variables, sizeof x->variables) == 0
        && memcmp(x->values, y->values, sizeof x->values) == 0;
}

/* Whether why gives this answer for the station. */
static int because(const uint8_t *list, size_t len, struct ind_state state,
                   uint8_t station, struct ind_why_answer want)
{
    struct ind_why_answer a = ind_why(list, len, state, station);

    return same_reason(&a, &want);
}

/* The reason by its definition, on a sound list and state: each station is
 * held against each other. */
static struct ind_why_answer defined_why(const uint8_t *list,
                                         const struct ind_state *state,
                                         uint8_t station)
{
    const uint8_t *r = list + 16 * (size_t)state->pos[station];
    uint8_t number = by_record(list, state, station);

    if (number == IND_NOT_READY) {
        struct ind_why_answer a = waits_for(state->pos[station], r[2],
                                            state->var[r[2]]);

        return r[3] < 4 ? a : and_for(a, r[4], state->var[r[4]]);
    }
    for (uint8_t i = 0; i < state->n && number == IND_FINE; i++) {
        int first = by_record(list, state, i) == IND_FINE
                 && state->pri[i] < state->pri[station];

        for (uint8_t j = 0; j < state->n && first; j++)
            if (by_record(list, state, j) == IND_FINE
                && (state->pri[j] < state->pri[i]
                    || (state->pri[j] == state->pri[i] && j < i)))
                first = 0;
        if (first)
            return behind(i);
    }
    return only(number);
}

/* How often each number was answered. */
static unsigned long answered[17];

/* Why of each station of a sound list, and of station n, against its
 * definition, against the lights' masks and, with room and m below 4,096,
 * against steps: "may be picked" just where every reset up to B is taken. */
static void check_why(const uint8_t *list, size_t len,
                      const struct ind_state *state)
{
    static uint8_t log[2 * (IND_STATIONS + IND_MAX_STEPS)];
    static uint8_t other[IND_KEPT_BYTES];
    struct ind_lights_answer l = ind_lights(list, len, *state);

    for (uint8_t j = 0; j <= state->n; j++) {
        struct ind_why_answer a = ind_why(list, len, *state, j), want;
        unsigned bit = 1u << j, reset;

        answered[a.number]++;
        if (l.number != IND_FINE)
            want = only(IND_STATE);
        else if (j == state->n)
            want = only(IND_COMPONENT);
        else
            want = defined_why(list, state, j);
        CHECK(same_reason(&a, &want));
        if (l.number != IND_FINE)
            continue;

        CHECK((a.number == IND_ENDED) == ((l.ended & bit) != 0));
        CHECK((a.number == IND_NOT_READY) == ((l.waiting & bit) != 0));
        CHECK((a.number == IND_TURN) == ((l.ready & ~l.in_turn & bit) != 0));
        CHECK((a.number == IND_FINE) == ((l.in_turn & bit) != 0));
        if (a.number == IND_TURN) {       /* the first bit of the mask */
            CHECK(a.ahead != j && (l.in_turn >> a.ahead & 1) != 0);
            CHECK((l.in_turn & ((1u << a.ahead) - 1)) == 0);
        }
        if (state->m == IND_MAX_STEPS)
            continue;

        for (reset = 0; reset < 256; reset++) {
            uint8_t number = ind_step(list, len, *state, log, sizeof log,
                                      other, sizeof other, j,
                                      (uint8_t)reset).number;

            if (reset > state->b && a.number == IND_FINE)
                CHECK(number == IND_RESET);
            else
                CHECK(number == a.number);
            if (reset == state->b + 1u && reset < 255)
                reset = 254;              /* up to B, the next, the last */
            else if (reset == 2 && state->b > 5)
                reset = state->b - 2u;
        }
    }
}

/* Each reason, each refusal, their order. */
static void test_why(void)
{
    static struct sequence p;
    uint8_t list[IND_ITEM * 11], before[IND_ITEM * 11], log[32];
    static const uint8_t resets[8] = { 0 };
    struct ind_state_answer s, t;
    struct ind_state u;
    size_t len = sizeof list;

    purge(&p);
    CHECK(ind_build(p.bytes, p.len, list, len).count == 11);
    memcpy(before, list, len);
    s = ind_start(list, len, 2, resets, 3, log, sizeof log, kept, sizeof kept);
    CHECK(because(list, len, s.state, 0, only(0)));
    CHECK(because(list, len, s.state, 1, waits_for(5, 0, 0)));
    CHECK(because(list, len, s.state, 2, only(0)));
    s = ind_step(list, len, s.state, log, sizeof log, kept, sizeof kept, 0, 2);
    CHECK(because(list, len, s.state, 0, only(16)));
    CHECK(because(list, len, s.state, 1, waits_for(5, 0, 0)));
    CHECK(because(list, len, s.state, 2, only(0)));
    CHECK(s.state.pri[1] == 0 && s.state.pri[2] == -1);

    /* station 1 ready: behind, tied, ahead; m does not matter */
    u = s.state;
    u.var[0] = 1;
    for (int i = 0; i < 3; i++) {
        static const uint16_t steps[3] = { 0, 4095, 4096 };

        u.m = steps[i];
        u.pri[1] = 0;
        CHECK(because(list, len, u, 0, only(16)));
        CHECK(because(list, len, u, 1, behind(2)));
        CHECK(because(list, len, u, 2, only(0)));
        u.pri[1] = -1;
        CHECK(because(list, len, u, 1, only(0)));
        CHECK(because(list, len, u, 2, only(0)));
        u.pri[1] = -2;
        CHECK(because(list, len, u, 1, only(0)));
        CHECK(because(list, len, u, 2, behind(1)));
        u.var[0] = 0;                     /* it waits, and is not ahead */
        CHECK(because(list, len, u, 1, waits_for(5, 0, 0)));
        CHECK(because(list, len, u, 2, only(0)));
        u.var[0] = 1;
        u.pos[1] = 7;                     /* it has ended */
        CHECK(because(list, len, u, 1, only(16)));
        CHECK(because(list, len, u, 2, only(0)));
        u.pos[1] = 5;
        check_why(list, len, &u);
    }

    /* 10 by station n and by each above it; where all have ended, too */
    for (int i = 0; i < 2; i++) {
        for (unsigned j = 3; j < 256; j++)
            CHECK(because(list, len, u, (uint8_t)j, only(10)));
        u.pos[1] = 7;
        u.pos[2] = 10;
    }

    /* 8, before 10, whatever the station does */
    for (int i = 0; i < 8; i++) {
        static const struct change unsound[8] = {
            { CHANGE_M, 0, 4097 }, { CHANGE_N, 0, 2 }, { CHANGE_N, 0, 4 },
            { CHANGE_POS, 1, 6 },         /* inside */
            { CHANGE_POS, 0, 5 },         /* another station's */
            { CHANGE_PRI, 2, 3 }, { CHANGE_PRI, 2, -3 }, { CHANGE_PRI, 3, 1 }
        };

        u = changed(s.state, unsound[i]);
        for (uint8_t j = 0; j <= 4; j++)
            CHECK(because(list, len, u, j, only(8)));
        CHECK(because(list, len, u, 255, only(8)));
        /* 7, before 8 and 10 */
        for (uint8_t j = 0; j <= 4; j++) {
            CHECK(because(list, len - 16, u, j, only(7)));
            CHECK(because(list, len - 1, s.state, j, only(7)));
        }
        CHECK(because(list, len - 16, u, 255, only(7)));
    }
    CHECK(because(NULL, 0, s.state, 0, only(7)));
    CHECK(because(NULL, 0, u, 255, only(7)));
    list[IND_ITEM * 10 + 12] = 8;         /* a STOP's t2 */
    CHECK(because(list, len, s.state, 0, only(7)));
    CHECK(because(list, len, s.state, 1, only(7)));
    list[IND_ITEM * 10 + 12] = 0;
    CHECK(memcmp(before, list, len) == 0);

    /* "Dryer": there, and back by undos */
    dryer(&p);
    len = ind_build(p.bytes, p.len, list, sizeof list).count * 16u;
    s = ind_start(list, len, 0, resets, 2, log, sizeof log, kept, sizeof kept);
    CHECK(because(list, len, s.state, 0, only(0)));
    CHECK(because(list, len, s.state, 1, waits_for(4, 0, 0)));
    t = ind_step(list, len, s.state, log, sizeof log, kept, sizeof kept, 0, 0);
    CHECK(because(list, len, t.state, 0, only(16)));
    CHECK(because(list, len, t.state, 1, only(0)));
    s = ind_step(list, len, t.state, log, sizeof log, kept, sizeof kept, 1, 0);
    CHECK(because(list, len, s.state, 0, only(16)));
    CHECK(because(list, len, s.state, 1, only(16)));
    s = ind_undo(list, len, s.state, log, sizeof log, kept, sizeof kept);
    CHECK(because(list, len, s.state, 0, only(16)));
    CHECK(because(list, len, s.state, 1, only(0)));
    s = ind_undo(list, len, s.state, log, sizeof log, kept, sizeof kept);
    CHECK(because(list, len, s.state, 0, only(0)));
    CHECK(because(list, len, s.state, 1, waits_for(4, 0, 0)));
}

/* What a condition names: each op, against a number and against a variable, of
 * each two variables of a few. */
static void test_why_named(void)
{
    static struct sequence p;
    static const uint8_t names[7] = { 0, 1, 2, 15, 16, 30, 31 };
    static const uint32_t pair[12][2] = {
        { 0, 0 }, { 0, 1 }, { 1, 0 }, { 4, 5 }, { 5, 5 }, { 6, 5 },
        { 0, UINT32_MAX }, { UINT32_MAX, 0 }, { UINT32_MAX, UINT32_MAX },
        { 0x7FFFFFFF, 0x80000000 }, { 0x80000000, 0x7FFFFFFF },
        { 0x01020304, 0x04030201 }
    };
    static const uint8_t resets[2] = { 0, 0 };
    uint8_t list[IND_ITEM * 16], log[16];
    unsigned long waited[8] = { 0 }, twice = 0;

    for (uint8_t op = 0; op < 8; op++) {
        for (int i = 0; i < 7 * 7 * 12; i++) {
            uint8_t b = names[i / 12 % 7], k = names[i / 12 / 7];
            uint32_t left = pair[i % 12][0], right = pair[i % 12][1];
            struct ind_why_answer want = only(0);
            struct ind_state_answer s;
            size_t len;
            int fails_here;

            if (op >= 4 && b == k && left != right)
                continue;
            if (op < 4 && k != names[0])
                continue;
            p.len = 0;
            add_bare(&p, IND_STATION);
            add_bare(&p, IND_SKIP);
            add_bare(&p, IND_STATION);
            add_block(&p, IND_AWAIT, b, op, op < 4 ? right : k);
            len = ind_build(p.bytes, p.len, list, sizeof list).count * 16u;
            s = ind_start(list, len, 0, resets, 2, log, sizeof log, kept,
                          sizeof kept);
            for (uint32_t v = 0; v < IND_VARS; v++)
                s.state.var[v] = 0xA0000000 + v;
            s.state.var[b] = left;
            if (op >= 4)
                s.state.var[k] = right;
            fails_here = fails_with(op, left, right);
            if (fails_here)
                want = waits_for(4, b, left);
            if (fails_here && op >= 4)
                want = and_for(want, k, right);
            waited[op] += (unsigned long)fails_here;
            twice += fails_here && op >= 4 && b == k;
            CHECK(because(list, len, s.state, 1, want));
            CHECK(because(list, len, s.state, 0, only(0)));
            s.state.pri[0] = -1;          /* behind, it names nothing */
            if (!fails_here)
                want = behind(0);
            CHECK(because(list, len, s.state, 1, want));

            /* IF and WHILE never wait */
            for (uint8_t kind = IND_IF; kind <= IND_WHILE; kind += 3) {
                list[IND_ITEM * 4] = kind;
                list[IND_ITEM * 4 + 10] = 6;
                s.state.pri[0] = 0;
                CHECK(because(list, len, s.state, 1, only(0)));
                s.state.pri[0] = -1;
                CHECK(because(list, len, s.state, 1, behind(0)));
            }
        }
    }
    for (int op = 0; op < 8; op++)
        CHECK(waited[op] >= 20);
    CHECK(twice >= 40);
}

/* The station ahead of eight: which are ready, and their priorities. */
static void test_why_ahead(void)
{
    static struct sequence p;
    static uint8_t list[IND_ITEM * 48];
    static const uint8_t resets[8] = { 0 };
    uint8_t log[18];
    struct ind_state first, s;
    size_t len;

    p.len = 0;
    for (uint8_t i = 0; i < 8; i++) {
        add_bare(&p, IND_STATION);
        add_block(&p, IND_AWAIT, i, i % 2 == 0 ? 0 : 4, i % 2 == 0 ? 0 : 31);
    }
    len = ind_build(p.bytes, p.len, list, sizeof list).count * 16u;
    CHECK(len == 16 * 32);
    /* station i at record 8+3i */
    first = ind_start(list, len, 255, resets, 8, log, sizeof log, kept,
                      sizeof kept).state;

    /* ties: the lowest-numbered, and the tied may all be picked */
    for (uint8_t i = 0; i < 7; i++) {
        s = first;
        for (uint8_t j = 0; j < 8; j++)
            s.pri[j] = (int16_t)(j < i ? 9 : 8);
        s.pri[7] = 255;
        for (uint8_t j = 0; j < 8; j++)
            CHECK(because(list, len, s, j,
                          j < i || j == 7 ? behind(i) : only(0)));
    }
    for (int16_t all = 0; all < 256; all++) {
        for (uint8_t j = 0; j < 8; j++)
            s.pri[j] = all;
        for (uint8_t j = 0; j < 8; j++)
            CHECK(because(list, len, s, j, only(0)));
    }

    /* negative priorities: -7 to 0, up and down; a waiting and an ended
     * station of the lowest */
    for (uint8_t i = 0; i < 8; i++) {
        s = first;
        for (uint8_t j = 0; j < 8; j++)
            s.pri[j] = (int16_t)-((i + j) % 8);
        for (uint8_t j = 0; j < 8; j++)
            CHECK(because(list, len, s, j,
                          j == 7 - i ? only(0) : behind((uint8_t)(7 - i))));
        s.var[7 - i] = 1;                 /* it waits: -6 is ahead */
        for (uint8_t j = 0; j < 8; j++) {
            uint8_t ahead = (uint8_t)((14 - i) % 8);

            if (j == 7 - i)
                CHECK(because(list, len, s, j,
                              j % 2 == 0
                              ? waits_for((uint16_t)(8 + 3 * j), j, 1)
                              : and_for(waits_for((uint16_t)(8 + 3 * j), j, 1),
                                        31, 0)));
            else
                CHECK(because(list, len, s, j,
                              j == ahead ? only(0) : behind(ahead)));
        }
        s.pos[7 - i] += 2;                /* it has ended */
        CHECK(because(list, len, s, (uint8_t)(7 - i), only(16)));
        CHECK(because(list, len, s, (uint8_t)((8 - i) % 8),
                      behind((uint8_t)((14 - i) % 8))));
    }

    /* every set of ready stations, the others waiting and ended by turns */
    for (unsigned mask = 0; mask < 256; mask++) {
        for (int how = 0; how < 8; how++) {
            s = first;
            for (int j = 0; j < 8; j++) {
                int ready = (int)(mask >> j & 1);
                int pri[8];

                pri[0] = 0;
                pri[1] = j;
                pri[2] = 255 - j;
                pri[3] = -j;
                pri[4] = j - 7;
                pri[5] = (j + (int)mask) % 3;
                pri[6] = ready ? j / 3 : -(j % 2);
                pri[7] = ready && j % 3 == 0 ? 1 : 0;
                s.pri[j] = (int16_t)pri[how];
                if (!ready && (j + how) % 2 == 0)
                    s.pos[j] += 2;
                else if (!ready)
                    s.var[j] = 1 + mask;
            }
            for (uint8_t j = 0; j < 8; j++)
                CHECK(because(list, len, s, j, defined_why(list, &s, j)));
            CHECK(because(list, len, s, 8, only(10)));
        }
    }

    /* every reset, where B is 0, in the middle and 255: station 2 waits, 6 has
     * ended, 3 may be picked, the others are behind */
    for (int b = 0; b < 256; b = b == 0 ? 7 : b == 7 ? 254 : b + 1) {
        s = first;
        s.b = (uint8_t)b;
        s.var[2] = 5;
        s.pos[6] += 2;
        s.pri[3] = -3;
        check_why(list, len, &s);
        for (unsigned i = 0; i < 9 * 256; i++) {
            uint8_t number = ind_why(list, len, s, (uint8_t)(i / 256)).number;

            if (number == IND_FINE && i % 256 > (unsigned)b)
                number = IND_RESET;
            CHECK(ind_step(list, len, s, log, sizeof log, kept, sizeof kept,
                           (uint8_t)(i / 256),
                           (uint8_t)(i % 256)).number == number);
        }
    }
}

/* Lists that someone else wrote: records mixed, several STOPs of a station or
 * none, and the highest places. */
static void test_why_foreign(void)
{
    static const uint8_t *const list = three_list;
    static uint8_t longest[IND_ITEM * IND_MAX_ITEMS];
    static const uint8_t resets[3] = { 0, 0, 0 };
    uint8_t log[32];
    struct ind_state_answer s;
    size_t len = sizeof three_list;

    s = ind_start(list, len, 1, resets, 3, log, sizeof log, kept, sizeof kept);
    CHECK(s.number == IND_FINE);
    CHECK(because(list, len, s.state, 0, only(0)));
    CHECK(because(list, len, s.state, 1,
                  and_for(waits_for(6, 9, 0), 4, 0)));
    CHECK(because(list, len, s.state, 2, only(0)));
    s.state.pos[2] = 11;
    CHECK(because(list, len, s.state, 2, waits_for(11, 4, 0)));
    s.state.var[4] = 7;
    s.state.var[9] = 8;
    CHECK(because(list, len, s.state, 1,
                  and_for(waits_for(6, 9, 8), 4, 7)));
    CHECK(because(list, len, s.state, 2, waits_for(11, 4, 7)));

    /* each of its STOPs, of the lowest priority; the SKIP that nobody
     * reaches */
    s.state.var[4] = 9;
    s.state.pri[0] = -2;
    for (int i = 0; i < 3; i++) {
        static const uint16_t stop[3] = { 3, 8, 10 };

        s.state.pos[0] = stop[i];
        s.state.pos[1] = 6;
        CHECK(because(list, len, s.state, 0, only(16)));
        CHECK(because(list, len, s.state, 1, only(0)));
        s.state.pos[1] = 5;
        CHECK(because(list, len, s.state, 1, only(0)));
        s.state.pri[1] = 1;
        CHECK(because(list, len, s.state, 1, behind(2)));
        s.state.pri[1] = 0;
    }

    /* every position, variables and priorities at will; the inside ones are
     * 8 */
    for (uint16_t i = 0; i < 13 * 13 * 13; i++) {
        static const int16_t pri[4][3] = {
            { 0, 0, 0 }, { 1, 0, 0 }, { -2, -1, 1 }, { 1, 1, -2 }
        };

        s.state.pos[0] = i % 13;
        s.state.pos[1] = i / 13 % 13;
        s.state.pos[2] = (uint16_t)(i / 13 / 13);
        s.state.var[4] = 6 + i % 5u;
        s.state.var[9] = 6 + i % 4u;
        for (int j = 0; j < 3; j++)
            s.state.pri[j] = pri[i % 4][j];
        check_why(list, len, &s.state);
    }

    /* a place of two bytes */
    len = late_await(longest, sizeof longest, 3, 5, 31);
    s = ind_start(longest, len, 0, resets, 1, log, sizeof log, kept,
                  sizeof kept);
    CHECK(because(longest, len, s.state, 0, only(0)));
    s.state.pos[0] = 1021;
    CHECK(because(longest, len, s.state, 0,
                  and_for(waits_for(1021, 3, 0), 31, 0)));
    s.state.pos[0] = 1023;
    CHECK(because(longest, len, s.state, 0, only(16)));
    s.state.pos[0] = 1024;
    CHECK(because(longest, len, s.state, 0, only(8)));
}

/* n stations, each at a SKIP, at an AWAIT that fails, ended and, of four cases,
 * at an AWAIT that holds, with every priority from `low` to `high`, those that
 * make no sound state among them. */
static void test_why_every(uint8_t n, uint8_t b, int low, int high, int cases)
{
    static struct sequence p;
    uint8_t list[IND_ITEM * 24], log[16];
    static const uint8_t resets[4] = { 0, 0, 0, 0 };
    struct ind_state_answer s;
    unsigned each = (unsigned)(cases * (high - low + 1)), all = 1;
    size_t len;

    p.len = 0;
    for (uint8_t i = 0; i < n; i++) {
        add_bare(&p, IND_STATION);
        add_bare(&p, IND_SKIP);
        add_block(&p, IND_AWAIT, (uint8_t)(i + 1), (uint8_t)(4 * (i % 2)), 0);
        all *= each;
    }
    len = ind_build(p.bytes, p.len, list, sizeof list).count * 16u;
    s = ind_start(list, len, b, resets, n, log, sizeof log, kept, sizeof kept);
    CHECK(s.number == IND_FINE);
    for (unsigned i = 0; i < all; i++) {
        struct ind_state u = s.state;
        unsigned rest = i;

        u.m = (uint16_t)(i % 64);
        for (uint8_t j = 0; j < n; j++) {
            static const uint16_t to[4] = { 0, 1, 3, 1 };
            unsigned what = rest % each;

            u.pos[j] = (uint16_t)(u.pos[j] + to[what % (unsigned)cases]);
            u.var[j + 1] = what % (unsigned)cases == 1 ? 2u + j : 0;
            u.pri[j] = (int16_t)(low + (int)(what / (unsigned)cases));
            rest /= each;
        }
        check_why(list, len, &u);
    }
}

/* Random lists, the built and the scrambled, in a run, behind undos, and with
 * variables, positions and priorities as no call left them. */
static void test_random_why(struct rng *g, int rounds)
{
    static uint8_t list[IND_ITEM * IND_MAX_ITEMS], log[400];
    static struct ind_why_answer seen[64][IND_STATIONS];

    memset(answered, 0, sizeof answered);
    for (int round = 0; round < rounds; round++) {
        uint8_t b = chance(g, 80) ? (uint8_t)below(g, 4) : 255;
        size_t size = 100 + below(g, 400);
        struct ind_state_answer s;
        size_t len = start_random(g, size, b, list, &s, log, sizeof log);
        size_t n = s.state.n;

        for (int turn = 0; turn < 40; turn++) {
            struct ind_state other = s.state;
            size_t i = below(g, 8);
            uint16_t m;

            if (turn % 4 == 0)
                check_why(list, len, &s.state);
            for (uint8_t j = 0; j < n; j++)
                seen[s.state.m][j] = ind_why(list, len, s.state, j);

            for (uint8_t v = 0; v < 3; v++)
                other.var[v] = random_constant(g);
            other.m = (uint16_t)below(g, 4097);
            for (size_t j = 0; j < n; j++) {
                size_t to = below(g, (uint32_t)(len / 16));
                int await = chance(g, 60);

                while (to < len / 16
                       && (list[16 * to] == IND_INIT || list[16 * to + 8] != j
                           || list[16 * to + 9] != 0
                           || (await && list[16 * to] != IND_AWAIT)))
                    to++;
                if (to < len / 16)
                    other.pos[j] = (uint16_t)to;
                if (chance(g, 40))
                    other.pri[j] = (int16_t)((int)below(g, 5) - 3);
                if (other.pri[j] > b)
                    other.pri[j] = b;
                if (chance(g, 80))          /* mostly what B allows */
                    other.cnt[j] = (uint16_t)below(g, 1u + b
                                                   - (uint32_t)other.pri[j]);
            }
            if (turn % 2 == 1)
                check_why(list, len, &other);

            /* behind an undo, the reasons are those of before */
            m = s.state.m;
            s = step_or_undo(g, list, len, s.state, log, sizeof log, i);
            if (s.state.m < m)
                for (uint8_t j = 0; j < n; j++)
                    CHECK(because(list, len, s.state, j, seen[s.state.m][j]));
        }
    }
    CHECK(answered[0] > 1000 && answered[8] > 1000 && answered[10] > 1000
          && answered[11] > 1000 && answered[12] > 1000 && answered[16] > 1000);
}

/* ------------------------------------------------------------------ */
/* How often each station was passed over                             */
/* ------------------------------------------------------------------ */

/* "times ready and passed over since the station's last pick, or since the
 * start", worked out from the m steps that stand: their picks are in the log,
 * and `seen` has the state before each. */
static unsigned passed_over(const uint8_t *list, const uint8_t *log,
                            const struct ind_state *seen, size_t m,
                            size_t station)
{
    size_t n = seen[0].n;
    unsigned count = 0;

    while (m-- > 0 && log[2 * (n + m)] != station)
        count += by_record(list, &seen[m], station) == IND_FINE;
    return count;
}

/* Whether the state seen with m steps has the counts that were worked out, and
 * "counts from n on are zero". */
static int counts_right(const uint8_t *list, const uint8_t *log,
                        const struct ind_state *seen, size_t m)
{
    size_t n = seen[0].n;

    for (size_t i = 0; i < IND_STATIONS; i++)
        if (seen[m].cnt[i]
            != (i < n ? passed_over(list, log, seen, m, i) : 0))
            return 0;
    return 1;
}

/* "each station's priority plus its count is at most B", and no count is above
 * B+n-1. */
static int counts_bounded(const struct ind_state *s)
{
    for (size_t i = 0; i < s->n; i++)
        if ((long)s->pri[i] + (long)s->cnt[i] > s->b
            || s->cnt[i] > s->b + s->n - 1)
            return 0;
    return 1;
}

/* Whether the rules on priorities and counts hold, entry by entry. */
static int rules_hold(const struct ind_state *s)
{
    int low[IND_STATIONS + 1] = { 0 };

    for (int i = 0; i < IND_STATIONS; i++) {
        long sum = (long)s->pri[i] + (long)s->cnt[i];

        if (i >= s->n ? s->pri[i] != 0 || s->cnt[i] != 0 : sum > s->b)
            return 0;
        for (int k = 1; k <= s->n; k++)
            low[k] += i < s->n && s->pri[i] <= -k;
    }
    for (int k = 1; k <= s->n; k++)
        if (low[k] > s->n - k)
            return 0;
    return 1;
}

/* Whether the first n counts are these. */
static int counts_are(const struct ind_state *s, const uint16_t *want)
{
    for (size_t i = 0; i < IND_STATIONS; i++)
        if (s->cnt[i] != (i < s->n ? want[i] : 0))
            return 0;
    return 1;
}

/* What every call answers to a state: 0 or 8, by its priorities and counts
 * alone.  On a sound one a step keeps the rules and counts as it should; the
 * lights, readiness and why are those without counts. */
static void check_counts(const uint8_t *list, size_t len,
                         const struct ind_state *s)
{
    static uint8_t log[2 * (IND_STATIONS + 200)];
    struct ind_state plain = *s;
    struct ind_lights_answer l = ind_lights(list, len, *s), without;
    int sound = rules_hold(s);
    uint8_t number = sound ? IND_FINE : IND_STATE;

    CHECK(l.number == number);
    if (!sound) {
        struct ind_state_answer t;

        CHECK(ind_readiness(list, len, *s, 0).number == IND_STATE);
        CHECK(because(list, len, *s, 9, only(IND_STATE)));
        t = ind_step(list, len, *s, log, 0, kept, 0, 9, 9);
        CHECK(t.number == IND_STATE && same_state(&t.state, s));
        t = ind_undo(list, len, *s, log, 0, kept, 0);
        CHECK(t.number == IND_STATE && same_state(&t.state, s));
        CHECK(ind_run(list, len, *s, log, 0, kept, 0, NULL, 0, 0).number
              == IND_STATE);
        return;
    }
    CHECK(counts_bounded(s));
    clear_counts(&plain);
    without = ind_lights(list, len, plain);
    CHECK(memcmp(&l, &without, sizeof l) == 0);
    for (uint8_t i = 0; i < s->n; i++) {
        struct ind_why_answer y = ind_why(list, len, plain, i);
        struct ind_readiness_answer a = ind_readiness(list, len, plain, i);
        struct ind_state_answer t = ind_step(list, len, *s, log, sizeof log,
                                             kept, sizeof kept, i, s->b);

        CHECK(because(list, len, *s, i, y));
        CHECK(told(list, len, *s, i, a.number, a.place));
        CHECK(t.number == y.number);
        for (uint8_t j = 0; j < IND_STATIONS; j++) {
            unsigned want = s->cnt[j];

            if (t.number == IND_FINE && j == i)
                want = 0;
            else if (t.number == IND_FINE)
                want += l.ready >> j & 1;
            CHECK(t.state.cnt[j] == want);
        }
        CHECK(rules_hold(&t.state) && counts_bounded(&t.state));
    }
}

/* Each reason of being counted or not, by steps, by runs, there and back. */
static void test_counts(void)
{
    static const struct {
        uint8_t pick[2];
        uint16_t counts[5];
    } rows[] = {
        { { 2, 6 }, { 1, 1, 0, 0, 1 } },   /* it ends; 3 waits */
        { { 0, 0 }, { 0, 2, 0, 0, 2 } },   /* picked; 2 has ended */
        { { 1, 6 }, { 1, 0, 0, 0, 3 } },   /* to its AWAIT, where it waits */
        { { 0, 0 }, { 0, 0, 0, 0, 4 } },   /* releases 1: it was not ready */
        { { 0, 0 }, { 0, 1, 0, 0, 5 } },   /* makes 1 wait: it was ready */
        { { 0, 0 }, { 0, 1, 0, 0, 6 } },   /* 1 waits and keeps its count */
        { { 4, 6 }, { 1, 1, 0, 0, 0 } },   /* the others keep theirs */
        { { 0, 0 }, { 0, 1, 0, 0, 1 } },
        { { 0, 0 }, { 0, 2, 0, 0, 2 } },
        { { 0, 0 }, { 0, 2, 0, 0, 3 } },
        { { 0, 0 }, { 0, 2, 0, 0, 4 } },
        { { 0, 0 }, { 0, 3, 0, 0, 5 } }
    };
    enum { STEPS = sizeof rows / sizeof rows[0] };
    static const uint16_t zeros[5];
    static const uint8_t start[6] = { 6, 0, 2, 0, 3, 6 };
    static struct sequence p;
    uint8_t list[IND_ITEM * 21], log[2 * (5 + STEPS)], again[sizeof log];
    uint8_t picks[2 * STEPS + 6] = { 0 };
    struct ind_state seen[STEPS + 1];
    struct ind_state_answer s;
    struct ind_run_answer r;
    size_t len;

    flickers(&p);
    len = ind_build(p.bytes, p.len, list, sizeof list).count * 16u;
    CHECK(len == sizeof list);
    s = ind_start(list, len, 6, start + 1, 5, log, sizeof log, kept,
                  sizeof kept);
    CHECK(s.number == IND_FINE && counts_are(&s.state, zeros));
    seen[0] = s.state;
    for (int i = 0; i < STEPS; i++) {
        memcpy(picks + 2 * i, rows[i].pick, 2);
        s = ind_step(list, len, s.state, log, sizeof log, kept, sizeof kept,
                     picks[2 * i], picks[2 * i + 1]);
        CHECK(s.number == IND_FINE && counts_are(&s.state, rows[i].counts));
        CHECK(counts_bounded(&s.state));
        seen[i + 1] = s.state;
        CHECK(counts_right(list, log, seen, i + 1u));
        /* refused, it leaves the counts: 16, 11, 12 or 11, 13, 10, 6 */
        for (int j = 0; j < 6; j++) {
            static const uint8_t refused_pick[6][2] = {
                { 2, 0 }, { 3, 0 }, { 1, 7 }, { 0, 7 }, { 5, 0 }, { 0, 0 }
            };
            struct ind_state_answer t = ind_step(
                list, len, s.state, log, j < 5 ? sizeof log : 0, kept,
                sizeof kept, refused_pick[j][0], refused_pick[j][1]);

            CHECK(t.number != IND_FINE && same_state(&t.state, &s.state));
        }
    }
    /* by a run of so many steps */
    for (size_t most = 0; most <= STEPS; most++) {
        r = ind_run(list, len, seen[0], again, sizeof again, kept,
                    sizeof kept, picks, 2 * STEPS, most);
        CHECK(r.number == IND_FINE && same_state(&r.state, &seen[most]));
    }
    /* back: each count as it was; what the given one's are does not matter */
    for (int i = STEPS; i > 0; i--) {
        struct ind_state other = seen[i];

        s = ind_undo(list, len, seen[i], log, sizeof log, kept, sizeof kept);
        CHECK(s.number == IND_FINE && same_state(&s.state, &seen[i - 1]));
        for (int j = 0; j < 5; j++)
            other.cnt[j] = (uint16_t)(6 - other.pri[j]);
        s = ind_undo(list, len, other, log, sizeof log, kept, sizeof kept);
        CHECK(s.number == IND_FINE && same_state(&s.state, &seen[i - 1]));
        clear_counts(&other);
        s = ind_undo(list, len, other, log, sizeof log, kept, sizeof kept);
        CHECK(s.number == IND_FINE && same_state(&s.state, &seen[i - 1]));
    }
    /* each count at the most that B allows and one above, whatever its station
     * does */
    for (int i = 0; i <= STEPS; i++) {
        for (uint8_t j = 0; j < 5; j++) {
            for (int over = 0; over <= 1; over++) {
                struct ind_state other = changed(seen[i], (struct change){
                    CHANGE_CNT, j, 6 - seen[i].pri[j] + over
                });

                CHECK(rules_hold(&other) == !over);
                check_counts(list, len, &other);
            }
        }
    }
    /* counts that no call made: whoever has ended or waits keeps his */
    {
        static const uint16_t many[5] = { 4, 1, 5, 9, 1 };
        static const uint16_t then[5] = { 0, 1, 5, 9, 2 };
        struct ind_state other = seen[6];      /* 1 waits, 0 and 4 are tied */

        memcpy(other.cnt, many, sizeof many);
        other.pri[2] = 1;
        other.pri[3] = -4;
        s = ind_step(list, len, other, log, sizeof log, kept, sizeof kept, 0,
                     0);
        CHECK(s.number == IND_FINE && counts_are(&s.state, then));
    }

    /* the trace: counts behind the priorities */
    picks[2 * 7] = 255;
    CHECK(traced(&p, start, 6, picks, 2 * 8,
                 "0 23 5 0 2 0 3 6 0 0 0 0 0\n"
                 "1 19 1 -1 1 6 3 5 1 1 0 0 1\n"
                 "2 19 3 0 0 6 3 4 0 2 0 0 2\n"
                 "3 17 1 -1 6 6 3 3 1 0 0 0 3\n"
                 "4 19 1 0 6 6 3 2 0 0 0 0 4\n"
                 "5 17 1 0 5 6 3 1 0 1 0 0 5\n"
                 "6 17 17 0 5 6 3 0 0 1 0 0 6\n"
                 "7 17 1 -1 5 6 3 6 1 1 0 0 0\n"
                 "6 17 17 0 5 6 3 0 0 1 0 0 6\n"
                 "end 0\n"));
}

/* The longest wait for every n and B: B+n-1, and no count before is above
 * it. */
static void test_longest(void)
{
    static struct sequence p;
    static struct ind_state seen[270];
    static uint8_t list[IND_ITEM * 40], log[2 * 280], picks[2 * 270];
    static uint8_t out[40000];
    static const char last[] = "262 255 128 -6 -5 -4 -3 -2 -1 0 -7 "
                               "6 5 4 3 2 1 0 262\nend 0\n";
    uint8_t start[9];
    size_t len, count;

    for (size_t n = 1; n <= 8; n++) {
        loops(&p, n);
        len = ind_build(p.bytes, p.len, list, sizeof list).count * 16u;
        for (unsigned b = 0; b < 256; b++) {
            struct ind_state_answer s;
            struct ind_run_answer r;
            unsigned most = n == 1 ? 0 : b + (unsigned)n - 1;

            count = longest_wait(n, (uint8_t)b, start, picks);
            s = ind_start(list, len, (uint8_t)b, start + 1, n, log, sizeof log,
                          kept, sizeof kept);
            r = ind_run(list, len, s.state, log, sizeof log, kept, sizeof kept,
                        picks, 2 * (b + n - 1), SIZE_MAX);
            CHECK(r.number == IND_FINE && r.steps == b + n - 1);
            CHECK(r.state.cnt[n - 1] == most && counts_bounded(&r.state));
            r = ind_run(list, len, r.state, log, sizeof log, kept, sizeof kept,
                        picks + 2 * (b + n - 1), 2 * (count - (b + n - 1)),
                        SIZE_MAX);
            CHECK(r.number == IND_FINE && r.state.cnt[n - 1] == 0);
            if (b != 0 && b != 9 && b != 255)
                continue;
            /* step by step, and each withdrawn */
            seen[0] = s.state;
            for (size_t m = 0; m < count; m++) {
                s = ind_step(list, len, s.state, log, sizeof log, kept,
                             sizeof kept, picks[2 * m], picks[2 * m + 1]);
                CHECK(s.number == IND_FINE && counts_bounded(&s.state));
                seen[m + 1] = s.state;
                CHECK(counts_right(list, log, seen, m + 1));
                CHECK(s.state.cnt[n - 1] <= most);
            }
            CHECK(same_state(&s.state, &r.state));
            for (size_t m = count; m > 0; m--) {
                s = ind_undo(list, len, s.state, log, sizeof log, kept,
                             sizeof kept);
                CHECK(s.number == IND_FINE
                      && same_state(&s.state, &seen[m - 1]));
            }
        }
    }

    /* n = 8, B = 255: the trace's last column */
    count = ind_trace(p.bytes, p.len, start, 9, picks, 2 * 262, out,
                      sizeof out);
    CHECK(count < sizeof out && count > sizeof last
          && memcmp(out + count - (sizeof last - 1), last, sizeof last - 1)
             == 0);
}

/* n stations with every priority from -n to B+1 and every count to B+n: sound
 * just where the rules hold, and then no count is above B+n-1, which is met. */
static void test_counts_every(uint8_t n, uint8_t b)
{
    static struct sequence p;
    static uint8_t list[IND_ITEM * 40];
    uint8_t log[16];
    struct ind_state first;
    unsigned priorities = 2u + n + b, counts = 1u + n + b, all = 1;
    unsigned highest = 0;
    size_t len;

    loops(&p, n);
    len = ind_build(p.bytes, p.len, list, sizeof list).count * 16u;
    first = ind_start(list, len, b, (const uint8_t[8]){ 0 }, n, log,
                      sizeof log, kept, sizeof kept).state;
    for (int i = 0; i < n; i++)
        all *= priorities * counts;
    for (unsigned i = 0; i < all; i++) {
        struct ind_state s = first;
        unsigned rest = i;

        for (int j = 0; j < n; j++) {
            s.pri[j] = (int16_t)((int)(rest % priorities) - n);
            rest /= priorities;
            s.cnt[j] = (uint16_t)(rest % counts);
            rest /= counts;
        }
        check_counts(list, len, &s);
        for (int j = 0; j < n; j++)
            if (rules_hold(&s) && s.cnt[j] > highest)
                highest = s.cnt[j];
    }
    CHECK(highest == b + n - 1u);
}

/* Every count that 16 bits hold, beside priorities from the lowest that is
 * sound to the highest that 16 bits hold; counts from n on. */
static void test_counts_wide(void)
{
    static const int pri[] = { -32768, -32767, -256, -8, -7, -6, -1, 0, 1, 5,
                               254, 255, 256, 32766, 32767 };
    static struct sequence p;
    static uint8_t list[IND_ITEM * 40];
    uint8_t log[16];

    for (uint8_t n = 1; n <= 8; n = (uint8_t)(n + 7)) {
        size_t len;
        struct ind_state s;

        loops(&p, n);
        len = ind_build(p.bytes, p.len, list, sizeof list).count * 16u;
        for (unsigned b = 0; b < 256; b += b == 0 ? 5 : 250) {
            s = ind_start(list, len, (uint8_t)b, (const uint8_t[8]){ 0 }, n,
                          log, sizeof log, kept, sizeof kept).state;
            for (size_t k = 0; k < sizeof pri / sizeof pri[0]; k++) {
                size_t i = k % n;

                for (unsigned count = 0; count < 65536; count++) {
                    s.pri[i] = (int16_t)pri[k];
                    s.cnt[i] = (uint16_t)count;
                    CHECK((ind_lights(list, len, s).number == IND_FINE)
                          == rules_hold(&s));
                }
                s.pri[i] = 0;
                s.cnt[i] = 0;
            }
        }
    }
    for (uint8_t n = 1; n < 8; n++) {
        size_t len;
        struct ind_state s;

        loops(&p, n);
        len = ind_build(p.bytes, p.len, list, sizeof list).count * 16u;
        s = ind_start(list, len, 255, (const uint8_t[8]){ 0 }, n, log,
                      sizeof log, kept, sizeof kept).state;
        for (unsigned i = n; i < 8; i++) {
            for (unsigned bit = 0; bit < 16; bit++) {
                s.cnt[i] = (uint16_t)(1u << bit);
                check_counts(list, len, &s);
            }
            s.cnt[i] = 0;
        }
        check_counts(list, len, &s);
    }
}

/* 8 by the counts and where it comes in each call's order. */
static void test_counts_refused(void)
{
    static struct sequence p;
    static const uint8_t zeros[8];
    static const uint8_t picks[3] = { 0, 0, 0 };
    uint8_t list[IND_ITEM * 8], log[16];
    struct ind_state_answer s;
    size_t len = sizeof list;

    loops(&p, 2);
    CHECK(ind_build(p.bytes, p.len, list, len).count == 8);
    s = ind_start(list, len, 3, zeros, 2, log, sizeof log, kept, sizeof kept);
    for (int i = 0; i < 4; i++) {
        static const struct change unsound[4] = {
            { CHANGE_CNT, 0, 4 }, { CHANGE_CNT, 1, 65535 },
            { CHANGE_CNT, 2, 1 }, { CHANGE_CNT, 7, 256 }
        };
        struct ind_state u = changed(s.state, unsound[i]);

        check_counts(list, len, &u);
        /* 7 before it, and RUN's 1 */
        CHECK(ind_lights(list, len - 1, u).number == IND_LIST);
        CHECK(told(list, len - 1, u, 0, IND_LIST, 0));
        CHECK(because(list, len - 1, u, 0, only(IND_LIST)));
        CHECK(ind_step(list, len - 1, u, log, sizeof log, kept, sizeof kept,
                       0, 0).number == IND_LIST);
        CHECK(ind_undo(list, len - 1, u, log, sizeof log, kept,
                       sizeof kept).number == IND_LIST);
        CHECK(ind_run(list, len - 1, u, log, sizeof log, kept, sizeof kept,
                      picks, 2, 1).number == IND_LIST);
        CHECK(ind_run(list, len, u, log, sizeof log, kept, sizeof kept, picks,
                      3, 1).number == IND_LENGTH);
        /* 9, 6, 10 and 14 behind it */
        CHECK(ind_step(list, len, u, log, sizeof log, kept, sizeof kept, 0,
                       0).number == IND_STATE);
        u.m = 4096;
        CHECK(ind_step(list, len, u, log, 0, kept, 0, 9, 9).number
              == IND_STATE);
        CHECK(ind_run(list, len, u, log, 0, kept, 0, picks, 2, 1).number
              == IND_STATE);
        CHECK(told(list, len, u, 9, IND_STATE, 0));
    }
    /* just sound: 3 with a priority of 0, 4 with one of -1 */
    for (int i = 0; i < 2; i++) {
        struct ind_state u = s.state;

        u.pri[1] = (int16_t)-i;
        u.cnt[1] = (uint16_t)(3 + i);
        check_counts(list, len, &u);
        CHECK(ind_lights(list, len, u).number == IND_FINE);
        u.cnt[1]++;
        check_counts(list, len, &u);
        CHECK(ind_lights(list, len, u).number == IND_STATE);
    }
}

/* Random lists, the built and the scrambled: after each step and each undo the
 * counts are those worked out from the steps then standing. */
static void test_counted_histories(struct rng *g, int rounds)
{
    static uint8_t list[IND_ITEM * IND_MAX_ITEMS], log[400];
    static struct ind_state seen[200];
    unsigned long withdrawn = 0, kept_one = 0, cleared = 0;

    for (int round = 0; round < rounds; round++) {
        uint8_t b = chance(g, 80) ? (uint8_t)below(g, 6) : 255;
        size_t size = 100 + below(g, 400);
        struct ind_state_answer s;
        size_t len = start_random(g, size, b, list, &s, log, sizeof log);

        seen[0] = s.state;
        for (int turn = 0; turn < 120; turn++) {
            size_t i = below(g, 8);
            struct ind_state before = s.state;

            s = step_or_undo(g, list, len, s.state, log, sizeof log, i);
            if (s.state.m < before.m) {
                withdrawn++;
                CHECK(same_state(&s.state, &seen[s.state.m]));
            }
            seen[s.state.m] = s.state;
            CHECK(counts_right(list, log, seen, s.state.m));
            CHECK(counts_bounded(&s.state) && rules_hold(&s.state));
            for (size_t j = 0; j < s.state.n && s.state.m > before.m; j++) {
                kept_one += before.cnt[j] > 0
                         && s.state.cnt[j] == before.cnt[j];
                cleared += before.cnt[j] > 0 && s.state.cnt[j] == 0;
            }
            if (turn % 8 == 0)
                check_counts(list, len, &s.state);
        }
    }
    CHECK(withdrawn > 5000 && kept_one > 200 && cleared > 5000);
}

/* ------------------------------------------------------------------ */
/* Kept states                                                        */
/* ------------------------------------------------------------------ */

/* The kept buffer of a panel is longer than it has to be. */
enum { PANEL_KEPT = IND_KEPT_BYTES + 40 };

/* A list being run, with its log and its kept buffer; the states with 0 to m
 * steps, and what the kept buffer has to hold. */
struct panel {
    uint8_t list[IND_ITEM * 128];
    size_t len;
    size_t n;
    struct ind_state state;
    uint8_t log[2 * (IND_STATIONS + IND_MAX_STEPS)];
    uint8_t kept[PANEL_KEPT];
    struct ind_state seen[IND_MAX_STEPS + 1];
    uint8_t want[PANEL_KEPT];
};

/* The bytes of a kept place, as docs/KEPT.md has them. */
static void encoded(const struct ind_state *s, uint8_t out[IND_KEPT_PLACE])
{
    memset(out, 0, IND_KEPT_PLACE);
    for (int v = 0; v < 32; v++)
        for (int i = 0; i < 4; i++)
            out[4 * v + i] = (uint8_t)(s->var[v] >> 8 * i & 255);
    for (int j = 0; j < 8; j++) {
        int higher = s->pri[j] + 32768;

        out[128 + 2 * j] = (uint8_t)(s->pos[j] % 256);
        out[129 + 2 * j] = (uint8_t)(s->pos[j] / 256);
        out[144 + 2 * j] = (uint8_t)(higher % 256);
        out[145 + 2 * j] = (uint8_t)(higher / 256);
        out[160 + 2 * j] = (uint8_t)(s->cnt[j] % 256);
        out[161 + 2 * j] = (uint8_t)(s->cnt[j] / 256);
    }
    out[176] = s->n;
    out[177] = s->b;
    out[178] = (uint8_t)(s->m % 256);
    out[179] = (uint8_t)(s->m / 256);
}

/* The state in the bytes of a kept place; those that have to be zero are not
 * looked at. */
static struct ind_state decoded(const uint8_t *p)
{
    struct ind_state s;

    for (int v = 0; v < 32; v++) {
        s.var[v] = 0;
        for (int i = 3; i >= 0; i--)
            s.var[v] = s.var[v] << 8 | p[4 * v + i];
    }
    for (int j = 0; j < 8; j++) {
        s.pos[j] = (uint16_t)(p[128 + 2 * j] + 256 * p[129 + 2 * j]);
        s.pri[j] = (int16_t)(p[144 + 2 * j] + 256 * p[145 + 2 * j] - 32768);
        s.cnt[j] = (uint16_t)(p[160 + 2 * j] + 256 * p[161 + 2 * j]);
    }
    s.n = p[176];
    s.b = p[177];
    s.m = (uint16_t)(p[178] + 256 * p[179]);
    return s;
}

/* Where kept place j begins. */
static uint8_t *kept_at(uint8_t *buf, size_t j)
{
    return buf + 184 * (j - 1);
}

/* Document 01's undo where the log is as the calls left it: all of the first
 * n+m-1 records replayed, from the start on. */
static struct ind_state slow_undo(const struct panel *x)
{
    static uint8_t log[2 * (IND_STATIONS + IND_MAX_STEPS)];
    static uint8_t other[IND_KEPT_BYTES];
    uint8_t resets[8];
    struct ind_state_answer s;
    struct ind_run_answer r;

    for (size_t i = 0; i < x->n; i++) {
        CHECK(x->log[2 * i] == i);
        resets[i] = x->log[2 * i + 1];
    }
    s = ind_start(x->list, x->len, x->state.b, resets, x->n, log, sizeof log,
                  other, sizeof other);
    CHECK(s.number == IND_FINE);
    r = ind_run(x->list, x->len, s.state, log, sizeof log, other, sizeof other,
                x->log + 2 * x->n, 2 * (x->state.m - 1u), SIZE_MAX);
    CHECK(r.number == IND_FINE && r.steps == x->state.m - 1u);
    return r.state;
}

/* Undo by its definition on anything, test by test; soundness is what the
 * lights say of a state. */
static struct ind_state_answer defined_undo(const uint8_t *list, size_t len,
                                            struct ind_state state,
                                            const uint8_t *log, size_t loglen,
                                            const uint8_t *buf, size_t buflen)
{
    static uint8_t log2[2 * (IND_STATIONS + IND_MAX_STEPS)];
    static uint8_t buf2[IND_KEPT_BYTES];
    struct ind_state_answer answer = { IND_FINE, state };
    struct ind_state from;
    struct ind_run_answer r;
    size_t q, n = state.n;

    answer.number = ind_lights(list, len, state).number;
    if (answer.number == IND_FINE && state.m == 0)
        answer.number = IND_EMPTY;
    if (answer.number == IND_FINE && buflen < 11776)
        answer.number = IND_ROOM;
    if (answer.number != IND_FINE)
        return answer;
    q = ((size_t)state.m - 1) / 64;
    if (q > 0) {
        const uint8_t *p = buf + 184 * (q - 1);

        from = decoded(p);
        for (int i = 180; i < 184; i++)
            if (p[i] != 0)
                answer.number = IND_STATE;
        if (ind_lights(list, len, from).number != IND_FINE
            || from.m != 64 * q || from.b != state.b)
            answer.number = IND_STATE;
        if (answer.number != IND_FINE)
            return answer;
    }
    answer.number = IND_LOG;
    if (loglen < 2 * (n + state.m))
        return answer;
    if (q == 0) {
        uint8_t resets[8];
        struct ind_state_answer s;

        for (size_t i = 0; i < n; i++) {
            if (log[2 * i] != i)
                return answer;
            resets[i] = log[2 * i + 1];
        }
        s = ind_start(list, len, state.b, resets, n, log2, sizeof log2, buf2,
                      sizeof buf2);
        if (s.number != IND_FINE)
            return answer;
        from = s.state;
    }
    r = ind_run(list, len, from, log2, sizeof log2, buf2, sizeof buf2,
                log + 2 * (n + 64 * q), 2 * (state.m - 1 - 64 * q), SIZE_MAX);
    if (r.number != IND_FINE)
        return answer;
    answer.number = IND_FINE;
    answer.state = r.state;
    return answer;
}

/* Whether undo answers what its definition says, and this number. */
static int undone(const struct panel *x, const struct ind_state *state,
                  size_t loglen, size_t keptlen, uint8_t number)
{
    struct ind_state_answer a = ind_undo(x->list, x->len, *state, x->log,
                                         loglen, x->kept, keptlen);
    struct ind_state_answer b = defined_undo(x->list, x->len, *state, x->log,
                                             loglen, x->kept, keptlen);

    return a.number == number && b.number == number
        && same_state(&a.state, &b.state)
        && (number == IND_FINE || same_state(&a.state, state));
}

/* n stations that never end, all 32 variables with four bytes that are not
 * zero at the start; station 1 waits for station 0 by turns. */
static void wheels(struct sequence *p, uint8_t n)
{
    p->len = 0;
    for (uint8_t v = 0; v < 32; v++)
        add(p, IND_SET, v, 0, 0, 0x11213141 + 0x03050709 * (uint32_t)v);
    add(p, IND_SET, 30, 0, 0, 0);
    for (uint8_t i = 0; i < n; i++) {
        add_bare(p, IND_STATION);
        add(p, IND_WHILE, 0, 31, 4, 31);           /* for ever */
        add(p, IND_SET, i, i, 2, 0x01030507 + 2u * i);
        if (i == 0)
            add(p, IND_SET, 30, 30, 2, 1);
        if (i == 1) {
            add(p, IND_AWAIT, 0, 30, 3, 1);        /* AWAIT v30 >= 1 */
            add(p, IND_SET, 30, 30, 3, 1);
            add_bare(p, IND_END);
        }
        add(p, IND_IF, 0, i, 6, (uint32_t)i + 8);
        add(p, IND_SET, (uint8_t)(16 + i), (uint8_t)(16 + i), 5, i);
        add_bare(p, IND_ELSE);
        add(p, IND_SET, (uint8_t)(8 + i), (uint8_t)(16 + i), 4, i);
        add_bare(p, IND_FI);
        add_bare(p, IND_OD);
    }
}

/* Builds the wheels into the panel; its kept buffer is full of junk. */
static void set_up(struct panel *x, uint8_t n)
{
    static struct sequence p;
    struct ind_build_answer b;

    wheels(&p, n);
    b = ind_build(p.bytes, p.len, x->list, sizeof x->list);
    CHECK(b.number == IND_FINE);
    x->len = 16 * (size_t)b.count;
    x->n = n;
    for (size_t i = 0; i < sizeof x->kept; i++)
        x->kept[i] = (uint8_t)(1 + 7 * i % 255);
    memcpy(x->want, x->kept, sizeof x->want);
}

/* Starts the panel; the kept buffer has to stay as it is. */
static void set_off(struct panel *x, uint8_t b, const uint8_t *resets)
{
    struct ind_state_answer s = ind_start(x->list, x->len, b, resets, x->n,
                                          x->log, sizeof x->log, x->kept,
                                          sizeof x->kept);

    CHECK(s.number == IND_FINE);
    CHECK(memcmp(x->kept, x->want, sizeof x->kept) == 0);
    x->state = s.state;
    x->seen[0] = s.state;
}

/* A pick that step takes; the wheels always have one. */
static void good_pick(struct rng *g, const struct panel *x,
                      const struct ind_state *state, uint8_t pick[2])
{
    struct ind_lights_answer l = ind_lights(x->list, x->len, *state);
    uint8_t i = (uint8_t)below(g, 8);

    CHECK(l.in_turn != 0);
    while (l.in_turn != 0 && (l.in_turn >> i & 1) == 0)
        i = (uint8_t)((i + 1) % 8);
    pick[0] = i;
    pick[1] = (uint8_t)below(g, state->b + 1u);
}

/* What the kept buffer has to hold once the state is reached. */
static void reached(struct panel *x)
{
    x->seen[x->state.m] = x->state;
    if (x->state.m % 64 == 0)
        encoded(&x->state, kept_at(x->want, x->state.m / 64));
    CHECK(memcmp(x->kept, x->want, sizeof x->kept) == 0);
    CHECK(counts_right(x->list, x->log, x->seen, x->state.m));
}

/* Takes a good pick by a step. */
static void take_step(struct rng *g, struct panel *x)
{
    struct ind_state_answer s;
    uint8_t pick[2];

    good_pick(g, x, &x->state, pick);
    s = ind_step(x->list, x->len, x->state, x->log, sizeof x->log, x->kept,
                 sizeof x->kept, pick[0], pick[1]);
    CHECK(s.number == IND_FINE && s.state.m == x->state.m + 1);
    x->state = s.state;
    reached(x);
}

static void take_steps(struct rng *g, struct panel *x, size_t count)
{
    while (count-- > 0)
        take_step(g, x);
}

/* Takes up to `count` good picks by one run, and the same by steps of a log
 * and a kept buffer of their own. */
static void take_run(struct rng *g, struct panel *x, size_t count)
{
    static uint8_t log[2 * (IND_STATIONS + IND_MAX_STEPS)];
    static uint8_t other[PANEL_KEPT];
    static uint8_t picks[2 * IND_MAX_STEPS];
    struct ind_state_answer s = { IND_FINE, x->state };
    struct ind_run_answer r;

    memcpy(log, x->log, sizeof log);
    memcpy(other, x->kept, sizeof other);
    for (size_t i = 0; i < count; i++) {
        good_pick(g, x, &s.state, picks + 2 * i);
        s = ind_step(x->list, x->len, s.state, log, sizeof log, other,
                     sizeof other, picks[2 * i], picks[2 * i + 1]);
        CHECK(s.number == IND_FINE);
        x->seen[s.state.m] = s.state;
        if (s.state.m % 64 == 0)
            encoded(&s.state, kept_at(x->want, s.state.m / 64));
    }
    r = ind_run(x->list, x->len, x->state, x->log, sizeof x->log, x->kept,
                sizeof x->kept, picks, 2 * count, SIZE_MAX);
    CHECK(r.number == IND_FINE && r.steps == count);
    CHECK(same_state(&r.state, &s.state));
    CHECK(memcmp(x->log, log, sizeof log) == 0);
    CHECK(memcmp(x->kept, other, sizeof other) == 0);
    x->state = r.state;
    reached(x);
}

/* Withdraws a step: the state before it, whole; no lent byte is written.  Goes
 * on from that state, whatever was answered. */
static void take_undo(struct panel *x, int slowly)
{
    struct ind_state_answer s;

    CHECK(x->state.m > 0);
    if (x->state.m == 0)
        return;
    s = ind_undo(x->list, x->len, x->state, x->log, sizeof x->log, x->kept,
                 sizeof x->kept);
    CHECK(s.number == IND_FINE && s.state.m + 1 == x->state.m);
    CHECK(same_state(&s.state, &x->seen[x->state.m - 1]));
    CHECK(memcmp(x->kept, x->want, sizeof x->kept) == 0);
    if (slowly) {
        struct ind_state slow = slow_undo(x);

        CHECK(same_state(&s.state, &slow));
    }
    x->state = x->seen[x->state.m - 1];
}

/* Undo with the panel's log and kept buffer as they are and just long enough,
 * from the state with m steps: 0 and the state before. */
static int goes_back(const struct panel *x, uint16_t m)
{
    struct ind_state_answer s = ind_undo(x->list, x->len, x->seen[m], x->log,
                                         2 * (x->n + m), x->kept,
                                         IND_KEPT_BYTES);

    return s.number == IND_FINE && same_state(&s.state, &x->seen[m - 1])
        && undone(x, &x->seen[m], 2 * (x->n + m), IND_KEPT_BYTES, IND_FINE);
}

static const uint8_t nothing[8] = { 0 };

/* The bytes of a kept place, one by one. */
static void test_kept_bytes(void)
{
    /* two stations, each a SKIP that leads to itself */
    static const uint8_t list[] = {
        16, 0, 0, 0, 0, 0, 0, 0, 0, 0, 2, 0, 0, 0, 0, 0,
        16, 1, 0, 0, 0, 0, 0, 0, 1, 0, 3, 0, 0, 0, 0, 0,
        2, 0, 0, 0, 0, 0, 0, 0, 0, 0, 2, 0, 0, 0, 0, 0,
        2, 0, 0, 0, 0, 0, 0, 0, 1, 0, 3, 0, 0, 0, 0, 0
    };
    static struct sequence p;
    static uint8_t longest[IND_ITEM * IND_MAX_ITEMS];
    static uint8_t log[8300], buf[IND_KEPT_BYTES + 1];
    struct ind_state_answer s;
    struct ind_state u = { 0 };
    uint8_t want[184] = { 0 };
    size_t len;

    u.var[0] = 0x04030201;
    u.var[9] = 0xFFFEFDFC;
    u.var[31] = 0x80706050;
    u.pos[0] = 2;
    u.pos[1] = 3;
    u.cnt[1] = 8;
    u.n = 2;
    u.b = 9;
    memcpy(want, "\x01\x02\x03\x04", 4);
    memcpy(want + 36, "\xFC\xFD\xFE\xFF", 4);
    memcpy(want + 124, "\x50\x60\x70\x80", 4);
    want[128] = 2;
    want[130] = 3;
    memcpy(want + 144, "\x09\x80\xFF\x7F", 4);    /* "-1 the bytes 255, 127" */
    for (int i = 149; i < 160; i += 2)
        want[i] = 128;                            /* "0 is the bytes 0, 128" */
    want[162] = 9;                                /* one more than 8 */
    want[176] = 2;
    want[177] = 9;

    /* a place, and no other byte */
    for (int k = 0; k < 6; k++) {
        static const size_t places[6] = { 1, 2, 4, 5, 63, 64 };
        size_t j = places[k];

        memset(buf, 0xA7, sizeof buf);
        u.m = (uint16_t)(64 * j - 1);
        s = ind_step(list, sizeof list, u, log, sizeof log, buf, sizeof buf, 0,
                     9);
        CHECK(s.number == IND_FINE && s.state.m == 64 * j);
        want[178] = (uint8_t)(64 * j % 256);
        want[179] = (uint8_t)(64 * j / 256);
        CHECK(memcmp(buf + 184 * (j - 1), want, 184) == 0);
        for (size_t i = 0; i < sizeof buf; i++)
            if (i < 184 * (j - 1) || i >= 184 * j)
                CHECK(buf[i] == 0xA7);
    }
    CHECK(memcmp(want + 176, "\x02\x09\x00\x10", 4) == 0);

    /* a position of two bytes */
    p.len = 0;
    add_bare(&p, IND_STATION);
    while (p.len < IND_MAX_FILE)
        add_bare(&p, IND_SKIP);
    len = ind_build(p.bytes, p.len, longest, sizeof longest).count * 16u;
    s = ind_start(longest, len, 0, nothing, 1, log, sizeof log, buf,
                  sizeof buf);
    s.state.pos[0] = 1022;
    s.state.m = 63;
    s = ind_step(longest, len, s.state, log, sizeof log, buf, sizeof buf, 0,
                 0);
    CHECK(s.number == IND_FINE && s.state.pos[0] == 1023);
    CHECK(buf[128] == 255 && buf[129] == 3 && buf[130] == 0);

    /* a count of two bytes */
    u.b = 255;
    u.m = 63;
    u.cnt[0] = 255;
    for (unsigned count = 254; count <= 256; count++) {
        u.cnt[1] = (uint16_t)(count - 1);
        s = ind_step(list, sizeof list, u, log, sizeof log, buf, sizeof buf, 0,
                     9);
        CHECK(s.number == IND_FINE && s.state.cnt[1] == count);
        CHECK(buf[160] == 0 && buf[161] == 0);
        CHECK(buf[162] == count % 256 && buf[163] == count / 256);
    }

    /* what is encoded is decoded */
    for (int pri = -32768; pri <= 32767; pri++) {
        struct ind_state t;

        u.pri[pri & 7] = (int16_t)pri;
        u.cnt[pri & 7] = (uint16_t)(7 * pri & 65535);
        encoded(&u, want);
        t = decoded(want);
        CHECK(same_state(&t, &u));
    }
}

/* 4,096 steps by one run, over junk; each withdrawn, down to the start. */
static void test_deep(struct rng *g)
{
    static struct panel x;
    int lowest = 0, highest = 0;

    for (uint8_t n = 1; n <= 8; n++) {
        uint8_t b = (uint8_t)(n == 1 ? 255 : 3 * (n % 4));
        uint8_t resets[8];
        struct ind_state_answer s;

        set_up(&x, n);
        for (int i = 0; i < 8; i++)
            resets[i] = (uint8_t)below(g, b + 1u);
        set_off(&x, b, resets);
        take_run(g, &x, 4096);
        s = ind_step(x.list, x.len, x.state, x.log, sizeof x.log, x.kept,
                     sizeof x.kept, 0, 0);
        CHECK(s.number == IND_FULL && same_state(&s.state, &x.state));
        for (uint16_t m = 64; m <= 4096; m = (uint16_t)(m + 64)) {
            struct ind_state there = decoded(kept_at(x.kept, m / 64u));

            CHECK(same_state(&there, &x.seen[m]));
            for (int v = 0; v < 8; v++)
                CHECK(there.var[v + 24] == x.seen[0].var[v + 24] || v == 6);
            for (int i = 0; i < n; i++) {
                lowest = there.pri[i] < lowest ? there.pri[i] : lowest;
                highest = there.pri[i] > highest ? there.pri[i] : highest;
            }
        }
        while (x.state.m > 0)
            take_undo(&x, x.state.m % 97 == 0 || x.state.m % 64 < 2);
        s = ind_undo(x.list, x.len, x.state, x.log, sizeof x.log, x.kept,
                     sizeof x.kept);
        CHECK(s.number == IND_EMPTY && same_state(&s.state, &x.seen[0]));
    }
    CHECK(lowest < -3 && highest > 3);
}

/* "so a run undone and then taken another way never uses an old state" */
static void test_another_way(struct rng *g)
{
    static const uint16_t multiples[5] = { 64, 128, 1984, 4032, 4096 };
    static struct panel x;

    for (uint8_t n = 2; n <= 8; n++) {
        for (int k = 0; k < 5; k++) {
            uint16_t m = multiples[k], past = (uint16_t)(m < 4096 ? m + 5 : m);
            struct ind_state old;

            set_up(&x, n);
            set_off(&x, 6, nothing);
            take_run(g, &x, past);
            old = x.seen[m];
            while (x.state.m >= m)          /* the old state stays there */
                take_undo(&x, 0);
            for (int tries = 0; tries < 50; tries++) {
                take_step(g, &x);           /* until a step reaches it */
                if (!same_state(&x.state, &old))
                    break;
                take_undo(&x, 1);
            }
            CHECK(x.state.m == m);
            take_steps(g, &x, (size_t)(past - m));
            while (x.state.m > m - 2)
                take_undo(&x, 1);
        }
    }

    /* a start anew: what is in the places does not count, and stays */
    set_up(&x, 3);
    set_off(&x, 2, nothing);
    take_run(g, &x, 200);
    set_off(&x, 4, nothing);
    take_run(g, &x, 63);
    CHECK(goes_back(&x, 63));
    take_step(g, &x);
    CHECK(goes_back(&x, 64));
    take_step(g, &x);
    CHECK(goes_back(&x, 65));
    take_run(g, &x, 62);
    CHECK(goes_back(&x, 127));
    while (x.state.m > 0)
        take_undo(&x, 1);
}

/* Calls at random, undos by the dozen, other ways taken, starts anew, refused
 * calls: undo is document 01's, and never 6, 8 or 15. */
static void test_histories(struct rng *g, int rounds)
{
    static struct panel x;
    unsigned long again = 0, deepest = 0;

    for (int round = 0; round < rounds; round++) {
        uint8_t n = (uint8_t)(1 + round % 8);
        uint8_t b = (uint8_t)(chance(g, 80) ? below(g, 6) : draw(g) & 255);
        size_t most = round % 20 == 0 ? 4096 : 700;
        uint8_t resets[8];

        set_up(&x, n);
        for (int i = 0; i < 8; i++)
            resets[i] = (uint8_t)below(g, b + 1u);
        set_off(&x, b, resets);
        for (int burst = 0; burst < (most == 4096 ? 150 : 40); burst++) {
            uint32_t what = below(g, most == 4096 ? 91 : 100);
            size_t count = below(g, chance(g, 50) ? 12 : 150);

            if (most == 4096 && what < 55)
                count *= 3;
            if (chance(g, 30))          /* to just about a multiple */
                count = 62 + below(g, 5) + 64 - x.state.m % 64u;
            if (what < 35) {
                if (count > most - x.state.m)
                    count = most - x.state.m;
                take_steps(g, &x, count);
            } else if (what < 55) {
                if (count > most - x.state.m)
                    count = most - x.state.m;
                take_run(g, &x, count);
            } else if (what < 90) {
                for (size_t i = 0; i < count && x.state.m > 0; i++) {
                    again += x.state.m % 64 == 0;
                    take_undo(&x, i < 3 || i + 3 > count || chance(g, 3));
                }
            } else if (what < 93) {
                b = (uint8_t)below(g, 6);
                for (int i = 0; i < 8; i++)
                    resets[i] = (uint8_t)below(g, b + 1u);
                set_off(&x, b, resets);
            } else {                    /* refused: nothing is written */
                struct ind_state_answer s;
                int full = x.state.m == 4096;
                uint8_t pick[2];

                good_pick(g, &x, &x.state, pick);
                s = ind_step(x.list, x.len, x.state, x.log, sizeof x.log,
                             x.kept, IND_KEPT_BYTES - 1, pick[0], pick[1]);
                CHECK(s.number == (full ? IND_FULL : IND_ROOM));
                CHECK(same_state(&s.state, &x.state));
                s = ind_step(x.list, x.len, x.state, x.log, sizeof x.log,
                             x.kept, sizeof x.kept, n, 0);
                CHECK(s.number == (full ? IND_FULL : IND_COMPONENT));
                CHECK(same_state(&s.state, &x.state));
                s = ind_start(x.list, x.len, b, resets, n + 1u, x.log,
                              sizeof x.log, x.kept, sizeof x.kept);
                CHECK(s.number == IND_RESET);
                CHECK(memcmp(x.kept, x.want, sizeof x.kept) == 0);
            }
            if (x.state.m > deepest)
                deepest = x.state.m;
        }
        /* all of the places that count, and no more than the log lends */
        for (uint16_t m = 64; m <= x.state.m; m = (uint16_t)(m + 64)) {
            struct ind_state there = decoded(kept_at(x.kept, m / 64u));

            CHECK(same_state(&there, &x.seen[m]));
            CHECK(m >= x.state.m || goes_back(&x, (uint16_t)(m + 1)));
        }
        while (x.state.m > 0)
            take_undo(&x, x.state.m % 50 == 0);
    }
    CHECK(again > 300 && deepest == 4096);
}

/* Which step writes, and which does not: m+1 a multiple of 64. */
static void test_who_keeps(struct rng *g)
{
    static struct panel x;
    static struct ind_state waits;
    uint8_t pick[2], third[6];
    struct ind_state_answer s;
    struct ind_run_answer r;

    set_up(&x, 4);
    set_off(&x, 3, nothing);
    take_run(g, &x, 62);
    CHECK(memcmp(x.kept, x.want, sizeof x.kept) == 0);
    take_step(g, &x);                       /* 63: nothing yet */

    /* a refused step at m = 63 writes nothing: 6 by the log and by the kept
     * buffer, 10, 16, 11, 12, 13 */
    good_pick(g, &x, &x.state, pick);
    s = ind_step(x.list, x.len, x.state, x.log, 2 * (4 + 64) - 1, x.kept,
                 sizeof x.kept, pick[0], pick[1]);
    CHECK(s.number == IND_ROOM && same_state(&s.state, &x.state));
    s = ind_step(x.list, x.len, x.state, x.log, sizeof x.log, x.kept,
                 IND_KEPT_BYTES - 1, pick[0], pick[1]);
    CHECK(s.number == IND_ROOM && same_state(&s.state, &x.state));
    s = ind_step(x.list, x.len, x.state, x.log, sizeof x.log, x.kept,
                 sizeof x.kept, 4, 0);
    CHECK(s.number == IND_COMPONENT);
    s = ind_step(x.list, x.len, x.state, x.log, sizeof x.log, x.kept,
                 sizeof x.kept, pick[0], 4);
    CHECK(s.number == IND_RESET);
    waits = x.state;
    clear_counts(&waits);
    for (int i = 0; i < 4; i++) {           /* 12 and 11 by one of them */
        waits.pri[i] = (int16_t)(i == 1 ? -3 : i == 3 ? 3 : 0);
        waits.pos[i] = x.seen[0].pos[i];
    }
    s = ind_step(x.list, x.len, waits, x.log, sizeof x.log, x.kept,
                 sizeof x.kept, 3, 0);
    CHECK(s.number == IND_TURN);
    while (x.list[16 * (size_t)waits.pos[1]] != IND_AWAIT)
        waits.pos[1]++;
    waits.var[30] = 0;
    s = ind_step(x.list, x.len, waits, x.log, sizeof x.log, x.kept,
                 sizeof x.kept, 1, 0);
    CHECK(s.number == IND_NOT_READY);
    while (x.list[16 * (size_t)waits.pos[1]] != IND_STOP)
        waits.pos[1]++;
    s = ind_step(x.list, x.len, waits, x.log, sizeof x.log, x.kept,
                 sizeof x.kept, 1, 0);
    CHECK(s.number == IND_ENDED);
    CHECK(memcmp(x.kept, x.want, sizeof x.kept) == 0);

    /* a run whose first pick is refused, and one refused behind the step that
     * reaches 64: that one stands, and is kept */
    third[0] = 255;
    third[1] = 0;
    r = ind_run(x.list, x.len, x.state, x.log, sizeof x.log, x.kept,
                sizeof x.kept, third, 2, 9);
    CHECK(r.number == IND_COMPONENT && r.steps == 0);
    CHECK(memcmp(x.kept, x.want, sizeof x.kept) == 0);
    memcpy(third, pick, 2);
    third[2] = 255;
    third[3] = 0;
    memcpy(third + 4, pick, 2);
    r = ind_run(x.list, x.len, x.state, x.log, sizeof x.log, x.kept,
                sizeof x.kept, third, 6, 9);
    CHECK(r.number == IND_COMPONENT && r.steps == 1 && r.state.m == 64);
    x.state = r.state;
    reached(&x);
    CHECK(goes_back(&x, 64));

    /* 65 writes nothing, nor do 127 and 129; 128 does */
    take_step(g, &x);
    take_run(g, &x, 62);
    CHECK(x.state.m == 127);
    CHECK(memcmp(x.kept, x.want, sizeof x.kept) == 0);
    take_step(g, &x);
    take_step(g, &x);
    CHECK(goes_back(&x, 128) && goes_back(&x, 129));

    /* a state given with m = 64 that no call made: a step refused there and
     * the step to 65 write nothing; given with m = 127 the step writes what it
     * answers */
    waits = x.seen[0];
    waits.m = 64;
    memset(x.want, 0x66, sizeof x.want);
    memset(x.kept, 0x66, sizeof x.kept);
    good_pick(g, &x, &waits, pick);
    s = ind_step(x.list, x.len, waits, x.log, sizeof x.log, x.kept,
                 sizeof x.kept, 4, 0);
    CHECK(s.number == IND_COMPONENT);
    s = ind_step(x.list, x.len, waits, x.log, sizeof x.log, x.kept,
                 sizeof x.kept, pick[0], 4);
    CHECK(s.number == IND_RESET);
    CHECK(memcmp(x.kept, x.want, sizeof x.kept) == 0);
    s = ind_step(x.list, x.len, waits, x.log, sizeof x.log, x.kept,
                 sizeof x.kept, pick[0], pick[1]);
    CHECK(s.number == IND_FINE && s.state.m == 65);
    CHECK(memcmp(x.kept, x.want, sizeof x.kept) == 0);
    waits.m = 127;
    s = ind_step(x.list, x.len, waits, x.log, sizeof x.log, x.kept,
                 IND_KEPT_BYTES, pick[0], pick[1]);
    CHECK(s.number == IND_FINE && s.state.m == 128);
    encoded(&s.state, kept_at(x.want, 2));
    CHECK(memcmp(x.kept, x.want, sizeof x.kept) == 0);
}

/* 6 by the kept buffer and its place in the order of each call. */
static void test_kept_room(struct rng *g)
{
    static struct panel x;
    static uint8_t log[2 * (IND_STATIONS + IND_MAX_STEPS)];
    static const uint8_t high[3] = { 0, 4, 0 };
    size_t full = IND_KEPT_BYTES, shortest;
    struct ind_state_answer s;
    struct ind_run_answer r;
    struct ind_state u;
    uint8_t pick[4];

    CHECK(full == 64 * 184);
    set_up(&x, 3);
    memset(log, 0xEE, sizeof log);
    for (shortest = 0; shortest < full; shortest = shortest * 2 + 1) {
        size_t less = full - 1 - shortest;

        /* start: 7, 13, 6 by the log, 6 by the kept buffer */
        s = ind_start(x.list, x.len, 3, nothing, 3, log, sizeof log, x.kept,
                      less);
        CHECK(s.number == IND_ROOM && zero_state(&s.state));
        s = ind_start(x.list, x.len, 3, nothing, 3, log, 5, x.kept, less);
        CHECK(s.number == IND_ROOM && zero_state(&s.state));
        s = ind_start(x.list, x.len, 3, high, 3, log, 5, x.kept, less);
        CHECK(s.number == IND_RESET && zero_state(&s.state));
        s = ind_start(x.list, x.len - 1, 3, high, 3, log, 5, x.kept, less);
        CHECK(s.number == IND_LIST && zero_state(&s.state));
    }
    s = ind_start(x.list, x.len, 3, nothing, 3, log, sizeof log, NULL, 0);
    CHECK(s.number == IND_ROOM && zero_state(&s.state));
    for (size_t i = 0; i < sizeof log; i++)
        CHECK(log[i] == 0xEE);
    s = ind_start(x.list, x.len, 3, nothing, 3, log, 6, x.kept, full);
    CHECK(s.number == IND_FINE);
    CHECK(memcmp(x.kept, x.want, sizeof x.kept) == 0);

    set_off(&x, 3, nothing);
    take_run(g, &x, 70);
    memcpy(log, x.log, sizeof log);
    good_pick(g, &x, &x.state, pick);
    pick[2] = 255;
    pick[3] = 0;

    /* step: 7, 8, 9, 6 by the log, 6 by the kept buffer, 10 and on */
    s = ind_step(x.list, x.len, x.state, x.log, sizeof x.log, x.kept, full - 1,
                 pick[0], pick[1]);
    CHECK(s.number == IND_ROOM && same_state(&s.state, &x.state));
    s = ind_step(x.list, x.len, x.state, x.log, sizeof x.log, NULL, 0,
                 pick[0], pick[1]);
    CHECK(s.number == IND_ROOM && same_state(&s.state, &x.state));
    s = ind_step(x.list, x.len, x.state, NULL, 0, NULL, 0, pick[0], pick[1]);
    CHECK(s.number == IND_ROOM && same_state(&s.state, &x.state));
    s = ind_step(x.list, x.len, x.state, x.log, sizeof x.log, x.kept, full - 1,
                 3, 4);
    CHECK(s.number == IND_ROOM);
    s = ind_step(x.list, x.len, x.state, x.log, sizeof x.log, x.kept, full - 1,
                 pick[0], 4);
    CHECK(s.number == IND_ROOM);
    u = x.seen[0];
    u.pri[2] = 1;
    s = ind_step(x.list, x.len, u, x.log, sizeof x.log, x.kept, full - 1, 2,
                 0);
    CHECK(s.number == IND_ROOM);
    s = ind_step(x.list, x.len, u, x.log, sizeof x.log, x.kept, full, 2, 0);
    CHECK(s.number == IND_TURN);
    u = x.state;
    while (x.list[16 * (size_t)u.pos[0]] != IND_STOP)
        u.pos[0]++;
    s = ind_step(x.list, x.len, u, x.log, sizeof x.log, x.kept, full - 1, 0,
                 0);
    CHECK(s.number == IND_ROOM);
    s = ind_step(x.list, x.len, u, x.log, sizeof x.log, x.kept, full, 0, 0);
    CHECK(s.number == IND_ENDED);
    u = x.state;
    u.m = 4096;
    s = ind_step(x.list, x.len, u, x.log, sizeof x.log, x.kept, full - 1,
                 pick[0], pick[1]);
    CHECK(s.number == IND_FULL);
    u.m = 4097;
    s = ind_step(x.list, x.len, u, x.log, sizeof x.log, NULL, 0, pick[0],
                 pick[1]);
    CHECK(s.number == IND_STATE);
    s = ind_step(x.list, x.len - 1, u, x.log, sizeof x.log, NULL, 0, pick[0],
                 pick[1]);
    CHECK(s.number == IND_LIST);

    /* run: only where a step is tried */
    r = ind_run(x.list, x.len, x.state, x.log, sizeof x.log, x.kept, full - 1,
                pick, 2, 1);
    CHECK(r.number == IND_ROOM && r.steps == 0);
    CHECK(same_state(&r.state, &x.state));
    r = ind_run(x.list, x.len, x.state, x.log, sizeof x.log, NULL, 0, pick + 2,
                2, 1);
    CHECK(r.number == IND_ROOM && r.steps == 0);
    r = ind_run(x.list, x.len, x.state, NULL, 0, NULL, 0, pick, 2, 0);
    CHECK(r.number == IND_FINE && r.steps == 0);
    CHECK(same_state(&r.state, &x.state));
    r = ind_run(x.list, x.len, x.state, NULL, 0, x.kept, full - 1, NULL, 0,
                SIZE_MAX);
    CHECK(r.number == IND_FINE && r.steps == 0);
    r = ind_run(x.list, x.len, x.state, NULL, 0, x.kept, full - 1, pick, 1, 0);
    CHECK(r.number == IND_LENGTH && r.steps == 0);
    r = ind_run(x.list, x.len, u, NULL, 0, x.kept, full - 1, pick, 2, 0);
    CHECK(r.number == IND_STATE && r.steps == 0);
    r = ind_run(x.list, x.len - 1, u, NULL, 0, x.kept, full - 1, pick, 2, 0);
    CHECK(r.number == IND_LIST && r.steps == 0);
    u.m = 4096;
    r = ind_run(x.list, x.len, u, NULL, 0, x.kept, full - 1, pick, 2, 1);
    CHECK(r.number == IND_FULL && r.steps == 0);

    /* undo: 7, 8, 14, 6, 8 by the kept state, 15 */
    for (uint16_t m = 1; m <= 70; m = (uint16_t)(m == 1 ? 64 : m + 1)) {
        CHECK(goes_back(&x, m));
        CHECK(undone(&x, &x.seen[m], 2 * (3u + m), full - 1, IND_ROOM));
        CHECK(undone(&x, &x.seen[m], 2 * (3u + m) - 1, full - 1, IND_ROOM));
        CHECK(undone(&x, &x.seen[m], 2 * (3u + m) - 1, full, IND_LOG));
        s = ind_undo(x.list, x.len, x.seen[m], NULL, 0, NULL, 0);
        CHECK(s.number == IND_ROOM && same_state(&s.state, &x.seen[m]));
        s = ind_undo(x.list, x.len, x.seen[m], NULL, 0, x.kept, full);
        CHECK(s.number == IND_LOG && same_state(&s.state, &x.seen[m]));
    }
    CHECK(undone(&x, &x.seen[0], sizeof x.log, full, IND_EMPTY));
    CHECK(undone(&x, &x.seen[0], sizeof x.log, full - 1, IND_EMPTY));
    s = ind_undo(x.list, x.len, x.seen[0], NULL, 0, NULL, 0);
    CHECK(s.number == IND_EMPTY);
    u = x.state;
    u.n = 2;
    CHECK(undone(&x, &u, sizeof x.log, full - 1, IND_STATE));
    s = ind_undo(x.list, x.len - 1, u, NULL, 0, NULL, 0);
    CHECK(s.number == IND_LIST);
    CHECK(memcmp(x.kept, x.want, sizeof x.kept) == 0);
    CHECK(memcmp(x.log, log, sizeof log) == 0);

    /* the kept state is judged before the log's length, and after 6 */
    kept_at(x.kept, 1)[183] = 1;
    CHECK(undone(&x, &x.state, 2 * (3 + 70), full, IND_STATE));
    CHECK(undone(&x, &x.state, 2 * (3 + 70) - 1, full, IND_STATE));
    CHECK(undone(&x, &x.state, 2 * (3 + 70), full - 1, IND_ROOM));
    CHECK(undone(&x, &x.seen[64], 2 * (3 + 64) - 1, full, IND_LOG));
    CHECK(undone(&x, &x.seen[64], 2 * (3 + 64), full, IND_FINE));
    x.log[2 * (3 + 64)] = 255;              /* and before a record replayed */
    CHECK(undone(&x, &x.state, 2 * (3 + 70), full, IND_STATE));
    s = ind_undo(x.list, x.len, x.state, NULL, 0, x.kept, full);
    CHECK(s.number == IND_STATE && same_state(&s.state, &x.state));
}

/* Each byte of the kept place that is used changed, and each of one that is
 * not. */
static void test_kept_damage(struct rng *g)
{
    static struct panel x;
    unsigned long followed = 0, refused_by = 0, not_replayed = 0, counts = 0;

    for (uint8_t n = 1; n <= 8; n++) {
        static const uint16_t steps[6] = { 64, 65, 66, 128, 129, 140 };
        uint8_t b = (uint8_t)(n % 3 * 2 + 1);

        set_up(&x, n);
        set_off(&x, b, nothing);
        take_run(g, &x, 200);
        for (int k = 0; k < 6; k++) {
            uint16_t m = steps[k];
            size_t q = (m - 1u) / 64, loglen = 2 * ((size_t)n + m);
            struct ind_state_answer a;

            CHECK(goes_back(&x, m));
            for (size_t at = 0; at < 3 * 184; at++) {
                uint8_t was = x.kept[at];
                size_t in = at % 184;
                int used = at / 184 + 1 == q;

                for (int j = 0; j < 4; j++) {
                    static const uint8_t change[4] = { 1, 255, 2, 128 };
                    struct ind_state_answer d;

                    if (j > 1 && (!used || in < 128))
                        break;
                    x.kept[at] = (uint8_t)(j < 2 ? was + change[j]
                                                 : was ^ change[j]);
                    a = ind_undo(x.list, x.len, x.seen[m], x.log, loglen,
                                 x.kept, IND_KEPT_BYTES);
                    if (!used) {
                        CHECK(a.number == IND_FINE
                              && same_state(&a.state, &x.seen[m - 1]));
                        x.kept[at] = was;
                        continue;
                    }
                    d = defined_undo(x.list, x.len, x.seen[m], x.log, loglen,
                                     x.kept, IND_KEPT_BYTES);
                    CHECK(a.number == d.number
                          && same_state(&a.state, &d.state));
                    if (in < 128)           /* "the variables are free" */
                        CHECK(a.number != IND_STATE);
                    if (in >= 176)          /* n, B, m, zeros */
                        CHECK(a.number == IND_STATE);
                    if (in >= 128 && in < 176 && in % 16 >= 2u * n)
                        CHECK(a.number == IND_STATE);
                    counts += in >= 160 && in < 176 && a.number == IND_FINE;
                    followed += a.number == IND_FINE;
                    refused_by += a.number == IND_STATE;
                    not_replayed += a.number == IND_LOG;
                    x.kept[at] = was;
                }
            }
            /* all of what is not used at once */
            for (size_t i = 0; i < sizeof x.kept; i++)
                if (i / 184 + 1 != q)
                    x.kept[i] ^= 0x5A;
            CHECK(goes_back(&x, m));
            memcpy(x.kept, x.want, sizeof x.kept);
        }
    }
    CHECK(followed > 3000 && refused_by > 5000 && not_replayed > 50);
    CHECK(counts > 100);

    /* n, B and m by themselves, each in a state that is otherwise sound */
    set_up(&x, 3);
    set_off(&x, 5, nothing);
    take_run(g, &x, 330);
    for (int i = 0; i < 10; i++) {
        uint8_t *p = kept_at(x.kept, 5);
        struct ind_state s = x.seen[320];

        switch (i) {
        case 0:
            s.b = 4;                        /* all that B allows */
            for (int j = 0; j < 3; j++)
                s.pri[j] = 0;
            clear_counts(&s);
            break;
        case 1:
            s.b = 6;
            break;
        case 2:
            s.m = 319;
            break;
        case 3:
            s.m = 321;
            break;
        case 4:
            s = x.seen[256];                /* the place before */
            break;
        case 5:
            s.m = 384;
            break;
        case 6:
            s.m = 64;                       /* the low byte alone is right */
            break;
        case 7:
            s.m = 320 + 256;
            break;
        case 8:
            s.m = 0;
            break;
        default:
            s.m = 4096;
            break;
        }
        encoded(&s, p);
        CHECK(undone(&x, &x.state, sizeof x.log, IND_KEPT_BYTES, IND_STATE));
        CHECK(undone(&x, &x.seen[321], 2 * (3 + 321), IND_KEPT_BYTES,
                     IND_STATE));
        CHECK(undone(&x, &x.seen[320], 2 * (3 + 320), IND_KEPT_BYTES,
                     IND_FINE));
        memcpy(x.kept, x.want, sizeof x.kept);
    }
    CHECK(goes_back(&x, 330));

    /* B of the state given: the kept state's has to be the same */
    {
        struct ind_state s = x.state;

        s.b = 6;
        CHECK(undone(&x, &s, sizeof x.log, IND_KEPT_BYTES, IND_STATE));
        kept_at(x.kept, 5)[177] = 6;
        CHECK(undone(&x, &s, sizeof x.log, IND_KEPT_BYTES, IND_FINE));
        CHECK(undone(&x, &x.state, sizeof x.log, IND_KEPT_BYTES, IND_STATE));
        s = x.seen[64];                     /* q = 0: there is none */
        s.b = 6;
        CHECK(undone(&x, &s, sizeof x.log, IND_KEPT_BYTES, IND_FINE));
    }
}

/* "A kept state that passes is followed, whatever the log says of the steps
 * before it". */
static void test_kept_followed(struct rng *g)
{
    static struct panel x, y;
    struct ind_state_answer a;
    struct ind_state s;

    for (uint8_t n = 1; n <= 8; n++) {
        set_up(&x, n);
        set_off(&x, 7, nothing);
        take_run(g, &x, 140);
        set_up(&y, n);
        set_off(&y, 7, nothing);
        take_run(g, &y, 140);

        /* another run's: at 129 it is answered as it is */
        memcpy(kept_at(x.kept, 2), kept_at(y.kept, 2), 184);
        s = x.seen[129];
        a = ind_undo(x.list, x.len, s, x.log, sizeof x.log, x.kept,
                     sizeof x.kept);
        CHECK(a.number == IND_FINE && same_state(&a.state, &y.seen[128]));
        /* and with that run's records behind it, it is that run */
        memcpy(x.log + 2 * (n + 128u), y.log + 2 * (n + 128u), 24);
        for (uint16_t m = 130; m <= 140; m++) {
            s = x.seen[129];
            s.m = m;
            a = ind_undo(x.list, x.len, s, x.log, sizeof x.log, x.kept,
                         sizeof x.kept);
            CHECK(a.number == IND_FINE
                  && same_state(&a.state, &y.seen[m - 1]));
            CHECK(undone(&x, &s, sizeof x.log, sizeof x.kept, IND_FINE));
        }

        /* any sound one: variables of any bytes, priorities from the lowest
         * on, counts of any size that they allow */
        s = y.seen[128];
        for (int v = 0; v < 32; v++)
            s.var[v] = draw(g) | 0x01010101;
        for (int i = 0; i < n; i++)
            s.pri[i] = (int16_t)(i == n - 1 ? 7 : -i);
        for (int i = 0; i < n; i++)
            s.cnt[i] = (uint16_t)below(g, 8u - (uint32_t)s.pri[i]);
        encoded(&s, kept_at(x.kept, 2));
        a = ind_undo(x.list, x.len, x.seen[129], x.log, sizeof x.log, x.kept,
                     sizeof x.kept);
        CHECK(a.number == IND_FINE && same_state(&a.state, &s));
        for (uint16_t over = 0; over <= 1; over++) {
            s.cnt[n / 2] = (uint16_t)(7 - s.pri[n / 2] + over);
            encoded(&s, kept_at(x.kept, 2));
            CHECK(undone(&x, &x.seen[129], sizeof x.log, sizeof x.kept,
                         over ? IND_STATE : IND_FINE));
        }
        s.cnt[n / 2] = 0;
        s.pri[0] = -n;
        encoded(&s, kept_at(x.kept, 2));
        CHECK(undone(&x, &x.seen[129], sizeof x.log, sizeof x.kept,
                     IND_STATE));
    }
}

/* Damage to the log: before record n+64q it is not noticed, from there to
 * record n+m-2 it is, and behind that not. */
static void test_kept_log(struct rng *g)
{
    static struct panel x;
    static const uint16_t steps[] = { 1, 2, 63, 64, 65, 66, 100, 128, 129, 130,
                                      192, 193, 200 };

    for (uint8_t n = 1; n <= 8; n++) {
        set_up(&x, n);
        set_off(&x, 4, nothing);
        take_run(g, &x, 200);
        for (size_t k = 0; k < sizeof steps / sizeof steps[0]; k++) {
            uint16_t m = steps[k];
            size_t from = (m - 1u) / 64 == 0 ? 0 : n + (m - 1u) / 64 * 64;

            for (size_t i = 0; i < (size_t)n + m; i++) {
                int noticed = i >= from && i < n + m - 1u;
                uint8_t was[2];

                memcpy(was, x.log + 2 * i, 2);
                x.log[2 * i] = (uint8_t)(i % 2 == 0 ? 255 : n);
                CHECK(undone(&x, &x.seen[m], 2 * ((size_t)n + m),
                             IND_KEPT_BYTES, noticed ? IND_LOG : IND_FINE));
                x.log[2 * i] = was[0];
                x.log[2 * i + 1] = 5;                   /* above B */
                CHECK(undone(&x, &x.seen[m], 2 * ((size_t)n + m),
                             IND_KEPT_BYTES, noticed ? IND_LOG : IND_FINE));
                memcpy(x.log + 2 * i, was, 2);
            }
            /* all that is not replayed at once */
            {
                uint8_t was[2 * 208];

                memcpy(was, x.log, sizeof was);
                for (size_t i = 0; i < 200; i++)
                    if (i < from || i >= n + m - 1u)
                        x.log[2 * i] = 255;
                CHECK(goes_back(&x, m));
                memcpy(x.log, was, sizeof was);
            }
            CHECK(undone(&x, &x.seen[m], 2 * ((size_t)n + m) - 1,
                         IND_KEPT_BYTES, IND_LOG));
        }
    }
}

/* Undo against its definition, on kept buffers, logs and states damaged at
 * random. */
static void test_kept_random(struct rng *g, int rounds)
{
    static struct panel x;
    static uint8_t log[sizeof x.log];
    unsigned long numbers[17] = { 0 };

    for (int round = 0; round < rounds; round++) {
        uint8_t n = (uint8_t)(1 + round % 8);
        size_t most = 66 + below(g, 200);

        set_up(&x, n);
        set_off(&x, (uint8_t)below(g, 5), nothing);
        take_run(g, &x, most);
        memcpy(log, x.log, sizeof log);
        for (int i = 0; i < 60; i++) {
            uint16_t m = (uint16_t)below(g, (uint32_t)most + 1);
            size_t loglen, keptlen = IND_KEPT_BYTES;
            struct ind_state_answer a, b;
            struct ind_state s = x.seen[m];
            size_t q = m == 0 ? 0 : (m - 1u) / 64;

            loglen = 2 * ((size_t)n + m) + below(g, 3);
            if (chance(g, 8))
                loglen -= 1 + below(g, 3);
            if (chance(g, 8))
                keptlen = below(g, IND_KEPT_BYTES);
            if (chance(g, 40)) {
                size_t at = below(g, 184 * 4);

                x.kept[at] = (uint8_t)draw(g);
            }
            if (q > 0 && chance(g, 50)) {
                size_t at = 184 * (q - 1) + below(g, 184);

                x.kept[at] ^= (uint8_t)(1u << below(g, 8));
            }
            if (q > 0 && chance(g, 10))     /* another place's */
                memcpy(kept_at(x.kept, q), kept_at(x.want, 1 + below(g, 3)),
                       184);
            if (chance(g, 30)) {
                size_t at = below(g, (uint32_t)(2 * ((size_t)n + m)) + 1);

                x.log[at] = (uint8_t)(chance(g, 50) ? below(g, 9) : draw(g));
            }
            if (chance(g, 10))
                s.b = (uint8_t)(s.b + 1);
            if (chance(g, 10))
                s.m = (uint16_t)below(g, 300);
            if (chance(g, 5))
                s.pri[below(g, 8)] = (int16_t)(below(g, 9) - 7);
            a = ind_undo(x.list, x.len, s, x.log, loglen, x.kept, keptlen);
            b = defined_undo(x.list, x.len, s, x.log, loglen, x.kept, keptlen);
            CHECK(a.number == b.number && same_state(&a.state, &b.state));
            numbers[a.number]++;
            memcpy(x.log, log, sizeof log);
            memcpy(x.kept, x.want, sizeof x.kept);
        }
    }
    CHECK(numbers[0] > 100 && numbers[6] > 100 && numbers[8] > 100
          && numbers[14] > 10 && numbers[15] > 100);
}

/* The trace over multiples of 64, there and back: the lines are those of the
 * states seen. */
static void test_kept_trace(struct rng *g)
{
    static struct panel x;
    static struct sequence p;
    static uint8_t picks[8192], out[400000];
    static char want[400000];

    for (uint8_t n = 1; n <= 8; n = (uint8_t)(n + 1)) {
        uint8_t start[9] = { 3 };
        size_t count = 0, len = 0, to = 0;
        int back = 0;

        wheels(&p, n);
        set_up(&x, n);
        set_off(&x, 3, nothing);
        while (count < 4096) {
            struct ind_lights_answer l = ind_lights(x.list, x.len, x.state);

            len += (size_t)sprintf(want + len, "%d %d %d", x.state.m, l.ready,
                                   l.in_turn);
            for (uint8_t i = 0; i < n; i++)
                len += (size_t)sprintf(want + len, " %d", x.state.pri[i]);
            for (uint8_t i = 0; i < n; i++)
                len += (size_t)sprintf(want + len, " %d", x.state.cnt[i]);
            len += (size_t)sprintf(want + len, "\n");
            if (count == 4095)
                break;
            if (x.state.m == to) {          /* turn round */
                back = x.state.m > 0 && chance(g, 50);
                to = back ? x.state.m - 1 - below(g, x.state.m)
                          : x.state.m + 1 + below(g, 150u);
            }
            if (back) {
                picks[2 * count] = 255;
                picks[2 * count + 1] = 0;
                take_undo(&x, 0);
            } else {
                good_pick(g, &x, &x.state, picks + 2 * count);
                x.state = ind_step(x.list, x.len, x.state, x.log,
                                   sizeof x.log, x.kept, sizeof x.kept,
                                   picks[2 * count],
                                   picks[2 * count + 1]).state;
                reached(&x);
            }
            count++;
        }
        len += (size_t)sprintf(want + len, "end 0\n");
        CHECK(ind_trace(p.bytes, p.len, start, n + 1u, picks, 2 * count, out,
                        sizeof out) == len);
        CHECK(len < sizeof out && memcmp(out, want, len) == 0);
    }
}

int main(void)
{
    struct rng g = { 1 }, h = { 2 }, k = { 3 }, y = { 4 }, c = { 5 };

    memset(kept, 0xC3, sizeof kept);
    test_check_cases();
    test_p9_p10();
    test_dryer();
    test_ended();
    test_readiness();
    test_foreign_stops();
    test_waiting_lights();
    test_waiting_beside();
    test_foreign_waiting();
    test_full();
    test_loop_ends_branch();
    test_shape(6);
    test_random(&g, 1500);
    test_random_lights(&h, 1500);
    test_why();
    test_why_named();
    test_why_ahead();
    test_why_foreign();
    test_why_every(1, 2, -2, 3, 4);
    test_why_every(2, 1, -2, 2, 4);
    test_why_every(3, 1, -3, 2, 4);
    test_why_every(4, 0, -3, 0, 3);
    test_random_why(&y, 200);
    test_counts();
    test_longest();
    for (uint8_t b = 0; b < 4; b++)
        test_counts_every(1, b);
    for (uint8_t b = 0; b < 3; b++)
        test_counts_every(2, b);
    test_counts_every(3, 0);
    test_counts_wide();
    test_counts_refused();
    test_counted_histories(&c, 300);
    test_kept_bytes();
    test_deep(&k);
    test_another_way(&k);
    test_histories(&k, 60);
    test_who_keeps(&k);
    test_kept_room(&k);
    test_kept_damage(&k);
    test_kept_followed(&k);
    test_kept_log(&k);
    test_kept_random(&k, 100);
    test_kept_trace(&k);
    printf("%lu checks, %lu failed\n", checks, failures);
    return failures != 0;
}
