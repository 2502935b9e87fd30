/*
 * cases.c - writes a stream of cases, or answers one.
 *
 *   cases write SEED        writes the stream for the seed to standard output
 *                           and a table of call x number to standard error;
 *                           ends with 1 where a number that the documents
 *                           allow a call was never reached, or one that they
 *                           do not allow was
 *   cases random SEED ROUNDS
 *                           writes so many rounds of random cases alone, and
 *                           the table
 *   cases answer            reads a stream and prints one line a case
 *
 * The stream has no header.  A case is one byte for the call (1 check,
 * 2 build, 3 start, 4 step, 5 run, 6 undo, 7 lights, 8 trace, 9 readiness,
 * 10 why), then the call's fields in order, each as a 2-byte length, low byte
 * first, and its bytes:
 *
 *   1 check       file
 *   2 build       file, buffer
 *   3 start       list, B (1 byte), resets, log, kept
 *   4 step        list, state, log, kept, station and reset (2 bytes)
 *   5 run         list, state, log, kept, picks, most (8 bytes, low byte first)
 *   6 undo        list, state, log, kept
 *   7 lights      list, state
 *   8 trace       program, start, picks
 *   9 readiness   list, state, station (1 byte)
 *   10 why        list, state, station (1 byte)
 *
 * A state is 180 bytes: 32 variables of 4, 8 positions of 2, 8 priorities of
 * 2 (two's complement), 8 counts of 2, n, B, m of 2; low bytes first.
 *
 * A kept field does not hold the kept buffer but describes it: 2 bytes L, the
 * buffer's length, low byte first; 1 byte f, and byte i of the buffer is
 * f * (i + 1) mod 256; then to the end of the field patches, one after the
 * other, each 2 bytes offset, 2 bytes count, low bytes first, and so many bytes
 * that are put into the buffer from the offset on.  Bytes that would fall past
 * L are dropped.
 *
 * An answer line is the call's number and, in decimal with single spaces:
 *
 *   1 number place
 *   2 number place count H(buffer)
 *   3 number H(state) H(log) H(kept)
 *   4 number H(state) H(log) H(kept)
 *   5 number steps H(state) H(log) H(kept)
 *   6 number H(state)
 *   7 number ready in-turn waiting ended H(the 64 bytes of the rows)
 *   8 length H(text)
 *   9 number place
 *   10 number place ahead count variable variable value value
 *
 * H is 7 at first and for each byte b becomes h * 31 + b + 1 mod 2^32; of a
 * lent buffer it is taken of all its bytes, after the call.
 */
#include <stdio.h>
#include <stdlib.h>
#include <string.h>

#include "press.h"
#include "random.h"
#include "samples.h"

enum call { CHECK = 1, BUILD, START, STEP, RUN, UNDO, LIGHTS, TRACE,
            READINESS, WHY };

enum { STATE_BYTES = 180, MAX_FIELDS = 6, NUMBERS = 17, CALLS = 11,
       ROUNDS = 75, READINESS_ROUNDS = 70, LIGHTS_ROUNDS = 30,
       KEPT_ROUNDS = 32, WHY_ROUNDS = 80, COUNTS_ROUNDS = 40,
       SMALL_LIST = 192, KEPT_LIST = 480, WHY_LIST = 256 };

static const char *const call_name[CALLS] = {
    "", "check", "build", "start", "step", "run", "undo", "lights", "trace",
    "readiness", "why"
};

static const uint8_t field_count[CALLS] = { 0, 1, 2, 5, 5, 6, 4, 2, 3, 3, 3 };

/* The numbers that the documents allow each call.  The trace's own buffers
 * are never short, its lists and states are sound, 4,096 picks never fill it
 * past the last, and its log and kept buffer are its own: it has no 6, 7, 8, 9,
 * 15. */
static const uint8_t allowed[CALLS][NUMBERS] = {
    /*           0  1  2  3  4  5  6  7  8  9 10 11 12 13 14 15 16 */
    { 0 },
    /* check */ { 1, 1, 1, 1, 1, 1 },
    /* build */ { 1, 1, 1, 1, 1, 1, 1 },
    /* start */ { 1, 0, 0, 0, 0, 0, 1, 1, 0, 0, 0, 0, 0, 1 },
    /* step  */ { 1, 0, 0, 0, 0, 0, 1, 1, 1, 1, 1, 1, 1, 1, 0, 0, 1 },
    /* run   */ { 1, 1, 0, 0, 0, 0, 1, 1, 1, 1, 1, 1, 1, 1, 0, 0, 1 },
    /* undo  */ { 1, 0, 0, 0, 0, 0, 1, 1, 1, 0, 0, 0, 0, 0, 1, 1 },
    /* lights*/ { 1, 0, 0, 0, 0, 0, 0, 1, 1 },
    /* trace */ { 1, 1, 1, 1, 1, 1, 0, 0, 0, 0, 1, 1, 1, 1, 1, 0, 1 },
    /* ready.*/ { 1, 0, 0, 0, 0, 0, 0, 1, 1, 0, 1, 1, 0, 0, 0, 0, 1 },
    /* why   */ { 1, 0, 0, 0, 0, 0, 0, 1, 1, 0, 1, 1, 1, 0, 0, 0, 1 }
};

static void die(const char *why)
{
    fprintf(stderr, "cases: %s\n", why);
    exit(2);
}

static void *room(size_t len)
{
    void *p = malloc(len > 0 ? len : 1);

    if (p == NULL)
        die("no memory");
    return p;
}

/* ------------------------------------------------------------------ */
/* States as bytes, kept buffers, and H                               */
/* ------------------------------------------------------------------ */

/* Where the counts begin in a state's bytes, and how many bytes they are. */
enum { COUNTS_AT = 160, COUNTS_BYTES = 16 };

static uint8_t *pack_two(uint8_t *p, uint16_t value)
{
    p[0] = (uint8_t)(value & 255);
    p[1] = (uint8_t)(value >> 8);
    return p + 2;
}

static void pack_state(const struct ind_state *s, uint8_t out[STATE_BYTES])
{
    uint8_t *p = out;

    for (int i = 0; i < IND_VARS; i++)
        for (int j = 0; j < 4; j++)
            *p++ = (uint8_t)(s->var[i] >> 8 * j & 255);
    for (int i = 0; i < IND_STATIONS; i++)
        p = pack_two(p, s->pos[i]);
    for (int i = 0; i < IND_STATIONS; i++)
        p = pack_two(p, (uint16_t)s->pri[i]);
    for (int i = 0; i < IND_STATIONS; i++)
        p = pack_two(p, s->cnt[i]);
    *p++ = s->n;
    *p++ = s->b;
    pack_two(p, s->m);
}

static struct ind_state unpack_state(const uint8_t in[STATE_BYTES])
{
    struct ind_state s;
    const uint8_t *p = in;

    for (int i = 0; i < IND_VARS; i++) {
        s.var[i] = 0;
        for (int j = 0; j < 4; j++)
            s.var[i] |= (uint32_t)*p++ << 8 * j;
    }
    for (int i = 0; i < IND_STATIONS; i++, p += 2)
        s.pos[i] = (uint16_t)(p[0] | p[1] << 8);
    for (int i = 0; i < IND_STATIONS; i++, p += 2) {
        int pri = p[0] | p[1] << 8;

        s.pri[i] = (int16_t)(pri >= 32768 ? pri - 65536 : pri);
    }
    for (int i = 0; i < IND_STATIONS; i++, p += 2)
        s.cnt[i] = (uint16_t)(p[0] | p[1] << 8);
    s.n = p[0];
    s.b = p[1];
    s.m = (uint16_t)(p[2] | p[3] << 8);
    return s;
}

/* The bytes of a kept place, as docs/KEPT.md has them: a state's, but that a
 * priority is 32,768 higher, and 4 behind m that are zero. */
static void pack_kept(const struct ind_state *s, uint8_t out[IND_KEPT_PLACE])
{
    uint8_t packed[STATE_BYTES];

    pack_state(s, packed);
    memset(out, 0, IND_KEPT_PLACE);
    memcpy(out, packed, sizeof packed);
    for (int i = 145; i < 160; i += 2)
        out[i] ^= 128;
}

/* The kept buffer that a field describes, in memory of its own of just its
 * length; null where the field describes none. */
static uint8_t *expand(const uint8_t *field, size_t len, size_t *buflen)
{
    size_t at = 3;
    uint8_t *buf;

    if (len < 3)
        return NULL;
    *buflen = (size_t)field[0] | (size_t)field[1] << 8;
    buf = room(*buflen);
    for (size_t i = 0; i < *buflen; i++)
        buf[i] = (uint8_t)(field[2] * (i + 1) & 255);
    while (at < len) {
        size_t to, count;

        if (len - at < 4)
            break;
        to = (size_t)field[at] | (size_t)field[at + 1] << 8;
        count = (size_t)field[at + 2] | (size_t)field[at + 3] << 8;
        at += 4;
        if (len - at < count)
            break;
        for (size_t i = 0; i < count; i++)
            if (to + i < *buflen)
                buf[to + i] = field[at + i];
        at += count;
    }
    if (at < len) {
        free(buf);
        return NULL;
    }
    return buf;
}

static uint32_t hash(const uint8_t *p, size_t len)
{
    uint32_t h = 7;

    for (size_t i = 0; i < len; i++)
        h = h * 31 + p[i] + 1;
    return h;
}

static uint32_t hash_state(const struct ind_state *s)
{
    uint8_t bytes[STATE_BYTES];

    pack_state(s, bytes);
    return hash(bytes, sizeof bytes);
}

/* ------------------------------------------------------------------ */
/* Reading and answering a case                                       */
/* ------------------------------------------------------------------ */

/* Each field has memory of its own of just its length; that of a kept buffer is
 * the buffer itself. */
struct one {
    uint8_t call;
    struct {
        uint8_t *p;
        size_t len;
    } f[MAX_FIELDS];
};

/* Which field is the log; the kept buffer's is the next. */
static size_t log_field(uint8_t call)
{
    return call == START ? 3 : 2;
}

/* Whether the call is lent a log and a kept buffer. */
static int is_logged(uint8_t call)
{
    return call >= START && call <= UNDO;
}

/* Reads the case at *at and moves *at past it.  Answers 0 where the stream is
 * no stream of cases. */
static int take_case(struct one *c, const uint8_t *bytes, size_t len,
                     size_t *at)
{
    if (*at >= len || bytes[*at] < CHECK || bytes[*at] > WHY)
        return 0;
    memset(c, 0, sizeof *c);
    c->call = bytes[(*at)++];
    for (int i = 0; i < field_count[c->call]; i++) {
        size_t n;

        if (len - *at < 2)
            return 0;
        n = (size_t)bytes[*at] | (size_t)bytes[*at + 1] << 8;
        *at += 2;
        if (len - *at < n)
            return 0;
        c->f[i].p = room(n);
        c->f[i].len = n;
        memcpy(c->f[i].p, bytes + *at, n);
        *at += n;
    }
    if (is_logged(c->call)) {
        size_t i = log_field(c->call) + 1;
        size_t buflen = 0;
        uint8_t *buf = expand(c->f[i].p, c->f[i].len, &buflen);

        if (buf == NULL)
            return 0;
        free(c->f[i].p);
        c->f[i].p = buf;
        c->f[i].len = buflen;
    }
    switch (c->call) {
    case START:
        return c->f[1].len == 1;
    case STEP:
        return c->f[1].len == STATE_BYTES && c->f[4].len == 2;
    case RUN:
        return c->f[1].len == STATE_BYTES && c->f[5].len == 8;
    case UNDO:
    case LIGHTS:
        return c->f[1].len == STATE_BYTES;
    case READINESS:
    case WHY:
        return c->f[1].len == STATE_BYTES && c->f[2].len == 1;
    default:
        return 1;
    }
}

static void drop_case(struct one *c)
{
    for (int i = 0; i < MAX_FIELDS; i++)
        free(c->f[i].p);
}

/* A copy of a lent buffer: of build's, of a log, of a kept buffer. */
struct copy {
    const uint8_t *now;
    uint8_t *then;
    size_t len;
};

static void copy_field(struct copy *copy, const struct one *c, size_t i)
{
    copy->now = c->f[i].p;
    copy->len = c->f[i].len;
    copy->then = room(copy->len);
    if (copy->len > 0)
        memcpy(copy->then, copy->now, copy->len);
}

/* Stops the program unless a refusal left the lent bytes and the state as the
 * document says: "the state given (start and lights: all zeros) and writes to
 * no lent buffer". */
static void hold(uint8_t number, const struct copy lent[2],
                 const struct ind_state *want, const struct ind_state *got)
{
    uint8_t x[STATE_BYTES], y[STATE_BYTES];

    if (number == IND_FINE)
        return;
    for (int i = 0; i < 2; i++)
        if (lent[i].len > 0
            && memcmp(lent[i].then, lent[i].now, lent[i].len) != 0)
            die("a refusal wrote to a lent buffer");
    if (want != NULL) {
        pack_state(want, x);
        pack_state(got, y);
        if (memcmp(x, y, STATE_BYTES) != 0)
            die("a refusal changed the state");
    }
}

/* Answers the case, prints its line where `out` is not null, and gives back
 * the number that it was answered with (of a trace: that of its last line). */
static uint8_t answer_case(struct one *c, FILE *out)
{
    static const struct ind_state zero;
    struct copy lent[2] = { { NULL, NULL, 0 }, { NULL, NULL, 0 } };
    uint8_t number = 0;

    if (c->call == BUILD)
        copy_field(&lent[0], c, 1);
    if (is_logged(c->call)) {
        copy_field(&lent[0], c, log_field(c->call));
        copy_field(&lent[1], c, log_field(c->call) + 1);
    }

    switch (c->call) {
    case CHECK: {
        struct ind_check_answer a = ind_check(c->f[0].p, c->f[0].len);

        number = a.number;
        if (out != NULL)
            fprintf(out, "1 %u %u\n", a.number, a.place);
        break;
    }
    case BUILD: {
        struct ind_build_answer a = ind_build(c->f[0].p, c->f[0].len,
                                              c->f[1].p, c->f[1].len);

        number = a.number;
        hold(number, lent, NULL, NULL);
        if (out != NULL)
            fprintf(out, "2 %u %u %u %lu\n", a.number, a.place, a.count,
                    (unsigned long)hash(c->f[1].p, c->f[1].len));
        break;
    }
    case START: {
        struct ind_state_answer a = ind_start(c->f[0].p, c->f[0].len,
                                              c->f[1].p[0],
                                              c->f[2].p, c->f[2].len,
                                              c->f[3].p, c->f[3].len,
                                              c->f[4].p, c->f[4].len);

        number = a.number;
        hold(number, lent, &zero, &a.state);
        if (out != NULL)
            fprintf(out, "3 %u %lu %lu %lu\n", a.number,
                    (unsigned long)hash_state(&a.state),
                    (unsigned long)hash(c->f[3].p, c->f[3].len),
                    (unsigned long)hash(c->f[4].p, c->f[4].len));
        break;
    }
    case STEP: {
        struct ind_state given = unpack_state(c->f[1].p);
        struct ind_state_answer a = ind_step(c->f[0].p, c->f[0].len, given,
                                             c->f[2].p, c->f[2].len,
                                             c->f[3].p, c->f[3].len,
                                             c->f[4].p[0], c->f[4].p[1]);

        number = a.number;
        hold(number, lent, &given, &a.state);
        if (out != NULL)
            fprintf(out, "4 %u %lu %lu %lu\n", a.number,
                    (unsigned long)hash_state(&a.state),
                    (unsigned long)hash(c->f[2].p, c->f[2].len),
                    (unsigned long)hash(c->f[3].p, c->f[3].len));
        break;
    }
    case RUN: {
        struct ind_state given = unpack_state(c->f[1].p);
        struct ind_run_answer a;
        uint64_t most = 0;

        for (int i = 0; i < 8; i++)
            most |= (uint64_t)c->f[5].p[i] << 8 * i;
        if (most > SIZE_MAX)
            most = SIZE_MAX;
        a = ind_run(c->f[0].p, c->f[0].len, given, c->f[2].p, c->f[2].len,
                    c->f[3].p, c->f[3].len, c->f[4].p, c->f[4].len,
                    (size_t)most);
        number = a.number;
        if (a.steps == 0)
            hold(number, lent, &given, &a.state);
        if (out != NULL)
            fprintf(out, "5 %u %lu %lu %lu %lu\n", a.number,
                    (unsigned long)a.steps,
                    (unsigned long)hash_state(&a.state),
                    (unsigned long)hash(c->f[2].p, c->f[2].len),
                    (unsigned long)hash(c->f[3].p, c->f[3].len));
        break;
    }
    case UNDO: {
        struct ind_state given = unpack_state(c->f[1].p);
        struct ind_state_answer a = ind_undo(c->f[0].p, c->f[0].len, given,
                                             c->f[2].p, c->f[2].len,
                                             c->f[3].p, c->f[3].len);

        number = a.number;
        hold(number, lent, &given, &a.state);
        if (out != NULL)
            fprintf(out, "6 %u %lu\n", a.number,
                    (unsigned long)hash_state(&a.state));
        break;
    }
    case LIGHTS: {
        struct ind_lights_answer a = ind_lights(c->f[0].p, c->f[0].len,
                                                unpack_state(c->f[1].p));

        number = a.number;
        if (out != NULL)
            fprintf(out, "7 %u %u %u %u %u %lu\n", a.number, a.ready,
                    a.in_turn, a.waiting, a.ended,
                    (unsigned long)hash(&a.rows[0][0], sizeof a.rows));
        break;
    }
    case READINESS: {
        struct ind_readiness_answer a = ind_readiness(c->f[0].p, c->f[0].len,
                                                      unpack_state(c->f[1].p),
                                                      c->f[2].p[0]);

        number = a.number;
        if (out != NULL)
            fprintf(out, "9 %u %u\n", a.number, a.place);
        break;
    }
    case WHY: {
        struct ind_why_answer a = ind_why(c->f[0].p, c->f[0].len,
                                          unpack_state(c->f[1].p),
                                          c->f[2].p[0]);

        number = a.number;
        if (out != NULL)
            fprintf(out, "10 %u %u %u %u %u %u %lu %lu\n", a.number, a.place,
                    a.ahead, a.count, a.variables[0], a.variables[1],
                    (unsigned long)a.values[0], (unsigned long)a.values[1]);
        break;
    }
    default: {
        size_t len = ind_trace(c->f[0].p, c->f[0].len, c->f[1].p, c->f[1].len,
                               c->f[2].p, c->f[2].len, NULL, 0);
        uint8_t *text = room(len);
        size_t i = len;

        if (ind_trace(c->f[0].p, c->f[0].len, c->f[1].p, c->f[1].len,
                      c->f[2].p, c->f[2].len, text, len) != len)
            die("a trace of two lengths");
        while (i > 0 && text[i - 1] != ' ')
            i--;
        for (; i + 1 < len; i++)
            number = (uint8_t)(number * 10 + (text[i] - '0'));
        if (out != NULL)
            fprintf(out, "8 %lu %lu\n", (unsigned long)len,
                    (unsigned long)hash(text, len));
        free(text);
        break;
    }
    }
    free(lent[0].then);
    free(lent[1].then);
    return number;
}

/* ------------------------------------------------------------------ */
/* Writing cases                                                      */
/* ------------------------------------------------------------------ */

struct writer {
    FILE *out;                        /* null: nothing is written */
    uint8_t bytes[1 << 18];           /* the case being made */
    size_t len;
    unsigned long cases;
    unsigned long total;              /* bytes of all cases */
    unsigned long largest;
    unsigned long table[CALLS][NUMBERS];
};

static void open_case(struct writer *w, enum call call)
{
    w->len = 0;
    w->bytes[w->len++] = (uint8_t)call;
}

static void field(struct writer *w, const uint8_t *p, size_t len)
{
    if (len > 65535 || w->len + 2 + len > sizeof w->bytes)
        die("a field too long for the stream");
    w->bytes[w->len++] = (uint8_t)(len & 255);
    w->bytes[w->len++] = (uint8_t)(len >> 8);
    if (len > 0)
        memcpy(w->bytes + w->len, p, len);
    w->len += len;
}

static void state_field(struct writer *w, const struct ind_state *s)
{
    uint8_t bytes[STATE_BYTES];

    pack_state(s, bytes);
    field(w, bytes, sizeof bytes);
}

/* A kept buffer's field being made. */
struct lent {
    uint8_t bytes[1 << 14];
    size_t len;
};

/* A buffer of this length and fill, without a patch. */
static void lend(struct lent *k, size_t length, uint8_t fill)
{
    pack_two(k->bytes, (uint16_t)length);
    k->bytes[2] = fill;
    k->len = 3;
}

static void patch(struct lent *k, size_t at, const uint8_t *p, size_t count)
{
    uint8_t *to = k->bytes + k->len;

    if (at > 65535 || k->len + 4 + count > sizeof k->bytes)
        die("a patch too many");
    pack_two(to, (uint16_t)at);
    pack_two(to + 2, (uint16_t)count);
    memcpy(to + 4, p, count);
    k->len += 4 + count;
}

/* Where kept place j begins. */
static size_t place_at(size_t j)
{
    return IND_KEPT_PLACE * (j - 1);
}

/* Patches kept place j with the state. */
static void patch_state(struct lent *k, size_t j, const struct ind_state *s)
{
    uint8_t bytes[IND_KEPT_PLACE];

    pack_kept(s, bytes);
    patch(k, place_at(j), bytes, sizeof bytes);
}

/* Patches a byte of kept place j. */
static void patch_byte(struct lent *k, size_t j, size_t at, uint8_t value)
{
    patch(k, place_at(j) + at, &value, 1);
}

/* The kept place that an undo from m steps uses; 0 where it uses none. */
static size_t place_used(size_t m)
{
    return m == 0 || m > IND_MAX_STEPS ? 0 : (m - 1) / IND_KEPT_EVERY;
}

/* Some junk: each case has another fill, and one in 256 has zeros. */
static void lend_junk(struct lent *k, const struct writer *w)
{
    lend(k, IND_KEPT_BYTES, (uint8_t)(7 * w->cases & 255));
}

/* Writes the case out and counts it.  It is read back the way that the
 * answering program reads it. */
static uint8_t close_case(struct writer *w)
{
    struct one c;
    size_t at = 0;
    uint8_t number;

    if (!take_case(&c, w->bytes, w->len, &at) || at != w->len)
        die("a case that cannot be read back");
    number = answer_case(&c, NULL);
    w->table[c.call][number]++;
    drop_case(&c);
    w->cases++;
    w->total += w->len;
    if (w->len > w->largest)
        w->largest = w->len;
    if (w->out != NULL && fwrite(w->bytes, 1, w->len, w->out) != w->len)
        die("cannot write");
    return number;
}

static void case_check(struct writer *w, const uint8_t *file, size_t len)
{
    open_case(w, CHECK);
    field(w, file, len);
    close_case(w);
}

/* The lent buffer is not empty of marks: none of its bytes is 0. */
static void case_build(struct writer *w, const uint8_t *file, size_t len,
                       size_t buflen)
{
    uint8_t *buf = room(buflen);

    for (size_t i = 0; i < buflen; i++)
        buf[i] = (uint8_t)(1 + i % 255);
    open_case(w, BUILD);
    field(w, file, len);
    field(w, buf, buflen);
    close_case(w);
    free(buf);
}

static void case_start_kept(struct writer *w, const uint8_t *list, size_t len,
                            uint8_t b, const uint8_t *resets, size_t nresets,
                            const uint8_t *log, size_t loglen,
                            const struct lent *kept)
{
    open_case(w, START);
    field(w, list, len);
    field(w, &b, 1);
    field(w, resets, nresets);
    field(w, log, loglen);
    field(w, kept->bytes, kept->len);
    close_case(w);
}

static void case_step_kept(struct writer *w, const uint8_t *list, size_t len,
                           const struct ind_state *s, const uint8_t *log,
                           size_t loglen, const struct lent *kept,
                           uint8_t station, uint8_t reset)
{
    uint8_t pick[2];

    pick[0] = station;
    pick[1] = reset;
    open_case(w, STEP);
    field(w, list, len);
    state_field(w, s);
    field(w, log, loglen);
    field(w, kept->bytes, kept->len);
    field(w, pick, 2);
    close_case(w);
}

static void case_run_kept(struct writer *w, const uint8_t *list, size_t len,
                          const struct ind_state *s, const uint8_t *log,
                          size_t loglen, const struct lent *kept,
                          const uint8_t *picks, size_t plen, uint64_t most)
{
    uint8_t number[8];

    for (int i = 0; i < 8; i++)
        number[i] = (uint8_t)(most >> 8 * i & 255);
    open_case(w, RUN);
    field(w, list, len);
    state_field(w, s);
    field(w, log, loglen);
    field(w, kept->bytes, kept->len);
    field(w, picks, plen);
    field(w, number, 8);
    close_case(w);
}

static uint8_t case_undo_kept(struct writer *w, const uint8_t *list,
                              size_t len, const struct ind_state *s,
                              const uint8_t *log, size_t loglen,
                              const struct lent *kept)
{
    open_case(w, UNDO);
    field(w, list, len);
    state_field(w, s);
    field(w, log, loglen);
    field(w, kept->bytes, kept->len);
    return close_case(w);
}

/* The same four with a kept buffer of junk.  Where an undo uses a kept place,
 * it holds the state given, with that place's m. */
static void case_start(struct writer *w, const uint8_t *list, size_t len,
                       uint8_t b, const uint8_t *resets, size_t nresets,
                       const uint8_t *log, size_t loglen)
{
    struct lent kept;

    lend_junk(&kept, w);
    case_start_kept(w, list, len, b, resets, nresets, log, loglen, &kept);
}

static void case_step(struct writer *w, const uint8_t *list, size_t len,
                      const struct ind_state *s, const uint8_t *log,
                      size_t loglen, uint8_t station, uint8_t reset)
{
    struct lent kept;

    lend_junk(&kept, w);
    case_step_kept(w, list, len, s, log, loglen, &kept, station, reset);
}

static void case_run(struct writer *w, const uint8_t *list, size_t len,
                     const struct ind_state *s, const uint8_t *log,
                     size_t loglen, const uint8_t *picks, size_t plen,
                     uint64_t most)
{
    struct lent kept;

    lend_junk(&kept, w);
    case_run_kept(w, list, len, s, log, loglen, &kept, picks, plen, most);
}

static void case_undo(struct writer *w, const uint8_t *list, size_t len,
                      const struct ind_state *s, const uint8_t *log,
                      size_t loglen)
{
    struct ind_state there = *s;
    struct lent kept;

    lend_junk(&kept, w);
    there.m = (uint16_t)(IND_KEPT_EVERY * place_used(s->m));
    if (there.m > 0)
        patch_state(&kept, place_used(s->m), &there);
    case_undo_kept(w, list, len, s, log, loglen, &kept);
}

static uint8_t case_lights(struct writer *w, const uint8_t *list, size_t len,
                           const struct ind_state *s)
{
    open_case(w, LIGHTS);
    field(w, list, len);
    state_field(w, s);
    return close_case(w);
}

/* What is asked of a station: readiness or why. */
static void case_asked(struct writer *w, enum call call, const uint8_t *list,
                       size_t len, const struct ind_state *s, uint8_t station)
{
    open_case(w, (uint8_t)call);
    field(w, list, len);
    state_field(w, s);
    field(w, &station, 1);
    close_case(w);
}

static void case_readiness(struct writer *w, const uint8_t *list, size_t len,
                           const struct ind_state *s, uint8_t station)
{
    case_asked(w, READINESS, list, len, s, station);
}

static void case_why(struct writer *w, const uint8_t *list, size_t len,
                     const struct ind_state *s, uint8_t station)
{
    case_asked(w, WHY, list, len, s, station);
}

static void case_trace(struct writer *w, const struct sequence *program,
                       const uint8_t *start, size_t slen,
                       const uint8_t *picks, size_t klen)
{
    open_case(w, TRACE);
    field(w, program->bytes, program->len);
    field(w, start, slen);
    field(w, picks, klen);
    close_case(w);
}

/* ------------------------------------------------------------------ */
/* Lists being run                                                    */
/* ------------------------------------------------------------------ */

/* A list with a state, a log and a kept buffer; the log has room for any
 * run. */
struct press {
    uint8_t list[IND_ITEM * (IND_MAX_ITEMS + 1)];
    size_t len;
    size_t n;
    struct ind_state state;
    uint8_t log[2 * (IND_STATIONS + IND_MAX_STEPS + 2)];
    uint8_t kept[IND_KEPT_BYTES];
};

/* Builds the sequence into the press. */
static void load(struct press *x, const struct sequence *p)
{
    struct ind_build_answer b = ind_build(p->bytes, p->len, x->list,
                                          IND_ITEM * IND_MAX_ITEMS);

    if (b.number != IND_FINE)
        die("a sequence meant to be accepted was refused");
    x->len = IND_ITEM * (size_t)b.count;
    x->n = 0;
    while (x->list[IND_ITEM * x->n] == IND_INIT)
        x->n++;
}

/* Starts the press; its log and its kept buffer are filled with marks first. */
static void set_going(struct press *x, uint8_t b, const uint8_t *resets)
{
    struct ind_state_answer s;

    memset(x->log, 0xEE, sizeof x->log);
    memset(x->kept, 0xEE, sizeof x->kept);
    s = ind_start(x->list, x->len, b, resets, x->n, x->log, sizeof x->log,
                  x->kept, sizeof x->kept);
    if (s.number != IND_FINE)
        die("a start meant to be taken was refused");
    x->state = s.state;
}

/* Takes picks; answers how many were taken. */
static size_t go(struct press *x, const uint8_t *picks, size_t count)
{
    struct ind_run_answer r = ind_run(x->list, x->len, x->state, x->log,
                                      sizeof x->log, x->kept, sizeof x->kept,
                                      picks, 2 * count, count);

    x->state = r.state;
    return r.steps;
}

/* Withdraws steps until m stand. */
static void back_to(struct press *x, size_t m)
{
    while (x->state.m > m) {
        struct ind_state_answer u = ind_undo(x->list, x->len, x->state, x->log,
                                             sizeof x->log, x->kept,
                                             sizeof x->kept);

        if (u.number != IND_FINE)
            die("an undo meant to be taken was refused");
        x->state = u.state;
    }
}

/* Patches kept place j, where there is one, with the press's. */
static void patch_place(struct lent *k, const struct press *x, size_t j)
{
    if (j >= 1 && j <= IND_KEPT_PLACES)
        patch(k, place_at(j), x->kept + place_at(j), IND_KEPT_PLACE);
}

/* The undo of a state with the kept place that it uses as the press's run left
 * it, and junk elsewhere. */
static void run_undo(struct writer *w, const struct press *x,
                     const struct ind_state *s, const uint8_t *log,
                     size_t loglen)
{
    struct lent kept;

    lend_junk(&kept, w);
    patch_place(&kept, x, place_used(s->m));
    case_undo_kept(w, x->list, x->len, s, log, loglen, &kept);
}

/* The length of a log that holds the standing steps and `more`. */
static size_t log_length(const struct press *x, size_t more)
{
    return 2 * (x->n + x->state.m + more);
}

/* ------------------------------------------------------------------ */
/* The sequences of the bench cases                                   */
/* ------------------------------------------------------------------ */

static void dryer(struct sequence *p)
{
    p->len = 0;
    add_bare(p, IND_STATION);
    add(p, IND_SET, 0, 0, 0, 1);
    add_bare(p, IND_STATION);
    add(p, IND_AWAIT, 0, 0, 0, 1);
    add(p, IND_SET, 0, 0, 2, 1);
    add_bare(p, IND_END);
}

static void two_loops(struct sequence *p)
{
    loops(p, 2);
}

static void one_loop(struct sequence *p)
{
    p->len = 0;
    add_bare(p, IND_STATION);
    add_bare(p, IND_WHILE);
    add_bare(p, IND_SKIP);
    add_bare(p, IND_OD);
}

static void kinds(struct sequence *p, const uint8_t *list, size_t count)
{
    p->len = 0;
    for (size_t i = 0; i < count; i++)
        add_bare(p, list[i]);
}

static void nest(struct sequence *p, uint8_t open, uint8_t middle,
                 uint8_t close, int deep)
{
    p->len = 0;
    add_bare(p, IND_STATION);
    for (int i = 0; i < deep; i++)
        add_bare(p, open);
    add_bare(p, IND_SKIP);
    for (int i = 0; i < deep; i++) {
        if (middle != 0) {
            add_bare(p, middle);
            add_bare(p, IND_SKIP);
        }
        add_bare(p, close);
    }
}

static void stations(struct sequence *p, int count)
{
    p->len = 0;
    for (int i = 0; i < count; i++) {
        add_bare(p, IND_STATION);
        add_bare(p, IND_SKIP);
    }
}

/* One station of SKIPs up to `len` bytes. */
static void long_file(struct sequence *p, size_t len)
{
    p->len = 0;
    add_bare(p, IND_STATION);
    while (p->len < len)
        add_bare(p, IND_SKIP);
}

/* A file by check and by build, the buffer with room for 2 records more than
 * the file has, which is room where there are at most 2 stations. */
static void both(struct writer *w, const struct sequence *p)
{
    case_check(w, p->bytes, p->len);
    case_build(w, p->bytes, p->len, 2 * p->len + 32);
}

/* P1 to P8, and the bench cases beside them.  check and build: 0 by P2, P8 and
 * sixteen deep; 1 by P1; 2 by P7 and P8; 3 by nine stations; 4 by P3 to P6; 5
 * by seventeen deep. */
static void bench_check(struct writer *w)
{
    static struct sequence p;
    static const uint8_t p2[] = { 1, 2 }, p4[] = { 2, 1, 2 },
        p5[] = { 1, 4, 2, 6 }, p6[] = { 1, 9, 7 };

    kinds(&p, NULL, 0);                        /* P1 */
    both(w, &p);
    kinds(&p, p2, 2);                          /* P2 */
    both(w, &p);
    case_build(w, p.bytes, p.len, 48);         /* just room */
    kinds(&p, p2, 1);                          /* P3 */
    both(w, &p);
    kinds(&p, p4, 3);                          /* P4 */
    both(w, &p);
    kinds(&p, p5, 4);                          /* P5 */
    both(w, &p);
    kinds(&p, p6, 3);                          /* P6 */
    both(w, &p);
    for (int with_station = 0; with_station <= 1; with_station++) {
        for (uint32_t k = 30; k <= 33; k++) {  /* P8 */
            kinds(&p, p2, (size_t)with_station);
            add(&p, IND_SET, 0, 0, 4, k);
            both(w, &p);
        }
        kinds(&p, p2, (size_t)with_station);   /* P7 */
        add(&p, IND_SET, 0, 1, 0, 0);
        both(w, &p);
    }
    for (int deep = 15; deep <= 18; deep++) {
        nest(&p, IND_WHILE, 0, IND_OD, deep);
        both(w, &p);
        nest(&p, IND_IF, IND_ELSE, IND_FI, deep);
        both(w, &p);
    }
    for (int n = 0; n <= 10; n++) {
        stations(&p, n);
        case_check(w, p.bytes, p.len);
        case_build(w, p.bytes, p.len, 16 * 3 * (size_t)n);
        if (n > 0)                             /* build 6 where n is to 8 */
            case_build(w, p.bytes, p.len, 16 * 3 * (size_t)n - 1);
    }
}

/* P9 to P12 and the trace of the Dryer. */
static void bench_run(struct writer *w)
{
    static struct sequence p;
    static struct press x;
    static const uint8_t zeros[8];
    static const uint8_t p10_resets[] = { 0, 1 };
    static const uint8_t p10_picks[] = { 0, 0, 0, 0, 0, 0, 1, 1 };
    static const uint8_t p10_good[] = { 0, 0, 0, 0, 1, 1 };
    static const uint8_t dryer_picks[] = { 0, 0, 1, 0, 255, 0, 255, 0 };

    /* P9, by each SET with a difference and each with a sum */
    for (uint8_t op = 2; op <= 5; op++) {
        p.len = 0;
        add(&p, IND_SET, 0, 0, op, 1);
        add(&p, IND_SET, 1, 1, 3, 1);
        add_bare(&p, IND_STATION);
        add(&p, IND_SET, 2, 2, op, 1);
        load(&x, &p);
        case_start(w, x.list, x.len, 0, zeros, 1, zeros, 2);
        set_going(&x, 0, zeros);
        case_step(w, x.list, x.len, &x.state, x.log, log_length(&x, 1), 0, 0);
    }

    /* P10 */
    two_loops(&p);
    both(w, &p);
    load(&x, &p);
    case_start(w, x.list, x.len, 1, p10_resets, 2, zeros, 4);
    set_going(&x, 1, p10_resets);
    case_lights(w, x.list, x.len, &x.state);
    case_run(w, x.list, x.len, &x.state, x.log, log_length(&x, 4),
             p10_picks, 4, 100);
    case_run(w, x.list, x.len, &x.state, x.log, log_length(&x, 4),
             p10_picks, 8, 100);                       /* run 12, two steps */
    case_run(w, x.list, x.len, &x.state, x.log, log_length(&x, 4),
             p10_good, 6, UINT64_MAX);
    go(&x, p10_picks, 2);
    case_lights(w, x.list, x.len, &x.state);
    case_step(w, x.list, x.len, &x.state, x.log, log_length(&x, 1), 0, 0);
    case_step(w, x.list, x.len, &x.state, x.log, log_length(&x, 1), 1, 1);
    go(&x, p10_good + 4, 1);
    case_lights(w, x.list, x.len, &x.state);
    case_undo(w, x.list, x.len, &x.state, x.log, log_length(&x, 0));

    /* P11, P12 */
    dryer(&p);
    both(w, &p);
    load(&x, &p);
    case_start(w, x.list, x.len, 0, zeros, 2, zeros, 4);
    set_going(&x, 0, zeros);
    case_step(w, x.list, x.len, &x.state, x.log, log_length(&x, 1), 1, 0);
    case_lights(w, x.list, x.len, &x.state);
    case_step(w, x.list, x.len, &x.state, x.log, log_length(&x, 1), 0, 0);
    go(&x, dryer_picks, 1);
    case_lights(w, x.list, x.len, &x.state);
    case_step(w, x.list, x.len, &x.state, x.log, log_length(&x, 1), 1, 0);
    go(&x, dryer_picks + 2, 1);
    case_lights(w, x.list, x.len, &x.state);
    case_undo(w, x.list, x.len, &x.state, x.log, log_length(&x, 0));
    x.state = ind_undo(x.list, x.len, x.state, x.log, sizeof x.log, x.kept,
                       sizeof x.kept).state;
    case_lights(w, x.list, x.len, &x.state);
    case_undo(w, x.list, x.len, &x.state, x.log, log_length(&x, 0));
    x.state = ind_undo(x.list, x.len, x.state, x.log, sizeof x.log, x.kept,
                       sizeof x.kept).state;
    case_lights(w, x.list, x.len, &x.state);
    case_undo(w, x.list, x.len, &x.state, x.log, log_length(&x, 0));

    case_trace(w, &p, zeros, 3, dryer_picks, 8);
}

/* Each refusal of start, step, run, undo, lights and trace by itself, and
 * where two meet, the one that comes first; readiness, and 6 and 8 by the kept
 * buffer, stand in parts of their own below.
 *
 * Which case reaches which number, one for each (many have more):
 *
 *   check   0 P2, 1 P1, 2 P7, 3 nine stations, 4 P3, 5 seventeen deep
 *   build   0 to 5 the same; 6 a buffer of 47 bytes for one station's SKIP
 *   start   0 P10; 7 no list; 13 one reset for two stations; 6 a log of 3
 *           bytes for two stations
 *   step    0 P12; 7 no list; 8 m = 4,097; 9 m = 4,096; 6 a log of 5 bytes
 *           for two stations; 10 station 2 of two; 16 the Dryer's station 0
 *           twice; 11 P11; 12 P10; 13 reset 3 with B = 2
 *   run     0 P10; 1 one byte of picks; 7 the list cut; 8 n = 7; 9 m = 4,096,
 *           and 4,097 picks; 6 a log that ends behind two steps; 10 (2,0)
 *           behind two steps; 16 the Dryer's station 0 twice; 11 its station 1
 *           first; 12 P10 with the refused pick in the run; 13 (0,3) behind
 *           two steps, B = 2
 *   undo    0 P12; 7 the list cut; 8 n = 1; 14 at the start; 6 a kept buffer
 *           of 11,775 bytes; 15 a log short by one byte
 *   lights  0 P11; 7 the list cut; 8 n = 3
 *   trace   0 the Dryer's; 1 no program, and one byte of picks; 2 SET of
 *           variable 32; 3 nine stations; 4 a station without a statement; 5
 *           seventeen deep; 10 (2,0) and (255,1); 16 the Dryer's station 0
 *           twice; 11 its station 1 first; 12 two loops, station 0 twice; 13
 *           no B, and reset 1 with B = 0; 14 (255,0) first
 *   readiness
 *           0 the Dryer's station 0 at the start, 11 its station 1; 16 station
 *           0 one step later; 7 no list; 8 n = 1; 10 station 2 of two */
static void refusals(struct writer *w)
{
    static struct sequence p;
    static struct press x;
    static const uint8_t zeros[16];
    static const uint8_t three[] = { 0, 0, 0 };
    static const uint8_t above[] = { 0, 3 };
    static const uint8_t picks[] = { 0, 2, 1, 2, 0, 0, 1, 1 };
    uint8_t bad[4];
    struct ind_state s;
    size_t full;

    two_loops(&p);
    load(&x, &p);

    /* start 7: no list, half a record, a record cut off; before 13 and 6 */
    case_start(w, NULL, 0, 2, zeros, 2, zeros, 4);
    case_start(w, x.list, x.len - 8, 2, zeros, 2, zeros, 4);
    case_start(w, x.list, x.len - 16, 2, zeros, 2, zeros, 4);
    case_start(w, x.list, x.len - 16, 2, zeros, 1, zeros, 3);
    /* start 13: too few, none, too many, one above B; before 6 */
    case_start(w, x.list, x.len, 2, zeros, 1, zeros, 4);
    case_start(w, x.list, x.len, 2, zeros, 0, zeros, 4);
    case_start(w, x.list, x.len, 2, three, 3, zeros, 4);
    case_start(w, x.list, x.len, 2, above, 2, zeros, 4);
    case_start(w, x.list, x.len, 2, above, 2, zeros, 3);
    case_start(w, x.list, x.len, 2, three, 3, zeros, 3);
    /* start 6: one byte short, no log; then just enough, and more */
    case_start(w, x.list, x.len, 3, above, 2, picks, 3);
    case_start(w, x.list, x.len, 3, above, 2, NULL, 0);
    case_start(w, x.list, x.len, 3, above, 2, picks, 4);
    case_start(w, x.list, x.len, 3, above, 2, picks, 8);

    set_going(&x, 2, zeros);
    full = log_length(&x, 1);
    /* step 7, with everything else wrong too */
    s = x.state;
    s.n = 3;
    s.m = 5000;
    case_step(w, x.list, x.len - 1, &s, zeros, 0, 9, 9);
    case_step(w, NULL, 0, &x.state, x.log, full, 0, 0);
    /* step 8, with everything after it wrong too */
    case_step(w, x.list, x.len, &s, zeros, 0, 9, 9);
    s = x.state;
    s.m = 4097;
    case_step(w, x.list, x.len, &s, x.log, full, 0, 0);
    /* step 9, with everything after it wrong too */
    s.m = 4096;
    case_step(w, x.list, x.len, &s, x.log, full, 0, 0);
    case_step(w, x.list, x.len, &s, zeros, 0, 9, 9);
    /* step 6, with everything after it wrong too */
    s.m = 4095;
    case_step(w, x.list, x.len, &s, x.log, full, 0, 0);
    case_step(w, x.list, x.len, &x.state, x.log, full - 1, 0, 0);
    case_step(w, x.list, x.len, &x.state, x.log, full - 1, 2, 3);
    case_step(w, x.list, x.len, &x.state, NULL, 0, 0, 0);
    /* step 10: n, 255, the undo pick; before 13 */
    case_step(w, x.list, x.len, &x.state, x.log, full, 2, 0);
    case_step(w, x.list, x.len, &x.state, x.log, full, 255, 0);
    case_step(w, x.list, x.len, &x.state, x.log, full, 2, 3);
    case_step(w, x.list, x.len, &x.state, x.log, full, 8, 0);
    /* step 12, and before 13 */
    s = x.state;
    s.pri[0] = 1;
    case_step(w, x.list, x.len, &s, x.log, full, 0, 0);
    case_step(w, x.list, x.len, &s, x.log, full, 0, 3);
    /* step 13, and just not */
    case_step(w, x.list, x.len, &x.state, x.log, full, 0, 3);
    case_step(w, x.list, x.len, &x.state, x.log, full, 0, 255);
    case_step(w, x.list, x.len, &x.state, x.log, full, 0, 2);
    case_step(w, x.list, x.len, &x.state, x.log, full + 7, 1, 2);

    /* run 1, before 7 and 8 */
    case_run(w, x.list, x.len, &x.state, x.log, full, picks, 1, 0);
    s.n = 7;
    case_run(w, x.list, x.len - 3, &s, x.log, full, picks, 3, 1);
    /* run 7, before 8, with no step allowed and with no picks */
    case_run(w, x.list, x.len - 3, &s, x.log, full, picks, 2, 0);
    case_run(w, x.list, x.len - 16, &x.state, x.log, full, NULL, 0, 9);
    /* run 8, the same */
    case_run(w, x.list, x.len, &s, x.log, full, picks, 2, 0);
    case_run(w, x.list, x.len, &s, NULL, 0, NULL, 0, 9);
    /* run 9 at once; none where no step is tried */
    s = x.state;
    s.m = 4096;
    case_run(w, x.list, x.len, &s, NULL, 0, picks, 2, 1);
    case_run(w, x.list, x.len, &s, NULL, 0, picks, 2, 0);
    case_run(w, x.list, x.len, &s, NULL, 0, picks, 0, 1);
    /* run 6 after 0, 1 and 2 steps, by an odd byte too */
    for (size_t i = 0; i < 6; i++)
        case_run(w, x.list, x.len, &x.state, x.log, 4 + i, picks, 8, 5);
    /* run by the number 0 to 5 and a number beyond 32 bits */
    for (uint64_t most = 0; most <= 5; most++)
        case_run(w, x.list, x.len, &x.state, x.log, 12, picks, 8, most);
    case_run(w, x.list, x.len, &x.state, x.log, 12, picks, 8,
             UINT64_C(1) << 32);
    /* run 10 after two steps, by the undo pick too; 12; 13 */
    memcpy(bad, picks, 4);
    for (int i = 0; i < 5; i++) {
        static const uint8_t last[5][2] = {
            { 2, 0 }, { 255, 0 }, { 255, 1 }, { 1, 0 }, { 0, 3 }
        };
        uint8_t six[6];

        memcpy(six, bad, 4);
        memcpy(six + 4, last[i], 2);
        case_run(w, x.list, x.len, &x.state, x.log, 20, six, 6, 9);
        case_run(w, x.list, x.len, &x.state, x.log, 20, six, 6, 2);
    }

    /* undo 7, before 8; 8, before 14; 14, before 15 */
    s = x.state;
    s.n = 1;
    case_undo(w, x.list, x.len - 16, &s, x.log, full);
    case_undo(w, x.list, x.len, &s, x.log, full);
    case_undo(w, x.list, x.len, &x.state, x.log, full);
    case_undo(w, x.list, x.len, &x.state, NULL, 0);
    /* undo 15: the log short by one byte and more; a start record of another
     * station, above B; each step record replaced.  The record withdrawn is
     * not judged: there it is 0. */
    go(&x, picks, 4);
    full = log_length(&x, 0);
    for (size_t len = full + 1; len + 5 > full; len--)
        case_undo(w, x.list, x.len, &x.state, x.log, len);
    case_undo(w, x.list, x.len, &x.state, NULL, 0);
    for (size_t i = 0; i < full; i++) {
        uint8_t was = x.log[i];

        for (int j = 0; j < 3; j++) {
            static const uint8_t put[3] = { 1, 3, 255 };

            x.log[i] = (uint8_t)(j == 0 ? was ^ put[j] : put[j]);
            case_undo(w, x.list, x.len, &x.state, x.log, full);
        }
        x.log[i] = was;
    }
    /* undo 0 whatever the variables, positions, priorities and counts given */
    s = x.state;
    s.var[3] = 77;
    s.pri[0] = s.pri[1];
    clear_counts(&s);
    s.pos[0] = 2;
    case_undo(w, x.list, x.len, &s, x.log, full);
    s.m = 2;
    case_undo(w, x.list, x.len, &s, x.log, full);
    s.m = 1;
    case_undo(w, x.list, x.len, &s, x.log, full);
    s.m = 5;
    case_undo(w, x.list, x.len, &s, x.log, full);
    s.b = 1;
    s.m = 4;
    case_undo(w, x.list, x.len, &s, x.log, full);

    /* lights 7, before 8; 8 */
    s.n = 3;
    case_lights(w, x.list, x.len - 16, &s);
    case_lights(w, x.list, x.len, &s);

    /* step, run 11 at AWAIT, 16 at STOP; before 12 and 13 */
    dryer(&p);
    load(&x, &p);
    set_going(&x, 0, zeros);
    case_step(w, x.list, x.len, &x.state, x.log, 20, 1, 1);
    case_run(w, x.list, x.len, &x.state, x.log, 20, picks + 2, 2, 1);
    go(&x, zeros, 1);
    case_step(w, x.list, x.len, &x.state, x.log, 20, 0, 0);
    case_run(w, x.list, x.len, &x.state, x.log, 20, zeros, 2, 1);
    s = x.state;
    s.b = 9;
    s.pri[0] = 9;
    case_step(w, x.list, x.len, &s, x.log, 20, 0, 10);

    /* trace 1 to 5, with the start and the picks wrong too */
    p.len = 0;
    case_trace(w, &p, NULL, 0, zeros, 1);
    case_trace(w, &p, zeros, 3, zeros, 2);
    add(&p, IND_SET, 32, 0, 0, 0);
    case_trace(w, &p, NULL, 0, zeros, 1);
    stations(&p, 9);
    case_trace(w, &p, NULL, 0, zeros, 1);
    stations(&p, 2);
    p.len -= 8;
    case_trace(w, &p, NULL, 0, zeros, 1);
    nest(&p, IND_WHILE, 0, IND_OD, 17);
    case_trace(w, &p, NULL, 0, zeros, 1);
    /* trace 13 by the start: no B, no resets, too few, too many, above B; with
     * the picks odd too */
    dryer(&p);
    for (size_t slen = 0; slen <= 4; slen++)
        case_trace(w, &p, zeros, slen, zeros, slen % 2);
    case_trace(w, &p, above, 2, zeros, 2);
    bad[0] = 2;
    bad[1] = 0;
    bad[2] = 3;
    case_trace(w, &p, bad, 3, zeros, 2);
    /* trace 1 by the picks, the start line printed; 0 with none */
    case_trace(w, &p, zeros, 3, zeros, 1);
    case_trace(w, &p, zeros, 3, zeros, 3);
    case_trace(w, &p, zeros, 3, NULL, 0);
    /* trace 10 by (2,0) and (255,1), 11, 13 by a step, 14 */
    for (int i = 0; i < 5; i++) {
        static const uint8_t last[5][2] = {
            { 2, 0 }, { 255, 1 }, { 1, 0 }, { 0, 1 }, { 255, 0 }
        };
        uint8_t eight[8] = { 0, 0, 255, 0, 0, 0, 0, 0 };

        case_trace(w, &p, zeros, 3, last[i], 2);
        memcpy(eight + 4, last[i], 2);
        case_trace(w, &p, zeros, 3, eight, 8);
    }
    /* trace 12, and priorities below zero */
    two_loops(&p);
    case_trace(w, &p, zeros, 3, zeros, 8);
    bad[0] = 1;
    bad[1] = 0;
    bad[2] = 1;
    case_trace(w, &p, bad, 3, zeros, 8);
}

/* The table of fields, one record a file: each kind and op with every field
 * right, then with one field changed.  The answers are 2 or, where the record
 * is right, 3 or 4. */
static void fields(struct writer *w)
{
    static struct sequence p;
    static const uint8_t kind[] = { 0, 1, 2, 3, 4, 5, 6, 7, 8, 9, 10, 11, 12,
                                    15, 16, 17, 18, 128, 255 };
    static const uint8_t byte[] = { 1, 31, 32, 255 };
    static const uint32_t k[] = { 1, 31, 32, 255, 256, 65536, 0x1000000,
                                  UINT32_MAX };

    for (size_t i = 0; i < sizeof kind; i++) {
        int long_row = kind[i] == IND_SET || kind[i] == IND_IF
                    || kind[i] == IND_WHILE || kind[i] == IND_AWAIT;

        for (uint8_t op = 0; op < (long_row ? 10 : 2); op++) {
            p.len = 0;
            add(&p, kind[i], 0, 0, op, 0);
            case_check(w, p.bytes, p.len);
            for (size_t j = 0; j < sizeof byte; j++) {
                p.len = 0;
                add(&p, kind[i], byte[j], 0, op, 0);
                case_check(w, p.bytes, p.len);
                p.len = 0;
                add(&p, kind[i], 0, byte[j], op, 0);
                case_check(w, p.bytes, p.len);
            }
            for (size_t j = 0; j < sizeof k / sizeof k[0]; j++) {
                p.len = 0;
                add(&p, kind[i], 0, 0, op, k[j]);
                case_check(w, p.bytes, p.len);
            }
        }
        p.len = 0;
        add(&p, kind[i], 0, 0, 255, 0);
        case_check(w, p.bytes, p.len);
        p.len = 0;
        add(&p, kind[i], 31, 31, 5, 31);
        case_check(w, p.bytes, p.len);
    }
}

/* The order of check's tests, "each over the whole file". */
static void check_order(struct writer *w)
{
    static struct sequence p;
    static const uint8_t no_station[] = { 6, 6 };

    /* 1 before 2; 2 late before 3, 4 and 5 early */
    stations(&p, 9);
    add(&p, 11, 0, 0, 0, 0);
    case_check(w, p.bytes, p.len - 1);
    case_check(w, p.bytes, p.len);
    nest(&p, IND_WHILE, 0, IND_OD, 20);
    add(&p, IND_SKIP, 1, 0, 0, 0);
    case_check(w, p.bytes, p.len);
    /* 3 before 4: no station and ill shaped; nine, one inside a loop */
    kinds(&p, no_station, 2);
    case_check(w, p.bytes, p.len);
    stations(&p, 8);
    add_bare(&p, IND_WHILE);
    add_bare(&p, IND_STATION);
    case_check(w, p.bytes, p.len);
    /* 4 late before 5 early; a file that is deep and unfinished */
    nest(&p, IND_WHILE, 0, IND_OD, 20);
    add_bare(&p, IND_OD);
    case_check(w, p.bytes, p.len);
    p.len -= 16;
    case_check(w, p.bytes, p.len);
    p.len += 8;
    case_check(w, p.bytes, p.len);
    /* 5 by the second nest, by IF, WHILE and AWAIT mixed */
    nest(&p, IND_IF, IND_ELSE, IND_FI, 16);
    add_bare(&p, IND_STATION);
    for (int i = 0; i < 16; i++)
        add_bare(&p, i % 2 == 0 ? IND_WHILE : IND_IF);
    add_bare(&p, IND_AWAIT);
    add_bare(&p, IND_SKIP);
    add_bare(&p, IND_END);
    for (int i = 15; i >= 0; i--) {
        if (i % 2 == 1) {
            add_bare(&p, IND_ELSE);
            add_bare(&p, IND_SKIP);
        }
        add_bare(&p, i % 2 == 0 ? IND_OD : IND_FI);
    }
    case_check(w, p.bytes, p.len);
    /* 4 in a body: each kind behind AWAIT, behind AWAIT IF, behind AWAIT IF
     * SKIP ELSE, and behind a station's first statement */
    for (uint8_t kind = 1; kind <= 10; kind++) {
        static const uint8_t before[5][6] = {
            { 1, 9 }, { 1, 9, 4 }, { 1, 9, 4, 2, 5 }, { 1, 9, 2, 10, 7, 2 },
            { 1, 4, 2 }
        };
        static const size_t many[5] = { 2, 3, 5, 6, 3 };

        for (int i = 0; i < 5; i++) {
            kinds(&p, before[i], many[i]);
            add_bare(&p, kind);
            case_check(w, p.bytes, p.len);
            add_bare(&p, IND_STATION);
            case_check(w, p.bytes, p.len);
        }
    }
}

/* The limits: long files, the longest list, 4,096 steps and one more, B of
 * 255, long bodies. */
static void limits(struct writer *w)
{
    static struct sequence p;
    static struct press x;
    static uint8_t picks[8196];
    static const uint8_t zeros[8];
    static const uint8_t high[8] = { 255, 255, 255, 255, 255, 255, 255, 255 };
    size_t most = IND_ITEM * IND_MAX_ITEMS;
    struct ind_state s;

    long_file(&p, 8192);                         /* "8,192 bytes pass" */
    case_check(w, p.bytes, p.len);
    case_trace(w, &p, zeros, 2, zeros, 4);
    case_check(w, p.bytes, p.len - 1);
    long_file(&p, 8200);                         /* "8,200 don't" */
    case_check(w, p.bytes, p.len);
    case_build(w, p.bytes, p.len, 16);

    /* a thousand unclosed WHILEs; 511 closed, and with the last one wrong */
    p.len = 0;
    add_bare(&p, IND_STATION);
    for (int i = 0; i < 1000; i++)
        add_bare(&p, IND_WHILE);
    case_check(w, p.bytes, p.len);
    nest(&p, IND_WHILE, 0, IND_OD, 511);
    case_check(w, p.bytes, p.len);
    p.bytes[p.len - 8] = IND_END;
    case_build(w, p.bytes, p.len, 3);

    /* A file of 1,024 records with a long initial part and a long body. */
    p.len = 0;
    for (int i = 0; i < 16; i++)
        add(&p, IND_SET, (uint8_t)(16 + i), 31, 2, UINT32_MAX);
    for (int i = 0; i < 8; i++) {
        add_bare(&p, IND_STATION);
        if (i == 7) {                  /* a body with branches, and behind
                                        * them SETs */
            add(&p, IND_AWAIT, 0, 16, 3, 1);
            for (uint8_t j = 0; j < 8; j++)
                add(&p, IND_IF, 0, j, 0, 0);
            add(&p, IND_SET, 8, 9, 4, 10);
            for (uint8_t j = 0; j < 8; j++) {
                add_bare(&p, IND_ELSE);
                add(&p, IND_SET, j, j, 3, 1);
                add_bare(&p, IND_FI);
            }
            while (p.len < 8192 - 8)
                add(&p, IND_SET, 11, 11, 2, 0x01020304);
            add_bare(&p, IND_END);
        } else {
            for (int j = 0; j < 125; j++)
                add(&p, IND_SET, (uint8_t)i, 7, 2, (uint32_t)j);
        }
    }
    case_check(w, p.bytes, p.len);
    load(&x, &p);
    set_going(&x, 255, high);
    case_step(w, x.list, x.len, &x.state, x.log, log_length(&x, 1), 7, 3);
    case_lights(w, x.list, x.len, &x.state);

    /* The longest list: 8 stations, 1,032 records. */
    p.len = 0;
    for (int i = 0; i < 8; i++) {
        add_bare(&p, IND_STATION);
        for (int j = 0; j < 127; j++)
            add_bare(&p, IND_SKIP);
    }
    load(&x, &p);
    if (x.len != most)
        die("not the longest list");
    case_build(w, p.bytes, p.len, most);
    case_build(w, p.bytes, p.len, most - 1);      /* build 6 */
    case_start(w, x.list, x.len, 255, high, 8, picks, 16);
    set_going(&x, 255, high);
    case_step(w, x.list, x.len, &x.state, x.log, log_length(&x, 1), 7, 255);
    memcpy(x.list + most, x.list + most - 16, 16);
    case_lights(w, x.list, most + 16, &x.state);  /* lights 7: 1,033 records */

    /* 4,096 steps and one more */
    one_loop(&p);
    load(&x, &p);
    set_going(&x, 0, zeros);
    case_run(w, x.list, x.len, &x.state, x.log, 8194, picks, 8194, 5000);
    case_run(w, x.list, x.len, &x.state, x.log, 8193, picks, 8194, 5000);
    case_trace(w, &p, zeros, 2, picks, 8192);
    case_trace(w, &p, zeros, 2, picks, 8194);
    go(&x, picks, 4095);
    case_step(w, x.list, x.len, &x.state, x.log, 8193, 0, 0);
    case_step(w, x.list, x.len, &x.state, x.log, 8194, 0, 0);
    go(&x, picks, 1);
    case_step(w, x.list, x.len, &x.state, x.log, 4, 0, 0);
    run_undo(w, &x, &x.state, x.log, 8194);
    run_undo(w, &x, &x.state, x.log, 8193);
    for (size_t i = 4096; i < 8192; i += 2)
        picks[i] = 255;
    case_trace(w, &p, zeros, 2, picks, 8192);     /* half of it withdrawn */

    /* B of 255 and of 254 with resets of 255; priorities from 255 down */
    two_loops(&p);
    load(&x, &p);
    case_start(w, x.list, x.len, 255, high, 2, zeros, 4);
    case_start(w, x.list, x.len, 254, high, 2, zeros, 4);
    set_going(&x, 255, high);
    case_step(w, x.list, x.len, &x.state, x.log, 6, 1, 255);
    case_run(w, x.list, x.len, &x.state, x.log, 520, picks, 514, 300);
    case_run(w, x.list, x.len, &x.state, x.log, 900, picks, 600, 300);
    s = x.state;
    s.pri[0] = 256;
    case_step(w, x.list, x.len, &s, x.log, 6, 1, 255);   /* step 8 */
}

/* ------------------------------------------------------------------ */
/* Lists that no build made                                           */
/* ------------------------------------------------------------------ */

static void put_item(uint8_t *r, const uint8_t fields[IND_RECORD],
                     size_t station, uint8_t inside, size_t t1, size_t t2)
{
    memcpy(r, fields, IND_RECORD);
    r[8] = (uint8_t)station;
    r[9] = inside;
    r[10] = (uint8_t)(t1 & 255);
    r[11] = (uint8_t)(t1 >> 8);
    r[12] = (uint8_t)(t2 & 255);
    r[13] = (uint8_t)(t2 >> 8);
    r[14] = 0;
    r[15] = 0;
}

/* A random place from `from` on whose record belongs to the station and is
 * inside or not; 0 where there is none. */
static size_t some_place(struct rng *g, const uint8_t *list, size_t items,
                         size_t from, size_t station, uint8_t inside)
{
    size_t found = 0;
    uint32_t seen = 0;

    for (size_t i = from; i < items; i++) {
        const uint8_t *r = list + IND_ITEM * i;

        if (r[8] != station || r[9] != inside)
            continue;
        seen++;
        if (below(g, seen) == 0)
            found = i;
    }
    return found;
}

/* Puts a random sound list of up to `most` stations into the press: the
 * stations' records mixed, any number of STOPs, records nobody reaches,
 * bodies that lead into each other, targets that cross. */
static void random_list(struct rng *g, struct press *x, uint32_t most)
{
    uint32_t n = 1 + below(g, most);
    uint32_t initial = chance(g, 40) ? below(g, 4) : 0;
    uint32_t later = n + below(g, 4 + 3 * n);
    size_t first = n + initial, items = first;
    uint8_t *list = x->list;
    uint8_t bare[IND_RECORD] = { 0 };

    /* the stations and which are inside; each station has one outside */
    for (uint32_t i = 0; i < later; i++) {
        size_t station = i < n ? i : below(g, n);
        uint32_t body = chance(g, 40) ? 1 + below(g, 4) : 0;

        if (i >= n && chance(g, 10)) {
            put_item(list + IND_ITEM * items++, bare, station, 1, 0, 0);
            continue;
        }
        put_item(list + IND_ITEM * items++, bare, station, 0, 0, 0);
        for (uint32_t j = 0; j < body; j++)
            put_item(list + IND_ITEM * items++, bare, station, 1, 0, 0);
    }

    for (size_t j = 0; j < n; j++) {
        bare[0] = IND_INIT;
        bare[1] = (uint8_t)j;
        put_item(list + IND_ITEM * j, bare, j, 0,
                 some_place(g, list, items, first, j, 0), 0);
    }
    bare[1] = 0;
    for (size_t i = n; i < first; i++) {
        uint8_t r[IND_RECORD];

        random_set(g, r);
        put_item(list + IND_ITEM * i, r, IND_INITIAL, 0, 0, 0);
    }

    for (size_t i = first; i < items; i++) {
        uint8_t *r = list + IND_ITEM * i;
        size_t station = r[8];
        uint8_t inside = r[9];
        uint8_t fields[IND_RECORD] = { 0 };
        uint32_t what = below(g, inside ? 7 : 11);
        size_t t1, t2;

        if (inside) {
            t1 = chance(g, 75) ? some_place(g, list, items, i + 1, station, 1)
                               : 0;
            t2 = chance(g, 75) ? some_place(g, list, items, i + 1, station, 1)
                               : 0;
        } else {
            t1 = some_place(g, list, items, first, station, 0);
            t2 = some_place(g, list, items, first, station, 0);
            if (i + 1 < items && r[16 + 8] == station && r[16 + 9] == 1
                && chance(g, 80)) {
                random_test(g, IND_AWAIT, fields);
                put_item(r, fields, station, 0, i + 1, t2);
                continue;
            }
        }
        if (what == 0) {
            fields[0] = IND_SKIP;
            t2 = 0;
        } else if (what <= 3) {
            random_set(g, fields);
            t2 = 0;
        } else if (what <= 6) {
            random_test(g, IND_IF, fields);
        } else if (what <= 9) {
            random_test(g, IND_WHILE, fields);
        } else {
            fields[0] = IND_STOP;
            t1 = 0;
            t2 = 0;
        }
        put_item(r, fields, station, inside, t1, t2);
    }
    x->len = IND_ITEM * items;
    x->n = n;
}

/* One station, two AWAITs whose bodies end in the same record, a record
 * inside that nobody reaches, two STOPs. */
static const uint8_t shared_list[] = {
    16, 0, 0, 0, 0, 0, 0, 0, 0, 0, 1, 0, 0, 0, 0, 0,
    9, 0, 0, 0, 0, 0, 0, 0, 0, 0, 2, 0, 3, 0, 0, 0,
    4, 0, 1, 5, 2, 0, 0, 0, 0, 1, 5, 0, 6, 0, 0, 0,
    9, 0, 3, 2, 9, 0, 0, 0, 0, 0, 4, 0, 7, 0, 0, 0,
    3, 4, 5, 1, 0, 0, 0, 0, 0, 1, 5, 0, 0, 0, 0, 0,
    3, 6, 7, 4, 8, 0, 0, 0, 0, 1, 0, 0, 0, 0, 0, 0,
    3, 9, 0, 0, 1, 0, 0, 0, 0, 1, 0, 0, 0, 0, 0, 0,
    4, 0, 6, 1, 1, 0, 0, 0, 0, 0, 8, 0, 9, 0, 0, 0,
    17, 0, 0, 0, 0, 0, 0, 0, 0, 0, 0, 0, 0, 0, 0, 0,
    17, 0, 0, 0, 0, 0, 0, 0, 0, 0, 0, 0, 0, 0, 0, 0,
    3, 10, 0, 0, 1, 0, 0, 0, 0, 1, 0, 0, 0, 0, 0, 0
};

/* Two stations mixed, no STOP, targets that cross, a SKIP to itself. */
static const uint8_t mixed_list[] = {
    16, 0, 0, 0, 0, 0, 0, 0, 0, 0, 5, 0, 0, 0, 0, 0,
    16, 1, 0, 0, 0, 0, 0, 0, 1, 0, 6, 0, 0, 0, 0, 0,
    3, 2, 0, 0, 5, 0, 0, 0, 255, 0, 0, 0, 0, 0, 0, 0,
    4, 0, 2, 3, 3, 0, 0, 0, 0, 0, 5, 0, 7, 0, 0, 0,
    2, 0, 0, 0, 0, 0, 0, 0, 1, 0, 4, 0, 0, 0, 0, 0,
    7, 0, 2, 0, 5, 0, 0, 0, 0, 0, 7, 0, 3, 0, 0, 0,
    3, 2, 2, 3, 1, 0, 0, 0, 1, 0, 8, 0, 0, 0, 0, 0,
    3, 1, 1, 2, 1, 0, 0, 0, 0, 0, 3, 0, 0, 0, 0, 0,
    7, 0, 1, 6, 2, 0, 0, 0, 1, 0, 6, 0, 4, 0, 0, 0
};

/* The smallest sound lists: a STOP, a SKIP to itself. */
static const uint8_t stop_list[] = {
    16, 0, 0, 0, 0, 0, 0, 0, 0, 0, 1, 0, 0, 0, 0, 0,
    17, 0, 0, 0, 0, 0, 0, 0, 0, 0, 0, 0, 0, 0, 0, 0
};

static const uint8_t skip_list[] = {
    16, 0, 0, 0, 0, 0, 0, 0, 0, 0, 1, 0, 0, 0, 0, 0,
    2, 0, 0, 0, 0, 0, 0, 0, 0, 0, 1, 0, 0, 0, 0, 0
};

/* The hand-made lists, each sound. */
enum { HANDS = 4 };

static const struct {
    const uint8_t *list;
    size_t len;
    size_t n;
} hand[HANDS] = {
    { shared_list, sizeof shared_list, 1 },
    { mixed_list, sizeof mixed_list, 2 },
    { stop_list, sizeof stop_list, 1 },
    { skip_list, sizeof skip_list, 1 }
};

/* Puts a list of n stations into the press. */
static void load_list(struct press *x, const uint8_t *list, size_t len,
                      size_t n)
{
    memcpy(x->list, list, len);
    x->len = len;
    x->n = n;
}

/* Puts the i-th hand-made list into the press. */
static void load_hand(struct press *x, size_t i)
{
    load_list(x, hand[i].list, hand[i].len, hand[i].n);
}

/* The hand-made lists: shared bodies, several STOPs or none, records nobody
 * reaches, targets that cross; then each byte of one list changed, by lights
 * (7 or 0). */
static void hand_made(struct writer *w)
{
    static const uint8_t zeros[8];
    static struct press x;

    for (size_t i = 0; i < HANDS; i++) {
        load_hand(&x, i);
        case_start(w, x.list, x.len, 1, zeros, x.n, zeros, 8);
        set_going(&x, 1, zeros);
        if (case_lights(w, x.list, x.len, &x.state) != IND_FINE)
            die("a hand-made list is not sound");
        for (int j = 0; j < 14; j++) {
            struct ind_lights_answer l = ind_lights(x.list, x.len, x.state);
            uint8_t pick[2] = { 0, 0 };

            while (pick[0] < 7 && (l.in_turn >> pick[0] & 1) == 0)
                pick[0]++;
            case_step(w, x.list, x.len, &x.state, x.log, log_length(&x, 1),
                      pick[0], (uint8_t)(j % 2));
            pick[1] = (uint8_t)(j % 2);
            if (go(&x, pick, 1) == 0)
                break;
            case_lights(w, x.list, x.len, &x.state);
        }
        case_undo(w, x.list, x.len, &x.state, x.log, log_length(&x, 0));
        /* the state put at each place */
        for (uint16_t place = 0; place <= x.len / IND_ITEM; place++) {
            struct ind_state s = x.state;

            s.pos[0] = place;
            case_lights(w, x.list, x.len, &s);
        }
    }

    /* each byte changed; each target of all lists but the first put at each
     * place, an INIT's too */
    for (size_t i = 0; i < HANDS; i++) {
        load_hand(&x, i);
        set_going(&x, 1, zeros);
        for (size_t at = 0; at < x.len; at++) {
            uint8_t was = x.list[at];

            x.list[at] = (uint8_t)(was + 1);
            case_lights(w, x.list, x.len, &x.state);
            if (at % 16 < 4 || (at % 16 > 7 && at % 16 < 14)) {
                x.list[at] = (uint8_t)(was - 1);
                case_lights(w, x.list, x.len, &x.state);
            }
            for (size_t place = 0; i > 0 && place <= x.len / 16; place++) {
                x.list[at] = (uint8_t)place;
                if ((at % 16 == 10 || at % 16 == 12) && place != was
                    && place != was + 1u && place + 1 != was)
                    case_lights(w, x.list, x.len, &x.state);
            }
            x.list[at] = was;
        }
        for (size_t cut = 0; cut <= x.len; cut += 8)
            case_start(w, x.list, cut, 1, zeros, x.n, zeros, 8);
    }

    /* eight INITs and nine */
    for (size_t n = 8; n <= 9; n++) {
        uint8_t fields[IND_RECORD] = { 0 };

        for (size_t j = 0; j < n; j++) {
            fields[0] = IND_INIT;
            fields[1] = (uint8_t)j;
            put_item(x.list + 16 * j, fields, j, 0, n + j, 0);
            fields[0] = IND_STOP;
            fields[1] = 0;
            put_item(x.list + 16 * (n + j), fields, j, 0, 0, 0);
        }
        case_start(w, x.list, 32 * n, 0, zeros, 8, zeros, 8);
        case_start(w, x.list, 32 * n, 0, zeros, 8, x.list, 16);
    }
}

/* ------------------------------------------------------------------ */
/* States near soundness                                              */
/* ------------------------------------------------------------------ */

/* A state for the list, sound or nearly. */
static struct ind_state random_state(struct rng *g, const struct press *x)
{
    static const uint16_t marks[] = { 0, 1, 2, 3, 7, 4095, 4096, 4097, 65535 };
    struct ind_state s = { 0 };
    size_t items = x->len / IND_ITEM;
    uint32_t last = (uint32_t)x->n;

    for (int i = 0; i < 4; i++)
        s.var[i] = random_constant(g);
    s.n = (uint8_t)x->n;
    s.b = chance(g, 80) ? (uint8_t)below(g, 4) : 255;
    s.m = chance(g, 80) ? (uint16_t)below(g, 6) : marks[below(g, 9)];
    for (size_t i = 0; i < x->n; i++) {
        s.pos[i] = (uint16_t)some_place(g, x->list, items, x->n, i, 0);
        if (chance(g, 60))
            s.pri[i] = (int16_t)below(g, s.b + 1u);
        else
            s.pri[i] = (int16_t)-(int)below(g, last);
    }
    if (chance(g, 35)) {
        size_t i = below(g, IND_STATIONS);

        switch (below(g, 9)) {
        case 0:
            s.pos[i] = (uint16_t)below(g, (uint32_t)items + 2);
            break;
        case 1:
            s.pos[i] = (uint16_t)some_place(g, x->list, items, x->n, i, 1);
            break;
        case 2:
            s.pri[i] = (int16_t)(s.b + (int)below(g, 2));
            break;
        case 3:
            s.pri[i] = (int16_t)-(int)(last + below(g, 2));
            break;
        case 4:
            s.pri[i] = INT16_MIN;
            break;
        case 5:
            s.n = (uint8_t)(s.n + 1 - 2 * below(g, 2));
            break;
        case 6:
            s.pri[i] = INT16_MAX;
            break;
        case 7:
            s.pos[i] = (uint16_t)draw(g);
            break;
        default:
            s.n = (uint8_t)draw(g);
            break;
        }
    }
    return s;
}

/* The rule on priorities, for each n: as low as can be, then each one lower
 * by one; positions of other stations, inside, initial, INIT; entries from n
 * on.  lights 0 and 8. */
static void states(struct writer *w)
{
    static struct press x;
    static struct sequence p;
    static const uint8_t zeros[8];
    struct ind_state s;

    for (int n = 1; n <= 8; n++) {
        stations(&p, n);
        load(&x, &p);
        set_going(&x, 3, zeros);
        s = x.state;
        for (int i = 0; i < n; i++)
            s.pri[i] = (int16_t)-i;
        case_lights(w, x.list, x.len, &s);
        for (int i = 0; i < n; i++) {
            s.pri[i]--;
            case_lights(w, x.list, x.len, &s);
            s.pri[i]++;
        }
        for (int i = 0; i < n; i++)
            s.pri[i] = (int16_t)(i + 1 - n);
        case_lights(w, x.list, x.len, &s);
        s.pri[n - 1] = 3;
        case_lights(w, x.list, x.len, &s);
        s.pri[n - 1] = 4;
        case_lights(w, x.list, x.len, &s);
        for (int i = 0; i < n; i++)
            s.pri[i] = -1;
        case_lights(w, x.list, x.len, &s);
        s.pri[0] = 0;
        case_lights(w, x.list, x.len, &s);
        if (n < 8) {
            s = x.state;
            s.pri[n] = -1;
            case_lights(w, x.list, x.len, &s);
            s.pri[n] = 0;
            s.pos[7] = (uint16_t)n;
            case_lights(w, x.list, x.len, &s);
        }
    }
    p.len = 0;
    add(&p, IND_SET, 1, 0, 0, 7);
    add_bare(&p, IND_STATION);
    add_bare(&p, IND_SKIP);
    add_bare(&p, IND_STATION);
    add(&p, IND_AWAIT, 0, 0, 4, 1);
    add_bare(&p, IND_SKIP);
    add_bare(&p, IND_END);
    load(&x, &p);
    set_going(&x, 3, zeros);
    for (uint16_t place = 0; place < 10; place++) {
        for (int i = 0; i < 3; i++) {
            s = x.state;
            s.pos[i] = place;
            case_lights(w, x.list, x.len, &s);
        }
    }
    s = x.state;
    s.pos[0] = 65535;
    case_lights(w, x.list, x.len, &s);
    s = x.state;
    for (unsigned n = 0; n <= 9; n++) {
        s.n = (uint8_t)n;
        case_lights(w, x.list, x.len, &s);
    }
    s.n = 255;
    case_lights(w, x.list, x.len, &s);
    s = x.state;
    for (uint16_t m = 4094; m <= 4098; m++) {
        s.m = m;
        case_lights(w, x.list, x.len, &s);
    }
}

/* ------------------------------------------------------------------ */
/* Ready, ended, waiting                                              */
/* ------------------------------------------------------------------ */

/* One station that ends, one that waits for ever, one that loops. */
static void purge(struct sequence *p)
{
    p->len = 0;
    add_bare(p, IND_STATION);
    add_bare(p, IND_SKIP);
    add_bare(p, IND_STATION);
    add(p, IND_AWAIT, 0, 0, 3, 1);
    add_bare(p, IND_SKIP);
    add_bare(p, IND_END);
    add_bare(p, IND_STATION);
    add(p, IND_WHILE, 0, 0, 4, 0);
    add_bare(p, IND_SKIP);
    add_bare(p, IND_OD);
}

/* Readiness or why of each station, of station n and of 255. */
static void each_station(struct writer *w, enum call call,
                         const struct press *x, const struct ind_state *s)
{
    for (size_t i = 0; i <= x->n; i++)
        case_asked(w, call, x->list, x->len, s, (uint8_t)i);
    case_asked(w, call, x->list, x->len, s, 255);
}

/* Readiness or why in the Dryer: station 1 waits, is ready, has ended, and one
 * step back. */
static void ask_dryer(struct writer *w, enum call call, struct press *x)
{
    static struct sequence p;
    static const uint8_t picks[2][2] = { { 0, 0 }, { 1, 0 } };

    dryer(&p);
    load(x, &p);
    set_going(x, 0, picks[0]);
    each_station(w, call, x, &x->state);
    for (int i = 0; i < 2; i++) {
        go(x, picks[i], 1);
        each_station(w, call, x, &x->state);
    }
    back_to(x, 1);
    each_station(w, call, x, &x->state);
}

/* Readiness or why of station `first` to station 2 in each state that one of
 * the changes makes. */
static void ask_changed(struct writer *w, enum call call,
                        const struct press *x, const struct change *changes,
                        size_t count, uint8_t first)
{
    for (size_t i = 0; i < count; i++) {
        struct ind_state s = changed(x->state, changes[i]);

        for (uint8_t station = first; station <= 2; station++)
            case_asked(w, call, x->list, x->len, &s, station);
    }
}

/* The purge with B = 3, its first station ended. */
static void purge_going(struct press *x)
{
    static struct sequence p;
    static const uint8_t zeros[8];

    purge(&p);
    load(x, &p);
    set_going(x, 3, zeros);
    go(x, zeros, 1);
}

/* One station at AWAIT b op k. */
static void awaiting(struct press *x, uint8_t b, uint8_t op, uint32_t k)
{
    static struct sequence p;
    static const uint8_t zeros[8];

    p.len = 0;
    add_bare(&p, IND_STATION);
    add_block(&p, IND_AWAIT, b, op, k);
    load(x, &p);
    set_going(x, 0, zeros);
}

/* The longest list, with an AWAIT in the highest place where one can be: its
 * body is the last record.  Before it, SKIPs that lead to it. */
static void late_await(struct press *x)
{
    static const uint8_t init[IND_RECORD] = { IND_INIT };
    static const uint8_t skip[IND_RECORD] = { IND_SKIP };
    static const uint8_t await[IND_RECORD] = { IND_AWAIT, 0, 0, 1 };
    size_t at = IND_MAX_ITEMS - 2;

    put_item(x->list, init, 0, 0, at, 0);
    for (size_t i = 1; i < at; i++)
        put_item(x->list + IND_ITEM * i, skip, 0, 0, i + 1, 0);
    put_item(x->list + IND_ITEM * at, await, 0, 0, at + 1, 1);
    put_item(x->list + IND_ITEM * (at + 1), skip, 0, 1, 0, 0);
    x->len = IND_ITEM * IND_MAX_ITEMS;
    x->n = 1;
}

/* Readiness: 0, 16 and 11 with the place, then 7, 8 and 10 and which of them
 * comes first. */
static void readiness(struct writer *w)
{
    static struct sequence p;
    static struct press x;
    static const uint8_t zeros[8];
    static const struct change unsound[8] = {
        { CHANGE_N, 0, 1 }, { CHANGE_N, 0, 3 }, { CHANGE_M, 0, 4097 },
        { CHANGE_POS, 0, 5 },                     /* inside */
        { CHANGE_POS, 1, 3 },                     /* the other's STOP */
        { CHANGE_PRI, 0, 1 }, { CHANGE_PRI, 1, -2 }, { CHANGE_POS, 2, 3 }
    };
    struct ind_state s;

    ask_dryer(w, READINESS, &x);

    /* 7, before 8 and 10: no list, half a record, a record cut off, a STOP
     * with a target */
    s = x.state;
    s.n = 1;
    case_readiness(w, NULL, 0, &x.state, 0);
    case_readiness(w, x.list, x.len - 8, &x.state, 0);
    case_readiness(w, x.list, x.len - 16, &x.state, 1);
    case_readiness(w, x.list, x.len - 16, &s, 1);
    case_readiness(w, x.list, x.len - 16, &x.state, 2);
    case_readiness(w, x.list, x.len - 16, &s, 255);
    x.list[IND_ITEM * 3 + 10] = 3;
    case_readiness(w, x.list, x.len, &x.state, 0);
    x.list[IND_ITEM * 3 + 10] = 0;
    /* 8, before 10: n, m, the other station's position, the station's own, a
     * priority, entries from n on */
    ask_changed(w, READINESS, &x, unsound, 8, 1);

    /* all three cases with m = 4,096, where no step is left, and 8 above;
     * whose turn it is does not matter */
    purge_going(&x);
    s = x.state;
    for (uint16_t m = 4096; m <= 4097; m++) {
        s.m = m;
        for (uint8_t station = 0; station < 3; station++)
            case_readiness(w, x.list, x.len, &s, station);
    }
    for (uint8_t station = 0; station < 3; station++) {
        s = x.state;
        s.pri[station] = 3;
        clear_counts(&s);
        case_readiness(w, x.list, x.len, &s, station);
        s.pri[station] = -2;
        case_readiness(w, x.list, x.len, &s, station);
    }
    s.pri[1] = 3;
    s.var[0] = 1;                                 /* ready, not in turn */
    case_readiness(w, x.list, x.len, &s, 1);

    /* AWAIT by each op: below, equal, above, and numbers of 32 bits */
    for (uint8_t op = 0; op < 8; op++) {
        static const uint32_t pair[4][2] = {
            { 4, 5 }, { 5, 5 }, { 6, 5 }, { UINT32_MAX, 0x7FFFFFFF }
        };

        for (int i = 0; i < 4; i++) {
            awaiting(&x, 2, op, op < 4 ? pair[i][1] : 31);
            x.state.var[2] = pair[i][0];
            x.state.var[31] = pair[i][1];
            case_readiness(w, x.list, x.len, &x.state, 0);
        }
    }

    /* IF and WHILE never wait: here they fail */
    for (int i = 0; i < 2; i++) {
        p.len = 0;
        add_bare(&p, IND_STATION);
        add_block(&p, i == 0 ? IND_IF : IND_WHILE, 0, 1, 0);
        load(&x, &p);
        set_going(&x, 0, zeros);
        case_readiness(w, x.list, x.len, &x.state, 0);
    }

    /* one station, four, seven: the last waits, and one more there is not */
    for (int n = 1; n <= 7; n += 3) {
        p.len = 0;
        for (int i = 0; i < n; i++) {
            add_bare(&p, IND_STATION);
            if (i + 1 == n)
                add(&p, IND_AWAIT, 0, 0, 0, (uint32_t)n);
            add_bare(&p, IND_SKIP);
            if (i + 1 == n)
                add_bare(&p, IND_END);
        }
        load(&x, &p);
        set_going(&x, 0, zeros);
        case_readiness(w, x.list, x.len, &x.state, (uint8_t)(n - 1));
        case_readiness(w, x.list, x.len, &x.state, (uint8_t)n);
    }
    /* eight stations: each ready, waiting or ended by turns */
    p.len = 0;
    for (int i = 0; i < 8; i++) {
        add_bare(&p, IND_STATION);
        add_block(&p, IND_AWAIT, (uint8_t)(i % 2), 0, 0);
    }
    load(&x, &p);
    set_going(&x, 0, zeros);
    x.state.var[1] = 1;
    x.state.pos[2] += 2;
    x.state.pos[7] += 2;
    each_station(w, READINESS, &x, &x.state);

    /* lists that someone else wrote, the station at each place: two STOPs,
     * none, one that is all; the AWAITs hold, then fail */
    for (size_t i = 0; i < HANDS; i++) {
        load_hand(&x, i);
        set_going(&x, 1, zeros);
        for (size_t station = 0; station < x.n; station++) {
            for (uint16_t place = 0; place <= x.len / IND_ITEM; place++) {
                s = x.state;
                s.pos[station] = place;
                case_readiness(w, x.list, x.len, &s, (uint8_t)station);
                s.var[0] = 1;
                s.var[3] = 9;
                if (ind_lights(x.list, x.len, s).waiting != 0)
                    case_readiness(w, x.list, x.len, &s, (uint8_t)station);
            }
        }
    }

    /* place 1,030, which is the highest */
    late_await(&x);
    set_going(&x, 0, zeros);
    case_readiness(w, x.list, x.len, &x.state, 0);
}

/* Step, run, undo and trace where a station has ended and where one waits. */
static void endings(struct writer *w)
{
    static struct sequence p;
    static struct press x;
    static const uint8_t zeros[16];
    static const uint8_t picks[] = { 0, 0, 2, 0, 2, 0 };
    static const uint8_t both_picks[] = { 0, 0, 1, 0 };
    uint8_t six[6], log[12];
    struct ind_state s;
    size_t full;

    /* run 16 and 11 behind two steps; not where the number ends before them;
     * 6 before them */
    purge(&p);
    load(&x, &p);
    set_going(&x, 0, zeros);
    for (uint8_t i = 0; i <= 1; i++) {
        memcpy(six, picks, 6);
        six[4] = i;
        case_run(w, x.list, x.len, &x.state, x.log, 12, six, 6, 9);
        case_run(w, x.list, x.len, &x.state, x.log, 12, six, 6, 3);
        case_run(w, x.list, x.len, &x.state, x.log, 12, six, 6, 2);
        case_run(w, x.list, x.len, &x.state, x.log, 11, six, 6, 9);
        case_run(w, x.list, x.len, &x.state, x.log, 10, six, 6, 9);
    }

    /* step 16 and 11: by themselves, then with everything after them wrong
     * too, then with one thing before them wrong too; run the same */
    go(&x, picks, 1);
    full = log_length(&x, 1);
    for (uint8_t i = 0; i <= 1; i++) {
        uint8_t pick[2];

        case_step(w, x.list, x.len, &x.state, x.log, full, i, 0);
        s = x.state;
        s.b = 9;
        s.pri[i] = -2;
        case_step(w, x.list, x.len, &s, x.log, full, i, 10);   /* and 13 */
        s.pri[i] = 9;
        case_step(w, x.list, x.len, &s, x.log, full, i, 9);    /* and 12 */
        case_step(w, x.list, x.len, &s, x.log, full, i, 10);   /* and both */
        case_step(w, x.list, x.len, &s, x.log, full - 1, i, 10);
        case_step(w, x.list, x.len, &s, NULL, 0, i, 10);
        pick[0] = i;
        pick[1] = 10;
        case_run(w, x.list, x.len, &s, x.log, full, pick, 2, 1);
        case_run(w, x.list, x.len, &s, x.log, full, pick, 2, 0);
        case_run(w, x.list, x.len, &s, x.log, full - 1, pick, 2, 1);
        s.m = 4096;
        case_step(w, x.list, x.len, &s, x.log, full, i, 10);
        case_step(w, x.list, x.len, &s, NULL, 0, i, 10);
        case_run(w, x.list, x.len, &s, NULL, 0, pick, 2, 1);
        s.m = 4097;
        case_step(w, x.list, x.len, &s, x.log, full, i, 10);
        case_run(w, x.list, x.len, &s, x.log, full, pick, 2, 1);
        case_step(w, x.list, x.len - 16, &s, x.log, full, i, 10);
        case_run(w, x.list, x.len - 16, &s, x.log, full, pick, 2, 1);
    }
    case_step(w, x.list, x.len, &x.state, x.log, full, 2, 0);

    /* undo 15 by a pick of an ended and of a waiting station, at each step;
     * the record withdrawn is not judged */
    go(&x, picks + 2, 2);
    full = log_length(&x, 0);
    for (size_t at = 6; at < full; at += 2) {
        for (uint8_t i = 0; i <= 1; i++) {
            memcpy(log, x.log, full);
            log[at] = i;
            case_undo(w, x.list, x.len, &x.state, log, full);
        }
    }

    /* 10 where every station has ended */
    stations(&p, 2);
    load(&x, &p);
    set_going(&x, 0, zeros);
    go(&x, both_picks, 2);
    full = log_length(&x, 1);
    for (uint8_t i = 0; i <= 3; i++) {
        case_step(w, x.list, x.len, &x.state, x.log, full, i, 0);
        memcpy(six, both_picks, 4);
        six[4] = i;
        six[5] = 0;
        case_run(w, x.list, x.len, &x.state, x.log, full, six + 4, 2, 1);
        case_trace(w, &p, zeros, 3, six, 6);
    }
    case_step(w, x.list, x.len, &x.state, x.log, full, 255, 0);
    case_undo(w, x.list, x.len, &x.state, x.log, full);

    /* each STOP of a list that someone else wrote */
    load_hand(&x, 0);
    set_going(&x, 1, zeros);
    for (uint16_t place = 8; place <= 9; place++) {
        x.state.pos[0] = place;
        case_step(w, x.list, x.len, &x.state, x.log, 4, 0, 0);
        case_run(w, x.list, x.len, &x.state, x.log, 4, zeros, 2, 1);
    }

    /* trace 16 and 11: behind steps, behind an undo, before 13 */
    for (uint8_t i = 0; i <= 1; i++) {
        static const uint8_t undone[10] = { 0, 0, 2, 0, 255, 0 };
        uint8_t ten[10];

        purge(&p);
        memcpy(six, picks, 6);
        six[4] = i;
        case_trace(w, &p, zeros, 4, six, 6);
        six[5] = 1;
        case_trace(w, &p, zeros, 4, six, 6);
        memcpy(ten, undone, 10);
        ten[6] = i;
        case_trace(w, &p, zeros, 4, ten, 10);
        case_trace(w, &p, zeros, 4, ten + 6, 4);
        dryer(&p);
        ten[2] = 1;
        case_trace(w, &p, zeros, 3, ten, 10);
        six[2] = i;
        case_trace(w, &p, zeros, 3, six, 4);
        case_trace(w, &p, zeros, 3, six, 6);
    }
}

/* ------------------------------------------------------------------ */
/* The lights of a waiting and of a ready AWAIT                       */
/* ------------------------------------------------------------------ */

/* Each op fails with this number on the left of 5, and holds with the other
 * of 4 and 5. */
static const uint32_t fails[4] = { 4, 5, 5, 4 };

/* Adds AWAIT v4 op 5, or v4 op v9. */
static void add_await(struct sequence *p, uint8_t op)
{
    add(p, IND_AWAIT, 0, 4, op, op < 4 ? 5 : 9);
}

/* Adds a body with branches that touches each variable from 10 to 20 once. */
static void add_body(struct sequence *p)
{
    add(p, IND_IF, 0, 10, 4, 11);
    add(p, IND_SET, 12, 13, 5, 14);
    add_bare(p, IND_ELSE);
    add(p, IND_IF, 0, 15, 2, 3);
    add(p, IND_SET, 16, 0, 0, 7);
    add_bare(p, IND_ELSE);
    add(p, IND_SET, 17, 18, 1, 0);
    add_bare(p, IND_FI);
    add_bare(p, IND_FI);
    add(p, IND_SET, 19, 20, 2, 1);
}

/* The lights with v9 = 5 and v4 such that the op fails, then such that it
 * holds. */
static void fails_and_holds(struct writer *w, const struct press *x,
                            uint8_t op)
{
    struct ind_state s = x->state;

    s.var[9] = 5;
    s.var[4] = fails[op % 4];
    case_lights(w, x->list, x->len, &s);
    s.var[4] = 9 - fails[op % 4];
    case_lights(w, x->list, x->len, &s);
}

/* Lights, and a step of the station with reset 0; then the step is taken. */
static void light_and_step(struct writer *w, struct press *x, uint8_t station)
{
    uint8_t pick[2] = { 0, 0 };

    pick[0] = station;
    case_lights(w, x->list, x->len, &x->state);
    case_step(w, x->list, x->len, &x->state, x->log, log_length(x, 1),
              station, 0);
    if (go(x, pick, 1) != 1)
        die("a step meant to be taken was refused");
}

/* Lights, and an undo; then the step is withdrawn. */
static void light_and_undo(struct writer *w, struct press *x)
{
    struct ind_state_answer u = ind_undo(x->list, x->len, x->state, x->log,
                                         sizeof x->log, x->kept,
                                         sizeof x->kept);

    case_lights(w, x->list, x->len, &x->state);
    case_undo(w, x->list, x->len, &x->state, x->log, log_length(x, 0));
    if (u.number != IND_FINE)
        die("an undo meant to be taken was refused");
    x->state = u.state;
}

/* Station 0 releases station 1, by each op: waiting, ready, ended, and back by
 * undos; the Dryer first. */
static void released(struct writer *w)
{
    static struct sequence p;
    static struct press x;
    static const uint8_t zeros[2];

    for (int i = -1; i < 8; i++) {
        uint8_t op = (uint8_t)(i < 0 ? 0 : i);

        if (i < 0) {
            dryer(&p);
        } else {
            p.len = 0;
            add(&p, IND_SET, 4, 0, 0, fails[op % 4]);
            add(&p, IND_SET, 9, 0, 0, 5);
            add_bare(&p, IND_STATION);
            add(&p, IND_SET, 4, 0, 0, 9 - fails[op % 4]);
            add_bare(&p, IND_STATION);
            add_await(&p, op);
            add_body(&p);
            add_bare(&p, IND_END);
        }
        load(&x, &p);
        set_going(&x, 0, zeros);
        light_and_step(w, &x, 0);
        light_and_step(w, &x, 1);
        light_and_undo(w, &x);
        light_and_undo(w, &x);
        case_lights(w, x.list, x.len, &x.state);
    }
}

/* One station at an AWAIT that waits and is ready by turns: what its condition
 * and its body can be. */
static void conditions_and_bodies(struct writer *w)
{
    static struct sequence p;
    static struct press x;
    static const uint8_t zeros[8];

    for (uint8_t op = 0; op < 8; op++) {
        /* a body that touches nothing */
        p.len = 0;
        add_bare(&p, IND_STATION);
        add_await(&p, op);
        add_bare(&p, IND_SKIP);
        add_bare(&p, IND_END);
        load(&x, &p);
        set_going(&x, 0, zeros);
        fails_and_holds(w, &x, op);

        /* one that writes the condition's variables, and reads them in a
         * branch not taken */
        p.len = 0;
        add_bare(&p, IND_STATION);
        add_await(&p, op);
        add(&p, IND_SET, 9, 4, 1, 0);
        add(&p, IND_IF, 0, 2, 0, 9);
        add(&p, IND_SET, 3, 9, 4, 4);
        add_bare(&p, IND_ELSE);
        add(&p, IND_SET, 4, 2, 2, 1);
        add_bare(&p, IND_FI);
        add_bare(&p, IND_END);
        load(&x, &p);
        set_going(&x, 0, zeros);
        fails_and_holds(w, &x, op);

        /* the same variable twice, variables 0 and 31; against a constant
         * that could be a variable's number, and two that could not */
        for (int i = 0; i < 3; i++) {
            static const uint8_t left[3] = { 4, 0, 31 };
            static const uint32_t right[3] = { 4, 31, 0 };
            static const uint32_t number[3] = { 31, 32, UINT32_MAX };

            p.len = 0;
            add_bare(&p, IND_STATION);
            add(&p, IND_AWAIT, 0, left[i], op, op < 4 ? number[i] : right[i]);
            add(&p, IND_SET, 7, 8, 4, 7);
            add_bare(&p, IND_END);
            load(&x, &p);
            set_going(&x, 0, zeros);
            case_lights(w, x.list, x.len, &x.state);
            x.state.var[left[i]] = op < 4 ? number[i] : 1;
            case_lights(w, x.list, x.len, &x.state);
        }

        /* IF by the op in the body; IF and WHILE in its place never wait */
        for (int i = 0; i < 3; i++) {
            p.len = 0;
            add_bare(&p, IND_STATION);
            if (i == 0)
                add_await(&p, 4);
            add(&p, i < 2 ? IND_IF : IND_WHILE, 0, 4, op, op < 4 ? 5 : 9);
            add(&p, IND_SET, 5, 6, 2, 1);
            if (i < 2) {
                add_bare(&p, IND_ELSE);
                add(&p, IND_SET, 7, 8, 3, 1);
            }
            add_bare(&p, i < 2 ? IND_FI : IND_OD);
            if (i == 0)
                add_bare(&p, IND_END);
            load(&x, &p);
            set_going(&x, 0, zeros);
            fails_and_holds(w, &x, i == 0 ? 4 : op);
        }
    }

    /* SET by each op in the body */
    for (uint8_t op = 0; op < 6; op++) {
        p.len = 0;
        add_bare(&p, IND_STATION);
        add_await(&p, 6);
        add(&p, IND_SET, 1, op == 0 ? 0 : 2, op, op == 1 ? 0 : 3);
        add_bare(&p, IND_END);
        load(&x, &p);
        set_going(&x, 0, zeros);
        fails_and_holds(w, &x, 6);
    }

    /* fifteen IFs in a body, by their first branches and by their second */
    for (int second = 0; second < 2; second++) {
        p.len = 0;
        add_bare(&p, IND_STATION);
        add_await(&p, 5);
        for (uint8_t i = 10; i < 25; i++) {
            add(&p, IND_IF, 0, i, 0, 0);
            if (second) {
                add_bare(&p, IND_SKIP);
                add_bare(&p, IND_ELSE);
            }
        }
        add(&p, IND_SET, 30, 31, 1, 0);
        for (int i = 10; i < 25; i++) {
            if (!second) {
                add_bare(&p, IND_ELSE);
                add_bare(&p, IND_SKIP);
            }
            add_bare(&p, IND_FI);
        }
        add_bare(&p, IND_END);
        load(&x, &p);
        set_going(&x, 0, zeros);
        fails_and_holds(w, &x, 5);
    }
}

/* Stations beside each other with the same body: one waits, one is ready, one
 * has ended. */
static void beside(struct writer *w)
{
    static struct sequence p;
    static struct press x;
    static const uint8_t zeros[8];
    struct ind_state s;

    /* two stations with one condition and its contrary */
    for (uint8_t op = 0; op < 8; op = (uint8_t)(op + 2)) {
        p.len = 0;
        for (uint8_t i = 0; i < 2; i++) {
            add_bare(&p, IND_STATION);
            add_await(&p, (uint8_t)(op + i));
            add_body(&p);
            add_bare(&p, IND_END);
        }
        load(&x, &p);
        set_going(&x, 0, zeros);
        fails_and_holds(w, &x, op);
    }

    /* one to eight stations, the last one waits and then is ready; the first
     * is ready too, then has ended */
    for (int n = 1; n <= 8; n++) {
        stations(&p, n - 1);
        add_bare(&p, IND_STATION);
        add_await(&p, 7);
        add(&p, IND_SET, 1, 2, 4, 3);
        add_bare(&p, IND_END);
        load(&x, &p);
        set_going(&x, 0, zeros);
        fails_and_holds(w, &x, 7);
        if (n > 1) {
            x.state.pos[0]++;
            fails_and_holds(w, &x, 7);
        }
    }

    /* eight stations: all wait, each alone waits, each alone is ready, none
     * waits, by turns; some have ended; whose turn it is */
    p.len = 0;
    for (uint8_t i = 0; i < 8; i++) {
        add_bare(&p, IND_STATION);
        add(&p, IND_AWAIT, 0, i, 4, 31);
        add(&p, IND_SET, 30, (uint8_t)(16 + i), 4, 29);
        add_bare(&p, IND_END);
    }
    load(&x, &p);
    set_going(&x, 3, zeros);
    x.state.var[31] = 1;
    for (int i = 0; i < 20; i++) {
        static const uint8_t mask[4] = { 0, 255, 0x55, 0xAA };
        unsigned ready = i < 8 ? 1u << i : 255u - (1u << i % 8);

        if (i >= 16)
            ready = mask[i - 16];
        for (int j = 0; j < 8; j++)
            x.state.var[j] = ready >> j & 1;
        case_lights(w, x.list, x.len, &x.state);
    }
    s = x.state;
    s.pos[0] += 2;
    s.pos[5] += 2;
    case_lights(w, x.list, x.len, &s);
    for (int i = 0; i < 8; i++)
        s.pri[i] = (int16_t)(3 - i);
    case_lights(w, x.list, x.len, &s);
    for (int i = 0; i < 8; i++)
        s.pri[i] = (int16_t)(i - 4);
    case_lights(w, x.list, x.len, &s);
    s.m = 4096;
    case_lights(w, x.list, x.len, &s);
}

/* One station, no STOP: an AWAIT that leads back to itself, another whose body
 * ends in the first one's, and a record inside that nobody reaches. */
static const uint8_t waiting_list[] = {
    16, 0, 0, 0, 0, 0, 0, 0, 0, 0, 1, 0, 0, 0, 0, 0,
    9, 0, 4, 5, 9, 0, 0, 0, 0, 0, 2, 0, 1, 0, 0, 0,
    4, 0, 3, 1, 0, 0, 0, 0, 0, 1, 3, 0, 6, 0, 0, 0,
    3, 4, 5, 3, 1, 0, 0, 0, 0, 1, 0, 0, 0, 0, 0, 0,
    9, 0, 4, 2, 5, 0, 0, 0, 0, 0, 5, 0, 1, 0, 0, 0,
    3, 8, 9, 4, 10, 0, 0, 0, 0, 1, 6, 0, 0, 0, 0, 0,
    3, 11, 12, 2, 1, 0, 0, 0, 0, 1, 0, 0, 0, 0, 0, 0,
    3, 13, 14, 2, 1, 0, 0, 0, 0, 1, 0, 0, 0, 0, 0, 0
};

/* Lists that someone else wrote, and refusals where a station waits. */
static void foreign_waiting(struct writer *w)
{
    static struct press x;
    static struct sequence p;
    static const uint8_t zeros[8];
    struct ind_state s;

    load_list(&x, waiting_list, sizeof waiting_list, 1);
    set_going(&x, 0, zeros);
    fails_and_holds(w, &x, 5);
    x.state.var[4] = 1;                   /* v4 differs from v9 */
    light_and_step(w, &x, 0);
    light_and_undo(w, &x);                /* to a start: v4 is 0 */
    case_lights(w, x.list, x.len, &x.state);
    x.state.pos[0] = 4;
    fails_and_holds(w, &x, 2);

    /* the first hand-made list's AWAITs: each holds, then fails */
    load_hand(&x, 0);
    set_going(&x, 1, zeros);
    s = x.state;
    for (uint16_t place = 1; place <= 3; place = (uint16_t)(place + 2)) {
        for (uint32_t i = 0; i < 2; i++) {
            s.pos[0] = place;
            s.var[0] = i;
            s.var[3] = 8 + i;
            case_lights(w, x.list, x.len, &s);
        }
    }

    /* 7 and 8 where station 1 waits */
    dryer(&p);
    load(&x, &p);
    set_going(&x, 0, zeros);
    case_lights(w, x.list, x.len - 8, &x.state);
    case_lights(w, x.list, x.len - 16, &x.state);
    x.list[IND_ITEM * 4 + 10] = 6;        /* the AWAIT's t1 */
    case_lights(w, x.list, x.len, &x.state);
    x.list[IND_ITEM * 4 + 10] = 5;
    x.list[IND_ITEM * 5 + 1] = 32;        /* the body's variable */
    case_lights(w, x.list, x.len, &x.state);
    x.list[IND_ITEM * 5 + 1] = 0;
    for (int i = 0; i < 7; i++) {
        static const struct change unsound[7] = {
            { CHANGE_N, 0, 1 }, { CHANGE_M, 0, 4097 },
            { CHANGE_POS, 1, 5 },         /* inside */
            { CHANGE_POS, 0, 4 },         /* the other's AWAIT */
            { CHANGE_PRI, 1, 1 }, { CHANGE_PRI, 1, -2 }, { CHANGE_PRI, 2, 1 }
        };

        s = changed(x.state, unsound[i]);
        case_lights(w, x.list, x.len, &s);
    }
}

/* ------------------------------------------------------------------ */
/* Kept states                                                        */
/* ------------------------------------------------------------------ */

/* n stations that never end: the initial part gives `vars` variables numbers
 * whose four bytes are all other than zero, station 1 waits for station 0 by
 * turns. */
static void wheels(struct sequence *p, uint8_t n, uint8_t vars)
{
    p->len = 0;
    for (uint8_t v = 0; v < vars; v++)
        add(p, IND_SET, (uint8_t)(31 - v), 0, 0,
            0x11213141 + 0x03050709 * (uint32_t)v);
    if (vars > 1)
        add(p, IND_SET, 30, 0, 0, 0);
    for (uint8_t i = 0; i < n; i++) {
        add_bare(p, IND_STATION);
        add(p, IND_WHILE, 0, 31, 4, 31);
        add(p, IND_SET, i, i, 2, 0x01030507 + 2u * i);
        if (i == 0)
            add(p, IND_SET, 30, 30, 2, 1);
        if (i == 1) {
            add(p, IND_AWAIT, 0, 30, 3, 1);
            add(p, IND_SET, 30, 30, 3, 1);
            add_bare(p, IND_END);
        }
        add(p, IND_SET, (uint8_t)(8 + i), (uint8_t)(8 + i), 5, i);
        add_bare(p, IND_OD);
    }
}

/* A list of n stations, each a SKIP that leads to itself: all are always
 * ready, and no variable is touched. */
static void skips(struct press *x, size_t n)
{
    uint8_t fields[IND_RECORD] = { 0 };

    for (size_t j = 0; j < n; j++) {
        fields[0] = IND_INIT;
        fields[1] = (uint8_t)j;
        put_item(x->list + IND_ITEM * j, fields, j, 0, n + j, 0);
        fields[0] = IND_SKIP;
        fields[1] = 0;
        put_item(x->list + IND_ITEM * (n + j), fields, j, 0, n + j, 0);
    }
    x->len = 2 * IND_ITEM * n;
    x->n = n;
}

/* One of two ways to go on: the first station in turn or the last, with a
 * reset that goes with m. */
static void way_pick(const struct press *x, int way, uint8_t pick[2])
{
    uint8_t in_turn = ind_lights(x->list, x->len, x->state).in_turn;
    unsigned reset = way == 0 ? 5u * x->state.m : 3u * x->state.m + 1;
    uint8_t i = way == 0 ? 0 : IND_STATIONS - 1;

    if (in_turn == 0)
        die("nobody is in turn");
    while ((in_turn >> i & 1) == 0)
        i = (uint8_t)(way == 0 ? i + 1 : i - 1);
    pick[0] = i;
    pick[1] = (uint8_t)(reset % (x->state.b + 1u));
}

/* Takes steps of the way until m stand; puts the picks where `picks` points,
 * unless that is null. */
static void go_to(struct press *x, int way, size_t m, uint8_t *picks)
{
    while (x->state.m < m) {
        uint8_t pick[2];

        way_pick(x, way, pick);
        if (picks != NULL) {
            memcpy(picks, pick, 2);
            picks += 2;
        }
        if (go(x, pick, 1) != 1)
            die("a step meant to be taken was refused");
    }
}

/* Resets for a start that rise up to B. */
static void some_resets(uint8_t b, uint8_t resets[IND_STATIONS])
{
    for (unsigned i = 0; i < IND_STATIONS; i++)
        resets[i] = (uint8_t)((i + 1) * b / IND_STATIONS);
}

/* Resets that a B of 2 allows. */
static const uint8_t low_resets[IND_STATIONS] = { 0, 2, 1, 0, 2 };

/* Junk with the press's kept place that the undo from m steps uses and the two
 * beside it, as the run left them. */
static void lend_about(struct lent *k, const struct writer *w,
                       const struct press *x, size_t m)
{
    size_t q = place_used(m);

    lend_junk(k, w);
    for (size_t j = q > 0 ? q - 1 : 0; j <= q + 1; j++)
        patch_place(k, x, j);
}

/* A long run by one RUN over junk, and undos from selected steps of it, down to
 * the start. */
static void deep_undo(struct writer *w, uint8_t n, uint8_t b, uint8_t vars,
                      size_t most)
{
    static const uint16_t from[] = { 4096, 4095, 1000, 129, 128, 127, 66, 65,
                                     64, 63, 2, 1 };
    static struct sequence p;
    static struct press x;
    static struct lent kept;
    static uint8_t picks[2 * IND_MAX_STEPS];
    uint8_t resets[IND_STATIONS];

    wheels(&p, n, vars);
    load(&x, &p);
    some_resets(b, resets);
    lend_junk(&kept, w);
    set_going(&x, b, resets);
    case_start_kept(w, x.list, x.len, b, resets, n, x.log, 2u * n, &kept);
    {
        static uint8_t marks[sizeof x.log];
        struct ind_state first = x.state;
        size_t full = 2 * ((size_t)n + most);

        memset(marks, 0xEE, sizeof marks);
        memcpy(marks, x.log, 2u * n);
        go_to(&x, 0, most, picks);
        lend_junk(&kept, w);
        case_run_kept(w, x.list, x.len, &first, marks, full, &kept, picks,
                      2 * most, UINT64_MAX);
    }
    for (size_t i = 0; i < sizeof from / sizeof from[0]; i++) {
        if (from[i] > most)
            continue;
        back_to(&x, from[i]);
        lend_about(&kept, w, &x, x.state.m);
        if (case_undo_kept(w, x.list, x.len, &x.state, x.log,
                           log_length(&x, 0), &kept) != IND_FINE)
            die("an undo meant to be taken was refused");
    }
    back_to(&x, 0);
    lend_about(&kept, w, &x, 0);
    case_undo_kept(w, x.list, x.len, &x.state, x.log, log_length(&x, 0), &kept);
}

/* 4,096 steps with one station and with eight; 130 with the others. */
static void deep_undos(struct writer *w)
{
    deep_undo(w, 1, 255, 32, 4096);
    deep_undo(w, 8, 2, 4, 4096);
    deep_undo(w, 2, 9, 4, 130);
    deep_undo(w, 3, 5, 12, 130);
    deep_undo(w, 4, 0, 0, 130);
    deep_undo(w, 5, 1, 3, 130);
    deep_undo(w, 6, 254, 0, 130);
    deep_undo(w, 7, 4, 5, 130);
}

/* Undone past a multiple, taken another way, undone again: the RUN and the STEP
 * that reach the multiple anew find the old state in its place, and the undos
 * behind them the new one. */
static void another_way(struct writer *w)
{
    static const struct {
        uint8_t n, b;
        uint16_t multiple, past, back;
    } ways[] = {
        { 2, 3, 64, 70, 60 }, { 3, 5, 128, 131, 127 }, { 5, 1, 64, 64, 63 },
        { 8, 4, 192, 200, 120 }
    };
    static struct sequence p;
    static struct press x, y;
    static struct lent kept;
    static uint8_t picks[2 * IND_MAX_STEPS];

    for (size_t i = 0; i < sizeof ways / sizeof ways[0]; i++) {
        size_t m = ways[i].multiple, j = m / IND_KEPT_EVERY;
        uint8_t resets[IND_STATIONS], pick[2];

        wheels(&p, ways[i].n, 0);
        load(&x, &p);
        some_resets(ways[i].b, resets);
        set_going(&x, ways[i].b, resets);
        go_to(&x, 0, ways[i].past, NULL);
        back_to(&x, ways[i].back);

        /* by RUN, over the old state and beyond */
        y = x;
        go_to(&y, 1, ways[i].past, picks);
        if (memcmp(x.kept + place_at(j), y.kept + place_at(j),
                   IND_KEPT_PLACE) == 0)
            die("another way that leads to the same state");
        lend_junk(&kept, w);
        for (size_t k = 1; k <= j; k++)
            patch_place(&kept, &x, k);
        case_run_kept(w, x.list, x.len, &x.state, x.log, log_length(&y, 0),
                      &kept, picks, 2 * (size_t)(y.state.m - x.state.m), 999);
        /* by STEP */
        go_to(&x, 1, m - 1, NULL);
        way_pick(&x, 1, pick);
        lend_junk(&kept, w);
        patch_place(&kept, &x, j);
        case_step_kept(w, x.list, x.len, &x.state, x.log, log_length(&x, 1),
                       &kept, pick[0], pick[1]);
        /* undone again, as the run left the buffer; with the old state it is
         * another answer */
        for (size_t from = m + 2 < y.state.m ? m + 2 : y.state.m; from >= m;
             from--) {
            back_to(&y, from);
            lend_about(&kept, w, &y, from);
            case_undo_kept(w, y.list, y.len, &y.state, y.log,
                           log_length(&y, 0), &kept);
            lend_about(&kept, w, &x, from);
            patch_place(&kept, &x, j);
            case_undo_kept(w, y.list, y.len, &y.state, y.log,
                           log_length(&y, 0), &kept);
        }
    }

    /* a start anew behind a run: the old states stay, and are not used */
    wheels(&p, 3, 0);
    load(&x, &p);
    set_going(&x, 3, low_resets);
    go_to(&x, 0, 140, NULL);
    y = x;
    set_going(&x, 2, low_resets);
    memcpy(x.kept, y.kept, sizeof x.kept);
    lend_junk(&kept, w);
    patch(&kept, 0, x.kept, 3 * IND_KEPT_PLACE);
    case_start_kept(w, x.list, x.len, 2, low_resets, 3, y.log, 6, &kept);
    {
        struct ind_state first = x.state;

        go_to(&x, 1, 66, picks);
        case_run_kept(w, x.list, x.len, &first, y.log, log_length(&x, 0),
                      &kept, picks, 132, 66);
    }
    for (size_t from = 66; from >= 63; from--) {
        back_to(&x, from);
        lend_junk(&kept, w);
        patch(&kept, 0, x.kept, 2 * IND_KEPT_PLACE);
        case_undo_kept(w, x.list, x.len, &x.state, x.log, log_length(&x, 0),
                       &kept);
    }
}

/* Junk in the buffer: a START leaves it, a RUN across 64 and 128 writes two
 * places of it.  Fills of all sorts, zeros among them. */
static void over_junk(struct writer *w)
{
    static const uint8_t fill[] = { 0, 1, 7, 128, 255 };
    static struct sequence p;
    static struct press x;
    static struct lent kept;
    static uint8_t picks[2 * 130];

    for (size_t i = 0; i < sizeof fill; i++) {
        struct ind_state first;

        wheels(&p, (uint8_t)(1 + i), 2);
        load(&x, &p);
        set_going(&x, 4, low_resets);
        first = x.state;
        lend(&kept, IND_KEPT_BYTES, fill[i]);
        case_start_kept(w, x.list, x.len, 4, low_resets, x.n, x.log,
                        log_length(&x, 0), &kept);
        go_to(&x, (int)(i % 2), 130, picks);
        case_run_kept(w, x.list, x.len, &first, x.log, log_length(&x, 0),
                      &kept, picks, sizeof picks, 130);
        /* from a sound kept state that is no run's, one place of many */
        x.state.m = 64;
        patch_state(&kept, 1, &x.state);
        case_run_kept(w, x.list, x.len, &first, x.log, log_length(&x, 66),
                      &kept, picks, sizeof picks, 63 + i);
    }
}

/* Steps and runs about each multiple: at 62 to 65, 126 to 128, 191, 4,094 and
 * 4,095; then the picks that a step refuses there. */
static void reach(struct writer *w)
{
    static const uint16_t at[] = { 62, 63, 64, 65, 126, 127, 128, 191, 4094,
                                   4095 };
    static struct press x;
    static struct lent kept;
    static const uint8_t resets[8] = { 2, 0, 1 };

    skips(&x, 3);
    set_going(&x, 6, resets);
    for (size_t i = 0; i < sizeof at / sizeof at[0]; i++) {
        uint8_t picks[10];
        static struct press y;
        size_t ahead = at[i] > 4000 ? IND_MAX_STEPS - at[i] : 5;
        size_t last = at[i] + (ahead < 5 ? ahead : 5);

        go_to(&x, (int)(i % 2), at[i], NULL);
        for (int v = 0; v < IND_VARS; v++)
            x.state.var[v] = 0x21436587 + 0x01010101 * (uint32_t)(v + (int)i);
        y = x;
        go_to(&y, 1, last, picks);
        lend_junk(&kept, w);
        case_step_kept(w, x.list, x.len, &x.state, x.log, log_length(&x, 1),
                       &kept, picks[0], picks[1]);
        for (size_t most = 1; most <= last - at[i]; most++) {
            if (at[i] > 4000 && most != 2)
                continue;
            lend_junk(&kept, w);
            case_run_kept(w, x.list, x.len, &x.state, x.log,
                          log_length(&x, most), &kept, picks,
                          2 * (last - at[i]), most);
        }
    }

    /* a step refused at 0, 63, 64 and 127 writes nothing: 6 by the log, 10, 12,
     * 13; nor does a run whose first pick is refused */
    for (int i = 0; i < 4; i++) {
        static const uint16_t refused_at[4] = { 0, 63, 64, 127 };
        uint8_t pick[2], high[2];
        size_t full;

        set_going(&x, 6, resets);
        x.state.pri[1] = -2;
        x.state.m = refused_at[i];
        full = log_length(&x, 1);
        way_pick(&x, 0, pick);
        lend_junk(&kept, w);
        case_step_kept(w, x.list, x.len, &x.state, x.log, full - 1, &kept,
                       pick[0], pick[1]);
        case_step_kept(w, x.list, x.len, &x.state, x.log, full, &kept, 3, 0);
        case_step_kept(w, x.list, x.len, &x.state, x.log, full, &kept, 255, 0);
        case_step_kept(w, x.list, x.len, &x.state, x.log, full, &kept, 2, 0);
        case_step_kept(w, x.list, x.len, &x.state, x.log, full, &kept,
                       pick[0], 7);
        high[0] = pick[0];
        high[1] = 7;
        case_run_kept(w, x.list, x.len, &x.state, x.log, full, &kept, high, 2,
                      9);
    }

    /* a run refused behind the step that reaches 64: that one is kept; and one
     * refused at it */
    for (uint16_t m = 62; m <= 64; m++) {
        static const uint8_t picks[8] = { 1, 0, 1, 6, 1, 7, 0, 0 };

        set_going(&x, 6, resets);
        x.state.m = m;
        x.state.pri[1] = -2;
        lend_junk(&kept, w);
        case_run_kept(w, x.list, x.len, &x.state, x.log, 2 * (3 + 70), &kept,
                      picks, 8, 9);
        case_run_kept(w, x.list, x.len, &x.state, x.log, log_length(&x, 1),
                      &kept, picks, 8, 9);
    }

    /* 16 and 11 at 63: the Dryer */
    {
        static struct sequence p;

        dryer(&p);
        load(&x, &p);
        set_going(&x, 1, resets + 3);
        x.state.m = 63;
        lend_junk(&kept, w);
        case_step_kept(w, x.list, x.len, &x.state, x.log, 132, &kept, 1, 0);
        case_step_kept(w, x.list, x.len, &x.state, x.log, 132, &kept, 0, 1);
        x.state.pos[0]++;
        x.state.var[0] = 1;
        case_step_kept(w, x.list, x.len, &x.state, x.log, 132, &kept, 0, 0);
        case_step_kept(w, x.list, x.len, &x.state, x.log, 132, &kept, 1, 1);
    }
}

/* A sound state with m = 64q for a press of skips: variables with no byte of
 * zero, priorities below zero and above. */
static struct ind_state some_kept(const struct press *x, size_t q, uint8_t b)
{
    struct ind_state s = { 0 };

    for (unsigned v = 0; v < IND_VARS; v++)
        s.var[v] = 0xF1E2D3C4 - 0x07050301 * v;
    for (size_t i = 0; i < x->n; i++) {
        s.pos[i] = (uint16_t)(x->n + i);
        s.pri[i] = (int16_t)(i % 3 == 1 ? b : -(int)(i / 2));
    }
    s.n = (uint8_t)x->n;
    s.b = b;
    s.m = (uint16_t)(IND_KEPT_EVERY * q);
    return s;
}

/* A press of skips at `past` steps behind the kept state: its log has marks up
 * to the record that is replayed first, so that nothing before can have been
 * replayed. */
static void stand_past(struct press *x, const struct ind_state *there,
                       size_t past)
{
    memset(x->log, 0xEE, sizeof x->log);
    x->state = *there;
    go_to(x, 1, there->m + past, NULL);
}

/* A byte of the kept place that is used changed: with three stations one byte
 * of each variable and every other byte of the place, up and down; with one and
 * with eight the bytes of the positions and the priorities. */
static void damaged_place(struct writer *w)
{
    static const struct {
        uint8_t n, b, past;
    } damaged[] = { { 3, 5, 1 }, { 1, 255, 2 }, { 8, 9, 1 } };
    static struct press x;
    static struct lent kept;

    for (size_t i = 0; i < sizeof damaged / sizeof damaged[0]; i++) {
        int whole = damaged[i].n == 3;
        struct ind_state there;
        uint8_t bytes[IND_KEPT_PLACE];

        skips(&x, damaged[i].n);
        there = some_kept(&x, 1, damaged[i].b);
        pack_kept(&there, bytes);
        stand_past(&x, &there, damaged[i].past);
        for (size_t at = 0; at < IND_KEPT_PLACE; at++) {
            int times = at < 128 ? at % 4 == at / 4 % 4 : 2;

            if (!whole)
                times = at >= 128 && at < 160;
            for (int j = 0; j < times; j++) {
                lend_junk(&kept, w);
                patch_state(&kept, 1, &there);
                patch_byte(&kept, 1, at,
                           (uint8_t)(j == 0 ? bytes[at] + 1 : bytes[at] - 1));
                case_undo_kept(w, x.list, x.len, &x.state, x.log,
                               log_length(&x, 0), &kept);
            }
        }
    }
}

/* The parts of a kept place in turn, each damaged in the two places beside the
 * one that is used: 0 as before; some in the one that is used too. */
static void damaged_beside(struct writer *w)
{
    static const struct {
        uint8_t at, value;
    } part[] = {
        { 0, 1 }, { 63, 1 }, { 127, 255 }, { 128, 255 }, { 129, 1 },
        { 133, 255 }, { 134, 1 }, { 143, 1 }, { 145, 255 }, { 148, 100 },
        { 150, 1 }, { 159, 127 }, { 160, 1 }, { 175, 255 }, { 176, 0 },
        { 177, 6 }, { 178, 1 }, { 179, 1 }, { 180, 1 }, { 181, 1 }, { 183, 255 }
    };
    static struct press x;
    static struct lent kept;
    struct ind_state there, beside_it;

    skips(&x, 3);
    there = some_kept(&x, 2, 5);
    stand_past(&x, &there, 3);
    beside_it = there;
    for (size_t i = 0; i < sizeof part / sizeof part[0]; i++) {
        for (int used = 0; used < (i % 3 == 0 ? 2 : 1); used++) {
            lend_junk(&kept, w);
            for (size_t j = 1; j <= 3; j++) {
                beside_it.m = (uint16_t)(64 * j);
                patch_state(&kept, j, &beside_it);
                if ((j == 2) == used)
                    patch_byte(&kept, j, part[i].at, part[i].value);
            }
            case_undo_kept(w, x.list, x.len, &x.state, x.log,
                           log_length(&x, 0), &kept);
        }
    }
}

/* Kept states that are sound by themselves but not right here: m, B and n of
 * another, the next place's, one of another list; B of the state given. */
static void wrong_kept(struct writer *w)
{
    static const uint16_t m[] = { 0, 64, 319, 321, 256, 384, 576, 832, 4096 };
    static struct press x;
    static struct lent kept;
    struct ind_state there, other;

    skips(&x, 4);
    there = some_kept(&x, 5, 3);
    stand_past(&x, &there, 1);
    for (size_t i = 0; i < sizeof m / sizeof m[0]; i++) {
        other = there;
        other.m = m[i];
        lend_junk(&kept, w);
        patch_state(&kept, 4, &there);           /* the right one beside it */
        patch_state(&kept, 5, &other);
        patch_state(&kept, 6, &there);
        case_undo_kept(w, x.list, x.len, &x.state, x.log, log_length(&x, 0),
                       &kept);
    }
    for (int i = 0; i < 12; i++) {
        struct ind_state given = x.state;

        other = there;
        switch (i) {
        case 0:                                  /* B above and below */
            other.b = 4;
            break;
        case 1:
            other.b = 2;
            other.pri[1] = 2;
            break;
        case 2:                                  /* the given one's */
            given.b = 4;
            break;
        case 3:                                  /* both: followed */
            given.b = 4;
            other.b = 4;
            break;
        case 4:
            given.b = 255;
            other.b = 255;
            other.pri[1] = 255;
            break;
        case 5:                                  /* n */
            other.n = 3;
            other.pos[3] = 0;
            other.pri[3] = 0;
            break;
        case 6:
            other.n = 5;
            break;
        case 7:                                  /* one above B */
            other.pri[0] = 4;
            break;
        case 8:                                  /* the rule on priorities */
            for (int j = 0; j < 4; j++)
                other.pri[j] = (int16_t)-j;
            break;
        case 9:
            for (int j = 0; j < 4; j++)
                other.pri[j] = (int16_t)-(j + (j == 2));
            other.pri[3] = -3;
            break;
        case 10:                                 /* another's record */
            other.pos[1] = 4;
            break;
        default:                                 /* an INIT */
            other.pos[2] = 2;
            break;
        }
        lend_junk(&kept, w);
        patch_state(&kept, 5, &other);
        case_undo_kept(w, x.list, x.len, &given, x.log, log_length(&x, 0),
                       &kept);
    }
    /* what else the state given holds does not matter */
    other = x.state;
    for (int v = 0; v < IND_VARS; v++)
        other.var[v] = ~other.var[v];
    other.pri[0] = 3;
    other.pri[2] = -1;
    clear_counts(&other);
    lend_junk(&kept, w);
    patch_state(&kept, 5, &there);
    case_undo_kept(w, x.list, x.len, &other, x.log, log_length(&x, 0), &kept);
    other.m = 320;                               /* place 4: junk */
    case_undo_kept(w, x.list, x.len, &other, x.log, log_length(&x, 0), &kept);
    other.m = 385;                               /* place 6: junk */
    case_undo_kept(w, x.list, x.len, &other, x.log, 2 * (4 + 385), &kept);
}

/* Positions of two bytes: one station, a chain of SKIPs, the step to the last
 * of them kept, and the undo of one more. */
static void far_positions(struct writer *w)
{
    enum { LAST = 299 };
    static const uint8_t init[IND_RECORD] = { IND_INIT };
    static const uint8_t skip[IND_RECORD] = { IND_SKIP };
    static const uint8_t zeros[1];
    static struct press x;
    static struct lent kept;

    put_item(x.list, init, 0, 0, 1, 0);
    for (size_t i = 1; i <= LAST; i++)
        put_item(x.list + IND_ITEM * i, skip, 0, 0, i < LAST ? i + 1 : LAST, 0);
    x.len = IND_ITEM * (LAST + 1);
    x.n = 1;
    set_going(&x, 0, zeros);
    x.state.pos[0] = LAST - 1;
    x.state.m = 63;
    lend_junk(&kept, w);
    case_step_kept(w, x.list, x.len, &x.state, x.log, log_length(&x, 1), &kept,
                   0, 0);
    go_to(&x, 0, 65, NULL);
    lend_about(&kept, w, &x, 65);
    case_undo_kept(w, x.list, x.len, &x.state, x.log, log_length(&x, 0), &kept);
}

/* A kept state that is sound, with the right m and B, but not the run's: it is
 * followed, and what the log says before it is not asked. */
static void followed(struct writer *w)
{
    static struct sequence p;
    static struct press x, y;
    static struct lent kept;

    for (uint8_t n = 1; n <= 8; n++) {
        uint8_t resets[IND_STATIONS];
        struct ind_state s;

        /* another run's, with the records of the one run and of the other */
        wheels(&p, n, 0);
        load(&x, &p);
        some_resets(3, resets);
        set_going(&x, 3, resets);
        y = x;
        go_to(&x, 0, 68, NULL);
        go_to(&y, 1, 68, NULL);
        lend_junk(&kept, w);
        patch_place(&kept, &y, 1);
        for (uint16_t m = 65; m <= 68; m = (uint16_t)(m + 3)) {
            s = x.state;
            s.m = m;
            case_undo_kept(w, x.list, x.len, &s, x.log, 2 * ((size_t)n + m),
                           &kept);
            case_undo_kept(w, x.list, x.len, &s, y.log, 2 * ((size_t)n + m),
                           &kept);
        }
        /* none that any run reaches */
        s = y.state;
        for (unsigned v = 0; v < IND_VARS; v++)
            s.var[v] = 0x98765432 + 0x11131517 * (v + n);
        for (int i = 0; i < n; i++)
            s.pri[i] = (int16_t)(i == n / 2 ? 3 : -(i / 2));
        clear_counts(&s);
        s.m = 64;
        lend_junk(&kept, w);
        patch_state(&kept, 1, &s);
        for (uint16_t m = 65; m <= 66; m++) {
            s.m = m;
            case_undo_kept(w, x.list, x.len, &s, y.log, 2 * ((size_t)n + m),
                           &kept);
        }
    }
}

/* A log damaged before record n+64q: no refusal.  From there to record n+m-2:
 * 15.  Behind that: none.  Start records count where q is 0 alone. */
static void damaged_log(struct writer *w)
{
    static const uint16_t from[] = { 1, 64, 65, 67, 128, 130 };
    static struct press x;
    static struct lent kept;
    static const uint8_t resets[8] = { 1, 3, 0 };

    skips(&x, 3);
    set_going(&x, 3, resets);
    go_to(&x, 0, 140, NULL);
    for (size_t i = 0; i < sizeof from / sizeof from[0]; i++) {
        size_t m = from[i], q = place_used(m);
        size_t places[16], many = 0;
        struct ind_state s = x.state;

        s.m = (uint16_t)m;
        places[many++] = 0;                      /* start records */
        places[many++] = 2;
        places[many++] = 3;                      /* the first step's */
        if (m > 2)
            places[many++] = 3 + m / 3;
        if (q > 0) {
            places[many++] = 3 + 64 * q - 1;
            places[many++] = 3 + 64 * q;
        }
        if (m > 2)
            places[many++] = 3 + m - 2;          /* the last one replayed */
        places[many++] = 3 + m - 1;              /* the one withdrawn */
        for (size_t j = 0; j < many; j++) {
            uint8_t *r = x.log + 2 * places[j];
            uint8_t was[2];

            if (j > 0 && places[j] <= places[j - 1])
                continue;
            memcpy(was, r, 2);
            for (int k = 0; k < 2; k++) {
                if (k == 0)                      /* another station, or none */
                    r[0] = (uint8_t)(j % 2 == 0 ? 255 : (was[0] + 1) % 3);
                else                             /* above B */
                    r[1] = 4;
                lend_junk(&kept, w);
                patch_place(&kept, &x, q);
                case_undo_kept(w, x.list, x.len, &s, x.log, 2 * (3 + m),
                               &kept);
                memcpy(r, was, 2);
            }
        }
    }
}

/* 6 by the kept buffer and where it comes in each call's order; a longer
 * buffer. */
static void kept_room(struct writer *w)
{
    static const size_t lengths[] = { 0, 1, 184, 11592, 11775, 11776, 11777,
                                      12000, 65535 };
    static struct press x;
    static struct sequence p;
    static struct lent kept, less;
    static const uint8_t zeros[8];
    static const uint8_t resets[8] = { 2, 0 };
    static const uint8_t above[8] = { 0, 5 };
    static const uint8_t picks[] = { 1, 1, 0, 4, 1, 0, 0, 0 };
    struct ind_state s, full;
    uint8_t pick[2];

    skips(&x, 2);
    /* every length in every call; run with a step and without one */
    for (size_t i = 0; i < sizeof lengths / sizeof lengths[0]; i++) {
        set_going(&x, 4, resets);
        lend(&kept, lengths[i], (uint8_t)(3 + i));
        case_start_kept(w, x.list, x.len, 4, resets, 2, x.log, 5, &kept);
        case_start_kept(w, x.list, x.len, 4, resets, 2, x.log, 4, &kept);
        case_step_kept(w, x.list, x.len, &x.state, x.log, 6, &kept, 1, 1);
        case_run_kept(w, x.list, x.len, &x.state, x.log, 12, &kept, picks, 8,
                      9);
        case_run_kept(w, x.list, x.len, &x.state, x.log, 12, &kept, picks, 8,
                      0);
        case_run_kept(w, x.list, x.len, &x.state, x.log, 12, &kept, NULL, 0,
                      9);
        go_to(&x, 0, 2, NULL);
        case_undo_kept(w, x.list, x.len, &x.state, x.log, 8, &kept);
        s = some_kept(&x, 1, 4);
        stand_past(&x, &s, 2);
        patch_state(&kept, 1, &s);
        case_undo_kept(w, x.list, x.len, &x.state, x.log, log_length(&x, 0),
                       &kept);
        s.m = 63;
        x.state = s;
        way_pick(&x, 0, pick);
        case_step_kept(w, x.list, x.len, &s, x.log, log_length(&x, 1), &kept,
                       pick[0], pick[1]);
        s.m = 4095;
        x.state = s;
        if (lengths[i] == 11777)
            case_step_kept(w, x.list, x.len, &s, x.log, log_length(&x, 1),
                           &kept, pick[0], pick[1]);
    }

    /* start: 7, 13, then 6 */
    lend(&less, IND_KEPT_BYTES - 1, 9);
    case_start_kept(w, x.list, x.len - 16, 4, resets, 2, x.log, 4, &less);
    case_start_kept(w, x.list, x.len - 16, 4, above, 1, x.log, 3, &less);
    case_start_kept(w, x.list, x.len, 4, above, 2, x.log, 4, &less);
    case_start_kept(w, x.list, x.len, 4, resets, 1, x.log, 3, &less);
    case_start_kept(w, x.list, x.len, 4, resets, 2, x.log, 3, &less);
    lend(&kept, IND_KEPT_BYTES, 9);
    case_start_kept(w, x.list, x.len, 4, resets, 2, x.log, 3, &kept);
    lend(&kept, 0, 0);
    case_start_kept(w, x.list, x.len, 4, resets, 2, NULL, 0, &kept);

    /* step: 7, 8, 9, 6 by the log, 6 by the kept buffer; then 10, 12, 13; run
     * the same, and 1 before all */
    set_going(&x, 4, resets);
    full = x.state;
    full.m = 4096;
    s = x.state;
    s.n = 1;
    case_step_kept(w, x.list, x.len - 1, &s, x.log, 6, &less, 1, 1);
    case_step_kept(w, x.list, x.len, &s, x.log, 6, &less, 1, 1);
    case_step_kept(w, x.list, x.len, &full, x.log, 6, &less, 1, 1);
    case_step_kept(w, x.list, x.len, &full, x.log, 6, &less, 9, 9);
    case_step_kept(w, x.list, x.len, &x.state, x.log, 5, &less, 1, 1);
    case_step_kept(w, x.list, x.len, &x.state, NULL, 0, &kept, 1, 1);
    case_step_kept(w, x.list, x.len, &x.state, x.log, 6, &less, 2, 1);
    case_step_kept(w, x.list, x.len, &x.state, x.log, 6, &less, 0, 1);
    case_step_kept(w, x.list, x.len, &x.state, x.log, 6, &less, 1, 5);
    for (uint64_t most = 0; most <= 1; most++) {
        static const uint8_t station_2[2] = { 2, 0 };

        case_run_kept(w, x.list, x.len, &x.state, x.log, 6, &less, picks, 1,
                      most);
        case_run_kept(w, x.list, x.len - 1, &s, x.log, 6, &less, picks, 2,
                      most);
        case_run_kept(w, x.list, x.len, &s, x.log, 6, &less, picks, 2, most);
        case_run_kept(w, x.list, x.len, &full, x.log, 6, &less, picks, 2,
                      most);
        case_run_kept(w, x.list, x.len, &x.state, x.log, 5, &less, picks, 2,
                      most);
        case_run_kept(w, x.list, x.len, &x.state, x.log, 6, &less, station_2,
                      2, most);
        case_run_kept(w, x.list, x.len, &full, NULL, 0, &kept, NULL, 0, most);
    }

    /* 16 and 11 behind 6: the Dryer */
    dryer(&p);
    load(&x, &p);
    set_going(&x, 0, zeros);
    case_step_kept(w, x.list, x.len, &x.state, x.log, 6, &less, 1, 0);
    case_step_kept(w, x.list, x.len, &x.state, x.log, 6, &less, 0, 0);
    x.state.pos[0]++;
    case_step_kept(w, x.list, x.len, &x.state, x.log, 6, &less, 0, 0);

    /* undo: 7, 8, 14, 6, 8 by the kept state, 15 */
    skips(&x, 2);
    for (uint16_t m = 0; m <= 66; m = (uint16_t)(m == 2 ? 64 : m + 1)) {
        size_t len;

        set_going(&x, 4, resets);
        go_to(&x, 0, m, NULL);
        len = log_length(&x, 0);
        for (int bad = 0; bad < 2; bad++) {
            uint8_t was = x.log[len - 4];

            lend(&kept, IND_KEPT_BYTES, 9);
            lend(&less, IND_KEPT_BYTES - 1, 9);
            if (m > 64) {
                patch_place(&kept, &x, 1);
                patch_place(&less, &x, 1);
            }
            if (bad) {
                patch_byte(&kept, 1, 181, 1);
                patch_byte(&less, 1, 181, 1);
            }
            for (size_t cut = 0; cut < 2 && cut <= len; cut++) {
                case_undo_kept(w, x.list, x.len, &x.state, x.log, len - cut,
                               &kept);
                case_undo_kept(w, x.list, x.len, &x.state, x.log, len - cut,
                               &less);
            }
            x.log[0] ^= 1;                       /* a start record */
            case_undo_kept(w, x.list, x.len, &x.state, x.log, len, &kept);
            x.log[0] ^= 1;
            x.log[len - 4] = 9;                  /* the last one replayed */
            case_undo_kept(w, x.list, x.len, &x.state, x.log, len, &kept);
            x.log[len - 4] = was;
        }
        s = x.state;
        s.n = 1;
        case_undo_kept(w, x.list, x.len, &s, x.log, len, &less);
        case_undo_kept(w, x.list, x.len - 16, &s, x.log, len, &less);
        case_undo_kept(w, x.list, x.len - 16, &s, NULL, 0, &kept);
    }
}

/* The trace over multiples of 64 and back: there, back, another way, back. */
static void kept_traces(struct writer *w)
{
    static const struct {
        uint8_t n, b;
        uint16_t there, back, again, to;
    } trips[] = {
        { 1, 0, 66, 62, 66, 63 }, { 2, 3, 70, 60, 75, 0 },
        { 3, 5, 130, 63, 130, 50 }, { 5, 1, 200, 120, 200, 180 },
        { 8, 9, 129, 127, 129, 126 }, { 4, 0, 1000, 700, 1100, 600 }
    };
    static struct sequence p;
    static struct press x;
    static uint8_t picks[8192];

    for (size_t i = 0; i < sizeof trips / sizeof trips[0]; i++) {
        uint8_t start[1 + IND_STATIONS];
        size_t count = 0;

        wheels(&p, trips[i].n, 3);
        load(&x, &p);
        start[0] = trips[i].b;
        some_resets(trips[i].b, start + 1);
        set_going(&x, trips[i].b, start + 1);
        for (int way = 0; way < 2; way++) {
            size_t to = way == 0 ? trips[i].there : trips[i].again;
            size_t back = way == 0 ? trips[i].back : trips[i].to;

            go_to(&x, way, to, picks + 2 * count);
            count += to - (way == 0 ? 0 : trips[i].back);
            for (; to > back; to--, count++) {
                picks[2 * count] = 255;
                picks[2 * count + 1] = 0;
            }
            back_to(&x, back);
        }
        case_trace(w, &p, start, x.n + 1, picks, 2 * count);
    }
}

/* ------------------------------------------------------------------ */
/* Why a station was not picked                                       */
/* ------------------------------------------------------------------ */

/* Gives each variable a number of its own. */
static void mark_variables(struct ind_state *s)
{
    for (uint32_t v = 0; v < IND_VARS; v++)
        s->var[v] = 0xA1B2C300 + v;
}

/* Each reason in runs of the bench cases, there and back. */
static void reasons(struct writer *w)
{
    static struct sequence p;
    static struct press x;
    static const uint8_t loop_resets[] = { 0, 1 };
    static const uint8_t loop_picks[] = { 0, 0, 0, 0, 1, 1, 0, 0 };
    struct ind_state s;

    ask_dryer(w, WHY, &x);
    back_to(&x, 0);
    each_station(w, WHY, &x, &x.state);

    /* P10: station 1 is behind, then tied, then ahead, then behind again; and
     * back */
    two_loops(&p);
    load(&x, &p);
    set_going(&x, 1, loop_resets);
    for (size_t i = 0; i < 8; i++) {
        case_why(w, x.list, x.len, &x.state, 0);
        case_why(w, x.list, x.len, &x.state, 1);
        if (i < 4)
            go(&x, loop_picks + 2 * i, 1);
        else
            back_to(&x, 7 - i);
    }

    /* all four with m = 4,096, where no step is left, and with one less; 8
     * with one more */
    purge_going(&x);
    s = x.state;
    for (uint16_t m = 4095; m <= 4097; m++) {
        s.m = m;
        for (uint8_t station = 0; station <= 3; station++)
            case_why(w, x.list, x.len, &s, station);
        s.var[0] = 1;                             /* station 1 is behind 2 */
        case_why(w, x.list, x.len, &s, 1);
        s.var[0] = 0;
    }
    /* whoever waits or has ended is not ahead, however low; nor is it behind,
     * however high */
    for (uint8_t station = 0; station < 2; station++) {
        for (int i = 0; i < 2; i++) {
            s = x.state;
            s.pri[2] = 1;
            s.pri[station] = (int16_t)(i == 0 ? -2 : 3);
            case_why(w, x.list, x.len, &s, station);
            case_why(w, x.list, x.len, &s, 2);
        }
    }
}

/* 7, 8 and 10 and which of them comes first. */
static void why_refused(struct writer *w)
{
    static struct sequence p;
    static struct press x;
    static const uint8_t zeros[8];
    static const struct change unsound[9] = {
        { CHANGE_N, 0, 1 }, { CHANGE_N, 0, 3 }, { CHANGE_M, 0, 4097 },
        { CHANGE_POS, 1, 5 },                     /* inside */
        { CHANGE_POS, 0, 4 },                     /* the other's AWAIT */
        { CHANGE_PRI, 0, 1 }, { CHANGE_PRI, 1, -2 }, { CHANGE_POS, 2, 3 },
        { CHANGE_PRI, 7, -1 }
    };
    struct ind_state s;

    /* 7, before 8 and 10: no list, half a record, a record cut off, a STOP
     * with a target, an AWAIT of a variable that there is not */
    dryer(&p);
    load(&x, &p);
    set_going(&x, 0, zeros);
    s = x.state;
    s.n = 1;
    case_why(w, NULL, 0, &x.state, 0);
    case_why(w, NULL, 0, &s, 255);
    case_why(w, x.list, x.len - 8, &x.state, 1);
    for (uint8_t station = 0; station <= 2; station++) {
        case_why(w, x.list, x.len - 16, &x.state, station);
        case_why(w, x.list, x.len - 16, &s, station);
    }
    case_why(w, x.list, x.len - 16, &s, 255);
    for (int i = 0; i < 4; i++) {                 /* and what is 8 of itself */
        static const uint8_t n[4] = { 0, 9, 255, 2 };

        s = x.state;
        s.n = n[i];
        s.m = i < 3 ? 0 : 4097;
        case_why(w, x.list, x.len - 16, &s, 1);
        case_why(w, x.list, x.len, &s, 1);
    }
    x.list[IND_ITEM * 3 + 10] = 3;
    case_why(w, x.list, x.len, &x.state, 1);
    x.list[IND_ITEM * 3 + 10] = 0;
    x.list[IND_ITEM * 4 + 2] = 32;
    case_why(w, x.list, x.len, &x.state, 1);
    x.list[IND_ITEM * 4 + 2] = 0;

    /* 8, before 10: n, m, the other station's position, the station's own, a
     * priority, entries from n on */
    ask_changed(w, WHY, &x, unsound, 9, 0);
    s = changed(x.state, unsound[8]);
    case_why(w, x.list, x.len, &s, 255);

    /* 10 for n from 1 to 8: the last station is there, and one more is not,
     * the others ready or ended */
    for (size_t n = 1; n <= 8; n++) {
        skips(&x, n);
        set_going(&x, 1, zeros);
        x.state.pri[n - 1] = 1;
        case_why(w, x.list, x.len, &x.state, (uint8_t)(n - 1));
        case_why(w, x.list, x.len, &x.state, (uint8_t)n);
        for (size_t j = 0; j < n; j++) {
            x.list[IND_ITEM * (n + j)] = IND_STOP;
            x.list[IND_ITEM * (n + j) + 10] = 0;
        }
        case_why(w, x.list, x.len, &x.state, (uint8_t)(n - 1));
        case_why(w, x.list, x.len, &x.state, (uint8_t)n);
    }
    case_why(w, x.list, x.len, &x.state, 9);
    case_why(w, x.list, x.len, &x.state, 16);
    case_why(w, x.list, x.len, &x.state, 128);
}

/* Numbers with which "b equals, differs from, is below, is at least" fails. */
static const uint32_t failing[4][4][2] = {
    { { 4, 5 }, { 0, UINT32_MAX }, { UINT32_MAX, 0 }, { 6, 5 } },
    { { 5, 5 }, { 0, 0 }, { UINT32_MAX, UINT32_MAX }, { 9, 9 } },
    { { 6, 5 }, { 0, 0 }, { UINT32_MAX, 0 }, { 0x80000000, 0x7FFFFFFF } },
    { { 4, 5 }, { 0, UINT32_MAX }, { 0, 1 }, { 0x01020304, 0x04030201 } }
};

/* A station at AWAIT b op k or, of ops 0 to 3, b op the number; why of it. */
static void ask_await(struct writer *w, uint8_t op, uint8_t b, uint8_t k,
                      uint32_t left, uint32_t right)
{
    static struct sequence p;
    static struct press x;
    static const uint8_t zeros[8];

    p.len = 0;
    add_bare(&p, IND_STATION);
    add(&p, IND_AWAIT, 0, b, op, op < 4 ? right : k);
    add(&p, IND_SET, b, k, 1, 0);
    add_bare(&p, IND_END);
    load(&x, &p);
    set_going(&x, 0, zeros);
    mark_variables(&x.state);
    if (op >= 4)
        x.state.var[k] = right;
    x.state.var[b] = left;
    case_why(w, x.list, x.len, &x.state, 0);
}

/* What a waiting station is answered with: each op, each variable, each
 * value. */
static void named(struct writer *w)
{
    static const uint8_t two[9][2] = {
        { 2, 31 }, { 31, 2 }, { 0, 1 }, { 1, 0 }, { 15, 16 }, { 30, 29 },
        { 0, 0 }, { 7, 7 }, { 31, 31 }
    };
    static struct sequence p;
    static struct press x;
    static const uint8_t zeros[8];
    struct ind_state s;

    /* of every two variables some; where they are the same one, ops 5 and 6
     * fail, and 4 and 7 hold */
    for (uint8_t op = 4; op < 8; op++) {
        for (int i = 0; i < 9; i++) {
            const uint32_t *pair = failing[op % 4][i % 4];

            ask_await(w, op, two[i][0], two[i][1], pair[0],
                      i < 6 ? pair[1] : pair[0]);
        }
    }
    /* each op's numbers; and where it holds nothing is named */
    for (uint8_t op = 0; op < 8; op++) {
        static const uint32_t right[4][2] = {
            { 5, 5 }, { 4, 5 }, { 4, 5 }, { 5, 4 }
        };

        for (int i = 0; i < 4; i++)
            ask_await(w, op, 3, 9, failing[op % 4][i][0],
                      failing[op % 4][i][1]);
        ask_await(w, op, 3, 9, right[op % 4][0], right[op % 4][1]);
    }
    /* one variable; the number is one of the variables' or is not */
    for (uint8_t op = 0; op < 4; op++) {
        static const uint32_t number[5] = { 0, 1, 8, 31, 32 };

        for (int i = 0; i < 5; i++)
            ask_await(w, op, two[i][0], 9,
                      op == 0 ? number[i] + 1 : op == 3 ? number[i] - (i > 0)
                      : number[i], number[i]);
    }

    /* three stations at AWAITs, each with a condition of its own: the first
     * at its second record, the next at the second of its two AWAITs, the last
     * with the variables of both */
    p.len = 0;
    add_bare(&p, IND_STATION);
    add_bare(&p, IND_SKIP);
    add(&p, IND_AWAIT, 0, 4, 5, 4);
    add(&p, IND_SET, 4, 4, 2, 1);
    add_bare(&p, IND_END);
    add_bare(&p, IND_STATION);
    add_block(&p, IND_AWAIT, 6, 0, 6);
    add_block(&p, IND_AWAIT, 5, 2, 4);
    add_bare(&p, IND_STATION);
    add_block(&p, IND_AWAIT, 5, 4, 4);
    load(&x, &p);
    set_going(&x, 0, zeros);
    mark_variables(&x.state);
    each_station(w, WHY, &x, &x.state);
    s = x.state;
    s.pos[0] += 1;
    s.pos[1] += 2;
    each_station(w, WHY, &x, &s);
    s.pos[0] += 2;                                /* ended */
    s.var[5] = s.var[4];                          /* station 2 may be picked */
    each_station(w, WHY, &x, &s);

    /* IF and WHILE never wait and name nothing: here they fail, and the
     * station is tied, then behind */
    for (int i = 0; i < 4; i++) {
        p.len = 0;
        add_bare(&p, IND_STATION);
        add_bare(&p, IND_SKIP);
        add_bare(&p, IND_STATION);
        add_block(&p, i % 2 == 0 ? IND_IF : IND_WHILE, 3, i < 2 ? 4 : 0, 9);
        load(&x, &p);
        set_going(&x, 1, zeros);
        mark_variables(&x.state);
        case_why(w, x.list, x.len, &x.state, 1);
        x.state.pri[1] = 1;
        case_why(w, x.list, x.len, &x.state, 1);
    }
}

/* n stations, each at an AWAIT of its own variable, which holds with 0, going
 * with B. */
static void awaits(struct press *x, size_t n, uint8_t b)
{
    static struct sequence p;
    static const uint8_t zeros[8];

    p.len = 0;
    for (size_t j = 0; j < n; j++) {
        add_bare(&p, IND_STATION);
        add_block(&p, IND_AWAIT, (uint8_t)(8 + j), 0, 0);
    }
    load(x, &p);
    set_going(x, b, zeros);
}

/* Who is ahead: ties, priorities below 0, up to 255, and stations that wait or
 * have ended among the lowest. */
static void behind(struct writer *w)
{
    static const int16_t some[6][3] = {
        { 0, 0, 0 }, { 1, 0, 0 }, { 0, 1, 2 }, { 2, 1, 0 }, { 0, -1, -2 },
        { -1, -1, 0 }
    };
    static struct press x;
    static const uint8_t zeros[8];
    struct ind_state s;

    /* three stations, each ready, waiting or ended */
    awaits(&x, 3, 2);
    for (unsigned i = 0; i < 27; i++) {
        for (unsigned j = 0; j < 6; j++) {
            uint8_t station = (uint8_t)((i + j) % 3);
            unsigned rest = i;

            s = x.state;
            for (uint8_t k = 0; k < 3; k++, rest /= 3) {
                if (rest % 3 == 1)
                    s.var[8 + k] = 70u + k;
                if (rest % 3 == 2)
                    s.pos[k] += 2;
                s.pri[k] = some[j][k];
            }
            /* the last that is behind, or else any */
            for (uint8_t k = 0; k < 3; k++)
                if (ind_why(x.list, x.len, s, k).number == IND_TURN)
                    station = k;
            if (j == 0 || ind_lights(x.list, x.len, s).ready != 0)
                case_why(w, x.list, x.len, &s, station);
        }
    }

    /* eight stations, all ready: each two of them tied and the others behind;
     * each alone; all at the top */
    skips(&x, 8);
    set_going(&x, 255, zeros);
    for (uint8_t i = 0; i < 8; i++) {
        uint8_t other = (uint8_t)((i * 5 + 3) % 8);

        s = x.state;
        for (int j = 0; j < 8; j++)
            s.pri[j] = 255;
        case_why(w, x.list, x.len, &s, i);
        s.pri[i] = 254;
        case_why(w, x.list, x.len, &s, (uint8_t)((i + 1) % 8));
        s.pri[other] = 254;
        case_why(w, x.list, x.len, &s, (uint8_t)((i + 1) % 8));
        case_why(w, x.list, x.len, &s, other);
        /* as low as can be, up and down: the last and the first are ahead */
        for (int j = 0; j < 8; j++)
            s.pri[j] = (int16_t)(i % 2 == 0 ? -j : j - 7);
        case_why(w, x.list, x.len, &s, i);
        /* around 0, with a tie; from 0 to 252 */
        for (int j = 0; j < 8; j++)
            s.pri[j] = (int16_t)((i + j) % 4 - 1);
        case_why(w, x.list, x.len, &s, i);
        case_why(w, x.list, x.len, &s, (uint8_t)((i + 2) % 8));
        for (int j = 0; j < 8; j++)
            s.pri[j] = (int16_t)(36 * ((i + j) % 8));
        case_why(w, x.list, x.len, &s, (uint8_t)(i * 3 % 8));
    }

    /* eight stations of the same and of rising priority, of which some wait
     * and some have ended */
    awaits(&x, 8, 1);
    for (uint8_t i = 0; i < 8; i++) {
        s = x.state;
        for (uint8_t j = 0; j < 8; j++) {
            if (j < i && j % 2 == 0)
                s.var[8 + j] = UINT32_MAX - j;
            else if (j < i)
                s.pos[j] += 2;
            s.pri[j] = -1;
        }
        s.pri[7] = 0;
        case_why(w, x.list, x.len, &s, 7);        /* behind i, if not alone */
        for (uint8_t j = 0; j < 8; j++)
            s.pri[j] = (int16_t)(j - 7);
        case_why(w, x.list, x.len, &s, 7);
        case_why(w, x.list, x.len, &s, i);
        case_why(w, x.list, x.len, &s, (uint8_t)(i / 2));
    }
}

/* Lists that someone else wrote, the station at each place; 8 where it cannot
 * stand. */
static void foreign_why(struct writer *w)
{
    static struct press x;
    static const uint8_t zeros[8];
    struct ind_state s;

    load_list(&x, three_list, sizeof three_list, 3);
    set_going(&x, 1, zeros);
    for (uint8_t station = 0; station < 3; station++) {
        for (uint16_t place = 0; place <= x.len / IND_ITEM; place++) {
            s = x.state;
            s.var[4] = 8 - place % 2u;
            s.var[9] = 8;
            s.pri[station] = (int16_t)(station + place % 3 - 2);
            s.pos[station] = place;
            case_why(w, x.list, x.len, &s, station);
        }
    }

    for (size_t i = 0; i < HANDS; i++) {
        load_hand(&x, i);
        set_going(&x, 1, zeros);
        for (size_t station = 0; station < x.n; station++) {
            for (uint16_t place = 0; place < x.len / IND_ITEM; place++) {
                s = x.state;
                s.var[0] = 1;
                s.var[3] = 9;
                s.pri[station] = 1;
                s.pos[station] = place;
                if (ind_lights(x.list, x.len, s).number == IND_FINE)
                    case_why(w, x.list, x.len, &s, (uint8_t)station);
            }
        }
    }

    load_list(&x, waiting_list, sizeof waiting_list, 1);
    set_going(&x, 0, zeros);
    mark_variables(&x.state);
    for (uint16_t place = 1; place <= 4; place = (uint16_t)(place + 3)) {
        x.state.pos[0] = place;
        case_why(w, x.list, x.len, &x.state, 0);
        x.state.var[4] = x.state.var[9];
        case_why(w, x.list, x.len, &x.state, 0);
    }

    /* place 1,030, which is the highest */
    late_await(&x);
    set_going(&x, 0, zeros);
    case_why(w, x.list, x.len, &x.state, 0);
}

/* ------------------------------------------------------------------ */
/* How often each station was passed over                             */
/* ------------------------------------------------------------------ */

/* The flickers with B = 6, station 0 nearly always in turn. */
static void flickers_going(struct press *x, struct sequence *p)
{
    static const uint8_t resets[IND_STATIONS] = { 0, 2, 0, 3, 6 };

    flickers(p);
    load(x, p);
    set_going(x, 6, resets);
}

/* The pick of the last station in turn, with a reset of 0 for station 0 and of
 * B for the others. */
static void patient_pick(const struct press *x, uint8_t pick[2])
{
    way_pick(x, 1, pick);
    pick[1] = pick[0] == 0 ? 0 : x->state.b;
}

/* A step and, once it is taken, the undo of it. */
static void step_and_undo(struct writer *w, struct press *x,
                          const uint8_t pick[2])
{
    case_step(w, x->list, x->len, &x->state, x->log, log_length(x, 1),
              pick[0], pick[1]);
    if (go(x, pick, 1) != 1)
        die("a step meant to be taken was refused");
    run_undo(w, x, &x->state, x->log, log_length(x, 0));
}

/* Each reason of being counted or not, and undos of each: picked, passed over,
 * waiting, ended, released by this very step, made to wait by it. */
static void counted(struct writer *w)
{
    static struct sequence p;
    static struct press x;
    static const uint8_t zeros[8];
    static uint8_t picks[2 * 40];
    uint8_t pick[2], start[6] = { 6, 0, 2, 0, 3, 6 };
    struct ind_state first;
    size_t count = 0;

    flickers_going(&x, &p);
    first = x.state;
    case_start(w, x.list, x.len, 6, start + 1, 5, x.log, 10);
    for (; count < 26; count++) {
        patient_pick(&x, pick);
        memcpy(picks + 2 * count, pick, 2);
        step_and_undo(w, &x, pick);
    }
    /* all of them by RUN, some of them, and one refused behind some */
    for (uint64_t most = 1; most <= 26; most += 5)
        case_run(w, x.list, x.len, &first, x.log, 2 * (5 + 26), picks, 52,
                 most);
    for (size_t i = 3; i <= 23; i += 10) {
        uint8_t was[2];

        memcpy(was, picks + 2 * i, 2);
        picks[2 * i] = 3;                         /* it waits */
        case_run(w, x.list, x.len, &first, x.log, 2 * (5 + 26), picks, 52,
                 99);
        memcpy(picks + 2 * i, was, 2);
    }
    /* the trace there, and back again */
    for (size_t i = 0; i < 8; i++) {
        picks[2 * (count + i)] = 255;
        picks[2 * (count + i) + 1] = 0;
    }
    case_trace(w, &p, start, 6, picks, 2 * count);
    case_trace(w, &p, start, 6, picks, 2 * (count + 8));

    /* the lights, readiness and why are those of any other counts */
    case_lights(w, x.list, x.len, &x.state);
    each_station(w, READINESS, &x, &x.state);
    each_station(w, WHY, &x, &x.state);

    /* counts as no call left them: whoever waits or has ended keeps his, the
     * others get one more, the picked one's becomes 0; undo gives back what
     * the log says */
    for (int i = 0; i < 4; i++) {
        static const uint8_t more[4][5] = {
            { 1, 1, 1, 1, 1 }, { 7, 0, 0, 0, 0 }, { 0, 0, 9, 6, 0 },
            { 5, 4, 3, 2, 1 }
        };
        struct press y = x;

        for (int j = 0; j < 5; j++) {
            y.state.pri[j] = (int16_t)-((i + j) % 5);
            y.state.cnt[j] = more[i][j];
            y.state.var[0] = (uint32_t)(i % 2);
        }
        for (uint8_t station = 0; station < 5; station++)
            case_step(w, y.list, y.len, &y.state, y.log, log_length(&y, 1),
                      station, (uint8_t)(station + i));
        run_undo(w, &y, &y.state, y.log, log_length(&y, 0));
        case_lights(w, y.list, y.len, &y.state);
    }

    /* one station is never passed over; of two the other one is */
    for (size_t n = 1; n <= 2; n++) {
        skips(&x, n);
        set_going(&x, 2, zeros);
        for (int i = 0; i < 3; i++) {
            patient_pick(&x, pick);
            step_and_undo(w, &x, pick);
        }
    }
}

/* The longest waits: counts of 255, 256, 257 and 262, as picks reach them, kept
 * and taken back; and the traces of others. */
static void long_waits(struct writer *w)
{
    static struct sequence p;
    static struct press x;
    static struct lent kept;
    static uint8_t picks[2 * 270];
    uint8_t start[9];
    size_t count = longest_wait(8, 255, start, picks);
    struct ind_state first;

    skips(&x, 8);
    set_going(&x, 255, start + 1);
    first = x.state;
    lend_junk(&kept, w);
    for (uint64_t most = 255; most <= count; most++)
        if (most <= 257 || most >= 262)
            case_run_kept(w, x.list, x.len, &first, x.log, 2 * (8 + count),
                          &kept, picks, 2 * count, most);
    go(&x, picks, 253);
    for (size_t i = 253; i < count; i++)
        step_and_undo(w, &x, picks + 2 * i);
    back_to(&x, 262);
    if (x.state.cnt[7] != 262)
        die("not the longest wait");
    for (uint8_t station = 6; station <= 8; station++) {
        case_readiness(w, x.list, x.len, &x.state, station);
        case_why(w, x.list, x.len, &x.state, station);
    }
    /* back to where the counts are 255 */
    for (; x.state.m > 254; back_to(&x, x.state.m - 1u))
        case_lights(w, x.list, x.len, &x.state);

    loops(&p, 8);
    for (size_t i = 0; i < 8; i++) {
        picks[2 * (count + i - 1)] = 255;
        picks[2 * (count + i - 1) + 1] = 0;
    }
    case_trace(w, &p, start, 9, picks, 2 * (count - 1));
    case_trace(w, &p, start, 9, picks, 2 * (count + 7));
    for (size_t n = 1; n <= 7; n++) {
        static const uint8_t b[8] = { 0, 9, 1, 12, 0, 98, 4, 255 };

        loops(&p, n);
        count = longest_wait(n, b[n], start, picks);
        case_trace(w, &p, start, n + 1, picks, 2 * count);
        picks[2 * count] = 255;
        picks[2 * count + 1] = 0;
        case_trace(w, &p, start, n + 1, picks, 2 * count + 2);
    }
}

/* "each station's priority plus its count is at most B, and counts from n on
 * are zero": at B and one above, with priorities below 0 and counts above B;
 * counts of two bytes.  lights 0 and 8. */
static void sums(struct writer *w)
{
    static const uint16_t large[] = { 255, 256, 257, 262, 263, 32767, 32768,
                                      65528, 65535 };
    static struct press x;
    static const uint8_t zeros[8];
    struct ind_state s;

    for (size_t n = 1; n <= 8; n++) {
        int low = 1 - (int)n;

        skips(&x, n);
        for (unsigned k = 0; k < 3; k++) {
            static const uint8_t b[3] = { 0, 3, 255 };
            int pri[3] = { b[k], 0, low };

            set_going(&x, b[k], zeros);
            for (unsigned j = 0; j < 3; j++) {
                size_t i = (n + 3 * k + j) % n;

                if (j > 0 && pri[j] == pri[j - 1])
                    continue;
                s = x.state;
                s.pri[i] = (int16_t)pri[j];
                for (int over = 0; over <= 1; over++) {
                    s.cnt[i] = (uint16_t)(b[k] - pri[j] + over);
                    case_lights(w, x.list, x.len, &s);
                }
            }
            /* all at B, each of another priority; then one above */
            s = x.state;
            for (size_t i = 0; i < n; i++) {
                s.pri[i] = (int16_t)(low + (int)i);
                s.cnt[i] = (uint16_t)(b[k] - s.pri[i]);
            }
            if (n == 1)                           /* as before */
                continue;
            case_lights(w, x.list, x.len, &s);
            s.cnt[k % n]++;
            case_lights(w, x.list, x.len, &s);
        }
        /* from n on: each byte of it; all but one are 0 */
        for (size_t i = n; i < IND_STATIONS; i += 1 + n % 2) {
            s = x.state;
            s.cnt[i] = (uint16_t)(i % 3 == 0 ? 1 : i % 3 == 1 ? 256 : 65535);
            case_lights(w, x.list, x.len, &s);
        }
    }

    /* large counts: 0 where a priority is so low and B so high, else 8 */
    for (size_t n = 3; n <= 8; n += 5) {
        skips(&x, n);
        for (int k = 0; k < 2; k++) {
            set_going(&x, k == 0 ? 255 : 5, zeros);
            for (size_t i = 0; i < sizeof large / sizeof large[0]; i++) {
                const int pri[4] = { 1 - (int)n, -1, 0, x.state.b };

                for (size_t j = 0; j < 4; j++) {
                    if ((k == 1 || n == 3) && j % 2 == i % 2)
                        continue;
                    s = x.state;
                    s.pri[(i + j) % n] = (int16_t)pri[j];
                    s.cnt[(i + j) % n] = large[i];
                    case_lights(w, x.list, x.len, &s);
                }
            }
            /* beside priorities that are too low or too high anyhow */
            if (n == 8)
                continue;
            s = x.state;
            s.pri[1] = INT16_MIN;
            s.cnt[1] = 32768;
            case_lights(w, x.list, x.len, &s);
            s.cnt[1] = 65535;
            case_lights(w, x.list, x.len, &s);
            s.cnt[1] = 0;
            s.pri[1] = INT16_MAX;
            case_lights(w, x.list, x.len, &s);
            s.cnt[1] = 65535;                     /* 32,766 in 16 bits */
            case_lights(w, x.list, x.len, &s);
        }
    }
}

/* A state that is unsound by its counts alone, in every call: 8, where it comes
 * in the order of each. */
static void unsound_counts(struct writer *w)
{
    static const struct change unsound[6] = {
        { CHANGE_CNT, 2, 5 }, { CHANGE_CNT, 0, 1 }, { CHANGE_CNT, 1, 4 },
        { CHANGE_CNT, 2, 65535 }, { CHANGE_CNT, 3, 1 }, { CHANGE_CNT, 7, 256 }
    };
    static const struct change sound[3] = {
        { CHANGE_CNT, 2, 4 }, { CHANGE_CNT, 1, 3 }, { CHANGE_CNT, 2, 0 }
    };
    static struct press x;
    static struct lent less;
    static const uint8_t picks[] = { 2, 0, 2, 0, 2 };
    struct ind_state s;
    size_t full;

    /* station 0 has ended with its priority at B, station 1 waits, station 2
     * was passed over */
    purge_going(&x);
    x.state.pri[0] = 3;
    full = log_length(&x, 2);
    ask_changed(w, READINESS, &x, unsound, 6, 0);
    ask_changed(w, WHY, &x, unsound, 6, 0);
    ask_changed(w, READINESS, &x, sound, 3, 0);
    ask_changed(w, WHY, &x, sound, 3, 0);
    lend(&less, IND_KEPT_BYTES - 1, 1);
    for (int i = 0; i < 6 + 3; i++) {
        s = changed(x.state, i < 6 ? unsound[i] : sound[i - 6]);
        case_lights(w, x.list, x.len, &s);
        case_step(w, x.list, x.len, &s, x.log, full, 2, 1);
        case_run(w, x.list, x.len, &s, x.log, full, picks, 4, 9);
        case_run(w, x.list, x.len, &s, x.log, full, picks, 4, 0);
        case_undo(w, x.list, x.len, &s, x.log, full);
        if (i % 3 != 0)
            continue;
        case_lights(w, x.list, x.len - 16, &s);       /* 7 before it */
        case_step(w, x.list, x.len - 16, &s, x.log, full, 2, 1);
        case_undo(w, x.list, x.len - 16, &s, x.log, full);
        case_run(w, x.list, x.len - 16, &s, x.log, full, picks, 4, 1);
        case_run(w, x.list, x.len, &s, x.log, full, picks, 5, 1);
        case_step(w, x.list, x.len, &s, x.log, 3, 9, 9);
        case_step_kept(w, x.list, x.len, &s, x.log, full, &less, 9, 9);
        case_undo_kept(w, x.list, x.len, &s, x.log, full, &less);
        s.m = 4096;                                   /* 9 behind it */
        case_step(w, x.list, x.len, &s, x.log, full, 2, 1);
        s.m = 0;                                      /* 14 behind it */
        case_undo(w, x.list, x.len, &s, x.log, full);
    }
}

/* A refused step leaves the counts, and so does a run that begins with one: 6,
 * 10, 16, 11, 12 and 13 behind steps that counted. */
static void refused_counts(struct writer *w)
{
    static const uint8_t refused[7][2] = {
        { 5, 0 }, { 255, 0 }, { 2, 0 }, { 3, 0 }, { 1, 0 }, { 4, 1 }, { 0, 7 }
    };
    static struct sequence p;
    static struct press x;
    uint8_t picks[4], pick[2];

    flickers_going(&x, &p);
    for (int i = 0; i < 7; i++) {
        patient_pick(&x, pick);
        go(&x, pick, 1);
    }
    for (int i = 0; i < 7; i++) {
        case_step(w, x.list, x.len, &x.state, x.log, log_length(&x, 2),
                  refused[i][0], refused[i][1]);
        patient_pick(&x, picks);
        memcpy(picks + 2, refused[i], 2);
        case_run(w, x.list, x.len, &x.state, x.log, log_length(&x, 2),
                 picks + 2, 2, 9);
        case_run(w, x.list, x.len, &x.state, x.log, log_length(&x, 2), picks,
                 4, 9);
    }
    case_step(w, x.list, x.len, &x.state, x.log, log_length(&x, 0), 0, 0);
    case_undo(w, x.list, x.len, &x.state, x.log, log_length(&x, 0) - 1);
    x.state.m = 4096;
    case_step(w, x.list, x.len, &x.state, x.log, log_length(&x, 0), 0, 0);
}

/* Kept places with counts: written, used, and used where their counts are
 * others, sound and not. */
static void kept_counts(struct writer *w)
{
    static const uint16_t counts[] = { 1, 9, 254, 255, 256, 261 };
    static struct press x;
    static struct sequence p;
    static struct lent kept;
    static uint8_t picks[2 * 64];
    struct ind_state there;
    uint8_t pick[2];

    /* steps to 64 and 4,096 with counts of one byte and of two, and undos from
     * the places that they write */
    skips(&x, 8);
    for (size_t i = 0; i < sizeof counts / sizeof counts[0]; i++) {
        there = some_kept(&x, 1, 255);
        for (int j = 0; j < 8; j++) {
            there.pri[j] = (int16_t)-j;
            there.cnt[j] = (uint16_t)(counts[i] < 255 + j ? counts[i]
                                                          : 255 + j);
        }
        there.cnt[i] = 0;
        for (int k = 0; k < 2; k++) {
            there.m = k == 0 ? 63 : 4095;
            x.state = there;
            way_pick(&x, 0, pick);
            lend_junk(&kept, w);
            if (k == 0 || i == 4)
                case_step_kept(w, x.list, x.len, &x.state, x.log,
                               log_length(&x, 1), &kept, pick[0], pick[1]);
        }
        there.m = 64;
        stand_past(&x, &there, 1 + i % 2);
        lend_junk(&kept, w);
        patch_state(&kept, 1, &there);
        case_undo_kept(w, x.list, x.len, &x.state, x.log, log_length(&x, 0),
                       &kept);
    }

    /* a run across 64 and 128 where stations flicker, and undos from it */
    flickers_going(&x, &p);
    for (uint16_t m = 64; m <= 128; m = (uint16_t)(m + 64)) {
        struct ind_state before;

        for (size_t i = 0; x.state.m < m + 2; i++) {
            if (x.state.m == m - 3)
                before = x.state;
            patient_pick(&x, pick);
            if (x.state.m >= m - 3)
                memcpy(picks + 2 * (x.state.m + 3u - m), pick, 2);
            go(&x, pick, 1);
        }
        lend_junk(&kept, w);
        case_run_kept(w, x.list, x.len, &before, x.log, log_length(&x, 0),
                      &kept, picks, 10, 9);
        for (size_t from = m + 2u; from >= m; from--) {
            there = x.state;
            there.m = (uint16_t)from;
            run_undo(w, &x, &there, x.log, 2 * (5 + from));
        }
    }

    /* each count of the place at B and one above, from n on, and in each of
     * its bytes: followed, or 8 */
    skips(&x, 3);
    there = some_kept(&x, 2, 5);
    for (int j = 0; j < 3; j++)
        there.cnt[j] = (uint16_t)(2 - there.pri[j] > 0 ? 1 : 0);
    stand_past(&x, &there, 1);
    for (uint8_t j = 0; j < IND_STATIONS; j++) {
        for (int i = 0; i < 6; i++) {
            const int number[6] = {
                there.b - there.pri[j], there.b - there.pri[j] + 1, 0, 2, 256,
                65535
            };
            struct ind_state other = changed(there, (struct change){
                CHANGE_CNT, j, number[i]
            });

            if (j > 3 && i < 4 && (i + j) % 4 != 0)
                continue;
            lend_junk(&kept, w);
            patch_state(&kept, 2, &other);
            case_undo_kept(w, x.list, x.len, &x.state, x.log,
                           log_length(&x, 0), &kept);
        }
    }
    /* the given state's counts are others: no matter; its own are not sound:
     * 8 */
    lend_junk(&kept, w);
    patch_state(&kept, 2, &there);
    for (int i = 0; i < 3; i++) {
        struct ind_state given = x.state;

        for (int j = 0; j < 3; j++)
            given.cnt[j] = (uint16_t)(i == 0 ? 0 : given.b - given.pri[j]);
        given.cnt[1] = (uint16_t)(given.cnt[1] + (i == 2));
        case_undo_kept(w, x.list, x.len, &given, x.log, log_length(&x, 0),
                       &kept);
    }
}

/* ------------------------------------------------------------------ */
/* Random cases                                                       */
/* ------------------------------------------------------------------ */

/* Changes the bytes a little: a bit, a byte, a cut, a doubled or missing
 * piece of `unit` bytes, two pieces exchanged. */
static void damage(struct rng *g, uint8_t *p, size_t *len, size_t unit,
                   size_t limit)
{
    size_t pieces = *len / unit;
    size_t at, other;

    if (*len == 0)
        return;
    at = below(g, (uint32_t)*len);
    switch (below(g, 8)) {
    case 0:
        p[at] ^= (uint8_t)(1u << below(g, 8));
        break;
    case 1:
        p[at] = (uint8_t)draw(g);
        break;
    case 2:
        p[at] = (uint8_t)(p[at] + 1 - 2 * below(g, 2));
        break;
    case 3:
        *len = at;
        break;
    case 4:
        *len = at / unit * unit;
        break;
    case 5:                                    /* a piece missing */
        at = at / unit * unit;
        if (*len - at >= unit) {
            memmove(p + at, p + at + unit, *len - at - unit);
            *len -= unit;
        }
        break;
    case 6:                                    /* a piece doubled */
        at = at / unit * unit;
        if (*len - at >= unit && *len + unit <= limit) {
            memmove(p + at + unit, p + at, *len - at);
            *len += unit;
        }
        break;
    default:                                   /* two pieces exchanged */
        if (pieces == 0)
            break;
        at = unit * below(g, (uint32_t)pieces);
        other = unit * below(g, (uint32_t)pieces);
        for (size_t i = 0; i < unit; i++) {
            uint8_t was = p[at + i];

            p[at + i] = p[other + i];
            p[other + i] = was;
        }
        break;
    }
}

/* A station with IF, WHILE and at last AWAIT open up to `deep` at once. */
static void random_nest(struct rng *g, struct sequence *p, int deep)
{
    uint8_t opened[32];
    int in_body = 0;

    p->len = 0;
    add_bare(p, IND_STATION);
    if (chance(g, 50))
        add_bare(p, IND_SKIP);
    for (int i = 0; i < deep; i++) {
        uint32_t what = below(g, 20);

        if (in_body || what < 9)
            opened[i] = IND_IF;
        else if (what < 19)
            opened[i] = IND_WHILE;
        else
            opened[i] = IND_AWAIT;
        in_body = in_body || opened[i] == IND_AWAIT;
        add_bare(p, opened[i]);
        if (opened[i] == IND_IF && chance(g, 30)) {
            add_bare(p, IND_SKIP);         /* the nest goes on behind ELSE */
            add_bare(p, IND_ELSE);
            opened[i] = IND_ELSE;
        }
    }
    add_bare(p, IND_SKIP);
    for (int i = deep; i-- > 0;) {
        if (opened[i] == IND_IF) {
            add_bare(p, IND_ELSE);
            add_bare(p, IND_SKIP);
        }
        if (opened[i] == IND_WHILE)
            add_bare(p, IND_OD);
        else if (opened[i] == IND_AWAIT)
            add_bare(p, IND_END);
        else
            add_bare(p, IND_FI);
    }
}

/* Checks and builds of sequences: well shaped, damaged, deep, kinds at random,
 * bytes at random. */
static void random_files(struct writer *w, struct rng *g)
{
    static struct sequence p;
    uint32_t what = below(g, 10);
    size_t buflen;

    if (what == 0) {
        p.len = below(g, 60);
        for (size_t i = 0; i < p.len; i++)
            p.bytes[i] = (uint8_t)(chance(g, 60) ? below(g, 12) : draw(g));
    } else if (what <= 2) {
        uint32_t count = below(g, 14);

        p.len = 0;
        if (chance(g, 90))
            add_bare(&p, IND_STATION);
        for (uint32_t i = 0; i < count; i++)
            add_bare(&p, (uint8_t)(1 + below(g, 10)));
    } else if (what == 3 && chance(g, 40)) {
        int deep = 14 + (int)below(g, 6);

        random_nest(g, &p, deep);
        if (chance(g, 20))
            damage(g, p.bytes, &p.len, IND_RECORD, sizeof p.bytes);
    } else {
        uint32_t soft = 20 + below(g, 160);

        random_sequence(g, &p, 8, soft);
        if (what >= 5)
            damage(g, p.bytes, &p.len, IND_RECORD, sizeof p.bytes);
        if (what == 9)
            damage(g, p.bytes, &p.len, IND_RECORD, sizeof p.bytes);
    }
    if (p.len > 3000)
        return;
    if (chance(g, 60)) {
        case_check(w, p.bytes, p.len);
        return;
    }
    /* a buffer about as long as the list, or any */
    buflen = 0;
    for (size_t i = 0; i + 8 <= p.len; i += 8)
        buflen += p.bytes[i] == IND_STATION ? 32 : 16;
    for (size_t i = 0; i + 8 <= p.len; i += 8)
        if (p.bytes[i] == IND_ELSE || p.bytes[i] == IND_FI
            || p.bytes[i] == IND_OD || p.bytes[i] == IND_END)
            buflen -= 16;
    if (chance(g, 20) && buflen > 0)
        buflen--;
    else if (chance(g, 20))
        buflen += below(g, 40);
    else if (chance(g, 10))
        buflen = below(g, 40);
    case_build(w, p.bytes, p.len, buflen);
}

/* A pick for the state, mostly one that step takes. */
static void random_pick(struct rng *g, const struct press *x, uint8_t pick[2],
                        uint32_t good)
{
    struct ind_lights_answer l = ind_lights(x->list, x->len, x->state);
    size_t i = below(g, IND_STATIONS);
    int taken = chance(g, good);
    uint8_t from = l.in_turn;
    uint32_t resets = x->state.b + 1u;

    if (!taken && chance(g, 40))                /* ready, not in turn */
        from = l.ready & (uint8_t)~l.in_turn;
    else if (!taken && chance(g, 40))           /* a reset above B */
        resets = 256;
    else if (!taken)
        from = 0;
    if (from != 0) {
        while ((from >> i & 1) == 0)
            i = (i + 1) % IND_STATIONS;
        pick[0] = (uint8_t)i;
        pick[1] = (uint8_t)below(g, resets);
        return;
    }
    pick[0] = (uint8_t)below(g, (uint32_t)x->n + 1);
    pick[1] = (uint8_t)below(g, x->state.b + 2u);
    if (chance(g, 5))
        pick[0] = 255;
}

/* Picks that run takes one after the other, and maybe some it refuses; ends
 * where no station is ready, mostly.  Answers how many. */
static size_t random_picks(struct rng *g, const struct press *x,
                           uint8_t *picks, size_t most, uint32_t good)
{
    struct press *y = room(sizeof *y);
    size_t count = 0;

    *y = *x;
    while (count < most) {
        random_pick(g, y, picks + 2 * count, good);
        if (go(y, picks + 2 * count, 1) == 0 && chance(g, 60))
            most = count + 1;
        count++;
    }
    free(y);
    return count;
}

/* Some calls, one after the other, from a start of the press on. */
static void history(struct writer *w, struct rng *g, struct press *x)
{
    uint8_t resets[IND_STATIONS + 1], picks[64] = { 0 };
    uint8_t b = chance(g, 85) ? (uint8_t)below(g, 4) : 255;
    uint32_t calls = 2 + below(g, 6);

    for (size_t i = 0; i <= IND_STATIONS; i++)
        resets[i] = (uint8_t)below(g, b + 1u);
    set_going(x, b, resets);
    if (chance(g, 30)) {
        size_t count = x->n;
        size_t loglen = 2 * x->n + below(g, 5);

        if (chance(g, 20))
            count = below(g, IND_STATIONS + 2);
        if (chance(g, 20))
            resets[below(g, IND_STATIONS)] = (uint8_t)(b + 1);
        if (chance(g, 20))
            loglen -= 1 + below(g, 2);
        case_start(w, x->list, x->len, b, resets, count, picks, 0);
        memset(picks, 0xAB, sizeof picks);
        case_start(w, x->list, x->len, b, resets, count, picks, loglen);
    }
    for (uint32_t i = 0; i < calls; i++) {
        uint32_t what = below(g, 10);
        size_t count, loglen;

        if ((what == 6 || what == 7) && x->state.m == 0 && chance(g, 80))
            what = 5;
        if (what <= 2) {
            random_pick(g, x, picks, 75);
            loglen = log_length(x, 1);
            if (chance(g, 20))
                loglen += below(g, 6);
            else if (chance(g, 10))
                loglen -= 1 + below(g, 2);
            case_step(w, x->list, x->len, &x->state, x->log, loglen, picks[0],
                      picks[1]);
            go(x, picks, 1);
        } else if (what <= 5) {
            uint64_t most = chance(g, 70) ? UINT64_MAX : below(g, 12);

            count = below(g, 12);
            count = random_picks(g, x, picks, count, 88);
            loglen = log_length(x, count);
            if (chance(g, 15))
                loglen = below(g, (uint32_t)loglen + 1);
            count = 2 * count;
            if (chance(g, 5))
                count++;
            case_run(w, x->list, x->len, &x->state, x->log, loglen, picks,
                     count, most);
            go(x, picks, count / 2);
        } else if (what <= 7) {
            uint8_t log[1024];
            struct ind_state s = x->state;

            loglen = log_length(x, 0);
            if (loglen > sizeof log)
                break;
            memcpy(log, x->log, loglen);
            if (chance(g, 40))
                damage(g, log, &loglen, 2, sizeof log);
            if (chance(g, 20)) {
                uint8_t v = random_variable(g);

                s.var[v] ^= random_constant(g);
            }
            if (chance(g, 10) && s.m > 0)
                s.m = (uint16_t)below(g, s.m + 1u);
            run_undo(w, x, &s, log, loglen);
            if (chance(g, 40))
                x->state = ind_undo(x->list, x->len, x->state, x->log,
                                    sizeof x->log, x->kept,
                                    sizeof x->kept).state;
        } else {
            case_lights(w, x->list, x->len, &x->state);
        }
    }
}

/* A run call of any kind on a list, state and log that no call made. */
static void stray(struct writer *w, struct rng *g, struct press *x)
{
    struct ind_state s = random_state(g, x);
    uint8_t log[64], picks[24];
    size_t loglen = 2 * (x->n + s.m + 1);
    size_t plen = 2 * below(g, 8);

    if (loglen > sizeof log || chance(g, 10))
        loglen = below(g, sizeof log);
    for (size_t i = 0; i < sizeof log; i += 2) {
        log[i] = (uint8_t)(i / 2 < x->n ? i / 2 : below(g, (uint32_t)x->n));
        log[i + 1] = (uint8_t)below(g, chance(g, 90) ? s.b + 1u : s.b + 2u);
    }
    if (chance(g, 10)) {
        size_t at = below(g, sizeof log);

        log[at] = (uint8_t)draw(g);
    }
    for (size_t i = 0; i < sizeof picks; i += 2) {
        picks[i] = (uint8_t)below(g, (uint32_t)x->n);
        picks[i + 1] = (uint8_t)below(g, s.b + 1u);
    }
    switch (below(g, 5)) {
    case 0: {
        struct ind_lights_answer l = ind_lights(x->list, x->len, s);

        if (l.in_turn != 0 && chance(g, 70))
            while ((l.in_turn >> picks[0] & 1) == 0)
                picks[0] = (uint8_t)((picks[0] + 1) % IND_STATIONS);
        case_step(w, x->list, x->len, &s, log, loglen, picks[0], picks[1]);
        break;
    }
    case 1: {
        uint64_t most = below(g, 9);

        case_run(w, x->list, x->len, &s, log, loglen, picks, plen, most);
        break;
    }
    case 2:
        case_undo(w, x->list, x->len, &s, log, loglen);
        break;
    case 3:
        case_lights(w, x->list, x->len, &s);
        break;
    default:
        case_start(w, x->list, x->len, s.b, picks, x->n, log, loglen);
        break;
    }
}

/* A state of any bytes, but that the counts are 0. */
static struct ind_state state_of_bytes(struct rng *g,
                                       uint8_t bytes[STATE_BYTES])
{
    for (size_t i = 0; i < STATE_BYTES; i++) {
        bytes[i] = 0;
        if (i < COUNTS_AT || i >= COUNTS_AT + COUNTS_BYTES)
            bytes[i] = (uint8_t)(chance(g, 50) ? 0 : draw(g));
    }
    return unpack_state(bytes);
}

/* Bytes at random as a list, a state, a log: mostly 7, sometimes a sound list
 * with a state of any bytes. */
static void noise(struct writer *w, struct rng *g, struct press *x)
{
    uint8_t bytes[STATE_BYTES], log[24];
    struct ind_state s = state_of_bytes(g, bytes);
    size_t len = x->len;

    for (size_t i = 0; i < sizeof log; i++)
        log[i] = (uint8_t)draw(g);
    if (chance(g, 30)) {
        s.n = (uint8_t)x->n;
        s.m = (uint16_t)below(g, 4100);
    }
    if (chance(g, 30)) {
        len = 16 * below(g, 9);
        for (size_t i = 0; i < len; i++)
            x->list[i] = (uint8_t)(chance(g, 60) ? below(g, 18) : draw(g));
    }
    switch (below(g, 5)) {
    case 0:
        case_step(w, x->list, len, &s, log, 24, log[0], log[1]);
        break;
    case 1:
        case_run(w, x->list, len, &s, log, 24, bytes, 1 + below(g, 9), 5);
        break;
    case 2:
        case_undo(w, x->list, len, &s, log, 24);
        break;
    case 3:
        case_lights(w, x->list, len, &s);
        break;
    default:
        case_start(w, x->list, len, log[0], log + 1, below(g, 9), bytes, 17);
        break;
    }
}

/* A press with a built or a hand-made list, of a moderate length. */
static void random_press(struct rng *g, struct press *x)
{
    static struct sequence p;
    uint32_t most = chance(g, 75) ? 3 : 8;

    if (chance(g, 50)) {
        uint32_t soft = 30 + below(g, 120);

        do
            random_sequence(g, &p, most, soft);
        while (p.len > 400);
        load(x, &p);
    } else {
        random_list(g, x, most);
    }
}

/* Whether the list has a record at which a station can wait. */
static int has_await(const struct press *x)
{
    for (size_t at = 0; at < x->len; at += IND_ITEM)
        if (x->list[at] == IND_AWAIT)
            return 1;
    return 0;
}

/* A list to ask of, of at most `most` bytes, mostly with an AWAIT, and a state;
 * for why, mostly with two stations and a sound state. */
static struct ind_state press_to_ask(struct rng *g, enum call call,
                                     struct press *x, size_t most)
{
    struct ind_state s;

    do
        random_press(g, x);
    while (x->len > most || (call == WHY && x->n < 2 && chance(g, 80))
           || (!has_await(x) && chance(g, call == WHY ? 70 : 90)));
    do
        s = random_state(g, x);
    while (call == WHY && ind_lights(x->list, x->len, s).number != IND_FINE
           && chance(g, 85));
    return s;
}

/* A station to ask for: mostly one of the list's, and often one that waits or,
 * for why, is behind. */
static uint8_t station_to_ask(struct rng *g, enum call call,
                              const struct press *x, const struct ind_state *s)
{
    struct ind_lights_answer l = ind_lights(x->list, x->len, *s);
    uint8_t station = (uint8_t)below(g, (uint32_t)x->n);
    uint32_t strange = call == WHY ? 3 : 5;
    uint8_t from = l.waiting;

    if (chance(g, strange))
        return (uint8_t)draw(g);
    if (chance(g, strange))
        return (uint8_t)x->n;
    if (call == WHY && chance(g, 50))
        from = l.ready & (uint8_t)~l.in_turn;
    if (from != 0 && chance(g, call == WHY ? 80 : 70))
        while ((from >> station & 1) == 0)
            station = (uint8_t)((station + 1) % IND_STATIONS);
    return station;
}

/* Starts the press with B and takes up to 19 steps, mostly good ones. */
static void random_run(struct rng *g, struct press *x, uint8_t b)
{
    uint8_t resets[IND_STATIONS], picks[40];
    size_t count;

    for (size_t i = 0; i < IND_STATIONS; i++)
        resets[i] = (uint8_t)below(g, b + 1u);
    set_going(x, b, resets);
    count = below(g, 20);
    count = random_picks(g, x, picks, count, 98);
    go(x, picks, count);
}

/* A state of any bytes, at times with the press's n. */
static struct ind_state any_state(struct rng *g, const struct press *x)
{
    uint8_t bytes[STATE_BYTES];
    struct ind_state s = state_of_bytes(g, bytes);

    if (chance(g, 50))
        s.n = (uint8_t)x->n;
    return s;
}

/* One round of readiness: in a run, in a state that no call made, and with a
 * fault in the list or a state of any bytes; of lists of at most `most`
 * bytes. */
static void random_readiness(struct writer *w, struct rng *g, size_t most)
{
    static struct press x;

    for (int what = 0; what < 3; what++) {
        struct ind_state s = press_to_ask(g, READINESS, &x, most);

        if (what == 0) {
            random_run(g, &x, s.b);
            s = x.state;
        } else if (what == 2 && chance(g, 80)) {
            damage(g, x.list, &x.len, IND_ITEM, sizeof x.list);
        } else if (what == 2) {
            s = any_state(g, &x);
        }
        case_readiness(w, x.list, x.len, &s,
                       station_to_ask(g, READINESS, &x, &s));
    }
}

/* Whether a station stands at an AWAIT. */
static int at_await(const struct press *x, const struct ind_state *s)
{
    for (size_t i = 0; i < x->n; i++)
        if (s->pos[i] < x->len / IND_ITEM
            && x->list[IND_ITEM * (size_t)s->pos[i]] == IND_AWAIT)
            return 1;
    return 0;
}

/* One round of lights, mostly with a station at an AWAIT: in a run, behind an
 * undo, and in a state that no call made; of lists of at most `most` bytes. */
static void random_lights(struct writer *w, struct rng *g, size_t most)
{
    static struct press x;

    for (int what = 0; what < 3; what++) {
        int again;

        do {
            struct ind_state s;

            do
                random_press(g, &x);
            while (x.len > most || !has_await(&x));
            s = random_state(g, &x);
            random_run(g, &x, s.b);
            if (what == 2)
                x.state = s;
            again = !at_await(&x, &x.state) && chance(g, 95);
            if (what == 1 && x.state.m == 0)
                again = 1;
        } while (again);
        if (what == 1)
            light_and_undo(w, &x);
        case_lights(w, x.list, x.len, &x.state);
    }
}

/* A random list of at most `most` bytes whose stations do not end: each is a
 * loop for ever round random statements, in which it may wait. */
static void random_endless(struct rng *g, struct press *x, size_t most)
{
    static struct sequence p;

    do {
        uint32_t n = 1 + below(g, IND_STATIONS);
        uint32_t initial = below(g, 4);

        p.len = 0;
        for (uint32_t i = 0; i < initial; i++) {
            uint8_t v = (uint8_t)below(g, IND_VARS);
            uint32_t k = draw(g) | 0x01010101;

            add(&p, IND_SET, v, 0, 0, k);
        }
        for (uint32_t i = 0; i < n; i++) {
            uint8_t v = random_variable(g);

            add_bare(&p, IND_STATION);
            add(&p, IND_WHILE, 0, v, 4, v);
            add_statements(g, &p, 3, 0, p.len + 24);
            if (chance(g, 40)) {
                uint32_t k = draw(g) | 0x01010101;

                v = random_variable(g);
                add(&p, IND_SET, v, v, 2, k);
            }
            add_bare(&p, IND_OD);
        }
        load(x, &p);
    } while (x->len > most);
}

/* A number of steps from 0 to `most`, often next to a multiple of 64. */
static size_t random_steps(struct rng *g, size_t most)
{
    size_t m = below(g, (uint32_t)most + 1);

    if (chance(g, 60)) {
        m = (m + 32) / 64 * 64 + below(g, 5);
        m = m > 2 ? m - 2 : 0;
    }
    return m > most ? most : m;
}

/* Some way of a run of about `far` steps: on and back a few times. */
static void random_way(struct rng *g, struct press *x, size_t far)
{
    static uint8_t picks[2 * IND_MAX_STEPS];
    uint32_t turns = 1 + below(g, 4);

    for (uint32_t i = 0; i < turns; i++) {
        size_t to = random_steps(g, far);

        if (to > x->state.m) {
            size_t count = random_picks(g, x, picks, to - x->state.m, 100);

            go(x, picks, count);
        } else if (i + 1 < turns) {
            back_to(x, to);
        }
    }
}

/* Junk, and in it mostly the press's kept place j and sometimes those beside
 * it; a length that is sometimes another. */
static void lend_random(struct lent *k, struct rng *g, const struct press *x,
                        size_t j)
{
    static const uint16_t other[] = { 0, 184, 11592, 11774, 11775, 11777,
                                      11960 };
    size_t length = IND_KEPT_BYTES;
    uint8_t fill = (uint8_t)draw(g);

    if (chance(g, 8))
        length = other[below(g, 7)];
    lend(k, length, fill);
    for (size_t i = j > 1 ? j - 1 : 1; i <= j + 1; i++)
        if (chance(g, i == j ? 95 : 30))
            patch_place(k, x, i);
}

/* An undo from some m of the press's run: as the run left things, then with
 * something of the kept buffer, the log or the state changed. */
static void random_deep_undo(struct writer *w, struct rng *g,
                             const struct press *x, int changed)
{
    static uint8_t log[sizeof x->log];
    static struct lent kept;
    struct ind_state s = x->state;
    size_t q, at, loglen;

    s.m = (uint16_t)random_steps(g, x->state.m);
    if (place_used(s.m) == 0 && chance(g, 75))
        s.m = x->state.m;
    q = place_used(s.m);
    loglen = 2 * (x->n + s.m);
    memcpy(log, x->log, sizeof log);
    if (!changed) {
        lend_about(&kept, w, x, s.m);
        case_undo_kept(w, x->list, x->len, &s, log, loglen, &kept);
        return;
    }
    lend_random(&kept, g, x, q);
    switch (below(g, 8)) {
    case 0:
    case 1:                                /* a byte of the place used */
        at = chance(g, 40) ? below(g, 128) : 128 + below(g, 56);
        if (q > 0) {
            uint8_t is = x->kept[place_at(q) + at];

            is = (uint8_t)(chance(g, 50) ? is ^ (1u << below(g, 8)) : draw(g));
            patch_byte(&kept, q, at, is);
        }
        break;
    case 2: {                              /* another state there */
        struct ind_state there = random_state(g, x);

        there.m = (uint16_t)(IND_KEPT_EVERY * q);
        if (chance(g, 80))
            there.b = s.b;
        if (q > 0)
            patch_state(&kept, q, &there);
        break;
    }
    case 3:                                /* another place */
        at = below(g, IND_KEPT_BYTES);
        if (at / IND_KEPT_PLACE + 1 != q)
            patch_byte(&kept, 1, at, (uint8_t)(at % 255));
        break;
    case 4:                                /* the log */
    case 5:
        at = below(g, (uint32_t)loglen + 1);
        if (chance(g, 50))                 /* near its end */
            at = loglen - below(g, (uint32_t)(loglen < 12 ? loglen : 12));
        log[at] = (uint8_t)(chance(g, 70) ? below(g, 9) : draw(g));
        break;
    case 6:
        loglen -= 1 + below(g, 2);
        break;
    default:                               /* B */
        s.b = (uint8_t)(s.b + 1);
        break;
    }
    case_undo_kept(w, x->list, x->len, &s, log, loglen, &kept);
}

/* One round about kept states: some way of a run of about `far` steps, undos
 * from it, and a step, a run and a start over what the buffer holds then; of
 * lists of at most `most` bytes. */
static void random_kept(struct writer *w, struct rng *g, size_t most,
                        size_t far)
{
    static struct press x;
    static struct lent kept;
    uint8_t resets[IND_STATIONS], picks[2 * 16], pick[2];
    uint8_t b = chance(g, 85) ? (uint8_t)below(g, 6) : 255;
    size_t m, count, loglen;
    uint64_t upto;

    do {
        random_endless(g, &x, most);
        for (size_t i = 0; i < IND_STATIONS; i++)
            resets[i] = (uint8_t)below(g, b + 1u);
        set_going(&x, b, resets);
        random_way(g, &x, far);
    } while (x.state.m < IND_KEPT_EVERY + 1);
    random_deep_undo(w, g, &x, 0);
    random_deep_undo(w, g, &x, 1);
    random_deep_undo(w, g, &x, 1);

    /* a step, mostly to a multiple, and a run across it */
    m = IND_KEPT_EVERY * (1 + below(g, x.state.m / IND_KEPT_EVERY));
    back_to(&x, chance(g, 80) ? m - 1 : m);
    random_pick(g, &x, pick, 85);
    lend_random(&kept, g, &x, m / IND_KEPT_EVERY);
    loglen = log_length(&x, 1);
    if (chance(g, 10))
        loglen--;
    case_step_kept(w, x.list, x.len, &x.state, x.log, loglen, &kept, pick[0],
                   pick[1]);
    count = below(g, 6);
    back_to(&x, x.state.m - count);
    count = 1 + below(g, 16);
    count = random_picks(g, &x, picks, count, 97);
    upto = chance(g, 80) ? UINT64_MAX : below(g, 10);
    lend_random(&kept, g, &x, m / IND_KEPT_EVERY);
    loglen = log_length(&x, count);
    if (chance(g, 10))
        loglen -= below(g, 2 * (uint32_t)count);
    case_run_kept(w, x.list, x.len, &x.state, x.log, loglen, &kept, picks,
                  2 * count, upto);

    /* a start anew */
    if (chance(g, 30)) {
        lend_random(&kept, g, &x, 1);
        case_start_kept(w, x.list, x.len, b, resets, x.n, x.log,
                        2 * x.n + below(g, 3), &kept);
    }
}

static void random_traces(struct writer *w, struct rng *g, struct press *x)
{
    static struct sequence p;
    uint8_t start[10], picks[80] = { 0 };
    uint8_t b = chance(g, 85) ? (uint8_t)below(g, 4) : 255;
    uint32_t soft = 30 + below(g, 200);
    size_t slen, count = below(g, 34), at = 0;

    do
        random_sequence(g, &p, 5, soft);
    while (p.len > 600);
    load(x, &p);
    start[0] = b;
    for (size_t i = 1; i < sizeof start; i++)
        start[i] = (uint8_t)below(g, b + 1u);
    slen = x->n + 1;
    set_going(x, b, start + 1);
    if (chance(g, 5))
        slen = below(g, 10);
    /* the trace runs along, so that most calls are taken */
    while (at < count) {
        struct ind_state_answer u = { 1, x->state };

        random_pick(g, x, picks + 2 * at, 98);
        if (chance(g, 25) && (x->state.m > 0 || chance(g, 5))) {
            picks[2 * at] = 255;
            picks[2 * at + 1] = 0;
            u = ind_undo(x->list, x->len, x->state, x->log, sizeof x->log,
                         x->kept, sizeof x->kept);
        }
        if (u.number == IND_FINE)
            x->state = u.state;
        else
            go(x, picks + 2 * at, 1);
        at++;
    }
    count = 2 * count;
    if (chance(g, 4))
        count++;
    if (chance(g, 10))
        damage(g, p.bytes, &p.len, IND_RECORD, sizeof p.bytes);
    else if (chance(g, 3))
        random_nest(g, &p, 17);
    else if (chance(g, 3))
        stations(&p, 9);
    case_trace(w, &p, start, slen, picks, count);
}

/* One round of why: in a run, behind undos, in a state that no call made, and
 * with a fault in the list or a state of any bytes; of lists of at most `most`
 * bytes. */
static void random_why(struct writer *w, struct rng *g, size_t most)
{
    static struct press x;

    for (int what = 0; what < 4; what++) {
        struct ind_state s = press_to_ask(g, WHY, &x, most);

        if (what <= 1) {
            random_run(g, &x, s.b);
            if (what == 1)
                back_to(&x, x.state.m - below(g, x.state.m + 1u));
            s = x.state;
        } else if (what == 2) {
            for (int v = 0; v < IND_VARS; v++)
                if (s.var[v] == 0 && chance(g, 50))
                    s.var[v] = draw(g);
        } else if (chance(g, 70)) {
            damage(g, x.list, &x.len, IND_ITEM, sizeof x.list);
        } else {
            s = any_state(g, &x);
        }
        case_why(w, x.list, x.len, &s, station_to_ask(g, WHY, &x, &s));
    }
}

/* Gives the state counts: mostly such that each station's priority and count
 * together are at most B, and often just B; at times one that is any. */
static void random_counts(struct rng *g, const struct press *x,
                          struct ind_state *s)
{
    static const uint16_t marks[] = { 1, 255, 256, 262, 32767, 32768, 65535 };

    for (size_t i = 0; i < x->n; i++) {
        int most = s->b - s->pri[i];

        if (most > 0 && most <= 255 + IND_STATIONS)
            s->cnt[i] = (uint16_t)(chance(g, 30) ? (uint32_t)most
                                   : below(g, (uint32_t)most + 1));
    }
    if (chance(g, 35)) {
        size_t i = below(g, IND_STATIONS);

        switch (below(g, 4)) {
        case 0:
            s->cnt[i] = (uint16_t)(s->b - s->pri[i] + 1);
            break;
        case 1:
            s->cnt[i] = marks[below(g, 7)];
            break;
        case 2:
            s->cnt[i]++;
            break;
        default:
            s->cnt[i] = (uint16_t)below(g, s->b + (uint32_t)x->n);
            break;
        }
    }
}

/* An undo that goes from a kept state with such counts, over a few records. */
static void random_kept_counts(struct writer *w, struct rng *g,
                               struct press *x, struct ind_state there)
{
    static struct lent kept;
    struct ind_state given;
    uint8_t picks[8];
    size_t count = below(g, 4);

    there.m = IND_KEPT_EVERY;
    lend_junk(&kept, w);
    patch_state(&kept, 1, &there);
    x->state = there;
    count = random_picks(g, x, picks, count, 98);
    go(x, picks, count);
    given = x->state;
    if (given.m == IND_KEPT_EVERY) {
        given.m++;
        clear_counts(&given);
    }
    case_undo_kept(w, x->list, x->len, &given, x->log,
                   2 * (x->n + given.m), &kept);
}

/* One round about counts: each call that takes a state, with counts that no
 * call left; of lists of at most `most` bytes. */
static void random_counted(struct writer *w, struct rng *g, size_t most)
{
    static struct press x;

    for (int what = 0; what < 6; what++) {
        struct ind_state s = press_to_ask(g, WHY, &x, most);
        uint8_t picks[16];
        size_t count;

        random_counts(g, &x, &s);
        if (s.m > 6)
            s.m = (uint16_t)(60 + below(g, 6));
        memset(x.log, 0xEE, sizeof x.log);
        x.state = s;
        switch (what) {
        case 0:
            random_pick(g, &x, picks, 90);
            case_step(w, x.list, x.len, &s, x.log, log_length(&x, 1),
                      picks[0], picks[1]);
            break;
        case 1:
            count = 1 + below(g, 8);
            count = random_picks(g, &x, picks, count, 95);
            case_run(w, x.list, x.len, &s, x.log, log_length(&x, count),
                     picks, 2 * count, UINT64_MAX);
            break;
        case 2:
            random_kept_counts(w, g, &x, s);
            break;
        case 3:
            case_lights(w, x.list, x.len, &s);
            break;
        case 4:
            case_readiness(w, x.list, x.len, &s,
                           station_to_ask(g, READINESS, &x, &s));
            break;
        default:
            case_why(w, x.list, x.len, &s, station_to_ask(g, WHY, &x, &s));
            break;
        }
    }
}

/* One round of random cases of each sort. */
static void random_round(struct writer *w, struct rng *g)
{
    static struct press x;

    for (int i = 0; i < 9; i++)
        random_files(w, g);
    for (int i = 0; i < 2; i++) {
        random_press(g, &x);
        history(w, g, &x);
    }
    for (int i = 0; i < 3; i++) {
        random_press(g, &x);
        stray(w, g, &x);
    }
    random_press(g, &x);
    damage(g, x.list, &x.len, IND_ITEM, sizeof x.list);
    stray(w, g, &x);
    random_press(g, &x);
    noise(w, g, &x);
    for (int i = 0; i < 2; i++)
        random_traces(w, g, &x);
}

/* ------------------------------------------------------------------ */
/* The program                                                        */
/* ------------------------------------------------------------------ */

/* Prints the table; answers how many of its places are wrong. */
static int report(const struct writer *w)
{
    int wrong = 0;

    fprintf(stderr, "%-9s", "");
    for (int i = 0; i < NUMBERS; i++)
        fprintf(stderr, "%8d", i);
    fputc('\n', stderr);
    for (int call = CHECK; call <= WHY; call++) {
        fprintf(stderr, "%-9s", call_name[call]);
        for (int i = 0; i < NUMBERS; i++) {
            unsigned long count = w->table[call][i];

            if (allowed[call][i] || count > 0)
                fprintf(stderr, "%8lu", count);
            else
                fprintf(stderr, "%8s", "-");
            if ((allowed[call][i] != 0) != (count > 0)) {
                wrong++;
                fputc('!', stderr);
            }
        }
        fputc('\n', stderr);
    }
    fprintf(stderr, "%lu cases, %lu bytes, the largest %lu\n", w->cases,
            w->total, w->largest);
    return wrong;
}

/* The generator of the readiness cases, one of their own: the other cases are
 * the same without them. */
static struct rng readiness_rng(uint64_t seed)
{
    struct rng g = { seed ^ UINT64_C(0x5EED0F0011001600) };

    return g;
}

/* The generator of the lights cases at the end, likewise. */
static struct rng lights_rng(uint64_t seed)
{
    struct rng g = { seed ^ UINT64_C(0x5EED0F0007001100) };

    return g;
}

/* The generator of the cases about kept states, likewise. */
static struct rng kept_rng(uint64_t seed)
{
    struct rng g = { seed ^ UINT64_C(0x5EED0F0064004096) };

    return g;
}

/* The generator of the cases of why, likewise. */
static struct rng why_rng(uint64_t seed)
{
    struct rng g = { seed ^ UINT64_C(0x5EED0F0010001200) };

    return g;
}

/* The generator of the cases about counts, likewise. */
static struct rng counts_rng(uint64_t seed)
{
    struct rng g = { seed ^ UINT64_C(0x5EED0F0002620255) };

    return g;
}

static int write_stream(uint64_t seed)
{
    static struct writer w;
    struct rng g = { seed }, h = readiness_rng(seed), l = lights_rng(seed);
    struct rng k = kept_rng(seed), y = why_rng(seed), c = counts_rng(seed);

    w.out = stdout;
    bench_check(&w);
    bench_run(&w);
    refusals(&w);
    fields(&w);
    check_order(&w);
    limits(&w);
    hand_made(&w);
    states(&w);
    for (int i = 0; i < ROUNDS; i++)
        random_round(&w, &g);
    readiness(&w);
    endings(&w);
    for (int i = 0; i < READINESS_ROUNDS; i++)
        random_readiness(&w, &h, SMALL_LIST);
    released(&w);
    conditions_and_bodies(&w);
    beside(&w);
    foreign_waiting(&w);
    for (int i = 0; i < LIGHTS_ROUNDS; i++)
        random_lights(&w, &l, SMALL_LIST);
    deep_undos(&w);
    another_way(&w);
    over_junk(&w);
    reach(&w);
    damaged_place(&w);
    damaged_beside(&w);
    wrong_kept(&w);
    far_positions(&w);
    followed(&w);
    damaged_log(&w);
    kept_room(&w);
    kept_traces(&w);
    for (int i = 0; i < KEPT_ROUNDS; i++)
        random_kept(&w, &k, KEPT_LIST, 150);
    reasons(&w);
    why_refused(&w);
    named(&w);
    behind(&w);
    foreign_why(&w);
    for (int i = 0; i < WHY_ROUNDS; i++)
        random_why(&w, &y, WHY_LIST);
    counted(&w);
    long_waits(&w);
    sums(&w);
    unsound_counts(&w);
    refused_counts(&w);
    kept_counts(&w);
    for (int i = 0; i < COUNTS_ROUNDS; i++)
        random_counted(&w, &c, SMALL_LIST);
    if (fflush(stdout) != 0)
        die("cannot write");
    return report(&w) != 0;
}

static int write_random(uint64_t seed, unsigned long rounds)
{
    static struct writer w;
    struct rng g = { seed }, h = readiness_rng(seed), l = lights_rng(seed);
    struct rng k = kept_rng(seed), y = why_rng(seed), c = counts_rng(seed);

    w.out = stdout;
    while (rounds-- > 0) {
        random_round(&w, &g);
        random_readiness(&w, &h, SIZE_MAX);
        random_lights(&w, &l, SIZE_MAX);
        random_kept(&w, &k, SIZE_MAX, chance(&k, 4) ? IND_MAX_STEPS : 400);
        random_why(&w, &y, SIZE_MAX);
        random_counted(&w, &c, SIZE_MAX);
    }
    if (fflush(stdout) != 0)
        die("cannot write");
    report(&w);
    return 0;
}

static int answer_stream(void)
{
    size_t size = 1 << 16, len = 0, got, at = 0;
    uint8_t *bytes = room(size);

    while ((got = fread(bytes + len, 1, size - len, stdin)) > 0) {
        len += got;
        if (len == size) {
            size *= 2;
            bytes = realloc(bytes, size);
            if (bytes == NULL)
                die("no memory");
        }
    }
    while (at < len) {
        struct one c;

        if (!take_case(&c, bytes, len, &at))
            die("not a stream of cases");
        answer_case(&c, stdout);
        drop_case(&c);
    }
    free(bytes);
    return 0;
}

int main(int argc, char **argv)
{
    if (argc == 3 && strcmp(argv[1], "write") == 0)
        return write_stream(strtoull(argv[2], NULL, 10));
    if (argc == 2 && strcmp(argv[1], "answer") == 0)
        return answer_stream();
    if (argc == 4 && strcmp(argv[1], "random") == 0)
        return write_random(strtoull(argv[2], NULL, 10), strtoul(argv[3], NULL, 10));
    fprintf(stderr, "usage: cases write SEED | random SEED ROUNDS | answer\n");
    return 2;
}
