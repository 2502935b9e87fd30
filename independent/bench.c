/*
 * Times the panel's library against the independent program, on the same inputs and in one run, and prints three tables:
 * the time of each call and the ratio of the two, the deepest stack of each of the library's calls and how much of it
 * is the caller's, and how the library's time grows where an input doubles. It ends with which of the aims are met, and
 * with status 0 whether or not they are; with status 1 where an answer is not the expected one or differs between the
 * two, which is timing nothing.
 *
 *   bench
 *
 * To count instructions it is run once to make every call, compare the answers and write the inputs to a file, a row
 * each; and then, under an emulator that logs each instruction, for one call at a time, which stands in the log between
 * two lines of the function `counted`.
 *
 *   bench rows FILE
 *   bench count FILE ROW ours|theirs|floor
 *
 * The floor of a row is its file or its list summed once, byte by byte.
 */
#define _GNU_SOURCE
#include "both.h"
#include "floor.h"

#include <stdio.h>
#include <stdlib.h>
#include <string.h>
#include <time.h>
#include <ucontext.h>

/* The aims. */
static const double most_ratio = 1.2, most_growth = 2.3;
enum { MOST_STACK = 65536 };

/* The best of so many rounds is taken; a round of either side lasts at least so many nanoseconds. */
enum { ROUNDS = 15, ROUND_NS = 10000000 };

/* Answers kept in one stretch of time, to be compared after it. */
enum { STRETCH = 32 };

enum { STACK_BYTES = 1 << 20, PAINT = 0xA5, MOST_RESET = 3 };

/* ---- inputs */

enum call { CHECK, BUILD, START, STEP, ADVANCE, RUN, UNDO, READINESS, WHY, LIGHTS, CALLS };

static const char *const call_names[CALLS] = {"check", "build", "start",     "step", "advance",
                                              "run",   "undo",  "readiness", "why",  "lights"};

/* What a call is given. The log and the kept states are those of a run that stands; step and run write to others. */
struct input {
    uint8_t file[PRESS_FILE_BYTES];
    size_t file_len;
    uint8_t list[PRESS_LIST_BYTES];
    size_t list_len;
    uint8_t log[PRESS_LOG_BYTES];
    uint8_t kept[PRESS_KEPT_BYTES];
    uint8_t picks[2 * IND_MAX_STEPS];
    size_t picks_len;
    struct ind_state state;
    press_state our_state;
};

static struct input *new_input(void)
{
    struct input *in = calloc(1, sizeof *in);
    if (!in) {
        fprintf(stderr, "bench: no memory\n");
        exit(2);
    }
    return in;
}

/* A record at the end of the file. */
static void add(struct input *in, uint8_t kind, uint8_t a, uint8_t b, uint8_t op, uint32_t k)
{
    const uint8_t record[8] = {kind, a, b, op, k & 255, k >> 8 & 255, k >> 16 & 255, k >> 24};
    memcpy(in->file + in->file_len, record, sizeof record);
    in->file_len += sizeof record;
}

/* The i-th of many plain statements: SKIP, and SET with each op in turn. */
static void add_plain(struct input *in, size_t i)
{
    const uint8_t a = i % 31, b = i * 7 % 32, op = i % 7;
    if (op == 6)
        add(in, IND_SKIP, 0, 0, 0, 0);
    else
        add(in, IND_SET, a, op == 0 ? 0 : b, op, op == 1 ? 0 : op < 4 ? (uint32_t)i * 70001 : i * 5 % 32);
}

/* A file of so many records: eight stations of plain statements. */
static struct input *flat_file(size_t records)
{
    struct input *in = new_input();
    for (size_t i = 0; i < records; i++) {
        if (i % (records / 8) == 0)
            add(in, IND_STATION, 0, 0, 0, 0);
        else
            add_plain(in, i);
    }
    return in;
}

/* The records of a nest so deep: WHILE and IF by turns, round a SKIP; the second branch of an IF is a SKIP. */
static size_t nest_records(size_t depth)
{
    return 1 + 2 * (depth - depth / 2) + 4 * (depth / 2);
}

static void add_nest(struct input *in, size_t depth)
{
    if (depth == 0) {
        add(in, IND_SKIP, 0, 0, 0, 0);
    } else if (depth % 2 == 1) {
        add(in, IND_WHILE, 0, depth % 32, depth % 4, 1000);
        add_nest(in, depth - 1);
        add(in, IND_OD, 0, 0, 0, 0);
    } else {
        add(in, IND_IF, 0, depth % 32, 4 + depth % 4, 31);
        add_nest(in, depth - 1);
        add(in, IND_ELSE, 0, 0, 0, 0);
        add(in, IND_SKIP, 0, 0, 0, 0);
        add(in, IND_FI, 0, 0, 0, 0);
    }
}

/* A file of so many records: eight stations of nests sixteen deep, and less deep where the room ends. */
static struct input *nested_file(size_t records)
{
    struct input *in = new_input();
    for (size_t j = 1; j <= 8; j++) {
        add(in, IND_STATION, 0, 0, 0, 0);
        for (size_t left; (left = j * records / 8 - in->file_len / 8) > 0;) {
            size_t depth = 16;
            while (nest_records(depth) > left)
                depth--;
            add_nest(in, depth);
        }
    }
    return in;
}

/* A file of so many records: a station, and in it so many WHILEs, each in the one before, round a SKIP, and closed. */
static struct input *deep_file(size_t records)
{
    struct input *in = new_input();
    add(in, IND_STATION, 0, 0, 0, 0);
    for (size_t i = 1; i < records / 2; i++)
        add(in, IND_WHILE, 0, 0, 0, 0);
    add(in, IND_SKIP, 0, 0, 0, 0);
    for (size_t i = 1; i < records / 2; i++)
        add(in, IND_OD, 0, 0, 0, 0);
    return in;
}

/* A file of so many records: a station, and in it records of one kind that each open a part and none closes. */
static struct input *open_file(size_t records, uint8_t kind)
{
    struct input *in = new_input();
    add(in, IND_STATION, 0, 0, 0, 0);
    for (size_t i = 1; i < records; i++)
        add(in, kind, 0, 0, 0, 0);
    return in;
}

/* Builds the list of the file. */
static void build_list(struct input *in)
{
    const struct ind_build_answer built = ind_build(in->file, in->file_len, in->list, sizeof in->list);
    if (built.number != 0) {
        fprintf(stderr, "bench: a file to be timed is refused: %d at %d\n", built.number, built.place);
        exit(1);
    }
    in->list_len = (size_t)16 * built.count;
}

/* Starts a run of the list, with the largest resets. */
static void start_run(struct input *in)
{
    const uint8_t resets[8] = {3, 3, 3, 3, 3, 3, 3, 3};
    size_t n = 0;
    while (in->list[16 * n] == IND_INIT)
        n++;
    const struct ind_state_answer started =
        ind_start(in->list, in->list_len, MOST_RESET, resets, n, in->log, sizeof in->log, in->kept, sizeof in->kept);
    if (started.number != 0) {
        fprintf(stderr, "bench: a list to be timed is refused: %d\n", started.number);
        exit(1);
    }
    in->state = started.state;
    in->our_state = same_as(&in->state);
}

/* The two stations of "Dryer", started. */
static struct input *dryer(void)
{
    struct input *in = new_input();
    add(in, IND_STATION, 0, 0, 0, 0);
    add(in, IND_SET, 0, 0, 0, 1);
    add(in, IND_STATION, 0, 0, 0, 0);
    add(in, IND_AWAIT, 0, 0, 0, 1);
    add(in, IND_SET, 0, 0, 2, 1);
    add(in, IND_END, 0, 0, 0, 0);
    build_list(in);
    start_run(in);
    return in;
}

/* Two stations that never end, started: a WHILE that holds round a SKIP. */
static struct input *pair(void)
{
    struct input *in = new_input();
    for (size_t j = 0; j < 2; j++) {
        add(in, IND_STATION, 0, 0, 0, 0);
        add(in, IND_WHILE, 0, 0, 4, 0);
        add(in, IND_SKIP, 0, 0, 0, 0);
        add(in, IND_OD, 0, 0, 0, 0);
    }
    build_list(in);
    start_run(in);
    return in;
}

/* Sets a list record's first bytes, byte 9 and its targets. */
static void relay(uint8_t *r, const uint8_t own[8], uint8_t inside, size_t t1, size_t t2)
{
    memcpy(r, own, 8);
    r[9] = inside;
    r[10] = t1 & 255;
    r[11] = t1 >> 8;
    r[12] = t2 & 255;
    r[13] = t2 >> 8;
}

/*
 * A list of so many records that never ends, started: eight stations whose steps are of every kind by turns and whose
 * last leads back to the first.
 */
static struct input *long_list(size_t records)
{
    static const uint8_t own[8][8] = {
        {IND_SET, 1, 2, 2, 17, 1},      {IND_IF, 0, 1, 2, 0, 0, 0, 128}, {IND_SET, 2, 1, 4, 3},
        {IND_AWAIT, 0, 4, 3},           {IND_SET, 4, 4, 3, 9},           {IND_WHILE, 0, 5, 5, 6},
        {IND_SET, 3, 0, 0, 1, 2, 3, 4}, {IND_SKIP},
    };
    struct input *in = new_input();
    in->list_len = 16 * records;
    for (size_t j = 0, first = 8; j < 8; j++) {
        const size_t stop = 8 + (records - 8) * (j + 1) / 8 - 1;
        uint8_t *init = in->list + 16 * j;
        init[0] = IND_INIT;
        init[1] = init[8] = j;
        init[10] = first & 255;
        init[11] = first >> 8;
        for (size_t p = first; p < stop; p++) {
            const size_t i = p - first < (stop - first) / 8 * 8 ? (p - first) % 8 : 7;
            const size_t next = p + 1 < stop ? p + 1 : first;
            uint8_t *r = in->list + 16 * p;
            r[8] = j;
            relay(r, own[i], i == 4, i == 4 ? 0 : next, i == 3 ? next + 1 : i == 1 || i == 5 ? next : 0);
        }
        in->list[16 * stop] = IND_STOP;
        in->list[16 * stop + 8] = j;
        first = stop + 1;
    }
    start_run(in);
    return in;
}

/* An AWAIT of v31 at least k, with a body of so many list records, at least 8: SETs, SKIPs and IFs. */
static void add_await(struct input *in, size_t body, uint32_t k)
{
    add(in, IND_AWAIT, 0, 31, 3, k);
    for (size_t i = 0; i < body;) {
        if (i % 8 == 7 && i + 3 <= body) {
            add(in, IND_IF, 0, i % 32, 2, 1u << 31);
            add_plain(in, i + 1);
            add(in, IND_ELSE, 0, 0, 0, 0);
            add_plain(in, i + 2);
            add(in, IND_FI, 0, 0, 0, 0);
            i += 3;
        } else {
            add_plain(in, i++);
        }
    }
    add(in, IND_END, 0, 0, 0, 0);
}

/* Eight stations of one AWAIT, with a body of so many list records, started: all wait where k is 1, none where it is 0. */
static struct input *await_list(size_t body, uint32_t k)
{
    struct input *in = new_input();
    for (size_t j = 0; j < 8; j++) {
        add(in, IND_STATION, 0, 0, 0, 0);
        add_await(in, body, k);
    }
    build_list(in);
    start_run(in);
    return in;
}

/* The same where none waits and each AWAIT leads back to itself. */
static struct input *await_loops(size_t body)
{
    struct input *in = await_list(body, 0);
    for (size_t j = 0; j < 8; j++) {
        const uint8_t *init = in->list + 16 * j;
        memcpy(in->list + 16 * (size_t)(init[10] | init[11] << 8) + 12, init + 10, 2);
    }
    return in;
}

/* So many picks, each of a station in turn, found on a run of their own. */
static struct input *with_picks(struct input *in, size_t picks)
{
    static uint8_t log[PRESS_LOG_BYTES], kept[PRESS_KEPT_BYTES];
    struct ind_state state = in->state;
    for (size_t i = 0; i < picks; i++) {
        const uint8_t in_turn = ind_lights(in->list, in->list_len, state).in_turn;
        uint8_t station = i * 5 % 8, reset = i * 7 % (MOST_RESET + 1);
        while (in_turn != 0 && (in_turn >> station & 1) == 0)
            station = (station + 1) % 8;
        state = ind_step(in->list, in->list_len, state, log, sizeof log, kept, sizeof kept, station, reset).state;
        in->picks[2 * i] = station;
        in->picks[2 * i + 1] = reset;
    }
    in->picks_len = 2 * picks;
    return in;
}

/* The same run with so many of its picks taken, of which the next stands first. */
static struct input *with_steps(const struct input *before, size_t steps)
{
    struct input *in = new_input();
    *in = *before;
    in->state = ind_run(in->list, in->list_len, in->state, in->log, sizeof in->log, in->kept, sizeof in->kept, in->picks,
                        2 * steps, SIZE_MAX)
                    .state;
    in->our_state = same_as(&in->state);
    in->picks_len -= 2 * steps;
    memmove(in->picks, in->picks + 2 * steps, in->picks_len);
    return in;
}

/* The same state with the last station alone in turn; the first pick is of the first, which is behind. */
static struct input *with_behind(const struct input *before)
{
    struct input *in = new_input();
    *in = *before;
    in->state.pri[in->state.n - 1] = 0;
    in->our_state = same_as(&in->state);
    in->picks[0] = 0;
    return in;
}

/* ---- the calls */

union our_answer {
    press_checked checked;
    press_built built;
    press_outcome started;
    press_outcome stepped;
    press_ran ran;
    press_outcome undone;
    press_told told;
    press_reason reason;
    press_lit lit;
};

union their_answer {
    struct ind_check_answer checked;
    struct ind_build_answer built;
    struct ind_state_answer state;
    struct ind_run_answer ran;
    struct ind_readiness_answer told;
    struct ind_why_answer reason;
    struct ind_lights_answer lit;
};

static const uint8_t resets[8] = {3, 3, 3, 3, 3, 3, 3, 3};

/* What each side writes to. */
static uint8_t our_list[PRESS_LIST_BYTES], their_list[PRESS_LIST_BYTES];
static uint8_t our_log[PRESS_LOG_BYTES], their_log[PRESS_LOG_BYTES];
static uint8_t our_kept[PRESS_KEPT_BYTES], their_kept[PRESS_KEPT_BYTES];

typedef void our_call(const struct input *in, union our_answer *r);
typedef void their_call(const struct input *in, union their_answer *r);

/* Functions of the types of the library's that do nothing, and that the compiler may not see through. */
#pragma GCC diagnostic push
#pragma GCC diagnostic ignored "-Wunused-parameter"
#define IDLE(answer, call, ...)                                                                                        \
    static __typeof__(press_##call) idle_##call;                                                                       \
    __attribute__((noipa, noinline)) static answer idle_##call(__VA_ARGS__)                                            \
    {                                                                                                                  \
        return (answer){0};                                                                                            \
    }
IDLE(press_checked, check, const uint8_t *file, size_t file_len)
IDLE(press_built, build, const uint8_t *file, size_t file_len, uint8_t *list, size_t list_len)
IDLE(press_outcome, start, const uint8_t *list, size_t list_len, uint8_t b, const uint8_t *given, size_t given_len,
     uint8_t *log, size_t log_len, const uint8_t *kept, size_t kept_len)
IDLE(press_outcome, step, press_state state, const uint8_t *list, size_t list_len, uint8_t *log, size_t log_len,
     uint8_t *kept, size_t kept_len, uint8_t station, uint8_t reset)
IDLE(uint8_t, advance, press_state *state, const uint8_t *list, size_t list_len, uint8_t *log, size_t log_len,
     uint8_t *kept, size_t kept_len, uint8_t station, uint8_t reset)
IDLE(press_ran, run, press_state state, const uint8_t *list, size_t list_len, uint8_t *log, size_t log_len,
     uint8_t *kept, size_t kept_len, const uint8_t *picks, size_t picks_len, size_t most)
IDLE(press_outcome, undo, press_state state, const uint8_t *list, size_t list_len, const uint8_t *log, size_t log_len,
     const uint8_t *kept, size_t kept_len)
IDLE(press_told, readiness, press_state state, const uint8_t *list, size_t list_len, uint8_t station)
IDLE(press_reason, why, press_state state, const uint8_t *list, size_t list_len, uint8_t station)
IDLE(press_lit, lights, press_state state, const uint8_t *list, size_t list_len)
#pragma GCC diagnostic pop

/* Our calls, which are timed and counted; and those of the idle functions, which take the caller's stack alone. */
#define CALLER(call) our_##call
#define CALLEE(call) press_##call
#include "callers.h"
#undef CALLER
#undef CALLEE
#define CALLER(call) bare_##call
#define CALLEE(call) idle_##call
#include "callers.h"

static void their_check(const struct input *in, union their_answer *r)
{
    r->checked = ind_check(in->file, in->file_len);
}

static void their_build(const struct input *in, union their_answer *r)
{
    r->built = ind_build(in->file, in->file_len, their_list, sizeof their_list);
}

static void their_start(const struct input *in, union their_answer *r)
{
    r->state = ind_start(in->list, in->list_len, MOST_RESET, resets, in->state.n, their_log, sizeof their_log, their_kept,
                         sizeof their_kept);
}

/* A step takes the first pick. */
static void their_step(const struct input *in, union their_answer *r)
{
    r->state = ind_step(in->list, in->list_len, in->state, their_log, sizeof their_log, their_kept, sizeof their_kept,
                        in->picks[0], in->picks[1]);
}

static void their_run(const struct input *in, union their_answer *r)
{
    r->ran = ind_run(in->list, in->list_len, in->state, their_log, sizeof their_log, their_kept, sizeof their_kept,
                     in->picks, in->picks_len, SIZE_MAX);
}

static void their_undo(const struct input *in, union their_answer *r)
{
    r->state = ind_undo(in->list, in->list_len, in->state, in->log, sizeof in->log, in->kept, sizeof in->kept);
}

/* Readiness of the station of the first pick. */
static void their_readiness(const struct input *in, union their_answer *r)
{
    r->told = ind_readiness(in->list, in->list_len, in->state, in->picks[0]);
}

/* Why of the same. */
static void their_why(const struct input *in, union their_answer *r)
{
    r->reason = ind_why(in->list, in->list_len, in->state, in->picks[0]);
}

static void their_lights(const struct input *in, union their_answer *r)
{
    r->lit = ind_lights(in->list, in->list_len, in->state);
}

static their_call *const their_calls[CALLS] = {their_check, their_build, their_start, their_step, their_step,
                                               their_run, their_undo, their_readiness, their_why, their_lights};

/* Both answers to a call are the same and have the expected number. */
static int right(enum call call, const union our_answer *r, const union their_answer *t, uint8_t number)
{
    switch (call) {
    case CHECK:
        return r->checked.number == number && t->checked.number == number && r->checked.place == t->checked.place;
    case BUILD:
        return r->built.number == number && t->built.number == number && r->built.place == t->built.place
            && r->built.count == t->built.count;
    case RUN:
        return r->ran.number == number && t->ran.number == number && r->ran.steps == t->ran.steps
            && same_state(&r->ran.state, &t->ran.state);
    case READINESS:
        return r->told.number == number && t->told.number == number && r->told.place == t->told.place;
    case WHY:
        return r->reason.number == number && same_reason(&r->reason, &t->reason);
    case LIGHTS:
        return r->lit.number == number && t->lit.number == number && r->lit.ready == t->lit.ready
            && r->lit.in_turn == t->lit.in_turn && r->lit.waiting == t->lit.waiting && r->lit.ended == t->lit.ended
            && memcmp(r->lit.rows, t->lit.rows, sizeof r->lit.rows) == 0;
    default: /* a start, a step and an undo answer alike */
        return r->stepped.number == number && t->state.number == number && same_state(&r->stepped.state, &t->state.state);
    }
}

/* Clears what build, start and run write to. */
static void clear(enum call call, uint8_t *list, uint8_t *log, uint8_t *kept)
{
    if (call == BUILD)
        memset(list, PAINT, PRESS_LIST_BYTES);
    if (call == START || call == RUN)
        memset(log, PAINT, PRESS_LOG_BYTES);
    if (call == RUN)
        memset(kept, PAINT, PRESS_KEPT_BYTES);
}

/* Whether a call's buffers are cleared between repetitions: a step writes the same bytes each time, and these calls many. */
static int is_cleared(enum call call)
{
    return call == BUILD || call == START || call == RUN;
}

static const char *cleared(enum call call)
{
    if (is_cleared(call))
        return "yes";
    return call == STEP || call == ADVANCE ? "no" : "none";
}

/* ---- times */

struct timing {
    size_t repetitions;
    double ours, theirs; /* nanoseconds a call */
};

static double now(void)
{
    struct timespec t;
    clock_gettime(CLOCK_MONOTONIC, &t);
    return 1e9 * (double)t.tv_sec + (double)t.tv_nsec;
}

static union our_answer our_answers[STRETCH];
static union their_answer their_answers[STRETCH];

/* Nanoseconds of so many repetitions, at most a stretch, of a call of the library's. */
static double our_stretch(enum call call, const struct input *in, size_t repetitions)
{
    our_call *const made = our_calls[call];
    clear(call, our_list, our_log, our_kept);
    const double began = now();
    for (size_t i = 0; i < repetitions; i++)
        made(in, &our_answers[i]);
    return now() - began;
}

static double their_stretch(enum call call, const struct input *in, size_t repetitions)
{
    their_call *const made = their_calls[call];
    clear(call, their_list, their_log, their_kept);
    const double began = now();
    for (size_t i = 0; i < repetitions; i++)
        made(in, &their_answers[i]);
    return now() - began;
}

/* Ends the program unless each of the answers just timed is right and both sides wrote the same. */
static void must_be_right(const char *name, enum call call, uint8_t number, size_t answers)
{
    int same = memcmp(our_list, their_list, sizeof our_list) == 0 && memcmp(our_log, their_log, sizeof our_log) == 0
        && memcmp(our_kept, their_kept, sizeof our_kept) == 0;
    for (size_t i = 0; i < answers; i++)
        same = same && right(call, &our_answers[i], &their_answers[i], number);
    if (!same) {
        fprintf(stderr, "bench: %s, %s: the two differ, or do not answer %d\n", call_names[call], name, number);
        exit(1);
    }
}

/* One round: so many repetitions of each side by turns, a stretch at a time, and nanoseconds a call. */
static struct timing one_round(const char *name, enum call call, const struct input *in, uint8_t number, size_t repetitions)
{
    struct timing t = {repetitions, 0, 0};
    const size_t most = is_cleared(call) ? 1 : STRETCH;
    for (size_t done = 0, stretch; done < repetitions; done += stretch) {
        stretch = repetitions - done < most ? repetitions - done : most;
        t.ours += our_stretch(call, in, stretch);
        t.theirs += their_stretch(call, in, stretch);
        must_be_right(name, call, number, stretch);
    }
    t.ours /= (double)repetitions;
    t.theirs /= (double)repetitions;
    return t;
}

/* The best of the rounds, each side's own; the repetitions double until a round of either lasts long enough. */
static struct timing timed(const char *name, enum call call, const struct input *in, uint8_t number)
{
    size_t repetitions = 1;
    for (enum call c = CHECK; c < CALLS; c++) {
        clear(c, our_list, our_log, our_kept);
        clear(c, their_list, their_log, their_kept);
    }
    struct timing best = one_round(name, call, in, number, repetitions);
    while ((double)repetitions * (best.ours < best.theirs ? best.ours : best.theirs) < ROUND_NS)
        best = one_round(name, call, in, number, repetitions *= 2);
    for (int i = 1; i < ROUNDS; i++) {
        const struct timing t = one_round(name, call, in, number, repetitions);
        best.ours = t.ours < best.ours ? t.ours : best.ours;
        best.theirs = t.theirs < best.theirs ? t.theirs : best.theirs;
    }
    return best;
}

/* ---- stacks */

static uint8_t stack[STACK_BYTES];
static ucontext_t here, there;
static struct {
    our_call *made;
    const struct input *in;
    uint8_t *top;
} deep;

/* Makes the call; all that it uses lies below this frame, with its return address. */
static void on_stack(void)
{
    static union our_answer r;
    deep.top = __builtin_frame_address(0);
    deep.made(deep.in, &r);
    __asm__ volatile(""); /* a call and not a jump: this frame stays above it */
}

/* The bytes of stack that a call overwrites, with its arguments and its return address: the stack is painted before. */
static size_t stack_of(our_call *made, const struct input *in)
{
    size_t low = 0;
    memset(stack, PAINT, sizeof stack);
    deep.made = made;
    deep.in = in;
    getcontext(&there);
    there.uc_stack.ss_sp = stack;
    there.uc_stack.ss_size = sizeof stack;
    there.uc_link = &here;
    makecontext(&there, on_stack, 0);
    swapcontext(&here, &there);
    while (low < sizeof stack && stack[low] == PAINT)
        low++;
    return (size_t)(deep.top - (stack + low));
}

/* ---- the tables */

/* What is timed: a call on an input and on one half as large, and the number that it answers. */
struct subject {
    enum call call;
    const char *name;
    uint8_t number;
    const struct input *whole, *half;
    const char *doubled; /* what is half as large */
    struct timing timing;
};

enum { MOST_SUBJECTS = 48 };
static struct subject subjects[MOST_SUBJECTS];
static size_t subject_count;

static void subject(enum call call, const char *name, uint8_t number, const struct input *whole,
                    const struct input *half, const char *doubled)
{
    const struct subject s = {call, name, number, whole, half, doubled, {0, 0, 0}};
    subjects[subject_count++] = s;
}

static void make_file_subjects(void)
{
    const struct input *flat = flat_file(1024), *nested = nested_file(1024), *deep511 = deep_file(1024);
    const struct input *flat_half = flat_file(512), *nested_half = nested_file(512), *deep255 = deep_file(512);
    const struct input *open = open_file(1024, IND_WHILE), *open_half = open_file(512, IND_WHILE);
    for (enum call call = CHECK; call <= BUILD; call++) {
        subject(call, "1,024 records, flat", 0, flat, flat_half, "records of the file");
        subject(call, "1,024 records, 16 deep", 0, nested, nested_half, "records of the file");
        subject(call, "1,024 records, 511 deep: DEPTH", IND_DEPTH, deep511, deep255, "records of the file");
        subject(call, "1,024 records, 1,023 deep: SHAPE", IND_SHAPE, open, open_half, "records of the file");
    }
}

static void make_run_subjects(void)
{
    const struct input *small = dryer(), *loops = with_picks(pair(), 128), *few = with_picks(long_list(516), 64);
    const struct input *all = with_picks(long_list(IND_MAX_ITEMS), IND_MAX_STEPS);
    const struct input *fewer_picks = with_picks(long_list(IND_MAX_ITEMS), IND_MAX_STEPS / 2);
    /* Each station stands at an AWAIT that holds, so that a step runs a body. */
    const struct input *bodies = with_picks(await_loops(100), IND_MAX_STEPS);
    const struct input *short_bodies = with_picks(await_loops(50), IND_MAX_STEPS);
    const struct input *waiting = await_list(100, 1), *short_waiting = await_list(50, 1);
    subject(START, "list of 1,032 records", 0, all, few, "records of the list");
    subject(STEP, "list of 7 records", 0, small, NULL, "");
    subject(STEP, "list of 1,032 records", 0, all, few, "records of the list");
    subject(STEP, "AWAIT of 100 records", 0, bodies, short_bodies, "records of a body");
    subject(STEP, "the 64th, list of 8 records", 0, with_steps(loops, 63), NULL, "");
    subject(ADVANCE, "list of 7 records", 0, small, NULL, "");
    subject(ADVANCE, "list of 1,032 records", 0, all, few, "records of the list");
    subject(ADVANCE, "AWAIT of 100 records", 0, bodies, short_bodies, "records of a body");
    subject(RUN, "4,096 picks, list of 1,032 records", 0, all, fewer_picks, "picks");
    subject(RUN, "4,096 picks, AWAITs of 100 records", 0, bodies, short_bodies, "records of a body");
    /* However many steps stand, at most 63 are replayed: of 65 none, of 1,000 39, of 2,000 15, of 64 and 4,096 63. */
    subject(UNDO, "65 steps, list of 8 records", 0, with_steps(loops, 65), NULL, "");
    subject(UNDO, "64 steps, list of 1,032 records", 0, with_steps(all, 64), NULL, "");
    subject(UNDO, "65 steps, list of 1,032 records", 0, with_steps(all, 65), NULL, "");
    subject(UNDO, "1,000 steps, list of 1,032 records", 0, with_steps(all, 1000), NULL, "");
    subject(UNDO, "2,000 steps, list of 1,032 records", 0, with_steps(all, 2000), NULL, "");
    subject(UNDO, "4,096 steps, list of 1,032 records", 0, with_steps(all, IND_MAX_STEPS), with_steps(all, IND_MAX_STEPS / 2),
            "standing steps");
    subject(UNDO, "4,096 steps, AWAITs of 100 records", 0, with_steps(bodies, IND_MAX_STEPS),
            with_steps(short_bodies, IND_MAX_STEPS), "records of a body");
    subject(READINESS, "list of 7 records", 0, small, NULL, "");
    subject(READINESS, "list of 1,032 records", 0, all, few, "records of the list");
    subject(READINESS, "8 waiting at AWAITs of 100 records", IND_NOT_READY, waiting, short_waiting, "records of a body");
    subject(WHY, "list of 7 records", 0, small, NULL, "");
    subject(WHY, "list of 1,032 records", 0, all, few, "records of the list");
    subject(WHY, "8 waiting at AWAITs of 100 records", IND_NOT_READY, waiting, short_waiting, "records of a body");
    subject(WHY, "8 ready, behind, 1,032 records", IND_TURN, with_behind(all), with_behind(few), "records of the list");
    subject(LIGHTS, "8 ready at AWAITs of 100 records", 0, bodies, short_bodies, "records of a body");
    subject(LIGHTS, "8 waiting at AWAITs of 100 records", 0, waiting, short_waiting, "records of a body");
}

/* The first table. Answers the worst ratio. */
static double show_ratios(void)
{
    double worst = 0;
    printf("Ratios: the best of %d rounds of each side, the two by turns. Cleared: whether buffers were cleared between\n"
           "repetitions; none where the call writes to none.\n\n",
           ROUNDS);
    printf("%-9s %-36s %11s %7s %10s %10s %6s\n", "call", "on", "repetitions", "cleared", "ours ns", "theirs ns",
           "ratio");
    for (struct subject *s = subjects; s < subjects + subject_count; s++) {
        s->timing = timed(s->name, s->call, s->whole, s->number);
        const double ratio = s->timing.ours / s->timing.theirs;
        printf("%-9s %-36s %11zu %7s %10.0f %10.0f %6.2f\n", call_names[s->call], s->name, s->timing.repetitions,
               cleared(s->call), s->timing.ours, s->timing.theirs, ratio);
        worst = ratio > worst ? ratio : worst;
    }
    return worst;
}

/*
 * The second table: of each call the input that takes most stack, and what the same call of an idle function takes.
 * Answers the deepest.
 */
static size_t show_stacks(void)
{
    size_t deepest = 0;
    printf("\nStack: the deepest of each of our calls, and of those bytes the caller's, which are its frame, the\n"
           "arguments and the place for the answer where they are on the stack, and the return address.\n\n");
    printf("%-9s %-36s %11s %11s\n", "call", "on", "bytes", "caller's");
    for (enum call call = CHECK; call < CALLS; call++) {
        const struct subject *at = NULL;
        size_t most = 0;
        for (const struct subject *s = subjects; s < subjects + subject_count; s++) {
            const size_t bytes = s->call == call ? stack_of(our_calls[call], s->whole) : 0;
            if (bytes > most) {
                most = bytes;
                at = s;
            }
        }
        printf("%-9s %-36s %11zu %11zu\n", call_names[call], at ? at->name : "", most,
               at ? stack_of(bare_calls[call], at->whole) : 0);
        deepest = most > deepest ? most : deepest;
    }
    return deepest;
}

/* The third table. Answers the worst growth. */
static double show_growths(void)
{
    double worst = 0;
    printf("\nGrowth: our time on the whole input by our time on one with half of what the last column names.\n\n");
    printf("%-9s %-36s %10s %10s %6s  %s\n", "call", "on", "half ns", "whole ns", "growth", "doubled");
    for (const struct subject *s = subjects; s < subjects + subject_count; s++) {
        if (!s->half)
            continue;
        const struct timing half = timed(s->name, s->call, s->half, s->number);
        const double growth = s->timing.ours / half.ours;
        printf("%-9s %-36s %10.0f %10.0f %6.2f  %s\n", call_names[s->call], s->name, half.ours, s->timing.ours, growth,
               s->doubled);
        worst = growth > worst ? growth : worst;
    }
    return worst;
}

static const char *met(int is_met)
{
    return is_met ? "met    " : "not met";
}

/* ---- counts */

/* A row of the first table: the call, and what it is given. */
struct row {
    enum call call;
    struct input in;
};

/*
 * Makes each row's calls, writes the rows to a file and prints their names, a line each. A run that is counted finds its
 * input there, and has to make none.
 */
static int write_rows(const char *path)
{
    static struct row row;
    FILE *file = fopen(path, "wb");
    int written = file != NULL;
    for (const struct subject *s = subjects; written && s < subjects + subject_count; s++) {
        one_round(s->name, s->call, s->whole, s->number, 1);
        row.call = s->call;
        row.in = *s->whole;
        written = fwrite(&row, sizeof row, 1, file) == 1;
        printf("%s\t%s\n", call_names[s->call], s->name);
    }
    if (!written || fclose(file) != 0) {
        fprintf(stderr, "bench: %s could not be written\n", path);
        return 2;
    }
    return 0;
}

/* Sums the bytes that a row's call judges: those of the file, or of the list. */
__attribute__((noinline)) static void sum_once(const struct row *row)
{
    const int of_file = row->call == CHECK || row->call == BUILD;
    static volatile uint32_t sum;
    sum = floor_sum(of_file ? row->in.file : row->in.list, of_file ? row->in.file_len : row->in.list_len);
}

enum side { OURS, THEIRS, FLOOR, SIDES };

static const char *const side_names[SIDES] = {"ours", "theirs", "floor"};

/*
 * Makes one call, of either side or of the floor. In the emulator's log the lines of this function stand around the
 * call's, so it is neither inlined nor copied, calls nothing else, and its last instruction is not the call.
 */
__attribute__((noinline, noclone)) static void counted(const struct row *row, enum side side)
{
    if (side == OURS)
        our_calls[row->call](&row->in, &our_answers[0]);
    else if (side == THEIRS)
        their_calls[row->call](&row->in, &their_answers[0]);
    else
        sum_once(row);
    __asm__ volatile("");
}

/* Makes a call of the row of the file at a place, counted from 0. */
static int count_row(const char *path, long place, const char *name)
{
    static struct row row;
    int side = 0;
    while (side < SIDES && strcmp(name, side_names[side]) != 0)
        side++;
    if (side == SIDES) {
        fprintf(stderr, "bench: no side %s\n", name);
        return 2;
    }
    FILE *file = fopen(path, "rb");
    if (!file || fseek(file, place * (long)sizeof row, SEEK_SET) != 0 || fread(&row, sizeof row, 1, file) != 1) {
        fprintf(stderr, "bench: %s has no row %ld\n", path, place);
        return 2;
    }
    counted(&row, (enum side)side);
    return 0;
}

/* The three tables, and which of the aims are met. */
static void show_tables(void)
{
    const double ratio = show_ratios();
    const size_t deepest = show_stacks();
    const double growth = show_growths();
    printf("\n%s  no ratio above %.1f: the worst is %.2f\n", met(ratio <= most_ratio), most_ratio, ratio);
    printf("%s  no call above %d bytes of stack: the deepest is %zu\n", met(deepest <= MOST_STACK), MOST_STACK, deepest);
    printf("%s  growth linear, at most %.1f: the worst is %.2f\n", met(growth <= most_growth), most_growth, growth);
}

int main(int argc, char **argv)
{
    setvbuf(stdout, NULL, _IOLBF, 0);
    if (argc == 5 && strcmp(argv[1], "count") == 0)
        return count_row(argv[2], atol(argv[3]), argv[4]);
    make_file_subjects();
    make_run_subjects();
    if (argc == 3 && strcmp(argv[1], "rows") == 0)
        return write_rows(argv[2]);
    show_tables();
    return 0;
}
