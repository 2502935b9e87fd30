/*
 * The press calls for C and C++: check and build a written sequence, start a run of its list, step it, run it, take
 * steps back, ask of a station whether it is ready and why it was not picked, and light all of them. Link libpanel.a.
 * Each call answers by the rules of document 01, as docs/AMENDMENTS.md amends them, whatever it is given; none prints,
 * allocates or keeps a pointer.
 *
 * Lending. Bytes are lent as a pointer and their number. No pointer is null, also where the number is 0. What a call
 * writes to (list in press_build; log in press_start; log and kept in press_step, press_advance and press_run; state in
 * press_advance) overlaps nothing else that is lent to the same call. The bytes and the fields may hold any values: a
 * list or a state that is not sound is refused.
 *
 * A run is kept in two buffers, which it has to itself from its start on: the log, with two bytes a step, and beside it
 * kept, with whole states, from which press_undo goes back without replaying every step. Lend both whole, and let only
 * these calls write them; docs/KEPT.md has the bytes of a kept state. Neither has to be cleared before.
 *
 * Refusals. Each answer has a number: 0, or that of the refusal, named below; press_readiness gives 16 and 11 as its
 * answer too, and press_why 16, 11 and 12. A refused call leaves all that it was lent as it was; where it answers a
 * state, it is the state given, or zeros from press_start. Only press_run may have taken steps before the refusal, and
 * those stand.
 */
#ifndef PRESS_H
#define PRESS_H

#include <stddef.h>
#include <stdint.h>

#ifdef __cplusplus
extern "C" {
#endif

/* The refusals, each with the calls that give it. */
enum {
    PRESS_LENGTH = 1,     /* check, build: bytes not a multiple of 8, none, or above 8,192; run: odd picks */
    PRESS_FIELD = 2,      /* check, build: a record outside the table of fields */
    PRESS_COUNT = 3,      /* check, build: STATION records not 1 to 8 */
    PRESS_SHAPE = 4,      /* check, build: a record after which no continuation is well shaped, or an unfinished file */
    PRESS_DEPTH = 5,      /* check, build: a record that is the seventeenth open */
    PRESS_ROOM = 6,       /* build: the list buffer is short; start, step, advance, run: the log or kept is; undo: kept is */
    PRESS_LIST = 7,       /* start, step, advance, run, undo, readiness, why, lights: the list is not sound */
    PRESS_STATE = 8,      /* step, advance, run, undo, readiness, why, lights: the state is not sound against the list;
                             undo: nor is the kept state used, or it has another m or b, or a byte that is to be 0 is not */
    PRESS_FULL = 9,       /* step, advance, run: 4,096 steps stand */
    PRESS_COMPONENT = 10, /* step, advance, run, readiness, why: no such station */
    PRESS_NOT_READY = 11, /* step, advance, run, readiness, why: the station is waiting */
    PRESS_TURN = 12,      /* step, advance, run, why: the station is ready, and a ready one has a lower priority number */
    PRESS_RESET = 13,     /* start: resets not one a station, or one above b; step, advance, run: a reset above b */
    PRESS_EMPTY = 14,     /* undo: no step stands */
    PRESS_LOG = 15,       /* undo: the log is short, or of what is replayed a start record is wrong or a step refused */
    PRESS_ENDED = 16      /* step, advance, run, readiness, why: the station has ended */
};

/* Bytes that are always enough. */
enum {
    PRESS_FILE_BYTES = 8192,  /* a written sequence: 1,024 records of 8 */
    PRESS_LIST_BYTES = 16512, /* a list: 1,032 records of 16 */
    PRESS_LOG_BYTES = 8208,   /* a log: 8 start records and 4,096 steps, 2 each */
    PRESS_KEPT_BYTES = 11776  /* the kept states: 64 of 184; fewer are refused with PRESS_ROOM */
};

/* ---- a written sequence and its list */

/*
 * 0 and place 0; or a refusal and its place. PRESS_FIELD, PRESS_SHAPE and PRESS_DEPTH have the place of a record,
 * counted from 0, an unfinished file (PRESS_SHAPE) the number of its records; PRESS_LENGTH and PRESS_COUNT have 0.
 */
typedef struct press_checked {
    uint8_t number;
    uint16_t place;
} press_checked;

/* 0, place 0 and the count of list records; or a refusal, its place (as above; PRESS_ROOM: 0) and count 0. */
typedef struct press_built {
    uint8_t number;
    uint16_t place;
    uint16_t count;
} press_built;

/*
 * Checks a written sequence. It answers 0 and place 0, or the first of the refusals 1 to 5 and its place.
 * It writes nothing.
 */
press_checked press_check(const uint8_t *file, size_t file_len);

/*
 * Builds the list of a written sequence into the front of the lent buffer, 16 bytes a record, and answers the count of
 * its records; bytes past the list stay. Refused (1 to 5 as press_check, then PRESS_ROOM), it leaves the buffer as it
 * was. The run calls take the list alone: 16 * count bytes of the buffer.
 */
press_built press_build(const uint8_t *file, size_t file_len, uint8_t *list, size_t list_len);

/* ---- a run */

/*
 * What a run has reached: the variables; each station's position, a record number of the list, its priority, and its
 * count, the times it was ready and passed over since its last pick or since the start, all three 0 from station n on;
 * the number of stations n, the largest reset b, and the number of standing steps m. A station's priority plus its
 * count is at most b, and no count is above b + n - 1.
 */
typedef struct press_state {
    uint32_t vars[32];
    uint16_t positions[8];
    int16_t priorities[8];
    uint16_t counts[8];
    uint8_t n;
    uint8_t b;
    uint16_t m;
} press_state;

/*
 * What a start, a step and an undo answer: 0 and the state reached; or a refusal and the state given. A start is given
 * none: refused, it answers zeros, which are no state to go on from.
 */
typedef struct press_outcome {
    uint8_t number;
    press_state state;
} press_outcome;

/* 0 or the refusal that ended the run, the state reached, and the number of steps taken. */
typedef struct press_ran {
    uint8_t number;
    press_state state;
    size_t steps;
} press_ran;

/*
 * Starts a run, with a reset for each station and b the largest reset from then on. It answers the state with no steps,
 * the initial part run, the priorities set to the resets and the counts 0, and writes the start records to the front of
 * the log, two bytes for each station, its number and its reset; the bytes after them stay. Of kept it looks at the
 * length alone. Refused (PRESS_LIST, PRESS_RESET, PRESS_ROOM for the log, PRESS_ROOM for kept, in this order), it
 * answers zeros and leaves the log as it was.
 */
press_outcome press_start(const uint8_t *list, size_t list_len, uint8_t b, const uint8_t *resets, size_t resets_len,
                          uint8_t *log, size_t log_len, const uint8_t *kept, size_t kept_len);

/*
 * One step, by the pick of a station and its reset. It answers the state after the step and writes the pick, its two
 * bytes, to the log at byte 2 * (n + m) of the state given; the other bytes stay. Where the steps then standing are a
 * multiple of 64 it writes the state answered to its 184 bytes of kept, and else nothing of it. Refused (7, 8, 9, 6 for
 * the log, 6 for kept, 10, 16, 11, 12, 13, in this order), it answers the state given and leaves both as they were.
 */
press_outcome press_step(press_state state, const uint8_t *list, size_t list_len, uint8_t *log, size_t log_len,
                         uint8_t *kept, size_t kept_len, uint8_t station, uint8_t reset);

/*
 * The same step on a state that is lent. It answers 0, leaves the state after the step in the place of the one lent and
 * writes to the log and to kept as press_step does; or it answers press_step's refusal and leaves all three as they
 * were.
 */
uint8_t press_advance(press_state *state, const uint8_t *list, size_t list_len, uint8_t *log, size_t log_len,
                      uint8_t *kept, size_t kept_len, uint8_t station, uint8_t reset);

/*
 * Steps by the picks, two bytes each, a station and its reset, until the first refusal, the end of the picks or the
 * most-steps number. It answers 0 or the refusal, the state reached and the steps taken; each of them writes to the log
 * and to kept as press_step does. A refused step writes nothing, and those before it stand. PRESS_LENGTH, PRESS_LIST and
 * PRESS_STATE, in this order, are tested once, before any step: refused so, it answers the state given and 0 steps, and
 * leaves both as they were. Where no step is asked for, the buffers' lengths are not judged.
 */
press_ran press_run(press_state state, const uint8_t *list, size_t list_len, uint8_t *log, size_t log_len,
                    uint8_t *kept, size_t kept_len, const uint8_t *picks, size_t picks_len, size_t most);

/*
 * Takes the last step back: answers the state before it, reached again by the log from the nearest kept state at or
 * below it, or from the log's start records where at most 64 steps stand; at most 63 are replayed, however many stand. It writes nothing; the
 * next step writes over the record withdrawn. Refused (PRESS_LIST, PRESS_STATE, PRESS_EMPTY, PRESS_ROOM for kept,
 * PRESS_STATE for the kept state used, PRESS_LOG, in this order), it answers the state given.
 */
press_outcome press_undo(press_state state, const uint8_t *list, size_t list_len, const uint8_t *log, size_t log_len,
                         const uint8_t *kept, size_t kept_len);

/* ---- the stations */

/*
 * What a station's readiness tells. 0 and place 0: it is ready. PRESS_ENDED and place 0: it is at a STOP, and takes no
 * step unless an undo takes it back. PRESS_NOT_READY: it is at an AWAIT whose condition fails, and place is that record's number in the list.
 * Or a refusal and place 0. So it is ready exactly where the number is 0.
 */
typedef struct press_told {
    uint8_t number;
    uint16_t place;
} press_told;

/*
 * Whether a station is ready, has ended, or is waiting, and where. It keeps nothing from call to call and writes
 * nothing. PRESS_LIST, PRESS_STATE and PRESS_COMPONENT, in this order, are tested before. Where it answers 10, 16 or 11,
 * a step that picks this station is refused with the same number, given room in the log and in kept and fewer than 4,096 steps.
 */
press_told press_readiness(press_state state, const uint8_t *list, size_t list_len, uint8_t station);

/*
 * Why a station was not picked: one reason, by the number, and what goes with it; all that does not go with it is 0.
 * 0: it may be picked. PRESS_TURN: it is ready, but behind the station ahead, which is the lowest-numbered of the ready
 * stations of lowest priority number. PRESS_NOT_READY: it waits at the AWAIT that is record place of the list, whose
 * condition names the first count of the variables, 1 or 2 of them in the record's order, and they hold these values;
 * a condition of two variables that are the same names it twice. PRESS_ENDED: it is at a STOP. Or a refusal.
 */
typedef struct press_reason {
    uint8_t number;
    uint8_t ahead;
    uint16_t place;
    uint8_t count;
    uint8_t variables[2];
    uint32_t values[2];
} press_reason;

/*
 * Why a station was not picked in a state. It keeps nothing from call to call and writes nothing. PRESS_LIST, PRESS_STATE
 * and PRESS_COMPONENT, in this order, are tested before; refused, it answers zeros and the number. Whatever the reason, a
 * step that picks this station with a reset of at most b answers the same number, given room in the log and in kept and
 * fewer than 4,096 steps; so it is taken exactly where the number is 0. That 4,096 steps stand is no refusal here.
 */
press_reason press_why(press_state state, const uint8_t *list, size_t list_len, uint8_t station);

/* ---- the lights */

/*
 * 0 and the lights; or a refusal and zeros. Each mask has bit i for station i: the stations that are ready, in turn
 * (ready, and no ready one has a lower priority number), waiting and ended. rows[0][v] has the stations whose next steps
 * read variable v, rows[1][v] those whose next steps write it; a waiting station only reads, in its condition.
 */
typedef struct press_lit {
    uint8_t number;
    uint8_t ready;
    uint8_t in_turn;
    uint8_t waiting;
    uint8_t ended;
    uint8_t rows[2][32];
} press_lit;

/*
 * Which stations are ready, in turn, waiting and ended in a state, and which read and write each variable next. A
 * station at an AWAIT that is ready is shown at what the condition and the whole body touch; one that is waiting reads
 * the variables of its condition, which is what holds it, and writes none. It keeps nothing from call to call and writes
 * nothing. Refused (PRESS_LIST, PRESS_STATE, in this order), it answers zeros and the number.
 */
press_lit press_lights(press_state state, const uint8_t *list, size_t list_len);

#ifdef __cplusplus
}
#endif

#endif
