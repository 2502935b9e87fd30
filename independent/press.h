/*
 * press.h - the written sequence, the built-in list and its stepping.
 *
 * Every function is total: any bytes, any list, any state, any log, any kept
 * buffer and any lengths have an answer.  A slice of length 0 may have a null
 * pointer.
 * Nothing is kept between calls.  The slices handed to one call must not
 * overlap each other.
 */
#ifndef IND_PRESS_H
#define IND_PRESS_H

#include <stddef.h>
#include <stdint.h>

/* Kinds 1 to 10 stand in a written sequence; 16 and 17 only in a list. */
enum ind_kind {
    IND_STATION = 1,
    IND_SKIP = 2,
    IND_SET = 3,
    IND_IF = 4,
    IND_ELSE = 5,
    IND_FI = 6,
    IND_WHILE = 7,
    IND_OD = 8,
    IND_AWAIT = 9,
    IND_END = 10,
    IND_INIT = 16,
    IND_STOP = 17
};

/* The refusals; 0 is an acceptance. */
enum ind_refusal {
    IND_FINE = 0,
    IND_LENGTH = 1,
    IND_FIELD = 2,
    IND_COUNT = 3,
    IND_SHAPE = 4,
    IND_DEPTH = 5,
    IND_ROOM = 6,
    IND_LIST = 7,
    IND_STATE = 8,
    IND_FULL = 9,
    IND_COMPONENT = 10,
    IND_NOT_READY = 11,
    IND_TURN = 12,
    IND_RESET = 13,
    IND_EMPTY = 14,
    IND_LOG = 15,
    IND_ENDED = 16
};

enum ind_limit {
    IND_VARS = 32,            /* "Variables 0 to 31" */
    IND_STATIONS = 8,         /* "STATION records not 1 to 8" */
    IND_RECORD = 8,           /* "Records of 8 bytes" */
    IND_ITEM = 16,            /* "Records of 16 bytes" */
    IND_MAX_RECORDS = 1024,   /* "At most 1,024 records" */
    IND_MAX_FILE = 8192,      /* "or more than 8,192" */
    IND_MAX_ITEMS = 1032,     /* "at most 1,032 records" */
    IND_MAX_DEPTH = 16,       /* "at most 16 deep" */
    IND_MAX_STEPS = 4096,     /* "m is at most 4,096" */
    IND_KEPT_EVERY = 64,      /* "after steps 64, 128 and so on to 4,096" */
    IND_KEPT_PLACES = 64,     /* "64 kept states" */
    IND_KEPT_PLACE = 184,     /* the bytes of a kept place */
    IND_KEPT_BYTES = 11776,   /* the bytes of all of them */
    IND_INITIAL = 255,        /* the station byte of the initial part */
    IND_MAX_PICKS = 8192      /* bytes of a trace's picks file */
};

/* "A run state holds 32 variables, 8 positions, 8 priorities, n, B (0 to
 * 255) and the number of standing steps m."  It "gains eight counts: times
 * ready and passed over since the station's last pick, or since the start".
 * Any value may stand in any field; the calls test it. */
struct ind_state {
    uint32_t var[IND_VARS];
    uint16_t pos[IND_STATIONS];
    int16_t pri[IND_STATIONS];
    uint16_t cnt[IND_STATIONS];
    uint8_t n;
    uint8_t b;
    uint16_t m;
};

struct ind_check_answer {
    uint8_t number;
    uint16_t place;
};

struct ind_build_answer {
    uint8_t number;
    uint16_t place;
    uint16_t count;
};

struct ind_state_answer {
    uint8_t number;
    struct ind_state state;
};

struct ind_run_answer {
    uint8_t number;
    struct ind_state state;
    size_t steps;
};

/* Ready: 0 and place 0.  Ended: 16 and place 0.  Waiting: 11 and the record
 * number of the list where the station waits.  Or a refusal and place 0. */
struct ind_readiness_answer {
    uint8_t number;
    uint16_t place;
};

/* May be picked: 0.  Ended: 16.  Waiting: 11, the record number of the list
 * where the station waits, and the variables that its condition names, `count`
 * of them, with their values.  Behind: 12 and the station that is ahead.  Or a
 * refusal.  All that does not belong to the number is 0. */
struct ind_why_answer {
    uint8_t number;
    uint8_t ahead;
    uint16_t place;
    uint8_t count;
    uint8_t variables[2];
    uint32_t values[2];
};

struct ind_lights_answer {
    uint8_t number;
    uint8_t ready;
    uint8_t in_turn;
    uint8_t waiting;
    uint8_t ended;
    uint8_t rows[2][IND_VARS];   /* [0] reads, [1] writes */
};

/* Beside the log, start, step, run and undo are lent the kept buffer.  "Kept
 * place j, from 1 to 64, is for the state with m = 64j and begins at byte
 * 184(j-1)."  Of a longer buffer "the bytes past these are never read or
 * written". */

struct ind_check_answer ind_check(const uint8_t *file, size_t len);

struct ind_build_answer ind_build(const uint8_t *file, size_t len,
                                  uint8_t *buf, size_t buflen);

struct ind_state_answer ind_start(const uint8_t *list, size_t len, uint8_t b,
                                  const uint8_t *resets, size_t nresets,
                                  uint8_t *log, size_t loglen,
                                  uint8_t *kept, size_t keptlen);

struct ind_state_answer ind_step(const uint8_t *list, size_t len,
                                 struct ind_state state,
                                 uint8_t *log, size_t loglen,
                                 uint8_t *kept, size_t keptlen,
                                 uint8_t station, uint8_t reset);

struct ind_run_answer ind_run(const uint8_t *list, size_t len,
                              struct ind_state state,
                              uint8_t *log, size_t loglen,
                              uint8_t *kept, size_t keptlen,
                              const uint8_t *picks, size_t plen, size_t most);

struct ind_state_answer ind_undo(const uint8_t *list, size_t len,
                                 struct ind_state state,
                                 const uint8_t *log, size_t loglen,
                                 const uint8_t *kept, size_t keptlen);

struct ind_readiness_answer ind_readiness(const uint8_t *list, size_t len,
                                          struct ind_state state,
                                          uint8_t station);

struct ind_why_answer ind_why(const uint8_t *list, size_t len,
                              struct ind_state state, uint8_t station);

struct ind_lights_answer ind_lights(const uint8_t *list, size_t len,
                                    struct ind_state state);

size_t ind_trace(const uint8_t *program, size_t plen,
                 const uint8_t *start, size_t slen,
                 const uint8_t *picks, size_t klen,
                 uint8_t *out, size_t outlen);

#endif
