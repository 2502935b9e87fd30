/*
 * press.c - see press.h.
 *
 * Sentences in quotation marks are the documents' own, those on kept places
 * docs/KEPT.md's.
 */
#include "press.h"

/* ------------------------------------------------------------------ */
/* Reading and writing bytes                                          */
/* ------------------------------------------------------------------ */

/* The number in two bytes, "low byte first". */
static uint16_t low2(const uint8_t *p)
{
    return (uint16_t)(p[0] | (uint16_t)(p[1] << 8));
}

/* The number in four bytes, "low byte first". */
static uint32_t low4(const uint8_t *p)
{
    return (uint32_t)p[0] | (uint32_t)p[1] << 8 | (uint32_t)p[2] << 16
         | (uint32_t)p[3] << 24;
}

/* The same two, written. */
static void put2(uint8_t *p, uint16_t value)
{
    p[0] = (uint8_t)(value & 255);
    p[1] = (uint8_t)(value >> 8);
}

static void put4(uint8_t *p, uint32_t value)
{
    put2(p, (uint16_t)(value & 65535));
    put2(p + 2, (uint16_t)(value >> 16));
}

/* "kind, a, b, op, then k as four bytes": the fields of a record, in a
 * written sequence and in a list alike. */
static uint8_t kind_of(const uint8_t *r) { return r[0]; }
static uint8_t a_of(const uint8_t *r) { return r[1]; }
static uint8_t b_of(const uint8_t *r) { return r[2]; }
static uint8_t op_of(const uint8_t *r) { return r[3]; }
static uint32_t k_of(const uint8_t *r) { return low4(r + 4); }

/* "8 the station; 9 is 1 inside an AWAIT body, else 0; 10-11 and 12-13 two
 * targets t1 and t2": the rest of a list record. */
static uint8_t station_of(const uint8_t *r) { return r[8]; }
static uint8_t inside_of(const uint8_t *r) { return r[9]; }
static uint16_t t1_of(const uint8_t *r) { return low2(r + 10); }
static uint16_t t2_of(const uint8_t *r) { return low2(r + 12); }

/* Whether the bytes from `from` up to but without `to` are all zero. */
static int zero_bytes(const uint8_t *r, size_t from, size_t to)
{
    for (size_t i = from; i < to; i++)
        if (r[i] != 0)
            return 0;
    return 1;
}

/* ------------------------------------------------------------------ */
/* The table of fields                                                */
/* ------------------------------------------------------------------ */

/* Whether the 8 bytes obey the table of kinds 1 to 10. */
static int right_fields(const uint8_t *r)
{
    switch (kind_of(r)) {
    case IND_STATION:
    case IND_SKIP:
    case IND_ELSE:
    case IND_FI:
    case IND_OD:
    case IND_END:
        return zero_bytes(r, 1, 8);               /* "all zero" */
    case IND_SET:
        if (a_of(r) >= IND_VARS)                  /* "a below 32" */
            return 0;
        switch (op_of(r)) {
        case 0:                                   /* "k, with b = 0" */
            return b_of(r) == 0;
        case 1:                                   /* "b, with k = 0" */
            return b_of(r) < IND_VARS && k_of(r) == 0;
        case 2:                                   /* "b+k" */
        case 3:                                   /* "b-k" */
            return b_of(r) < IND_VARS;
        case 4:                                   /* "b + variable k" */
        case 5:                                   /* "b - variable k" */
            return b_of(r) < IND_VARS && k_of(r) < IND_VARS;
        default:
            return 0;
        }
    case IND_IF:
    case IND_WHILE:
    case IND_AWAIT:
        if (a_of(r) != 0 || b_of(r) >= IND_VARS)  /* "a = 0" */
            return 0;
        if (op_of(r) <= 3)
            return 1;
        return op_of(r) <= 7 && k_of(r) < IND_VARS; /* "against variable k" */
    default:
        return 0;
    }
}

/* Whether a record of this kind is a step, one that a list keeps. */
static int is_step(uint8_t kind)
{
    return kind == IND_SKIP || kind == IND_SET || kind == IND_IF
        || kind == IND_WHILE || kind == IND_AWAIT;
}

/* ------------------------------------------------------------------ */
/* Checking a written sequence                                        */
/* ------------------------------------------------------------------ */

/* Whether the kinds of `count` records (at most 1,024) are ill shaped, and
 * then in *place "the first record after which no continuation of any length
 * (any depth, any number of stations) is well shaped; if there is none and
 * the file is unfinished, the number of records".
 *
 * The record that each open part waits for is kept on a stack: ELSE, then FI
 * for an IF, OD for a WHILE, END for an AWAIT. */
static int ill_shaped(const uint8_t *file, size_t count, size_t *place)
{
    uint8_t awaited[IND_MAX_RECORDS];
    size_t open = 0;
    int in_station = 0;   /* a STATION was read */
    int in_body = 0;      /* an AWAIT is open */
    int empty = 0;        /* the list of statements being read has none yet */

    for (size_t i = 0; i < count; i++) {
        uint8_t kind = kind_of(file + IND_RECORD * i);
        int may_stand;

        *place = i;
        switch (kind) {
        case IND_SET:                 /* a statement, or the initial part */
            may_stand = 1;
            break;
        case IND_SKIP:
        case IND_IF:
            may_stand = in_station;
            break;
        case IND_WHILE:               /* "A body holds SKIP, SET and IF */
        case IND_AWAIT:               /* only, at every depth." */
            may_stand = in_station && !in_body;
            break;
        case IND_STATION:
            may_stand = open == 0 && !empty;
            break;
        case IND_ELSE:                /* "each list of statements has at */
        case IND_FI:                  /* least one" */
        case IND_OD:
        case IND_END:
            may_stand = open > 0 && awaited[open - 1] == kind && !empty;
            break;
        default:
            may_stand = 0;
            break;
        }
        if (!may_stand)
            return 1;

        switch (kind) {
        case IND_STATION:
            in_station = 1;
            break;
        case IND_IF:
            awaited[open++] = IND_ELSE;
            break;
        case IND_ELSE:
            awaited[open - 1] = IND_FI;
            break;
        case IND_WHILE:
            awaited[open++] = IND_OD;
            break;
        case IND_AWAIT:
            awaited[open++] = IND_END;
            in_body = 1;
            break;
        case IND_FI:
        case IND_OD:
            open--;
            break;
        case IND_END:
            open--;
            in_body = 0;
            break;
        default:
            break;
        }
        empty = kind == IND_STATION || kind == IND_IF || kind == IND_ELSE
             || kind == IND_WHILE || kind == IND_AWAIT;
    }
    *place = count;
    return open > 0 || empty;
}

/* Whether a well-shaped sequence is too deep, and then in *place the "first
 * record that is the seventeenth open". */
static int too_deep(const uint8_t *file, size_t count, size_t *place)
{
    size_t open = 0;

    for (size_t i = 0; i < count; i++) {
        switch (kind_of(file + IND_RECORD * i)) {
        case IND_IF:
        case IND_WHILE:
        case IND_AWAIT:               /* "each count one" */
            open++;
            break;
        case IND_FI:
        case IND_OD:
        case IND_END:
            open--;
            break;
        default:
            break;
        }
        if (open > IND_MAX_DEPTH) {
            *place = i;
            return 1;
        }
    }
    return 0;
}

/* How many STATION records there are, wherever they stand. */
static size_t count_stations(const uint8_t *file, size_t count)
{
    size_t stations = 0;

    for (size_t i = 0; i < count; i++)
        if (kind_of(file + IND_RECORD * i) == IND_STATION)
            stations++;
    return stations;
}

/* Answers a refusal's number and its place, or 0 and place 0.  "Tests in this
 * order, each over the whole file". */
struct ind_check_answer ind_check(const uint8_t *file, size_t len)
{
    struct ind_check_answer answer = { IND_FINE, 0 };
    size_t count, stations, place = 0;

    /* "bytes not a multiple of 8, none, or more than 8,192. Place 0." */
    if (len % IND_RECORD != 0 || len == 0 || len > IND_MAX_FILE) {
        answer.number = IND_LENGTH;
        return answer;
    }
    count = len / IND_RECORD;

    /* "first record outside the table above" */
    for (size_t i = 0; i < count; i++) {
        if (!right_fields(file + IND_RECORD * i)) {
            answer.number = IND_FIELD;
            answer.place = (uint16_t)i;
            return answer;
        }
    }

    /* "STATION records not 1 to 8. Place 0." */
    stations = count_stations(file, count);
    if (stations < 1 || stations > IND_STATIONS) {
        answer.number = IND_COUNT;
        return answer;
    }

    if (ill_shaped(file, count, &place)) {
        answer.number = IND_SHAPE;
        answer.place = (uint16_t)place;
    } else if (too_deep(file, count, &place)) {
        answer.number = IND_DEPTH;
        answer.place = (uint16_t)place;
    }
    return answer;
}

/* ------------------------------------------------------------------ */
/* Building the list                                                  */
/* ------------------------------------------------------------------ */

/* Where everything of an accepted sequence goes. */
struct plan {
    size_t n;                                /* the number of stations */
    size_t items;                            /* the number of list records */
    uint16_t item[IND_MAX_RECORDS];          /* a step's place in the list */
    uint16_t partner[IND_MAX_RECORDS];       /* IF to ELSE, ELSE to FI, WHILE
                                              * to OD, OD to WHILE, AWAIT to
                                              * END: places in the file */
    uint16_t arrive[IND_MAX_RECORDS + 1];    /* the step that is next when the
                                              * file is read on from here */
    uint16_t first[IND_STATIONS];            /* a station's first step */
    uint16_t stop[IND_STATIONS];             /* a station's STOP */
};

/* Gives each step its place in the list and each opening record its close.
 * "In order: for each station j, INIT ...; the initial part ...; for each
 * station its SKIP, SET, IF, WHILE and AWAIT records in file order, then
 * STOP". */
static void number_steps(struct plan *plan, const uint8_t *file, size_t count)
{
    uint16_t opened[IND_MAX_DEPTH];
    size_t open = 0;
    size_t seen = 0;        /* STATION records so far */
    size_t next;

    plan->n = count_stations(file, count);
    next = plan->n;
    for (size_t i = 0; i < count; i++) {
        uint8_t kind = kind_of(file + IND_RECORD * i);

        if (kind == IND_STATION) {
            if (seen > 0)
                plan->stop[seen - 1] = (uint16_t)next++;
            plan->first[seen] = (uint16_t)next;
            seen++;
        }
        if (is_step(kind))
            plan->item[i] = (uint16_t)next++;

        switch (kind) {
        case IND_IF:
        case IND_WHILE:
        case IND_AWAIT:
            opened[open++] = (uint16_t)i;
            break;
        case IND_ELSE:
            plan->partner[opened[open - 1]] = (uint16_t)i;
            opened[open - 1] = (uint16_t)i;
            break;
        case IND_OD:
            plan->partner[i] = opened[open - 1];
            plan->partner[opened[--open]] = (uint16_t)i;
            break;
        case IND_FI:
        case IND_END:
            plan->partner[opened[--open]] = (uint16_t)i;
            break;
        default:
            break;
        }
    }
    plan->stop[plan->n - 1] = (uint16_t)next++;
    plan->items = next;
}

/* Finds for each place of the file the step that is next there.  "ELSE, FI,
 * OD, END and STATION vanish into targets."  What a place leads to stands
 * behind it, or is a loop's own WHILE, so it is found from the end. */
static void find_arrivals(struct plan *plan, const uint8_t *file, size_t count)
{
    size_t station = plan->n;

    /* "after a station's last, its STOP" */
    plan->arrive[count] = plan->stop[plan->n - 1];
    for (size_t i = count; i-- > 0;) {
        switch (kind_of(file + IND_RECORD * i)) {
        case IND_STATION:
            station--;
            plan->arrive[i] = station > 0 ? plan->stop[station - 1] : 0;
            break;
        case IND_ELSE:      /* the end of the first branch: behind its FI */
            plan->arrive[i] = plan->arrive[plan->partner[i]];
            break;
        case IND_FI:
            plan->arrive[i] = plan->arrive[i + 1];
            break;
        case IND_OD:        /* "After the last step of a loop comes its WHILE" */
            plan->arrive[i] = plan->item[plan->partner[i]];
            break;
        case IND_END:       /* "In a body, target 0 leaves it." */
            plan->arrive[i] = 0;
            break;
        default:
            plan->arrive[i] = plan->item[i];
            break;
        }
    }
}

/* Writes the list that the plan describes; buf has room for it. */
static void write_list(const struct plan *plan, const uint8_t *file,
                       size_t count, uint8_t *buf)
{
    size_t station = IND_INITIAL;
    uint8_t inside = 0;

    /* "Unmentioned bytes are 0." */
    for (size_t i = 0; i < IND_ITEM * plan->items; i++)
        buf[i] = 0;

    for (size_t j = 0; j < plan->n; j++) {
        uint8_t *init = buf + IND_ITEM * j;
        uint8_t *stop = buf + IND_ITEM * (size_t)plan->stop[j];

        init[0] = IND_INIT;     /* "kind 16, a = j, station j, t1 = its first */
        init[1] = (uint8_t)j;   /* step" */
        init[8] = (uint8_t)j;
        put2(init + 10, plan->first[j]);
        stop[0] = IND_STOP;
        stop[8] = (uint8_t)j;
    }

    for (size_t i = 0; i < count; i++) {
        const uint8_t *r = file + IND_RECORD * i;
        uint8_t kind = kind_of(r);
        uint8_t *to;
        uint16_t t1, t2;

        if (kind == IND_STATION)
            station = station == IND_INITIAL ? 0 : station + 1;
        if (kind == IND_END)
            inside = 0;
        if (!is_step(kind))
            continue;

        to = buf + IND_ITEM * (size_t)plan->item[i];
        for (size_t j = 0; j < IND_RECORD; j++)
            to[j] = r[j];
        to[8] = (uint8_t)station;
        to[9] = inside;
        if (station == IND_INITIAL) {
            t1 = 0;             /* "the initial part, station 255, targets 0" */
            t2 = 0;
        } else if (kind == IND_IF || kind == IND_WHILE || kind == IND_AWAIT) {
            /* "t1 when true, t2 when false"; "AWAIT: t1 is the following
             * record, t2 the step after END" */
            t1 = plan->arrive[i + 1];
            t2 = plan->arrive[plan->partner[i] + 1];
        } else {
            t1 = plan->arrive[i + 1];   /* "t1 is the next step" */
            t2 = 0;
        }
        put2(to + 10, t1);
        put2(to + 12, t2);
        if (kind == IND_AWAIT)
            inside = 1;
    }
}

/* "Build answers the number, the place (ROOM: 0) and the count of list
 * records (refused: 0). On success bytes past the list stay."  Refused, all
 * of the buffer stays. */
struct ind_build_answer ind_build(const uint8_t *file, size_t len,
                                  uint8_t *buf, size_t buflen)
{
    struct ind_check_answer checked = ind_check(file, len);
    struct ind_build_answer answer = { checked.number, checked.place, 0 };
    struct plan plan = { 0 };
    size_t count = len / IND_RECORD;

    if (checked.number != IND_FINE)
        return answer;
    number_steps(&plan, file, count);
    if (buflen < IND_ITEM * plan.items) {  /* "if the lent buffer is shorter" */
        answer.number = IND_ROOM;
        return answer;
    }
    find_arrivals(&plan, file, count);
    write_list(&plan, file, count, buf);
    answer.count = (uint16_t)plan.items;
    return answer;
}

/* ------------------------------------------------------------------ */
/* Sound lists                                                        */
/* ------------------------------------------------------------------ */

/* A list together with what its test found out about it. */
struct list {
    const uint8_t *bytes;
    size_t items;     /* the number of its records */
    size_t n;         /* the number of INIT records that it opens with */
    size_t first;     /* the place of the first record behind the initial part */
};

static const uint8_t *item(const struct list *list, size_t place)
{
    return list->bytes + IND_ITEM * place;
}

/* Whether the place names an outside (inside = 0) or inside (inside = 1)
 * record of the station.  "INIT and initial records are neither." */
static int names(const struct list *list, size_t place, size_t station,
                 int inside)
{
    return place >= list->first && place < list->items
        && station_of(item(list, place)) == station
        && inside_of(item(list, place)) == inside;
}

/* Whether a later record, outside, is right. */
static int right_outside(const struct list *list, size_t place)
{
    const uint8_t *r = item(list, place);
    size_t station = station_of(r);

    switch (kind_of(r)) {
    case IND_SKIP:
    case IND_SET:               /* "SKIP's and SET's t2 is 0." */
        return right_fields(r) && names(list, t1_of(r), station, 0)
            && t2_of(r) == 0;
    case IND_IF:
    case IND_WHILE:
        return right_fields(r) && names(list, t1_of(r), station, 0)
            && names(list, t2_of(r), station, 0);
    case IND_AWAIT:             /* "AWAIT's t1 is its own place plus one, */
        return right_fields(r)  /* inside and of its station" */
            && t1_of(r) == place + 1
            && names(list, t1_of(r), station, 1)
            && names(list, t2_of(r), station, 0);
    case IND_STOP:              /* "STOP's are 0" */
        return zero_bytes(r, 1, 8) && t1_of(r) == 0 && t2_of(r) == 0;
    default:
        return 0;
    }
}

/* "Targets of inside records are 0 or a higher inside record of the same
 * station." */
static int right_inside_target(const struct list *list, size_t place,
                               size_t target)
{
    return target == 0
        || (target > place
            && names(list, target, station_of(item(list, place)), 1));
}

/* Whether a later record, inside, is right: "inside ones only 2, 3, 4". */
static int right_inside(const struct list *list, size_t place)
{
    const uint8_t *r = item(list, place);

    switch (kind_of(r)) {
    case IND_SKIP:
    case IND_SET:
        return right_fields(r) && right_inside_target(list, place, t1_of(r))
            && t2_of(r) == 0;
    case IND_IF:
        return right_fields(r) && right_inside_target(list, place, t1_of(r))
            && right_inside_target(list, place, t2_of(r));
    default:
        return 0;
    }
}

/* Whether the list is sound; *list then describes it. */
static int sound_list(struct list *list, const uint8_t *bytes, size_t len)
{
    /* "its length is a multiple of 16, at most 1,032 records" */
    if (len % IND_ITEM != 0 || len / IND_ITEM > IND_MAX_ITEMS)
        return 0;
    list->bytes = bytes;
    list->items = len / IND_ITEM;
    list->n = 0;

    /* "it opens with 1 to 8 INIT records numbered in turn" */
    while (list->n < list->items && kind_of(item(list, list->n)) == IND_INIT)
        list->n++;
    if (list->n < 1 || list->n > IND_STATIONS)
        return 0;

    /* "then come initial SETs" */
    list->first = list->n;
    while (list->first < list->items
           && station_of(item(list, list->first)) == IND_INITIAL) {
        const uint8_t *r = item(list, list->first);

        if (kind_of(r) != IND_SET || !right_fields(r) || !zero_bytes(r, 9, 16))
            return 0;
        list->first++;
    }

    for (size_t j = 0; j < list->n; j++) {
        const uint8_t *r = item(list, j);

        if (a_of(r) != j || !zero_bytes(r, 2, 8) || station_of(r) != j
            || inside_of(r) != 0 || !names(list, t1_of(r), j, 0)
            || t2_of(r) != 0 || !zero_bytes(r, 14, 16))
            return 0;
    }

    /* "every later record has a station below n and byte 9 either 0
     * (outside) or 1 (inside); fields obey the tables and unmentioned bytes
     * are 0" */
    for (size_t place = list->first; place < list->items; place++) {
        const uint8_t *r = item(list, place);

        if (station_of(r) >= list->n || !zero_bytes(r, 14, 16))
            return 0;
        if (inside_of(r) == 0) {
            if (!right_outside(list, place))
                return 0;
        } else if (inside_of(r) == 1) {
            if (!right_inside(list, place))
                return 0;
        } else {
            return 0;
        }
    }
    return 1;
}

/* ------------------------------------------------------------------ */
/* Sound states                                                       */
/* ------------------------------------------------------------------ */

/* Whether the state is sound for the (sound) list. */
static int sound_state(const struct list *list, const struct ind_state *state)
{
    int n = (int)list->n;

    /* "n is the list's, m is at most 4,096" */
    if (state->n != list->n || state->m > IND_MAX_STEPS)
        return 0;
    for (int i = 0; i < n; i++) {
        /* "each of the first n positions is an outside record of its
         * station" */
        if (!names(list, state->pos[i], (size_t)i, 0))
            return 0;
        /* "each station's priority plus its count is at most B"; with it
         * "each priority is at most B", as no count is below 0 */
        if ((int32_t)state->pri[i] + (int32_t)state->cnt[i] > state->b)
            return 0;
    }
    /* "for each k from 1 to n at most n-k of them are -k or lower" */
    for (int k = 1; k <= n; k++) {
        int low = 0;

        for (int i = 0; i < n; i++)
            if (state->pri[i] <= -k)
                low++;
        if (low > n - k)
            return 0;
    }
    /* "entries from n on are 0", and "counts from n on are zero" */
    for (int i = n; i < IND_STATIONS; i++)
        if (state->pos[i] != 0 || state->pri[i] != 0 || state->cnt[i] != 0)
            return 0;
    return 1;
}

/* ------------------------------------------------------------------ */
/* One step on a sound list and a sound state                         */
/* ------------------------------------------------------------------ */

/* Whether the condition of an IF, WHILE or AWAIT record holds. */
static int holds(const uint8_t *r, const uint32_t *var)
{
    uint32_t left = var[b_of(r)];
    uint32_t right = op_of(r) >= 4 ? var[k_of(r)] : k_of(r);

    switch (op_of(r) % 4) {
    case 0:                    /* "b equals," */
        return left == right;
    case 1:                    /* "differs from," */
        return left != right;
    case 2:                    /* "is below," */
        return left < right;
    default:                   /* "is at least k" */
        return left >= right;
    }
}

/* Does a SET record.  "Sums and differences wrap at 2^32". */
static void assign(const uint8_t *r, uint32_t *var)
{
    uint32_t k = k_of(r);
    uint32_t value;

    switch (op_of(r)) {
    case 0:
        value = k;
        break;
    case 1:
        value = var[b_of(r)];
        break;
    case 2:
        value = var[b_of(r)] + k;
        break;
    case 3:
        value = var[b_of(r)] - k;
        break;
    case 4:
        value = var[b_of(r)] + var[k];
        break;
    default:
        value = var[b_of(r)] - var[k];
        break;
    }
    var[a_of(r)] = value;
}

/* Does an AWAIT's body from the place on.  Each target is higher than the
 * record or 0, which leaves the body, so it ends. */
static void do_body(const struct list *list, size_t place, uint32_t *var)
{
    while (place != 0) {
        const uint8_t *r = item(list, place);

        if (kind_of(r) == IND_IF) {
            place = holds(r, var) ? t1_of(r) : t2_of(r);
        } else {
            if (kind_of(r) == IND_SET)
                assign(r, var);
            place = t1_of(r);
        }
    }
}

/* The record that station i stands at. */
static const uint8_t *next_step(const struct list *list,
                                const struct ind_state *state, size_t i)
{
    return item(list, state->pos[i]);
}

/* "ready, ended, or waiting with the record number where it waits": ended is
 * at a STOP, waiting is at an AWAIT whose condition fails, and there the
 * record number is the station's position.  "a station is ready when not at
 * STOP and, if at AWAIT, its condition holds". */
static struct ind_readiness_answer readiness(const struct list *list,
                                             const struct ind_state *state,
                                             size_t i)
{
    struct ind_readiness_answer answer = { IND_FINE, 0 };
    const uint8_t *r = next_step(list, state, i);

    if (kind_of(r) == IND_STOP) {
        answer.number = IND_ENDED;
    } else if (kind_of(r) == IND_AWAIT && !holds(r, state->var)) {
        answer.number = IND_NOT_READY;
        answer.place = state->pos[i];
    }
    return answer;
}

/* Whose turn it is. */
struct turn {
    uint8_t ready;
    uint8_t in_turn;
};

/* "in turn, that is ready with no ready station of lower priority number" */
static struct turn judge(const struct list *list, const struct ind_state *state)
{
    struct turn turn = { 0, 0 };
    int lowest = INT16_MAX;

    for (size_t i = 0; i < list->n; i++) {
        if (readiness(list, state, i).number != IND_FINE)
            continue;
        turn.ready |= (uint8_t)(1u << i);
        if (state->pri[i] < lowest)
            lowest = state->pri[i];
    }
    for (size_t i = 0; i < list->n; i++)
        if ((turn.ready >> i & 1) != 0 && state->pri[i] == lowest)
            turn.in_turn |= (uint8_t)(1u << i);
    return turn;
}

/* Tests 10, 16 and 11 to 13 of a step, and the step.  Answers the refusal or
 * 0; refused, the state stays.  m is at most 4,095. */
static uint8_t advance(const struct list *list, struct ind_state *state,
                       uint8_t station, uint8_t reset)
{
    struct turn turn;
    const uint8_t *r;

    if (station >= list->n)
        return IND_COMPONENT;
    turn = judge(list, state);            /* "Readiness is judged before the */
    if ((turn.ready >> station & 1) == 0) /* step." */
        return readiness(list, state, station).number;  /* 16 or 11 */
    if ((turn.in_turn >> station & 1) == 0)
        return IND_TURN;
    if (reset > state->b)
        return IND_RESET;

    /* "SKIP, SET, one test, and AWAIT with its body are one step each." */
    r = next_step(list, state, station);
    switch (kind_of(r)) {
    case IND_SET:
        assign(r, state->var);
        state->pos[station] = t1_of(r);
        break;
    case IND_IF:
    case IND_WHILE:
        state->pos[station] = holds(r, state->var) ? t1_of(r) : t2_of(r);
        break;
    case IND_AWAIT:
        do_body(list, t1_of(r), state->var);
        state->pos[station] = t2_of(r);
        break;
    default:
        state->pos[station] = t1_of(r);
        break;
    }

    /* "it gets the reset, each other ready station loses 1, others stay";
     * whoever loses 1 was "ready and passed over" once more */
    for (size_t i = 0; i < list->n; i++) {
        if (i != station && (turn.ready >> i & 1) != 0) {
            state->pri[i] = (int16_t)(state->pri[i] - 1);
            state->cnt[i] = (uint16_t)(state->cnt[i] + 1);
        }
    }
    state->pri[station] = reset;
    state->cnt[station] = 0;              /* "since the station's last pick" */
    state->m = (uint16_t)(state->m + 1);
    return IND_FINE;
}

/* ------------------------------------------------------------------ */
/* Kept states                                                        */
/* ------------------------------------------------------------------ */

/* Where the parts of a kept place begin. */
enum kept_part {
    KEPT_VARS = 0,            /* "variable v, four bytes from 4v on" */
    KEPT_POSITIONS = 128,     /* "two bytes from 128 + 2j on" */
    KEPT_PRIORITIES = 144,    /* "two bytes from 144 + 2j on" */
    KEPT_COUNTS = 160,        /* "two bytes from 160 + 2j on" */
    KEPT_N = 176,
    KEPT_B = 177,
    KEPT_M = 178,             /* "178, 179" */
    KEPT_REST = 180           /* "180" and "181 to 183", zero */
};

/* "A priority is written as the number 32,768 higher, so that it is never
 * negative". */
enum { KEPT_HIGHER = 32768 };

/* "Kept place j, from 1 to 64, ... begins at byte 184(j-1)." */
static size_t kept_place(size_t j)
{
    return IND_KEPT_PLACE * (j - 1);
}

/* Writes the state to the kept place at p, "all 184 bytes". */
static void keep(uint8_t *p, const struct ind_state *state)
{
    for (size_t v = 0; v < IND_VARS; v++)
        put4(p + KEPT_VARS + 4 * v, state->var[v]);
    for (size_t j = 0; j < IND_STATIONS; j++) {
        put2(p + KEPT_POSITIONS + 2 * j, state->pos[j]);
        put2(p + KEPT_PRIORITIES + 2 * j,
             (uint16_t)(state->pri[j] + KEPT_HIGHER));
        put2(p + KEPT_COUNTS + 2 * j, state->cnt[j]);
    }
    p[KEPT_N] = state->n;
    p[KEPT_B] = state->b;
    put2(p + KEPT_M, state->m);
    for (size_t i = KEPT_REST; i < IND_KEPT_PLACE; i++)
        p[i] = 0;
}

/* Whether the bytes of the kept place at p are some state's, sound or not;
 * *state is then that state. */
static int is_kept(const uint8_t *p, struct ind_state *state)
{
    /* "One in which any of these is not zero is no kept state." */
    if (!zero_bytes(p, KEPT_REST, IND_KEPT_PLACE))
        return 0;
    for (size_t v = 0; v < IND_VARS; v++)
        state->var[v] = low4(p + KEPT_VARS + 4 * v);
    for (size_t j = 0; j < IND_STATIONS; j++) {
        state->pos[j] = low2(p + KEPT_POSITIONS + 2 * j);
        state->pri[j] = (int16_t)(low2(p + KEPT_PRIORITIES + 2 * j)
                                  - KEPT_HIGHER);
        state->cnt[j] = low2(p + KEPT_COUNTS + 2 * j);
    }
    state->n = p[KEPT_N];
    state->b = p[KEPT_B];
    state->m = low2(p + KEPT_M);
    return 1;
}

/* ------------------------------------------------------------------ */
/* Steps with their log, and the start                                */
/* ------------------------------------------------------------------ */

/* Tests 9, 6, 10, 16 and 11 to 13 of a step, the step, its log record and, at
 * a multiple of 64, its kept place.  Answers the refusal or 0; refused, the
 * state, the log and the kept buffer stay. */
static uint8_t logged_step(const struct list *list, struct ind_state *state,
                           uint8_t *log, size_t loglen,
                           uint8_t *kept, size_t keptlen,
                           uint8_t station, uint8_t reset)
{
    size_t at = 2 * (list->n + state->m);  /* "one per step at byte 2(n+m)" */
    uint8_t refusal;

    if (state->m == IND_MAX_STEPS)         /* "step with m = 4,096" */
        return IND_FULL;
    if (loglen < at + 2)                   /* "log under 2(n+m+1)" */
        return IND_ROOM;
    if (keptlen < IND_KEPT_BYTES)          /* "a buffer that can't hold 64 */
        return IND_ROOM;                   /* kept states" */
    refusal = advance(list, state, station, reset);
    if (refusal != IND_FINE)
        return refusal;
    log[at] = station;
    log[at + 1] = reset;
    /* "Every step that reaches a multiple of 64 writes its place anew" */
    if (state->m % IND_KEPT_EVERY == 0)
        keep(kept + kept_place(state->m / IND_KEPT_EVERY), state);
    return IND_FINE;
}

/* The state after a start: "It runs the initial part and sets priorities to
 * the resets."  The variables "begin at 0", and so do the counts. */
static struct ind_state begin(const struct list *list, uint8_t b,
                              const uint8_t *resets)
{
    struct ind_state state = { 0 };

    for (size_t place = list->n; place < list->first; place++)
        assign(item(list, place), state.var);
    for (size_t i = 0; i < list->n; i++) {
        state.pos[i] = t1_of(item(list, i));
        state.pri[i] = resets[i];
    }
    state.n = (uint8_t)list->n;
    state.b = b;
    return state;
}

/* ------------------------------------------------------------------ */
/* The run calls                                                      */
/* ------------------------------------------------------------------ */

/* "START takes the list, B, exactly n reset bytes and a log buffer."  Answers
 * the state at the start and writes the n start records; refused (7, 13, 6 by
 * the log, 6 by the kept buffer), all zeros, and the log stays.  Of the kept
 * buffer only the length is looked at. */
struct ind_state_answer ind_start(const uint8_t *bytes, size_t len, uint8_t b,
                                  const uint8_t *resets, size_t nresets,
                                  uint8_t *log, size_t loglen,
                                  uint8_t *kept, size_t keptlen)
{
    struct ind_state_answer answer = { 0 };
    struct list list;

    (void)kept;                           /* "A START does not clear it" */
    if (!sound_list(&list, bytes, len)) {
        answer.number = IND_LIST;
        return answer;
    }
    /* "count not n or one above B" */
    answer.number = nresets == list.n ? IND_FINE : IND_RESET;
    for (size_t i = 0; i < list.n && answer.number == IND_FINE; i++)
        if (resets[i] > b)
            answer.number = IND_RESET;
    if (answer.number != IND_FINE)
        return answer;
    if (loglen < 2 * list.n) {            /* "start last, log under 2n bytes" */
        answer.number = IND_ROOM;
        return answer;
    }
    if (keptlen < IND_KEPT_BYTES) {       /* "after the log's 6" */
        answer.number = IND_ROOM;
        return answer;
    }
    answer.state = begin(&list, b, resets);
    for (size_t i = 0; i < list.n; i++) {
        log[2 * i] = (uint8_t)i;
        log[2 * i + 1] = resets[i];
    }
    return answer;
}

/* Answers the state after the step and writes its log record and, where it
 * reaches a multiple of 64, its kept place.  Refused (7, 8, 9, 6 by the log, 6
 * by the kept buffer, 10, 16, 11, 12, 13, in this order), the state given, and
 * the log and the kept buffer stay. */
struct ind_state_answer ind_step(const uint8_t *bytes, size_t len,
                                 struct ind_state state,
                                 uint8_t *log, size_t loglen,
                                 uint8_t *kept, size_t keptlen,
                                 uint8_t station, uint8_t reset)
{
    struct ind_state_answer answer = { IND_FINE, state };
    struct list list;

    if (!sound_list(&list, bytes, len))
        answer.number = IND_LIST;
    else if (!sound_state(&list, &state))
        answer.number = IND_STATE;
    else
        answer.number = logged_step(&list, &answer.state, log, loglen, kept,
                                    keptlen, station, reset);
    return answer;
}

/* "It stops at the first refusal, the end of the picks or that number, and
 * answers the state, the steps taken and the refusal or 0."  "Odd length is
 * LENGTH, tested first; then LIST and STATE, tested once even when no step is
 * allowed."  "A step refused within RUN writes nothing; the steps before it
 * stand."  Its steps judge the kept buffer: where none is tried, nobody
 * does. */
struct ind_run_answer ind_run(const uint8_t *bytes, size_t len,
                              struct ind_state state,
                              uint8_t *log, size_t loglen,
                              uint8_t *kept, size_t keptlen,
                              const uint8_t *picks, size_t plen, size_t most)
{
    struct ind_run_answer answer = { IND_FINE, state, 0 };
    struct list list;

    if (plen % 2 != 0) {
        answer.number = IND_LENGTH;
        return answer;
    }
    if (!sound_list(&list, bytes, len)) {
        answer.number = IND_LIST;
        return answer;
    }
    if (!sound_state(&list, &state)) {
        answer.number = IND_STATE;
        return answer;
    }
    while (answer.steps < most && answer.steps < plen / 2) {
        const uint8_t *pick = picks + 2 * answer.steps;

        answer.number = logged_step(&list, &answer.state, log, loglen, kept,
                                    keptlen, pick[0], pick[1]);
        if (answer.number != IND_FINE)
            break;
        answer.steps++;
    }
    return answer;
}

/* The state that an undo goes from where it goes from the start records.
 * Answers 0, or 15 for "a start record out of place or above B". */
static uint8_t from_start(const struct list *list, uint8_t b,
                          const uint8_t *log, struct ind_state *state)
{
    uint8_t resets[IND_STATIONS];

    for (size_t i = 0; i < list->n; i++) {
        if (log[2 * i] != i || log[2 * i + 1] > b)
            return IND_LOG;
        resets[i] = log[2 * i + 1];
    }
    *state = begin(list, b, resets);
    return IND_FINE;
}

/* "UNDO answers the state reached by replaying the first n+m-1 records", and
 * "from the nearest" kept state "at or below the target, or below 64 from the
 * start records".  It leaves the log and the kept buffer.  Refused (7, 8, 14,
 * 6, 8 by the kept state used, 15, in this order), the state given. */
struct ind_state_answer ind_undo(const uint8_t *bytes, size_t len,
                                 struct ind_state state,
                                 const uint8_t *log, size_t loglen,
                                 const uint8_t *kept, size_t keptlen)
{
    struct ind_state_answer answer = { IND_FINE, state };
    struct ind_state replayed;
    struct list list;
    size_t q;

    if (!sound_list(&list, bytes, len)) {
        answer.number = IND_LIST;
        return answer;
    }
    if (!sound_state(&list, &state)) {
        answer.number = IND_STATE;
        return answer;
    }
    if (state.m == 0) {
        answer.number = IND_EMPTY;
        return answer;
    }
    if (keptlen < IND_KEPT_BYTES) {       /* "in undo after 14" */
        answer.number = IND_ROOM;
        return answer;
    }
    /* "With q = (m-1)/64, rounded down: where q is 0 it goes from the log's
     * start records, and else from kept place q" */
    q = (state.m - 1u) / IND_KEPT_EVERY;
    /* "8 in undo, before 15, for the kept state used if it is not sound or its
     * m or B is another than its place and the state given say" */
    if (q > 0 && (!is_kept(kept + kept_place(q), &replayed)
                  || !sound_state(&list, &replayed)
                  || replayed.m != IND_KEPT_EVERY * q
                  || replayed.b != state.b)) {
        answer.number = IND_STATE;
        return answer;
    }
    /* "15 then judges the log's length and the records replayed" */
    if (loglen < 2 * (list.n + state.m)) {
        answer.number = IND_LOG;
        return answer;
    }
    if (q == 0) {
        answer.number = from_start(&list, state.b, log, &replayed);
        if (answer.number != IND_FINE)
            return answer;
    }
    /* "replays the log's records n+64q to n+m-2, at most 63" */
    for (size_t i = list.n + IND_KEPT_EVERY * q; i < list.n + state.m - 1;
         i++) {
        if (advance(&list, &replayed, log[2 * i], log[2 * i + 1]) != IND_FINE) {
            answer.number = IND_LOG;
            return answer;
        }
    }
    answer.state = replayed;
    return answer;
}

/* Decodes the list; the refusal that a question about the station gets (7, 8,
 * 10, in this order), or 0. */
static uint8_t question_refused(struct list *list, const uint8_t *bytes,
                                size_t len, const struct ind_state *state,
                                uint8_t station)
{
    if (!sound_list(list, bytes, len))
        return IND_LIST;
    if (!sound_state(list, state))
        return IND_STATE;
    return station < list->n ? IND_FINE : IND_COMPONENT;
}

/* Answers whether the station is ready, ended, or waiting and where.  Refused
 * (7, 8, 10, in this order), that number and place 0. */
struct ind_readiness_answer ind_readiness(const uint8_t *bytes, size_t len,
                                          struct ind_state state,
                                          uint8_t station)
{
    struct ind_readiness_answer answer = { IND_FINE, 0 };
    struct list list;

    answer.number = question_refused(&list, bytes, len, &state, station);
    if (answer.number == IND_FINE)
        answer = readiness(&list, &state, station);
    return answer;
}

/* Puts the variable and its value behind those that the answer names. */
static void add_named(struct ind_why_answer *answer,
                      const struct ind_state *state, uint32_t variable)
{
    answer->variables[answer->count] = (uint8_t)variable;
    answer->values[answer->count] = state->var[variable];
    answer->count++;
}

/* Station i's "one reason: ended; waiting, with the record, the variable or
 * variables and their values; behind, with the lowest-numbered ready station
 * of lowest priority; or may be picked".  Ops 4 to 7 name two variables, b and
 * k in this order, also where they are the same one. */
static struct ind_why_answer reason(const struct list *list,
                                    const struct ind_state *state, size_t i)
{
    struct ind_why_answer answer = { 0 };
    struct ind_readiness_answer told = readiness(list, state, i);
    const uint8_t *r = next_step(list, state, i);
    struct turn turn = judge(list, state);

    answer.number = told.number;          /* 16, 11 or 0 */
    answer.place = told.place;
    if (told.number == IND_NOT_READY) {
        add_named(&answer, state, b_of(r));
        if (op_of(r) >= 4)                /* "against variable k" */
            add_named(&answer, state, k_of(r));
    } else if (told.number == IND_FINE && (turn.in_turn >> i & 1) == 0) {
        answer.number = IND_TURN;
        while ((turn.in_turn >> answer.ahead & 1) == 0)
            answer.ahead++;
    }
    return answer;
}

/* Answers why the station was not picked, or that it may be.  m = 4,096 is no
 * refusal.  Refused (7, 8, 10, in this order), that number and zeros. */
struct ind_why_answer ind_why(const uint8_t *bytes, size_t len,
                              struct ind_state state, uint8_t station)
{
    struct ind_why_answer answer = { 0 };
    struct list list;

    answer.number = question_refused(&list, bytes, len, &state, station);
    if (answer.number == IND_FINE)
        answer = reason(&list, &state, station);
    return answer;
}

/* ------------------------------------------------------------------ */
/* Lights                                                             */
/* ------------------------------------------------------------------ */

/* Sets the bit in the row of each variable that the record itself reads, and
 * in the other row of the one that it writes. */
static void touch(struct ind_lights_answer *lights, const uint8_t *r,
                  uint8_t bit)
{
    switch (kind_of(r)) {
    case IND_SET:
        if (op_of(r) >= 1)
            lights->rows[0][b_of(r)] |= bit;
        if (op_of(r) >= 4)
            lights->rows[0][k_of(r)] |= bit;
        lights->rows[1][a_of(r)] |= bit;
        break;
    case IND_IF:
    case IND_WHILE:
    case IND_AWAIT:
        lights->rows[0][b_of(r)] |= bit;
        if (op_of(r) >= 4)
            lights->rows[0][k_of(r)] |= bit;
        break;
    default:
        break;
    }
}

/* Touches all of a body: "every record reached from its t1 by targets of
 * inside records", "branches not taken included".  Targets are higher, so one
 * pass upwards meets each record after everything that leads to it. */
static void touch_body(struct ind_lights_answer *lights,
                       const struct list *list, size_t t1, uint8_t bit)
{
    uint8_t reached[IND_MAX_ITEMS] = { 0 };

    reached[t1] = 1;
    for (size_t place = t1; place < list->items; place++) {
        const uint8_t *r = item(list, place);

        if (!reached[place])
            continue;
        touch(lights, r, bit);
        if (t1_of(r) != 0)
            reached[t1_of(r)] = 1;
        if (t2_of(r) != 0)
            reached[t2_of(r)] = 1;
    }
}

/* "LIGHTS answers four station masks, bit i for station i ..., and two rows
 * of 32 masks: which stations' next steps read, and which write, each
 * variable."  A ready AWAIT has its condition and all of its body lit; "a
 * waiting AWAIT reads only the variables of its condition and writes none".
 * Refused (7, 8), all zeros. */
struct ind_lights_answer ind_lights(const uint8_t *bytes, size_t len,
                                    struct ind_state state)
{
    struct ind_lights_answer answer = { 0 };
    struct list list;
    struct turn turn;

    if (!sound_list(&list, bytes, len)) {
        answer.number = IND_LIST;
        return answer;
    }
    if (!sound_state(&list, &state)) {
        answer.number = IND_STATE;
        return answer;
    }
    turn = judge(&list, &state);
    answer.ready = turn.ready;
    answer.in_turn = turn.in_turn;
    for (size_t i = 0; i < list.n; i++) {
        const uint8_t *r = next_step(&list, &state, i);
        uint8_t told = readiness(&list, &state, i).number;
        uint8_t bit = (uint8_t)(1u << i);

        if (told == IND_ENDED)
            answer.ended |= bit;
        if (told == IND_NOT_READY)
            answer.waiting |= bit;
        if (kind_of(r) == IND_AWAIT && told == IND_FINE)
            touch_body(&answer, &list, t1_of(r), bit);
        touch(&answer, r, bit);
    }
    return answer;
}

/* ------------------------------------------------------------------ */
/* The trace program's text                                           */
/* ------------------------------------------------------------------ */

/* A text being written: its length counts on where the room has ended. */
struct text {
    uint8_t *out;
    size_t room;
    size_t len;
};

static void put_char(struct text *text, char c)
{
    if (text->len < text->room)
        text->out[text->len] = (uint8_t)c;
    text->len++;
}

/* Writes the number "in decimal". */
static void put_number(struct text *text, int value)
{
    char digits[12];
    size_t count = 0;
    unsigned rest = value < 0 ? 0u - (unsigned)value : (unsigned)value;

    if (value < 0)
        put_char(text, '-');
    do {
        digits[count++] = (char)('0' + (int)(rest % 10));
        rest /= 10;
    } while (rest != 0);
    while (count > 0)
        put_char(text, digits[--count]);
}

/* "m, ready mask, in-turn mask, the n priorities, in decimal with single
 * spaces"; and the first n counts "after the priorities". */
static void put_line(struct text *text, const uint8_t *bytes, size_t len,
                     const struct ind_state *state)
{
    struct ind_lights_answer lights = ind_lights(bytes, len, *state);

    put_number(text, state->m);
    put_char(text, ' ');
    put_number(text, lights.ready);
    put_char(text, ' ');
    put_number(text, lights.in_turn);
    for (size_t i = 0; i < state->n && i < IND_STATIONS; i++) {
        put_char(text, ' ');
        put_number(text, state->pri[i]);
    }
    for (size_t i = 0; i < state->n && i < IND_STATIONS; i++) {
        put_char(text, ' ');
        put_number(text, state->cnt[i]);
    }
    put_char(text, '\n');
}

/* "The last line is `end` and 0 or the refusal that stopped it."  Answers the
 * length of the whole text. */
static size_t put_end(struct text *text, uint8_t number)
{
    put_char(text, 'e');
    put_char(text, 'n');
    put_char(text, 'd');
    put_char(text, ' ');
    put_number(text, number);
    put_char(text, '\n');
    return text->len;
}

/* Answers the length of the text that the trace program prints for the three
 * files' bytes, and writes as much of it as fits.  "It prints a line for the
 * start and after each call taken"; "Its own list and log buffers are never
 * short", nor is its kept buffer. */
size_t ind_trace(const uint8_t *program, size_t plen,
                 const uint8_t *start, size_t slen,
                 const uint8_t *picks, size_t klen,
                 uint8_t *out, size_t outlen)
{
    uint8_t list[IND_ITEM * IND_MAX_ITEMS];
    uint8_t log[2 * (IND_STATIONS + IND_MAX_STEPS)] = { 0 };
    uint8_t kept[IND_KEPT_BYTES] = { 0 };
    struct text text = { out, outlen, 0 };
    struct ind_build_answer built;
    struct ind_state_answer taken;
    size_t len;

    /* "Program refusals come first, then start's (no B: 13)" */
    built = ind_build(program, plen, list, sizeof list);
    if (built.number != IND_FINE)
        return put_end(&text, built.number);
    len = IND_ITEM * (size_t)built.count;
    if (slen == 0)
        return put_end(&text, IND_RESET);
    taken = ind_start(list, len, start[0], start + 1, slen - 1,
                      log, sizeof log, kept, sizeof kept);
    if (taken.number != IND_FINE)
        return put_end(&text, taken.number);
    put_line(&text, list, len, &taken.state);

    /* "then a picks file odd or over 8,192 bytes: `end 1` after the start
     * line" */
    if (klen % 2 != 0 || klen > IND_MAX_PICKS)
        return put_end(&text, IND_LENGTH);

    for (size_t i = 0; i < klen; i += 2) {
        if (picks[i] == 255 && picks[i + 1] == 0)  /* "Pick (255,0) means */
            taken = ind_undo(list, len, taken.state,  /* undo." */
                             log, sizeof log, kept, sizeof kept);
        else
            taken = ind_step(list, len, taken.state, log, sizeof log,
                             kept, sizeof kept, picks[i], picks[i + 1]);
        if (taken.number != IND_FINE)
            return put_end(&text, taken.number);
        put_line(&text, list, len, &taken.state);
    }
    return put_end(&text, IND_FINE);
}
