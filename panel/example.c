/*
 * A panel's loop over the press calls. It builds the "Dryer" sequence, starts a run, and takes keys from standard input
 * until it ends: two bytes each, a station and its reset to pick it, or 255 and 0 to take the last step back. It prints
 * a line for the start and for each key: 0 or the number of the refusal, the standing steps, variable 0, the
 * priorities, how often each station was passed over, and the lights of the state that is there: which stations are
 * ready, in turn, waiting and ended, and which read and write variable 0 next. While station 1 waits it is lit as
 * reading it and not as writing it; once released, as both. Then, station by station and in words, whether it is ready,
 * has ended, or waits and at which record. Where a pick is refused, a line more says in words why the station was not
 * picked, or what else refused it.
 */
#include "press.h"
#include <stdio.h>

/* STATION; SET v0 := 1; STATION; AWAIT v0 = 1; SET v0 := v0 + 1; END */
static const uint8_t dryer[] = {
    1, 0, 0, 0, 0, 0, 0, 0, 3, 0, 0, 0, 1, 0, 0, 0, 1,  0, 0, 0, 0, 0, 0, 0,
    9, 0, 0, 0, 1, 0, 0, 0, 3, 0, 0, 2, 1, 0, 0, 0, 10, 0, 0, 0, 0, 0, 0, 0,
};

/* What the panel lends: room for any list and any run. */
static uint8_t list[PRESS_LIST_BYTES];
static size_t list_len;
static uint8_t steps_log[PRESS_LOG_BYTES];
static uint8_t kept[PRESS_KEPT_BYTES];

static void say(press_told told)
{
    if (told.number == 0)
        printf(" ready");
    else if (told.number == PRESS_ENDED)
        printf(" ended");
    else if (told.number == PRESS_NOT_READY)
        printf(" waits@%u", (unsigned)told.place);
    else
        printf(" refused:%u", (unsigned)told.number);
}

static void show(unsigned number, const press_state *state)
{
    printf("%u %u %lu", number, (unsigned)state->m, (unsigned long)state->vars[0]);
    for (unsigned j = 0; j < state->n; j++)
        printf(" %d", (int)state->priorities[j]);
    for (unsigned j = 0; j < state->n; j++)
        printf(" %u", (unsigned)state->counts[j]);
    const press_lit lit = press_lights(*state, list, list_len);
    printf(" | %u %u %u %u", (unsigned)lit.ready, (unsigned)lit.in_turn, (unsigned)lit.waiting, (unsigned)lit.ended);
    printf(" | %u %u |", (unsigned)lit.rows[0][0], (unsigned)lit.rows[1][0]);
    for (uint8_t j = 0; j < state->n; j++)
        say(press_readiness(*state, list, list_len, j));
    putchar('\n');
}

/* Says why a pick of this station was refused with this number: the reason in words, or that the reset is too high. */
static void explain(unsigned number, const press_state *state, uint8_t station)
{
    const press_reason why = press_why(*state, list, list_len, station);
    printf("  station %u ", (unsigned)station);
    switch (why.number) {
    case 0:
        if (number == PRESS_RESET)
            printf("may be picked, with a reset of at most %u", (unsigned)state->b);
        else
            printf("may be picked, but the step was refused with %u", number);
        break;
    case PRESS_TURN:
        printf("is ready, behind station %u", (unsigned)why.ahead);
        break;
    case PRESS_NOT_READY:
        printf("waits at record %u:", (unsigned)why.place);
        for (unsigned i = 0; i < why.count; i++)
            printf("%s variable %u is %lu", i == 0 ? "" : ",", (unsigned)why.variables[i],
                   (unsigned long)why.values[i]);
        break;
    case PRESS_ENDED:
        printf("has ended");
        break;
    case PRESS_COMPONENT:
        printf("is none of the %u stations", (unsigned)state->n);
        break;
    default:
        printf("can't be asked about: refused with %u", (unsigned)why.number);
    }
    putchar('\n');
}

int main(void)
{
    const press_built built = press_build(dryer, sizeof dryer, list, sizeof list);
    if (built.number != 0) {
        printf("sequence refused: %u at record %u\n", (unsigned)built.number, (unsigned)built.place);
        return 1;
    }
    list_len = (size_t)16 * built.count;

    const uint8_t resets[] = {0, 0};
    const press_outcome started = press_start(list, list_len, 0, resets, sizeof resets, steps_log, sizeof steps_log, kept,
                                              sizeof kept);
    if (started.number != 0) {
        printf("start refused: %u\n", (unsigned)started.number);
        return 1;
    }
    press_state state = started.state;
    show(0, &state);

    for (;;) {
        const int station = getchar();
        const int reset = getchar();
        if (station == EOF || reset == EOF)
            return 0;
        unsigned number;
        if (station == 255 && reset == 0) {
            const press_outcome undone = press_undo(state, list, list_len, steps_log, sizeof steps_log, kept,
                                                    sizeof kept);
            number = undone.number;
            state = undone.state; /* refused: the state given */
        } else {
            /* refused: the state is still the one lent */
            number = press_advance(&state, list, list_len, steps_log, sizeof steps_log, kept, sizeof kept,
                                   (uint8_t)station, (uint8_t)reset);
        }
        show(number, &state);
        if (number != 0 && !(station == 255 && reset == 0))
            explain(number, &state, (uint8_t)station);
    }
}
