/*
 * The panel's library and the independent program side by side: what compare.c and bench.c share.
 */
#ifndef BOTH_H
#define BOTH_H

#include "press.h"
#include "../panel/press.h"

#include <string.h>

/* The independent program's state as the library has it. */
static inline press_state same_as(const struct ind_state *t)
{
    press_state s;
    memset(&s, 0, sizeof s);
    memcpy(s.vars, t->var, sizeof s.vars);
    memcpy(s.positions, t->pos, sizeof s.positions);
    memcpy(s.priorities, t->pri, sizeof s.priorities);
    memcpy(s.counts, t->cnt, sizeof s.counts);
    s.n = t->n;
    s.b = t->b;
    s.m = t->m;
    return s;
}

static inline int same_state(const press_state *s, const struct ind_state *t)
{
    return memcmp(s->vars, t->var, sizeof s->vars) == 0 && memcmp(s->positions, t->pos, sizeof s->positions) == 0
        && memcmp(s->priorities, t->pri, sizeof s->priorities) == 0
        && memcmp(s->counts, t->cnt, sizeof s->counts) == 0 && s->n == t->n && s->b == t->b && s->m == t->m;
}

static inline int same_reason(const press_reason *r, const struct ind_why_answer *t)
{
    return r->number == t->number && r->ahead == t->ahead && r->place == t->place && r->count == t->count
        && memcmp(r->variables, t->variables, sizeof r->variables) == 0
        && memcmp(r->values, t->values, sizeof r->values) == 0;
}

#endif
