/*
 * What makes each of the library's calls: bench.c includes this twice, so that the same text calls the library and
 * calls functions that do nothing. CALLER(check) is what makes a check, CALLEE(check) what it calls.
 */

static void CALLER(check)(const struct input *in, union our_answer *r)
{
    r->checked = CALLEE(check)(in->file, in->file_len);
}

static void CALLER(build)(const struct input *in, union our_answer *r)
{
    r->built = CALLEE(build)(in->file, in->file_len, our_list, sizeof our_list);
}

static void CALLER(start)(const struct input *in, union our_answer *r)
{
    r->started = CALLEE(start)(in->list, in->list_len, MOST_RESET, resets, in->state.n, our_log, sizeof our_log,
                                in->kept, sizeof in->kept);
}

/* A step takes the first pick. */
static void CALLER(step)(const struct input *in, union our_answer *r)
{
    r->stepped = CALLEE(step)(in->our_state, in->list, in->list_len, our_log, sizeof our_log, our_kept,
                              sizeof our_kept, in->picks[0], in->picks[1]);
}

/* The state lent is put back before each call. */
static void CALLER(advance)(const struct input *in, union our_answer *r)
{
    r->stepped.state = in->our_state;
    r->stepped.number = CALLEE(advance)(&r->stepped.state, in->list, in->list_len, our_log, sizeof our_log,
                                        our_kept, sizeof our_kept, in->picks[0], in->picks[1]);
}

static void CALLER(run)(const struct input *in, union our_answer *r)
{
    r->ran = CALLEE(run)(in->our_state, in->list, in->list_len, our_log, sizeof our_log, our_kept, sizeof our_kept,
                         in->picks, in->picks_len, SIZE_MAX);
}

static void CALLER(undo)(const struct input *in, union our_answer *r)
{
    r->undone = CALLEE(undo)(in->our_state, in->list, in->list_len, in->log, sizeof in->log, in->kept, sizeof in->kept);
}

/* Readiness of the station of the first pick. */
static void CALLER(readiness)(const struct input *in, union our_answer *r)
{
    r->told = CALLEE(readiness)(in->our_state, in->list, in->list_len, in->picks[0]);
}

/* Why of the same. */
static void CALLER(why)(const struct input *in, union our_answer *r)
{
    r->reason = CALLEE(why)(in->our_state, in->list, in->list_len, in->picks[0]);
}

static void CALLER(lights)(const struct input *in, union our_answer *r)
{
    r->lit = CALLEE(lights)(in->our_state, in->list, in->list_len);
}

static our_call *const CALLER(calls)[CALLS] = {CALLER(check), CALLER(build), CALLER(start), CALLER(step), CALLER(advance),
                                               CALLER(run), CALLER(undo), CALLER(readiness), CALLER(why),
                                               CALLER(lights)};
