/* Plans in memory: calls on a kept state and the records that they give, the timer, and the number of a plan. */
#include "journal.h"

static uint8_t make_call(sinewhopa_state *state, uint8_t kind, uint32_t number)
{
    switch (kind) {
    case SINEWHOPA_HAND_IN:
        return sinewhopa_submit(state, (uint8_t)number);
    case SINEWHOPA_CLOSE_STEP:
        return sinewhopa_close_step(state, (uint8_t)number);
    case SINEWHOPA_FINISH:
        return sinewhopa_finish(state);
    case SINEWHOPA_ADVANCE:
        return sinewhopa_advance(state, number);
    default:
        return SINEWHOPA_BAD_KIND;
    }
}

/* Makes a call on the kept state, not on a replay. One that is turned down changes nothing and has no record. */
static uint8_t make(plan *p, uint8_t kind, uint32_t number, records *made)
{
    uint8_t answer = make_call(&p->state, kind, number);
    if (answer == SINEWHOPA_TAKEN) {
        made->len += sinewhopa_record(kind, number, made->bytes + made->len);
        p->wake = next_wake(&p->state);
    }
    return answer;
}

/* Moves the plan's minute, where it is not there yet. A clock that was set back leaves it as it is. */
static void move_minute(plan *p, int64_t minute, records *made)
{
    if (minute > (int64_t)sinewhopa_number(p->state.minute)) {
        make(p, SINEWHOPA_ADVANCE, (uint32_t)minute, made);
    }
}

uint8_t take(plan *p, const reply *one, records *made)
{
    move_minute(p, one->minute, made);
    return make(p, (uint8_t)one->kind, (uint32_t)one->number, made);
}

/* The queue's clock jumps from reply to reply; a timer that looks every minute would have met the plan's own minute. */
void wake_plan(plan *p, records *made)
{
    move_minute(p, p->wake, made);
}

plan *next_due(plan *plans, size_t count, int64_t minute)
{
    plan *first = NULL;
    for (size_t place = 0; place < count; place++) {
        plan *p = &plans[place];
        if (p->wake >= 0 && p->wake <= minute && (first == NULL || p->wake < first->wake)) {
            first = p;
        }
    }
    return first;
}

static int64_t sooner(int64_t wake, uint32_t minute, uint32_t now)
{
    return minute > now && (wake < 0 || minute < wake) ? minute : wake;
}

int64_t next_wake(const sinewhopa_state *state)
{
    uint32_t now = sinewhopa_number(state->minute);
    int64_t wake = -1;
    for (uint8_t event = 0; event < state->events; event++) {
        if (state->fate[event] <= SINEWHOPA_HELD) {
            wake = sooner(wake, sinewhopa_number(state->from[event]), now);
            wake = sooner(wake, sinewhopa_number(state->until[event]), now);
        }
    }
    return wake;
}

plan *find_plan(plan *plans, size_t count, int64_t id)
{
    for (size_t place = 0; place < count; place++) {
        if (plans[place].id == id) {
            return &plans[place];
        }
    }
    return NULL;
}
