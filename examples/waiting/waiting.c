/*
 * A director whose family approves embalming before the consent form has come in. The transport firm may report at
 * any time and cannot be turned away, so that embalming waits for the form: until it comes in, or until the firm is
 * out of it. The host asks before it hands in, reads from the state on what an event waits, saves a state that waits
 * and goes on from it, and meets states that an earlier version of the library has stored. The program fails where
 * anything is not so.
 */
#include <stdbool.h>
#include <stdio.h>
#include <stdlib.h>
#include <string.h>

#include "sinewhopa.h"

/* The events; each has the step of its number. */
enum { EMBALMING, TRANSPORT, CONSENT, EVENTS };

/* The calls that are made here, as in the records of calls. */
enum { HAND_IN = SINEWHOPA_HAND_IN, CLOSE = SINEWHOPA_CLOSE_STEP };

/* Why a conditional holds one of its triggers back until its third event is settled. */
typedef enum {
    NO_WAIT,
    AHEAD, /* the other trigger may still come; it could not be stopped then, nor the third event be forced */
    DUE    /* the other trigger is done */
} reason;

/* A call, and what has to come of it. */
typedef struct {
    uint8_t kind;    /* 0: no call */
    uint8_t number;  /* the event, or its step */
    uint8_t settles; /* how many lines the history gets */
    reason after;    /* why embalming is held then; NO_WAIT where it is not */
} turn;

/* A plan with other attributes of two events, or other calls, than the story has; and the history that it ends with. */
typedef struct {
    const char *name;
    uint8_t transport;
    uint8_t consent;
    turn turns[EVENTS];
    struct {
        uint8_t event;
        uint8_t fate; /* SINEWHOPA_OPEN: no line */
    } lines[EVENTS];
} neighbour;

static const neighbour neighbours[] = {
    {"the consent form comes in", 0, 6,
     {{HAND_IN, EMBALMING, 0, AHEAD}, {HAND_IN, CONSENT, 2, NO_WAIT}, {HAND_IN, TRANSPORT, 1, NO_WAIT}},
     {{EMBALMING, SINEWHOPA_DONE}, {CONSENT, SINEWHOPA_DONE}, {TRANSPORT, SINEWHOPA_DONE}}},
    {"the consent form may be brought about", 0, 7,
     {{HAND_IN, EMBALMING, 1, NO_WAIT}, {HAND_IN, TRANSPORT, 2, NO_WAIT}},
     {{EMBALMING, SINEWHOPA_DONE}, {TRANSPORT, SINEWHOPA_DONE}, {CONSENT, SINEWHOPA_FORCED}}},
    {"the transport firm can be turned away", 2, 6,
     {{HAND_IN, EMBALMING, 1, NO_WAIT}, {CLOSE, CONSENT, 1, NO_WAIT}, {HAND_IN, TRANSPORT, 1, NO_WAIT}},
     {{EMBALMING, SINEWHOPA_DONE}, {CONSENT, SINEWHOPA_LAPSED}, {TRANSPORT, SINEWHOPA_REFUSED}}},
    {"the transport firm is out of it first", 0, 6,
     {{CLOSE, TRANSPORT, 1, NO_WAIT}, {HAND_IN, EMBALMING, 1, NO_WAIT}},
     {{TRANSPORT, SINEWHOPA_LAPSED}, {EMBALMING, SINEWHOPA_DONE}}},
    {"the transport firm reports first", 0, 6,
     {{HAND_IN, TRANSPORT, 1, NO_WAIT}, {HAND_IN, EMBALMING, 0, DUE}, {CLOSE, CONSENT, 2, NO_WAIT}},
     {{TRANSPORT, SINEWHOPA_DONE}, {CONSENT, SINEWHOPA_LAPSED}, {EMBALMING, SINEWHOPA_REFUSED}}},
    {"the transport firm and the consent form are out of it first", 0, 6,
     {{CLOSE, TRANSPORT, 1, NO_WAIT}, {CLOSE, CONSENT, 1, NO_WAIT}, {HAND_IN, EMBALMING, 1, NO_WAIT}},
     {{TRANSPORT, SINEWHOPA_LAPSED}, {CONSENT, SINEWHOPA_LAPSED}, {EMBALMING, SINEWHOPA_DONE}}},
    {"the transport firm is out of it while embalming waits", 0, 6,
     {{HAND_IN, EMBALMING, 0, AHEAD}, {CLOSE, TRANSPORT, 2, NO_WAIT}},
     {{TRANSPORT, SINEWHOPA_LAPSED}, {EMBALMING, SINEWHOPA_DONE}}},
};

static const char *event_word(uint8_t event)
{
    static const char *const words[] = {"embalming", "transport", "consent"};
    return event < sizeof words / sizeof words[0] ? words[event] : "no such event";
}

static const char *fate_word(uint8_t fate)
{
    static const char *const words[] = {"open", "held", "done", "refused", "lapsed", "forced"};
    return fate < sizeof words / sizeof words[0] ? words[fate] : "unknown";
}

/* Opens a plan from its sheet. The story has 0 as transport's attributes (it comes as it comes) and 6 as consent's. */
static bool open_plan(sinewhopa_state *state, uint8_t transport, uint8_t consent)
{
    const uint8_t sheet[] = {
        1, 0, 6,         /* event 0, the family approves embalming: step 0; may be refused and can wait */
        1, 1, transport, /* event 1, the transport firm reports: step 1 */
        1, 2, consent,   /* event 2, the consent form comes in: step 2 */
        4, 0, 1, 2,      /* rule 0, conditional: if embalming and transport, then consent */
        5                /* the end */
    };
    size_t at;
    return sinewhopa_open(state, sheet, sizeof sheet, &at) == SINEWHOPA_TAKEN;
}

/* Why this rule holds the event back, read from the rule, the attributes and the fates alone. */
static reason reason_by(const sinewhopa_state *state, uint8_t rule, uint8_t event)
{
    uint8_t a = state->rule_a[rule];
    uint8_t b = state->rule_b[rule];
    uint8_t c = state->rule_c[rule];
    uint8_t other = event == a ? b : a;
    bool stands = state->rule_kind[rule] == SINEWHOPA_CONDITIONAL && state->broken[rule] == 0;
    bool asks = state->fate[c] == SINEWHOPA_OPEN || state->fate[c] == SINEWHOPA_HELD;
    if (!stands || !asks || (event != a && event != b)) {
        return NO_WAIT;
    }
    if (state->fate[other] == SINEWHOPA_DONE || state->fate[other] == SINEWHOPA_FORCED) {
        return DUE;
    }
    bool stoppable = (state->attributes[other] & (SINEWHOPA_REJECTABLE | SINEWHOPA_DELAYABLE)) != 0;
    bool forcible = (state->attributes[c] & SINEWHOPA_FORCIBLE) != 0;
    return state->fate[other] == SINEWHOPA_OPEN && !stoppable && !forcible ? AHEAD : NO_WAIT;
}

/* Shows an event that is held, and on what it waits. Gives the reason. */
static reason show_wait(const sinewhopa_state *state, uint8_t event)
{
    reason found = NO_WAIT;
    printf(" %s", event_word(event));
    for (uint8_t rule = 0; rule < state->rules && found == NO_WAIT; rule++) {
        uint8_t other = state->rule_a[rule] == event ? state->rule_b[rule] : state->rule_a[rule];
        found = reason_by(state, rule, event);
        if (found != NO_WAIT) {
            printf(", which waits for %s: %s %s", event_word(state->rule_c[rule]), event_word(other),
                   found == AHEAD ? "may still come, and cannot be turned away" : "is done");
        }
    }
    return found;
}

/* Shows what is held. True where it is embalming alone, for this reason; or nothing, where there is none. */
static bool show_held(const sinewhopa_state *state, reason expected)
{
    bool as_expected = (state->fate[EMBALMING] == SINEWHOPA_HELD) == (expected != NO_WAIT);
    bool none = true;
    printf("; held");
    for (uint8_t event = 0; event < state->events; event++) {
        if (state->fate[event] == SINEWHOPA_HELD) {
            as_expected = show_wait(state, event) == expected && event == EMBALMING && as_expected;
            none = false;
        }
    }
    printf("%s\n", none ? " none" : "");
    return as_expected;
}

/* Shows what was settled: the history's new lines. */
static void show_settled(const sinewhopa_state *state, uint8_t lines_before)
{
    const char *between = "";
    for (uint8_t line = lines_before; line < state->lines; line++) {
        printf("%s%s %s", between, event_word(state->line_event[line]), fate_word(state->line_fate[line]));
        between = ", ";
    }
    printf("%s", lines_before == state->lines ? "nothing settled" : "");
}

/* Asks what an event would settle, and shows it. False where it is anything but so many done. */
static bool ask(const sinewhopa_state *state, uint8_t event, unsigned expected)
{
    uint8_t added[SINEWHOPA_ADDED_COUNTS];
    if (sinewhopa_preview(state, event, added) != SINEWHOPA_TAKEN) {
        return false;
    }
    unsigned done = added[SINEWHOPA_ADDED_DONE];
    unsigned refused = added[SINEWHOPA_ADDED_REFUSED];
    unsigned lapsed = added[SINEWHOPA_ADDED_LAPSED];
    unsigned forced = added[SINEWHOPA_ADDED_FORCED];
    printf("%s: would settle %u (%u done, %u refused, %u lapsed, %u forced)\n", event_word(event),
           done + refused + lapsed + forced, done, refused, lapsed, forced);
    return done == expected && refused + lapsed + forced == 0;
}

/* Hands an event in. False where it is turned down, or where it settles something else than a preview has counted. */
static bool hand_in(sinewhopa_state *state, uint8_t event)
{
    uint8_t added[SINEWHOPA_ADDED_COUNTS];
    uint8_t by_fate[SINEWHOPA_FORCED + 1] = {0};
    uint8_t lines_before = state->lines;
    if (sinewhopa_preview(state, event, added) != SINEWHOPA_TAKEN ||
        sinewhopa_submit(state, event) != SINEWHOPA_TAKEN) {
        return false;
    }
    for (uint8_t line = lines_before; line < state->lines; line++) {
        by_fate[state->line_fate[line]]++;
    }
    return by_fate[SINEWHOPA_DONE] == added[SINEWHOPA_ADDED_DONE] &&
           by_fate[SINEWHOPA_REFUSED] == added[SINEWHOPA_ADDED_REFUSED] &&
           by_fate[SINEWHOPA_LAPSED] == added[SINEWHOPA_ADDED_LAPSED] &&
           by_fate[SINEWHOPA_FORCED] == added[SINEWHOPA_ADDED_FORCED];
}

/* Makes a call, and shows what it has settled and what is held then. False where that is not what has to come of it. */
static bool make(sinewhopa_state *state, turn made)
{
    uint8_t lines_before = state->lines;
    bool handed_in = made.kind == HAND_IN;
    if (handed_in ? !hand_in(state, made.number) : sinewhopa_close_step(state, made.number) != SINEWHOPA_TAKEN) {
        return false;
    }
    printf("%s %s: ", event_word(made.number), handed_in ? "handed in" : "closed");
    show_settled(state, lines_before);
    bool settled = state->lines - lines_before == made.settles;
    return show_held(state, made.after) && settled;
}

/* Saves the state to a file and reads it back as another one. False where that fails, or where no state is read. */
static bool save_and_load(const sinewhopa_state *kept, sinewhopa_state *loaded)
{
    FILE *file = tmpfile();
    if (file == NULL) {
        return false;
    }
    bool whole = fwrite(kept, sizeof *kept, 1, file) == 1;
    rewind(file);
    whole = whole && fread(loaded, sizeof *loaded, 1, file) == 1;
    printf("saved and read back: %zu bytes\n", sizeof *loaded);
    return fclose(file) == 0 && whole && sinewhopa_check(loaded) == SINEWHOPA_TAKEN;
}

/* The story, on a state that is saved while embalming waits. Later calls are made on the kept one too, unshown. */
static bool tell_story(void)
{
    const turn approval = {HAND_IN, EMBALMING, 0, AHEAD};
    const turn no_form = {CLOSE, CONSENT, 2, NO_WAIT};
    const turn report = {HAND_IN, TRANSPORT, 1, NO_WAIT};
    sinewhopa_state kept;
    sinewhopa_state loaded;
    uint8_t out[SINEWHOPA_REPORT_MOST];
    if (!open_plan(&kept, 0, 6) || !ask(&kept, EMBALMING, 0) || !make(&kept, approval) || !ask(&kept, CONSENT, 2) ||
        !save_and_load(&kept, &loaded) || !make(&loaded, no_form) || !make(&loaded, report)) {
        return false;
    }
    bool alike = sinewhopa_close_step(&kept, CONSENT) == SINEWHOPA_TAKEN && hand_in(&kept, TRANSPORT) &&
                 memcmp(&kept, &loaded, sizeof kept) == 0;
    printf("kept, with the same calls: %s bytes\n", alike ? "the same" : "OTHER");
    size_t length = sinewhopa_report(&loaded, 0, out, sizeof out);
    return alike && loaded.broken[0] == 0 && fwrite(out, 1, length, stdout) == length;
}

/* Plays a neighbour of the story. False where its history is another, or where the rule is broken. */
static bool play(const neighbour *played)
{
    sinewhopa_state state;
    printf("%s:\n", played->name);
    if (!open_plan(&state, played->transport, played->consent)) {
        return false;
    }
    for (size_t place = 0; place < EVENTS && played->turns[place].kind != 0; place++) {
        if (!make(&state, played->turns[place])) {
            return false;
        }
    }
    uint8_t lines = 0;
    while (lines < EVENTS && played->lines[lines].fate != SINEWHOPA_OPEN) {
        if (state.line_event[lines] != played->lines[lines].event ||
            state.line_fate[lines] != played->lines[lines].fate) {
            return false;
        }
        lines++;
    }
    return state.lines == lines && state.broken[0] == 0;
}

/* Writes an event as settled, as only the calls do in a host. */
static void write_settled(sinewhopa_state *state, uint8_t event, uint8_t fate)
{
    state->fate[event] = fate;
    state->line_event[state->lines] = event;
    state->line_fate[state->lines] = fate;
    state->lines++;
}

/* Bytes of an earlier version, where embalming was done at once. True if every call turns them down and leaves them. */
static bool try_earlier(void)
{
    sinewhopa_state state;
    uint8_t added[SINEWHOPA_ADDED_COUNTS];
    if (!open_plan(&state, 0, 6)) {
        return false;
    }
    write_settled(&state, EMBALMING, SINEWHOPA_DONE);
    const sinewhopa_state stored = state;
    unsigned checked = sinewhopa_check(&state);
    unsigned submitted = sinewhopa_submit(&state, CONSENT);
    unsigned closed = sinewhopa_close_step(&state, TRANSPORT);
    unsigned previewed = sinewhopa_preview(&state, CONSENT, added);
    bool as_it_was = memcmp(&state, &stored, sizeof stored) == 0;
    printf("stored by an earlier version, embalming done, transport and consent open:\n");
    printf("check %u, submit %u, close step %u, preview %u, %s\n", checked, submitted, closed, previewed,
           as_it_was ? "left as it was" : "WRITTEN");
    return checked == SINEWHOPA_INCOHERENT && submitted == checked && closed == checked && previewed == checked &&
           as_it_was;
}

/* The way out: the plan's own sheet, and the calls that were made on it. */
static bool open_again(void)
{
    const turn approval = {HAND_IN, EMBALMING, 0, AHEAD};
    sinewhopa_state state;
    printf("opened again from its sheet, with its list of calls:\n");
    return open_plan(&state, 0, 6) && make(&state, approval);
}

/* Bytes of an earlier version in which consent has lapsed too. Nothing is owed: they are taken; the rule breaks. */
static bool try_too_late(void)
{
    const turn report = {HAND_IN, TRANSPORT, 1, NO_WAIT};
    sinewhopa_state state;
    if (!open_plan(&state, 0, 6)) {
        return false;
    }
    write_settled(&state, EMBALMING, SINEWHOPA_DONE);
    write_settled(&state, CONSENT, SINEWHOPA_LAPSED);
    state.closed[state.step[CONSENT]] = 1;
    unsigned checked = sinewhopa_check(&state);
    printf("stored by an earlier version, embalming done, consent lapsed, transport open:\n");
    printf("check %u\n", checked);
    bool reported = make(&state, report);
    printf("rule 0: %s\n", state.broken[0] != 0 ? "broken" : "kept");
    return checked == SINEWHOPA_TAKEN && reported && state.broken[0] != 0;
}

int main(void)
{
    if (!tell_story()) {
        return EXIT_FAILURE;
    }
    for (size_t place = 0; place < sizeof neighbours / sizeof neighbours[0]; place++) {
        if (!play(&neighbours[place])) {
            return EXIT_FAILURE;
        }
    }
    if (!try_earlier() || !open_again() || !try_too_late()) {
        return EXIT_FAILURE;
    }
    return fflush(stdout) == 0 && !ferror(stdout) ? EXIT_SUCCESS : EXIT_FAILURE;
}
