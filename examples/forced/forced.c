/*
 * A director who sees what no office has reported. Before an event is handed in, a preview says how many others it
 * would force; after it, the history says which. These are listed, to be chased up, also from a state that was saved
 * and read back. A report that comes in late finds its event forced. The program fails where anything is not so.
 */
#include <stdbool.h>
#include <stdio.h>
#include <stdlib.h>
#include <string.h>

#include "sinewhopa.h"

enum { CREMATION, CERTIFICATE, NOTICE, CARS };

static const uint8_t sheet[] = {
    1, 0, 0,    /* event 0, the cremation is confirmed: step 0; comes as it comes */
    1, 1, 1,    /* event 1, the certificate is fetched: step 1; we may bring it about, and cannot refuse it */
    1, 2, 6,    /* event 2, the notice is printed: step 2; may be refused and can wait */
    1, 3, 7,    /* event 3, the cars are ordered: step 3; the same, and we may bring it about */
    3, 0, 1,    /* rule 0, need: the cremation only if the certificate */
    3, 2, 0,    /* rule 1, need: the notice only if the cremation */
    2, 3, 2,    /* rule 2, order: the cars before the notice */
    5           /* the end */
};

static const char *event_word(uint8_t event)
{
    static const char *const words[] = {"cremation", "certificate", "notice", "cars"};
    return event < sizeof words / sizeof words[0] ? words[event] : "no such event";
}

static const char *fate_word(uint8_t fate)
{
    static const char *const words[] = {"open", "held", "done", "refused", "lapsed", "forced"};
    return fate < sizeof words / sizeof words[0] ? words[fate] : "unknown";
}

/* Shows the history's new lines. True where so many are done and forced, and no others are there. */
static bool show_settled(const sinewhopa_state *state, uint8_t lines_before, unsigned done, unsigned forced)
{
    unsigned by_fate[SINEWHOPA_FORCED + 1] = {0};
    const char *between = "settled ";
    for (uint8_t line = lines_before; line < state->lines; line++) {
        printf("%s%s %s", between, event_word(state->line_event[line]), fate_word(state->line_fate[line]));
        by_fate[state->line_fate[line]]++;
        between = ", ";
    }
    printf("\n");
    return by_fate[SINEWHOPA_DONE] == done && by_fate[SINEWHOPA_FORCED] == forced &&
           (unsigned)(state->lines - lines_before) == done + forced;
}

/* Asks about an event, then hands it in. False where it is turned down, or where the two differ. */
static bool ask_and_hand_in(sinewhopa_state *state, uint8_t event)
{
    uint8_t added[SINEWHOPA_ADDED_COUNTS];
    uint8_t lines_before = state->lines;
    if (sinewhopa_preview(state, event, added) != SINEWHOPA_TAKEN ||
        sinewhopa_submit(state, event) != SINEWHOPA_TAKEN) {
        return false;
    }
    unsigned done = added[SINEWHOPA_ADDED_DONE];
    unsigned forced = added[SINEWHOPA_ADDED_FORCED];
    printf("%s: would settle %u (%u done, %u forced)\n", event_word(event), done + forced, done, forced);
    printf("%s: %s, ", event_word(event), fate_word(state->fate[event]));
    return show_settled(state, lines_before, done, forced);
}

/* What is to be chased up: the events that have come about without an office's report. */
static void show_forced(const sinewhopa_state *state)
{
    for (uint8_t event = 0; event < state->events; event++) {
        if (state->fate[event] == SINEWHOPA_FORCED) {
            printf("chase up %s: forced, no office has reported it\n", event_word(event));
        }
    }
}

/* The office's report of an event that was forced meanwhile. True where it stays forced and nothing changes. */
static bool report_late(sinewhopa_state *state, uint8_t event)
{
    const sinewhopa_state before = *state;
    uint8_t number = sinewhopa_submit(state, event);
    bool as_it_was = memcmp(state, &before, sizeof before) == 0;
    printf("%s, reported late: %s, %s\n", event_word(event), fate_word(state->fate[event]),
           as_it_was ? "nothing changed" : "CHANGED");
    return number == SINEWHOPA_TAKEN && state->fate[event] == SINEWHOPA_FORCED && as_it_was;
}

/* Two reports in one batch, on a copy of the state. True where the first is done and the second answers this fate. */
static bool try_batch(sinewhopa_state state, uint8_t first, uint8_t second, uint8_t expected)
{
    sinewhopa_entry reports[] = {{.kind = SINEWHOPA_HAND_IN, .number = first},
                                 {.kind = SINEWHOPA_HAND_IN, .number = second}};
    if (sinewhopa_submit_all(&state, reports, sizeof reports / sizeof reports[0]) != SINEWHOPA_TAKEN) {
        return false;
    }
    printf("one batch: %s %s, %s %s\n", event_word(first), fate_word(reports[0].fate), event_word(second),
           fate_word(reports[1].fate));
    return reports[0].fate == SINEWHOPA_DONE && reports[1].fate == expected;
}

/* Saves the state to a file, forgets it and reads it back. False where that fails, or where no state is read. */
static bool save_and_load(sinewhopa_state *state)
{
    FILE *file = tmpfile();
    if (file == NULL) {
        return false;
    }
    bool whole = fwrite(state, sizeof *state, 1, file) == 1;
    memset(state, 0, sizeof *state);
    rewind(file);
    whole = whole && fread(state, sizeof *state, 1, file) == 1;
    printf("saved and read back: %zu bytes\n", sizeof *state);
    return fclose(file) == 0 && whole && sinewhopa_check(state) == SINEWHOPA_TAKEN;
}

/* Somebody makes an event's line say done, on a copy of the state. True where that is no state any more. */
static bool try_hiding(sinewhopa_state state, uint8_t line)
{
    state.line_fate[line] = SINEWHOPA_DONE;
    uint8_t number = sinewhopa_check(&state);
    printf("%s, its line made done: turned down, %u\n", event_word(state.line_event[line]), (unsigned)number);
    return number == SINEWHOPA_INCOHERENT;
}

int main(void)
{
    sinewhopa_state state;
    uint8_t out[SINEWHOPA_REPORT_MOST];
    size_t at;
    if (sinewhopa_open(&state, sheet, sizeof sheet, &at) != SINEWHOPA_TAKEN) {
        return EXIT_FAILURE;
    }
    const sinewhopa_state first = state;
    if (!ask_and_hand_in(&state, CREMATION)) {
        return EXIT_FAILURE;
    }
    show_forced(&state);
    if (!ask_and_hand_in(&state, NOTICE) || !save_and_load(&state)) {
        return EXIT_FAILURE;
    }
    show_forced(&state);
    if (!report_late(&state, CERTIFICATE) || !try_batch(first, CREMATION, CERTIFICATE, SINEWHOPA_FORCED) ||
        !try_batch(first, CERTIFICATE, CREMATION, SINEWHOPA_DONE) || !try_hiding(state, 1)) {
        return EXIT_FAILURE;
    }
    size_t length = sinewhopa_report(&state, 0, out, sizeof out);
    return fwrite(out, 1, length, stdout) == length && fflush(stdout) == 0 ? EXIT_SUCCESS : EXIT_FAILURE;
}
