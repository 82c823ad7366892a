/*
 * A host that asks before it hands in: first what an event would settle, then what it has settled, on a sheet with five
 * events of four steps. The program fails where the two differ.
 */
#include <stdbool.h>
#include <stdio.h>
#include <stdlib.h>
#include <string.h>

#include "sinewhopa.h"

static const uint8_t sheet[] = {
    1, 0, 0,    /* event 0, the crematorium takes the coffin: step 0; comes as it comes */
    1, 1, 6,    /* event 1, the notice is printed: step 1; may be refused and can wait */
    1, 2, 0,    /* event 2, the chapel confirms: step 2; comes as it comes */
    1, 2, 6,    /* event 3, the viewing takes place: step 2; may be refused and can wait */
    1, 3, 6,    /* event 4, the flowers are sent: step 3; the same */
    2, 0, 1,    /* rule 0, order: the crematorium before the notice */
    3, 1, 0,    /* rule 1, need: the notice only if the crematorium */
    3, 1, 2,    /* rule 2, need: the notice only if the chapel */
    3, 3, 2,    /* rule 3, need: the viewing only if the chapel */
    2, 3, 0,    /* rule 4, order: the viewing before the crematorium */
    3, 4, 2,    /* rule 5, need: the flowers only if the chapel */
    5           /* the end */
};

static const char *event_word(uint8_t event)
{
    static const char *const words[] = {"crematorium", "notice", "chapel", "viewing", "flowers"};
    return event < sizeof words / sizeof words[0] ? words[event] : "no such event";
}

static const char *fate_word(uint8_t fate)
{
    static const char *const words[] = {"open", "held", "done", "refused", "lapsed", "forced"};
    return fate < sizeof words / sizeof words[0] ? words[fate] : "unknown";
}

/* What the preview was answered. */
static void show_preview(uint8_t event, uint8_t number, const uint8_t *added, bool as_it_was)
{
    unsigned done = added[SINEWHOPA_ADDED_DONE];
    unsigned refused = added[SINEWHOPA_ADDED_REFUSED];
    unsigned lapsed = added[SINEWHOPA_ADDED_LAPSED];
    unsigned forced = added[SINEWHOPA_ADDED_FORCED];
    printf("%s: would ", event_word(event));
    if (number == SINEWHOPA_TAKEN) {
        printf("settle %u (%u done, %u refused, %u lapsed, %u forced)\n", done + refused + lapsed + forced, done,
               refused, lapsed, forced);
    } else {
        printf("be turned down, %u, %s\n", (unsigned)number, as_it_was ? "nothing written" : "WRITTEN");
    }
}

/* What the hand-in was answered, and what it has settled: the history's new lines. */
static void show_settled(uint8_t event, uint8_t number, const sinewhopa_state *state, uint8_t lines_before)
{
    if (number != SINEWHOPA_TAKEN) {
        printf("%s: turned down, %u\n", event_word(event), (unsigned)number);
        return;
    }
    printf("%s: %s, settled %u", event_word(event), fate_word(state->fate[event]),
           (unsigned)(state->lines - lines_before));
    const char *between = " (";
    for (uint8_t line = lines_before; line < state->lines; line++) {
        printf("%s%s %s", between, event_word(state->line_event[line]), fate_word(state->line_fate[line]));
        between = ", ";
    }
    printf("%s\n", lines_before < state->lines ? ")" : "");
}

/* Whether the history has grown by what the preview counted. */
static bool is_as_counted(const uint8_t *added, const sinewhopa_state *state, uint8_t lines_before)
{
    unsigned by_fate[SINEWHOPA_FORCED + 1] = {0};
    for (uint8_t line = lines_before; line < state->lines; line++) {
        by_fate[state->line_fate[line]]++;
    }
    return by_fate[SINEWHOPA_DONE] == added[SINEWHOPA_ADDED_DONE] &&
           by_fate[SINEWHOPA_REFUSED] == added[SINEWHOPA_ADDED_REFUSED] &&
           by_fate[SINEWHOPA_LAPSED] == added[SINEWHOPA_ADDED_LAPSED] &&
           by_fate[SINEWHOPA_FORCED] == added[SINEWHOPA_ADDED_FORCED];
}

/* Asks about an event, then hands it in. False where the preview wrote what it must not, or where the two differ. */
static bool ask_and_hand_in(sinewhopa_state *state, uint8_t event)
{
    const uint8_t unwritten[SINEWHOPA_ADDED_COUNTS] = {99, 99, 99, 99};
    uint8_t added[SINEWHOPA_ADDED_COUNTS] = {99, 99, 99, 99};
    const sinewhopa_state before = *state;
    uint8_t asked = sinewhopa_preview(state, event, added);
    bool as_it_was = memcmp(state, &before, sizeof before) == 0 &&
                     (asked == SINEWHOPA_TAKEN || memcmp(added, unwritten, sizeof added) == 0);
    show_preview(event, asked, added, as_it_was);
    uint8_t number = sinewhopa_submit(state, event);
    show_settled(event, number, state, before.lines);
    return as_it_was && number == asked && (number != SINEWHOPA_TAKEN || is_as_counted(added, state, before.lines));
}

int main(void)
{
    const uint8_t replies[] = {
        1, /* the newspaper: would be held, as neither the crematorium nor the chapel has replied */
        3, /* the viewing: would be held, as the chapel has not confirmed */
        4, /* the flowers: the same */
        0, /* the crematorium: would be done, and the viewing, for which it is too late then, refused */
        2, /* the chapel: would be done, and the notice and the flowers with it */
        7, /* a slip: there is no event 7 */
        0  /* the crematorium once more: settled already, so that nothing would be */
    };
    sinewhopa_state state;
    size_t at;
    if (sinewhopa_open(&state, sheet, sizeof sheet, &at) != SINEWHOPA_TAKEN) {
        return EXIT_FAILURE;
    }
    for (size_t place = 0; place < sizeof replies; place++) {
        if (!ask_and_hand_in(&state, replies[place])) {
            return EXIT_FAILURE;
        }
    }
    return fflush(stdout) == 0 && !ferror(stdout) ? EXIT_SUCCESS : EXIT_FAILURE;
}
