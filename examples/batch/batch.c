/*
 * A morning's replies, handed in together: one batch on a sheet with four steps. An entry that is turned down does
 * not stop the later ones; a list of more than 64 entries is turned down whole.
 */
#include <stdbool.h>
#include <stdio.h>
#include <stdlib.h>
#include <string.h>

#include "sinewhopa.h"

enum { TOO_MANY = SINEWHOPA_BATCH_MOST + 1 };

static const uint8_t sheet[] = {
    1, 0, 0,    /* event 0, the crematorium confirms: step 0; comes as it comes */
    1, 1, 6,    /* event 1, the notice is printed: step 1; may be refused and can wait */
    1, 2, 6,    /* event 2, the cars are sent: step 2; the same */
    1, 3, 0,    /* event 3, the organist agrees: step 3; comes as it comes */
    1, 3, 6,    /* event 4, the choir is booked: step 3; may be refused and can wait */
    2, 0, 1,    /* rule 0, order: the crematorium before the notice */
    3, 1, 0,    /* rule 1, need: the notice only if the crematorium */
    3, 2, 0,    /* rule 2, need: the cars only if the crematorium */
    3, 4, 3,    /* rule 3, need: the choir only if the organist */
    5           /* the end */
};

static const char *fate_word(uint8_t fate)
{
    static const char *const words[] = {"open", "held", "done", "refused", "lapsed", "forced"};
    return fate < sizeof words / sizeof words[0] ? words[fate] : "unknown";
}

/* What the entries were answered. */
static void show_entries(const sinewhopa_entry *entries, size_t count)
{
    for (const sinewhopa_entry *entry = entries; entry < entries + count; entry++) {
        bool hand_in = entry->kind == SINEWHOPA_HAND_IN;
        printf("%s %u: ", hand_in ? "hand in" : "close step", (unsigned)entry->number);
        if (entry->refused == SINEWHOPA_TAKEN) {
            printf("%s\n", hand_in ? fate_word(entry->fate) : "closed");
        } else {
            printf("turned down, %u\n", (unsigned)entry->refused);
        }
    }
}

/* What a batch has settled: the history's new lines. */
static void show_settled(const sinewhopa_state *state, uint8_t lines_before)
{
    const char *between = "settled: ";
    for (uint8_t line = lines_before; line < state->lines; line++) {
        printf("%s%u %s", between, (unsigned)state->line_event[line], fate_word(state->line_fate[line]));
        between = ", ";
    }
    printf("\n");
}

/* One entry too many: the cars' reply, 65 times. True where it is turned down and nothing is written. */
static bool try_too_many(sinewhopa_state *state)
{
    sinewhopa_entry entries[TOO_MANY];
    sinewhopa_entry entries_before[TOO_MANY];
    const sinewhopa_state state_before = *state;
    for (size_t place = 0; place < TOO_MANY; place++) {
        entries[place] = (sinewhopa_entry){.kind = SINEWHOPA_HAND_IN, .number = 2, .refused = 99, .fate = 99};
    }
    memcpy(entries_before, entries, sizeof entries);
    uint8_t number = sinewhopa_submit_all(state, entries, TOO_MANY);
    bool as_it_was = memcmp(state, &state_before, sizeof *state) == 0 &&
                     memcmp(entries, entries_before, sizeof entries) == 0;
    printf("%d entries: turned down, %u, %s\n", TOO_MANY, (unsigned)number, as_it_was ? "nothing written" : "WRITTEN");
    return number == SINEWHOPA_TOO_LONG && as_it_was;
}

int main(void)
{
    sinewhopa_entry replies[] = {
        {.kind = SINEWHOPA_HAND_IN, .number = 1},    /* the newspaper: held, as the crematorium has not confirmed */
        {.kind = SINEWHOPA_HAND_IN, .number = 4},    /* the choir: held, as the organist has not agreed */
        {.kind = SINEWHOPA_HAND_IN, .number = 9},    /* a slip: there is no event 9; the later entries go ahead */
        {.kind = SINEWHOPA_CLOSE_STEP, .number = 3}, /* no more music: the organist lapses, so the choir is refused */
        {.kind = SINEWHOPA_HAND_IN, .number = 0},    /* the crematorium: done, and the notice with it */
        {.kind = SINEWHOPA_HAND_IN, .number = 1},    /* the newspaper once more: done by now */
        {.kind = SINEWHOPA_CLOSE_STEP, .number = 3}  /* closed already */
    };
    size_t count = sizeof replies / sizeof replies[0];
    sinewhopa_state state;
    size_t at;
    if (sinewhopa_open(&state, sheet, sizeof sheet, &at) != SINEWHOPA_TAKEN) {
        return EXIT_FAILURE;
    }
    uint8_t lines_before = state.lines;
    if (sinewhopa_submit_all(&state, replies, count) != SINEWHOPA_TAKEN) {
        return EXIT_FAILURE;
    }
    show_entries(replies, count);
    show_settled(&state, lines_before);
    if (!try_too_many(&state)) {
        return EXIT_FAILURE;
    }
    return fflush(stdout) == 0 && !ferror(stdout) ? EXIT_SUCCESS : EXIT_FAILURE;
}
