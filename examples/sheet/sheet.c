/*
 * An office that passes a sheet on: it opens one, makes calls, asks how long its state is as a sheet, and writes it
 * out. A colleague opens what was written, has the same events and rules with every event open, and writes the same
 * bytes. The program fails where anything is not so.
 */
#include <stdbool.h>
#include <stdio.h>
#include <stdlib.h>
#include <string.h>

#include "sinewhopa.h"

enum { UNWRITTEN = 99 };

static const uint8_t sheet[] = {
    6, 0,       /* events 0 to 3, the chapel's booking: begun, ready, confirmed, called off; step 0 */
    1, 1, 6,    /* event 4, the notice is printed: step 1; may be refused and can wait */
    3, 4, 2,    /* rule 0, need: the notice only if the booking is confirmed */
    1, 2, 0,    /* event 5, the crematorium takes the coffin: step 2; comes as it comes */
    2, 5, 4,    /* rule 1, order: the crematorium before the notice */
    1, 3, 6,    /* event 6, the cars are sent: step 3; may be refused and can wait */
    4, 4, 5, 6, /* rule 2, conditional: if the notice and the crematorium, then the cars */
    5           /* the end */
};

/* A buffer to lend, and the length that is answered. */
typedef struct {
    uint8_t out[SINEWHOPA_SHEET_MOST];
    size_t need;
} lent_buffer;

static const char *fate_word(uint8_t fate)
{
    static const char *const words[] = {"open", "held", "done", "refused", "lapsed", "forced"};
    return fate < sizeof words / sizeof words[0] ? words[fate] : "unknown";
}

static void show_state(const char *whose, const sinewhopa_state *state)
{
    printf("%s: %u events, %u rules:", whose, (unsigned)state->events, (unsigned)state->rules);
    for (uint8_t event = 0; event < state->events; event++) {
        printf(" %s", fate_word(state->fate[event]));
    }
    printf("\n");
}

static void show_bytes(const uint8_t *bytes, size_t count)
{
    for (size_t place = 0; place < count; place++) {
        printf("%s%02x", place == 0 ? "" : " ", (unsigned)bytes[place]);
    }
    printf("\n");
}

/* Lends so many bytes of the buffer and shows the answer. False if it is another, or more than a sheet is written. */
static bool lend(const char *whose, const sinewhopa_state *state, size_t room, uint8_t expected, lent_buffer *lent)
{
    const sinewhopa_state before = *state;
    memset(lent->out, UNWRITTEN, sizeof lent->out);
    lent->need = UNWRITTEN;
    uint8_t number = sinewhopa_write_sheet(state, lent->out, room, &lent->need);
    bool taken = number == SINEWHOPA_TAKEN;
    bool as_it_was = memcmp(state, &before, sizeof before) == 0;
    for (size_t place = taken ? lent->need : 0; place < sizeof lent->out; place++) {
        as_it_was = as_it_was && lent->out[place] == UNWRITTEN;
    }
    printf("%s, room for %zu: ", whose, room);
    if (taken) {
        printf("written, length %zu, %s\n", lent->need, as_it_was ? "nothing beyond" : "WRITTEN BEYOND");
    } else {
        printf("turned down, %u, length %zu, %s\n", (unsigned)number, lent->need,
               as_it_was ? "nothing written" : "WRITTEN");
    }
    return as_it_was && number == expected;
}

/* The calls that the office has made by now. */
static bool make_calls(sinewhopa_state *state)
{
    return sinewhopa_submit(state, 5) == SINEWHOPA_TAKEN &&   /* the crematorium: done */
           sinewhopa_submit(state, 4) == SINEWHOPA_TAKEN &&   /* the notice: held, as the chapel has not confirmed */
           sinewhopa_submit(state, 2) == SINEWHOPA_TAKEN &&   /* confirmed: done; the notice still waits for the cars */
           sinewhopa_close_step(state, 0) == SINEWHOPA_TAKEN; /* nothing more of the booking: its open events lapse */
}

/* Asks for the length, tries a buffer that is one byte too short, and writes the sheet. */
static bool write_out(const sinewhopa_state *state, lent_buffer *lent)
{
    if (!lend("office", state, 0, SINEWHOPA_NO_ROOM, lent)) {
        return false;
    }
    size_t length = lent->need;
    if (!lend("office", state, length - 1, SINEWHOPA_NO_ROOM, lent) ||
        !lend("office", state, sizeof lent->out, SINEWHOPA_TAKEN, lent)) {
        return false;
    }
    show_bytes(lent->out, lent->need);
    return lent->need == length;
}

/* The colleague opens what was written, has the office's first state, and writes the same bytes. */
static bool pass_on(const lent_buffer *written, const sinewhopa_state *first)
{
    sinewhopa_state state;
    lent_buffer again;
    size_t at;
    if (sinewhopa_open(&state, written->out, written->need, &at) != SINEWHOPA_TAKEN) {
        return false;
    }
    show_state("colleague, opened", &state);
    bool same_state = memcmp(&state, first, sizeof state) == 0;
    printf("colleague: %s first state\n", same_state ? "the office's" : "NOT the office's");
    if (!lend("colleague", &state, written->need, SINEWHOPA_TAKEN, &again)) {
        return false;
    }
    bool same_bytes = again.need == written->need && memcmp(again.out, written->out, again.need) == 0;
    printf("colleague: %s bytes\n", same_bytes ? "the same" : "OTHER");
    return same_state && same_bytes;
}

/* Bytes that are no state have no sheet. */
static bool try_no_state(void)
{
    sinewhopa_state state;
    lent_buffer lent;
    memset(&state, 0, sizeof state);
    return lend("no state", &state, sizeof lent.out, SINEWHOPA_INCOHERENT, &lent) && lent.need == 0;
}

int main(void)
{
    sinewhopa_state state;
    lent_buffer lent;
    size_t at;
    if (sinewhopa_open(&state, sheet, sizeof sheet, &at) != SINEWHOPA_TAKEN) {
        return EXIT_FAILURE;
    }
    const sinewhopa_state first = state;
    show_state("office, opened", &state);
    if (!make_calls(&state)) {
        return EXIT_FAILURE;
    }
    show_state("office, later", &state);
    if (!write_out(&state, &lent) || !pass_on(&lent, &first) || !try_no_state()) {
        return EXIT_FAILURE;
    }
    return fflush(stdout) == 0 && !ferror(stdout) ? EXIT_SUCCESS : EXIT_FAILURE;
}
