/*
 * A chapel that confirms only within hours: from 14:30 up to, but not including, 15:00. A reply that comes too early
 * waits until the clock is there; one that comes too late is refused. The notice goes out after the chapel has
 * confirmed, and only if it has. The host moves the state's minute whenever its clock moves, and before it hands in a
 * reply. The program fails where anything is not so.
 */
#include <stdbool.h>
#include <stdio.h>
#include <stdlib.h>
#include <string.h>

#include "sinewhopa.h"

enum { CHAPEL, NOTICE };

/* As `sinewhopa_write_sheet` writes it. A number of four bytes has its lowest first: 102, 3 is 102 + 3 * 256 = 870. */
static const uint8_t sheet[] = {
    1, 0, 6,           /* event 0, the chapel confirms: step 0; may be refused and can wait */
    1, 1, 6,           /* event 1, the notice goes out: step 1; may be refused and can wait */
    2, 0, 1,           /* rule 0, order: the chapel before the notice */
    3, 1, 0,           /* rule 1, need: the notice only if the chapel */
    7, 0,              /* a window of the chapel: */
    102, 3, 0, 0,      /* from minute 870, which is 14:30 */
    132, 3, 0, 0,      /* until minute 900, which is 15:00 */
    5                  /* the end */
};

/*
 * A time of the day as a minute: 14:30 is 14 * 60 + 30 = 870. Here minutes count from the plan's first midnight, so
 * that a time of the next day has 24 hours more. Any start will do that the whole plan keeps to.
 */
static uint32_t at(uint32_t hours, uint32_t minutes)
{
    return hours * 60 + minutes;
}

static void show_time(uint32_t minute)
{
    printf("%02u:%02u", (unsigned)(minute / 60), (unsigned)(minute % 60));
}

static const char *event_word(uint8_t event)
{
    return event == CHAPEL ? "chapel" : "notice";
}

static const char *fate_word(uint8_t fate)
{
    static const char *const words[] = {"open", "held", "done", "refused", "lapsed", "forced"};
    return fate < sizeof words / sizeof words[0] ? words[fate] : "unknown";
}

static bool open_plan(sinewhopa_state *state, const char *name)
{
    size_t at_record;
    printf("%s:\n", name);
    return sinewhopa_open(state, sheet, sizeof sheet, &at_record) == SINEWHOPA_TAKEN;
}

/* What a host does whenever its clock moves. False where the history has then not so many new lines. */
static bool clock_moves(sinewhopa_state *state, uint32_t minute, int settles)
{
    uint8_t before = state->lines;
    if (sinewhopa_advance(state, minute) != SINEWHOPA_TAKEN) {
        return false;
    }
    show_time(minute);
    printf("%s", before == state->lines ? " nothing settled" : "");
    for (uint8_t line = before; line < state->lines; line++) {
        const char *fate = fate_word(state->line_fate[line]);
        printf("%s %s %s", line == before ? "" : ",", event_word(state->line_event[line]), fate);
    }
    printf("\n");
    return state->lines - before == settles && sinewhopa_number(state->minute) == minute;
}

/* A reply comes in: first the minute, then the event. False where its fate is another. */
static bool reply(sinewhopa_state *state, uint32_t minute, uint8_t event, uint8_t fate)
{
    if (sinewhopa_advance(state, minute) != SINEWHOPA_TAKEN || sinewhopa_submit(state, event) != SINEWHOPA_TAKEN) {
        return false;
    }
    show_time(minute);
    printf(" %s handed in: %s\n", event_word(event), fate_word(state->fate[event]));
    return state->fate[event] == fate;
}

/* Saves the state and reads it back. False where that fails, or where the minute is another. */
static bool save_and_load(sinewhopa_state *state)
{
    uint32_t minute = sinewhopa_number(state->minute);
    FILE *file = tmpfile();
    if (file == NULL) {
        return false;
    }
    bool whole = fwrite(state, sizeof *state, 1, file) == 1;
    rewind(file);
    memset(state, 0, sizeof *state);
    whole = whole && fread(state, sizeof *state, 1, file) == 1;
    show_time(sinewhopa_number(state->minute));
    printf(" saved and read back\n");
    return fclose(file) == 0 && whole && sinewhopa_check(state) == SINEWHOPA_TAKEN &&
           sinewhopa_number(state->minute) == minute;
}

/* No minute comes again: an earlier one is turned down, and no byte is written. */
static bool try_backward(sinewhopa_state *state, uint32_t minute)
{
    const sinewhopa_state before = *state;
    uint8_t number = sinewhopa_advance(state, minute);
    show_time(minute);
    printf(" turned down, %u\n", (unsigned)number);
    return number == SINEWHOPA_BACKWARD && memcmp(&before, state, sizeof before) == 0;
}

/* The sheet is written with its window, whatever the minute is. */
static bool write_out(const sinewhopa_state *state)
{
    uint8_t out[SINEWHOPA_SHEET_MOST];
    size_t need;
    if (sinewhopa_write_sheet(state, out, sizeof out, &need) != SINEWHOPA_TAKEN) {
        return false;
    }
    for (size_t place = 0; place < need; place++) {
        printf("%s%02x", place == 0 ? "sheet " : " ", (unsigned)out[place]);
    }
    printf("\n");
    return need == sizeof sheet && memcmp(out, sheet, need) == 0;
}

/* The reply waits, and the notice with it. Both are done when the window opens, on the state that was read back. */
static bool too_early(sinewhopa_state *state)
{
    return open_plan(state, "too early") && reply(state, at(14, 0), NOTICE, SINEWHOPA_HELD) &&
           reply(state, at(14, 10), CHAPEL, SINEWHOPA_HELD) && clock_moves(state, at(14, 29), 0) &&
           save_and_load(state) && clock_moves(state, at(14, 30), 2) && state->fate[NOTICE] == SINEWHOPA_DONE &&
           clock_moves(state, at(14, 30), 0) && try_backward(state, at(14, 29)) && write_out(state);
}

/* At 15:00 it is over. An open event stays open, but is refused when it is handed in, and the notice with it. */
static bool too_late(sinewhopa_state *state)
{
    return open_plan(state, "too late") && reply(state, at(14, 59), NOTICE, SINEWHOPA_HELD) &&
           clock_moves(state, at(15, 0), 0) && state->fate[CHAPEL] == SINEWHOPA_OPEN &&
           reply(state, at(15, 0), CHAPEL, SINEWHOPA_REFUSED) && state->fate[NOTICE] == SINEWHOPA_REFUSED;
}

/* The clock leaps over the whole window: the reply that waits is refused. So a host moves the minute often. */
static bool slept(sinewhopa_state *state)
{
    return open_plan(state, "slept") && reply(state, at(14, 29), CHAPEL, SINEWHOPA_HELD) &&
           clock_moves(state, at(15, 0), 1) && state->fate[CHAPEL] == SINEWHOPA_REFUSED;
}

int main(void)
{
    sinewhopa_state state;
    bool told = too_early(&state) && too_late(&state) && slept(&state) && open_plan(&state, "first minute") &&
                reply(&state, at(14, 30), CHAPEL, SINEWHOPA_DONE) && open_plan(&state, "last minute") &&
                reply(&state, at(14, 59), CHAPEL, SINEWHOPA_DONE);
    return told && fflush(stdout) == 0 && !ferror(stdout) ? EXIT_SUCCESS : EXIT_FAILURE;
}
