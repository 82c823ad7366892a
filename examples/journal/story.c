/*
 * A journal from beginning to end, in a buffer that stands for the disk: records are stored, the power goes in the
 * middle of one, the journal is opened again and cut back, and the office carries nothing out twice. The program fails
 * where anything is not so. `journal.c` is a host with files.
 */
#include <stdbool.h>
#include <stdio.h>
#include <stdlib.h>
#include <string.h>

#include "sinewhopa.h"

enum { CHAPEL = 0, NOTICE = 1, ROOM = 64, UNWRITTEN = 99 };

static const uint8_t sheet[] = {
    1, 0, 6,       /* event 0, the chapel confirms: step 0; may be refused and can wait */
    1, 1, 6,       /* event 1, the notice goes out: step 1; the same */
    2, 0, 1,       /* rule 0, order: the chapel before the notice */
    3, 1, 0,       /* rule 1, need: the notice only if the chapel */
    7, 0,          /* the chapel's window: .. */
    0x66, 3, 0, 0, /* .. from minute 870, 14:30, .. */
    0x84, 3, 0, 0, /* .. until minute 900, 15:00 */
    5              /* the end */
};

/* What is on the disk, and how many lines of the history the office has seen to. */
typedef struct {
    uint8_t bytes[ROOM];
    size_t len;
    uint8_t seen;
} disk;

static const char *const names[] = {"chapel", "notice"};

static void show_state(const sinewhopa_state *state)
{
    printf("  chapel %s, notice %s\n", sinewhopa_fate_name(state->fate[CHAPEL]),
           sinewhopa_fate_name(state->fate[NOTICE]));
}

/* Opens the journal and shows what has become of the events. False where it does not open. */
static bool show_fates(const disk *d, sinewhopa_state *state)
{
    size_t at;
    size_t leftover;
    uint8_t number = sinewhopa_open_journal(state, d->bytes, d->len, &at, &leftover);
    show_state(state);
    return number == SINEWHOPA_TAKEN;
}

/* The office sees to the lines that are new to it, and carries out what is done or forced. */
static void carry_out(disk *d, const sinewhopa_state *state)
{
    const char *between = " ";
    printf("  carried out:");
    for (; d->seen < state->lines; d->seen++) {
        uint8_t fate = state->line_fate[d->seen];
        if (fate == SINEWHOPA_DONE || fate == SINEWHOPA_FORCED) {
            printf("%s%s", between, names[state->line_event[d->seen]]);
            between = ", ";
        }
    }
    printf("%s\n", between[0] == ' ' ? " nothing" : "");
}

static void show_call(uint32_t minute, uint8_t kind, uint32_t number)
{
    printf("%02u:%02u ", (unsigned)(minute / 60), (unsigned)(minute % 60));
    if (kind == SINEWHOPA_ADVANCE) {
        printf("advance: ");
    } else {
        printf("%s handed in: ", names[number]);
    }
}

/* Appends a call to the journal and shows the answer. False if it is another, or a byte is written that is not its. */
static bool append(disk *d, uint32_t minute, uint8_t kind, uint32_t number, uint8_t expected)
{
    const disk before = *d;
    size_t at;
    show_call(minute, kind, number);
    uint8_t answer = sinewhopa_append(d->bytes, ROOM, before.len, kind, number, &d->len, &at);
    if (answer == SINEWHOPA_TAKEN) {
        printf("%zu bytes at %zu, journal %zu\n", d->len - at, at, d->len);
    } else {
        printf("turned down, %u, journal %zu\n", (unsigned)answer, d->len);
        at = d->len;
    }
    return answer == expected && memcmp(d->bytes, before.bytes, at) == 0 &&
           memcmp(d->bytes + d->len, before.bytes + d->len, ROOM - d->len) == 0;
}

/* The records up to the moment at which the power goes. */
static bool first_calls(disk *d, sinewhopa_state *state)
{
    memset(d->bytes, UNWRITTEN, sizeof d->bytes);
    memcpy(d->bytes, sheet, sizeof sheet);
    d->len = sizeof sheet;
    d->seen = 0;
    printf("a new journal: the sheet, %zu bytes\n", d->len);
    return append(d, 840, SINEWHOPA_ADVANCE, 840, SINEWHOPA_TAKEN) &&
           append(d, 840, SINEWHOPA_HAND_IN, NOTICE, SINEWHOPA_TAKEN) && show_fates(d, state) &&
           append(d, 870, SINEWHOPA_ADVANCE, 870, SINEWHOPA_TAKEN);
}

/* A host that keeps the state makes the record itself. Only its first byte gets onto the disk. */
static void lose_power(disk *d)
{
    uint8_t record[SINEWHOPA_RECORD_MOST];
    size_t len = sinewhopa_record(SINEWHOPA_HAND_IN, CHAPEL, record);
    d->bytes[d->len++] = record[0];
    show_call(870, SINEWHOPA_HAND_IN, CHAPEL);
    printf("the power goes after 1 of %zu bytes\n", len);
}

/* The machine starts again: opens the journal, sees to what is new, and cuts back what is left over. */
static bool start_again(disk *d, size_t expected_leftover)
{
    sinewhopa_state state;
    size_t at;
    size_t leftover;
    uint8_t number = sinewhopa_open_journal(&state, d->bytes, d->len, &at, &leftover);
    printf("opened again: %zu bytes, whole up to %zu, leftover %zu\n", d->len, at, leftover);
    bool same = show_fates(d, &state);
    carry_out(d, &state);
    if (leftover > 0) {
        printf("cut back to %zu\n", at);
        d->len = at;
    }
    return same && number == SINEWHOPA_TAKEN && leftover == expected_leftover;
}

/* A reply: its call is appended, and only then the office acts. */
static bool take_chapel(disk *d)
{
    sinewhopa_state state;
    if (!append(d, 870, SINEWHOPA_HAND_IN, CHAPEL, SINEWHOPA_TAKEN) || !show_fates(d, &state)) {
        return false;
    }
    carry_out(d, &state);
    return true;
}

/* A byte that is no call's kind, where a record begins: 17, and the state before it. */
static bool try_bad_kind(disk changed, const sinewhopa_state *before)
{
    sinewhopa_state state;
    size_t at;
    size_t leftover;
    changed.bytes[30] = 20;
    uint8_t number = sinewhopa_open_journal(&state, changed.bytes, changed.len, &at, &leftover);
    printf("kind 20 at 30: turned down, %u at %zu\n", (unsigned)number, at);
    show_state(&state);
    return number == SINEWHOPA_BAD_RECORD && at == 30 && leftover == 0 && memcmp(&state, before, sizeof state) == 0;
}

/* However many of the last bytes are lost, the journal opens to the state after the whole records, if the sheet is. */
static bool cut_everywhere(const disk *d)
{
    size_t in_sheet = 0;
    size_t in_record = 0;
    size_t behind = 0;
    for (size_t len = 0; len <= d->len; len++) {
        sinewhopa_state state;
        sinewhopa_state again;
        size_t at;
        size_t end;
        size_t leftover;
        size_t none;
        uint8_t number = sinewhopa_open_journal(&state, d->bytes, len, &at, &leftover);
        if (number == SINEWHOPA_CUT) {
            in_sheet++;
            continue;
        }
        if (number != SINEWHOPA_TAKEN || at + leftover != len ||
            sinewhopa_open_journal(&again, d->bytes, at, &end, &none) != SINEWHOPA_TAKEN || end != at || none != 0 ||
            memcmp(&again, &state, sizeof state) != 0) {
            return false;
        }
        in_record += leftover > 0;
        behind += leftover == 0;
    }
    printf("cut at every byte: %zu in the sheet, %zu in a record, %zu behind one\n", in_sheet, in_record, behind);
    return in_sheet == sizeof sheet;
}

int main(void)
{
    disk d;
    sinewhopa_state early;
    if (!first_calls(&d, &early)) {
        return EXIT_FAILURE;
    }
    lose_power(&d);
    if (!start_again(&d, 1) || !take_chapel(&d) || !start_again(&d, 0) || !take_chapel(&d) || d.seen != 2 ||
        !append(&d, 869, SINEWHOPA_ADVANCE, 869, SINEWHOPA_BACKWARD) || !try_bad_kind(d, &early) ||
        !cut_everywhere(&d)) {
        return EXIT_FAILURE;
    }
    return fflush(stdout) == 0 && !ferror(stdout) ? EXIT_SUCCESS : EXIT_FAILURE;
}
