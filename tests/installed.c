/*
 * A host of the installed library: links every function that the header declares, and prints both versions and case A
 * of the examples, by single calls and by a list. tests/install.sh compiles it as C and as C++, against the shared
 * library and against the archive.
 */
#include <sinewhopa.h>
#include <stdbool.h>
#include <stdio.h>
#include <string.h>

/* Case A: events 0 and 1 can wait and can be refused; 0 before 1, and 0 only if 1. */
static const uint8_t sheet[] = {1, 0, 6, 1, 1, 6, 2, 0, 1, 3, 0, 1, 5};

static bool show(const uint8_t *report, size_t length)
{
    return fwrite(report, 1, length, stdout) == length;
}

/* Case A by single calls. False where one of them is not taken. */
static bool by_calls(sinewhopa_state *state)
{
    uint8_t report[SINEWHOPA_REPORT_MOST];
    size_t at;
    return sinewhopa_open(state, sheet, sizeof sheet, &at) == SINEWHOPA_TAKEN &&
           sinewhopa_submit(state, 0) == SINEWHOPA_TAKEN && sinewhopa_submit(state, 1) == SINEWHOPA_TAKEN &&
           show(report, sinewhopa_report(state, 0, report, sizeof report));
}

/* Case A by a list. */
static bool by_list(void)
{
    static const uint8_t calls[] = {16, 0, 16, 1};
    uint8_t report[SINEWHOPA_REPORT_MOST];
    return show(report, sinewhopa_run(sheet, sizeof sheet, calls, sizeof calls, report, sizeof report));
}

/*
 * Case A by a journal, not shown: one call is appended, the record of the other one is stored. False where one is not
 * taken, or where the journal opens to another state than the one by single calls.
 */
static bool by_journal(const sinewhopa_state *state)
{
    sinewhopa_state opened;
    uint8_t journal[sizeof sheet + 2 + SINEWHOPA_RECORD_MOST];
    size_t length, at, leftover;
    memcpy(journal, sheet, sizeof sheet);
    if (sinewhopa_append(journal, sizeof journal, sizeof sheet, SINEWHOPA_HAND_IN, 0, &length, &at) !=
        SINEWHOPA_TAKEN) {
        return false;
    }
    length += sinewhopa_record(SINEWHOPA_HAND_IN, 1, journal + length);
    return sinewhopa_open_journal(&opened, journal, length, &at, &leftover) == SINEWHOPA_TAKEN && at == length &&
           leftover == 0 && memcmp(&opened, state, sizeof opened) == 0;
}

/* The functions that case A leaves out. False where one of them is not taken. */
static bool the_rest(sinewhopa_state *state)
{
    sinewhopa_entry entries[] = {{SINEWHOPA_CLOSE_STEP, 0, 0, 0}};
    uint8_t added[SINEWHOPA_ADDED_COUNTS];
    uint8_t out[SINEWHOPA_SHEET_MOST];
    size_t need;
    return sinewhopa_preview(state, 0, added) == SINEWHOPA_TAKEN &&
           sinewhopa_submit_all(state, entries, 1) == SINEWHOPA_TAKEN && entries[0].refused == SINEWHOPA_TAKEN &&
           sinewhopa_close_step(state, 1) == SINEWHOPA_TAKEN && sinewhopa_finish(state) == SINEWHOPA_TAKEN &&
           sinewhopa_advance(state, 870) == SINEWHOPA_TAKEN && sinewhopa_check(state) == SINEWHOPA_TAKEN &&
           sinewhopa_write_sheet(state, out, sizeof out, &need) == SINEWHOPA_TAKEN && need == sizeof sheet;
}

int main(void)
{
    sinewhopa_state state;
    unsigned linked = sinewhopa_version();
    printf("compiled with %d.%d, linked %u.%u\n", SINEWHOPA_VERSION_MAJOR, SINEWHOPA_VERSION_MINOR, linked / 256,
           linked % 256);
    bool told = by_calls(&state) && by_list() && by_journal(&state) && the_rest(&state);
    printf("event 1: %s; number 16: %s\n", sinewhopa_fate_name(state.fate[1]), sinewhopa_refusal_text(16));
    bool same = linked == SINEWHOPA_VERSION && state.version == SINEWHOPA_VERSION_MAJOR;
    return told && same && fflush(stdout) == 0 && !ferror(stdout) ? 0 : 1;
}
