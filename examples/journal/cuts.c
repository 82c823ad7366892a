/*
 * A test without files: journals from random sheets and random accepted calls, each cut at every byte. What a cut
 * leaves has to open to the state after exactly the whole records, and to go on to the same end when the lost calls
 * are made again. A byte that is no call's kind has to be found where it stands.
 */
#include "journal.h"

#include <stdlib.h>
#include <string.h>

enum { MOST_CALLS = 24, MOST_EVENTS = 8, MOST_RULES = 8, ROOM = SINEWHOPA_SHEET_MOST + 5 * MOST_CALLS, UNWRITTEN = 99 };

/* A journal, and what it was made of. */
typedef struct {
    uint8_t bytes[ROOM];
    size_t len;
    size_t sheet_len;
    size_t count; /* of calls */
    uint8_t kind[MOST_CALLS];
    uint32_t number[MOST_CALLS];
    size_t end[MOST_CALLS + 1];            /* the offset behind the first so many records */
    sinewhopa_state state[MOST_CALLS + 1]; /* the state after the first so many calls */
} made;

static long opened;
static long by_kind[SINEWHOPA_ADVANCE + 1];

static uint8_t make_call(sinewhopa_state *state, uint8_t kind, uint32_t number)
{
    switch (kind) {
    case SINEWHOPA_HAND_IN:
        return sinewhopa_submit(state, (uint8_t)number);
    case SINEWHOPA_CLOSE_STEP:
        return sinewhopa_close_step(state, (uint8_t)number);
    case SINEWHOPA_FINISH:
        return sinewhopa_finish(state);
    default:
        return sinewhopa_advance(state, number);
    }
}

static void put(made *m, const uint8_t *bytes, size_t len)
{
    memcpy(m->bytes + m->sheet_len, bytes, len);
    m->sheet_len += len;
}

/* Adds a record of a sheet, unless the sheet with it and an end is turned down. */
static void try_record(made *m, const uint8_t *bytes, size_t len)
{
    sinewhopa_state state;
    size_t at;
    size_t before = m->sheet_len;
    put(m, bytes, len);
    m->bytes[m->sheet_len] = 5;
    if (sinewhopa_open(&state, m->bytes, m->sheet_len + 1, &at) != SINEWHOPA_TAKEN) {
        m->sheet_len = before;
    }
}

/* A sheet of up to 8 events of 3 steps, up to 8 rules and some windows. */
static void make_sheet(made *m, uint32_t *seed)
{
    uint32_t events = 1 + below(seed, MOST_EVENTS);
    m->sheet_len = 0;
    for (uint32_t event = 0; event < events; event++) {
        try_record(m, (uint8_t[]){1, (uint8_t)below(seed, 3), (uint8_t[]){0, 1, 2, 3, 6, 6, 6, 7}[below(seed, 8)]}, 3);
    }
    for (uint32_t rule = below(seed, MOST_RULES + 1); rule > 0; rule--) {
        uint8_t kind = (uint8_t)(2 + below(seed, 3));
        uint8_t bytes[4] = {kind};
        for (int place = 1; place < 4; place++) {
            bytes[place] = (uint8_t)below(seed, events);
        }
        try_record(m, bytes, kind == 4 ? 4 : 3);
    }
    for (uint32_t window = below(seed, 4); window > 0; window--) {
        uint8_t from = (uint8_t)below(seed, 20);
        uint8_t until = (uint8_t)(from + below(seed, 20));
        try_record(m, (uint8_t[]){7, (uint8_t)below(seed, events), from, 0, 0, 0, until, 0, 0, 0}, 10);
    }
    put(m, (const uint8_t[]){5}, 1);
}

/* A random call, on a state; 300 and more minutes have two bytes that are not 0. */
static void random_call(const sinewhopa_state *state, uint32_t *seed, uint8_t *kind, uint32_t *number)
{
    uint32_t chance = below(seed, 10);
    *kind = chance < 5 ? SINEWHOPA_HAND_IN
            : chance < 7 ? SINEWHOPA_CLOSE_STEP
            : chance < 9 ? SINEWHOPA_ADVANCE
                         : SINEWHOPA_FINISH;
    *number = *kind == SINEWHOPA_HAND_IN ? below(seed, MOST_EVENTS) : below(seed, 3);
    if (*kind == SINEWHOPA_ADVANCE) {
        *number = sinewhopa_number(state->minute) + below(seed, below(seed, 8) == 0 ? 70000 : 12);
    }
}

/* The record of an accepted call goes behind the journal: `sinewhopa_append` and `sinewhopa_record` have to agree. */
static void store_call(made *m, uint8_t kind, uint32_t number)
{
    uint8_t record[SINEWHOPA_RECORD_MOST];
    size_t new_len;
    size_t at;
    size_t len = sinewhopa_record(kind, number, record);
    uint8_t answer = sinewhopa_append(m->bytes, ROOM, m->len, kind, number, &new_len, &at);
    if (answer != SINEWHOPA_TAKEN || at != m->len || new_len != at + len || memcmp(m->bytes + at, record, len) != 0) {
        stop("a call of kind %u is not stored as its record", (unsigned)kind);
    }
    m->kind[m->count] = kind;
    m->number[m->count] = number;
    m->count++;
    m->len = new_len;
    m->end[m->count] = new_len;
    by_kind[kind]++;
}

static void make_journal(made *m, uint32_t *seed)
{
    size_t at;
    sinewhopa_state state;
    memset(m->bytes, UNWRITTEN, sizeof m->bytes);
    make_sheet(m, seed);
    m->len = m->end[0] = m->sheet_len;
    m->count = 0;
    if (sinewhopa_open(&state, m->bytes, m->sheet_len, &at) != SINEWHOPA_TAKEN) {
        stop("a sheet is turned down");
    }
    m->state[0] = state;
    for (uint32_t tries = 8 + below(seed, 40); tries > 0 && m->count < MOST_CALLS; tries--) {
        uint8_t kind;
        uint32_t number;
        random_call(&state, seed, &kind, &number);
        if (make_call(&state, kind, number) == SINEWHOPA_TAKEN) {
            store_call(m, kind, number);
            m->state[m->count] = state;
        }
    }
}

/* A journal that was cut inside its sheet: 1, and the empty state. */
static void try_cut_sheet(const made *m, size_t len)
{
    sinewhopa_state state;
    sinewhopa_state empty;
    size_t at;
    size_t leftover;
    sinewhopa_open(&empty, m->bytes, len, &at);
    size_t wanted_at = at;
    uint8_t number = sinewhopa_open_journal(&state, m->bytes, len, &at, &leftover);
    if (number != SINEWHOPA_CUT || at != wanted_at || leftover != 0 || memcmp(&state, &empty, sizeof state) != 0) {
        stop("%zu bytes of a sheet of %zu: number %u at %zu", len, m->sheet_len, (unsigned)number, at);
    }
    opened++;
}

/* The lost calls, made again on the state that was opened, give the state that was lost. */
static void make_lost_calls(const made *m, size_t whole, sinewhopa_state *state)
{
    for (size_t call = whole; call < m->count; call++) {
        if (make_call(state, m->kind[call], m->number[call]) != SINEWHOPA_TAKEN ||
            memcmp(state, &m->state[call + 1], sizeof *state) != 0) {
            stop("a lost call that is made again gives something else");
        }
    }
}

/* The first lost calls are stored again, over the leftover bytes; no other byte of the buffer changes. */
static void store_lost_calls(const made *m, size_t whole, size_t len, size_t count)
{
    uint8_t bytes[ROOM];
    size_t at;
    memcpy(bytes, m->bytes, len);
    memset(bytes + len, UNWRITTEN, sizeof bytes - len);
    for (size_t call = whole; call < m->count && call < whole + count; call++) {
        uint8_t number = sinewhopa_append(bytes, ROOM, len, m->kind[call], m->number[call], &len, &at);
        if (number != SINEWHOPA_TAKEN || at != m->end[call] || len != m->end[call + 1] ||
            memcmp(bytes, m->bytes, len) != 0) {
            stop("a lost call that is stored again gives another journal");
        }
    }
    for (size_t place = len; place < sizeof bytes; place++) {
        if (bytes[place] != UNWRITTEN) {
            stop("a byte behind the journal was written");
        }
    }
}

/* A journal that was cut behind its sheet, with so many records whole. */
static void try_cut(const made *m, size_t len, size_t whole)
{
    sinewhopa_state state;
    size_t at;
    size_t leftover;
    uint8_t number = sinewhopa_open_journal(&state, m->bytes, len, &at, &leftover);
    if (number != SINEWHOPA_TAKEN || at != m->end[whole] || leftover != len - at ||
        memcmp(&state, &m->state[whole], sizeof state) != 0) {
        stop("%zu of %zu bytes: number %u at %zu, %zu left over", len, m->len, (unsigned)number, at, leftover);
    }
    make_lost_calls(m, whole, &state);
    store_lost_calls(m, whole, len, len % 8 == 0 ? MOST_CALLS : 1);
    opened++;
}

/* The first `len` bytes have a bad record: 17 there, and the state before it. */
static void try_bad_record(const made *m, size_t record, size_t len)
{
    sinewhopa_state state;
    size_t at;
    size_t leftover;
    uint8_t number = sinewhopa_open_journal(&state, m->bytes, len, &at, &leftover);
    if (number != SINEWHOPA_BAD_RECORD || at != m->end[record] || leftover != 0 ||
        memcmp(&state, &m->state[record], sizeof state) != 0) {
        stop("a bad record at %zu of %zu bytes: number %u at %zu", m->end[record], len, (unsigned)number, at);
    }
}

/* A kind that is no call's, at the start of a record, with bytes behind it and as the last byte. */
static void try_bad_kind(made *m, size_t record, uint8_t kind)
{
    size_t place = m->end[record];
    uint8_t kept = m->bytes[place];
    m->bytes[place] = kind;
    try_bad_record(m, record, m->len);
    try_bad_record(m, record, place + 1);
    m->bytes[place] = kept;
}

static void try_journal(made *m, uint32_t *seed)
{
    for (size_t len = 0; len < m->sheet_len; len++) {
        try_cut_sheet(m, len);
    }
    for (size_t len = m->sheet_len, whole = 0; len <= m->len; len++) {
        whole += whole < m->count && m->end[whole + 1] == len;
        try_cut(m, len, whole);
    }
    for (size_t record = 0; record < m->count; record++) {
        uint8_t kind = (uint8_t)below(seed, 252);
        try_bad_kind(m, record, kind < SINEWHOPA_HAND_IN ? kind : (uint8_t)(kind + 4));
    }
}

int cuts(int argc, char **argv)
{
    (void)argc;
    static made m;
    uint32_t seed = (uint32_t)number_of(argv[0], 1, UINT32_MAX);
    int64_t journals = number_of(argv[1], 1, 1000000);
    for (int64_t journal = 0; journal < journals; journal++) {
        make_journal(&m, &seed);
        try_journal(&m, &seed);
    }
    for (uint8_t kind = SINEWHOPA_HAND_IN; kind <= SINEWHOPA_ADVANCE; kind++) {
        if (by_kind[kind] == 0) {
            stop("no call of kind %u", (unsigned)kind);
        }
    }
    printf("%s journals cut at every byte: %ld cuts; records of kind 16: %ld, 17: %ld, 18: %ld, 19: %ld\n", argv[1],
           opened, by_kind[SINEWHOPA_HAND_IN], by_kind[SINEWHOPA_CLOSE_STEP], by_kind[SINEWHOPA_FINISH],
           by_kind[SINEWHOPA_ADVANCE]);
    return EXIT_SUCCESS;
}
