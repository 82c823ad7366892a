/*
 * The check: takes the queue's replies in memory, where nobody is killed, and compares. Every synced record is still
 * there, no record is there that no reply asked for, every line that was told was synced before, and every reply was
 * answered once. `--under-way` is for what a killed worker has left: the rest of the queue is still to come.
 */
#include "journal.h"

#include <inttypes.h>
#include <stdarg.h>
#include <stdlib.h>
#include <string.h>

enum { MOST_LINES = 16 };

/* What there is of a plan, and what there should be. */
typedef struct {
    uint8_t *journal; /* the file's bytes .. */
    size_t len;
    size_t sheet_len; /* .. of which so many are the sheet */
    size_t synced;    /* the last offset that was noted as synced */
    uint8_t *wanted;  /* the records that the queue gives .. */
    size_t wanted_len;
    size_t answered_len; /* .. up to here for replies that were answered */
    int64_t lines;       /* so many lines were told, and these: */
    int64_t line[MOST_LINES][2];
} looked_at;

typedef struct {
    bool under_way;
    plan plans[MOST_PLANS]; /* as they are where nobody is killed */
    looked_at looked[MOST_PLANS];
    size_t count;
    seen answers[MOST_REPLIES]; /* in the sequence in which they were given */
    size_t answered;
    long repeated_lines;
    long repeated_calls;
    long faults;
} checking;

static checking c;

static void fault(const char *format, ...)
{
    va_list values;
    va_start(values, format);
    vprintf(format, values);
    printf("\n");
    va_end(values);
    c.faults++;
}

/* The sheet of a journal: the shortest bytes at its start that open. 0 where there is none. */
static size_t sheet_length(const uint8_t *journal, size_t len, sinewhopa_state *state)
{
    size_t at;
    for (size_t size = 1; size <= len; size++) {
        if (sinewhopa_open(state, journal, size, &at) == SINEWHOPA_TAKEN) {
            return size;
        }
    }
    return 0;
}

static void read_journals(const char *folder, const char *synced_path)
{
    int64_t ids[MOST_PLANS];
    size_t synced[MOST_PLANS];
    c.count = list_plans(folder, ids);
    if (!read_synced(synced_path, ids, c.count, synced)) {
        fault("a synced offset went down");
    }
    for (size_t place = 0; place < c.count; place++) {
        char path[PATH_ROOM];
        looked_at *l = &c.looked[place];
        plan *p = &c.plans[place];
        journal_path(path, folder, ids[place], "journal");
        l->journal = read_file(path, &l->len);
        l->sheet_len = sheet_length(l->journal, l->len, &p->state);
        l->synced = synced[place] > l->sheet_len ? synced[place] : l->sheet_len;
        p->id = ids[place];
        p->wake = next_wake(&p->state);
        if (l->sheet_len == 0) {
            fault("plan %" PRId64 ": its sheet is not whole", p->id);
        }
    }
}

/* A line that an office was told: the next one of its plan, or one that it was told before. */
static void look_at_told(const int64_t told[4])
{
    plan *p = find_plan(c.plans, c.count, told[0]);
    looked_at *l = p == NULL ? NULL : &c.looked[p - c.plans];
    int64_t n = told[1];
    if (l == NULL || n >= MOST_LINES) {
        fault("plan %" PRId64 ": an office was told line %" PRId64 ", which there cannot be", told[0], n);
    } else if (n > l->lines) {
        fault("plan %" PRId64 ": line %" PRId64 " was told before an earlier one", told[0], n);
    } else if (n == l->lines) {
        l->line[n][0] = told[2];
        l->line[n][1] = told[3];
        l->lines++;
    } else if (l->line[n][0] != told[2] || l->line[n][1] != told[3]) {
        fault("plan %" PRId64 ": line %" PRId64 " was told with two contents", told[0], n);
    } else {
        c.repeated_lines++;
    }
}

static void read_world(const char *path)
{
    FILE *world = open_file(path, "r");
    seen one;
    while (read_seen(world, path, &one)) {
        if (one.told) {
            look_at_told(one.numbers);
        } else if (c.answered == MOST_REPLIES || one.numbers[0] != (int64_t)c.answered) {
            fault("reply %" PRId64 ": answered twice, or before an earlier one", one.numbers[0]);
        } else {
            c.answers[c.answered++] = one;
        }
    }
    fclose(world);
}

static void want(const plan *p, const records *made)
{
    looked_at *l = &c.looked[p - c.plans];
    uint8_t *more = realloc(l->wanted, l->wanted_len + made->len + 1);
    if (more == NULL) {
        stop("no memory");
    }
    memcpy(more + l->wanted_len, made->bytes, made->len);
    l->wanted = more;
    l->wanted_len += made->len;
}

/* A closing whose answer was cut off is closed already when it is taken again. */
static void compare_answer(const plan *p, size_t place, const reply *one, uint8_t number)
{
    const int64_t *given = c.answers[place].numbers;
    bool has_fate = number == SINEWHOPA_TAKEN && one->kind == SINEWHOPA_HAND_IN;
    bool again = number == SINEWHOPA_TAKEN && one->kind == SINEWHOPA_CLOSE_STEP && given[1] == SINEWHOPA_ALREADY_CLOSED;
    if ((given[1] != number && !again) || given[2] != (has_fate ? p->state.fate[one->number] : 0)) {
        fault("reply %zu: answered %" PRId64 " %" PRId64 ", not as it should be", place, given[1], given[2]);
    }
}

/* Takes a reply where nobody is killed. */
static void take_in_memory(size_t place, const reply *one)
{
    plan *p = find_plan(c.plans, c.count, one->plan);
    if (p == NULL) {
        fault("reply %zu: there is no plan %" PRId64, place, one->plan);
        return;
    }
    for (plan *due = next_due(c.plans, c.count, one->minute); due != NULL;
         due = next_due(c.plans, c.count, one->minute)) {
        records woken = {.len = 0};
        wake_plan(due, &woken);
        want(due, &woken);
    }
    records made = {.len = 0};
    uint8_t number = take(p, one, &made);
    want(p, &made);
    if (place < c.answered) {
        compare_answer(p, place, one, number);
    }
}

/* Takes the replies that were answered, and the next one, which a killed worker may have taken already. */
static void take_queue(const char *path)
{
    FILE *queue = open_file(path, "r");
    size_t place = 0;
    reply one;
    for (; place <= c.answered && read_reply(queue, path, &one); place++) {
        for (size_t which = 0; place == c.answered && which < c.count; which++) {
            c.looked[which].answered_len = c.looked[which].wanted_len;
        }
        take_in_memory(place, &one);
    }
    if (place < c.answered) {
        fault("reply %zu: answered, and nobody sent it", place);
    }
    if (place > c.answered && !c.under_way) {
        fault("reply %zu: not answered", c.answered);
    }
    for (size_t which = 0; place == c.answered && which < c.count; which++) {
        c.looked[which].answered_len = c.looked[which].wanted_len;
    }
    fclose(queue);
}

static bool same_record(const uint8_t *left, size_t left_len, const uint8_t *right, size_t right_len)
{
    uint8_t scratch[SINEWHOPA_RECORD_MOST];
    size_t len = left_len == 0 ? 0 : sinewhopa_record(left[0], 0, scratch);
    return len > 0 && len <= left_len && len <= right_len && memcmp(left, right, len) == 0;
}

/*
 * Walks over the whole records of a journal, up to offset `end`. They have to be those that the queue gives, each once;
 * but one that is no move of the minute may stand there again: a reply whose answer was cut off is taken again. Gives
 * how many bytes of the wanted records were met.
 */
static size_t walk(const plan *p, const looked_at *l, size_t end)
{
    uint8_t scratch[SINEWHOPA_RECORD_MOST];
    size_t met = 0;
    size_t last = 0;
    for (size_t at = l->sheet_len; at < end; at += sinewhopa_record(l->journal[at], 0, scratch)) {
        if (same_record(l->journal + at, end - at, l->wanted + met, l->wanted_len - met)) {
            last = met;
            met += sinewhopa_record(l->journal[at], 0, scratch);
        } else if (l->journal[at] != SINEWHOPA_ADVANCE &&
                   same_record(l->journal + at, end - at, l->wanted + last, met - last)) {
            c.repeated_calls++;
        } else {
            fault("plan %" PRId64 ": a record at offset %zu that no reply asked for", p->id, at);
            return l->wanted_len;
        }
    }
    return met;
}

/* What was told has to be what the synced part of the journal has settled; at the end, all of it. */
static void compare_lines(const plan *p, const looked_at *l)
{
    sinewhopa_state synced;
    size_t at;
    size_t leftover;
    if (sinewhopa_open_journal(&synced, l->journal, l->synced, &at, &leftover) != SINEWHOPA_TAKEN || leftover > 0) {
        fault("plan %" PRId64 ": the synced bytes are not whole records", p->id);
        return;
    }
    for (int64_t n = 0; n < l->lines; n++) {
        if (n >= synced.lines || l->line[n][0] != synced.line_event[n] || l->line[n][1] != synced.line_fate[n]) {
            fault("plan %" PRId64 ": an office was told line %" PRId64 ", which is not synced", p->id, n);
        }
    }
    if (!c.under_way && l->lines < synced.lines) {
        fault("plan %" PRId64 ": no office was told line %" PRId64, p->id, l->lines);
    }
}

static void check_journal(const plan *p, const looked_at *l)
{
    sinewhopa_state state;
    size_t at;
    size_t leftover;
    uint8_t number = sinewhopa_open_journal(&state, l->journal, l->len, &at, &leftover);
    if (number != SINEWHOPA_TAKEN) {
        fault("plan %" PRId64 ": its journal does not open: number %u at offset %zu", p->id, (unsigned)number, at);
        return;
    }
    if (at < l->synced) {
        fault("plan %" PRId64 ": %zu bytes are gone that were synced", p->id, l->synced - at);
        return;
    }
    if (walk(p, l, at) < l->answered_len) {
        fault("plan %" PRId64 ": a record is gone whose reply was answered", p->id);
    }
    if (!c.under_way && leftover > 0) {
        fault("plan %" PRId64 ": %zu leftover bytes", p->id, leftover);
    }
    compare_lines(p, l);
}

/* Prints what is wrong and a line of counts. The status is 0 where nothing is wrong. */
int check(int argc, char **argv)
{
    int64_t lines = 0;
    c.under_way = argc == 5 && strcmp(argv[0], "--under-way") == 0;
    if (argc == 5 && !c.under_way) {
        stop("not an option of check: %s", argv[0]);
    }
    argv += argc - 4;
    read_journals(argv[0], argv[3]);
    read_world(argv[1]);
    take_queue(argv[2]);
    for (size_t place = 0; place < c.count; place++) {
        check_journal(&c.plans[place], &c.looked[place]);
        lines += c.looked[place].lines;
        free(c.looked[place].journal);
        free(c.looked[place].wanted);
    }
    printf("%zu plans, %zu replies answered, %ld calls taken again, %" PRId64 " lines told, %ld times again; "
           "%ld faults\n",
           c.count, c.answered, c.repeated_calls, lines, c.repeated_lines, c.faults);
    return c.faults == 0 ? EXIT_SUCCESS : EXIT_FAILURE;
}
