/*
 * A host that keeps its plans in SQLite, and loses nothing and does nothing twice when it is killed. One transaction
 * holds the state, the call, the lines that the call settled (the outbox) and the mark that the reply was taken.
 * `docs/STORING.md` says why. Without an argument it prints its commands.
 */
#define _POSIX_C_SOURCE 200809L
#include "store.h"

#include <errno.h>
#include <fcntl.h>
#include <inttypes.h>
#include <stdarg.h>
#include <stdlib.h>
#include <string.h>
#include <time.h>
#include <unistd.h>

const char schema[] =
    "CREATE TABLE plan (\n"
    "    id INTEGER PRIMARY KEY,\n"
    "    sheet BLOB NOT NULL,         -- the bytes that sinewhopa_open has read\n"
    "    state BLOB NOT NULL,         -- the 384 bytes\n"
    "    checksum INTEGER NOT NULL,   -- CRC-32 of state\n"
    "    wake INTEGER                 -- the next minute at which a window begins or ends; NULL: none\n"
    ");\n"
    "CREATE INDEX plan_wake ON plan (wake);\n"
    "CREATE TABLE call (              -- the calls that were taken, in their order\n"
    "    plan INTEGER NOT NULL, n INTEGER NOT NULL,\n"
    "    record BLOB NOT NULL,        -- 16 event, 17 step, 18, or 19 minute (four bytes, lowest first)\n"
    "    PRIMARY KEY (plan, n)\n"
    ");\n"
    "CREATE TABLE outbox (            -- the lines of the histories, to be acted on\n"
    "    plan INTEGER NOT NULL, line INTEGER NOT NULL,\n"
    "    event INTEGER NOT NULL, fate INTEGER NOT NULL,\n"
    "    sent INTEGER NOT NULL DEFAULT 0,\n"
    "    PRIMARY KEY (plan, line)\n"
    ");\n"
    "CREATE INDEX outbox_unsent ON outbox (plan, line) WHERE sent = 0;\n"
    "CREATE TABLE reply (             -- the marks: a reply that is here was taken\n"
    "    id INTEGER PRIMARY KEY,      -- unique over all senders\n"
    "    plan INTEGER NOT NULL, kind INTEGER NOT NULL, number INTEGER NOT NULL,\n"
    "    answer INTEGER NOT NULL,     -- what the call returned: 0, or the number of the refusal\n"
    "    fate INTEGER,                -- of a submit that was taken: the event's fate then\n"
    "    n INTEGER                    -- of a call that was taken: its record in call\n"
    ");\n";

/* What a worker has. The last four are for the test. */
typedef struct {
    sqlite3 *db;
    int world;             /* the offices: a file that is only appended to */
    bool no_sync;          /* not written through to the disk: safe from a kill, not from a loss of power */
    long most;             /* stops after so many replies; 0: at the queue's end */
    long slow;             /* microseconds to wait at each point where a kill would hurt */
    bool two_transactions; /* WRONG on purpose: the outbox is committed after the state */
} host;

/* A plan in hand, within a transaction. */
typedef struct {
    int64_t id;
    sinewhopa_state state;
    uint8_t lines;  /* so many lines of the history are in the outbox */
    int64_t calls;  /* so many calls are stored */
    record made[2]; /* the calls to be stored .. */
    int count;      /* .. and how many */
    bool rebuilt;   /* the stored state was turned down, and this one comes from the calls */
} plan;

_Noreturn void stop(const char *format, ...)
{
    va_list values;
    va_start(values, format);
    fprintf(stderr, "store: ");
    vfprintf(stderr, format, values);
    fprintf(stderr, "\n");
    va_end(values);
    exit(EXIT_FAILURE);
}

/*
 * WAL with synchronous FULL: a commit is on the disk before anything is done that rests on it. A kill alone loses
 * nothing without that, as the system has what the program wrote; a loss of power does.
 */
sqlite3 *open_database(const char *path, int flags)
{
    sqlite3 *db;
    if (sqlite3_open_v2(path, &db, flags, NULL) != SQLITE_OK) {
        stop("%s: %s", path, sqlite3_errmsg(db));
    }
    sqlite3_busy_timeout(db, 10000);
    run(db, "PRAGMA synchronous = FULL");
    return db;
}

void run(sqlite3 *db, const char *sql)
{
    if (sqlite3_exec(db, sql, NULL, NULL, NULL) != SQLITE_OK) {
        stop("%s: %s", sql, sqlite3_errmsg(db));
    }
}

sqlite3_stmt *ask(sqlite3 *db, const char *sql, const int64_t *numbers, int count)
{
    sqlite3_stmt *statement;
    if (sqlite3_prepare_v2(db, sql, -1, &statement, NULL) != SQLITE_OK) {
        stop("%s: %s", sql, sqlite3_errmsg(db));
    }
    for (int place = 0; place < count; place++) {
        sqlite3_bind_int64(statement, place + 1, numbers[place]);
    }
    return statement;
}

bool has_row(sqlite3_stmt *statement)
{
    int result = sqlite3_step(statement);
    if (result != SQLITE_ROW && result != SQLITE_DONE) {
        stop("%s: %s", sqlite3_sql(statement), sqlite3_errmsg(sqlite3_db_handle(statement)));
    }
    return result == SQLITE_ROW;
}

/* Runs what is left of a statement and gives it back. */
void finish_statement(sqlite3_stmt *statement)
{
    while (has_row(statement)) {
    }
    sqlite3_finalize(statement);
}

bool first_row(sqlite3_stmt *statement, int64_t *numbers, int count)
{
    bool found = has_row(statement);
    for (int place = 0; found && place < count; place++) {
        numbers[place] = sqlite3_column_int64(statement, place);
    }
    sqlite3_finalize(statement);
    return found;
}

static uint32_t crc32_step(uint32_t sum, uint8_t byte)
{
    sum ^= byte;
    for (int bit = 0; bit < 8; bit++) {
        sum = sum >> 1 ^ ((sum & 1) != 0 ? 0xedb88320u : 0);
    }
    return sum;
}

uint32_t crc32_of(const uint8_t *bytes, size_t size)
{
    uint32_t sum = 0xffffffffu;
    for (size_t place = 0; place < size; place++) {
        sum = crc32_step(sum, bytes[place]);
    }
    return ~sum;
}

static uint32_t checksum_of(const sinewhopa_state *state)
{
    return crc32_of((const uint8_t *)state, sizeof *state);
}

static record record_of(uint8_t kind, uint32_t number)
{
    record one = {.bytes = {kind}, .size = kind == FINISH ? 1 : kind == ADVANCE ? 5 : 2};
    for (int place = 1; place < one.size; place++) {
        one.bytes[place] = (uint8_t)(number >> 8 * (place - 1));
    }
    return one;
}

static uint8_t make_call(sinewhopa_state *state, const record *one)
{
    switch (one->bytes[0]) {
    case SUBMIT:
        return sinewhopa_submit(state, one->bytes[1]);
    case CLOSE:
        return sinewhopa_close_step(state, one->bytes[1]);
    case FINISH:
        return sinewhopa_finish(state);
    case ADVANCE:
        return sinewhopa_advance(state, sinewhopa_number(&one->bytes[1]));
    default:
        return SINEWHOPA_BAD_KIND;
    }
}

/* Makes the stored calls of a plan, from record 0 on. NULL, or what is wrong. */
static const char *make_stored_calls(sqlite3_stmt *rows, sinewhopa_state *state)
{
    for (int64_t n = 0; has_row(rows); n++) {
        record one = {.size = sqlite3_column_bytes(rows, 1)};
        if (sqlite3_column_int64(rows, 0) != n || one.size < 1 || one.size > 5) {
            return "a call is missing, or is no record";
        }
        memcpy(one.bytes, sqlite3_column_blob(rows, 1), (size_t)one.size);
        if (one.size != record_of(one.bytes[0], 0).size || make_call(state, &one) != SINEWHOPA_TAKEN) {
            return "a stored call is turned down";
        }
    }
    return NULL;
}

const char *replay(sqlite3 *db, int64_t id, sinewhopa_state *state)
{
    size_t at;
    sqlite3_stmt *row = ASK(db, "SELECT sheet FROM plan WHERE id = ?", id);
    bool opened = has_row(row) && sqlite3_column_bytes(row, 0) > 0 &&
                  sinewhopa_open(state, sqlite3_column_blob(row, 0), (size_t)sqlite3_column_bytes(row, 0), &at) ==
                      SINEWHOPA_TAKEN;
    sqlite3_finalize(row);
    if (!opened) {
        return "its sheet is turned down";
    }
    sqlite3_stmt *rows = ASK(db, "SELECT n, record FROM call WHERE plan = ? ORDER BY n", id);
    const char *wrong = make_stored_calls(rows, state);
    sqlite3_finalize(rows);
    return wrong;
}

bool read_state(sqlite3_stmt *row, int state_column, sinewhopa_state *state, uint32_t *checksum)
{
    bool whole = sqlite3_column_bytes(row, state_column) == (int)sizeof *state;
    memset(state, 0, sizeof *state);
    if (whole) {
        memcpy(state, sqlite3_column_blob(row, state_column), sizeof *state);
    }
    *checksum = (uint32_t)sqlite3_column_int64(row, state_column + 1);
    return whole && *checksum == checksum_of(state);
}

/* Whether the outbox has exactly the lines of the state's history. */
static bool is_in_outbox(sqlite3 *db, const plan *p)
{
    sqlite3_stmt *rows = ASK(db, "SELECT line, event, fate FROM outbox WHERE plan = ? ORDER BY line", p->id);
    bool same = true;
    int line = 0;
    for (; has_row(rows); line++) {
        same = same && line < p->state.lines && sqlite3_column_int(rows, 0) == line &&
               sqlite3_column_int(rows, 1) == p->state.line_event[line] &&
               sqlite3_column_int(rows, 2) == p->state.line_fate[line];
    }
    sqlite3_finalize(rows);
    return same && line == p->state.lines;
}

/*
 * The stored state is turned down: by its checksum, or, where that fits, with 12, as another version of the library may
 * do. The sheet and the calls give it again. It has to fit the checksum, or else the lines that offices may have acted
 * on already. Where it does not, a person has to look.
 */
static void rebuild(sqlite3 *db, plan *p, bool fits, uint32_t checksum)
{
    const char *wrong = replay(db, p->id, &p->state);
    if (wrong == NULL && !fits && checksum_of(&p->state) != checksum) {
        wrong = "the calls give another state than the stored checksum is of";
    }
    if (wrong == NULL && fits && !is_in_outbox(db, p)) {
        wrong = "the calls give another history than the outbox has";
    }
    if (wrong != NULL) {
        stop("plan %" PRId64 ": the stored state is turned down, and %s", p->id, wrong);
    }
    fprintf(stderr, "plan %" PRId64 ": the stored state is turned down by %s; made again from its sheet and calls\n",
            p->id, fits ? "number 12" : "its checksum");
    p->rebuilt = true;
}

/* Reads a plan, in a transaction that has the write lock. False where there is no such plan. */
static bool load_plan(sqlite3 *db, int64_t id, plan *p)
{
    uint32_t checksum;
    *p = (plan){.id = id};
    sqlite3_stmt *row = ASK(
        db, "SELECT state, checksum, (SELECT count(*) FROM call WHERE plan = plan.id) FROM plan WHERE id = ?", id);
    if (!has_row(row)) {
        sqlite3_finalize(row);
        return false;
    }
    bool fits = read_state(row, 0, &p->state, &checksum);
    p->calls = sqlite3_column_int64(row, 2);
    finish_statement(row);
    if (!fits || sinewhopa_check(&p->state) != SINEWHOPA_TAKEN) {
        rebuild(db, p, fits, checksum);
    }
    p->lines = p->state.lines;
    return true;
}

/* Makes a call on a plan in hand. One that is turned down changes nothing and is not stored. */
static uint8_t make(plan *p, record one)
{
    uint8_t number = make_call(&p->state, &one);
    if (number == SINEWHOPA_TAKEN) {
        p->made[p->count++] = one;
    }
    return number;
}

/* Moves the plan's minute, where it is not there yet. A clock that was set back leaves it as it is. */
static void move_minute(plan *p, int64_t minute)
{
    if (minute > (int64_t)sinewhopa_number(p->state.minute)) {
        make(p, record_of(ADVANCE, (uint32_t)minute));
    }
}

static int64_t sooner(int64_t wake, uint32_t minute, uint32_t now)
{
    return minute > now && (wake < 0 || minute < wake) ? minute : wake;
}

int64_t next_wake(const sinewhopa_state *state)
{
    uint32_t now = sinewhopa_number(state->minute);
    int64_t wake = -1;
    for (uint8_t event = 0; event < state->events; event++) {
        if (state->fate[event] <= SINEWHOPA_HELD) {
            wake = sooner(wake, sinewhopa_number(state->from[event]), now);
            wake = sooner(wake, sinewhopa_number(state->until[event]), now);
        }
    }
    return wake;
}

static void put_calls(sqlite3 *db, const plan *p)
{
    for (int place = 0; place < p->count; place++) {
        sqlite3_stmt *statement =
            ASK(db, "INSERT INTO call (plan, n, record) VALUES (?, ?, ?)", p->id, p->calls + place);
        sqlite3_bind_blob(statement, 3, p->made[place].bytes, p->made[place].size, SQLITE_STATIC);
        finish_statement(statement);
    }
}

static void put_state(sqlite3 *db, const plan *p)
{
    sqlite3_stmt *statement = ASK(db, "UPDATE plan SET checksum = ?1, wake = nullif(?2, -1), state = ?4 WHERE id = ?3",
                                  checksum_of(&p->state), next_wake(&p->state), p->id);
    sqlite3_bind_blob(statement, 4, &p->state, sizeof p->state, SQLITE_STATIC);
    finish_statement(statement);
}

/* The lines that are new, each under its plan and its number in the history. */
static void put_lines(sqlite3 *db, const plan *p)
{
    for (uint8_t line = p->lines; line < p->state.lines; line++) {
        finish_statement(ASK(db, "INSERT INTO outbox (plan, line, event, fate) VALUES (?, ?, ?, ?)", p->id, line,
                             p->state.line_event[line], p->state.line_fate[line]));
    }
}

/* A point where a kill would hurt. The test makes it last. */
static void linger(const host *h, long times)
{
    long wait = h->slow * times;
    struct timespec time = {.tv_sec = wait / 1000000, .tv_nsec = wait % 1000000 * 1000};
    if (wait > 0) {
        nanosleep(&time, NULL);
    }
}

/* Stores what has become of a plan, and commits. */
static void put_plan(host *h, const plan *p)
{
    put_calls(h->db, p);
    put_state(h->db, p);
    linger(h, 1);
    if (h->two_transactions && p->lines < p->state.lines) { /* WRONG: whoever is killed here never acts on the lines */
        run(h->db, "COMMIT");
        linger(h, 20);
        run(h->db, "BEGIN IMMEDIATE");
    }
    put_lines(h->db, p);
    linger(h, 1);
    run(h->db, "COMMIT");
}

/* The mark that a reply was taken, with what was answered. */
static void put_reply(sqlite3 *db, const reply *one, uint8_t answer, const plan *p)
{
    bool taken = answer == SINEWHOPA_TAKEN;
    int64_t fate = taken && one->kind == SUBMIT ? p->state.fate[one->number] : -1;
    int64_t n = taken ? p->calls + p->count - 1 : -1;
    finish_statement(ASK(db,
                         "INSERT INTO reply (id, plan, kind, number, answer, fate, n) "
                         "VALUES (?, ?, ?, ?, ?, nullif(?, -1), nullif(?, -1))",
                         one->id, one->plan, one->kind, one->number, answer, fate, n));
}

typedef enum { TAKEN_NOW, TAKEN_BEFORE, NOT_TAKEN } taking;

/* Whether a reply can be taken: not one that was taken before, nor one under the id of another. */
static taking look_up(sqlite3 *db, const reply *one)
{
    int64_t same = 0;
    const char *sql = "SELECT plan = ? AND kind = ? AND number = ? FROM reply WHERE id = ?";
    bool known = first_row(ASK(db, sql, one->plan, one->kind, one->number, one->id), &same, 1);
    if (known && same == 0) {
        fprintf(stderr, "reply %" PRId64 ": another reply with this id was taken before; not taken\n", one->id);
    }
    return !known ? TAKEN_NOW : same == 1 ? TAKEN_BEFORE : NOT_TAKEN;
}

/* Takes a reply. All that comes of it is in one transaction, which is the plan's only writer from the start. */
static taking take_reply(host *h, const reply *one)
{
    plan p;
    run(h->db, "BEGIN IMMEDIATE");
    taking way = look_up(h->db, one);
    if (way == TAKEN_NOW && !load_plan(h->db, one->plan, &p)) {
        fprintf(stderr, "reply %" PRId64 ": there is no plan %" PRId64 "; not taken\n", one->id, one->plan);
        way = NOT_TAKEN;
    }
    if (way != TAKEN_NOW) {
        run(h->db, "ROLLBACK");
        return way;
    }
    move_minute(&p, one->minute);
    uint8_t answer = make(&p, record_of((uint8_t)one->kind, (uint32_t)one->number));
    put_reply(h->db, one, answer, &p);
    put_plan(h, &p);
    return way;
}

/*
 * The timer: moves one plan whose window begins or ends by `minute`. False where there is none. The queue's clock jumps
 * from reply to reply; a timer that looks every minute would have met the plan's own minute, so that one is taken.
 */
static bool wake_next(host *h, int64_t minute)
{
    plan p;
    int64_t found[2];
    const char *sql = "SELECT id, wake FROM plan WHERE wake <= ? ORDER BY wake, id LIMIT 1";
    if (!first_row(ASK(h->db, sql, minute), found, 2)) {
        return false;
    }
    run(h->db, "BEGIN IMMEDIATE");
    if (!load_plan(h->db, found[0], &p)) {
        stop("plan %" PRId64 " is gone", found[0]);
    }
    move_minute(&p, found[1]);
    put_plan(h, &p);
    return true;
}

/* Tells the office. An office keeps the keys (plan, line) that it has carried out, and carries none out again. */
static void tell_office(host *h, const int64_t row[4])
{
    char text[100];
    int size = snprintf(text, sizeof text, "%" PRId64 " %" PRId64 " %" PRId64 " %" PRId64 "\n", row[0], row[1], row[2],
                        row[3]);
    if (write(h->world, text, (size_t)size) != size) {
        stop("the offices' file: %s", strerror(errno));
    }
}

/* Acts on the first row of the outbox that is not marked as sent, and marks it. False where there is none. */
static bool send_next(host *h)
{
    int64_t row[4];
    const char *sql = "SELECT plan, line, event, fate FROM outbox WHERE sent = 0 ORDER BY plan, line LIMIT 1";
    if (!first_row(ask(h->db, sql, NULL, 0), row, 4)) {
        return false;
    }
    linger(h, 1);
    tell_office(h, row);
    linger(h, 3); /* whoever is killed here tells the office again, under the same key */
    finish_statement(ASK(h->db, "UPDATE outbox SET sent = 1 WHERE plan = ? AND line = ?", row[0], row[1]));
    return true;
}

FILE *open_queue(const char *path)
{
    FILE *queue = fopen(path, "r");
    if (queue == NULL) {
        stop("%s: %s", path, strerror(errno));
    }
    return queue;
}

bool read_reply(FILE *queue, const char *path, reply *one)
{
    char text[200];
    int end = 0;
    if (fgets(text, sizeof text, queue) == NULL) {
        return false;
    }
    int read = sscanf(text, "%" SCNd64 "%" SCNd64 "%" SCNd64 "%" SCNd64 "%" SCNd64 " %n", &one->id, &one->minute,
                      &one->plan, &one->kind, &one->number, &end);
    if (read != 5 || text[end] != '\0' || one->minute < 0 || one->minute > UINT32_MAX || one->kind < SUBMIT ||
        one->kind > FINISH || one->number < 0 || one->number > UINT8_MAX) {
        stop("%s: not a reply (id minute plan kind number): %s", path, text);
    }
    return true;
}

/* Acts on every row of the outbox that is not marked; returns how many. */
static int send_all(host *h)
{
    int sent = 0;
    while (send_next(h)) {
        sent++;
    }
    return sent;
}

static int wake_all(host *h, int64_t minute)
{
    int woken = 0;
    while (wake_next(h, minute)) {
        woken++;
    }
    return woken;
}

/* Takes every reply of the queue that was not taken before. The clock is the replies' own, so that a test repeats. */
static int work_through(host *h, const char *path)
{
    FILE *queue = open_queue(path);
    int ways[NOT_TAKEN + 1] = {0};
    int woken = 0;
    int sent = send_all(h);
    reply one;
    while ((h->most == 0 || ways[TAKEN_NOW] < h->most) && read_reply(queue, path, &one)) {
        taking way = look_up(h->db, &one); /* without the lock, to be quick: a mark stays */
        if (way == TAKEN_NOW) {
            woken += wake_all(h, one.minute);
            way = take_reply(h, &one);
            sent += send_all(h);
        }
        ways[way]++;
    }
    fclose(queue);
    printf("%d replies taken, %d taken before, %d not taken; %d times a plan woken; %d lines sent\n", ways[TAKEN_NOW],
           ways[TAKEN_BEFORE], ways[NOT_TAKEN], woken, sent);
    return ways[NOT_TAKEN] == 0 ? EXIT_SUCCESS : EXIT_FAILURE;
}

/* Reads an option of `work`. False where it is none. */
static bool read_option(host *h, const char *text)
{
    char end;
    if (strcmp(text, "--two-transactions") == 0) {
        fprintf(stderr, "store: WRONG on purpose: state and outbox in two transactions\n");
        h->two_transactions = true;
        return true;
    }
    if (strcmp(text, "--no-sync") == 0) {
        h->no_sync = true;
        return true;
    }
    return (sscanf(text, "--slow=%ld%c", &h->slow, &end) == 1 && h->slow >= 0) ||
           (sscanf(text, "--most=%ld%c", &h->most, &end) == 1 && h->most > 0);
}

static int work(int argc, char **argv)
{
    host h = {0};
    int place = 0;
    while (place < argc - 3 && read_option(&h, argv[place])) {
        place++;
    }
    if (place != argc - 3) {
        stop("not an option of work: %s", argv[place]);
    }
    h.db = open_database(argv[place], SQLITE_OPEN_READWRITE);
    run(h.db, h.no_sync ? "PRAGMA synchronous = OFF" : "PRAGMA synchronous = FULL");
    h.world = open(argv[place + 1], O_WRONLY | O_CREAT | O_APPEND, 0666);
    if (h.world < 0) {
        stop("%s: %s", argv[place + 1], strerror(errno));
    }
    int status = work_through(&h, argv[place + 2]);
    sqlite3_close(h.db);
    return status;
}

/* Loads one plan, and stores it again where its state was turned down. */
static bool mend_plan(host *h, int64_t id)
{
    plan p;
    run(h->db, "BEGIN IMMEDIATE");
    if (!load_plan(h->db, id, &p) || !p.rebuilt) {
        run(h->db, "ROLLBACK");
        return false;
    }
    put_plan(h, &p);
    return true;
}

/* What a host runs after the library was changed, or where it doubts its disk. */
static int mend(int argc, char **argv)
{
    (void)argc;
    host h = {.db = open_database(argv[0], SQLITE_OPEN_READWRITE), .world = -1};
    int64_t last = 0;
    first_row(ask(h.db, "SELECT max(id) FROM plan", NULL, 0), &last, 1);
    int mended = 0;
    for (int64_t id = 1; id <= last; id++) {
        mended += mend_plan(&h, id);
    }
    printf("%d plans made again\n", mended);
    sqlite3_close(h.db);
    return EXIT_SUCCESS;
}

static int show_schema(int argc, char **argv)
{
    (void)argc;
    (void)argv;
    return printf("%s", schema) > 0 ? EXIT_SUCCESS : EXIT_FAILURE;
}

static int print_row(void *unused, int count, char **values, char **names)
{
    (void)unused;
    (void)names;
    for (int place = 0; place < count; place++) {
        printf("%s%s", values[place] == NULL ? "NULL" : values[place], place + 1 < count ? " " : "\n");
    }
    return 0;
}

/* For the test: any statements. */
static int run_sql(int argc, char **argv)
{
    (void)argc;
    sqlite3 *db = open_database(argv[0], SQLITE_OPEN_READWRITE);
    if (sqlite3_exec(db, argv[1], print_row, NULL, NULL) != SQLITE_OK) {
        stop("%s: %s", argv[1], sqlite3_errmsg(db));
    }
    sqlite3_close(db);
    return EXIT_SUCCESS;
}

static const struct {
    const char *name;
    int least, most; /* arguments */
    int (*command)(int argc, char **argv);
    const char *usage;
} commands[] = {
    {"work", 3, 7, work, "work DB WORLD REPLIES    takes the replies of a queue, tells the offices"},
    {"mend", 1, 1, mend, "mend DB                  makes each state again that is turned down"},
    {"schema", 0, 0, show_schema, "schema                   prints the tables"},
    {"init", 3, 3, make_plans, "init DB SEED PLANS       for the test: a database with plans"},
    {"replies", 2, 2, make_replies, "replies SEED PLANS       for the test: a queue of replies for them"},
    {"check", 3, 3, check, "check DB WORLD REPLIES   for the test: nothing lost, nothing twice"},
    {"damage", 3, 3, damage, "damage DB PLAN BIT       for the test: flips a bit of a stored state"},
    {"outdate", 2, 2, outdate, "outdate DB PLAN          for the test: a state as another version may have stored it"},
    {"sql", 2, 2, run_sql, "sql DB STATEMENTS        for the test: runs them, prints the rows"},
};

static int usage(void)
{
    for (size_t place = 0; place < sizeof commands / sizeof commands[0]; place++) {
        fprintf(stderr, "%s store %s\n", place == 0 ? "usage:" : "      ", commands[place].usage);
    }
    fprintf(stderr, "options of work, for the test: --no-sync --most=REPLIES --slow=MICROSECONDS --two-transactions\n");
    return EXIT_FAILURE;
}

int main(int argc, char **argv)
{
    int given = argc - 2;
    for (size_t place = 0; argc > 1 && place < sizeof commands / sizeof commands[0]; place++) {
        bool fits = given >= commands[place].least && given <= commands[place].most;
        if (fits && strcmp(argv[1], commands[place].name) == 0) {
            int status = commands[place].command(given, argv + 2);
            return fflush(stdout) == 0 ? status : EXIT_FAILURE;
        }
    }
    return usage();
}
