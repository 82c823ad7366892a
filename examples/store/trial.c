/*
 * What the test of `store` needs: plans and replies made from a seed, a damaged and an outdated state, and the check
 * that nothing was lost and nothing done twice.
 */
#include "store.h"

#include <inttypes.h>
#include <stdlib.h>
#include <string.h>

enum { MOST_PLANS = 1000, MOST_REPLIES = 64 * MOST_PLANS, STEPS = 8, NO_SUCH_EVENT = 15 };

static const uint8_t cremation[] = {
    1, 0, 0,    /* event 0, the slot is confirmed: step 0; comes as it comes */
    1, 1, 6,    /* event 1, the notice is printed: step 1; may be refused and can wait */
    1, 2, 6,    /* event 2, the cars are sent: step 2; the same */
    2, 0, 1,    /* rule 0, order: the slot before the notice */
    3, 1, 0,    /* rule 1, need: the notice only if the slot */
    3, 2, 0,    /* rule 2, need: the cars only if the slot */
    5           /* the end */
};

static const uint8_t burial[] = {
    1, 0, 6,    /* event 0, the grave is dug: step 0; may be refused and can wait */
    1, 1, 6,    /* event 1, the chapel is opened: step 1; the same */
    1, 0, 1,    /* event 2, the fee is asked for: step 0; we may bring it about, and cannot refuse it */
    1, 2, 6,    /* event 3, the notice is printed: step 2; as the first two */
    1, 1, 0,    /* event 4, the organist has come: step 1; comes as it comes */
    4, 0, 1, 2, /* rule 0, conditional: if the grave and the chapel, then the fee */
    2, 0, 3,    /* rule 1, order: the grave before the notice */
    3, 3, 1,    /* rule 2, need: the notice only if the chapel */
    3, 4, 2,    /* rule 3, need: the organist only if the fee */
    5           /* the end */
};

static const uint8_t transfer[] = {
    6, 0,       /* events 0 to 3, of step 0: start, prepare, commit, abort */
    6, 1,       /* events 4 to 7, of step 1: the same */
    3, 2, 6,    /* rule 0, need: the first commit only if the second */
    3, 6, 2,    /* rule 1, need: the second commit only if the first */
    2, 2, 6,    /* rule 2, order: the first commit before the second */
    3, 3, 7,    /* rule 3, need: the first abort only if the second, which we may bring about */
    5           /* the end */
};

static const uint8_t chapel[] = {
    1, 0, 6,    /* event 0, the chapel confirms: step 0; may be refused and can wait */
    1, 1, 6,    /* event 1, the notice goes out: step 1; the same */
    2, 0, 1,    /* rule 0, order: the chapel before the notice */
    3, 1, 0,    /* rule 1, need: the notice only if the chapel */
    7, 0,       /* a window of the chapel, which each plan gets its own minutes for */
    0, 0, 0, 0, /* from */
    0, 0, 0, 0, /* until */
    5           /* the end */
};
enum { CHAPEL_FROM = 14, CHAPEL_UNTIL = 18 };

static const struct {
    const uint8_t *bytes;
    size_t size;
} sheets[] = {
    {cremation, sizeof cremation}, {burial, sizeof burial}, {transfer, sizeof transfer}, {chapel, sizeof chapel}};

typedef struct {
    uint8_t bytes[SINEWHOPA_SHEET_MOST];
    size_t size;
} sheet;

/* A number below `most`. The same seed gives the same numbers on every machine. */
static uint32_t below(uint32_t *seed, uint32_t most)
{
    *seed ^= *seed << 13;
    *seed ^= *seed >> 17;
    *seed ^= *seed << 5;
    return *seed % most;
}

static int64_t number_of(const char *text, int64_t least, int64_t most)
{
    char *end;
    long long number = strtoll(text, &end, 10);
    if (*text == '\0' || *end != '\0' || number < least || number > most) {
        stop("%s: not a number from %" PRId64 " to %" PRId64, text, least, most);
    }
    return number;
}

/* The sheet of a plan. Those with a window have one of 1 to 100 minutes, which begins by minute 200. */
static sheet sheet_of(int64_t plan, uint32_t seed)
{
    sheet one = {0};
    uint32_t mixed = seed * 1000003u + (uint32_t)plan;
    size_t which = (size_t)plan % (sizeof sheets / sizeof sheets[0]);
    one.size = sheets[which].size;
    memcpy(one.bytes, sheets[which].bytes, one.size);
    if (sheets[which].bytes == chapel) {
        uint32_t from = 1 + below(&mixed, 200);
        uint32_t until = from + 1 + below(&mixed, 100);
        one.bytes[CHAPEL_FROM] = (uint8_t)from;
        one.bytes[CHAPEL_UNTIL] = (uint8_t)until;
        one.bytes[CHAPEL_UNTIL + 1] = (uint8_t)(until >> 8);
    }
    return one;
}

static sinewhopa_state first_state(const sheet *one)
{
    sinewhopa_state state;
    size_t at;
    uint8_t fault = sinewhopa_open(&state, one->bytes, one->size, &at);
    if (fault != SINEWHOPA_TAKEN) {
        stop("a sheet is turned down: %u at %zu", (unsigned)fault, at);
    }
    return state;
}

static void put_new_plan(sqlite3 *db, int64_t id, uint32_t seed)
{
    sheet one = sheet_of(id, seed);
    sinewhopa_state state = first_state(&one);
    sqlite3_stmt *statement =
        ASK(db, "INSERT INTO plan (id, checksum, wake, sheet, state) VALUES (?, ?, nullif(?, -1), ?, ?)", id,
            crc32_of((const uint8_t *)&state, sizeof state), next_wake(&state));
    sqlite3_bind_blob(statement, 4, one.bytes, (int)one.size, SQLITE_STATIC);
    sqlite3_bind_blob(statement, 5, &state, sizeof state, SQLITE_STATIC);
    finish_statement(statement);
}

int make_plans(int argc, char **argv)
{
    (void)argc;
    uint32_t seed = (uint32_t)number_of(argv[1], 1, UINT32_MAX);
    int64_t plans = number_of(argv[2], 1, MOST_PLANS);
    sqlite3 *db = open_database(argv[0], SQLITE_OPEN_READWRITE | SQLITE_OPEN_CREATE);
    run(db, "PRAGMA journal_mode = WAL");
    run(db, "BEGIN IMMEDIATE");
    run(db, schema);
    for (int64_t id = 1; id <= plans; id++) {
        put_new_plan(db, id, seed);
    }
    run(db, "COMMIT");
    sqlite3_close(db);
    return EXIT_SUCCESS;
}

/* A queue that is being made. */
typedef struct {
    uint32_t seed;
    int64_t plan;
    int64_t next_id;
    size_t count;
    reply replies[MOST_REPLIES];
} making;

static void add(making *m, int64_t id, uint32_t minute, uint8_t kind, uint8_t number)
{
    if (m->count == MOST_REPLIES) {
        stop("too many replies");
    }
    m->replies[m->count++] = (reply){id, minute, m->plan, kind, number};
}

/* A reply that comes between two minutes. One in six comes again later, under the same id. */
static void add_between(making *m, uint32_t first, uint32_t end, uint8_t kind, uint8_t number)
{
    uint32_t minute = first + below(&m->seed, end - first);
    int64_t id = m->next_id++;
    add(m, id, minute, kind, number);
    if (below(&m->seed, 6) == 0) {
        add(m, id, minute + below(&m->seed, 100), kind, number);
    }
}

/* The events of a plan, each handed in once, and one in four once more under another id. */
static void add_submits(making *m, const sinewhopa_state *state)
{
    for (uint8_t event = 0; event < state->events; event++) {
        add_between(m, 0, 200, SUBMIT, event);
        if (below(&m->seed, 4) == 0) {
            add_between(m, 0, 400, SUBMIT, event);
        }
    }
}

/* The steps of a plan, each closed once, and one in six once more. A step without events is turned down. */
static void add_closings(making *m, const sinewhopa_state *state)
{
    for (uint8_t event = 0; event < state->events; event++) {
        if (event == 0 || state->step[event] != state->step[event - 1]) {
            add_between(m, 100, 300, CLOSE, state->step[event]);
        }
    }
    if (below(&m->seed, 6) == 0) {
        add_between(m, 100, 300, CLOSE, (uint8_t)below(&m->seed, STEPS));
    }
}

static void add_plan(making *m, int64_t plan, uint32_t seed)
{
    sheet one = sheet_of(plan, seed);
    sinewhopa_state state = first_state(&one);
    m->plan = plan;
    add_submits(m, &state);
    add_closings(m, &state);
    if (below(&m->seed, 6) == 0) {
        add_between(m, 0, 400, SUBMIT, NO_SUCH_EVENT);
    }
    if (below(&m->seed, 6) == 0) {
        add_between(m, 0, 300, FINISH, 0);
    }
    add_between(m, 300, 400, FINISH, 0);
}

/* By minute, and those of one minute by id, so that the queue is the same on every machine. */
static int compare_replies(const void *left, const void *right)
{
    const reply *a = left;
    const reply *b = right;
    if (a->minute != b->minute) {
        return a->minute < b->minute ? -1 : 1;
    }
    return a->id < b->id ? -1 : a->id > b->id;
}

static void print_replies(const making *m)
{
    for (size_t place = 0; place < m->count; place++) {
        const reply *one = &m->replies[place];
        printf("%" PRId64 " %" PRId64 " %" PRId64 " %" PRId64 " %" PRId64 "\n", one->id, one->minute, one->plan,
               one->kind, one->number);
    }
}

int make_replies(int argc, char **argv)
{
    (void)argc;
    static making m = {.next_id = 1};
    m.seed = (uint32_t)number_of(argv[0], 1, UINT32_MAX);
    uint32_t seed = m.seed;
    int64_t plans = number_of(argv[1], 1, MOST_PLANS);
    for (int64_t plan = 1; plan <= plans; plan++) {
        add_plan(&m, plan, seed);
    }
    qsort(m.replies, m.count, sizeof m.replies[0], compare_replies);
    print_replies(&m);
    return EXIT_SUCCESS;
}

/* Stores a state without anything that belongs to it; the checksum too where it is given. */
static void put_state_alone(sqlite3 *db, int64_t plan, const sinewhopa_state *state, bool with_checksum)
{
    sqlite3_stmt *statement = ASK(db, "UPDATE plan SET checksum = iif(?1, ?2, checksum), state = ?4 WHERE id = ?3",
                                  with_checksum, crc32_of((const uint8_t *)state, sizeof *state), plan);
    sqlite3_bind_blob(statement, 4, state, sizeof *state, SQLITE_STATIC);
    finish_statement(statement);
}

static sinewhopa_state stored_state(sqlite3 *db, int64_t plan)
{
    sinewhopa_state state;
    uint32_t checksum;
    sqlite3_stmt *row = ASK(db, "SELECT state, checksum FROM plan WHERE id = ?", plan);
    if (!has_row(row)) {
        stop("there is no plan %" PRId64, plan);
    }
    read_state(row, 0, &state, &checksum);
    sqlite3_finalize(row);
    return state;
}

/* Flips one bit of a stored state, as a bad disk might. */
int damage(int argc, char **argv)
{
    (void)argc;
    sqlite3 *db = open_database(argv[0], SQLITE_OPEN_READWRITE);
    int64_t plan = number_of(argv[1], 1, INT64_MAX);
    int64_t bit = number_of(argv[2], 0, 8 * (int64_t)sizeof(sinewhopa_state) - 1);
    sinewhopa_state state = stored_state(db, plan);
    ((uint8_t *)&state)[bit / 8] ^= (uint8_t)(1u << bit % 8);
    put_state_alone(db, plan, &state, false);
    printf("bit %" PRId64 " of plan %" PRId64 " flipped; sinewhopa_check answers %u\n", bit, plan,
           (unsigned)sinewhopa_check(&state));
    sqlite3_close(db);
    return EXIT_SUCCESS;
}

/* Stores a state whose checksum fits and which number 12 turns down, as one of another version may be. */
int outdate(int argc, char **argv)
{
    (void)argc;
    sqlite3 *db = open_database(argv[0], SQLITE_OPEN_READWRITE);
    int64_t plan = number_of(argv[1], 1, INT64_MAX);
    sinewhopa_state state = stored_state(db, plan);
    state.version++;
    put_state_alone(db, plan, &state, true);
    sqlite3_close(db);
    return EXIT_SUCCESS;
}

/* The check puts what the files and the states say into tables of its own .. */
static const char check_tables[] =
    "CREATE TEMP TABLE queue (id INTEGER, minute INTEGER, plan INTEGER, kind INTEGER, number INTEGER);"
    "CREATE TEMP TABLE world (place INTEGER, plan INTEGER, line INTEGER, event INTEGER, fate INTEGER);"
    "CREATE TEMP TABLE history (plan INTEGER, line INTEGER, event INTEGER, fate INTEGER);"
    "CREATE TEMP TABLE clock (plan INTEGER, minute INTEGER);"
    "CREATE INDEX temp.queue_id ON queue (id);"
    "CREATE INDEX temp.world_key ON world (plan, line);"
    "CREATE INDEX temp.history_key ON history (plan, line);";

/* .. and counts what may not be there. The first word says how the count is to be read. */
static const struct {
    const char *what;
    const char *sql;
} faults[] = {
    {"replies lost", "SELECT count(DISTINCT id) FROM queue WHERE id NOT IN (SELECT id FROM reply)"},
    {"replies taken that nobody sent",
     "SELECT count(*) FROM (SELECT id, plan, kind, number FROM reply EXCEPT SELECT id, plan, kind, number FROM queue)"},
    {"replies without their call",
     "SELECT count(*) FROM reply LEFT JOIN call ON call.plan = reply.plan AND call.n = reply.n WHERE reply.answer = 0 "
     "AND hex(call.record) IS NOT iif(reply.kind = 18, '12', printf('%02X%02X', reply.kind, reply.number))"},
    {"calls without a reply",
     "SELECT count(*) FROM (SELECT plan, n FROM call WHERE hex(substr(record, 1, 1)) <> '13' EXCEPT "
     "SELECT plan, n FROM reply WHERE answer = 0)"},
    {"replies with the call of another one",
     "SELECT count(*) - (SELECT count(*) FROM (SELECT DISTINCT plan, n FROM reply WHERE answer = 0)) FROM reply "
     "WHERE answer = 0"},
    {"lines of a history that the outbox has not",
     "SELECT count(*) FROM (SELECT * FROM history EXCEPT SELECT plan, line, event, fate FROM outbox)"},
    {"rows of the outbox that no history has",
     "SELECT count(*) FROM (SELECT plan, line, event, fate FROM outbox EXCEPT SELECT * FROM history)"},
    {"rows of the outbox not sent", "SELECT count(*) FROM outbox WHERE sent = 0"},
    {"lines no office was told",
     "SELECT count(*) FROM history WHERE NOT EXISTS "
     "(SELECT 1 FROM world WHERE world.plan = history.plan AND world.line = history.line)"},
    {"times an office was told what no history has",
     "SELECT count(*) FROM world WHERE NOT EXISTS (SELECT 1 FROM history WHERE history.plan = world.plan AND "
     "history.line = world.line AND history.event = world.event AND history.fate = world.fate)"},
    {"lines told before an earlier one",
     "SELECT count(*) FROM (SELECT min(place) AS first, lag(min(place)) OVER (PARTITION BY plan ORDER BY line) "
     "AS before FROM world GROUP BY plan, line) WHERE before > first"},
    {"plans whose minute is behind their last reply",
     "SELECT count(*) FROM clock JOIN (SELECT plan, max(first) AS last FROM "
     "(SELECT plan, min(minute) AS first FROM queue GROUP BY id) GROUP BY plan) USING (plan) WHERE minute < last"},
};

static int64_t count_of(sqlite3 *db, const char *sql)
{
    int64_t count = 0;
    first_row(ask(db, sql, NULL, 0), &count, 1);
    return count;
}

static void fill_queue(sqlite3 *db, const char *path)
{
    FILE *queue = open_queue(path);
    reply one;
    while (read_reply(queue, path, &one)) {
        finish_statement(ASK(db, "INSERT INTO queue VALUES (?, ?, ?, ?, ?)", one.id, one.minute, one.plan, one.kind,
                             one.number));
    }
    fclose(queue);
}

/* What the offices were told, in that order. A repeat under the same key, with the same content, is no fault. */
static void fill_world(sqlite3 *db, const char *path)
{
    FILE *world = open_queue(path);
    int64_t row[4];
    int read = 0;
    for (int64_t place = 0;; place++) {
        read = fscanf(world, "%" SCNd64 "%" SCNd64 "%" SCNd64 "%" SCNd64 "\n", &row[0], &row[1], &row[2], &row[3]);
        if (read != 4) {
            break;
        }
        finish_statement(ASK(db, "INSERT INTO world VALUES (?, ?, ?, ?, ?)", place, row[0], row[1], row[2], row[3]));
    }
    if (read != EOF || ferror(world)) {
        stop("%s: a line is not `plan line event fate`", path);
    }
    fclose(world);
}

static void fill_history(sqlite3 *db, int64_t plan, const sinewhopa_state *state)
{
    for (uint8_t line = 0; line < state->lines; line++) {
        finish_statement(ASK(db, "INSERT INTO history VALUES (?, ?, ?, ?)", plan, line, state->line_event[line],
                             state->line_fate[line]));
    }
}

/* A plan's state has to be whole, and the one that its sheet and its calls give. NULL, or the first that is wrong. */
static const char *check_plan(sqlite3 *db, sqlite3_stmt *row)
{
    sinewhopa_state stored;
    sinewhopa_state made;
    uint32_t checksum;
    int64_t plan = sqlite3_column_int64(row, 0);
    if (!read_state(row, 1, &stored, &checksum)) {
        return "its state does not fit its checksum";
    }
    if (sinewhopa_check(&stored) != SINEWHOPA_TAKEN) {
        return "its state is turned down with 12";
    }
    fill_history(db, plan, &stored);
    finish_statement(ASK(db, "INSERT INTO clock VALUES (?, ?)", plan, sinewhopa_number(stored.minute)));
    if (sqlite3_column_int64(row, 3) != next_wake(&stored)) {
        return "it is to wake at another minute";
    }
    const char *wrong = replay(db, plan, &made);
    if (wrong == NULL && memcmp(&stored, &made, sizeof made) != 0) {
        wrong = "its sheet and its calls give another state";
    }
    return wrong;
}

static int64_t check_plans(sqlite3 *db)
{
    int64_t wrong_plans = 0;
    sqlite3_stmt *rows = ask(db, "SELECT id, state, checksum, coalesce(wake, -1) FROM plan ORDER BY id", NULL, 0);
    while (has_row(rows)) {
        const char *wrong = check_plan(db, rows);
        if (wrong != NULL) {
            printf("plan %" PRId64 ": %s\n", (int64_t)sqlite3_column_int64(rows, 0), wrong);
            wrong_plans++;
        }
    }
    sqlite3_finalize(rows);
    return wrong_plans;
}

static int64_t count_faults(sqlite3 *db)
{
    int64_t sum = 0;
    for (size_t place = 0; place < sizeof faults / sizeof faults[0]; place++) {
        int64_t count = count_of(db, faults[place].sql);
        if (count != 0) {
            printf("%" PRId64 " %s\n", count, faults[place].what);
        }
        sum += count;
    }
    return sum;
}

/* Prints what is wrong and a line of counts. The status is 0 where nothing is wrong. */
int check(int argc, char **argv)
{
    (void)argc;
    sqlite3 *db = open_database(argv[0], SQLITE_OPEN_READWRITE);
    run(db, "PRAGMA temp_store = MEMORY; BEGIN");
    run(db, check_tables);
    fill_world(db, argv[1]);
    fill_queue(db, argv[2]);
    int64_t wrong = check_plans(db) + count_faults(db);
    int64_t told = count_of(db, "SELECT count(*) FROM world");
    int64_t keys = count_of(db, "SELECT count(*) FROM (SELECT DISTINCT plan, line FROM world)");
    printf("%" PRId64 " plans, %" PRId64 " replies taken, %" PRId64 " calls, %" PRId64 " lines told, %" PRId64
           " of them again; %" PRId64 " faults\n",
           count_of(db, "SELECT count(*) FROM plan"), count_of(db, "SELECT count(*) FROM reply"),
           count_of(db, "SELECT count(*) FROM call"), keys, told - keys, wrong);
    run(db, "ROLLBACK");
    sqlite3_close(db);
    return wrong == 0 ? EXIT_SUCCESS : EXIT_FAILURE;
}
