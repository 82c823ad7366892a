/* What the test of `journal` needs: journals and replies made from a seed, and a loss of power. */
#define _POSIX_C_SOURCE 200809L
#include "journal.h"

#include <errno.h>
#include <fcntl.h>
#include <inttypes.h>
#include <stdlib.h>
#include <string.h>
#include <sys/stat.h>
#include <unistd.h>

enum { STEPS = 8, NO_SUCH_EVENT = 15 };

static const uint8_t cremation[] = {
    1, 0, 0,    /* event 0, the slot is confirmed: step 0; comes as it comes */
    1, 1, 6,    /* event 1, the notice is printed: step 1; may be refused and can wait */
    1, 2, 6,    /* event 2, the cars are sent: step 2; the same */
    2, 0, 1,    /* rule 0, order: the slot before the notice */
    3, 1, 0,    /* rule 1, need: the notice only if the slot */
    3, 2, 0,    /* rule 2, need: the cars only if the slot */
    5           /* the end */
};

static const uint8_t burial[] = {
    1, 0, 6,    /* event 0, the grave is dug: step 0; may be refused and can wait */
    1, 1, 6,    /* event 1, the chapel is opened: step 1; the same */
    1, 0, 1,    /* event 2, the fee is asked for: step 0; we may bring it about, and cannot refuse it */
    1, 2, 6,    /* event 3, the notice is printed: step 2; as the first two */
    4, 0, 1, 2, /* rule 0, conditional: if the grave and the chapel, then the fee */
    2, 0, 3,    /* rule 1, order: the grave before the notice */
    3, 3, 1,    /* rule 2, need: the notice only if the chapel */
    5           /* the end */
};

static const uint8_t transfer[] = {
    6, 0,       /* events 0 to 3, of step 0: start, prepare, commit, abort */
    6, 1,       /* events 4 to 7, of step 1: the same */
    3, 2, 6,    /* rule 0, need: the first commit only if the second */
    3, 6, 2,    /* rule 1, need: the second commit only if the first */
    2, 2, 6,    /* rule 2, order: the first commit before the second */
    3, 3, 7,    /* rule 3, need: the first abort only if the second, which we may bring about */
    5           /* the end */
};

static const uint8_t chapel[] = {
    1, 0, 6,    /* event 0, the chapel confirms: step 0; may be refused and can wait */
    1, 1, 6,    /* event 1, the notice goes out: step 1; the same */
    2, 0, 1,    /* rule 0, order: the chapel before the notice */
    3, 1, 0,    /* rule 1, need: the notice only if the chapel */
    7, 0,       /* a window of the chapel, which each plan gets its own minutes for */
    0, 0, 0, 0, /* from */
    0, 0, 0, 0, /* until */
    5           /* the end */
};
enum { CHAPEL_FROM = 14, CHAPEL_UNTIL = 18 };

static const struct {
    const uint8_t *bytes;
    size_t size;
} sheets[] = {
    {cremation, sizeof cremation}, {burial, sizeof burial}, {transfer, sizeof transfer}, {chapel, sizeof chapel}};

typedef struct {
    uint8_t bytes[SINEWHOPA_SHEET_MOST];
    size_t size;
} sheet;

uint32_t below(uint32_t *seed, uint32_t most)
{
    *seed ^= *seed << 13;
    *seed ^= *seed >> 17;
    *seed ^= *seed << 5;
    return *seed % most;
}

int64_t number_of(const char *text, int64_t least, int64_t most)
{
    char *end;
    long long number = strtoll(text, &end, 10);
    if (*text == '\0' || *end != '\0' || number < least || number > most) {
        stop("%s: not a number from %" PRId64 " to %" PRId64, text, least, most);
    }
    return number;
}

/* The sheet of a plan. Those with a window have one of 1 to 100 minutes, which begins by minute 200. */
static sheet sheet_of(int64_t plan_id, uint32_t seed)
{
    sheet one = {0};
    uint32_t mixed = (seed * 1000003u + (uint32_t)plan_id) | 1;
    size_t which = (size_t)plan_id % (sizeof sheets / sizeof sheets[0]);
    one.size = sheets[which].size;
    memcpy(one.bytes, sheets[which].bytes, one.size);
    if (sheets[which].bytes == chapel) {
        uint32_t from = 1 + below(&mixed, 200);
        uint32_t until = from + 1 + below(&mixed, 100);
        one.bytes[CHAPEL_FROM] = (uint8_t)from;
        one.bytes[CHAPEL_UNTIL] = (uint8_t)until;
        one.bytes[CHAPEL_UNTIL + 1] = (uint8_t)(until >> 8);
    }
    return one;
}

int make_plans(int argc, char **argv)
{
    (void)argc;
    uint32_t seed = (uint32_t)number_of(argv[1], 1, UINT32_MAX);
    int64_t plans = number_of(argv[2], 1, MOST_PLANS);
    if (mkdir(argv[0], 0777) != 0 && errno != EEXIST) {
        stop("%s: %s", argv[0], strerror(errno));
    }
    lock_folder(argv[0]);
    for (int64_t id = 1; id <= plans; id++) {
        sheet one = sheet_of(id, seed);
        create_journal(argv[0], id, one.bytes, one.size);
    }
    return EXIT_SUCCESS;
}

/* A reply of a queue that is being made: `made` came before it, so that replies of one minute have an order. */
typedef struct {
    reply one;
    size_t made;
} placed;

typedef struct {
    uint32_t seed;
    int64_t plan;
    size_t count;
    placed replies[MOST_REPLIES];
} making;

/* A reply that comes between two minutes. One in six comes again later: its sender has not seen the answer. */
static void add_between(making *m, uint32_t first, uint32_t end, uint8_t kind, uint8_t number)
{
    uint32_t minute = first + below(&m->seed, end - first);
    for (uint32_t again = below(&m->seed, 6) == 0 ? 2 : 1; again > 0; again--) {
        if (m->count == MOST_REPLIES) {
            stop("too many replies");
        }
        m->replies[m->count] = (placed){{minute, m->plan, kind, number}, m->count};
        m->count++;
        minute += below(&m->seed, 100);
    }
}

/* The events of a plan, each handed in, and the steps, each closed. One in four comes once more, or too late. */
static void add_calls(making *m, const sinewhopa_state *state)
{
    for (uint8_t event = 0; event < state->events; event++) {
        add_between(m, 0, 200, SINEWHOPA_HAND_IN, event);
        if (below(&m->seed, 4) == 0) {
            add_between(m, 0, 400, SINEWHOPA_HAND_IN, event);
        }
        if (event == 0 || state->step[event] != state->step[event - 1]) {
            add_between(m, 100, 300, SINEWHOPA_CLOSE_STEP, state->step[event]);
        }
    }
}

static void add_plan(making *m, int64_t id, uint32_t seed)
{
    sinewhopa_state state;
    size_t at;
    sheet one = sheet_of(id, seed);
    if (sinewhopa_open(&state, one.bytes, one.size, &at) != SINEWHOPA_TAKEN) {
        stop("the sheet of plan %" PRId64 " is turned down", id);
    }
    m->plan = id;
    add_calls(m, &state);
    if (below(&m->seed, 4) == 0) {
        add_between(m, 100, 300, SINEWHOPA_CLOSE_STEP, (uint8_t)below(&m->seed, STEPS));
        add_between(m, 0, 400, SINEWHOPA_HAND_IN, NO_SUCH_EVENT);
        add_between(m, 0, 300, SINEWHOPA_FINISH, 0);
    }
    add_between(m, 300, 400, SINEWHOPA_FINISH, 0);
}

/* By minute, and those of one minute as they were made. */
static int compare_replies(const void *left, const void *right)
{
    const placed *a = left;
    const placed *b = right;
    if (a->one.minute != b->one.minute) {
        return a->one.minute < b->one.minute ? -1 : 1;
    }
    return a->made < b->made ? -1 : a->made > b->made;
}

int make_replies(int argc, char **argv)
{
    (void)argc;
    static making m;
    uint32_t seed = (uint32_t)number_of(argv[0], 1, UINT32_MAX);
    int64_t plans = number_of(argv[1], 1, MOST_PLANS);
    m.seed = seed;
    for (int64_t id = 1; id <= plans; id++) {
        add_plan(&m, id, seed);
    }
    qsort(m.replies, m.count, sizeof m.replies[0], compare_replies);
    for (size_t place = 0; place < m.count; place++) {
        const reply *one = &m.replies[place].one;
        printf("%" PRId64 " %" PRId64 " %" PRId64 " %" PRId64 "\n", one->minute, one->plan, one->kind, one->number);
    }
    return EXIT_SUCCESS;
}

/* The first bytes of a record, not all: what a write leaves that was under way when the power went. */
static size_t torn_record(uint32_t *seed, uint8_t bytes[SINEWHOPA_RECORD_MOST])
{
    uint8_t kind = (uint8_t[]){SINEWHOPA_HAND_IN, SINEWHOPA_CLOSE_STEP, SINEWHOPA_ADVANCE}[below(seed, 3)];
    size_t len = sinewhopa_record(kind, below(seed, 256), bytes);
    return 1 + below(seed, (uint32_t)len - 1);
}

/*
 * What a loss of power does to one journal. Bytes behind the synced offset are lost from a random one on. Where there
 * are none, half of the journals get a torn record, as if a call had been on its way to the disk.
 */
static int lose_some(const char *path, size_t synced, uint32_t *seed)
{
    uint8_t bytes[SINEWHOPA_RECORD_MOST];
    struct stat found;
    int file = open(path, O_WRONLY | O_CLOEXEC);
    if (file < 0 || fstat(file, &found) != 0) {
        stop("%s: %s", path, strerror(errno));
    }
    size_t len = (size_t)found.st_size;
    size_t kept = len;
    if (len > synced) {
        kept = synced + below(seed, (uint32_t)(len - synced) + 1);
        if (ftruncate(file, (off_t)kept) != 0) {
            stop("%s: %s", path, strerror(errno));
        }
    } else if (len == synced && below(seed, 2) == 0) {
        size_t torn = torn_record(seed, bytes);
        if (pwrite(file, bytes, torn, (off_t)len) != (ssize_t)torn) {
            stop("%s: %s", path, strerror(errno));
        }
        kept += torn;
    }
    close(file);
    return kept != len;
}

int lose(int argc, char **argv)
{
    (void)argc;
    int64_t ids[MOST_PLANS];
    size_t synced[MOST_PLANS];
    int changed = 0;
    uint32_t seed = (uint32_t)number_of(argv[2], 1, UINT32_MAX) * 2654435761u | 1;
    size_t count = list_plans(argv[0], ids);
    lock_folder(argv[0]);
    read_synced(argv[1], ids, count, synced);
    for (size_t place = 0; place < count; place++) {
        char path[PATH_ROOM];
        journal_path(path, argv[0], ids[place], "journal");
        if (synced[place] > 0) {
            changed += lose_some(path, synced[place], &seed);
        }
    }
    printf("the power was lost: %d of %zu journals changed\n", changed, count);
    return EXIT_SUCCESS;
}
