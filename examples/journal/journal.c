/*
 * A host that keeps a journal file for each plan, and may be killed or lose its power at any moment. It makes each call
 * on the state in memory, stores the call's record, syncs the file, and only then tells anybody. `docs/STORING.md` says
 * why. Without an argument it prints its commands.
 */
#define _POSIX_C_SOURCE 200809L
#include "journal.h"

#include <errno.h>
#include <fcntl.h>
#include <inttypes.h>
#include <signal.h>
#include <stdlib.h>
#include <string.h>
#include <time.h>
#include <unistd.h>

/* What a worker has. The last seven are for the test. */
typedef struct {
    const char *folder;
    plan *plans;
    size_t count;
    int world;        /* the offices and the senders: a file that is only appended to */
    int cut_back;     /* so many journals had leftover bytes */
    int synced;       /* a file that the synced offsets are noted in; -1: none */
    bool no_sync;     /* not written through to the disk: safe from a kill, not from a loss of power */
    long most;        /* stops after so many replies; 0: at the queue's end */
    long slow;        /* microseconds to wait at each point where a kill would hurt */
    long die;         /* kills itself at that point, counted from 1; 0: at none */
    bool act_first;   /* WRONG on purpose: tells the offices before the record is synced */
    bool no_cut_back; /* WRONG on purpose: appends behind leftover bytes */
} host;

/* A point where a kill would hurt. The test makes it last, or ends the worker here. */
static void point(host *h)
{
    struct timespec time = {.tv_sec = h->slow / 1000000, .tv_nsec = h->slow % 1000000 * 1000};
    if (h->die > 0 && --h->die == 0) {
        raise(SIGKILL);
    }
    if (h->slow > 0) {
        nanosleep(&time, NULL);
    }
}

static void say(int file, const char *what, const char *text, int size)
{
    if (write(file, text, (size_t)size) != size) {
        stop("%s: %s", what, strerror(errno));
    }
}

static void sync_file(const host *h, int file, int64_t id)
{
    if (!h->no_sync && fsync(file) != 0) {
        stop("plan %" PRId64 ": its journal cannot be synced: %s", id, strerror(errno));
    }
}

/* For the test only: a loss of power takes nothing before this offset. */
static void note_synced(const host *h, const plan *p)
{
    char text[60];
    int size = snprintf(text, sizeof text, "%" PRId64 " %zu\n", p->id, p->at);
    if (h->synced >= 0) {
        say(h->synced, "the file of synced offsets", text, size);
    }
}

/*
 * Stores records behind the last whole one, by one write, and syncs them. Where that fails, the state in memory is
 * ahead of the journal. The program ends; the next one opens what the journal has, and the reply comes again.
 */
static void store_records(host *h, plan *p, const records *made)
{
    point(h); /* whoever is killed here has done nothing */
    ssize_t written = pwrite(p->file, made->bytes, made->len, (off_t)p->at);
    if (written < 0) {
        stop("plan %" PRId64 ": a call is not stored: %s", p->id, strerror(errno));
    }
    if ((size_t)written != made->len) {
        stop("plan %" PRId64 ": a call is not stored: %zd of %zu bytes were written", p->id, written, made->len);
    }
    point(h); /* whoever loses the power here leaves a torn record */
    sync_file(h, p->file, p->id);
    p->at += made->len;
    note_synced(h, p);
    point(h); /* whoever is killed here takes the reply again */
}

/* Tells the offices the new lines. An office keeps the keys (plan, line) that it has carried out, and repeats none. */
static void tell_lines(host *h, plan *p)
{
    char text[100];
    for (; p->told < p->state.lines; p->told++) {
        int size = snprintf(text, sizeof text, "told %" PRId64 " %u %u %u\n", p->id, (unsigned)p->told,
                            (unsigned)p->state.line_event[p->told], (unsigned)p->state.line_fate[p->told]);
        say(h->world, "the offices' file", text, size);
    }
}

/* Stores what was made, and only then acts on what it has settled. */
static void store_and_tell(host *h, plan *p, const records *made)
{
    if (h->act_first) { /* WRONG: whoever is killed here has told what no journal has */
        tell_lines(h, p);
    }
    if (made->len > 0) {
        store_records(h, p, made);
    }
    tell_lines(h, p);
    point(h); /* whoever is killed here takes the reply again, and tells the lines again under the same keys */
}

/* Answers a reply, which is then not sent again. */
static void answer_sender(host *h, size_t place, uint8_t number, uint8_t fate)
{
    char text[100];
    int size = snprintf(text, sizeof text, "answered %zu %u %u\n", place, (unsigned)number, (unsigned)fate);
    say(h->world, "the offices' file", text, size);
    point(h);
}

/*
 * Cuts a journal back to its last whole record. It is synced also where nothing is cut: a worker that was killed may
 * have written records that are not on the disk yet.
 */
static void cut_back(host *h, plan *p, size_t at, size_t leftover)
{
    p->at = at;
    if (leftover > 0 && h->no_cut_back) { /* WRONG: the next record stands behind bytes that are no record */
        p->at += leftover;
        return;
    }
    if (leftover > 0 && ftruncate(p->file, (off_t)at) != 0) {
        stop("plan %" PRId64 ": its journal cannot be cut back: %s", p->id, strerror(errno));
    }
    h->cut_back += leftover > 0;
    point(h); /* whoever is killed here has told nobody what the journal has */
    sync_file(h, p->file, p->id);
    note_synced(h, p);
}

/* Opens a plan's journal: the state after exactly its whole records. */
static void open_plan(host *h, int64_t id, plan *p)
{
    char path[PATH_ROOM];
    size_t len;
    size_t at;
    size_t leftover;
    journal_path(path, h->folder, id, "journal");
    uint8_t *bytes = read_file(path, &len);
    *p = (plan){.id = id};
    uint8_t number = sinewhopa_open_journal(&p->state, bytes, len, &at, &leftover);
    free(bytes);
    if (number != SINEWHOPA_TAKEN) {
        stop("%s does not open: number %u at offset %zu: %s", path, (unsigned)number, at,
             sinewhopa_refusal_text(number));
    }
    p->wake = next_wake(&p->state);
    p->file = open(path, O_WRONLY | O_CLOEXEC);
    if (p->file < 0) {
        stop("%s: %s", path, strerror(errno));
    }
    cut_back(h, p, at, leftover);
    point(h);
}

/* Opens all plans. Nobody knows which lines were told, so all are told again: an office carries out a key once. */
static void open_plans(host *h)
{
    int64_t ids[MOST_PLANS];
    h->count = list_plans(h->folder, ids);
    h->plans = calloc(h->count + 1, sizeof h->plans[0]);
    if (h->plans == NULL) {
        stop("no memory for %zu plans", h->count);
    }
    for (size_t place = 0; place < h->count; place++) {
        open_plan(h, ids[place], &h->plans[place]);
        tell_lines(h, &h->plans[place]);
    }
    printf("%zu plans opened, %d cut back\n", h->count, h->cut_back);
    fflush(stdout);
}

/* The timer: moves every plan whose window begins or ends by `minute`. */
static void wake_all(host *h, int64_t minute)
{
    for (plan *p = next_due(h->plans, h->count, minute); p != NULL; p = next_due(h->plans, h->count, minute)) {
        records made = {.len = 0};
        wake_plan(p, &made);
        if (made.len == 0) {
            stop("plan %" PRId64 ": its minute cannot be moved", p->id);
        }
        store_and_tell(h, p, &made);
    }
}

/* Takes a reply. False where it names no plan; it is not answered then. */
static bool take_reply(host *h, size_t place, const reply *one)
{
    records made = {.len = 0};
    plan *p = find_plan(h->plans, h->count, one->plan);
    if (p == NULL) {
        fprintf(stderr, "reply %zu: there is no plan %" PRId64 "; not taken\n", place, one->plan);
        return false;
    }
    wake_all(h, one->minute);
    uint8_t number = take(p, one, &made);
    if (number == SINEWHOPA_INCOHERENT) { /* the journal is whole; the next worker opens it */
        stop("plan %" PRId64 ": the state in memory is damaged", p->id);
    }
    store_and_tell(h, p, &made);
    bool has_fate = number == SINEWHOPA_TAKEN && one->kind == SINEWHOPA_HAND_IN;
    answer_sender(h, place, number, has_fate ? p->state.fate[one->number] : 0);
    return true;
}

/* Which replies were answered: their senders do not send them again. */
static void read_answered(const char *path, bool answered[MOST_REPLIES])
{
    FILE *world = open_file(path, "r");
    seen one;
    while (read_seen(world, path, &one)) {
        if (!one.told && one.numbers[0] < MOST_REPLIES) {
            answered[one.numbers[0]] = true;
        }
    }
    fclose(world);
}

/* Takes every reply of the queue that was not answered. The clock is the replies' own, so that a test repeats. */
static int work_through(host *h, const char *path, const bool answered[MOST_REPLIES])
{
    FILE *queue = open_file(path, "r");
    long taken = 0;
    long not_taken = 0;
    reply one;
    open_plans(h);
    for (size_t place = 0; (h->most == 0 || taken < h->most) && read_reply(queue, path, &one); place++) {
        if (place >= MOST_REPLIES) {
            stop("%s: more than %d replies", path, MOST_REPLIES);
        }
        if (!answered[place]) {
            bool is_taken = take_reply(h, place, &one);
            taken += is_taken;
            not_taken += !is_taken;
        }
    }
    fclose(queue);
    printf("%ld replies answered, %ld not taken\n", taken, not_taken);
    return not_taken == 0 ? EXIT_SUCCESS : EXIT_FAILURE;
}

static int open_to_append(const char *path)
{
    int file = open(path, O_WRONLY | O_CREAT | O_APPEND | O_CLOEXEC, 0666);
    if (file < 0) {
        stop("%s: %s", path, strerror(errno));
    }
    return file;
}

/* Reads an option of `work`. False where it is none. */
static bool read_option(host *h, const char *text)
{
    char end;
    if (strcmp(text, "--act-first") == 0 || strcmp(text, "--no-cut-back") == 0) {
        fprintf(stderr, "journal: WRONG on purpose: %s\n", text);
        h->act_first = h->act_first || text[2] == 'a';
        h->no_cut_back = h->no_cut_back || text[2] == 'n';
        return true;
    }
    if (strcmp(text, "--no-sync") == 0) {
        h->no_sync = true;
        return true;
    }
    if (strncmp(text, "--synced=", 9) == 0) {
        h->synced = open_to_append(text + 9);
        return true;
    }
    return (sscanf(text, "--slow=%ld%c", &h->slow, &end) == 1 && h->slow >= 0) ||
           (sscanf(text, "--die=%ld%c", &h->die, &end) == 1 && h->die > 0) ||
           (sscanf(text, "--most=%ld%c", &h->most, &end) == 1 && h->most > 0);
}

static int work(int argc, char **argv)
{
    static bool answered[MOST_REPLIES];
    host h = {.synced = -1};
    int place = 0;
    while (place < argc - 3 && read_option(&h, argv[place])) {
        place++;
    }
    if (place != argc - 3) {
        stop("not an option of work: %s", argv[place]);
    }
    h.folder = argv[place];
    lock_folder(h.folder);
    h.world = open_to_append(argv[place + 1]);
    read_answered(argv[place + 1], answered);
    int status = work_through(&h, argv[place + 2], answered);
    free(h.plans);
    return status;
}

/* A new plan, from a file with its sheet. */
static int new_plan(int argc, char **argv)
{
    (void)argc;
    size_t len;
    uint8_t *sheet = read_file(argv[2], &len);
    lock_folder(argv[0]);
    create_journal(argv[0], number_of(argv[1], 1, INT64_MAX), sheet, len);
    free(sheet);
    return EXIT_SUCCESS;
}

static const struct {
    const char *name;
    int least, most; /* arguments */
    int (*command)(int argc, char **argv);
    const char *usage;
} commands[] = {
    {"work", 3, 10, work, "work FOLDER WORLD REPLIES    takes the replies of a queue, tells the offices"},
    {"new", 3, 3, new_plan, "new FOLDER PLAN SHEET        a plan more: the journal of a sheet in a file"},
    {"init", 3, 3, make_plans, "init FOLDER SEED PLANS       for the test: a folder with new journals"},
    {"replies", 2, 2, make_replies, "replies SEED PLANS           for the test: a queue of replies for them"},
    {"lose", 3, 3, lose, "lose FOLDER SYNCED SEED      for the test: takes the power away"},
    {"check", 4, 5, check, "check [--under-way] FOLDER WORLD REPLIES SYNCED    for the test: nothing lost or twice"},
    {"cuts", 2, 2, cuts, "cuts SEED JOURNALS           a test of its own: cuts journals at every byte"},
};

static int usage(void)
{
    for (size_t place = 0; place < sizeof commands / sizeof commands[0]; place++) {
        fprintf(stderr, "%s journal %s\n", place == 0 ? "usage:" : "      ", commands[place].usage);
    }
    fprintf(stderr, "options of work, for the test: --synced=FILE --no-sync --most=REPLIES --slow=MICROSECONDS --die=N "
                    "--act-first --no-cut-back\n");
    return EXIT_FAILURE;
}

int main(int argc, char **argv)
{
    int given = argc - 2;
    for (size_t place = 0; argc > 1 && place < sizeof commands / sizeof commands[0]; place++) {
        bool fits = given >= commands[place].least && given <= commands[place].most;
        if (fits && strcmp(argv[1], commands[place].name) == 0) {
            int status = commands[place].command(given, argv + 2);
            return fflush(stdout) == 0 ? status : EXIT_FAILURE;
        }
    }
    return usage();
}
