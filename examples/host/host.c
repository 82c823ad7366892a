/*
 * A host that keeps three hundred plans at once. Replies come in one at a time, in another order for each plan; half
 * way it saves every state to a file, forgets them and reads them back. Usage: host FILE
 */
#include <stdbool.h>
#include <stdio.h>
#include <stdlib.h>
#include <string.h>

#include "sinewhopa.h"

enum { PLANS = 300, SHOWN = 5, DAMAGED = 7, REPORTED = 4, STEPS = 8, MOST_CALLS = 8, SAVED_AFTER = 3 };

/* A call as data, with the kinds that call records have. */
enum { SUBMIT = 16, CLOSE = 17, FINISH = 18 };
typedef struct {
    uint8_t kind;
    uint8_t number; /* the event or the step; of no use in a finish */
} call;

static const uint8_t cremation[] = {
    1, 0, 0,    /* event 0, the slot is confirmed: step 0; comes as it comes */
    1, 1, 6,    /* event 1, the notice is printed: step 1; may be refused and can wait */
    1, 2, 6,    /* event 2, the cars are sent: step 2; the same */
    2, 0, 1,    /* rule 0, order: the slot before the notice */
    3, 1, 0,    /* rule 1, need: the notice only if the slot */
    3, 2, 0,    /* rule 2, need: the cars only if the slot */
    5           /* the end */
};

static const uint8_t burial[] = {
    1, 0, 6,    /* event 0, the grave is dug: step 0; may be refused and can wait */
    1, 1, 6,    /* event 1, the chapel is opened: step 1; the same */
    1, 0, 1,    /* event 2, the fee is asked for: step 0; we may bring it about, and cannot refuse it */
    1, 2, 6,    /* event 3, the notice is printed: step 2; as the first two */
    1, 1, 0,    /* event 4, the organist has come: step 1; comes as it comes */
    4, 0, 1, 2, /* rule 0, conditional: if the grave and the chapel, then the fee */
    2, 0, 3,    /* rule 1, order: the grave before the notice */
    3, 3, 1,    /* rule 2, need: the notice only if the chapel */
    3, 4, 2,    /* rule 3, need: the organist only if the fee; broken where the fee has lapsed */
    5           /* the end */
};

static const uint8_t transfer[] = {
    6, 0,       /* events 0 to 3, of step 0: start, prepare, commit, abort */
    6, 1,       /* events 4 to 7, of step 1: the same */
    3, 2, 6,    /* rule 0, need: the first commit only if the second */
    3, 6, 2,    /* rule 1, need: the second commit only if the first */
    2, 2, 6,    /* rule 2, order: the first commit before the second */
    3, 3, 7,    /* rule 3, need: the first abort only if the second, which we may bring about */
    5           /* the end */
};

/* A sheet, and what comes in for a plan made from it, in some order: replies, and what goes wrong. Kind 0: no call. */
typedef struct {
    const char *name;
    const uint8_t *sheet;
    size_t sheet_len;
    call calls[MOST_CALLS];
} story;

static const story stories[] = {
    {"cremation", cremation, sizeof cremation, {{SUBMIT, 0}, {SUBMIT, 1}, {SUBMIT, 2}}},
    /* There is no event 9. */
    {"burial", burial, sizeof burial, {{SUBMIT, 0}, {SUBMIT, 1}, {SUBMIT, 3}, {SUBMIT, 4}, {SUBMIT, 9}}},
    /* To wind up is too early. */
    {"transfer", transfer, sizeof transfer,
     {{SUBMIT, 0}, {SUBMIT, 1}, {SUBMIT, 2}, {SUBMIT, 4}, {SUBMIT, 5}, {SUBMIT, 6}, {FINISH, 0}}},
    /* The slot is never confirmed. */
    {"cremation", cremation, sizeof cremation, {{SUBMIT, 1}, {SUBMIT, 2}}},
    /* Step 0 is closed while others reply, and once more. */
    {"burial", burial, sizeof burial, {{SUBMIT, 1}, {SUBMIT, 3}, {SUBMIT, 4}, {CLOSE, 0}, {CLOSE, 0}}},
    /* The first party aborts, the second would commit. */
    {"transfer", transfer, sizeof transfer, {{SUBMIT, 0}, {SUBMIT, 3}, {SUBMIT, 4}, {SUBMIT, 6}}},
};

/* What the host keeps for each plan, and saves as it is: bytes only, so that there is nothing between them. */
typedef struct {
    sinewhopa_state state;
    uint8_t turned_down; /* how many calls were, 255 for more */
} kept;
_Static_assert(sizeof(kept) == sizeof(sinewhopa_state) + 1, "nothing between the bytes");

/* Plan number p is made from story p modulo the number of stories. */
static const story *story_of(size_t plan)
{
    return &stories[plan % (sizeof stories / sizeof stories[0])];
}

/* The call that comes in for a plan in a round, if there is one: the story's calls, shuffled by the plan's number. */
static bool incoming(size_t plan, size_t round, call *made)
{
    call calls[MOST_CALLS];
    size_t count = 0;
    uint32_t seed = (uint32_t)plan;
    while (count < MOST_CALLS && story_of(plan)->calls[count].kind != 0) {
        calls[count] = story_of(plan)->calls[count];
        count++;
    }
    for (size_t left = count; left > 1; left--) {
        seed = seed * 1664525u + 1013904223u;
        size_t other = (seed >> 16) % left;
        call moved = calls[left - 1];
        calls[left - 1] = calls[other];
        calls[other] = moved;
    }
    if (round < count) {
        *made = calls[round];
    }
    return round < count;
}

static const char *fate_word(uint8_t fate)
{
    static const char *const words[] = {"open", "held", "done", "refused", "lapsed", "forced"};
    return fate < sizeof words / sizeof words[0] ? words[fate] : "unknown";
}

static void show_call(size_t plan, call made)
{
    printf("plan %zu, %s: ", plan, story_of(plan)->name);
    if (made.kind == FINISH) {
        printf("finish: ");
    } else {
        printf("%s %u: ", made.kind == SUBMIT ? "submit" : "close step", (unsigned)made.number);
    }
}

/* What a call has settled, which is the history's new lines, and what is held after it. */
static void show_state(const sinewhopa_state *state, uint8_t lines_before)
{
    const char *between = "";
    for (uint8_t line = lines_before; line < state->lines; line++) {
        printf("%s%u %s", between, (unsigned)state->line_event[line], fate_word(state->line_fate[line]));
        between = ", ";
    }
    printf("%s", lines_before == state->lines ? "nothing settled; held" : "; held");
    between = " none";
    for (uint8_t event = 0; event < state->events; event++) {
        if (state->fate[event] == SINEWHOPA_HELD) {
            printf(" %u", (unsigned)event);
            between = "";
        }
    }
    printf("%s\n", between);
}

static uint8_t answer(sinewhopa_state *state, call made)
{
    switch (made.kind) {
    case SUBMIT:
        return sinewhopa_submit(state, made.number);
    case CLOSE:
        return sinewhopa_close_step(state, made.number);
    default:
        return sinewhopa_finish(state);
    }
}

/* Makes a call on a plan, counts it where it is turned down, and shows the first few plans. False: number 12. */
static bool make(kept *plans, size_t plan, call made)
{
    kept *one = &plans[plan];
    uint8_t lines_before = one->state.lines;
    uint8_t number = answer(&one->state, made);
    if (number != SINEWHOPA_TAKEN && one->turned_down < UINT8_MAX) {
        one->turned_down++;
    }
    if (plan < SHOWN) {
        show_call(plan, made);
        if (number == SINEWHOPA_TAKEN) {
            show_state(&one->state, lines_before);
        } else {
            printf("turned down, %u\n", (unsigned)number);
        }
    }
    return number != SINEWHOPA_INCOHERENT;
}

static bool open_all(kept *plans)
{
    for (size_t plan = 0; plan < PLANS; plan++) {
        size_t at;
        uint8_t fault = sinewhopa_open(&plans[plan].state, story_of(plan)->sheet, story_of(plan)->sheet_len, &at);
        if (fault != SINEWHOPA_TAKEN) {
            fprintf(stderr, "%s: turned down, %u at %zu\n", story_of(plan)->name, (unsigned)fault, at);
            return false;
        }
        plans[plan].turned_down = 0;
    }
    return true;
}

/* Some rounds; in each of them one call comes in for each plan that still gets one. */
static bool take_rounds(kept *plans, size_t first, size_t end)
{
    for (size_t round = first; round < end; round++) {
        for (size_t plan = 0; plan < PLANS; plan++) {
            call made;
            if (incoming(plan, round, &made) && !make(plans, plan, made)) {
                return false;
            }
        }
    }
    return true;
}

static bool has_event(const sinewhopa_state *state, uint8_t step)
{
    for (uint8_t event = 0; event < state->events; event++) {
        if (state->step[event] == step) {
            return true;
        }
    }
    return false;
}

/* Closes the steps that are not closed yet and have an event, and winds up. */
static bool end_all(kept *plans)
{
    for (size_t plan = 0; plan < PLANS; plan++) {
        const sinewhopa_state *state = &plans[plan].state;
        for (uint8_t step = 0; step < STEPS; step++) {
            if (has_event(state, step) && state->closed[step] == 0 && !make(plans, plan, (call){CLOSE, step})) {
                return false;
            }
        }
        if (!make(plans, plan, (call){FINISH, 0})) {
            return false;
        }
    }
    return true;
}

static bool save(const char *path, const kept *plans)
{
    FILE *file = fopen(path, "wb");
    if (file == NULL) {
        perror(path);
        return false;
    }
    bool written = fwrite(plans, sizeof plans[0], PLANS, file) == PLANS;
    if (fclose(file) != 0 || !written) {
        perror(path);
        return false;
    }
    return true;
}

/* The first plan whose bytes are no state that hangs together; PLANS where there is none. */
static size_t first_damaged(const kept *plans)
{
    size_t plan = 0;
    while (plan < PLANS && sinewhopa_check(&plans[plan].state) == SINEWHOPA_TAKEN) {
        plan++;
    }
    return plan;
}

/* Reads all plans back. Nothing of them is used before each has passed the check. */
static bool load(const char *path, kept *plans)
{
    FILE *file = fopen(path, "rb");
    if (file == NULL) {
        perror(path);
        return false;
    }
    bool whole = fread(plans, sizeof plans[0], PLANS, file) == PLANS && fgetc(file) == EOF && !ferror(file);
    if (fclose(file) != 0 || !whole || first_damaged(plans) != PLANS) {
        fprintf(stderr, "%s: not what was saved\n", path);
        return false;
    }
    return true;
}

/* Changes one byte of a plan, as a bad disk might, and puts it back. True where all functions turned the bytes down. */
static bool try_damage(kept *plans, size_t offset)
{
    sinewhopa_state *state = &plans[DAMAGED].state;
    uint8_t out[SINEWHOPA_REPORT_MOST];
    ((uint8_t *)state)[offset] ^= 2;
    const sinewhopa_state damaged = *state;
    size_t found = first_damaged(plans);
    uint8_t checked = sinewhopa_check(state);
    uint8_t submitted = sinewhopa_submit(state, 0);
    size_t length = sinewhopa_report(state, 0, out, sizeof out);
    bool as_it_was = memcmp(state, &damaged, sizeof damaged) == 0;
    ((uint8_t *)state)[offset] ^= 2;
    printf("plan %zu, byte %zu changed: check %u, submit %u, report of %zu bytes, %s\n", found, offset,
           (unsigned)checked, (unsigned)submitted, length, as_it_was ? "left as it was" : "WRITTEN");
    return found == DAMAGED && checked == SINEWHOPA_INCOHERENT && submitted == checked && length == 0 && as_it_was;
}

static bool restart(const char *path, kept *plans)
{
    if (!save(path, plans)) {
        return false;
    }
    memset(plans, 0xff, PLANS * sizeof plans[0]);
    if (!load(path, plans)) {
        return false;
    }
    printf("saved and read back: %d plans, %zu bytes each\n", PLANS, sizeof plans[0]);
    return try_damage(plans, offsetof(sinewhopa_state, version)) &&
           try_damage(plans, offsetof(sinewhopa_state, fate)) &&
           try_damage(plans, sizeof(sinewhopa_state) - 1) && first_damaged(plans) == PLANS;
}

static bool report(const kept *one)
{
    uint8_t out[SINEWHOPA_REPORT_MOST];
    size_t length = sinewhopa_report(&one->state, one->turned_down, out, sizeof out);
    return length > 0 && length <= sizeof out && fwrite(out, 1, length, stdout) == length;
}

static void summary(const kept *plans)
{
    size_t by_fate[SINEWHOPA_FORCED + 1] = {0};
    size_t broken = 0;
    size_t turned_down = 0;
    for (size_t plan = 0; plan < PLANS; plan++) {
        const sinewhopa_state *state = &plans[plan].state;
        for (uint8_t event = 0; event < state->events; event++) {
            by_fate[state->fate[event]]++;
        }
        for (uint8_t rule = 0; rule < state->rules; rule++) {
            broken += state->broken[rule];
        }
        turned_down += plans[plan].turned_down;
    }
    printf("all %d plans:", PLANS);
    for (uint8_t fate = SINEWHOPA_OPEN; fate <= SINEWHOPA_FORCED; fate++) {
        printf(" %s %zu,", fate_word(fate), by_fate[fate]);
    }
    printf(" rules broken %zu, calls turned down %zu\n", broken, turned_down);
}

int main(int argc, char **argv)
{
    static kept plans[PLANS];
    if (argc != 2) {
        fprintf(stderr, "usage: host FILE\n");
        return EXIT_FAILURE;
    }
    if (!open_all(plans) || !take_rounds(plans, 0, SAVED_AFTER) || !restart(argv[1], plans) ||
        !take_rounds(plans, SAVED_AFTER, MOST_CALLS) || !end_all(plans)) {
        return EXIT_FAILURE;
    }
    printf("report of plan %d, %s:\n", REPORTED, story_of(REPORTED)->name);
    if (!report(&plans[REPORTED])) {
        return EXIT_FAILURE;
    }
    summary(plans);
    return fflush(stdout) == 0 && !ferror(stdout) ? EXIT_SUCCESS : EXIT_FAILURE;
}
