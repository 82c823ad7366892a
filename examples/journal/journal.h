/*
 * What the files of `journal` share. `journal.c`, `plans.c` and `files.c` are the host. The rest is its test: `trial.c`
 * makes plans and replies from a seed and takes the power away, `check.c` looks at what is left, `cuts.c` cuts journals
 * at every byte.
 */
#ifndef JOURNAL_H
#define JOURNAL_H

#include <stdbool.h>
#include <stddef.h>
#include <stdint.h>
#include <stdio.h>

#include "sinewhopa.h"

enum { MOST_PLANS = 500, MOST_REPLIES = 64 * MOST_PLANS, PATH_ROOM = 500 };

/* A line of the queue: a reply and the minute at which it comes. Its place in the queue, from 0 on, is its name. */
typedef struct {
    int64_t minute;
    int64_t plan;
    int64_t kind; /* SINEWHOPA_HAND_IN, SINEWHOPA_CLOSE_STEP or SINEWHOPA_FINISH */
    int64_t number;
} reply;

/* A plan in memory. */
typedef struct {
    int64_t id;
    sinewhopa_state state; /* after the calls that were made so far */
    int64_t wake;          /* the next minute at which a window begins or ends; -1: none */
    uint8_t told;          /* so many lines of the history were told */
    int file;              /* the worker's: its journal .. */
    size_t at;             /* .. and the offset behind the last whole record */
} plan;

/* The records of one reply: a move of the minute and the reply's own call, or one of them, or none. */
typedef struct {
    uint8_t bytes[2 * SINEWHOPA_RECORD_MOST];
    size_t len;
} records;

/* A line of the world, which is all that others have seen: an office that was told, or a sender that was answered. */
typedef struct {
    bool told;
    int64_t numbers[4]; /* told: plan, line, event, fate; answered: place, number, fate, and 0 */
} seen;

/* Prints `journal: ` and what is wrong, and ends the program. */
_Noreturn void stop(const char *format, ...);

/* Makes a call on a plan in memory: the records go behind those in `made`. A call that is turned down has none. */
uint8_t take(plan *p, const reply *one, records *made);
void wake_plan(plan *p, records *made);

/* Of the plans whose window begins or ends by `minute`, the one that is first; NULL where there is none. */
plan *next_due(plan *plans, size_t count, int64_t minute);
int64_t next_wake(const sinewhopa_state *state);

/* The plan with a number; NULL where there is none. */
plan *find_plan(plan *plans, size_t count, int64_t id);

/* Files. What cannot be opened, or is not what it should be, stops the program. */
FILE *open_file(const char *path, const char *mode);
uint8_t *read_file(const char *path, size_t *len); /* the caller frees it; never NULL, also where `len` is 0 */
void journal_path(char path[PATH_ROOM], const char *folder, int64_t id, const char *ending);
size_t list_plans(const char *folder, int64_t ids[MOST_PLANS]); /* in rising order */
bool read_reply(FILE *queue, const char *path, reply *one);     /* false at the end */
bool read_seen(FILE *world, const char *path, seen *one);       /* false at the end */

/* One worker at a time has a folder. The lock goes with the process, however that ends. */
void lock_folder(const char *folder);

/* Creates the journal of a new plan, which is its sheet. After a loss of power it is there, whole, or not at all. */
void create_journal(const char *folder, int64_t id, const uint8_t *sheet, size_t len);

/* A number below `most`, made from a seed which is never 0. The same seed gives the same numbers on every machine. */
uint32_t below(uint32_t *seed, uint32_t most);
int64_t number_of(const char *text, int64_t least, int64_t most);

/* The last synced offset of each plan, as a worker has noted it; 0 where it has noted none. False: one went down. */
bool read_synced(const char *path, const int64_t *ids, size_t count, size_t *offsets);

/* The test's commands; each returns the program's status. */
int make_plans(int argc, char **argv);
int make_replies(int argc, char **argv);
int lose(int argc, char **argv);
int check(int argc, char **argv);
int cuts(int argc, char **argv);

#endif
