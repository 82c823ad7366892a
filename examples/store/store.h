/*
 * What the two files of `store` share: `store.c` is the host, `trial.c` is what its test needs (plans and replies made
 * from a seed, damage, the check).
 */
#ifndef STORE_H
#define STORE_H

#include <sqlite3.h>
#include <stdbool.h>
#include <stdint.h>
#include <stdio.h>

#include "sinewhopa.h"

/* Kinds of records of calls: submit an event, close a step, finish, advance to a minute. */
enum { SUBMIT = 16, CLOSE = 17, FINISH = 18, ADVANCE = 19 };

/* A record of a call: the kind, then one byte (an event, a step), none, or a minute of four bytes, lowest first. */
typedef struct {
    uint8_t bytes[5];
    int size;
} record;

/* A line of the queue: a reply with the id that its sender gave it, and the minute at which it came. */
typedef struct {
    int64_t id;
    int64_t minute;
    int64_t plan;
    int64_t kind; /* SUBMIT, CLOSE or FINISH */
    int64_t number;
} reply;

/* Prints `store: ` and what is wrong, and ends the program. SQLite rolls back what was not committed. */
_Noreturn void stop(const char *format, ...);

/* SQL. A statement that fails stops the program. `ASK` prepares one and binds numbers to its question marks. */
sqlite3 *open_database(const char *path, int flags);
void run(sqlite3 *db, const char *sql);
sqlite3_stmt *ask(sqlite3 *db, const char *sql, const int64_t *numbers, int count);
bool has_row(sqlite3_stmt *statement);
void finish_statement(sqlite3_stmt *statement);
bool first_row(sqlite3_stmt *statement, int64_t *numbers, int count);
#define NUMBERS(...) ((const int64_t[]){__VA_ARGS__})
#define ASK(db, sql, ...) ask(db, sql, NUMBERS(__VA_ARGS__), (int)(sizeof NUMBERS(__VA_ARGS__) / sizeof(int64_t)))

/* CRC-32, as zlib's crc32() and Python's zlib.crc32() give it. */
uint32_t crc32_of(const uint8_t *bytes, size_t size);

/* Opens a plan's sheet again and makes its stored calls again. NULL, or what is wrong. */
const char *replay(sqlite3 *db, int64_t id, sinewhopa_state *state);

/* The stored state into `state`. False where the checksum is another; `checksum` is the one that was stored. */
bool read_state(sqlite3_stmt *row, int state_column, sinewhopa_state *state, uint32_t *checksum);

/* The next minute at which the window of an event that is not settled begins or ends; -1 where there is none. */
int64_t next_wake(const sinewhopa_state *state);

/* The next line of the queue, or false at its end. A line that is no reply stops the program. */
bool read_reply(FILE *queue, const char *path, reply *one);
FILE *open_queue(const char *path);

/* The schema, as `docs/STORING.md` shows it. */
extern const char schema[];

/* The test's commands; each returns the program's status. */
int make_plans(int argc, char **argv);
int make_replies(int argc, char **argv);
int damage(int argc, char **argv);
int outdate(int argc, char **argv);
int check(int argc, char **argv);

#endif
