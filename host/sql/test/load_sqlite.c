/* The engine of load.c for SQLite. */
#include "load.h"

#include <sqlite3.h>
#include <stdio.h>
#include <stdlib.h>
#include <string.h>

/*
 * The statements of host/sql/board.sqlite.sql, and whether each is counted: a row of `steps` is then written in the same
 * transaction, which has the write lock from its beginning on. An add is handed ?1 designator, ?2 command.
 */
#define UPSERT(table, value) \
    "INSERT INTO " table " (designator, command) VALUES (?1, ?2) ON CONFLICT (designator) DO UPDATE SET command = " value \
    " RETURNING command"
#define TAKE(table) "DELETE FROM " table " WHERE designator = ?1 RETURNING command"
#define JOINED "eskelvor_join(waiting.command, excluded.command)"

static const struct statements {
    const char *name, *add, *take;
    int counted;
} all[] = {
    {"right", UPSERT("waiting", JOINED), TAKE("waiting"), 1},
    {"swapped", UPSERT("waiting", "eskelvor_join(excluded.command, waiting.command)"), TAKE("waiting"), 1},
    {"last", UPSERT("waiting", "excluded.command"), TAKE("waiting"), 1},
    {"blind", UPSERT("waiting", JOINED), "DELETE FROM waiting WHERE designator = ?1 AND random() > 0 RETURNING command", 1},
    {"bare", UPSERT("waiting", JOINED), TAKE("waiting"), 0},
    {"plain", UPSERT("plain", "plain.command || excluded.command"), TAKE("plain"), 0},
};

enum { BEGIN, COMMIT, ROLLBACK, ADD, TAKEN, COUNT_IT, STATEMENTS };

static const struct statements *chosen;
static sqlite3 *db;
static sqlite3_stmt *prepared[STATEMENTS];

static void prepare(int which, const char *text)
{
    if (sqlite3_prepare_v2(db, text, -1, &prepared[which], NULL) != SQLITE_OK)
        die(text, sqlite3_errmsg(db));
}

void engine_open(const char *file, const char *statements)
{
    char *message = NULL;
    for (size_t i = 0; i < sizeof all / sizeof *all; i++)
        if (strcmp(all[i].name, statements) == 0)
            chosen = &all[i];
    if (chosen == NULL)
        die(statements, "no such statements");
    if (sqlite3_open_v2(file, &db, SQLITE_OPEN_READWRITE, NULL) != SQLITE_OK)
        die(file, sqlite3_errmsg(db));
    sqlite3_busy_timeout(db, 60000);
    sqlite3_enable_load_extension(db, 1);
    if (sqlite3_load_extension(db, getenv("ESKELVOR_SO"), NULL, &message) != SQLITE_OK)
        die("extension", message);
    if (getenv("SYNCHRONOUS") != NULL) {
        char pragma[64];
        snprintf(pragma, sizeof pragma, "PRAGMA synchronous = %s", getenv("SYNCHRONOUS"));
        sqlite3_exec(db, pragma, NULL, NULL, NULL);
    }
    prepare(BEGIN, "BEGIN IMMEDIATE");
    prepare(COMMIT, "COMMIT");
    prepare(ROLLBACK, "ROLLBACK");
    prepare(ADD, chosen->add);
    prepare(TAKEN, chosen->take);
    if (chosen->counted)
        prepare(COUNT_IT, "INSERT INTO steps (kind, client, step, designator, given, text) VALUES (?1, ?2, ?3, ?4, ?5, ?6) "
                          "RETURNING number");
}

/* A statement without values, which has to succeed. */
static void plainly(int which)
{
    int status = sqlite3_step(prepared[which]);
    sqlite3_reset(prepared[which]);
    if (status != SQLITE_DONE)
        die("transaction", sqlite3_errmsg(db));
}

/* Runs a statement to its end. Gives whether there was a row, whose first value is then the text; -1 for an error, in
 * words. */
static int run(sqlite3_stmt *statement, char *text)
{
    int rows = 0, status;
    while ((status = sqlite3_step(statement)) == SQLITE_ROW)
        if (rows++ == 0)
            snprintf(text, ANSWER_ROOM, "%s", (const char *)sqlite3_column_text(statement, 0));
    if (status != SQLITE_DONE)
        snprintf(text, ANSWER_ROOM, "%s", sqlite3_errmsg(db));
    sqlite3_reset(statement);
    return status == SQLITE_DONE ? rows : -1;
}

static void count(step *s)
{
    char number[ANSWER_ROOM];
    sqlite3_stmt *to = prepared[COUNT_IT];
    sqlite3_bind_text(to, 1, s->command ? "add" : "take", -1, SQLITE_STATIC);
    sqlite3_bind_int(to, 2, s->client);
    sqlite3_bind_int64(to, 3, s->number);
    sqlite3_bind_text(to, 4, s->designator, -1, SQLITE_STATIC);
    sqlite3_bind_text(to, 5, s->command, -1, SQLITE_STATIC); /* NULL binds NULL */
    sqlite3_bind_text(to, 6, s->text, -1, SQLITE_STATIC);
    if (run(to, number) != 1)
        die("step", number);
    s->committed = atoll(number);
}

outcome engine_run(step *s)
{
    sqlite3_stmt *statement = prepared[s->command != NULL ? ADD : TAKEN];
    sqlite3_bind_text(statement, 1, s->designator, -1, SQLITE_STATIC);
    if (s->command != NULL)
        sqlite3_bind_text(statement, 2, s->command, -1, SQLITE_STATIC);
    s->committed = 0;
    if (chosen->counted)
        plainly(BEGIN);
    int rows = run(statement, s->text);
    if (rows > 0 && chosen->counted)
        count(s);
    if (rows < 0 && strstr(s->text, "code ") == NULL)
        die("statement", s->text);
    if (chosen->counted)
        plainly(rows < 0 ? ROLLBACK : COMMIT);
    return rows < 0 ? REFUSED : rows == 0 ? NOTHING_WAITED : DONE;
}

void engine_close(void)
{
    for (int i = 0; i < STATEMENTS; i++)
        sqlite3_finalize(prepared[i]);
    sqlite3_close(db);
}
