#define _POSIX_C_SOURCE 200809L
#include "board_db.h"

#include "json.h"
#include "mark.h"

#ifdef DESK_SQLITE

#include "../sql/board_schema.h"

#include <sqlite3.h>
#include <stdio.h>
#include <string.h>
#include <unistd.h>

int sqlite3_eskelvor_init(sqlite3 *db, char **message, const void *api); /* host/sql/sqlite.c */

/* An open database, and the statement that is run on it. */
typedef struct database {
    const char *file;
    sqlite3 *db;
    sqlite3_stmt *statement;
} database;

static int db_trouble(const database *d)
{
    return trouble(d->file, "%s", d->db ? sqlite3_errmsg(d->db) : "no memory");
}

/* Whatever it gives, db_close is then due. */
static int db_open(database *d, const char *file, long wait, int flags)
{
    d->file = file;
    d->db = NULL;
    d->statement = NULL;
    if (sqlite3_open_v2(file, &d->db, flags, NULL) != SQLITE_OK)
        return db_trouble(d);
    sqlite3_busy_timeout(d->db, (int)wait * 1000);
    return sqlite3_eskelvor_init(d->db, NULL, NULL) == SQLITE_OK ? FINE : db_trouble(d);
}

static void db_close(database *d)
{
    sqlite3_finalize(d->statement);
    sqlite3_close(d->db);
}

static int db_run(const database *d, const char *text)
{
    return sqlite3_exec(d->db, text, NULL, NULL, NULL) == SQLITE_OK ? FINE : db_trouble(d);
}

/* A statement with up to two values, each a text; a value of NULL is none. */
static int db_ask(database *d, const char *text, const char *designator, const uint8_t *command, size_t length)
{
    sqlite3_finalize(d->statement);
    if (sqlite3_prepare_v2(d->db, text, -1, &d->statement, NULL) != SQLITE_OK)
        return db_trouble(d);
    if (designator != NULL)
        sqlite3_bind_text(d->statement, 1, designator, -1, SQLITE_TRANSIENT);
    if (command != NULL)
        sqlite3_bind_text(d->statement, 2, (const char *)command, (int)length, SQLITE_TRANSIENT);
    return FINE;
}

/* The next row: 1, or 0 behind the last; -1 for what went wrong, which is told. */
static int db_next(const database *d)
{
    int status = sqlite3_step(d->statement);
    if (status != SQLITE_ROW && status != SQLITE_DONE)
        db_trouble(d);
    return status == SQLITE_ROW ? 1 : status == SQLITE_DONE ? 0 : -1;
}

/* A column of the row, a command: no row has a longer one. */
static size_t db_command(const database *d, int column, uint8_t to[ESK_COMMAND_BYTES])
{
    const void *text = sqlite3_column_text(d->statement, column);
    size_t length = (size_t)sqlite3_column_bytes(d->statement, column);
    if (text == NULL || length > ESK_COMMAND_BYTES)
        length = 0;
    if (length > 0)
        memcpy(to, text, length);
    return length;
}

/* The one command that a statement gives; a length of 0 where there is no row. */
static int db_one(database *d, uint8_t to[ESK_COMMAND_BYTES], size_t *length)
{
    int row = db_next(d);
    *length = row == 1 ? db_command(d, 0, to) : 0;
    if (row == 1)
        row = db_next(d); /* to its end */
    return row == 0 ? FINE : TROUBLE;
}

int db_create(const char *file, long wait)
{
    database d;
    char name[NAME_ROOM];
    if (access(file, F_OK) == 0)
        return trouble(file, "there is a file of this name already; it is left as it is");
    int status = db_open(&d, file, wait, SQLITE_OPEN_READWRITE | SQLITE_OPEN_CREATE);
    if (status == FINE)
        status = db_run(&d, board_schema);
    db_close(&d);
    if (status != FINE)
        return status;
    if (!as_json) {
        printf("%s: a board in a database\n", name_safely(file, name, sizeof name));
        return FINE;
    }
    json_object(NULL);
    json_bool("accepted", 1);
    json_number("code", ESK_ACCEPTED);
    json_close();
    return FINE;
}

int db_put(const char *file, long wait, const char *designator, const uint8_t *text, size_t length, int before,
           size_t *waiting)
{
    static const char *const put[] = {
        "INSERT INTO waiting (designator, command) VALUES (?1, ?2) ON CONFLICT (designator) DO UPDATE SET command = "
        "eskelvor_join(waiting.command, excluded.command) RETURNING command",
        "INSERT INTO waiting (designator, command) VALUES (?1, ?2) ON CONFLICT (designator) DO UPDATE SET command = "
        "eskelvor_join(excluded.command, waiting.command) RETURNING command",
    };
    database d;
    uint8_t waits[ESK_COMMAND_BYTES];
    int status = designator_status(designator);
    if (status != FINE)
        return status;
    status = db_open(&d, file, wait, SQLITE_OPEN_READWRITE);
    if (status == FINE)
        status = db_ask(&d, put[before], designator, text, length);
    if (status == FINE)
        status = db_one(&d, waits, waiting);
    db_close(&d);
    return status;
}

/* The deletion is committed once the text is handed out: a kill in between leaves it waiting, to be handed out again. */
static int take_within(database *d, const taking *t, taken *got)
{
    int status = db_ask(d, "DELETE FROM waiting WHERE designator = ?1 RETURNING command", t->designator, NULL, 0);
    if (status == FINE)
        status = db_one(d, got->text, &got->length);
    if (status == FINE && got->length == 0)
        return refuse_plain(t->designator, A_BOARD, ESK_NOTHING, NULL);
    if (status == FINE) {
        status = hand_out(t, got);
        if (status != FINE)
            trouble(t->designator, "not handed out; it still waits");
    }
    return status;
}

int db_hand_over(const taking *t)
{
    database d;
    taken got = {{0}, 0, NOWHERE, NOWHERE};
    int status = designator_status(t->designator);
    if (status != FINE)
        return status;
    status = db_open(&d, t->file, t->wait, SQLITE_OPEN_READWRITE);
    if (status == FINE)
        status = db_run(&d, "BEGIN IMMEDIATE");
    if (status == FINE) {
        status = take_within(&d, t, &got);
        sqlite3_reset(d.statement);
        if (status == FINE && db_run(&d, "COMMIT") != FINE)
            status = trouble(t->designator, "handed out, and may still wait: take it again");
    }
    db_close(&d); /* rolls back what was not committed */
    if (status == FINE)
        tell_done(t, &got);
    return status;
}

static void tell_row(const database *d)
{
    uint8_t text[ESK_COMMAND_BYTES];
    const char *designator = (const char *)sqlite3_column_text(d->statement, 0);
    size_t length = db_command(d, 1, text);
    if (!as_json) {
        printf("  %.6s  %3lu bytes  %.*s\n", designator, (unsigned long)length, (int)length, (const char *)text);
        return;
    }
    json_object(NULL);
    json_word("designator", designator);
    json_number("length", (long long)length);
    json_text("text", text, length);
    json_close();
}

/* The number that a statement gives. */
static int db_number(database *d, const char *text, long long *number)
{
    if (db_ask(d, text, NULL, NULL, 0) != FINE || db_next(d) != 1)
        return TROUBLE;
    *number = sqlite3_column_int64(d->statement, 0);
    return FINE;
}

/* What waits for the aircraft whose designators begin with `prefix`, in the order of the designators; "" for all. The index
 * is searched for the first of them and left behind the last: '[' comes behind every byte of a designator. */
static int list_rows(database *d, const char *prefix, long long *found)
{
    static const char rows[] = "SELECT designator, command FROM waiting WHERE designator >= ?1 AND designator < ?1 || '[' "
                               "ORDER BY designator";
    int row = 0, status = db_ask(d, rows, prefix, NULL, 0);
    *found = 0;
    if (as_json)
        json_list("waiting");
    for (; status == FINE && (row = db_next(d)) == 1; ++*found)
        tell_row(d);
    if (as_json)
        json_close();
    return status == FINE && row == 0 ? FINE : TROUBLE;
}

/* Every page, every index and, by the tables' own checks, every row: a check that refuses one ends the statement. */
static int db_sound(database *d)
{
    if (db_ask(d, "PRAGMA integrity_check(1)", NULL, NULL, 0) != FINE)
        return TROUBLE;
    int status = sqlite3_step(d->statement);
    if (status != SQLITE_ROW && status != SQLITE_ERROR)
        return db_trouble(d);
    const char *verdict = status == SQLITE_ROW ? (const char *)sqlite3_column_text(d->statement, 0) : sqlite3_errmsg(d->db);
    return strcmp(verdict, "ok") == 0 ? FINE : refuse_plain(d->file, A_BOARD, ESK_BOARD, verdict);
}

static int look_within(database *d, int lists)
{
    char name[NAME_ROOM];
    long long waiting = 0, handed = 0, listed;
    int status = lists ? FINE : db_sound(d);
    if (status == FINE)
        status = db_number(d, "SELECT count(*) FROM waiting", &waiting);
    if (status == FINE)
        status = db_number(d, "SELECT count(*) FROM handed_over", &handed);
    if (status != FINE)
        return status;
    if (!as_json) {
        printf("%s: %lld aircraft have a command waiting, %lld were handed over\n", name_safely(d->file, name, sizeof name),
               waiting, handed);
        return lists ? list_rows(d, "", &listed) : FINE;
    }
    json_object(NULL);
    json_bool("accepted", 1);
    json_number("code", ESK_ACCEPTED);
    json_number("used", waiting);
    json_number("handed_over", handed);
    if (lists)
        status = list_rows(d, "", &listed);
    json_close();
    return status;
}

int db_find(const char *file, long wait, const char *prefix)
{
    database d;
    char least[7];
    long long found;
    int status = prefix_status(prefix, least);
    if (status != FINE)
        return status;
    status = db_open(&d, file, wait, SQLITE_OPEN_READWRITE);
    if (status == FINE && as_json) {
        json_object(NULL);
        json_bool("accepted", 1);
        json_number("code", ESK_ACCEPTED);
        json_word("prefix", prefix);
    }
    if (status == FINE) {
        status = list_rows(&d, prefix, &found);
        if (as_json) {
            json_number("found", found);
            json_close();
        }
    }
    db_close(&d);
    return status;
}

int db_look(const char *file, long wait, int lists)
{
    database d;
    int status = db_open(&d, file, wait, SQLITE_OPEN_READWRITE);
    if (status == FINE)
        status = db_run(&d, "BEGIN"); /* one view of all that is counted and listed */
    if (status == FINE)
        status = look_within(&d, lists);
    db_close(&d);
    return status;
}

int db_look_at(const char *file, long wait, const char *designator)
{
    database d;
    uint8_t text[ESK_COMMAND_BYTES];
    size_t length = 0;
    int status = designator_status(designator);
    if (status != FINE)
        return status;
    status = db_open(&d, file, wait, SQLITE_OPEN_READWRITE);
    if (status == FINE)
        status = db_ask(&d, "SELECT command FROM waiting WHERE designator = ?1", designator, NULL, 0);
    if (status == FINE)
        status = db_one(&d, text, &length);
    db_close(&d);
    if (status == FINE && length == 0)
        return refuse_plain(designator, A_BOARD, ESK_NOTHING, NULL);
    if (status == FINE)
        tell_waiting(0, designator, text, length);
    return status;
}

#else

static int without(const char *file)
{
    return trouble(file, "this program was built without SQLite, and keeps boards in files of its own alone");
}

int db_create(const char *file, long wait)
{
    (void)wait;
    return without(file);
}

int db_put(const char *file, long wait, const char *designator, const uint8_t *text, size_t length, int before,
           size_t *waiting)
{
    (void)wait, (void)designator, (void)text, (void)length, (void)before, (void)waiting;
    return without(file);
}

int db_hand_over(const taking *t)
{
    return without(t->file);
}

int db_look(const char *file, long wait, int lists)
{
    (void)wait, (void)lists;
    return without(file);
}

int db_look_at(const char *file, long wait, const char *designator)
{
    (void)wait, (void)designator;
    return without(file);
}

int db_find(const char *file, long wait, const char *prefix)
{
    (void)wait, (void)prefix;
    return without(file);
}

#endif
