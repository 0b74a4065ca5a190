/*
 * sqlite.c: the SQL functions of calls.h as a loadable extension of SQLite, eskelvor.so:
 *
 *   .load ./eskelvor                               in the sqlite3 program
 *   SELECT load_extension('./eskelvor');           where loading is allowed
 *
 * All are deterministic and innocuous: an answer hangs on what is handed over alone, and nothing is changed or told
 * outside, so that a table's CHECK, an index or a trigger may call them, also with PRAGMA trusted_schema = OFF. NULL in any
 * place gives NULL. With SQLITE_CORE defined the file is part of a program that is linked with SQLite.
 */
#include "calls.h"

#include <sqlite3ext.h>
#include <stdio.h>
#include <string.h>

SQLITE_EXTENSION_INIT1

enum { MOST_VALUES = 6 };

/* Hands an answer to the engine. A text is copied: the answer is on the stack. */
static void give(sqlite3_context *context, const sql_answer *a)
{
    switch (a->kind) {
    case GIVES_NULL: sqlite3_result_null(context); break;
    case GIVES_TEXT: sqlite3_result_text(context, a->text, (int)a->length, SQLITE_TRANSIENT); break;
    case GIVES_NUMBER:
    case GIVES_YES_OR_NO: sqlite3_result_int(context, a->number); break;
    case REFUSES: sqlite3_result_error(context, a->text, (int)a->length); break;
    }
}

/* A text or a blob as its bytes, which may hold a NUL; a number is taken as the text that SQLite makes of it. Gives 0 where
 * there was no memory. */
static int take_text(sqlite3_value *from, sql_value *to)
{
    if (sqlite3_value_type(from) == SQLITE_BLOB)
        to->bytes = sqlite3_value_blob(from);
    else
        to->bytes = sqlite3_value_text(from);
    to->length = (size_t)sqlite3_value_bytes(from);
    int given = to->bytes != NULL || to->length == 0;
    if (to->bytes == NULL)
        to->bytes = (const uint8_t *)"";
    return given;
}

/* Takes the values as the call has them. Gives 0 where one of them is NULL or of another kind, and the result is set. */
static int take(sqlite3_context *context, const sql_call *call, sqlite3_value **values, sql_value *to)
{
    for (int i = 0; call->takes[i] != 0; i++)
        if (sqlite3_value_type(values[i]) == SQLITE_NULL)
            return 0; /* the result is NULL unless one is set */
    for (int i = 0; call->takes[i] != 0; i++)
        if (call->takes[i] == 't') {
            if (!take_text(values[i], &to[i])) {
                sqlite3_result_error_nomem(context);
                return 0;
            }
        } else if (sqlite3_value_numeric_type(values[i]) == SQLITE_INTEGER)
            to[i].number = sqlite3_value_int64(values[i]);
        else {
            char words[64];
            snprintf(words, sizeof words, "%s: value %d is to be a whole number", call->name, i + 1);
            sqlite3_result_error(context, words, -1);
            return 0;
        }
    return 1;
}

static void run(sqlite3_context *context, int count, sqlite3_value **values)
{
    const sql_call *call = sqlite3_user_data(context);
    sql_value given[MOST_VALUES];
    sql_answer answer;
    (void)count; /* the engine has held it against the length of call->takes */
    if (!take(context, call, values, given))
        return;
    sql_run(call, given, &answer);
    give(context, &answer);
}

/* ---- the aggregate ------------------------------------------------------------------------------------------------- */

/*
 * eskelvor_joined joins a column in the order of its rows. Order counts: it is given by a window,
 *
 *   eskelvor_joined(command) OVER (ORDER BY number ROWS BETWEEN UNBOUNDED PRECEDING AND UNBOUNDED FOLLOWING)
 *
 * or, from SQLite 3.44 on, inside the call: eskelvor_joined(command ORDER BY number). NULLs are passed over. Over no rows
 * it is NULL, as sum() is: where there were no commands nothing waits, and a command that changes nothing is still one.
 */
typedef struct joined {
    size_t length; /* 0: none yet */
    uint8_t text[ESK_COMMAND_BYTES];
} joined;

static void joined_step(sqlite3_context *context, int count, sqlite3_value **values)
{
    static const sql_call one = {"eskelvor_joined", "t", NULL};
    sql_value next;
    sql_answer answer;
    (void)count;
    if (!take(context, &one, values, &next))
        return;
    joined *so_far = sqlite3_aggregate_context(context, sizeof *so_far); /* all 0 at first */
    if (so_far == NULL)
        sqlite3_result_error_nomem(context);
    else if (!sql_join_next(so_far->text, &so_far->length, &next, &answer))
        give(context, &answer);
}

static void joined_value(sqlite3_context *context)
{
    joined *so_far = sqlite3_aggregate_context(context, 0);
    if (so_far != NULL && so_far->length > 0)
        sqlite3_result_text(context, (const char *)so_far->text, (int)so_far->length, SQLITE_TRANSIENT);
}

/* A window whose first row moves would have to take the first text out of a join again, which cannot be done. */
static void joined_inverse(sqlite3_context *context, int count, sqlite3_value **values)
{
    (void)count;
    (void)values;
    sqlite3_result_error(context, "eskelvor_joined: the window is to begin with UNBOUNDED PRECEDING", -1);
}

/* ---- registration -------------------------------------------------------------------------------------------------- */

int sqlite3_eskelvor_init(sqlite3 *db, char **message, const sqlite3_api_routines *api)
{
    const int flags = SQLITE_UTF8 | SQLITE_DETERMINISTIC | SQLITE_INNOCUOUS;
    int status = SQLITE_OK;
    SQLITE_EXTENSION_INIT2(api)
    (void)message;
    (void)api;
    for (int i = 0; i < sql_calls_count && status == SQLITE_OK; i++)
        status = sqlite3_create_function_v2(db, sql_calls[i].name, (int)strlen(sql_calls[i].takes), flags,
                                            (void *)(uintptr_t)&sql_calls[i], run, NULL, NULL, NULL);
    if (status == SQLITE_OK)
        status = sqlite3_create_window_function(db, "eskelvor_joined", 1, flags, NULL, joined_step, joined_value,
                                                joined_value, joined_inverse, NULL);
    return status;
}
