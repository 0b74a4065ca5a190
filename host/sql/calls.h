/*
 * calls.h: what the SQL functions do, over the proved calls, whatever the engine.
 *
 * sqlite.c and postgres.c carry values in and out, and nothing else: so a function has one meaning, one name and the same
 * words in both. Every verdict here is a proved call's.
 */
#ifndef SQL_CALLS_H
#define SQL_CALLS_H

#include "eskelvor.h"

/* A value that a function is handed: a text, which may hold any bytes, or a whole number. It is never NULL: a function that
 * is handed one gives NULL, which is the engine's part. */
typedef struct sql_value {
    const uint8_t *bytes;
    size_t length;
    int64_t number;
} sql_value;

typedef enum sql_kind { GIVES_NULL, GIVES_TEXT, GIVES_NUMBER, GIVES_YES_OR_NO, REFUSES } sql_kind;

enum { SQL_ROOM = 16384 }; /* more than the JSON of any report has */

/* What a function answers. The words of a refusal are its text, and a text ends with a NUL that is not counted. */
typedef struct sql_answer {
    sql_kind kind;
    int number;
    size_t length;
    char text[SQL_ROOM];
} sql_answer;

typedef void (*sql_function)(const sql_value *given, sql_answer *answer);

/* A function by its name. What it takes, a letter each: t a text, n a number. */
typedef struct sql_call {
    const char *name, *takes;
    sql_function run;
} sql_call;

extern const sql_call sql_calls[];
extern const int sql_calls_count;

/* The function of a name, or NULL. */
const sql_call *sql_find(const char *name);

/* Runs one; a refusal's words then begin with the function's name. */
void sql_run(const sql_call *call, const sql_value *given, sql_answer *answer);

/* Of the aggregate, one step: `joined` is the text so far, of `*length` bytes, 0 for none yet. Gives 0 where the next text
 * is refused, which the answer then tells. */
int sql_join_next(uint8_t joined[ESK_COMMAND_BYTES], size_t *length, const sql_value *next, sql_answer *answer);

#endif
