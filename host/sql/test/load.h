/*
 * load.h: one client of a load: random adds and takings, each written down before it is sent and once it is acknowledged.
 * load.c is the client; load_postgres.c and load_sqlite.c are the engines.
 *
 *   load_ENGINE DATABASE COMMANDS LOG CLIENT STEPS AIRCRAFT SEED STATEMENTS
 *
 *   DATABASE     a file of SQLite, or the words that libpq connects by
 *   COMMANDS     a file of commands, a line each
 *   LOG          a file that is written anew, in the form that the second program's `fleet check` reads; - is none
 *   CLIENT       its number
 *   STEPS        how many; 0: until there is a file LOG.stop beside it
 *   AIRCRAFT     among so many
 *   STATEMENTS   which ones, by the engine's names
 *
 * For SQLite the environment's ESKELVOR_SO is the extension, and SYNCHRONOUS, where it is set, what that pragma is set to.
 */
#ifndef SQL_LOAD_H
#define SQL_LOAD_H

enum { ANSWER_ROOM = 4096 };

/* What became of a step. DOUBTED: it was sent and never acknowledged, and may be committed or not. AGAIN: it was rolled back
 * for another's sake, and is to be sent again. */
typedef enum outcome { DONE, NOTHING_WAITED, REFUSED, DOUBTED, AGAIN } outcome;

/* A step as it is sent, and what came back. */
typedef struct step {
    int client;
    long number;
    const char *designator;
    const char *command; /* NULL: a taking */
    long long committed; /* the number that the database gave it; 0 where the statements do not count */
    char text[ANSWER_ROOM]; /* what then waits, or was taken; or the words of a refusal */
} step;

/* The engine. Each ends the program where it cannot go on. */
void engine_open(const char *database, const char *statements);
outcome engine_run(step *s);
void engine_close(void);

void die(const char *what, const char *why);

#endif
