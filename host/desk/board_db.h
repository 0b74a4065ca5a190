/*
 * board_db.h: a board kept in a database, for the subcommand: SQLite, with the tables of host/sql/board.sqlite.sql. Without
 * DESK_SQLITE the program was built where SQLite was not, and each of these says so.
 *
 * All give a status, and have told what is wrong. `wait` is how many seconds another writer is waited for.
 */
#ifndef DESK_BOARD_DB_H
#define DESK_BOARD_DB_H

#include "board_take.h"

/* Makes the database; a file that is there stays. */
int db_create(const char *file, long wait);

/* Adds an accepted command, or puts it back `before` all that waits; `waiting` becomes the length of what then waits. */
int db_put(const char *file, long wait, const char *designator, const uint8_t *text, size_t length, int before,
           size_t *waiting);

/* Hands over what waits: it is in the database's journal, and no longer on its board, once it is handed out. */
int db_hand_over(const taking *t);

/* Tells how many wait, and, where `lists` is 1, what; else whether the database is sound. */
int db_look(const char *file, long wait, int lists);

/* Tells what waits for the aircraft whose designators begin with `prefix`, up to six bytes. */
int db_find(const char *file, long wait, const char *prefix);

/* Tells in words what waits for an aircraft. */
int db_look_at(const char *file, long wait, const char *designator);

#endif
