/*
 * office.h: the offices that share a board, in a file beside it: FILE.grants, a line for each of at most two,
 *
 *   NAME 1010100 1 10100101
 *
 * its name (1 to 16 of A-Z, a-z, 0-9, - and _), seven flags in the command's order, downlinks, sections 2 to 9; 1 grants, 0 does not.
 */
#ifndef DESK_OFFICE_H
#define DESK_OFFICE_H

#include "board.h"

enum { OFFICES = 2, OFFICE_NAME = 16 };

typedef struct offices {
    size_t count;
    struct office {
        char name[OFFICE_NAME + 1];
        esk_grant grant;
    } each[OFFICES];
} offices;

/* Reads the grants of a board's file; no offices where there is no file of grants. */
int offices_read(const char *board_file, offices *all);

/* Gives an office its grant, in place of one that it has: 13 where it overlaps the other's. */
int offices_grant(const char *board_file, const char *name, const esk_grant *grant, offices *all, long wait);

/* A grant by words: names of flags and numbers of sections, parted by commas; NULL for none. */
int grant_of(const char *flags, const char *sections, int downlinks, esk_grant *grant);

/* "flags AMDAR and regions, sections 2 and 4, downlinks", or "nothing". */
void grant_words(const esk_grant *grant, char *to, size_t room);

/* Adds an accepted command of an office to the board that was read. A refusal says what is outside its grant. */
int office_add(board *b, const offices *all, const char *office, const char *designator, const uint8_t *text, size_t length,
               size_t *waiting);

#endif
