/* night.h: what is sent in the busy night, and the files of board and journal that it is played on. */
#ifndef DESK_NIGHT_H
#define DESK_NIGHT_H

#include "board.h"

enum { AIRCRAFT = 5, LATECOMER = 4, NIGHT_SLOTS = 4, COMMANDS_MOST = 64 };

/* An aircraft, and what it was told before the night. */
typedef struct aircraft {
    const char *designator, *before;
} aircraft;

/* Who is told what. */
typedef struct sending {
    int to;
    const char *text, *why;
} sending;

extern const aircraft fleet[AIRCRAFT];
extern const sending sendings[]; /* and behind these the latecomer's, sent again */
extern const int sendings_count;

/* The night's folder, and the files in it. */
typedef struct night_files {
    char folder[PATH_ROOM], board[PATH_ROOM + 8], journal[PATH_ROOM + 8];
} night_files;

/* An add and a taking on the board's file, each with its own lock, reading and writing. What is taken is in the journal
 * before its slot is free. The status tells of files; the board's answer is in `a`. */
int night_add(const night_files *f, const char *designator, const char *text, esk_answer *a);
int night_take(const night_files *f, const char *designator, uint8_t *out, esk_answer *a);

/* Enters a command that was taken into the journal's file. */
int night_enter(const night_files *f, const char *designator, const uint8_t *text, size_t length);

/* The folder is made, and removed with all that is in it. */
int night_folder(night_files *f);
void night_clear(const night_files *f);

#endif
