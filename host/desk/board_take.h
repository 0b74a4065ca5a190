/* board_take.h: the hand-over of what waits for an aircraft. */
#ifndef DESK_BOARD_TAKE_H
#define DESK_BOARD_TAKE_H

#include "board.h"

/* What is asked for. */
typedef struct taking {
    const char *file, *designator;
    const char *to;      /* the new file for the text; NULL: standard output */
    const char *journal; /* the journal that it is entered into; NULL: none */
    long wait;
} taking;

enum { NOWHERE = -1 };

/* What is taken, and its entry in the journal. */
typedef struct taken {
    uint8_t text[ESK_COMMAND_BYTES];
    size_t length;
    long entry; /* where the entry begins; NOWHERE without a journal */
    long same;  /* where the aircraft's newest entry before it begins, if it has the same text; else NOWHERE */
} taken;

/* Hands a text out: to standard output, or into a new file, with a line end, where it is on disk. Gives a status. */
int hand_out(const taking *t, const taken *got);

/* Tells of it, once all is done. */
void tell_done(const taking *t, const taken *got);

/* Hands over what waits, and frees its slot. Gives a status, and has told it. */
int board_hand_over(const taking *t);

#endif
