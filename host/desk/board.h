/* board.h: what is done with a board that is kept in a file; for the subcommand and for the busy night. */
#ifndef DESK_BOARD_H
#define DESK_BOARD_H

#include "board_file.h"

/* All of these give a status, and have told what is wrong. */

int board_create(const char *file, long slots, long wait);

/* Makes a new board of one in a file of version 1: every slot in its place, with all that waits. The older file is held
 * meanwhile, and left as it is. `b` is then the new board. */
int board_convert(const char *from, const char *to, board *b, long wait);

/* Holds the file and reads the board; whatever it gives, keep_release is then due. */
int board_hold(kept *k, board *b, const char *file, long wait);

/* Gives the board that was read more slots, free ones behind those that it has; what waits stays in its slot. Fewer are
 * refused. */
int board_grow(board *b, const char *file, long slots);

/* Whether a designator is six bytes that are allowed; one that is not is told. */
int designator_status(const char *designator);

/* Whether a designator may begin so; `least` becomes the least that does. */
int prefix_status(const char *prefix, char least[7]);

/* Adds an accepted command to the board that was read; `waiting` becomes the length of the text that then waits. */
int board_add(board *b, const char *designator, const uint8_t *text, size_t length, size_t *waiting);

/* Takes what waits from the board that was read. */
int board_take(board *b, const char *designator, uint8_t *out, size_t *length);

/* What would be taken; a length of 0 where nothing waits. The board that was read is used up. */
int board_waiting(board *b, const char *designator, uint8_t *out, size_t *length);

/* Puts an accepted command that was taken back, before all that has come to wait since: what waits is taken and joined
 * behind it, and the join is added. Where nothing waits it is an add. */
int board_return(board *b, const char *designator, const uint8_t *text, size_t length, size_t *waiting);

/* Tells whether a file and its board are sound, and, where `lists` is 1, what waits, in rising order of designator. */
int board_look(const char *file, int lists);

/* Tells what waits for the aircraft whose designators begin with `prefix`, up to six bytes, in rising order of designator. */
int board_find(const char *file, const char *prefix);

/* Tells in words a command that waits for an aircraft in a slot, from 1 on; 0 where there are no slots. */
void tell_waiting(size_t slot, const char *designator, const uint8_t *text, size_t length);

/* Tells in words what waits for an aircraft. */
int board_look_at(const char *file, const char *designator);

#endif
