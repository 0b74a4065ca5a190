/*
 * board_file.h: a board kept in a file.
 *
 *   bytes             what
 *   8                 ESKBOARD
 *   4                 format version, 2
 *   4                 slots, n: 0 to 64
 *   8 for each slot   designator (6), length of the text that waits (2); length 0: the slot is free
 *   845 for each slot the text area
 *   4                 CRC-32 (IEEE 802.3) of all bytes before it
 *
 * Numbers are little-endian. A file that is cut, damaged, or holds a board that is not valid is refused, and never
 * mended.
 *
 * Version 1 is from before section 7: 835 bytes for each slot, and no text names that section. It is read to be carried
 * over alone.
 */
#ifndef DESK_BOARD_FILE_H
#define DESK_BOARD_FILE_H

#include "keep.h"

enum {
    BOARD_VERSION = 2,
    BOARD_HEAD = 16,
    BOARD_TAIL = 4,
    BOARD_A_SLOT = 8 + ESK_COMMAND_BYTES,
    BOARD_MOST = BOARD_HEAD + ESK_BOARD_SLOTS * BOARD_A_SLOT + BOARD_TAIL
};

typedef struct board {
    size_t n;
    esk_slot slots[ESK_BOARD_SLOTS];
    uint8_t area[ESK_BOARD_SLOTS * ESK_COMMAND_BYTES];
} board;

/* The file's bytes; gives how many. */
size_t board_pack(const board *b, uint8_t *to);

/* The board of a file's bytes: FINE; REFUSED where they are damaged or the board is not valid; TROUBLE for another
 * format version. `why` says it in words. */
int board_unpack(board *b, const uint8_t *bytes, size_t length, char *why, size_t room);

/* The same for the bytes of a file of version 1; FINE: all that they hold is in the board, each slot in its place. */
int board_unpack_older(board *b, const uint8_t *bytes, size_t length, char *why, size_t room);

/* Reads a board's file, and tells what is wrong with it. */
int board_read(const char *file, board *b);

/* The same for a file of version 1. */
int board_read_older(const char *file, board *b);

/* Writes the board's bytes beside the held file, as keep_write does. */
int board_write(kept *k, const board *b);

/* The text that waits in a slot. */
const uint8_t *board_text(const board *b, size_t slot);

size_t board_used(const board *b);

#endif
