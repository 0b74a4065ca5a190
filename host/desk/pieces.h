/*
 * pieces.h: a file of reports, cut into reports.
 *
 * Reports of 220 bytes stand one behind the other; CR and LF bytes between them are passed over. Where 220 bytes are
 * not accepted, the piece runs to where the next report seems to begin (eight bytes, a line end, AMDAR3), so that one
 * that has lost or gained some bytes does not spoil those behind it; where none begins within 440 bytes, it is 220.
 * After 20 such pieces in a row the file is taken to hold something else, and all up to the next beginning is one.
 */
#ifndef DESK_PIECES_H
#define DESK_PIECES_H

#include "eskelvor.h"

#include <stdio.h>

/* A piece that ought to be a report. */
typedef struct piece {
    const uint8_t *bytes;
    size_t length;             /* bytes that are there */
    unsigned long long whole;  /* bytes that it has; more than `length` only in one that is too long */
    unsigned long number;      /* from 1 */
    unsigned long long offset; /* of its first byte in the file */
} piece;

typedef struct pieces {
    FILE *from;
    uint8_t held[1 << 16];
    size_t at, end;            /* the bytes not handed on yet */
    unsigned long long offset; /* of the byte at `at` */
    unsigned long number;      /* of the piece before */
    unsigned lost;             /* pieces in a row, up to that one, that are no reports */
    uint8_t passed[300];       /* the first bytes of a long run that was passed over */
} pieces;

void pieces_begin(pieces *p, FILE *from);

/* The next piece; 0 at the end of the file, or where it cannot be read (ferror tells). The bytes are there until the
 * next call. */
int next_piece(pieces *p, piece *got);

#endif
