/* A pack: many inputs in one file, each behind its length in four bytes, lowest first. */
#ifndef PACKS_H
#define PACKS_H

#include "harness.h"

#include <stdio.h>

#define MOST_BYTES 65536 /* of an input */

/* Reads a whole file of one input. Ends the program where it cannot. */
size_t read_input(const char *name, uint8_t bytes[MOST_BYTES]);

/* The next input of a pack, -1 at its end. Ends the program where the pack is cut short. */
long next_input(FILE *pack, const char *name, uint8_t bytes[MOST_BYTES]);

/* Puts one input behind those that a pack has. */
void add_input(FILE *pack, const uint8_t *bytes, size_t length);

FILE *opened(const char *name, const char *mode);

#endif
