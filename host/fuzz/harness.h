/*
 * harness.h: what the fuzz targets share. An input is any bytes at all; a target takes it apart, makes one call of each
 * program with it, and holds the two answers and all that was lent against each other, byte for byte.
 */
#ifndef HARNESS_H
#define HARNESS_H

#include "second.h"

/* What is left of an input. */
typedef struct input {
    const uint8_t *at;
    size_t left;
} input;

/* The next bytes of an input; 0 where it has ended. Numbers have their lowest byte first. */
uint8_t take_byte(input *from);
uint16_t take_short(input *from);
uint32_t take_word(input *from);
void take_into(input *from, void *to, size_t length);

/* The same bytes for each program, each in a heap block of exactly that length: a step over an end is seen by the
 * address sanitizer. An empty block's pointer is one past a block's end, and readable nowhere. */
typedef struct lent {
    uint8_t *ours, *second;
    size_t length;
} lent;

lent lend(const void *bytes, size_t length);
lent lend_next(input *from, size_t length); /* the next bytes, or as many as there are */
lent lend_rest(input *from);
lent lend_room(size_t length); /* for writing, filled with the pattern; at most MOST_ROOM bytes */

enum { MOST_ROOM = 1 << 17 };

void fill(uint8_t *to, size_t length); /* the pattern */

/* Ends the program with both sides shown where they differ. `part` names what is held. */
void hold(const char *part, const void *ours, const void *second, size_t length);

/* Holds what both calls left in what was lent, and takes it back. */
void give_back(const char *part, lent what);

/* A target: the call that it makes, the parts that it holds, and how it goes about it. */
typedef struct target {
    const char *call;
    const char *parts; /* with a space between two */
    void (*run)(input from);
} target;

/* Each ends with a call of NULL. */
extern const target downlink_targets[], uplink_targets[], board_targets[], journal_targets[];

const target *target_of(const char *call); /* NULL where there is none */
void run_target(const target *which, const uint8_t *bytes, size_t length);

#endif
