/*
 * joining.h: commands gathered into one that acts as all of them in order.
 *
 * What is given to an add, an apply or a decision is gathered first, before any file is held: a joined command acts as
 * its parts do, one after the other, on every configuration and on what waits.
 */
#ifndef DESK_JOINING_H
#define DESK_JOINING_H

#include "intake.h"

/* What the texts so far join to. */
typedef struct joined {
    uint8_t text[ESK_COMMAND_BYTES];
    size_t length;
    unsigned long texts;
} joined;

/* A text_taker: `with` is a joined, to which the text is added. */
int join_text(void *with, const command_text *text);

/* Joins all the texts of the words, in order, by the intake's own taker or else by join_text; where one is refused, all
 * are. */
int gather(intake *in, int count, char **words, joined *all);

/* Applies what was gathered, if anything, to a configuration; `about` is its file. */
int apply_gathered(const joined *all, esk_settings *settings, const char *about);

#endif
