/*
 * command_names.h: every figure and list of a command by its names: the option of eskelvor compose, the key in a
 * document, and where the record has it. explain --json, compose and compose --json all go by these tables, so that
 * what the one writes the others read.
 */
#ifndef DESK_COMMAND_NAMES_H
#define DESK_COMMAND_NAMES_H

#include "eskelvor.h"

/* A value that has a word. */
typedef struct value_word {
    const char *word;
    int value;
} value_word;

typedef struct figure_name {
    int section;             /* 0: the head, a flag or the downlink digit */
    size_t place;            /* of its bytes in its section's text, behind any lists */
    const char *option, *key;
    size_t offset, bytes;    /* in esk_command: one byte or two */
    long step;               /* of its unit to one of the record's */
    const value_word *words; /* its values, the first word of each the one that is written; NULL: it is a number */
    const char *range;       /* what may be given */
    const char *unit;        /* as it may be typed behind the number, or NULL */
} figure_name;

/* A list of boxes (section 2) or airfields (section 3). */
typedef struct list_name {
    int section;
    const char *option, *brief; /* and a shorter name, or NULL */
    const char *key;
    size_t offset;    /* in esk_command */
    const char *name; /* as refusals name it */
} list_name;

extern const figure_name figure_names[];
extern const list_name list_names[];

enum { FIGURE_NAMES = 28, LIST_NAMES = 6, BOX_LISTS = 2 };

/* A figure's value in a record. One that the record's member cannot hold is put there as the most that it can, which is
 * outside every range. */
long get_named(const esk_command *c, const figure_name *f);
void set_named(esk_command *c, const figure_name *f, long value);

/* A list of a record, of the kind that its section has. */
esk_boxes *boxes_of(esk_command *c, const list_name *l);
esk_airfields *airfields_of(esk_command *c, const list_name *l);

/* The word of a value, or NULL; and the value of a word, or -1. */
const char *word_of_value(const value_word *words, long value);
int value_of_word(const value_word *words, const char *word);

/* Writes the call of eskelvor compose that makes a command. */
void write_options(const esk_command *c);

#endif
