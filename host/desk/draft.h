/*
 * draft.h: a command as it is put together, figure by figure, from options or from JSON, and written by the proved
 * writer, whose refusals are told with the option or key at fault.
 */
#ifndef DESK_DRAFT_H
#define DESK_DRAFT_H

#include "command_names.h"

typedef struct draft {
    esk_command command;         /* flags 9 and nothing named, until something is given */
    int given[FIGURE_NAMES];     /* whether a figure was */
    long numbers[FIGURE_NAMES];  /* in its unit, as it was given */
    int listed[LIST_NAMES];      /* whether a list was given, empty or not */
    const char *where;           /* for what is told: the file and line of the JSON; NULL: options */
} draft;

draft draft_begin(const char *where);

/* Puts a figure in, in its unit and a whole number of its steps, and names its section. */
void draft_figure(draft *d, int figure, long number);

/* A list is given; then each of its items. Items that a record has no room for are counted. */
void draft_list(draft *d, int list);
void draft_box(draft *d, int list, const esk_region *box);
void draft_airfield(draft *d, int list, const char name[4]);

/* Takes what a named section lacks from a configuration. */
void draft_fill(draft *d, const esk_settings *rest);

/* The first figure that a named section lacks; -1 where none does. A list that is not given is empty. */
int draft_lacks(const draft *d);

/* Writes the command; gives a status, and tells a refusal. */
int draft_write(const draft *d, uint8_t out[ESK_COMMAND_BYTES], size_t *length);

#endif
