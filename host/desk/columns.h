/*
 * columns.h: what there is to know of an observation, by name: the keys of its JSON object, the columns of a table, and
 * the names that --fields takes. One table serves all three, and the reader of such an object too.
 */
#ifndef DESK_COLUMNS_H
#define DESK_COLUMNS_H

#include "eskelvor.h"
#include "observation.h"

/* Where a column's value comes from. */
typedef enum source {
    FROM_FILE, FROM_REPORT, FROM_OFFSET, FROM_DEPARTURE, FROM_ARRIVAL, FROM_DESIGNATOR, /* the report */
    FROM_NUMBER, FROM_KIND, FROM_KIND_IN_WORDS, FROM_QUALITY,                           /* the observation */
    FROM_CHANGE, /* a figure of a later observation that is a change since the one before */
    FROM_TRACK,  /* where and when it was made: the first one's own figure, a later one's sum of changes */
    FROM_DEGREES, FROM_DAY, FROM_TIME, /* the same in a person's units */
    FROM_FIGURE
} source;

enum { FIGURES = 9 }; /* of an observation, latitude to vapour, as esk_observation has them */

typedef struct column {
    const char *name;  /* with its unit */
    const char *brief; /* a shorter name that --fields takes too, or NULL */
    source from;
    int figure; /* which of an observation's figures it is or comes from */
    int step;   /* what one of the report's steps is in its unit */
    int places; /* digits behind the point */
} column;

extern const column columns[];
extern const int columns_count;
extern const int first_own_column; /* those before it are the same for all observations of a report */

/* An observation, and the report that it stands in. */
typedef struct row {
    const char *file;
    unsigned long report;
    unsigned long long offset;
    const esk_report *of;
    const esk_track *track;
    int number; /* from 1 */
    const esk_observation *o;
    esk_point here; /* where and when it was made */
} row;

/* The row of a report's first observation; the step to the next, which gives whether there is one: absent ones have a
 * number too; and whether this one is present. */
row first_row(const esk_report *of, const esk_track *track);
int next_row(row *r);
int is_present(const row *r);

/* A column's value, as its bytes are written. */
typedef struct cell {
    enum { CELL_MISSING, CELL_NUMBER, CELL_WORD } kind;
    const char *bytes;
    size_t length;
    char own[32]; /* where the bytes are, if they are nowhere else */
} cell;

/* Puts the value of a column into a cell, which must stay where it is. */
void fill_cell(cell *to, const column *c, const row *r);

/* One of an observation's figures, by its number. */
esk_figure get_figure(const esk_observation *o, int number);
void set_figure(esk_observation *o, int number, esk_figure figure);

/* The column of a name, long or brief, or NULL. */
const column *find_column(const char *name, size_t length);

#endif
