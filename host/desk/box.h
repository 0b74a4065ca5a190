/* box.h: boxes and their edges as they are told and typed. */
#ifndef DESK_BOX_H
#define DESK_BOX_H

#include "eskelvor.h"

/* The spellings of a box. Each that the program prints can be typed back. */
typedef enum box_spelling {
    BOX_TYPED,   /* "60N-40N,10W-5E" */
    BOX_BRIEF,   /* "60N to 40N, 10W to 5E"; "60N to 40N, 170E eastward over the date line to 170W" */
    BOX_IN_WORDS /* "from 60N down to 40N, from 10W east to 5E"; "from 60N down to 40N, from 170E eastward over the date
                    line to 170W" */
} box_spelling;

enum { EDGE_ROOM = 8, BOX_ROOM = 96 };

/* "60N" */
void name_edge(const esk_edge *e, char to[EDGE_ROOM]);
void name_box(const esk_region *r, box_spelling as, char to[BOX_ROOM]);

/* An edge at the start of a text: degrees and one letter. Gives the byte behind it, or NULL. What degrees and letters
 * there may be is not looked at. */
const char *edge_at(const char *at, esk_edge *to);

/* A box in any of the spellings. Gives whether it is one. */
int box_of(const char *word, esk_region *to);

#endif
