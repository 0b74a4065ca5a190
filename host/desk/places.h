/* places.h: which field a place of a text stands in, in words. */
#ifndef DESK_PLACES_H
#define DESK_PLACES_H

#include "wording.h"

#define BEHIND_THE_LAST "behind the last delimiter" /* the name of a place where no field is */

/* Writes the field's name, or nothing where the place is in none. */
void name_place(subject kind, const uint8_t *text, size_t length, size_t place, char *to, size_t room);

/* Of a figure that is refused for its bytes or its range: what stands there, and what may; of a packed one that is none,
 * why its byte at the place is not allowed. The verdict is the answer's; nothing is written where the layout has no range
 * for the place. */
void word_figure(subject kind, const uint8_t *text, size_t length, esk_answer a, char *to, size_t room);

/* Where a record of a command was refused: the place that its text would have. */
typedef struct record_place {
    char name[96];
    int section;       /* 0 the head */
    size_t offset;     /* of its figure: in its section, behind any lists, or in its item */
    const char *list;  /* the list that it stands in, or counts; NULL: none */
    size_t item;       /* from 1; 0 is the list's count */
    const char *range; /* what may stand there, in the text's own figures; NULL where there is none */
} record_place;

void find_record_place(const esk_command *c, size_t place, record_place *to);

/* Of a place of a report: the number of its observation, from 1, 0 in the head; the number of its field there, from 0;
 * and what may stand there, NULL for no range. */
const char *find_report_field(size_t place, size_t *observation, size_t *number);

/* Where the field of a report ends that begins at a place, or the later observation that does. */
size_t report_field_end(size_t place, int whole_observation);

#endif
