/* gust.h: the gust that an aircraft met, worked out from its acceleration. */
#ifndef DESK_GUST_H
#define DESK_GUST_H

#include "tell.h"

enum { GUST_TYPES = 36 };

/* The types of the AAA specification's table, by the numbers of eskelvor.h. */
extern const char *const gust_types[GUST_TYPES];

/* The number of a type, or -1. Letters' case is of no account, and a hyphen and a space are the same. */
int gust_type(const char *name);

/* What esk_gust is asked, as words and as numbers. */
enum { TYPE, HEIGHT, MASS, ACCELERATION, SPEED, GUST_INPUTS };

extern const char *const gust_inputs[GUST_INPUTS]; /* "type", "height" .. */

typedef struct gust_question {
    const char *words[GUST_INPUTS];
    uint32_t row, mass, acceleration, speed;
    int32_t height;
} gust_question;

/* The words as numbers. Gives the input whose word is none, or GUST_INPUTS. A number outside its range stays
 * outside: the proved call refuses it. */
int gust_understand(gust_question *q);

/* What that input should be: "a whole number of feet". */
extern const char *const gust_wants[GUST_INPUTS];

/* The call's answer; and, where it refuses, a few words on what is outside its range. */
esk_gust_answer gust_ask(const gust_question *q);
const char *gust_because(const gust_question *q);

/* "39.6" */
enum { GUST_ROOM = 16 };
void gust_metres(int32_t tenths, char to[GUST_ROOM]);

/* The keys of a result that say what was asked and what was answered. */
void json_gust(const gust_question *q, esk_gust_answer a);

/* A table of comma-separated values: each line of a file with the gust behind it. Gives a status. */
int gust_table(const char *file);

#endif
