/* observation.h: observations of a report, shown. */
#ifndef DESK_OBSERVATION_H
#define DESK_OBSERVATION_H

#include "eskelvor.h"

#include <stddef.h>

/* Shows observation `number` (from 1), made where and when `here` says. */
void show_observation(int number, const esk_observation *o, const esk_point *here);

const char *kind_in_words(char kind);

/* A moment of the month in seconds: its day, from 1, and the time of that day, "00:32:55". */
long day_of(int32_t seconds);
void name_time(int32_t seconds, char *to, size_t room);

#endif
