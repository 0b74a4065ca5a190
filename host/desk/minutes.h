/* minutes.h: a latitude or longitude as a person writes it. */
#ifndef DESK_MINUTES_H
#define DESK_MINUTES_H

#include <stddef.h>
#include <stdint.h>

/* Minutes from degrees (37.5, 37.5S, 37:30S) or minutes (2250m, 2250mS, 2250'S), with a sign or one of two letters,
 * the first for above zero. Gives 0 where the word is none of these. What is far outside any range stays outside. */
int minutes_of(const char *word, const char *letters, int32_t *minutes);

/* Writes minutes as degrees with four decimals and a letter, in at least `width` columns: "37.4167 S". */
void name_degrees(int32_t minutes, const char *letters, int width, char *to, size_t room);

#endif
