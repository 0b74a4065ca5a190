#include "minutes.h"

#include <stdio.h>
#include <stdlib.h>
#include <string.h>

#define FAR 1e6 /* minutes; no position has as many */

/* A number without a sign, in decimals; gives the byte behind it, or NULL. */
static const char *number_at(const char *at, double *number)
{
    size_t length = strspn(at, "0123456789.");
    char digits[32];
    if (length == 0 || length >= sizeof digits || strcspn(at, ".") == length - 1)
        return NULL;
    memcpy(digits, at, length);
    digits[length] = 0;
    char *end;
    *number = strtod(digits, &end);
    return *end == 0 ? at + length : NULL;
}

/* The size in minutes, and the byte behind it. */
static const char *size_at(const char *at, double *size)
{
    double minutes = 0;
    at = number_at(at, size);
    if (at == NULL)
        return NULL;
    if (*at == 'm' || *at == '\'')
        return at + 1;
    *size *= 60;
    if (*at != ':')
        return at;
    at = number_at(at + 1, &minutes);
    if (at == NULL || minutes >= 60)
        return NULL;
    *size += minutes;
    return at;
}

int minutes_of(const char *word, const char *letters, int32_t *minutes)
{
    double size;
    int sign = *word == '-' || *word == '+', below = *word == '-';
    const char *end = size_at(word + sign, &size);
    if (end == NULL)
        return 0;
    if (*end != 0) {
        const char *letter = strchr(letters, *end);
        if (letter == NULL || sign || end[1] != 0)
            return 0;
        below = letter != letters;
    }
    int32_t whole = (int32_t)((size > FAR ? FAR : size) + 0.5);
    *minutes = below ? -whole : whole;
    return 1;
}

void name_degrees(int32_t minutes, const char *letters, int width, char *to, size_t room)
{
    int below = minutes < 0;
    snprintf(to, room, "%*.4f %c", width, (below ? -minutes : minutes) / 60.0, letters[below]);
}
