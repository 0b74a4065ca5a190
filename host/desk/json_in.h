/*
 * json_in.h: JSON read from a file, value by value, as RFC 8259 has it and nothing else.
 *
 * Nothing is kept of what was read, so that a file of any length takes the same memory. A reader asks for what is due:
 * an object's next key, a list's next item, a string, a number. What is not there, a key that is not known or stands in
 * an object twice, and nesting too deep are told once, with line and column, both from 1; from then on every call gives
 * "no more", and `status` is TROUBLE.
 */
#ifndef DESK_JSON_IN_H
#define DESK_JSON_IN_H

#include <stddef.h>
#include <stdio.h>

enum { JSON_DEEPEST = 16 };

/* A byte's place in the text. */
typedef struct json_place {
    unsigned long line, column;
} json_place;

typedef struct json_in {
    FILE *from;
    const char *name; /* of the file, as it is told */
    int here;         /* the byte that is due, EOF behind the last */
    json_place at;    /* of that byte */
    json_place value; /* where the value or key that was entered or read last begins */
    const char *key;  /* the key whose value is due or was read last; NULL: none */
    char number[24];  /* the number that was read last, as it is written, as much as there is room for */
    int depth;
    int status;
} json_in;

void json_in_begin(json_in *in, FILE *from, const char *name);

/* Whether another value stands at the top, behind any spaces. */
int json_in_more(json_in *in);

/* Whether an object at the top ends there: behind it is another, or nothing. */
int json_in_end(json_in *in);

/* Enters an object or a list; gives whether it is one. */
int json_in_object(json_in *in);
int json_in_list(json_in *in);

/* The next key of an object: its number among the `keys`, which NULL ends, at most 63; -1 where the object ends. `seen`
 * is 0 before the first, and holds the keys that were there, a bit each. */
int json_in_key(json_in *in, const char *const *keys, unsigned long long *seen);

/* Whether another item of a list is due; `items`, 0 before the first, counts them. The list is left where it ends. */
int json_in_item(json_in *in, unsigned long *items);

/* A string: `room` bytes of it at most are put there, and the length is all that it has. What is written \u0000 to
 * \u00ff is one byte, as json.h writes texts; a letter beyond that and not in UTF-8 is a byte 0x1a. */
int json_in_string(json_in *in, char *to, size_t room, size_t *length);

int json_in_bool(json_in *in, int *yes);

/* A number as a count of steps, `places` digits behind the point and `step` of its units to one; one that falls between
 * two steps is wrong. What is far outside any range stays outside. */
int json_in_number(json_in *in, int places, long step, long *number);

/* Whether the value that is due is null, which is then read. */
int json_in_null(json_in *in);

/* Passes over a value of any kind. */
int json_in_skip(json_in *in);

/* Tells that the value or key at a place is wrong, or the one that was entered or read last. Gives 0. */
int json_in_wrong_at(json_in *in, json_place at, const char *format, ...);
#define json_in_wrong(in, ...) json_in_wrong_at(in, (in)->value, __VA_ARGS__)

#endif
