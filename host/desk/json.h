/*
 * json.h: one JSON document on standard output, or on another stream, written as it comes.
 *
 * A key of NULL is for an item of a list. A byte of a text that is not printable ASCII is written as \u00 and its two hex
 * digits, so that any bytes at all make a valid document and can be had back from it. A word, such as a file's name, keeps
 * its UTF-8 letters as they are; its other bytes are written as those of a text.
 */
#ifndef DESK_JSON_H
#define DESK_JSON_H

#include "eskelvor.h"

#include <stdio.h>

/* From here on what this thread writes goes to a stream, on one line, and begins anew; NULL is standard output. */
void json_to(FILE *stream);

void json_object(const char *key);
void json_list(const char *key);
void json_close(void); /* the object or list that was opened last */
void json_line(void);  /* ends the line, where that is not done */

void json_text(const char *key, const void *bytes, size_t length);
void json_word(const char *key, const char *word); /* NULL is written as null */
void json_number(const char *key, long long number);
void json_bool(const char *key, int yes);
void json_null(const char *key);

/* A number whose digits are there. */
void json_digits(const char *key, const char *digits, size_t length);

/* From here on there is no document: each object is a line of its own, ended by json_line. */
void json_lines(void);

#endif
