/* mark.h: bytes shown safely on one line, with a mark under one of them. */
#ifndef DESK_MARK_H
#define DESK_MARK_H

#include <stddef.h>
#include <stdint.h>
#include <stdio.h>

/* Shows the bytes; one that is not printable ASCII as \x and its two hex digits, a backslash as two. Gives how many
 * columns that takes. */
size_t show_bytes(FILE *to, const uint8_t *bytes, size_t length);

/* The same bytes written to `to`, as many as there is room for. Gives the length. */
size_t name_bytes(const uint8_t *bytes, size_t length, char *to, size_t room);

/* The bytes of the UTF-8 letter that begins here; 0 where none does, or where it is a control character. */
size_t letter_length(const uint8_t *bytes, size_t length);

/* A name for a terminal: its UTF-8 letters as they are, any other byte as show_bytes shows it, so that no name can move
 * the cursor. Gives `to`. */
const char *name_safely(const char *name, char *to, size_t room);

/* The part of a text round a place, and a ^ under the byte there. A place behind the last byte is marked behind it. */
void mark_byte(FILE *to, const uint8_t *text, size_t length, size_t place);

#endif
