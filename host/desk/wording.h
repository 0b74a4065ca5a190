/* wording.h: what a refusal means, in words: for the desk program and for the SQL functions (host/sql). */
#ifndef DESK_WORDING_H
#define DESK_WORDING_H

#include "eskelvor.h"

/* What a text is, for the words about a code and a place. */
typedef enum subject { A_REPORT, A_COMMAND, A_FIELD, A_DESIGNATOR, A_BOARD, A_SETTINGS, A_JOURNAL, A_SHEET } subject;

/* What a code means, of such a text; of the two things that code 8 stands for, the one that it is in this field. */
const char *meaning(subject kind, unsigned code);
const char *meaning_at(subject kind, unsigned code, const char *field);

/* A refusal's words: where it is, and what is at fault where more is known than what the code means; else empty. */
typedef struct wording {
    char field[96], because[160];
} wording;

wording words_of(subject kind, esk_answer a, const uint8_t *text, size_t length);

/* "code 5 at byte 22, section 4, interval: 61 is not 01 to 60", of a text that has `whole` bytes. */
enum { REFUSAL_ROOM = 400 };
void name_refusal(subject kind, esk_answer a, const wording *w, unsigned long long whole, char *to, size_t room);

#endif
