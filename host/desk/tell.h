/*
 * tell.h: how the program speaks. For a person, results go to standard output, refusals and troubles to standard
 * error. With --json all of it is one document on standard output: {"subcommand": .., "results": [..], "status": ..}.
 */
#ifndef DESK_TELL_H
#define DESK_TELL_H

#include "desk.h"
#include "wording.h"

extern int as_json;

enum { NAME_ROOM = 4200 }; /* for a name as it is told */

/* Where a text came from. */
typedef struct origin {
    const char *file;          /* NULL: typed on the line; "-": standard input */
    const char *unit;          /* what is counted: "line", "report", "command" */
    unsigned long number;      /* from 1; 0 where nothing is counted */
    unsigned long long offset; /* of its first byte in the file */
} origin;

/* The document's begin, and all that was told up to here handed out: flushed, with the results each on a whole line. The
 * document's own end, with the status told last, is written when the program exits, so that it is the exit status also
 * where something fails after results were handed out. TROUBLE is given where standard output could not be written. */
void tell_begin(const char *subcommand);
int tell_end(int status);

/* Something other than the text is wrong: `about` is a file or a word, NULL for none. Gives TROUBLE. */
int trouble(const char *about, const char *format, ...);

/* The same for a call of the system that failed, with errno's words. */
int failed(const char *about, const char *doing);

/* A text is refused: code, place, what the code means, and the text with a mark. `length` bytes of the text are there,
 * of `whole` that it has. Gives REFUSED. */
int refuse(const origin *from, subject kind, esk_answer answer, const uint8_t *text, size_t length,
           unsigned long long whole);

/* The same with words on what is at fault, in place of what the code means; NULL for none. */
int refuse_because(const origin *from, subject kind, esk_answer answer, const uint8_t *text, size_t length,
                   unsigned long long whole, const char *because);

/* The same where there is no text to show: `what` is a few words on what is at fault, or NULL. */
int refuse_plain(const char *about, subject kind, unsigned code, const char *what);

/* A record is refused by its writer, so that there is a place and no text: `about` names the option or the part of a file
 * that is at fault. */
int refuse_record(const char *about, subject kind, esk_answer answer, const char *field, const char *because);

/* The keys of a result that say where its text came from. */
void json_origin(const origin *from);

/* "night.txt, line 3", fit for a terminal whatever the file's name is */
void name_origin(const origin *from, char *to, size_t room);

#endif
