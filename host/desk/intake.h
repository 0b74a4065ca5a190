/*
 * intake.h: command texts, typed on the line or read from files.
 *
 * A word that begins with AWR is a command; - is standard input; any other word is a file. In a file each line is one
 * command: the line end, LF or CR LF, is no part of it, the last line may lack it, and empty lines are passed over.
 */
#ifndef DESK_INTAKE_H
#define DESK_INTAKE_H

#include "tell.h"

/* What is kept of a text: more than any command has, so that a longer one is still seen to be too long. */
enum { TEXT_KEPT = 1024 };

typedef struct command_text {
    origin from;
    const uint8_t *bytes;
    size_t length;            /* bytes that are there */
    unsigned long long whole; /* bytes that the text has; more than `length` only in a text that is too long */
} command_text;

/* Does something with a text and gives a status. */
typedef int (*text_taker)(void *with, const command_text *text);

typedef struct intake {
    int typed;      /* --text: every word is a command, whatever it begins with */
    int exact;      /* --exact: all the bytes of a file are one command, line ends too */
    int stop;       /* the first status other than FINE ends it */
    text_taker each;
    void *with;
} intake;

/* Hands on each text of the words, in order; gives the worst status. */
int each_text(intake *in, int count, char **words);

#endif
