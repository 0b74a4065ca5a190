/* options.h: the options among a subcommand's words. */
#ifndef DESK_OPTIONS_H
#define DESK_OPTIONS_H

#include <stddef.h>

/* Does something with a value of an option and gives a status. */
typedef int (*value_taker)(void *with, const char *value);

/* An option: one with a value has `value`, or `each` where it may be given several times; one without has `set`. */
typedef struct option {
    const char *name;   /* "--config" */
    const char *brief;  /* a shorter name, "-c", or NULL */
    const char **value; /* where its value is put */
    int *set;           /* or what becomes 1 */
    value_taker each;   /* or what is called with each value, in order */
    void *with;
} option;

#define VALUE_OPTION(name, brief, value) {name, brief, value, NULL, NULL, NULL}
#define SET_OPTION(name, set) {name, NULL, NULL, set, NULL, NULL}
#define EACH_OPTION(name, brief, each, with) {name, brief, NULL, NULL, each, with}

#define OPTIONS(known) (sizeof(known) / sizeof *(known))

/* Takes the options out of the words, which are then the others, in order. A single - and a number below zero are no
 * options, and none stands behind a word --. Gives TROUBLE, and tells it, for an option that is not known or lacks its
 * value. */
int take_options(int *count, char **words, const option *known, size_t options);

/* Where this is 1, take_options writes the names that it knows, each on a line, and gives TROUBLE: so a subcommand's
 * options can be listed by the table that they are read by. */
extern int list_options;

/* A whole number from `least` to `most`, or -1 where the word is none; `most` is at most 1000000. */
long whole_number(const char *word, long least, long most);

#endif
