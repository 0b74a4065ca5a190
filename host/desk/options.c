#include "options.h"

#include "tell.h"

#include <stdio.h>
#include <string.h>

int list_options;

static int is_option(const char *word)
{
    if (word[0] != '-' || word[1] == 0)
        return 0;
    return !((word[1] >= '0' && word[1] <= '9') || word[1] == '.');
}

/* The length of an option's name in a word, which may go on with = and a value. */
static size_t name_length(const char *word)
{
    return word[1] == '-' ? strcspn(word, "=") : strlen(word);
}

static int is_name(const char *name, const char *word, size_t length)
{
    return name != NULL && strlen(name) == length && memcmp(name, word, length) == 0;
}

static const option *find(const char *word, const option *known, size_t options)
{
    size_t length = name_length(word);
    for (size_t i = 0; i < options; i++)
        if (is_name(known[i].name, word, length) || is_name(known[i].brief, word, length))
            return &known[i];
    return NULL;
}

/* Hands a value to its option; gives whether that takes it. */
static int hand_value(const option *o, const char *value)
{
    if (o->value != NULL)
        *o->value = value;
    return o->each == NULL || o->each(o->with, value) == FINE;
}

/* Takes one option, whose value may be the next word. Gives how many words it has, or 0 where it is wrong. */
static int take_one(char **words, int left, const option *known, size_t options)
{
    const char *word = words[0];
    const option *o = find(word, known, options);
    size_t length = name_length(word);
    if (o == NULL) {
        trouble(word, "no such option here; --help tells which there are");
        return 0;
    }
    if (o->set != NULL && word[length] == 0) {
        *o->set = 1;
        return 1;
    }
    if (o->set == NULL && word[length] == '=')
        return hand_value(o, word + length + 1) ? 1 : 0;
    if (o->set == NULL && left > 1)
        return hand_value(o, words[1]) ? 2 : 0;
    trouble(word, o->set ? "this option takes no value" : "this option needs a value");
    return 0;
}

static int write_names(const option *known, size_t options)
{
    for (size_t i = 0; i < options; i++) {
        puts(known[i].name);
        if (known[i].brief != NULL)
            puts(known[i].brief);
    }
    return TROUBLE;
}

int take_options(int *count, char **words, const option *known, size_t options)
{
    int kept = 0, plain = 0;
    if (list_options)
        return write_names(known, options);
    for (int i = 0; i < *count;) {
        if (!plain && strcmp(words[i], "--") == 0) {
            plain = 1;
            i++;
        } else if (plain || !is_option(words[i])) {
            words[kept++] = words[i++];
        } else {
            int taken = take_one(words + i, *count - i, known, options);
            if (taken == 0)
                return TROUBLE;
            i += taken;
        }
    }
    *count = kept;
    return FINE;
}

long whole_number(const char *word, long least, long most)
{
    long number = 0;
    if (*word == 0)
        return -1;
    for (; *word; word++) {
        if (*word < '0' || *word > '9' || number > most)
            return -1;
        number = 10 * number + (*word - '0');
    }
    return number < least || number > most ? -1 : number;
}
