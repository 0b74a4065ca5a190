#include "json.h"

#include "mark.h"

#include <stdio.h>
#include <string.h>

enum { DEEPEST = 12 };

/* Each thread has its own: a database's threads write documents at once. */
static __thread struct {
    FILE *to; /* NULL: standard output */
    int depth;
    char closer[DEEPEST]; /* of what is open at each depth */
    int filled[DEEPEST];  /* whether it holds something already */
    int line_ended;       /* nothing stands behind the last line end */
    int lines;            /* no document: an object at the top is a line */
} open;

static FILE *to(void)
{
    return open.to != NULL ? open.to : stdout;
}

void json_to(FILE *stream)
{
    open.to = stream;
    open.depth = 0;
    open.lines = stream != NULL;
}

static void quoted_byte(uint8_t byte)
{
    if (byte == '"' || byte == '\\')
        fprintf(to(), "\\%c", byte);
    else if (byte < 0x20 || byte > 0x7e)
        fprintf(to(), "\\u%04x", byte);
    else
        fputc(byte, to());
}

/* Whether a control character begins here that UTF-8 spells in two bytes: its number is the second. */
static int is_wide_control(const uint8_t *bytes, size_t length)
{
    return length > 1 && bytes[0] == 0xc2 && bytes[1] >= 0x80 && bytes[1] < 0xa0;
}

/* A word keeps its UTF-8 letters; of a text every byte must be had back, so that it keeps none but ASCII. */
static void quoted(const void *bytes, size_t length, int is_word)
{
    const uint8_t *at = bytes;
    fputc('"', to());
    for (size_t i = 0; i < length;) {
        size_t letter = is_word ? letter_length(at + i, length - i) : 0;
        if (is_word && is_wide_control(at + i, length - i))
            i++;
        if (letter > 1)
            fwrite(at + i, 1, letter, to());
        else
            quoted_byte(at[i]);
        i += letter > 1 ? letter : 1;
    }
    fputc('"', to());
}

/* The comma that is due, and the key. Each item of the outermost list has a line of its own. */
static void begin(const char *key)
{
    open.line_ended = 0;
    if (open.depth > 0 && open.filled[open.depth - 1]++)
        fputc(',', to());
    if (open.depth == 2 && key == NULL && !open.lines)
        fputc('\n', to());
    if (key != NULL) {
        quoted(key, strlen(key), 1);
        fputc(':', to());
    }
}

static void enter(const char *key, char opener, char closer)
{
    begin(key);
    fputc(opener, to());
    open.closer[open.depth] = closer;
    open.filled[open.depth++] = 0;
}

void json_object(const char *key)
{
    enter(key, '{', '}');
}

void json_list(const char *key)
{
    enter(key, '[', ']');
}

void json_close(void)
{
    fputc(open.closer[--open.depth], to());
}

void json_line(void)
{
    if (!open.line_ended)
        fputc('\n', to());
    open.line_ended = 1;
}

void json_lines(void)
{
    open.lines = 1;
}

void json_text(const char *key, const void *bytes, size_t length)
{
    begin(key);
    quoted(bytes, length, 0);
}

void json_word(const char *key, const char *word)
{
    if (word == NULL)
        json_null(key);
    else {
        begin(key);
        quoted(word, strlen(word), 1);
    }
}

void json_number(const char *key, long long number)
{
    begin(key);
    fprintf(to(), "%lld", number);
}

void json_bool(const char *key, int yes)
{
    begin(key);
    fputs(yes ? "true" : "false", to());
}

void json_null(const char *key)
{
    begin(key);
    fputs("null", to());
}

void json_digits(const char *key, const char *digits, size_t length)
{
    begin(key);
    fwrite(digits, 1, length, to());
}
