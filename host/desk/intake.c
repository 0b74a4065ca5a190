#include "intake.h"

#include "progress.h"

#include <stdio.h>
#include <string.h>

/* A text as it is read, byte by byte. */
typedef struct line {
    uint8_t bytes[TEXT_KEPT];
    unsigned long long whole; /* bytes seen */
    unsigned long number;     /* of the line, from 1 */
    unsigned long texts;      /* handed on so far */
} line;

static int hand_on(intake *in, const char *file, line *l, unsigned long long end)
{
    command_text text = {{file, "line", in->exact ? 0 : l->number, end - l->whole}, l->bytes, 0, l->whole};
    text.length = l->whole < TEXT_KEPT ? (size_t)l->whole : TEXT_KEPT;
    l->texts++;
    return in->each(in->with, &text);
}

/* A line is complete: `end` is the offset behind its last byte. A CR before its LF is no part of it. */
static int end_line(intake *in, const char *file, line *l, unsigned long long end, int with_lf)
{
    int status = FINE;
    if (with_lf && l->whole > 0 && l->whole <= TEXT_KEPT && l->bytes[l->whole - 1] == '\r') {
        l->whole--;
        end--;
    }
    if (l->whole > 0)
        status = hand_on(in, file, l, end);
    l->whole = 0;
    l->number++;
    return status;
}

static int read_lines(intake *in, const char *file, FILE *from, line *l)
{
    int status = FINE, byte;
    unsigned long long at = 0;
    while ((byte = getc(from)) != EOF && !(in->stop && status)) {
        if (byte == '\n' && !in->exact) {
            status = worse(status, end_line(in, file, l, at, 1));
            progress("lines", l->number, at);
        } else {
            if (l->whole < TEXT_KEPT)
                l->bytes[l->whole] = (uint8_t)byte;
            l->whole++;
        }
        at++;
    }
    if (ferror(from) || (in->stop && status))
        return status;
    if (in->exact)
        return worse(status, hand_on(in, file, l, at));
    return worse(status, end_line(in, file, l, at, 0));
}

static int read_file(intake *in, const char *word)
{
    int is_stdin = strcmp(word, "-") == 0;
    const char *name = is_stdin ? "standard input" : word;
    FILE *from = is_stdin ? stdin : fopen(word, "rb");
    line l = {.number = 1};
    if (from == NULL) {
        failed(name, "open");
        if (!as_json)
            fputs("  (a command begins with AWR; any other word is a file, unless --text is given)\n", stderr);
        return TROUBLE;
    }
    int status = read_lines(in, word, from, &l);
    progress_done();
    if (ferror(from))
        status = failed(name, "read");
    else if (l.texts == 0)
        status = trouble(name, "empty: there is no command in it");
    if (!is_stdin)
        fclose(from);
    return status;
}

static int take_typed(intake *in, const char *word, unsigned long number)
{
    size_t length = strlen(word);
    command_text text = {{NULL, "command", number, 0}, (const uint8_t *)word, length, length};
    return in->each(in->with, &text);
}

int each_text(intake *in, int count, char **words)
{
    int status = FINE;
    for (int i = 0; i < count && !(in->stop && status); i++)
        if (in->typed || strncmp(words[i], "AWR", 3) == 0)
            status = worse(status, take_typed(in, words[i], (unsigned long)i + 1));
        else
            status = worse(status, read_file(in, words[i]));
    return status;
}
