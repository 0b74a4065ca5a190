/* A table of gusts: each line of comma-separated values with the gust behind it. */
#include "gust.h"

#include "json.h"

#include <stdio.h>
#include <string.h>

enum { LINE = 4096, CELLS = 64 };

/* A line as it was read, without its end. */
typedef struct line {
    char bytes[LINE];
    size_t length; /* seen, more than are there in a line that is too long */
    unsigned long number;
} line;

/* A line's cells: `copy` holds them one by one, with their ends. */
typedef struct cells {
    char copy[LINE];
    const char *cell[CELLS];
    int count;
} cells;

/* The file's columns: at which place of a line each input stands. */
typedef struct columns {
    int at[GUST_INPUTS];
    int count;
} columns;

/* The next line; gives whether there was one. A CR before the LF is no part of it. */
static int next_line(FILE *from, line *l)
{
    int byte;
    l->length = 0;
    l->number++;
    while ((byte = getc(from)) != EOF && byte != '\n') {
        if (l->length < LINE - 1)
            l->bytes[l->length] = (char)byte;
        l->length++;
    }
    if (l->length > 0 && l->length < LINE && l->bytes[l->length - 1] == '\r')
        l->length--;
    l->bytes[l->length < LINE ? l->length : LINE - 1] = 0;
    return byte != EOF || l->length > 0;
}

/* Parts a line at its commas; a cell may be in double quotes, where two stand for one. Gives what is wrong, or NULL. */
static const char *part(const line *l, cells *c)
{
    const char *from = l->bytes;
    char *to = c->copy;
    c->count = 0;
    if (l->length >= LINE)
        return "a line of more than 4095 bytes";
    if (strlen(l->bytes) != l->length)
        return "a byte 0";
    for (;;) {
        if (c->count == CELLS)
            return "more than 64 values";
        c->cell[c->count++] = to;
        int quoted = *from == '"';
        from += quoted;
        while (*from && (quoted || *from != ',')) {
            if (quoted && *from == '"' && *++from != '"')
                break;
            *to++ = *from++;
        }
        if (quoted && from[-1] != '"')
            return "a quote that is not closed";
        *to++ = 0;
        if (*from == 0)
            return NULL;
        if (*from != ',')
            return "bytes behind a closing quote";
        from++;
    }
}

/* A line that is refused, with its code, or that is not understood, with code 0. */
static int tell_line(const char *file, unsigned long number, unsigned code, const char *what)
{
    char about[NAME_ROOM];
    origin from = {file, "line", number, 0};
    if (as_json) {
        json_object(NULL);
        json_bool("accepted", 0);
        json_word("file", file);
        json_number("line", (long long)number);
        if (code != ESK_ACCEPTED)
            json_number("code", code);
        else
            json_null("code");
        json_word("because", what);
        json_close();
        return REFUSED;
    }
    name_origin(&from, about, sizeof about);
    fflush(stdout);
    if (code != ESK_ACCEPTED)
        fprintf(stderr, "eskelvor: %s: refused: code %u: %s\n", about, code, what);
    else
        fprintf(stderr, "eskelvor: %s: not understood: %s\n", about, what);
    return REFUSED;
}

/* The line of names. */
static int take_names(const char *file, const line *l, columns *k)
{
    static cells c;
    const char *wrong = part(l, &c);
    if (wrong != NULL)
        return trouble(file, "its first line, which names the columns: %s", wrong);
    k->count = c.count;
    for (int i = 0; i < GUST_INPUTS; i++) {
        k->at[i] = -1;
        for (int j = 0; j < c.count; j++)
            if (strcmp(c.cell[j], gust_inputs[i]) == 0 && k->at[i] >= 0)
                return trouble(file, "its first line names the column %s twice", gust_inputs[i]);
            else if (strcmp(c.cell[j], gust_inputs[i]) == 0)
                k->at[i] = j;
        if (k->at[i] < 0)
            return trouble(file, "its first line names no column %s", gust_inputs[i]);
    }
    return FINE;
}

/* A line of values: what is asked, and the answer. */
static int take_values(const char *file, const line *l, const columns *k, gust_question *q, esk_gust_answer *a)
{
    static cells c;
    const char *wrong = part(l, &c);
    if (wrong == NULL && c.count != k->count)
        wrong = "not as many values as the first line has names";
    if (wrong != NULL)
        return tell_line(file, l->number, ESK_ACCEPTED, wrong);
    for (int i = 0; i < GUST_INPUTS; i++)
        q->words[i] = c.cell[k->at[i]];
    int slip = gust_understand(q);
    if (slip != GUST_INPUTS) {
        char what[96];
        snprintf(what, sizeof what, "%s: %s", gust_inputs[slip], gust_wants[slip]);
        return tell_line(file, l->number, ESK_ACCEPTED, what);
    }
    *a = gust_ask(q);
    return a->code == ESK_ACCEPTED ? FINE : tell_line(file, l->number, a->code, gust_because(q));
}

/* The line with the gust behind it, or nothing there where it is refused. One that is not understood is left out. */
static void tell_values(const char *file, const line *l, int status, const gust_question *q, esk_gust_answer a)
{
    char metres[GUST_ROOM] = "";
    if (status == FINE)
        gust_metres(a.gust, metres);
    if (!as_json && (status == FINE || a.code != ESK_ACCEPTED))
        printf("%s,%s\n", l->bytes, metres);
    if (as_json && status == FINE) {
        json_object(NULL);
        json_bool("accepted", 1);
        json_word("file", file);
        json_number("line", (long long)l->number);
        json_number("code", a.code);
        json_gust(q, a);
        json_close();
    }
}

static int read_table(const char *file, FILE *from)
{
    static line l;
    columns k = {{0, 0, 0, 0, 0}, 0};
    if (!next_line(from, &l))
        return ferror(from) ? FINE : trouble(file, "empty: its first line names the columns");
    int status = take_names(file, &l, &k);
    if (status != FINE)
        return status;
    if (!as_json)
        printf("%s,gust_metres_per_second\n", l.bytes);
    while (next_line(from, &l)) {
        gust_question q;
        esk_gust_answer a = {0, 0, {0, 0, 0}};
        if (l.length == 0)
            continue; /* an empty line */
        int one = take_values(file, &l, &k, &q, &a);
        tell_values(file, &l, one, &q, a);
        status = worse(status, one);
    }
    return status;
}

int gust_table(const char *file)
{
    int is_stdin = strcmp(file, "-") == 0;
    const char *name = is_stdin ? "standard input" : file;
    FILE *from = is_stdin ? stdin : fopen(file, "rb");
    if (from == NULL)
        return failed(name, "open");
    int status = read_table(name, from);
    if (ferror(from))
        status = failed(name, "read");
    if (!is_stdin)
        fclose(from);
    return status;
}
