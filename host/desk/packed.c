/* eskelvor packed: one packed figure, read or written. */
#include "json.h"
#include "options.h"
#include "tell.h"

#include <errno.h>
#include <stdio.h>
#include <stdlib.h>
#include <string.h>

static void tell_figure(const char *field, size_t length, esk_figure figure)
{
    if (!as_json && figure.given)
        printf("%ld\n", (long)figure.number);
    else if (!as_json)
        puts("missing");
    if (!as_json)
        return;
    json_object(NULL);
    json_bool("accepted", 1);
    json_number("code", ESK_ACCEPTED);
    json_text("text", field, length);
    if (figure.given)
        json_number("number", figure.number);
    else
        json_null("number");
    json_close();
}

static int read_field(const char *field)
{
    size_t length = strlen(field);
    origin from = {NULL, "field", 0, 0};
    esk_packed p = esk_packed_read((const uint8_t *)field, length);
    esk_answer a = {p.place, 0, p.code, 0, {0, 0}};
    esk_figure figure = {p.number, p.given};
    if (p.code != ESK_ACCEPTED)
        return refuse(&from, A_FIELD, a, (const uint8_t *)field, length, length);
    tell_figure(field, length, figure);
    return FINE;
}

static int read_fields(int count, char **words)
{
    int status = FINE;
    if (count == 0)
        return trouble("read", "give a field of 1 to 5 bytes, in quotes where it begins with a space");
    for (int i = 0; i < count; i++)
        status = worse(status, read_field(words[i]));
    return status;
}

/* A figure, or `missing`. One that no width holds stays one. */
static int figure_of(const char *word, esk_figure *figure)
{
    char *end;
    figure->given = strcmp(word, "missing") != 0;
    figure->number = 0;
    if (!figure->given)
        return 1;
    errno = 0;
    long number = strtol(word, &end, 10);
    if (end == word || *end != 0 || word[0] == ' ')
        return 0;
    figure->number = number > INT32_MAX ? INT32_MAX : number < INT32_MIN ? INT32_MIN : (int32_t)number;
    return 1;
}

static int write_field(int count, char **words)
{
    esk_figure figure;
    uint8_t out[5];
    long width = count == 2 ? whole_number(words[1], 0, 1000000) : -1;
    if (width < 0 || !figure_of(words[0], &figure))
        return trouble("write", "give a whole number or the word missing, and a width");
    esk_answer a = esk_packed_write(figure, (size_t)width, out, sizeof out);
    if (a.code != ESK_ACCEPTED)
        return refuse_plain(words[0], A_FIELD, a.code, NULL);
    if (as_json)
        tell_figure((const char *)out, a.length, figure);
    else
        printf("%.*s\n", (int)a.length, (const char *)out);
    return FINE;
}

static int run(int count, char **words)
{
    if (take_options(&count, words, NULL, 0) != FINE)
        return TROUBLE;
    if (count > 0 && strcmp(words[0], "read") == 0)
        return read_fields(count - 1, words + 1);
    if (count > 0 && strcmp(words[0], "write") == 0)
        return write_field(count - 1, words + 1);
    return trouble(NULL, "packed read FIELD.. or packed write NUMBER WIDTH; --help tells more");
}

const subcommand packed_subcommand = {
    "packed",
    "read FIELD.. | write NUMBER WIDTH",
    "Reads packed figures, and writes them",
    "  read         fields of 1 to 5 bytes, in quotes where they begin with a space;\n"
    "               solidi are a missing figure; the mark stands under the first byte\n"
    "               with which no figure could go on\n"
    "  write        a whole number, or the word missing, in WIDTH bytes\n",
    run,
    0,
};
