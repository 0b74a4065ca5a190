#include "tell.h"

#include "json.h"
#include "mark.h"

#include <errno.h>
#include <stdarg.h>
#include <stdio.h>
#include <stdlib.h>
#include <string.h>

int as_json;

static int document;    /* the document is begun */
static int last_status; /* the one told last */

/* All that was told is out of this program; TROUBLE, told once, where it could not be written. */
static int flush_told(void)
{
    static int told;
    errno = 0;
    if (fflush(stdout) == 0 && !ferror(stdout))
        return FINE;
    if (!told)
        fprintf(stderr, "eskelvor: standard output: cannot write: %s\n", errno ? strerror(errno) : "a write failed");
    told = 1;
    return TROUBLE;
}

/* The document's end is the last thing that the program does: only then is the status certain. */
static void end_document(void)
{
    json_close();
    json_number("status", last_status);
    json_close();
    putchar('\n');
    if (flush_told() != FINE)
        _Exit(TROUBLE);
}

void tell_begin(const char *subcommand)
{
    if (!as_json)
        return;
    document = 1;
    atexit(end_document);
    json_object(NULL);
    json_word("subcommand", subcommand);
    json_list("results");
}

int tell_end(int status)
{
    last_status = status;
    if (document)
        json_line();
    if (flush_told() != FINE)
        last_status = TROUBLE;
    return last_status;
}

int trouble(const char *about, const char *format, ...)
{
    char message[1024];
    va_list values;
    va_start(values, format);
    vsnprintf(message, sizeof message, format, values);
    va_end(values);
    if (document && !ferror(stdout)) {
        json_object(NULL);
        json_word("about", about);
        json_word("error", message);
        json_close();
        return TROUBLE;
    }
    char name[NAME_ROOM];
    fflush(stdout);
    fprintf(stderr, "eskelvor: %s%s%s\n", name_safely(about ? about : "", name, sizeof name), about ? ": " : "",
            message);
    return TROUBLE;
}

int failed(const char *about, const char *doing)
{
    return trouble(about, "cannot %s: %s", doing, strerror(errno));
}

void json_origin(const origin *from)
{
    json_word("file", from->file);
    if (from->number == 0)
        return;
    json_number(from->unit, (long long)from->number);
    if (from->file != NULL)
        json_number("offset", (long long)from->offset);
}

void name_origin(const origin *from, char *to, size_t room)
{
    char shown[NAME_ROOM];
    const char *file = from->file == NULL ? "" : strcmp(from->file, "-") == 0 ? "standard input" : from->file;
    file = name_safely(file, shown, sizeof shown);
    const char *comma = *file ? ", " : "";
    if (from->number == 0)
        snprintf(to, room, "%s", from->file ? file : from->unit);
    else if (strcmp(from->unit, "report") == 0)
        snprintf(to, room, "%s%sreport %lu from byte %llu on", file, comma, from->number, from->offset);
    else
        snprintf(to, room, "%s%s%s %lu", file, comma, from->unit, from->number);
}

static void refuse_as_json(const origin *from, subject kind, esk_answer a, const wording *w, const uint8_t *text,
                           size_t length, unsigned long long whole)
{
    json_object(NULL);
    json_bool("accepted", 0);
    json_origin(from);
    json_number("code", a.code);
    json_number("place", (long long)a.place);
    json_word("meaning", meaning_at(kind, a.code, w->field));
    json_word("field", *w->field ? w->field : NULL);
    json_word("because", *w->because ? w->because : NULL);
    json_number("length", (long long)whole);
    json_text("text", text, length);
    json_close();
}

static void tell_refusal(const origin *from, subject kind, esk_answer a, const wording *w, const uint8_t *text,
                         size_t length, unsigned long long whole)
{
    char name[NAME_ROOM];
    name_origin(from, name, sizeof name);
    fflush(stdout);
    char words[REFUSAL_ROOM];
    name_refusal(kind, a, w, whole, words, sizeof words);
    fprintf(stderr, "eskelvor: %s%srefused: %s\n", name, *name ? ": " : "", words);
    mark_byte(stderr, text, length, a.place);
}

int refuse_because(const origin *from, subject kind, esk_answer a, const uint8_t *text, size_t length,
                   unsigned long long whole, const char *because)
{
    wording w = words_of(kind, a, text, length);
    if (because != NULL)
        snprintf(w.because, sizeof w.because, "%s", because);
    if (as_json)
        refuse_as_json(from, kind, a, &w, text, length, whole);
    else
        tell_refusal(from, kind, a, &w, text, length, whole);
    return REFUSED;
}

int refuse(const origin *from, subject kind, esk_answer a, const uint8_t *text, size_t length, unsigned long long whole)
{
    return refuse_because(from, kind, a, text, length, whole, NULL);
}

int refuse_plain(const char *about, subject kind, unsigned code, const char *what)
{
    if (as_json) {
        json_object(NULL);
        json_bool("accepted", 0);
        json_word("about", about);
        json_number("code", code);
        json_number("place", 0);
        json_word("meaning", meaning(kind, code));
        json_word("because", what);
        json_close();
        return REFUSED;
    }
    char name[NAME_ROOM];
    fflush(stdout);
    fprintf(stderr, "eskelvor: %s%srefused: code %u at byte 0: %s%s%s\n",
            name_safely(about ? about : "", name, sizeof name), about ? ": " : "", code, meaning(kind, code),
            what ? ": " : "", what ? what : "");
    return REFUSED;
}

int refuse_record(const char *about, subject kind, esk_answer a, const char *field, const char *because)
{
    if (as_json) {
        json_object(NULL);
        json_bool("accepted", 0);
        json_word("about", about);
        json_number("code", a.code);
        json_number("place", (long long)a.place);
        json_word("meaning", meaning(kind, a.code));
        json_word("field", *field ? field : NULL);
        json_word("because", *because ? because : NULL);
        json_close();
        return REFUSED;
    }
    char name[NAME_ROOM];
    fflush(stdout);
    fprintf(stderr, "eskelvor: %s: refused: code %u at byte %lu%s%s: %s\n", name_safely(about, name, sizeof name),
            (unsigned)a.code, (unsigned long)a.place, *field ? ", " : "", field,
            *because ? because : meaning(kind, a.code));
    return REFUSED;
}
