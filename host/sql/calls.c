#define _POSIX_C_SOURCE 200809L
#include "calls.h"

#include "../desk/json.h"
#include "../desk/reason.h"
#include "../desk/report_json.h"
#include "../desk/wording.h"

#include <stdarg.h>
#include <stdio.h>
#include <string.h>

/* ---- answers ------------------------------------------------------------------------------------------------------ */

static void give_number(sql_answer *to, sql_kind kind, int number)
{
    to->kind = kind;
    to->number = number;
}

static void give_text(sql_answer *to, const void *bytes, size_t length)
{
    to->kind = GIVES_TEXT;
    to->length = length;
    memmove(to->text, bytes, length);
    to->text[length] = 0;
}

static void say(sql_answer *to, sql_kind kind, const char *format, ...)
{
    va_list values;
    va_start(values, format);
    int length = vsnprintf(to->text, sizeof to->text, format, values);
    va_end(values);
    to->kind = kind;
    to->length = (size_t)length < sizeof to->text ? (size_t)length : sizeof to->text - 1;
}

/* Text 1 or 2 of two, or 0 where there is one, is refused. */
static void refuse_text(sql_answer *to, subject kind, esk_answer a, int which, const sql_value *text)
{
    char words[REFUSAL_ROOM], one[24] = "";
    wording w = words_of(kind, a, text->bytes, text->length);
    name_refusal(kind, a, &w, text->length, words, sizeof words);
    if (which > 0)
        snprintf(one, sizeof one, "text %d ", which);
    say(to, REFUSES, "%srefused: %s", one, words);
}

/* Whose refusal it is, before its words. */
static void name_function(const char *name, sql_answer *to)
{
    size_t before = strlen(name) + 2; /* far below what a refusal leaves of the room */
    memmove(to->text + before, to->text, to->length + 1);
    memcpy(to->text, name, before - 2);
    memcpy(to->text + before - 2, ": ", 2);
    to->length += before;
}

static esk_answer answer_at(uint8_t code, size_t place)
{
    esk_answer a = {place, 0, code, 0, {0, 0}};
    return a;
}

/* The refusal in words, or NULL for an accepted text. */
static void give_refusal(sql_answer *to, subject kind, esk_answer a, const sql_value *text)
{
    to->kind = GIVES_NULL;
    if (a.code == ESK_ACCEPTED)
        return;
    wording w = words_of(kind, a, text->bytes, text->length);
    name_refusal(kind, a, &w, text->length, to->text, sizeof to->text);
    to->kind = GIVES_TEXT;
    to->length = strlen(to->text);
}

/* ---- commands ------------------------------------------------------------------------------------------------------ */

static esk_answer check_command(const sql_value *text)
{
    return esk_command_check(text->bytes, text->length);
}

static void version(const sql_value *given, sql_answer *to)
{
    (void)given;
    give_text(to, esk_version(), strlen(esk_version()));
}

static void check(const sql_value *given, sql_answer *to)
{
    give_number(to, GIVES_NUMBER, check_command(given).code);
}

static void refusal(const sql_value *given, sql_answer *to)
{
    give_refusal(to, A_COMMAND, check_command(given), given);
}

/* For a table's CHECK: a constraint that failed says its name alone, this says why. */
static void accepted(const sql_value *given, sql_answer *to)
{
    esk_answer a = check_command(given);
    give_number(to, GIVES_YES_OR_NO, 1);
    if (a.code != ESK_ACCEPTED)
        refuse_text(to, A_COMMAND, a, 0, given);
}

/* A taking from a board without slots answers 4 before it looks whether anything waits. */
static void designator(const sql_value *given, sql_answer *to)
{
    esk_answer a = esk_board_take(NULL, 0, NULL, 0, given->bytes, given->length, NULL, 0);
    give_number(to, GIVES_YES_OR_NO, 1);
    if (a.code == ESK_BYTE)
        refuse_text(to, A_DESIGNATOR, a, 0, given);
}

static void join(const sql_value *given, sql_answer *to)
{
    esk_answer a = esk_join(given[0].bytes, given[0].length, given[1].bytes, given[1].length, (uint8_t *)to->text,
                            ESK_COMMAND_BYTES);
    to->kind = GIVES_TEXT;
    to->length = a.length;
    to->text[a.length] = 0;
    if (a.code != ESK_ACCEPTED)
        refuse_text(to, A_COMMAND, a, a.text, &given[a.text == 2]);
}

int sql_join_next(uint8_t joined[ESK_COMMAND_BYTES], size_t *length, const sql_value *next, sql_answer *to)
{
    uint8_t both[ESK_COMMAND_BYTES];
    esk_answer a = *length == 0 ? check_command(next)
                                : esk_join(joined, *length, next->bytes, next->length, both, sizeof both);
    if (a.code != ESK_ACCEPTED) {
        refuse_text(to, A_COMMAND, a, 0, next);
        name_function("eskelvor_joined", to);
        return 0;
    }
    memcpy(joined, *length == 0 ? next->bytes : both, *length == 0 ? next->length : a.length);
    *length = *length == 0 ? next->length : a.length;
    return 1;
}

static void commute(const sql_value *given, sql_answer *to)
{
    esk_commute_answer a = esk_commute(given[0].bytes, given[0].length, given[1].bytes, given[1].length);
    give_number(to, GIVES_YES_OR_NO, a.yes);
    if (a.code != ESK_ACCEPTED)
        refuse_text(to, A_COMMAND, answer_at(a.code, a.place), a.text, &given[a.text == 2]);
}

static void section(const sql_value *given, sql_answer *to)
{
    int64_t number = given[1].number;
    esk_part part = esk_section(number < 0 || number > 9 ? 0 : (uint32_t)number, given->bytes, given->length);
    to->kind = GIVES_NULL;
    if (part.code == ESK_RANGE && part.place == 0)
        say(to, REFUSES, "refused: code %d at byte 0: %s: sections are 2 to 9", part.code, esk_words(part.code));
    else if (part.code != ESK_ACCEPTED)
        refuse_text(to, A_COMMAND, answer_at(part.code, part.place), 0, given);
    else if (part.length > 0)
        give_text(to, esk_part_of(given->bytes, part), part.length);
}

/* ---- configurations ------------------------------------------------------------------------------------------------ */

/*
 * A configuration is held as a command: the one that sets every flag and names every section, so that it can be read, is
 * checked by the same call, and is the same bytes for the same configuration. Any accepted command stands for what an
 * aircraft has that applied it after reset.
 */
static int read_settings(const sql_value *text, int which, esk_settings *settings, sql_answer *to)
{
    *settings = esk_reset();
    esk_applied done = esk_apply(settings, text->bytes, text->length);
    if (done.code != ESK_ACCEPTED)
        refuse_text(to, A_COMMAND, answer_at(done.code, done.place), which, text);
    return done.code == ESK_ACCEPTED;
}

static void give_settings(const esk_settings *settings, sql_answer *to)
{
    esk_command all = {*settings, 0, {2, 3, 4, 5, 6, 7, 8, 9}, 0};
    esk_answer a = esk_command_write(&all, (uint8_t *)to->text, ESK_COMMAND_BYTES);
    to->kind = GIVES_TEXT;
    to->length = a.length;
    to->text[a.length] = 0;
}

static void reset(const sql_value *given, sql_answer *to)
{
    (void)given;
    esk_settings settings = esk_reset();
    give_settings(&settings, to);
}

static void apply(const sql_value *given, sql_answer *to)
{
    esk_settings settings;
    if (!read_settings(&given[0], 1, &settings, to))
        return;
    esk_applied done = esk_apply(&settings, given[1].bytes, given[1].length);
    if (done.code != ESK_ACCEPTED)
        refuse_text(to, A_COMMAND, answer_at(done.code, done.place), 2, &given[1]);
    else
        give_settings(&settings, to);
}

static void difference(const sql_value *given, sql_answer *to)
{
    esk_settings first, second;
    if (!read_settings(&given[0], 1, &first, to) || !read_settings(&given[1], 2, &second, to))
        return;
    esk_differing d = esk_difference(&first, &second, (uint8_t *)to->text, ESK_COMMAND_BYTES);
    to->kind = GIVES_TEXT;
    to->length = d.answer.length;
    to->text[d.answer.length] = 0;
}

/* A number outside what the proved call can be handed becomes one that it refuses. */
static int32_t minutes_of_number(int64_t number)
{
    return number < INT32_MIN ? INT32_MIN : number > INT32_MAX ? INT32_MAX : (int32_t)number;
}

/* A text as a word of C, empty where it is longer than the room or holds a NUL: no phase or airfield does. */
static const char *word_of(const sql_value *text, char *to, size_t room)
{
    size_t length = text->length < room && memchr(text->bytes, 0, text->length) == NULL ? text->length : 0;
    memcpy(to, text->bytes, length);
    to[length] = 0;
    return to;
}

/* Configuration, phase, latitude and longitude in minutes, hour, airfield. */
static void why(const sql_value *given, sql_answer *to)
{
    char phase[16], airfield[8], decided[SENTENCE] = "", because[SENTENCE] = "";
    question q = {0};
    if (!read_settings(&given[0], 1, &q.settings, to))
        return;
    q.phase = word_of(&given[1], phase, sizeof phase);
    q.airfield = word_of(&given[5], airfield, sizeof airfield);
    int number = phase_of(q.phase);
    if (number < 0) {
        say(to, REFUSES, "refused: code %d at byte 0: the phase is ascent, level or descent", ESK_RANGE);
        return;
    }
    q.phase_number = (uint8_t)number;
    q.north = minutes_of_number(given[2].number);
    q.east = minutes_of_number(given[3].number);
    q.hour_number = given[4].number < 0 || given[4].number > 23 ? UINT8_MAX : (uint8_t)given[4].number;
    esk_explained e = esk_explain(&q.settings, q.phase_number, q.north, q.east, q.hour_number, given[5].bytes,
                                  given[5].length);
    if (e.code != ESK_ACCEPTED) {
        const char *fault = question_fault(&q, e.code);
        say(to, REFUSES, "refused: code %d at byte 0: %s", e.code, fault ? fault : esk_words(e.code));
        return;
    }
    name_decision(&q, e, decided, sizeof decided);
    name_reason(&q, e, because, sizeof because);
    say(to, GIVES_TEXT, "%s: %s", decided, because);
}

/* ---- reports ------------------------------------------------------------------------------------------------------- */

static void report_check(const sql_value *given, sql_answer *to)
{
    give_number(to, GIVES_NUMBER, esk_report_check(given->bytes, given->length).code);
}

static void report_refusal(const sql_value *given, sql_answer *to)
{
    give_refusal(to, A_REPORT, esk_report_check(given->bytes, given->length), given);
}

/* A report as one JSON object, whose keys are written by `keys`. */
static void give_report(const sql_value *text, void (*keys)(row), sql_answer *to)
{
    esk_report_got got = esk_report_read(text->bytes, text->length);
    if (got.answer.code != ESK_ACCEPTED) {
        refuse_text(to, A_REPORT, got.answer, 0, text);
        return;
    }
    esk_track track = esk_report_track(text->bytes, text->length);
    FILE *stream = fmemopen(to->text, sizeof to->text, "w");
    if (stream == NULL) {
        say(to, REFUSES, "no memory for a report's JSON");
        return;
    }
    json_to(stream);
    json_object(NULL);
    keys(first_row(&got.report, &track));
    json_close();
    json_to(NULL);
    long length = ftell(stream);
    if (fclose(stream) != 0 || length < 0 || length >= SQL_ROOM) {
        say(to, REFUSES, "no room for a report's JSON");
        return;
    }
    to->kind = GIVES_TEXT;
    to->length = (size_t)length;
}

static void report(const sql_value *given, sql_answer *to)
{
    give_report(given, json_report_keys, to);
}

static void report_track(const sql_value *given, sql_answer *to)
{
    give_report(given, json_track_keys, to);
}

/* ---- by name ------------------------------------------------------------------------------------------------------- */

const sql_call sql_calls[] = {
    {"eskelvor_version", "", version},
    {"eskelvor_check", "t", check},
    {"eskelvor_refusal", "t", refusal},
    {"eskelvor_accepted", "t", accepted},
    {"eskelvor_designator", "t", designator},
    {"eskelvor_join", "tt", join},
    {"eskelvor_commute", "tt", commute},
    {"eskelvor_section", "tn", section},
    {"eskelvor_reset", "", reset},
    {"eskelvor_apply", "tt", apply},
    {"eskelvor_difference", "tt", difference},
    {"eskelvor_why", "ttnnnt", why},
    {"eskelvor_report_check", "t", report_check},
    {"eskelvor_report_refusal", "t", report_refusal},
    {"eskelvor_report", "t", report},
    {"eskelvor_track", "t", report_track},
};

const int sql_calls_count = sizeof sql_calls / sizeof *sql_calls;

const sql_call *sql_find(const char *name)
{
    for (int i = 0; i < sql_calls_count; i++)
        if (strcmp(sql_calls[i].name, name) == 0)
            return &sql_calls[i];
    return NULL;
}

void sql_run(const sql_call *call, const sql_value *given, sql_answer *to)
{
    call->run(given, to);
    if (to->kind == REFUSES)
        name_function(call->name, to);
}
