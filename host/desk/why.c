/* eskelvor why: why an aircraft reports or stays silent. */
#include "board.h"
#include "json.h"
#include "reason.h"
#include "tell.h"

#include <stdio.h>
#include <string.h>

/* One line: what is decided, when that is so, and why. */
static void tell_line(const question *q, esk_explained e, const char *when)
{
    char decided[SENTENCE] = "", why[SENTENCE] = "";
    name_decision(q, e, decided, sizeof decided);
    name_reason(q, e, why, sizeof why);
    printf("%s%s: %s\n", decided, when, why);
}

static void json_reason(const question *q, esk_explained e)
{
    char why[SENTENCE] = "";
    name_reason(q, e, why, sizeof why);
    json_word("decision", decision_names[e.decision]);
    json_number("reason", e.reason);
    json_number("number", e.number);
    json_word("why", why);
}

/* What waits for the aircraft on a board, and the answer once it is handed over. */
typedef struct later {
    const char *file, *aircraft; /* NULL: not asked for */
    uint8_t text[ESK_COMMAND_BYTES];
    size_t length; /* 0: nothing waits */
    question q;
    esk_explained e;
} later;

static int is_same(esk_explained one, esk_explained other)
{
    return one.decision == other.decision && one.reason == other.reason && one.number == other.number;
}

static void tell_later(esk_explained now, const later *l)
{
    char when[SENTENCE];
    if (l->length == 0) {
        printf("nothing waits for %s\n", l->aircraft);
        return;
    }
    snprintf(when, sizeof when, " after what waits for %s is handed over", l->aircraft);
    if (is_same(now, l->e))
        printf("no change%s\n", when);
    else
        tell_line(&l->q, l->e, when);
}

static void json_later(esk_explained now, const later *l)
{
    json_word("designator", l->aircraft);
    if (l->length == 0) {
        json_null("waiting_text");
        json_null("after");
        return;
    }
    json_text("waiting_text", l->text, l->length);
    json_object("after");
    json_bool("changed", !is_same(now, l->e));
    json_reason(&l->q, l->e);
    json_close();
}

static void tell_reason(const question *q, esk_explained e, const later *l)
{
    if (!as_json) {
        tell_line(q, e, l->file ? " now" : "");
        if (l->file)
            tell_later(e, l);
        return;
    }
    json_object(NULL);
    json_bool("accepted", 1);
    json_number("code", e.code);
    json_reason(q, e);
    json_question(q);
    if (l->file)
        json_later(e, l);
    json_close();
}

static esk_explained explain(const question *q)
{
    const char *airfield = question_airfield(q);
    return esk_explain(&q->settings, q->phase_number, q->north, q->east, q->hour_number, (const uint8_t *)airfield,
                       strlen(airfield));
}

/* A reader needs no lock, and what it takes from the board that it read still waits in the file. */
static int look_ahead(const question *q, later *l)
{
    static board b;
    int status = board_read(l->file, &b);
    if (status == FINE)
        status = board_waiting(&b, l->aircraft, l->text, &l->length);
    if (status != FINE || l->length == 0)
        return status;
    l->q = *q;
    esk_applied done = esk_apply(&l->q.settings, l->text, l->length);
    l->e = explain(&l->q);
    if (done.code != ESK_ACCEPTED)
        return refuse_plain(l->file, A_SETTINGS, done.code, NULL);
    return l->e.code == ESK_ACCEPTED ? FINE : refuse_question(&l->q, l->e.code);
}

static int run(int count, char **words)
{
    static later l;
    question q;
    const option own[MORE_OPTIONS] = {VALUE_OPTION("--board", NULL, &l.file),
                                      VALUE_OPTION("--aircraft", NULL, &l.aircraft)};
    int status = take_question(count, words, &q, own, MORE_OPTIONS);
    if (status != FINE)
        return status;
    if (!l.file != !l.aircraft)
        return trouble(l.file ? "--board" : "--aircraft", "give --board and --aircraft together");
    esk_explained e = explain(&q);
    if (e.code != ESK_ACCEPTED)
        return refuse_question(&q, e.code);
    if (l.file)
        status = look_ahead(&q, &l);
    if (status == FINE)
        tell_reason(&q, e, &l);
    return status;
}

const subcommand why_subcommand = {
    "why",
    QUESTION_USAGE " [--board FILE --aircraft DESIGNATOR]\n          " QUESTION_COMMANDS,
    "Says why an aircraft reports or stays silent",
    QUESTION_HELP "  --board FILE        a board; says also what is so once the command that waits\n"
                  "  --aircraft NAME     on it for this aircraft is handed over; it still waits\n" QUESTION_NOTE,
    run,
    0,
};
