/* eskelvor check and eskelvor explain: commands, one by one. */
#include "command_names.h"
#include "intake.h"
#include "json.h"
#include "options.h"
#include "settings.h"

#include <stdio.h>

static int refuse_text(const command_text *t, esk_answer a)
{
    return refuse(&t->from, A_COMMAND, a, t->bytes, t->length, t->whole);
}

static void json_accepted(const command_text *t)
{
    json_object(NULL);
    json_bool("accepted", 1);
    json_origin(&t->from);
    json_number("code", ESK_ACCEPTED);
    json_number("length", (long long)t->length);
    json_text("text", t->bytes, t->length);
}

static int check_one(void *with, const command_text *t)
{
    esk_answer a = esk_command_check(t->bytes, t->length);
    char name[1200];
    (void)with;
    if (a.code != ESK_ACCEPTED)
        return refuse_text(t, a);
    if (as_json) {
        json_accepted(t);
        json_close();
        return FINE;
    }
    name_origin(&t->from, name, sizeof name);
    printf("%s: accepted, %lu bytes\n", name, (unsigned long)t->length);
    return FINE;
}

/* What explain is told, and how many commands it has told of. */
typedef struct explaining {
    int options;
    unsigned long told;
} explaining;

static int explain_one(void *with, const command_text *t)
{
    explaining *e = with;
    esk_command_got got = esk_command_read(t->bytes, t->length);
    if (got.answer.code != ESK_ACCEPTED)
        return refuse_text(t, got.answer);
    if (as_json) {
        json_accepted(t);
        json_command(&got.command);
        json_close();
        return FINE;
    }
    if (e->options) {
        write_options(&got.command);
        return FINE;
    }
    printf("%s%.*s\n", e->told++ ? "\n" : "", (int)t->length, (const char *)t->bytes);
    say_command(&got.command);
    return FINE;
}

static int run(intake *in, int status, int count, char **words)
{
    if (status == FINE && count == 0)
        status = trouble(NULL, "no command; --help tells what to give");
    return status == FINE ? each_text(in, count, words) : status;
}

static int run_check(int count, char **words)
{
    intake in = {0, 0, 0, check_one, NULL};
    const option known[] = {SET_OPTION("--text", &in.typed), SET_OPTION("--exact", &in.exact)};
    int status = take_options(&count, words, known, OPTIONS(known));
    return run(&in, status, count, words);
}

static int run_explain(int count, char **words)
{
    explaining e = {0, 0};
    intake in = {0, 0, 0, explain_one, &e};
    const option known[] = {SET_OPTION("--text", &in.typed), SET_OPTION("--exact", &in.exact),
                            SET_OPTION("--options", &e.options)};
    int status = take_options(&count, words, known, OPTIONS(known));
    if (status == FINE && e.options && as_json)
        status = trouble("--options", "does not go with --json");
    return run(&in, status, count, words);
}

#define WORDS                                                                 \
    "  COMMAND      a word that begins with AWR\n"                            \
    "  FILE         any other word: a file with a command on each line; - is\n" \
    "               standard input\n"                                         \
    "  --text       every word is a command, whatever it begins with\n"       \
    "  --exact      all the bytes of a file are one command, line ends too\n" \
    "\n"                                                                      \
    "A line's end, LF or CR LF, is no part of the command; empty lines are passed\n" \
    "over.\n"

const subcommand check_subcommand = {
    "check", "[--text | --exact] COMMAND | FILE | - ..", "Says whether commands are accepted", WORDS, run_check, 0,
};

const subcommand explain_subcommand = {
    "explain",
    "[--options] [--text | --exact] COMMAND | FILE | - ..",
    "Says in words what commands do",
    "  --options    the call of eskelvor compose that makes each command, on a line\n" WORDS,
    run_explain,
    0,
};
