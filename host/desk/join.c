/* eskelvor join: commands into one. */
#include "joining.h"
#include "json.h"
#include "options.h"

#include <stdio.h>

static void tell_joined(const joined *all)
{
    if (!as_json) {
        printf("%.*s\n", (int)all->length, (const char *)all->text);
        return;
    }
    json_object(NULL);
    json_bool("accepted", 1);
    json_number("code", ESK_ACCEPTED);
    json_number("commands", (long long)all->texts);
    json_number("length", (long long)all->length);
    json_text("text", all->text, all->length);
    json_close();
}

static int run(int count, char **words)
{
    static joined all;
    intake in = {0, 0, 0, NULL, NULL};
    const option known[] = {SET_OPTION("--text", &in.typed), SET_OPTION("--exact", &in.exact)};
    int status = take_options(&count, words, known, OPTIONS(known));
    if (status == FINE && count == 0)
        status = trouble(NULL, "no command; --help tells what to give");
    if (status == FINE)
        status = gather(&in, count, words, &all);
    if (status == FINE)
        tell_joined(&all);
    return status;
}

const subcommand join_subcommand = {
    "join",
    "[--text | --exact] COMMAND | FILE | - ..",
    "Joins commands into one that acts as all of them in order",
    "  COMMAND      a word that begins with AWR\n"
    "  FILE         any other word: a file with a command on each line; - is\n"
    "               standard input\n"
    "  --text       every word is a command, whatever it begins with\n"
    "  --exact      all the bytes of a file are one command, line ends too\n"
    "\n"
    "The joined command goes to standard output, with a line end. Each flag and\n"
    "section comes from the last command that sets it, and the largest downlink\n"
    "digit is kept. Where one is refused nothing is joined.\n",
    run,
    0,
};
