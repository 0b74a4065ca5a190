/* eskelvor section: one section of commands, as its bytes or in words. */
#include "intake.h"
#include "json.h"
#include "options.h"
#include "settings.h"

#include <stdio.h>
#include <string.h>

enum { HEAD = 22 };

static const char cut[] = "the command ends before this section does";

/* What is asked: which section, and whether in words. */
typedef struct asking {
    uint32_t number;
    int words;
} asking;

static int refuse_section(const command_text *t, unsigned code, size_t place, const char *because)
{
    esk_answer a = {place, 0, (uint8_t)code, 0, {0, 0}};
    return refuse_because(&t->from, A_COMMAND, a, t->bytes, t->length, t->whole, because);
}

/* The section behind a header that names it alone, read: the rest of the command is not looked at. */
static esk_command_got read_alone(uint32_t number, const uint8_t *bytes, size_t length)
{
    uint8_t alone[ESK_COMMAND_BYTES] = "AWR049999999000000000/";
    alone[11 + number] = (uint8_t)('0' + number);
    memcpy(alone + HEAD, bytes, length);
    return esk_command_read(alone, HEAD + length);
}

static void json_part(const command_text *t, const asking *asked, esk_part part, const esk_command_got *got)
{
    json_object(NULL);
    json_bool("accepted", 1);
    json_origin(&t->from);
    json_number("code", ESK_ACCEPTED);
    json_number("section", (long long)asked->number);
    json_bool("named", part.length > 0);
    json_number("place", (long long)part.place);
    json_number("length", (long long)part.length);
    json_text("text", t->bytes + part.place, part.length);
    if (got != NULL)
        json_section("holds", &got->command.settings, (int)asked->number);
    json_close();
}

static void say_part(const command_text *t, const asking *asked, esk_part part, const esk_command_got *got)
{
    if (part.length > 0 && !asked->words)
        printf("%.*s\n", (int)part.length, (const char *)esk_part_of(t->bytes, part));
    else if (part.length > 0) {
        printf("section %lu: %s\n", (unsigned long)asked->number, section_title((int)asked->number));
        say_section(&got->command.settings, (int)asked->number, "  ");
    } else if (asked->words)
        printf("section %lu isn't named\n", (unsigned long)asked->number);
}

static int section_of(void *with, const command_text *t)
{
    const asking *asked = with;
    esk_part part = esk_section(asked->number, t->bytes, t->length);
    esk_command_got got, *told = NULL;
    if (part.code != ESK_ACCEPTED)
        return refuse_section(t, part.code, part.place, part.code == ESK_END && part.place >= HEAD ? cut : NULL);
    if (asked->words && part.length > 0) {
        got = read_alone(asked->number, esk_part_of(t->bytes, part), part.length);
        if (got.answer.code != ESK_ACCEPTED)
            return refuse_section(t, got.answer.code, part.place + got.answer.place - HEAD, NULL);
        told = &got;
    }
    if (as_json)
        json_part(t, asked, part, told);
    else
        say_part(t, asked, part, told);
    return FINE;
}

static int run(int count, char **words)
{
    asking asked = {0, 0};
    intake in = {0, 0, 0, section_of, &asked};
    const option known[] = {SET_OPTION("--words", &asked.words), SET_OPTION("--text", &in.typed),
                            SET_OPTION("--exact", &in.exact)};
    int status = take_options(&count, words, known, OPTIONS(known));
    if (status != FINE)
        return status;
    if (count < 2)
        return trouble(NULL, "no section or no command; --help tells what to give");
    long number = whole_number(words[0], 2, 9);
    if (number < 0)
        return trouble(words[0], "no section: they are numbered 2 to 9");
    asked.number = (uint32_t)number;
    return each_text(&in, count - 1, words + 1);
}

const subcommand section_subcommand = {
    "section",
    "K [--words] [--text | --exact] COMMAND | FILE | - ..",
    "Shows one section of commands, found without reading the others",
    "  K            the section, 2 to 9\n"
    "  COMMAND      a word that begins with AWR\n"
    "  FILE         any other word: a file with a command on each line; - is\n"
    "               standard input\n"
    "  --words      what the section says, and not its bytes\n"
    "  --text       every word is a command, whatever it begins with\n"
    "  --exact      all the bytes of a file are one command, line ends too\n"
    "\n"
    "The section's bytes go to standard output, its / included, with a line end.\n"
    "Nothing is written for a command that doesn't name it. The section is found\n"
    "from the first 22 bytes and the counts of lists alone: what else is wrong with\n"
    "the command is not seen. In words the section itself is read too.\n",
    run,
    0,
};
