/* eskelvor help: what the program and its subcommands take and tell. */
#include "options.h"
#include "tell.h"

#include <stdio.h>
#include <string.h>

static const subcommand *const subcommands[] = {
    &report_subcommand,  &track_subcommand,  &check_subcommand,   &explain_subcommand, &section_subcommand,
    &compose_subcommand, &join_subcommand,   &commute_subcommand, &apply_subcommand,
    &config_subcommand,  &diff_subcommand,   &decide_subcommand,  &why_subcommand,
    &packed_subcommand,  &gust_subcommand,   &status_subcommand,  &board_subcommand,
    &journal_subcommand, &night_subcommand,  &help_subcommand,
};

enum { SUBCOMMANDS = sizeof subcommands / sizeof *subcommands };

const subcommand *find_subcommand(const char *name)
{
    for (int i = 0; i < SUBCOMMANDS; i++)
        if (strcmp(subcommands[i]->name, name) == 0)
            return subcommands[i];
    return NULL;
}

void help(void)
{
    puts("usage: eskelvor SUBCOMMAND [WORD..]\n\n"
         "The weather desk: aircraft reports, the commands that tell aircraft when to\n"
         "report, the board of commands that wait for aircraft out of coverage, and the\n"
         "journal of those that were taken.\n");
    for (int i = 0; i < SUBCOMMANDS; i++)
        printf("  %-8s %s\n", subcommands[i]->name, subcommands[i]->summary);
    puts("\n  eskelvor help SUBCOMMAND     what it takes and tells; so does\n"
         "  eskelvor SUBCOMMAND --help\n"
         "  eskelvor --version\n"
         "  --json                       with any subcommand: one JSON document on\n"
         "                               standard output, refusals too; for compose, whose\n"
         "                               own --json is what it reads, before its name\n\n"
         "Exit status: 0 accepted, 1 refused, 2 usage or files. Refusals and troubles go\n"
         "to standard error.");
}

void help_on(const subcommand *s)
{
    printf("usage: eskelvor %s%s%s\n\n%s.\n\n%s", s->name, *s->usage ? " " : "", s->usage, s->summary, s->help);
    if (s->reads_json)
        printf("\n  eskelvor --json %s ..\n"
               "               one JSON document on standard output, refusals too\n",
               s->name);
    else
        puts("\n  --json       one JSON document on standard output, refusals too");
    puts("  --help       this\n\n"
         "Exit status: 0 accepted, 1 refused, 2 usage or files.");
}

/* The names of all subcommands, or of the options of one, each on a line, as the program itself knows them. */
static int write_list(const subcommand *s)
{
    static char *none[] = {NULL};
    if (s == NULL) {
        for (int i = 0; i < SUBCOMMANDS; i++)
            puts(subcommands[i]->name);
        return FINE;
    }
    list_options = 1;
    s->run(0, none);
    puts(s->reads_json ? "--help" : "--help\n--json");
    return FINE;
}

static int run(int count, char **words)
{
    int lists = 0;
    const option known[] = {SET_OPTION("--list", &lists)};
    if (take_options(&count, words, known, OPTIONS(known)) != FINE)
        return TROUBLE;
    const subcommand *s = count == 1 ? find_subcommand(words[0]) : NULL;
    if (count > 1)
        return trouble(words[1], "give one subcommand, or none");
    if (count == 1 && s == NULL)
        return trouble(words[0], "no such subcommand; eskelvor help tells which there are");
    if (lists)
        return write_list(s);
    if (s != NULL)
        help_on(s);
    else
        help();
    return FINE;
}

const subcommand help_subcommand = {
    "help",
    "[--list] [SUBCOMMAND]",
    "Says what the program or a subcommand takes and tells",
    "  --list       the names alone, each on a line: of the subcommands, or of a\n"
    "               subcommand's options. The shell's completion is held to them.\n",
    run,
    0,
};
