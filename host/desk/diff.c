/* eskelvor diff: what differs between two configurations, and the command that makes the first into the second. */
#define _POSIX_C_SOURCE 200809L
#include "changes.h"
#include "config_file.h"
#include "json.h"
#include "options.h"
#include "settings.h"

#include <stdio.h>
#include <stdlib.h>
#include <string.h>

/* The two, and what the proved call says of them. */
typedef struct pair {
    const char *names[2];
    esk_settings settings[2];
    esk_differing differing;
    uint8_t command[ESK_COMMAND_BYTES];
} pair;

/* A kept configuration, or the one after reset. */
static int read_one(const char *word, esk_settings *to)
{
    return config_read(strcmp(word, "reset") == 0 ? NULL : word, to);
}

/* ---- In words: to standard error, so that the command alone goes down a pipe */

/* A section's lines in memory of their own, or NULL. */
static char *lines_of(const esk_settings *s, int k)
{
    char *lines = NULL;
    size_t length;
    FILE *to = open_memstream(&lines, &length);
    if (to == NULL)
        return NULL;
    write_section(to, s, k, "  ");
    if (fclose(to) == 0)
        return lines;
    free(lines);
    return NULL;
}

/* The line at `*at`, without its end; moves on to the next. Behind the last the lines are empty. */
static int next_line(const char **at, const char **line)
{
    int length = (int)strcspn(*at, "\n");
    *line = *at;
    *at += length + ((*at)[length] != 0);
    return length;
}

static int longest_line(const char *lines)
{
    int longest = 0;
    for (const char *line; *lines;) {
        int length = next_line(&lines, &line);
        longest = length > longest ? length : longest;
    }
    return longest;
}

/* Line beside line, in two columns, with a bar between those that are not the same. */
static void say_beside(const char *old, const char *now)
{
    int width = longest_line(old);
    while (*old || *now) {
        const char *was, *is;
        int left = next_line(&old, &was), right = next_line(&now, &is);
        int same = left == right && strncmp(was, is, (size_t)left) == 0;
        int indent = right > 0;
        fprintf(stderr, "%-*.*s %c%.*s\n", width, left, was, same ? ' ' : '|', right - indent, is + indent);
    }
}

static int say_section_of(const pair *p, int k)
{
    char *old = lines_of(&p->settings[0], k), *now = lines_of(&p->settings[1], k);
    int status = old && now ? FINE : trouble(NULL, "no memory for section %d", k);
    if (status == FINE) {
        fprintf(stderr, "section %d: %s\n", k, section_title(k));
        say_beside(old, now);
    }
    free(old);
    free(now);
    return status;
}

static void say_flag_of(const pair *p, int i)
{
    uint8_t was = p->settings[0].flags[i], is = p->settings[1].flags[i];
    fprintf(stderr, "flag %s: %d, %s | %d, %s\n", flag_names[i], was, flag_in_words(i, was), is, flag_in_words(i, is));
}

static int say_pair(const pair *p)
{
    int status = FINE;
    for (int i = 0; i < p->differing.count; i++) {
        int item = p->differing.items[i];
        if (is_flag(item))
            say_flag_of(p, flag_of(item));
        else
            status = worse(status, say_section_of(p, section_of(item)));
    }
    if (p->differing.count == 0)
        fputs("nothing differs\n", stderr);
    printf("%.*s\n", (int)p->differing.answer.length, (const char *)p->command);
    return status;
}

static int json_pair(const pair *p)
{
    json_object(NULL);
    json_bool("accepted", 1);
    json_number("code", ESK_ACCEPTED);
    json_word("first", p->names[0]);
    json_word("second", p->names[1]);
    json_bool("equal", p->differing.count == 0);
    json_changes(&p->settings[0], &p->settings[1]);
    json_number("length", p->differing.answer.length);
    json_text("text", p->command, p->differing.answer.length);
    json_close();
    return FINE;
}

static int run(int count, char **words)
{
    static pair p;
    int by_status = 0;
    const option known[] = {SET_OPTION("--exit-code", &by_status)};
    int status = take_options(&count, words, known, OPTIONS(known));
    if (status == FINE && count != 2)
        status = trouble(NULL, "give two configurations; --help tells more");
    for (int i = 0; i < 2 && status == FINE; i++) {
        p.names[i] = words[i];
        status = read_one(words[i], &p.settings[i]);
    }
    if (status != FINE)
        return status;
    p.differing = esk_difference(&p.settings[0], &p.settings[1], p.command, sizeof p.command);
    if (p.differing.answer.code != ESK_ACCEPTED)
        return refuse_plain(NULL, A_SETTINGS, p.differing.answer.code, NULL);
    status = as_json ? json_pair(&p) : say_pair(&p);
    return status == FINE && by_status && p.differing.count > 0 ? REFUSED : status;
}

const subcommand diff_subcommand = {
    "diff",
    "[--exit-code] FIRST SECOND",
    "Says what differs between two configurations",
    "  FIRST SECOND  each a kept configuration's file, or reset\n"
    "  --exit-code   exit status 1 where they differ\n"
    "\n"
    "The command that makes the first into the second goes to standard output, with\n"
    "a line end: it sets what differs and nothing else, and asks for no downlink.\n"
    "What differs goes to standard error in words, the first's beside the second's,\n"
    "so that the command alone goes down a pipe:\n"
    "\n"
    "  eskelvor diff VHOQA VHOQB | eskelvor board FILE add XY0001 -\n"
    "\n"
    "A file that is called reset is given as ./reset.\n",
    run,
    0,
};
