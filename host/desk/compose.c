/* eskelvor compose: a command from words, or from the JSON of explain; a report from the JSON of report. */
#include "compose.h"

#include "box.h"
#include "config_file.h"
#include "draft.h"
#include "json.h"
#include "mark.h"
#include "options.h"

#include <stdio.h>
#include <string.h>

enum { SHARED = 2, NUMBER_MOST = 1000000 }; /* the options of no figure; the most that is taken for a number */

static draft made;

void tell_composed(const uint8_t *text, size_t length, int is_report)
{
    if (!as_json) {
        fwrite(text, 1, length, stdout);
        if (!is_report)
            putchar('\n');
        return;
    }
    json_object(NULL);
    json_bool("accepted", 1);
    json_number("code", ESK_ACCEPTED);
    json_number("length", (long long)length);
    json_text("text", text, length);
    json_close();
}

/* A word that an option does not take. */
static int not_taken(const char *option, const char *word, const char *range)
{
    char name[200];
    return trouble(option, "%s is not %s", name_safely(word, name, sizeof name), range);
}

/* A number at the start of a text. Gives the byte behind it, or NULL where there is none. */
static const char *number_at(const char *at, long *number)
{
    char digits[8];
    size_t length = strspn(at, "0123456789");
    if (length == 0 || length >= sizeof digits)
        return NULL;
    memcpy(digits, at, length);
    digits[length] = 0;
    *number = whole_number(digits, 0, NUMBER_MOST);
    return *number < 0 ? NULL : at + length;
}

/* A number of a figure, with its unit or without; -1 where the word is none. */
static long number_of(const figure_name *f, const char *word)
{
    long number;
    const char *end = number_at(word, &number);
    if (end == NULL)
        return -1;
    return *end == 0 || (*end == ' ' && f->unit != NULL && strcmp(end + 1, f->unit) == 0) ? number : -1;
}

/* The value of one figure. */
static int take_figure(void *with, const char *word)
{
    int i = *(const int *)with;
    const figure_name *f = &figure_names[i];
    long number = f->words ? value_of_word(f->words, word) : number_of(f, word);
    if (number < 0 || number % f->step != 0)
        return not_taken(f->option, word, f->range);
    if (made.given[i])
        return trouble(f->option, "it is given twice");
    draft_figure(&made, i, number);
    return FINE;
}

/* Two numbers with these texts before, between and behind them; without a text between them they are one. */
static int is_pair(const char *word, const char *const texts[3], long numbers[2])
{
    for (int i = 0; i < 2; i++) {
        size_t length = strlen(texts[i]);
        if (strncmp(word, texts[i], length) != 0)
            return 0;
        if (i == 1 && length == 0)
            numbers[1] = numbers[0];
        else
            word = number_at(word + length, &numbers[i]);
        if (word == NULL)
            return 0;
    }
    return strcmp(word, texts[2]) == 0;
}

/* The two hours of section 9, as explain prints them, or shorter. */
static int take_hours(void *with, const char *word)
{
    static const char *const spellings[][3] = {{"", "-", ""},
                                               {"", ":00-", ":00"},
                                               {"from ", ":00 up to ", ":00"},
                                               {"from ", ":00 up to ", ":00, over midnight"},
                                               {"none: both are ", "", ""}};
    int start = *(const int *)with;
    long hours[2] = {0, 0};
    int found = strcmp(word, "none") == 0;
    for (size_t i = 0; i < sizeof spellings / sizeof *spellings && !found; i++)
        found = is_pair(word, spellings[i], hours);
    if (!found)
        return not_taken("--hours", word, "two hours, as 23-01, or none");
    if (made.given[start])
        return trouble("--hours", "it is given twice");
    draft_figure(&made, start, hours[0]);
    draft_figure(&made, start + 1, hours[1]);
    return FINE;
}

/* What explain prints of an empty list. */
static int is_none(const char *word)
{
    return strcmp(word, "none") == 0 || strcmp(word, "none, so everywhere") == 0 ||
           strcmp(word, "none, so every airfield") == 0;
}

static int take_box(void *with, const char *word)
{
    int list = *(const int *)with;
    esk_region box;
    if (is_none(word))
        draft_list(&made, list);
    else if (box_of(word, &box))
        draft_box(&made, list, &box);
    else
        return not_taken(list_names[list].option, word, "a box, as 60N-40N,10W-5E: north, south, west, east; or none");
    return FINE;
}

/* One airfield, or several parted by commas or spaces. */
static int take_airfields(void *with, const char *word)
{
    int list = *(const int *)with;
    if (is_none(word)) {
        draft_list(&made, list);
        return FINE;
    }
    do {
        size_t length = strcspn(word, ", ");
        if (length != 4)
            return not_taken(list_names[list].option, word, "an airfield of four letters or digits, several, or none");
        draft_airfield(&made, list, word);
        word += length;
        word += strspn(word, ", ");
    } while (*word != 0);
    return FINE;
}

/* The options of every figure and list, behind the two that are there. Gives how many there are. */
static size_t name_options(option *known)
{
    static int numbers[FIGURE_NAMES];
    size_t count = SHARED;
    for (int i = 0; i < FIGURE_NAMES; i++) {
        int hours = strcmp(figure_names[i].option, "--hours") == 0;
        option o = EACH_OPTION(figure_names[i].option, NULL, hours ? take_hours : take_figure, &numbers[i]);
        numbers[i] = i;
        if (i == 0 || strcmp(figure_names[i].option, figure_names[i - 1].option) != 0)
            known[count++] = o;
    }
    for (int i = 0; i < LIST_NAMES; i++) {
        const list_name *l = &list_names[i];
        option o = EACH_OPTION(l->option, l->brief, i < BOX_LISTS ? take_box : take_airfields, &numbers[i]);
        known[count++] = o;
    }
    return count;
}

static int is_empty(void)
{
    int given = 0;
    for (int i = 0; i < FIGURE_NAMES; i++)
        given |= made.given[i];
    for (int i = 0; i < LIST_NAMES; i++)
        given |= made.listed[i];
    return !given;
}

static int write_made(const char *config)
{
    uint8_t text[ESK_COMMAND_BYTES];
    size_t length;
    esk_settings rest;
    if (is_empty())
        return trouble(NULL, "nothing is given; --help tells what there is");
    if (config != NULL) {
        int status = config_read(config, &rest);
        if (status != FINE)
            return status;
        draft_fill(&made, &rest);
    }
    int lacks = draft_lacks(&made);
    if (lacks >= 0)
        return trouble(figure_names[lacks].option,
                       "it is needed too: section %d is replaced whole; -c FILE takes the rest from a configuration",
                       figure_names[lacks].section);
    int status = draft_write(&made, text, &length);
    if (status == FINE)
        tell_composed(text, length, 0);
    return status;
}

static int run(int count, char **words)
{
    const char *json = NULL, *config = NULL;
    option known[SHARED + FIGURE_NAMES + LIST_NAMES] = {VALUE_OPTION("--json", NULL, &json),
                                                        VALUE_OPTION("--config", "-c", &config)};
    made = draft_begin(NULL);
    int status = take_options(&count, words, known, name_options(known));
    if (status != FINE)
        return status;
    if (count > 0)
        return trouble(words[0], "this takes options alone; --help tells which there are");
    if (json == NULL)
        return write_made(config);
    if (!is_empty() || config != NULL)
        return trouble("--json", "takes no other option beside it");
    return compose_json(json);
}

const subcommand compose_subcommand = {
    "compose",
    "OPTION..  |  --json FILE | -",
    "Makes a command from words, or a command or report from JSON",
    "The flags, no-change where they are left out:\n"
    "  --amdar, --inhibit-hours, --regions, --airports, --ascent, --enroute,\n"
    "  --descent             on, off or no-change\n"
    "  --downlink            nothing, flags or configuration: what is sent down\n"
    "Section 2, boxes; each may be given several times, and is none by itself:\n"
    "  --report, --reporting-box BOX\n"
    "  --inhibit, --inhibiting-box BOX\n"
    "                        60N-40N,10W-5E: north, south, west, east; or none.\n"
    "                        170E-170W goes eastward over the date line\n"
    "Section 3, airfields, YMML or YMML,YPAD or none; several times:\n"
    "  --selected-for-ascent, --selected-for-descent,\n"
    "  --inhibited-for-ascent, --inhibited-for-descent\n"
    "  --routine-instead     yes or no: routine reports instead of a scheme\n"
    "Section 4, level flight:\n"
    "  --report-every        1 to 60 minutes\n"
    "  --maximum-wind        yes or no\n"
    "Section 5, the ascent scheme:\n"
    "  --samples-by          time or pressure-level\n"
    "  --series-1-every      3 to 20 seconds\n"
    "  --series-1-for        30 to 600 seconds\n"
    "  --series-2-every      3 to 60 seconds\n"
    "  --series-2-until      510 to 1110 seconds, in tens\n"
    "  --top                 15000 to 35000 feet, in hundreds\n"
    "  --level-list          1 or 2, the list of pressure levels\n"
    "  --timer               on or off, for level stretches\n"
    "Section 7, the descent scheme:\n"
    "  --descent-samples-by  time or pressure-level\n"
    "  --descent-every       10 to 300 seconds\n"
    "  --descent-top         15000 to 35000 feet, in hundreds\n"
    "  --descent-level-list  1 or 2, the list of pressure levels\n"
    "  --descent-timer       on or off, for level stretches\n"
    "Sections 6 and 8, routine reports in ascent and descent:\n"
    "  --routine-in-ascent, --routine-in-descent\n"
    "                        yes or no\n"
    "Section 9, the hours of silence:\n"
    "  --hours               23-01: from 23:00 up to 01:00; or none\n"
    "\n"
    "  -c, --config FILE     what a section has besides comes from this\n"
    "                        configuration. A section is replaced whole: without -c\n"
    "                        all its figures are needed, and lists left out are\n"
    "                        empty\n"
    "  --json FILE           what explain --json, report --json or report --jsonl\n"
    "                        wrote, - for standard input: the same bytes again. What\n"
    "                        follows from other keys, text and length among them, is\n"
    "                        passed over\n"
    "\n"
    "The command goes to standard output, with a line end; a report as its 220\n"
    "bytes. What explain prints of a box, the hours or the downlink can be typed\n"
    "back; explain --options prints all of a command so.\n",
    run,
    1,
};
