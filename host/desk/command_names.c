#include "command_names.h"

#include <string.h>

static const value_word flag_words[] = {{"off", 0}, {"on", 1}, {"no-change", 9}, {"no change", 9}, {NULL, 0}};

static const value_word downlink_words[] = {
    {"nothing", 0},
    {"flags", 1},
    {"configuration", 2},
    {"nothing is sent down", 0},
    {"the flags are sent down", 1},
    {"the whole configuration is sent down", 2},
    {NULL, 0},
};

static const value_word yes_words[] = {{"no", 0}, {"yes", 1}, {NULL, 0}};
static const value_word on_words[] = {{"off", 0}, {"on", 1}, {NULL, 0}};
static const value_word sample_words[] = {{"pressure-level", 0}, {"pressure level", 0}, {"time", 1}, {NULL, 0}};

#define OF(member) offsetof(esk_command, member), sizeof(((esk_command *)0)->member)
#define FLAG(number, option, key) \
    {0, 5 + number, option, key, OF(settings.flags[number]), 1, flag_words, "on, off or no-change", NULL}

const figure_name figure_names[FIGURE_NAMES] = {
    FLAG(0, "--amdar", "amdar"),
    FLAG(1, "--inhibit-hours", "inhibit_hours"),
    FLAG(2, "--regions", "regions"),
    FLAG(3, "--airports", "airports"),
    FLAG(4, "--ascent", "ascent"),
    FLAG(5, "--enroute", "enroute"),
    FLAG(6, "--descent", "descent"),
    {0, 12, "--downlink", "downlink", OF(downlink), 1, downlink_words, "nothing, flags or configuration", NULL},
    {3, 0, "--routine-instead", "routine", OF(settings.airports.routine), 1, yes_words, "yes or no", NULL},
    {4, 0, "--report-every", "interval_minutes", OF(settings.enroute.interval), 1, NULL, "1 to 60 minutes", "minutes"},
    {4, 2, "--maximum-wind", "maximum_wind", OF(settings.enroute.wind), 1, yes_words, "yes or no", NULL},
    {5, 0, "--samples-by", "mode", OF(settings.ascent.mode), 1, sample_words, "time or pressure-level", NULL},
    {5, 1, "--series-1-every", "series_1_interval_seconds", OF(settings.ascent.interval1),
     1, NULL, "3 to 20 seconds", "seconds"},
    {5, 3, "--series-1-for", "series_1_duration_seconds", OF(settings.ascent.duration),
     1, NULL, "30 to 600 seconds", "seconds"},
    {5, 6, "--series-2-every", "series_2_interval_seconds", OF(settings.ascent.interval2),
     1, NULL, "3 to 60 seconds", "seconds"},
    {5, 8, "--series-2-until", "total_seconds", OF(settings.ascent.total),
     10, NULL, "510 to 1110 seconds, in tens", "seconds"},
    {5, 11, "--top", "top_feet", OF(settings.ascent.top), 100, NULL, "15000 to 35000 feet, in hundreds", "feet"},
    {5, 14, "--level-list", "list", OF(settings.ascent.list), 1, NULL, "1 or 2", NULL},
    {5, 15, "--timer", "timer", OF(settings.ascent.timer), 1, on_words, "on or off", NULL},
    {6, 0, "--routine-in-ascent", "routine", OF(settings.routine6), 1, yes_words, "yes or no", NULL},
    {7, 0, "--descent-samples-by", "mode", OF(settings.descent.mode), 1, sample_words, "time or pressure-level", NULL},
    {7, 1, "--descent-every", "interval_seconds", OF(settings.descent.interval),
     1, NULL, "10 to 300 seconds", "seconds"},
    {7, 4, "--descent-top", "top_feet", OF(settings.descent.top),
     100, NULL, "15000 to 35000 feet, in hundreds", "feet"},
    {7, 7, "--descent-level-list", "list", OF(settings.descent.list), 1, NULL, "1 or 2", NULL},
    {7, 8, "--descent-timer", "timer", OF(settings.descent.timer), 1, on_words, "on or off", NULL},
    {8, 0, "--routine-in-descent", "routine", OF(settings.routine8), 1, yes_words, "yes or no", NULL},
    {9, 0, "--hours", "start_hour", OF(settings.hours.start), 1, NULL, "0 to 23", NULL},
    {9, 2, "--hours", "end_hour", OF(settings.hours.end), 1, NULL, "0 to 23", NULL},
};

#define LIST(member) offsetof(esk_command, settings.member)

const list_name list_names[LIST_NAMES] = {
    {2, "--reporting-box", "--report", "reporting", LIST(regions.reporting), "reporting boxes"},
    {2, "--inhibiting-box", "--inhibit", "inhibiting", LIST(regions.inhibiting), "inhibiting boxes"},
    {3, "--selected-for-ascent", NULL, "ascent_selected", LIST(airports.selected.ascent), "ascent selected"},
    {3, "--selected-for-descent", NULL, "descent_selected", LIST(airports.selected.descent), "descent selected"},
    {3, "--inhibited-for-ascent", NULL, "ascent_inhibited", LIST(airports.inhibited.ascent), "ascent inhibited"},
    {3, "--inhibited-for-descent", NULL, "descent_inhibited", LIST(airports.inhibited.descent), "descent inhibited"},
};

long get_named(const esk_command *c, const figure_name *f)
{
    const unsigned char *at = (const unsigned char *)c + f->offset;
    uint16_t wide;
    if (f->bytes == 1)
        return *at;
    memcpy(&wide, at, sizeof wide);
    return wide;
}

void set_named(esk_command *c, const figure_name *f, long value)
{
    unsigned char *at = (unsigned char *)c + f->offset;
    long most = f->bytes == 1 ? UINT8_MAX : UINT16_MAX;
    uint16_t wide = (uint16_t)(value < 0 || value > most ? most : value);
    if (f->bytes == 1)
        *at = (unsigned char)wide;
    else
        memcpy(at, &wide, sizeof wide);
}

esk_boxes *boxes_of(esk_command *c, const list_name *l)
{
    return (esk_boxes *)(void *)((char *)c + l->offset);
}

esk_airfields *airfields_of(esk_command *c, const list_name *l)
{
    return (esk_airfields *)(void *)((char *)c + l->offset);
}

const char *word_of_value(const value_word *words, long value)
{
    for (; words->word != NULL; words++)
        if (words->value == value)
            return words->word;
    return NULL;
}

int value_of_word(const value_word *words, const char *word)
{
    for (; words->word != NULL; words++)
        if (strcmp(words->word, word) == 0)
            return words->value;
    return -1;
}
