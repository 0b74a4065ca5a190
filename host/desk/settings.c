#include "settings.h"

#include "box.h"

#include <stdio.h>
#include <string.h>

const char *const flag_names[FLAGS] = {"AMDAR", "inhibit hours", "regions", "airports", "ascent", "enroute", "descent"};

const char *flag_in_words(int flag, uint8_t value)
{
    static const char *const words[FLAGS][2] = {
        {"off: never reports", "on"},
        {"off: reports at every hour", "on: silent in the hours of section 9"},
        {"off: reports everywhere", "on: the boxes of section 2 hold"},
        {"off: every airfield alike", "on: the lists of section 3 hold"},
        {"off: no scheme in ascent; section 6, or 3, says whether routine", "on: the scheme of section 5"},
        {"off: silent in level flight", "on: routine reports in level flight, by section 4"},
        {"off: no scheme in descent; section 8, or 3, says whether routine", "on: the scheme of section 7"},
    };
    return value > 1 ? "no change" : words[flag][value];
}

const char *downlink_in_words(uint8_t digit)
{
    static const char *const words[] = {"nothing is sent down", "the flags are sent down",
                                        "the whole configuration is sent down"};
    return words[digit];
}

const char *section_title(int k)
{
    static const char *const titles[] = {
        "boxes where to report, and where not",
        "airfields for the schemes of ascent and descent",
        "level flight",
        "the ascent scheme",
        "routine reports in ascent, where flags ascent and airports are 0",
        "the descent scheme",
        "routine reports in descent, where flags descent and airports are 0",
        "the hours of silence",
    };
    return titles[k - 2];
}

/* `none` says what an empty list means. */
static void write_boxes(FILE *to, const char *what, const esk_boxes *boxes, const char *none, const char *indent)
{
    fprintf(to, "%s%s:%s\n", indent, what, boxes->count == 0 ? none : "");
    for (int i = 0; i < boxes->count; i++) {
        char box[BOX_ROOM];
        name_box(&boxes->regions[i], BOX_IN_WORDS, box);
        fprintf(to, "%s  %2d. %s\n", indent, i + 1, box);
    }
}

static void write_airfields(FILE *to, const char *what, const esk_airfields *list, const char *none, const char *indent)
{
    fprintf(to, "%s%s:", indent, what);
    for (int i = 0; i < list->count; i++)
        fprintf(to, " %.4s", (const char *)list->names + 4 * i);
    fprintf(to, "%s\n", list->count == 0 ? none : "");
}

static void write_airports(FILE *to, const esk_airports *a, const char *indent)
{
    write_airfields(to, "selected for ascent", &a->selected.ascent, " none, so every airfield", indent);
    write_airfields(to, "selected for descent", &a->selected.descent, " none, so every airfield", indent);
    write_airfields(to, "inhibited for ascent", &a->inhibited.ascent, " none", indent);
    write_airfields(to, "inhibited for descent", &a->inhibited.descent, " none", indent);
    fprintf(to, "%sroutine reports instead of a scheme: %s\n", indent, a->routine ? "yes" : "no");
}

static void write_mode(FILE *to, unsigned mode, const char *indent)
{
    fprintf(to, "%smode %u: samples by %s\n", indent, mode, mode ? "time" : "pressure level");
}

/* What both schemes end with. */
static void write_levels(FILE *to, const char *phase, unsigned top, unsigned list, unsigned timer, const char *indent)
{
    fprintf(to, "%stop of the %s: %u feet\n", indent, phase, 100 * top);
    fprintf(to, "%slist of pressure levels: %u\n", indent, list);
    fprintf(to, "%stimer for level stretches: %s\n", indent, timer ? "on" : "off");
}

static void write_ascent(FILE *to, const esk_ascent *a, const char *indent)
{
    write_mode(to, a->mode, indent);
    fprintf(to, "%sseries 1: every %d seconds, for %d seconds\n", indent, a->interval1, a->duration);
    fprintf(to, "%sseries 2: every %d seconds, until %d seconds in all\n", indent, a->interval2, 10 * a->total);
    write_levels(to, "ascent", a->top, a->list, a->timer, indent);
}

static void write_descent(FILE *to, const esk_descent *d, const char *indent)
{
    write_mode(to, d->mode, indent);
    fprintf(to, "%sseries: every %d seconds\n", indent, d->interval);
    write_levels(to, "descent", d->top, d->list, d->timer, indent);
}

static void write_hours(FILE *to, const esk_hours *h, const char *indent)
{
    if (h->start == h->end)
        fprintf(to, "%snone: both are %02d\n", indent, h->start);
    else
        fprintf(to, "%sfrom %02d:00 up to %02d:00%s\n", indent, h->start, h->end,
               h->start > h->end ? ", over midnight" : "");
}

void write_section(FILE *to, const esk_settings *s, int k, const char *indent)
{
    switch (k) {
    case 2:
        write_boxes(to, "reporting boxes", &s->regions.reporting, " none, so everywhere", indent);
        write_boxes(to, "inhibiting boxes", &s->regions.inhibiting, " none", indent);
        break;
    case 3: write_airports(to, &s->airports, indent); break;
    case 4:
        fprintf(to, "%sa report every %d minutes\n", indent, s->enroute.interval);
        fprintf(to, "%sreports of the maximum wind: %s\n", indent, s->enroute.wind ? "yes" : "no");
        break;
    case 5: write_ascent(to, &s->ascent, indent); break;
    case 6: fprintf(to, "%s%s\n", indent, s->routine6 ? "yes" : "no"); break;
    case 7: write_descent(to, &s->descent, indent); break;
    case 8: fprintf(to, "%s%s\n", indent, s->routine8 ? "yes" : "no"); break;
    case 9: write_hours(to, &s->hours, indent); break;
    }
}

void say_section(const esk_settings *s, int k, const char *indent)
{
    write_section(stdout, s, k, indent);
}

static void say_flags(const esk_command *c)
{
    puts("flags");
    for (int i = 0; i < FLAGS; i++)
        printf("  %-14s %d  %s\n", flag_names[i], c->settings.flags[i], flag_in_words(i, c->settings.flags[i]));
    printf("downlink         %d  %s\n", c->downlink, downlink_in_words(c->downlink));
}

void say_command(const esk_command *c)
{
    int sections = 0;
    say_flags(c);
    for (int k = 2; k <= 9; k++)
        if (c->named[k - 2]) {
            printf("section %d: %s\n", k, section_title(k));
            say_section(&c->settings, k, "  ");
            sections++;
        }
    if (sections == 0)
        puts("no section is named");
}
