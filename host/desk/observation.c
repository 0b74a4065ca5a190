#include "observation.h"

#include "minutes.h"

#include <stdio.h>

enum { DAY = 86400 };

const char *kind_in_words(char kind)
{
    switch (kind) {
    case 'A': return "ascent";
    case 'D': return "descent";
    case 'R': return "level flight";
    case 'W': return "highest wind";
    case 'U': return "unstable";
    default: return "error in the observation before";
    }
}

/* A figure in its unit, `per` of the report's steps to one. */
static void show(const char *name, esk_figure figure, double per, int decimals, const char *unit)
{
    if (figure.given)
        printf("  %-15s %10.*f %s\n", name, decimals, figure.number / per, unit);
    else
        printf("  %-15s %10s\n", name, "-");
}

static void show_degrees(int width, esk_figure minutes, const char *letters)
{
    char degrees[24];
    name_degrees(minutes.number, letters, width, degrees, sizeof degrees);
    fputs(degrees, stdout);
}

long day_of(int32_t seconds)
{
    return seconds / DAY + 1;
}

void name_time(int32_t seconds, char *to, size_t room)
{
    long s = seconds % DAY;
    snprintf(to, room, "%02ld:%02ld:%02ld", s / 3600, s / 60 % 60, s % 60);
}

static void show_time(esk_figure seconds)
{
    char time[16];
    name_time(seconds.number, time, sizeof time);
    printf("day %ld, %s", day_of(seconds.number), time);
}

static void show_absolute(const char *name, esk_figure minutes, const char *letters)
{
    printf("  %-15s ", name);
    if (minutes.given)
        show_degrees(10, minutes, letters);
    else
        printf("%10s", "-");
    putchar('\n');
}

/* The first observation's own position and time. */
static void show_start(const esk_point *here)
{
    show_absolute("latitude", here->latitude, "NS");
    show_absolute("longitude", here->longitude, "EW");
    printf("  %-15s ", "time");
    if (here->seconds.given)
        show_time(here->seconds);
    else
        printf("%10s", "-");
    putchar('\n');
}

/* A change of position, and what it comes to. */
static void show_change(const char *name, esk_figure change, const char *ways[2], esk_figure here, const char *letters)
{
    int below = change.number < 0;
    if (!change.given) {
        printf("  %-15s %10s\n", name, "-");
        return;
    }
    printf("  %-15s %10.4f degrees %s", name, (below ? -change.number : change.number) / 60.0, ways[below]);
    if (here.given) {
        fputs(", at ", stdout);
        show_degrees(0, here, letters);
    }
    putchar('\n');
}

static void show_changes(const esk_observation *o, const esk_point *here)
{
    static const char *north_south[] = {"north", "south"}, *east_west[] = {"east", "west"};
    show_change("moved", o->latitude, north_south, here->latitude, "NS");
    show_change("moved", o->longitude, east_west, here->longitude, "EW");
    if (!o->time.given) {
        printf("  %-15s %10s\n", "after", "-");
        return;
    }
    printf("  %-15s %10ld seconds", "after", (long)o->time.number);
    if (here->seconds.given) {
        fputs(", on ", stdout);
        show_time(here->seconds);
    }
    putchar('\n');
}

void show_observation(int number, const esk_observation *o, const esk_point *here)
{
    if (number > 1 && !o->present) {
        printf("observation %d: absent\n", number);
        return;
    }
    printf("observation %d: %c, %s\n", number, o->kind, kind_in_words((char)o->kind));
    if (number == 1)
        show_start(here);
    else
        show_changes(o, here);
    show("altitude", o->altitude, 0.1, 0, "feet");
    show("temperature", o->temperature, 10, 1, "degrees C");
    show("wind from", o->wind_direction, 1, 0, "degrees");
    show("wind speed", o->wind_speed, 1, 0, "knots");
    show("gust", o->gust, 10, 1, "metres a second");
    show("water vapour", o->vapour, 1000, 3, "grams a kilogram");
    printf("  %-15s %10c\n", "vapour quality", o->quality == '/' ? '-' : o->quality);
}
