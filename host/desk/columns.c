#include "columns.h"

#include <stdio.h>
#include <string.h>

enum { LATER = 7 }; /* observations behind the first */

const column columns[] = {
    {"file", NULL, FROM_FILE, 0, 1, 0},
    {"report", NULL, FROM_REPORT, 0, 1, 0},
    {"offset", NULL, FROM_OFFSET, 0, 1, 0},
    {"departure", NULL, FROM_DEPARTURE, 0, 1, 0},
    {"arrival", NULL, FROM_ARRIVAL, 0, 1, 0},
    {"designator", NULL, FROM_DESIGNATOR, 0, 1, 0},
    {"observation", NULL, FROM_NUMBER, 0, 1, 0},
    {"kind", NULL, FROM_KIND, 0, 1, 0},
    {"kind_in_words", NULL, FROM_KIND_IN_WORDS, 0, 1, 0},
    {"latitude_change_minutes", NULL, FROM_CHANGE, 0, 1, 0},
    {"longitude_change_minutes", NULL, FROM_CHANGE, 1, 1, 0},
    {"time_since_seconds", NULL, FROM_CHANGE, 2, 1, 0},
    {"latitude_minutes", NULL, FROM_TRACK, 0, 1, 0},
    {"latitude_degrees", "lat", FROM_DEGREES, 0, 1, 4},
    {"longitude_minutes", NULL, FROM_TRACK, 1, 1, 0},
    {"longitude_degrees", "lon", FROM_DEGREES, 1, 1, 4},
    {"seconds_into_month", NULL, FROM_TRACK, 2, 1, 0},
    {"day", NULL, FROM_DAY, 2, 1, 0},
    {"time", NULL, FROM_TIME, 2, 1, 0},
    {"altitude_feet", "altitude", FROM_FIGURE, 3, 10, 0},
    {"temperature_celsius", "temperature", FROM_FIGURE, 4, 1, 1},
    {"wind_direction_degrees", "wind_direction", FROM_FIGURE, 5, 1, 0},
    {"wind_speed_knots", "wind_speed", FROM_FIGURE, 6, 1, 0},
    {"gust_metres_per_second", "gust", FROM_FIGURE, 7, 1, 1},
    {"vapour_grams_per_kilogram", "vapour", FROM_FIGURE, 8, 1, 3},
    {"quality", NULL, FROM_QUALITY, 0, 1, 0},
};

const int columns_count = sizeof columns / sizeof *columns;
const int first_own_column = 6;

/* Where an observation has its figures. */
static const size_t offsets[FIGURES] = {
    offsetof(esk_observation, latitude),    offsetof(esk_observation, longitude),
    offsetof(esk_observation, time),        offsetof(esk_observation, altitude),
    offsetof(esk_observation, temperature), offsetof(esk_observation, wind_direction),
    offsetof(esk_observation, wind_speed),  offsetof(esk_observation, gust),
    offsetof(esk_observation, vapour),
};

esk_figure get_figure(const esk_observation *o, int number)
{
    esk_figure got;
    memcpy(&got, (const char *)o + offsets[number], sizeof got);
    return got;
}

void set_figure(esk_observation *o, int number, esk_figure figure)
{
    memcpy((char *)o + offsets[number], &figure, sizeof figure);
}

row first_row(const esk_report *of, const esk_track *track)
{
    row r = {NULL, 0, 0, of, track, 1, &of->first, track->points[0]};
    return r;
}

int next_row(row *r)
{
    if (r->number > LATER)
        return 0;
    r->o = &r->of->later[r->number - 1];
    r->here = r->track->points[r->number];
    r->number++;
    return 1;
}

int is_present(const row *r)
{
    return r->number == 1 || r->o->present;
}

static esk_figure track_figure(const esk_point *here, int number)
{
    return number == 0 ? here->latitude : number == 1 ? here->longitude : here->seconds;
}

static void put_bytes(cell *to, const void *bytes, size_t length)
{
    to->kind = CELL_WORD;
    to->bytes = bytes;
    to->length = length;
}

static void put_word(cell *to, const char *word)
{
    put_bytes(to, word, strlen(word));
}

static void put_count(cell *to, unsigned long long number)
{
    to->kind = CELL_NUMBER;
    to->bytes = to->own;
    to->length = (size_t)snprintf(to->own, sizeof to->own, "%llu", number);
}

/* A number counted in steps of 1, 1/10, 1/1000..: so many digits stand behind the point. */
static void put_number(cell *to, long number, int places)
{
    char *at = to->own + sizeof to->own, *end = at;
    unsigned long left = (unsigned long)(number < 0 ? -number : number);
    for (int i = 0; i <= places || left > 0; i++) {
        if (i == places && places > 0)
            *--at = '.';
        *--at = (char)('0' + left % 10);
        left /= 10;
    }
    if (number < 0)
        *--at = '-';
    to->kind = CELL_NUMBER;
    to->bytes = at;
    to->length = (size_t)(end - at);
}

/* Minutes as degrees, to the nearest ten-thousandth: 6 thousandths of a minute, far below the report's step. */
static long ten_thousandths(long minutes)
{
    long size = (minutes < 0 ? -minutes : minutes) * 10000;
    long rounded = (size + 30) / 60;
    return minutes < 0 ? -rounded : rounded;
}

static void put_figure(cell *to, const column *c, esk_figure figure)
{
    if (figure.given)
        put_number(to, c->from == FROM_DEGREES ? ten_thousandths(figure.number) : (long)figure.number * c->step,
                   c->places);
}

/* A moment of the month: its day, or the time of that day. */
static void put_moment(cell *to, source what, esk_figure seconds)
{
    if (!seconds.given)
        return;
    if (what == FROM_DAY)
        put_number(to, day_of(seconds.number), 0);
    else {
        name_time(seconds.number, to->own, sizeof to->own);
        put_word(to, to->own);
    }
}

/* What is the same for all observations of a report. */
static void fill_of_report(cell *to, source from, const row *r)
{
    switch (from) {
    case FROM_FILE: put_word(to, r->file); break;
    case FROM_REPORT: put_count(to, r->report); break;
    case FROM_OFFSET: put_count(to, r->offset); break;
    case FROM_DEPARTURE: put_bytes(to, r->of->departure, 4); break;
    case FROM_ARRIVAL: put_bytes(to, r->of->arrival, 4); break;
    default: put_bytes(to, r->of->designator, 6); break;
    }
}

void fill_cell(cell *to, const column *c, const row *r)
{
    to->kind = CELL_MISSING;
    to->bytes = "";
    to->length = 0;
    switch (c->from) {
    case FROM_NUMBER: put_count(to, (unsigned long long)r->number); break;
    case FROM_KIND: put_bytes(to, &r->o->kind, 1); break;
    case FROM_KIND_IN_WORDS: put_word(to, kind_in_words((char)r->o->kind)); break;
    case FROM_QUALITY: put_bytes(to, &r->o->quality, 1); break;
    case FROM_CHANGE:
        if (r->number > 1)
            put_figure(to, c, get_figure(r->o, c->figure));
        break;
    case FROM_TRACK:
    case FROM_DEGREES: put_figure(to, c, track_figure(&r->here, c->figure)); break;
    case FROM_DAY:
    case FROM_TIME: put_moment(to, c->from, r->here.seconds); break;
    case FROM_FIGURE: put_figure(to, c, get_figure(r->o, c->figure)); break;
    default: fill_of_report(to, c->from, r); break;
    }
}

static int is_name(const char *name, const char *word, size_t length)
{
    return name != NULL && strlen(name) == length && memcmp(name, word, length) == 0;
}

const column *find_column(const char *name, size_t length)
{
    for (int i = 0; i < columns_count; i++)
        if (is_name(columns[i].name, name, length) || is_name(columns[i].brief, name, length))
            return &columns[i];
    return NULL;
}
