/* Tracks for map programs: GeoJSON, as RFC 7946 has it. */
#include "track.h"

#include "json.h"
#include "report_json.h"
#include "table.h"

#include <stdio.h>
#include <string.h>

enum { HALF_ROUND = 10800 };

/* A place in minutes; one that a cut makes need not be a whole number of them. */
typedef struct place {
    double longitude, latitude;
} place;

static void degrees(double minutes)
{
    char digits[24];
    int length = snprintf(digits, sizeof digits, "%.4f", minutes / 60);
    json_digits(NULL, digits, (size_t)length);
}

static void position(const char *key, place at)
{
    json_list(key);
    degrees(at.longitude);
    degrees(at.latitude);
    json_close();
}

static place point_at(const followed *f, uint32_t index)
{
    const esk_point *p = &f->track.points[index];
    place at = {p->longitude.number, p->latitude.number};
    return at;
}

/* A piece of a line: its places, from one end of the map to the other at most. */
typedef struct piece_of_line {
    place places[POINTS + 2];
    int count;
} piece_of_line;

/*
 * The line in pieces, none of which goes over the antimeridian: a step over it ends one piece there and begins the next on
 * the other side, at the latitude between. A place on the antimeridian itself belongs to the side that it is told on, and
 * from there on the piece on the other side begins at the same place. A piece of a single place is none.
 */
static int cut(const followed *f, uint32_t count, piece_of_line pieces[POINTS])
{
    int made = 0;
    piece_of_line *now = &pieces[0];
    now->count = 0;
    for (uint32_t i = 0; i < count; i++) {
        place to = point_at(f, i);
        if (i > 0 && (to.longitude - now->places[now->count - 1].longitude > HALF_ROUND ||
                      now->places[now->count - 1].longitude - to.longitude > HALF_ROUND)) {
            place from = now->places[now->count - 1];
            double step = eastward((int32_t)from.longitude, (int32_t)to.longitude), edge = step > 0 ? HALF_ROUND : -HALF_ROUND;
            place last = {edge, from.latitude + (to.latitude - from.latitude) * (edge - from.longitude) / step};
            if (from.longitude != edge)
                now->places[now->count++] = last;
            made += now->count > 1;
            now = &pieces[made];
            last.longitude = -edge;
            now->places[0] = last;
            now->count = 1;
        }
        now->places[now->count++] = to;
    }
    return made + (now->count > 1);
}

static void line(const char *key, const piece_of_line *l)
{
    json_list(key);
    for (int i = 0; i < l->count; i++)
        position(NULL, l->places[i]);
    json_close();
}

/* A line has two places or more: a report of which fewer are known has none. */
static void geometry_of_line(const followed *f)
{
    piece_of_line pieces[POINTS];
    int count = cut(f, located(f), pieces);
    if (count == 0) {
        json_null("geometry");
        return;
    }
    json_object("geometry");
    json_word("type", count == 1 ? "LineString" : "MultiLineString");
    if (count == 1)
        line("coordinates", &pieces[0]);
    else {
        json_list("coordinates");
        for (int i = 0; i < count; i++)
            line(NULL, &pieces[i]);
        json_close();
    }
    json_close();
}

static void geometry_of_point(const followed *f, uint32_t index)
{
    if (index >= located(f)) {
        json_null("geometry");
        return;
    }
    json_object("geometry");
    json_word("type", "Point");
    position("coordinates", point_at(f, index));
    json_close();
}

void geo_begin(void)
{
    json_lines();
    json_object(NULL);
    json_word("type", "FeatureCollection");
    json_list("features");
}

/* The columns that are the report's own, or all. */
static void properties(const row *r, int all)
{
    json_object("properties");
    for (int i = 0; i < (all ? columns_count : first_own_column); i++)
        if (columns[i].from != FROM_CHANGE || r->number > 1)
            json_cell(columns[i].name, &columns[i], r);
    if (!all)
        json_number("observations", r->track->count);
    json_close();
}

void geo_track(const followed *f)
{
    row r = followed_row(f, 0);
    json_object(NULL);
    json_word("type", "Feature");
    geometry_of_line(f);
    properties(&r, 0);
    json_close();
    for (uint32_t i = 0; i < f->track.count; i++) {
        r = followed_row(f, i);
        json_object(NULL);
        json_word("type", "Feature");
        geometry_of_point(f, i);
        properties(&r, 1);
        json_close();
    }
}

void geo_end(void)
{
    json_close();
    json_close();
    json_line();
}
