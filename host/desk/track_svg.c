/* Tracks as a picture: a map with a graticule, and the profile of temperature and wind by altitude. */
#define _XOPEN_SOURCE 700
#include "track.h"

#include "tell.h"

#include <stdio.h>
#include <stdlib.h>
#include <string.h>

enum { WIDTH = 1180, NAMED = 12, COLOURS = 8, COLUMNS = 4, STAFF = 26, APART = 15 };

/* A panel of the picture, and what its edges stand for. */
typedef struct panel {
    double left, top, right, bottom;
    double least_x, most_x, least_y, most_y;
} panel;

static const char *const colours[COLOURS] = {"#0072b2", "#d55e00", "#009e73", "#b0478f",
                                             "#b58900", "#3a9bd9", "#8c510a", "#444444"};

static followed *all;
static size_t count, room;
static int32_t base; /* the first longitude that is known: all are counted from it */

int picture_add(const followed *f)
{
    if (count == room) {
        size_t more = room == 0 ? 64 : 2 * room;
        followed *grown = realloc(all, more * sizeof *all);
        if (grown == NULL)
            return trouble("--svg", "not enough memory for so many reports");
        all = grown;
        room = more;
    }
    all[count++] = *f;
    return FINE;
}

/* The sine of an angle in degrees, well beyond what an eye sees: the program is linked with no mathematics. */
static double sine(double degrees)
{
    while (degrees > 180)
        degrees -= 360;
    while (degrees < -180)
        degrees += 360;
    double x = degrees * 3.14159265358979 / 180, term = x, sum = x;
    for (int n = 2; n < 24; n += 2) {
        term *= -x * x / (n * (n + 1));
        sum += term;
    }
    return sum;
}

static double cosine(double degrees) { return sine(degrees + 90); }

/* The multiples of a step next to a number: at it or below, at it or above. */
static long at_or_below(double x, long step)
{
    long n = (long)(x / (double)step);
    while ((double)(n * step) > x)
        n--;
    return n * step;
}

static long at_or_above(double x, long step) { return -at_or_below(-x, step); }

static double x_of(const panel *p, double x)
{
    return p->left + (x - p->least_x) / (p->most_x - p->least_x) * (p->right - p->left);
}

static double y_of(const panel *p, double y)
{
    return p->bottom - (y - p->least_y) / (p->most_y - p->least_y) * (p->bottom - p->top);
}

static void text(FILE *to, double x, double y, const char *class, const char *words)
{
    fprintf(to, "<text x=\"%.1f\" y=\"%.1f\" class=\"%s\">%s</text>\n", x, y, class, words);
}

static void grid_line(FILE *to, double x1, double y1, double x2, double y2)
{
    fprintf(to, "<line x1=\"%.1f\" y1=\"%.1f\" x2=\"%.1f\" y2=\"%.1f\" class=\"grid\"/>\n", x1, y1, x2, y2);
}

static void frame(FILE *to, const panel *p)
{
    fprintf(to, "<rect x=\"%.1f\" y=\"%.1f\" width=\"%.1f\" height=\"%.1f\" class=\"frame\"/>\n", p->left, p->top,
            p->right - p->left, p->bottom - p->top);
}

/* ---- the map ---- */

/* Longitudes without a jump: each point's is counted on from the one before, the first's from `base`. */
static void unrolled(const followed *f, double to[POINTS])
{
    for (uint32_t i = 0; i < located(f); i++) {
        int32_t at = f->track.points[i].longitude.number;
        if (i == 0)
            to[0] = base + eastward(base, at);
        else
            to[i] = to[i - 1] + eastward(f->track.points[i - 1].longitude.number, at);
    }
}

/* The edges of what is to be seen, in minutes; gives whether there is anything. */
static int extent(panel *p)
{
    double along[POINTS];
    int some = 0;
    for (size_t k = 0; k < count; k++) {
        unrolled(&all[k], along);
        for (uint32_t i = 0; i < located(&all[k]); i++) {
            double x = along[i], y = all[k].track.points[i].latitude.number;
            p->least_x = some && p->least_x < x ? p->least_x : x;
            p->most_x = some && p->most_x > x ? p->most_x : x;
            p->least_y = some && p->least_y < y ? p->least_y : y;
            p->most_y = some && p->most_y > y ? p->most_y : y;
            some = 1;
        }
    }
    return some;
}

/* Widens the edges: some room round the tracks, and as wide to the eye as high, by the latitude in the middle. */
static void widen(panel *p)
{
    double middle_x = (p->least_x + p->most_x) / 2, middle_y = (p->least_y + p->most_y) / 2;
    double half_x = (p->most_x - p->least_x) * 0.58 + 30, half_y = (p->most_y - p->least_y) * 0.58 + 30;
    double narrow = cosine(middle_y / 60);
    double shape = (p->right - p->left) / (p->bottom - p->top);
    narrow = narrow < 0.15 ? 0.15 : narrow;
    if (half_x * narrow < half_y * shape)
        half_x = half_y * shape / narrow;
    else
        half_y = half_x * narrow / shape;
    p->least_x = middle_x - half_x;
    p->most_x = middle_x + half_x;
    p->least_y = middle_y - half_y;
    p->most_y = middle_y + half_y;
}

/* Minutes between two lines of the graticule, so that there are some six of them. */
static int spacing(double span)
{
    static const int steps[] = {5, 10, 15, 30, 60, 120, 300, 600, 900, 1800};
    size_t i = 0;
    while (i + 1 < sizeof steps / sizeof *steps && span / steps[i] > 7)
        i++;
    return steps[i];
}

/* "37&#176;30&#8242;S"; a longitude is brought back between 180 degrees west and east. */
static void edge_words(long minutes, const char *letters, int is_longitude, char *to, size_t size)
{
    while (is_longitude && minutes > 10800)
        minutes -= 21600;
    while (is_longitude && minutes <= -10800)
        minutes += 21600;
    long own = minutes < 0 ? -minutes : minutes;
    int letter = own == 0 || (is_longitude && own == 10800) ? 0 : letters[minutes < 0];
    int length = snprintf(to, size, "%ld&#176;", own / 60);
    if (own % 60 != 0)
        length += snprintf(to + length, size - (size_t)length, "%02ld&#8242;", own % 60);
    if (letter)
        snprintf(to + length, size - (size_t)length, "%c", letter);
}

static void graticule(FILE *to, const panel *p)
{
    char words[48];
    int step = spacing(p->most_x - p->least_x);
    for (long x = at_or_above(p->least_x, step); x <= p->most_x; x += step) {
        grid_line(to, x_of(p, (double)x), p->top, x_of(p, (double)x), p->bottom);
        edge_words(x, "EW", 1, words, sizeof words);
        text(to, x_of(p, (double)x), p->bottom + 18, "middle", words);
    }
    step = spacing(p->most_y - p->least_y);
    for (long y = at_or_above(p->least_y, step); y <= p->most_y; y += step) {
        if (y < -5400 || y > 5400)
            continue;
        grid_line(to, p->left, y_of(p, (double)y), p->right, y_of(p, (double)y));
        edge_words(y, "NS", 0, words, sizeof words);
        text(to, p->left - 8, y_of(p, (double)y) + 4, "end", words);
    }
}

/* What is drawn from here to the next </g> is seen in a panel alone. */
static void clip(FILE *to, const char *name, const panel *p)
{
    fprintf(to, "<clipPath id=\"%s\"><rect x=\"%.1f\" y=\"%.1f\" width=\"%.1f\" height=\"%.1f\"/></clipPath>\n", name, p->left,
            p->top, p->right - p->left, p->bottom - p->top);
    fprintf(to, "<g clip-path=\"url(#%s)\">\n", name);
}

/* Where a name is written beside a place: on the side where the track is not. */
static void draw_name(FILE *to, const panel *p, double x, double y, double ahead, const char *words)
{
    int left = ahead > 0 ? x - p->left > 70 : p->right - x < 70;
    text(to, left ? x - 9 : x + 9, y - 7, left ? "name end" : "name", words);
}

static void draw_track(FILE *to, const panel *p, size_t k)
{
    const followed *f = &all[k];
    const char *colour = colours[k % COLOURS];
    double along[POINTS];
    uint32_t points = located(f);
    char words[16];
    unrolled(f, along);
    if (points > 1) {
        fprintf(to, "<polyline class=\"track\" stroke=\"%s\" points=\"", colour);
        for (uint32_t i = 0; i < points; i++)
            fprintf(to, "%s%.1f,%.1f", i ? " " : "", x_of(p, along[i]), y_of(p, f->track.points[i].latitude.number));
        fputs("\"/>\n", to);
    }
    for (uint32_t i = 0; i < points; i++)
        fprintf(to, "<circle cx=\"%.1f\" cy=\"%.1f\" r=\"%s\" fill=\"%s\" stroke=\"%s\" stroke-width=\"1.5\"/>\n",
                x_of(p, along[i]), y_of(p, f->track.points[i].latitude.number), i == 0 ? "5" : "3.2",
                i == 0 ? "#ffffff" : colour, colour);
    if (points > 0 && k < NAMED) {
        snprintf(words, sizeof words, "%.6s", (const char *)f->report.designator);
        draw_name(to, p, x_of(p, along[0]), y_of(p, f->track.points[0].latitude.number),
                  points > 1 ? along[1] - along[0] : 1, words);
    }
}

static void draw_map(FILE *to)
{
    panel p = {70, 70, 700, 600, 0, 0, 0, 0};
    text(to, p.left, p.top - 14, "head", "Tracks");
    text(to, p.right, p.top - 14, "end", "a ring is the first observation");
    if (extent(&p)) {
        widen(&p);
        graticule(to, &p);
        clip(to, "map", &p);
        for (size_t k = 0; k < count; k++)
            draw_track(to, &p, k);
        fputs("</g>\n", to);
    } else
        text(to, (p.left + p.right) / 2, (p.top + p.bottom) / 2, "middle", "no position is known");
    frame(to, &p);
}

/* ---- the profile ---- */

/*
 * A wind barb: the staff points to where the wind blows from; a pennant is 50 knots, a feather 10, a short one 5. The
 * feathers stand to the right of the staff, seen along it, and south of the equator to the left.
 */
static void barb(FILE *to, double x, double y, long direction, long speed, int south, const char *colour)
{
    double sx = sine((double)direction), sy = -cosine((double)direction);
    double side_x = south ? sy : -sy, side_y = south ? -sx : sx;
    long fives = (speed + 2) / 5;
    double long_enough = (double)(fives / 10) * 6.5 + 24, staff = long_enough > STAFF ? long_enough : STAFF, at = staff;
    if (fives == 0) {
        fprintf(to, "<circle cx=\"%.1f\" cy=\"%.1f\" r=\"4\" fill=\"none\" stroke=\"%s\"/>\n", x, y, colour);
        return;
    }
    fprintf(to, "<g stroke=\"%s\" fill=\"%s\" class=\"barb\"><path d=\"M%.1f %.1fL%.1f %.1f", colour, colour, x, y,
            x + sx * staff, y + sy * staff);
    for (long left = fives; left > 0;) {
        double bx = x + sx * at, by = y + sy * at;
        if (left >= 10) {
            fprintf(to, "M%.1f %.1fL%.1f %.1fL%.1f %.1fZ", bx, by, bx + side_x * 9 - sx * 2, by + side_y * 9 - sy * 2,
                    bx - sx * 5, by - sy * 5);
            left -= 10;
            at -= 6.5;
            continue;
        }
        if (left == 1 && fives == 1 && at == staff) { /* a lone short feather stands in from the end */
            at -= 4;
            continue;
        }
        double reach = left >= 2 ? 10 : 5;
        fprintf(to, "M%.1f %.1fL%.1f %.1f", bx, by, bx + side_x * reach + sx * reach * 0.35,
                by + side_y * reach + sy * reach * 0.35);
        left -= left >= 2 ? 2 : 1;
        at -= 4;
    }
    fputs("\"/></g>\n", to);
}

/* The edges of the profile, tenths of a degree and tens of feet; gives whether there is anything. */
static int profile_extent(panel *p)
{
    int some = 0, warm = 0;
    p->least_y = 0;
    p->most_y = 500;
    p->least_x = 0;
    p->most_x = 0;
    for (size_t k = 0; k < count; k++)
        for (uint32_t i = 0; i < all[k].track.count; i++) {
            const esk_observation *o = observation_of(&all[k], i);
            if (!o->altitude.given || (!o->temperature.given && !o->wind_speed.given))
                continue;
            some = 1;
            p->least_y = o->altitude.number < p->least_y ? o->altitude.number : p->least_y;
            p->most_y = o->altitude.number > p->most_y ? o->altitude.number : p->most_y;
            if (!o->temperature.given)
                continue;
            p->least_x = !warm || o->temperature.number < p->least_x ? o->temperature.number : p->least_x;
            p->most_x = !warm || o->temperature.number > p->most_x ? o->temperature.number : p->most_x;
            warm = 1;
        }
    p->least_x = (double)at_or_below(p->least_x - 40, 100);
    p->most_x = (double)at_or_above(p->most_x + 40, 100);
    p->least_y = (double)at_or_below(p->least_y - 20, 100);
    p->most_y = (double)at_or_above(p->most_y + 60, 500);
    return some;
}

static void profile_grid(FILE *to, const panel *p)
{
    char words[32];
    int step = p->most_x - p->least_x > 1000 ? 400 : p->most_x - p->least_x > 600 ? 200 : 100;
    for (long x = at_or_above(p->least_x, step); x <= p->most_x; x += step) {
        grid_line(to, x_of(p, (double)x), p->top, x_of(p, (double)x), p->bottom);
        snprintf(words, sizeof words, x < 0 ? "&#8722;%ld" : "%ld", (x < 0 ? -x : x) / 10);
        text(to, x_of(p, (double)x), p->bottom + 18, "middle", words);
    }
    step = p->most_y - p->least_y > 3000 ? 1000 : p->most_y - p->least_y > 1000 ? 500 : 100;
    for (long y = at_or_above(p->least_y, step); y <= p->most_y; y += step) {
        grid_line(to, p->left, y_of(p, (double)y), WIDTH - 20, y_of(p, (double)y));
        snprintf(words, sizeof words, "%ld", y * 10);
        text(to, p->left - 8, y_of(p, (double)y) + 4, "end", words);
    }
    text(to, (p->left + p->right) / 2, p->bottom + 36, "middle", "temperature, &#176;C");
    text(to, p->left, p->top - 14, "head", "Profile: temperature and wind by altitude, feet");
}

static void draw_temperatures(FILE *to, const panel *p, size_t k)
{
    const char *colour = colours[k % COLOURS];
    int drawing = 0;
    for (uint32_t i = 0; i < all[k].track.count; i++) {
        const esk_observation *o = observation_of(&all[k], i);
        if (!o->altitude.given || !o->temperature.given)
            continue;
        if (!drawing)
            fprintf(to, "<polyline class=\"track\" stroke=\"%s\" points=\"", colour);
        fprintf(to, "%s%.1f,%.1f", drawing ? " " : "", x_of(p, o->temperature.number), y_of(p, o->altitude.number));
        drawing = 1;
    }
    if (drawing)
        fputs("\"/>\n", to);
    for (uint32_t i = 0; i < all[k].track.count; i++) {
        const esk_observation *o = observation_of(&all[k], i);
        if (o->altitude.given && o->temperature.given)
            fprintf(to, "<circle cx=\"%.1f\" cy=\"%.1f\" r=\"3.2\" fill=\"%s\"/>\n", x_of(p, o->temperature.number),
                    y_of(p, o->altitude.number), colour);
    }
}

/* Barbs in columns, those of one report in one of them; where two would lie on each other the first is drawn. */
static void draw_winds(FILE *to, const panel *p)
{
    static double taken[COLUMNS][200];
    size_t many[COLUMNS] = {0};
    for (size_t k = 0; k < count; k++)
        for (uint32_t i = 0; i < all[k].track.count; i++) {
            const esk_observation *o = observation_of(&all[k], i);
            size_t column = k % COLUMNS;
            double y = y_of(p, o->altitude.number);
            int free = o->altitude.given && o->wind_speed.given && many[column] < 200;
            for (size_t n = 0; n < many[column]; n++)
                free &= taken[column][n] - y >= APART || y - taken[column][n] >= APART;
            if (!free)
                continue;
            taken[column][many[column]++] = y;
            esk_figure latitude = all[k].track.points[i].latitude;
            barb(to, p->right + 42 + 34 * (double)column, y, o->wind_direction.number, o->wind_speed.number,
                 latitude.given && latitude.number < 0, colours[k % COLOURS]);
        }
}

static void draw_profile(FILE *to)
{
    panel p = {800, 70, 1005, 600, 0, 0, 0, 0};
    if (profile_extent(&p)) {
        profile_grid(to, &p);
        for (size_t k = 0; k < count; k++)
            draw_temperatures(to, &p, k);
        panel winds = {p.right, p.top, WIDTH - 20, p.bottom, 0, 0, 0, 0};
        clip(to, "winds", &winds);
        draw_winds(to, &p);
        fputs("</g>\n", to);
        text(to, (p.right + WIDTH - 20) / 2, p.bottom + 18, "middle", "wind");
    } else {
        text(to, p.left, p.top - 14, "head", "Profile");
        text(to, (p.left + p.right) / 2, (p.top + p.bottom) / 2, "middle", "no altitude is known");
    }
    frame(to, &p);
}

/* ---- the whole ---- */

static void moment_words(const followed *f, char *to, size_t size)
{
    char first[16], last[16];
    uint32_t end = f->track.count;
    while (end > 0 && !f->track.points[end - 1].seconds.given)
        end--;
    if (end == 0) {
        snprintf(to, size, "time not known");
        return;
    }
    int32_t from = f->track.points[0].seconds.number, until = f->track.points[end - 1].seconds.number;
    name_time(from, first, sizeof first);
    name_time(until, last, sizeof last);
    snprintf(to, size, end == 1 ? "day %ld, %.5s" : "day %ld, %.5s to %.5s", day_of(from), first, last);
}

static void legend(FILE *to)
{
    char words[160], when[64];
    for (size_t k = 0; k < count && k < NAMED; k++) {
        const followed *f = &all[k];
        double x = 70 + 545 * (double)(k % 2), y = 660 + 20 * (double)(k / 2);
        fprintf(to, "<line x1=\"%.1f\" y1=\"%.1f\" x2=\"%.1f\" y2=\"%.1f\" class=\"track\" stroke=\"%s\"/>\n", x, y - 4, x + 22,
                y - 4, colours[k % COLOURS]);
        moment_words(f, when, sizeof when);
        snprintf(words, sizeof words, "%.6s, %.4s to %.4s, %s%s", (const char *)f->report.designator,
                 (const char *)f->report.departure, (const char *)f->report.arrival, when,
                 located(f) < f->track.count ? ", in part not located" : "");
        text(to, x + 30, y, "legend", words);
    }
    if (count > NAMED) {
        snprintf(words, sizeof words, "and %lu more", (unsigned long)(count - NAMED));
        text(to, 100, 660 + 20 * (double)(NAMED / 2), "legend", words);
    }
}

static void draw(FILE *to)
{
    unsigned long observations = 0;
    char words[80];
    size_t named = count < NAMED ? count : NAMED;
    int height = 660 + 20 * (int)((named + 1) / 2 + (count > NAMED));
    for (size_t k = count; k-- > 0;) {
        observations += all[k].track.count;
        base = located(&all[k]) > 0 ? all[k].track.points[0].longitude.number : base;
    }
    snprintf(words, sizeof words, "%lu report%s, %lu observation%s", (unsigned long)count, count == 1 ? "" : "s",
             observations, observations == 1 ? "" : "s");
    fprintf(to,
            "<svg xmlns=\"http://www.w3.org/2000/svg\" width=\"%d\" height=\"%d\" viewBox=\"0 0 %d %d\">\n"
            "<title>Tracks of aircraft reports</title>\n"
            "<style>\n"
            "text { font: 12px sans-serif; fill: #333333 }\n"
            ".head { font-weight: bold; font-size: 14px }\n"
            ".end { text-anchor: end }\n"
            ".middle { text-anchor: middle }\n"
            ".name { font-weight: bold; stroke: #ffffff; stroke-width: 3px; paint-order: stroke }\n"
            ".grid { stroke: #d5dbe0; stroke-width: 1 }\n"
            ".frame { fill: none; stroke: #6b7680; stroke-width: 1.2 }\n"
            ".track { fill: none; stroke-width: 2; stroke-linejoin: round }\n"
            ".barb path { stroke-width: 1.3 }\n"
            "</style>\n"
            "<rect width=\"%d\" height=\"%d\" fill=\"#ffffff\"/>\n",
            WIDTH, height, WIDTH, height, WIDTH, height);
    text(to, 70, 30, "head", words);
    draw_map(to);
    draw_profile(to);
    legend(to);
    fputs("</svg>\n", to);
}

int picture_write(const char *file)
{
    FILE *to = fopen(file, "wb");
    if (to == NULL)
        return failed(file, "open");
    draw(to);
    int bad = ferror(to);
    if (fclose(to) != 0 || bad)
        return failed(file, "write");
    return FINE;
}
