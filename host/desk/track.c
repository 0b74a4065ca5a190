/* eskelvor track: where and when each observation of a report was made. */
#include "track.h"

#include "json.h"
#include "minutes.h"
#include "options.h"
#include "report_json.h"
#include "reports_in.h"
#include "table.h"

#include <stdio.h>

static int csv, geojson;
static const char *svg;
static unsigned long shown, refused;

const esk_observation *observation_of(const followed *f, uint32_t index)
{
    return index == 0 ? &f->report.first : &f->report.later[index - 1];
}

uint32_t located(const followed *f)
{
    uint32_t count = 0;
    while (count < f->track.count && f->track.points[count].latitude.given && f->track.points[count].longitude.given)
        count++;
    return count;
}

int32_t eastward(int32_t from, int32_t to)
{
    int32_t step = to - from;
    return step > 10800 ? step - 21600 : step < -10800 ? step + 21600 : step;
}

row followed_row(const followed *f, uint32_t index)
{
    row r = {f->file, f->number, f->offset, &f->report, &f->track, (int)index + 1, observation_of(f, index),
             f->track.points[index]};
    return r;
}

/* A line of the table; each word in its place. */
static void table_line(const char *number, const char *latitude, const char *longitude, const char *time,
                       const char *altitude, const char *temperature, const char *wind)
{
    printf("%3s %11s %12s  %-17s %9s %9s  %s\n", number, latitude, longitude, time, altitude, temperature, wind);
}

static const char *degrees(esk_figure minutes, const char *letters, char *to, size_t room)
{
    if (!minutes.given)
        return "-";
    name_degrees(minutes.number, letters, 0, to, room);
    return to;
}

static const char *moment(esk_figure seconds, char *to, size_t room)
{
    char time[16];
    if (!seconds.given)
        return "-";
    name_time(seconds.number, time, sizeof time);
    snprintf(to, room, "day %ld, %s", day_of(seconds.number), time);
    return to;
}

static const char *figure(esk_figure f, double per, int decimals, const char *unit, char *to, size_t room)
{
    if (!f.given)
        return "-";
    snprintf(to, room, "%.*f %s", decimals, f.number / per, unit);
    return to;
}

static const char *wind(const esk_observation *o, char *to, size_t room)
{
    if (!o->wind_direction.given)
        return "-";
    snprintf(to, room, "%03ld/%ld kt", (long)o->wind_direction.number, (long)o->wind_speed.number);
    return to;
}

static void show_track(const followed *f)
{
    origin from = {f->file, "report", f->number, f->offset};
    char name[NAME_ROOM], number[4], latitude[24], longitude[24], time[40], altitude[24], temperature[24], blows[32];
    name_origin(&from, name, sizeof name);
    printf("%s%s: %.4s to %.4s, aircraft %.6s\n", shown == 1 ? "" : "\n", name, (const char *)f->report.departure,
           (const char *)f->report.arrival, (const char *)f->report.designator);
    table_line("", "latitude", "longitude", "time", "altitude", "temp.", "wind");
    for (uint32_t i = 0; i < f->track.count; i++) {
        const esk_observation *o = observation_of(f, i);
        const esk_point *p = &f->track.points[i];
        snprintf(number, sizeof number, "%u", (unsigned)(i + 1) % 100);
        table_line(number, degrees(p->latitude, "NS", latitude, sizeof latitude),
                   degrees(p->longitude, "EW", longitude, sizeof longitude), moment(p->seconds, time, sizeof time),
                   figure(o->altitude, 0.1, 0, "ft", altitude, sizeof altitude),
                   figure(o->temperature, 10, 1, "C", temperature, sizeof temperature), wind(o, blows, sizeof blows));
    }
}

static void json_track(const followed *f)
{
    origin from = {f->file, "report", f->number, f->offset};
    json_object(NULL);
    json_bool("accepted", 1);
    json_origin(&from);
    json_number("code", ESK_ACCEPTED);
    json_track_keys(followed_row(f, 0));
    json_close();
}

static int one_report(const piece *p, const char *file)
{
    esk_track track = esk_report_track(p->bytes, p->length);
    if (track.answer.code != ESK_ACCEPTED) {
        refused++;
        return refuse_report(p, file, track.answer);
    }
    followed f = {file, p->number, p->offset, esk_report_read(p->bytes, p->length).report, track};
    shown++;
    if (svg != NULL && picture_add(&f) != FINE)
        return TROUBLE;
    if (geojson)
        geo_track(&f);
    else if (csv)
        for (uint32_t i = 0; i < f.track.count; i++) {
            row r = followed_row(&f, i);
            csv_row(&r);
        }
    else if (as_json)
        json_track(&f);
    else if (svg == NULL)
        show_track(&f);
    return FINE;
}

static int run(int count, char **words)
{
    const option known[] = {SET_OPTION("--csv", &csv), SET_OPTION("--geojson", &geojson), VALUE_OPTION("--svg", NULL, &svg)};
    if (take_options(&count, words, known, OPTIONS(known)) != FINE)
        return TROUBLE;
    if (csv + geojson > 1 || (as_json && (csv || geojson)))
        return trouble(NULL, "give one of --csv, --geojson and --json");
    if (csv) {
        if (table_choose("file,report,departure,arrival,designator,observation,kind,latitude_minutes,latitude_degrees,"
                         "longitude_minutes,longitude_degrees,seconds_into_month,day,time,altitude_feet,"
                         "temperature_celsius,wind_direction_degrees,wind_speed_knots") != FINE)
            return TROUBLE;
        csv_head();
    }
    if (geojson)
        geo_begin();
    int status = each_report(count, words, one_report);
    if (geojson)
        geo_end();
    if (svg != NULL)
        status = worse(status, picture_write(svg));
    if (refused > 0 && !as_json && shown + refused > 1)
        fprintf(stderr, "eskelvor: %lu reports followed, %lu refused\n", shown, refused);
    return status;
}

const subcommand track_subcommand = {
    "track",
    "[--csv | --geojson] [--svg PICTURE] [FILE | -]..",
    "Shows where and when each observation of a report was made",
    "  FILE         a file of reports; - or no word is standard input\n"
    "  --csv        a table: a line of names, then a row for each observation\n"
    "  --geojson    for map programs (RFC 7946): a line for each report, in two or more\n"
    "               where it goes over 180 degrees, and a point for each observation,\n"
    "               with its figures as properties\n"
    "  --svg PICTURE\n"
    "               writes a picture: the tracks over a graticule, and beside it the\n"
    "               profile, temperature and wind barbs by altitude. Nothing else is\n"
    "               written then, unless one of the other options asks for it\n"
    "\n"
    "A later observation of a report has changes since the one before. They are added\n"
    "up: a figure is known as long as every observation up to this one gives it, and a\n"
    "latitude as long as no sum goes beyond a pole. Longitude goes on from the other\n"
    "side at 180 degrees; time runs on past the month's end, so that day 32 is the first\n"
    "of the next month where this one has 31. What is not known is a dash; in a table it\n"
    "is empty, in JSON null. An absent observation has no point.\n"
    "\n"
    "Reports that are refused are told as report tells them, and the others are shown.\n",
    run,
    0,
};
