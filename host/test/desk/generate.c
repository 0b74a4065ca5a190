/*
 * generate: valid commands or reports, made by the library's own writers from records that a seed picks.
 *
 *   generate commands COUNT SEED     a command on each line
 *   generate reports COUNT SEED      reports one behind the other
 *
 * Every figure takes its least and its most often, lists are empty, full and in between, figures are missing and
 * observations absent. A record that its writer refuses ends it with status 1: all of these are valid.
 */
#include "eskelvor.h"

#include <stdio.h>
#include <stdlib.h>
#include <string.h>

static uint64_t state;

/* xorshift64* */
static uint32_t next(void)
{
    state ^= state >> 12;
    state ^= state << 25;
    state ^= state >> 27;
    return (uint32_t)((state * 2685821657736338717ULL) >> 32);
}

static long between(long least, long most)
{
    uint32_t pick = next() % 8;
    return pick == 0 ? least : pick == 1 ? most : least + (long)(next() % (uint32_t)(most - least + 1));
}

static uint8_t one_of(const char *bytes)
{
    return (uint8_t)bytes[next() % strlen(bytes)];
}

static void name(uint8_t *to, int bytes)
{
    for (int i = 0; i < bytes; i++)
        to[i] = one_of("ABCDEFGHIJKLMNOPQRSTUVWXYZ0123456789");
}

static void refused(const char *what, esk_answer a)
{
    fprintf(stderr, "generate: a %s is refused with code %u at byte %lu\n", what, (unsigned)a.code,
            (unsigned long)a.place);
    exit(1);
}

/* ---- commands --------------------------------------------------------------------------------------------------- */

static esk_edge edge(long degrees, const char *letters)
{
    esk_edge e = {(uint8_t)(degrees < 0 ? -degrees : degrees), (uint8_t)letters[degrees < 0]};
    return e;
}

static void boxes(esk_boxes *to)
{
    to->count = (uint8_t)between(0, 16);
    for (int i = 0; i < to->count; i++) {
        long north = between(-90, 90);
        to->regions[i].north = edge(north, "NS");
        to->regions[i].south = edge(between(-90, north), "NS");
        to->regions[i].east = edge(between(-180, 180), "EW");
        to->regions[i].west = edge(between(-180, 180), "EW");
    }
}

static void airfields(esk_airfields *to)
{
    to->count = (uint8_t)between(0, 20);
    name(to->names, 4 * to->count);
}

static void section(esk_settings *s, int k)
{
    switch (k) {
    case 2:
        boxes(&s->regions.reporting);
        boxes(&s->regions.inhibiting);
        break;
    case 3:
        airfields(&s->airports.selected.ascent);
        airfields(&s->airports.selected.descent);
        airfields(&s->airports.inhibited.ascent);
        airfields(&s->airports.inhibited.descent);
        s->airports.routine = (uint8_t)between(0, 1);
        break;
    case 4:
        s->enroute.interval = (uint8_t)between(1, 60);
        s->enroute.wind = (uint8_t)between(0, 1);
        break;
    case 5:
        s->ascent.mode = (uint8_t)between(0, 1);
        s->ascent.interval1 = (uint8_t)between(3, 20);
        s->ascent.duration = (uint16_t)between(30, 600);
        s->ascent.interval2 = (uint8_t)between(3, 60);
        s->ascent.total = (uint8_t)between(51, 111);
        s->ascent.top = (uint16_t)between(150, 350);
        s->ascent.list = (uint8_t)between(1, 2);
        s->ascent.timer = (uint8_t)between(0, 1);
        break;
    case 6: s->routine6 = (uint8_t)between(0, 1); break;
    case 7:
        s->descent.mode = (uint16_t)between(0, 1);
        s->descent.interval = (uint16_t)between(10, 300);
        s->descent.top = (uint16_t)between(150, 350);
        s->descent.list = (uint8_t)between(1, 2);
        s->descent.timer = (uint8_t)between(0, 1);
        break;
    case 8: s->routine8 = (uint8_t)between(0, 1); break;
    case 9:
        s->hours.start = (uint8_t)between(0, 23);
        s->hours.end = (uint8_t)between(0, 23);
        break;
    }
}

static void command(void)
{
    esk_command c;
    uint8_t text[ESK_COMMAND_BYTES];
    memset(&c, 0, sizeof c);
    for (int i = 0; i < 7; i++)
        c.settings.flags[i] = (uint8_t)(one_of("019") - '0');
    c.downlink = (uint8_t)between(0, 2);
    for (int k = 2; k <= 9; k++)
        if (next() % 2) {
            c.named[k - 2] = (uint8_t)k;
            section(&c.settings, k);
        }
    esk_answer a = esk_command_write(&c, text, sizeof text);
    if (a.code != ESK_ACCEPTED)
        refused("command", a);
    printf("%.*s\n", (int)a.length, (const char *)text);
}

/* ---- reports ---------------------------------------------------------------------------------------------------- */

static esk_figure figure(int given, long least, long most)
{
    esk_figure f = {0, 0};
    if (given) {
        f.number = (int32_t)between(least, most);
        f.given = 1;
    }
    return f;
}

static int given(void)
{
    return next() % 6 != 0;
}

static void observation(esk_observation *o, int first)
{
    int wind = given();
    o->present = 1;
    o->kind = one_of("ADRWUE");
    o->quality = one_of("0123456789/");
    o->latitude = figure(given(), first ? -5400 : -800, first ? 5400 : 799);
    o->longitude = figure(given(), first ? -10800 : -800, first ? 10800 : 799);
    o->time = figure(given(), 0, first ? 2678399 : 31999);
    o->altitude = figure(given(), -100, 6000);
    o->temperature = figure(given(), -800, 799);
    o->wind_direction = figure(wind, 0, 360);
    o->wind_speed = figure(wind, 0, 799);
    o->gust = figure(given(), 0, 799);
    o->vapour = figure(given(), 0, 31999);
}

static void report(void)
{
    esk_report r;
    uint8_t text[ESK_REPORT_BYTES];
    memset(&r, 0, sizeof r);
    name(r.departure, 4);
    name(r.arrival, 4);
    name(r.designator, 6);
    observation(&r.first, 1);
    for (long i = 0, later = between(0, 7); i < later; i++)
        observation(&r.later[i], 0);
    esk_answer a = esk_report_write(r, text, sizeof text);
    if (a.code != ESK_ACCEPTED)
        refused("report", a);
    fwrite(text, 1, sizeof text, stdout);
}

int main(int count, char **words)
{
    int commands = count == 4 && strcmp(words[1], "commands") == 0;
    if (count != 4 || (!commands && strcmp(words[1], "reports") != 0))
        return 2;
    state = strtoull(words[3], NULL, 10) * 2654435769ULL + 1;
    for (long left = strtol(words[2], NULL, 10); left > 0; left--)
        if (commands)
            command();
        else
            report();
    return fflush(stdout) == 0 ? 0 : 2;
}
