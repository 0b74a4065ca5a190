/* Writing records: every code with its place, each member of another form than its one, each room, canaries round every
 * buffer. */
#include "check.h"
#include "reports.h"

/* A record that is not allowed, or a room: each made from what the full report reads to. */
typedef struct write_case {
    void (*make)(esk_report *);
    unsigned code;
    unsigned long place;
    const char *why;
} write_case;

static const esk_figure missing;
static const esk_observation absent;

static void departure(esk_report *r) { r->departure[3] = 'd'; }
static void arrival(esk_report *r) { r->arrival[0] = 0; }
static void designator(esk_report *r) { r->designator[5] = 0xff; }
static void first_kind(esk_report *r) { r->first.kind = '/'; }
static void latitude(esk_report *r) { r->first.latitude.number = 5401; }
static void longitude(esk_report *r) { r->first.longitude.number = -10801; }
static void time_high(esk_report *r) { r->first.time.number = 2678400; }
static void altitude(esk_report *r) { r->first.altitude.number = -101; }
static void temperature(esk_report *r) { r->first.temperature.number = 800; }
static void direction(esk_report *r) { r->first.wind_direction.number = 361; }
static void speed(esk_report *r) { r->first.wind_speed.number = 800; }
static void gust(esk_report *r) { r->first.gust.number = -1; }
static void vapour(esk_report *r) { r->first.vapour.given = 1, r->first.vapour.number = 32000; }
static void quality(esk_report *r) { r->first.quality = ':'; }
static void no_direction(esk_report *r) { r->first.wind_direction = missing; }
static void no_speed(esk_report *r) { r->first.wind_speed = missing; }
static void later_kind(esk_report *r) { r->later[2].kind = 0; }
static void change(esk_report *r) { r->later[1].latitude.number = -801; }
static void since(esk_report *r) { r->later[1].time.number = 32000; }
static void later_wind(esk_report *r) { r->later[1].wind_direction = missing; }
static void later_quality(esk_report *r) { r->later[6].quality = ' '; }
static void hole(esk_report *r) { r->later[0] = absent; }
static void hole_and_kind(esk_report *r) { r->later[0] = absent, r->later[1].kind = 'X'; }
static void hole_and_change(esk_report *r) { r->later[0] = absent, r->later[1].latitude.number = 9999; }
static void leftmost(esk_report *r) { speed(r), departure(r), later_kind(r); }

static const write_case writes[] = {
    {departure, 4, 0, "departure"},
    {arrival, 4, 4, "arrival"},
    {designator, 4, 16, "designator"},
    {first_kind, 4, 24, "kind"},
    {latitude, 5, 25, "latitude"},
    {longitude, 5, 28, "longitude"},
    {time_high, 5, 31, "time"},
    {altitude, 5, 36, "altitude"},
    {temperature, 5, 39, "temperature"},
    {direction, 5, 41, "direction"},
    {speed, 5, 43, "speed"},
    {gust, 5, 45, "gust"},
    {vapour, 5, 47, "vapour"},
    {quality, 4, 50, "quality"},
    {no_direction, 7, 43, "speed without direction"},
    {no_speed, 7, 43, "direction without speed"},
    {later_kind, 4, 99, "a later kind"},
    {change, 5, 77, "a latitude change"},
    {since, 5, 81, "a time since"},
    {later_wind, 7, 91, "a later wind"},
    {later_quality, 4, 217, "the last quality"},
    {hole, 7, 76, "a present one behind an absent one"},
    {hole_and_kind, 4, 76, "the kind's own check before 7"},
    {hole_and_change, 7, 76, "7 at the kind before the fields behind it"},
    {leftmost, 4, 0, "the leftmost field"},
};

static void write_holds(esk_report r, size_t room, unsigned code, unsigned long place, const char *text,
                        const char *why)
{
    unsigned length = code == 0 ? ESK_REPORT_BYTES : 0;
    lent out;
    esk_answer got = esk_report_write(r, lend(&out, NULL, room, 1), room);
    if (!is_answer(got, code, place, length)) {
        fail(why, "esk_report_write", (const uint8_t *)&r, sizeof r);
        fprintf(stderr, "  room    : %lu\n", (unsigned long)room);
        wrong_answer(got, code, place, length);
    }
    if (!is_written(&out, text, length)) {
        fail(why, "esk_report_write", (const uint8_t *)&r, sizeof r);
        wrong_bytes(&out);
    }
}

static void write_all(void)
{
    static const size_t rooms[] = {0, 1, 219, 220, 221, MOST};
    const esk_report good = esk_report_read((const uint8_t *)full, ESK_REPORT_BYTES).report;
    for (size_t i = 0; i < sizeof rooms / sizeof *rooms; i++) {
        size_t room = rooms[i];
        for (size_t j = 0; j < sizeof writes / sizeof *writes; j++) {
            esk_report r = good;
            writes[j].make(&r);
            write_holds(r, room, writes[j].code, writes[j].place, "", writes[j].why);
        }
        write_holds(good, room, room < 220 ? 2 : 0, 0, full, "an allowed record");
    }
}

/* ---- members of another form ---- */

/* The fields of a record from left to right: departure, arrival, designator and spare; then of each observation its kind,
 * nine figures and quality. */
enum { SPARE = 3, NAMED = 4, KIND = 0, QUALITY = 10, EACH = 11, FIELDS = NAMED + 8 * EACH };

static esk_observation *observation(esk_report *r, int field)
{
    int i = (field - NAMED) / EACH;
    return i == 0 ? &r->first : &r->later[i - 1];
}

/* Of a field behind the names: which one of its observation. */
static int of_observation(int field) { return (field - NAMED) % EACH; }

static int is_figure(int field) { return field >= NAMED && of_observation(field) % QUALITY != KIND; }

static esk_figure *figure(esk_report *r, int field)
{
    esk_observation *o = observation(r, field);
    esk_figure *figures[] = {&o->latitude,       &o->longitude,  &o->time, &o->altitude, &o->temperature,
                             &o->wind_direction, &o->wind_speed, &o->gust, &o->vapour};
    return figures[of_observation(field) - 1];
}

static unsigned long place_of(int field)
{
    static const unsigned long named[] = {0, 4, 16, 22}, parts[] = {24, 51, 76, 99, 124, 147, 172, 195};
    static const unsigned long in_first[] = {0, 1, 4, 7, 12, 15, 17, 19, 21, 23, 26};
    static const unsigned long in_later[] = {0, 1, 3, 5, 8, 11, 13, 15, 17, 19, 22};
    if (field < NAMED)
        return named[field];
    int i = (field - NAMED) / EACH, k = of_observation(field);
    return parts[i] + (i == 0 ? in_first[k] : in_later[k]);
}

/* Makes a field one that its own check refuses, and gives the code: 0 for the spare bytes, which have none. */
static unsigned own_fault(esk_report *r, int field)
{
    uint8_t *names[] = {r->departure, r->arrival, r->designator};
    if (field == SPARE)
        return 0;
    if (is_figure(field)) {
        figure(r, field)->number = INT32_MAX, figure(r, field)->given = 1;
        return 5;
    }
    if (field < NAMED)
        names[field][3] = 'a';
    else if (of_observation(field) == KIND)
        observation(r, field)->kind = 'X';
    else
        observation(r, field)->quality = ':';
    return 4;
}

/* Makes a member of the field another form, which for its own check counts as given or present; 0 where there is none. */
static int other_form(esk_report *r, int field)
{
    if (field == SPARE)
        r->spare[1] = 1;
    else if (is_figure(field))
        figure(r, field)->given = 2;
    else if (field >= NAMED && of_observation(field) == KIND)
        observation(r, field)->present = 2;
    else
        return 0;
    return 1;
}

static void refused(esk_report r, unsigned code, unsigned long place, const char *why)
{
    static const size_t rooms[] = {0, 219, 220, MOST};
    for (size_t i = 0; i < sizeof rooms / sizeof *rooms; i++)
        write_holds(r, rooms[i], code, place, "", why);
}

/* Every figure of every observation in each other form. */
static void figure_forms(const esk_report *good)
{
    static const uint32_t givens[] = {2, 3, 0x100, 0x101, 0x10000, 0x10001, 0x80000000u, 0xffffffffu};
    static const int32_t numbers[] = {1, -1, 256, 0x10000, INT32_MIN, INT32_MAX};
    for (int field = NAMED; field < FIELDS; field++) {
        if (!is_figure(field))
            continue;
        for (size_t i = 0; i < sizeof givens / sizeof *givens; i++) {
            esk_report r = *good;
            figure(&r, field)->given = givens[i];
            refused(r, 7, place_of(field), "given neither 0 nor 1");
            figure(&r, field)->number = 0;
            refused(r, 7, place_of(field), "given neither 0 nor 1, and the number 0");
            figure(&r, field)->number = INT32_MIN;
            refused(r, 5, place_of(field), "given neither 0 nor 1 counts as given: 5 comes first");
        }
        for (size_t i = 0; i < sizeof numbers / sizeof *numbers; i++) {
            esk_report r = *good;
            figure(&r, field)->given = 0, figure(&r, field)->number = numbers[i];
            refused(r, 7, place_of(field), "missing, with a number: its range is not looked at");
        }
    }
}

/* `present` in each other form, in every observation. */
static void present_forms(const esk_report *good)
{
    static const uint16_t presents[] = {2, 3, 0x100, 0x101, 0x8000, 0xffff};
    for (int field = NAMED; field < FIELDS; field += EACH) {
        for (size_t i = 0; i < sizeof presents / sizeof *presents; i++) {
            esk_report r = *good;
            observation(&r, field)->present = presents[i];
            refused(r, 7, place_of(field), "present neither 0 nor 1");
            figure(&r, field + 1)->number = INT32_MAX, figure(&r, field + 1)->given = 1;
            refused(r, 7, place_of(field), "7 at the kind before the latitude");
            observation(&r, field)->kind = 0;
            refused(r, 4, place_of(field), "present neither 0 nor 1 counts as present: 4 comes first");
        }
    }
    esk_report r = *good;
    r.first.present = 0;
    refused(r, 7, 24, "present 0 in the first observation");
    r.first.latitude.number = INT32_MAX;
    refused(r, 7, 24, "7 at the kind before the latitude");
    r.first.kind = '/';
    refused(r, 4, 24, "the first observation is looked at as present: 4 comes first");
    r.first = absent;
    refused(r, 4, 24, "the first observation absent: its kind is none");
}

/* An absent observation with any byte but those of `present` not 0, behind present ones and behind absent ones. */
static void absent_forms(const esk_report *good)
{
    static const uint8_t values[] = {1, 'A', 0x80, 0xff};
    for (int field = NAMED + EACH; field < FIELDS; field += EACH) {
        for (size_t at = 0; at < offsetof(esk_observation, present); at++) {
            for (size_t i = 0; i < sizeof values; i++) {
                esk_report r = *good;
                *observation(&r, field) = absent;
                ((uint8_t *)observation(&r, field))[at] = values[i];
                refused(r, 7, place_of(field), "present 0 beside a member that is not 0");
                for (int before = NAMED + EACH; before < field; before += EACH)
                    *observation(&r, before) = absent;
                refused(r, 7, place_of(field), "present 0 beside a member that is not 0, behind absent ones");
            }
        }
    }
    esk_report r = *good;
    r.later[3].present = 0, r.later[3].kind = 'X', r.later[3].altitude.number = INT32_MAX;
    refused(r, 7, 124, "present 0 counts as absent: no 4 and no 5");
    r.later[2] = absent, r.later[3] = good->later[3], r.later[3].present = 2;
    refused(r, 7, 124, "behind an absent one, and present neither 0 nor 1");
    r.later[3].kind = 'X';
    refused(r, 4, 124, "the kind's own check comes before both");
}

static void spare_forms(const esk_report *good)
{
    for (unsigned value = 1; value < 256; value++) {
        esk_report r = *good;
        r.spare[0] = (uint8_t)value;
        refused(r, 7, 22, "the first spare byte");
        r.spare[1] = (uint8_t)(value * 7);
        refused(r, 7, 22, "both spare bytes");
        r.spare[0] = 0, r.spare[1] = (uint8_t)value;
        refused(r, 7, 22, "the second spare byte");
    }
}

/* Wind: a figure of another form still counts, as given or as missing, for the speed's own 7. */
static void wind_forms(const esk_report *good)
{
    esk_report r = *good;
    r.first.wind_direction.given = 0;
    refused(r, 7, 41, "the direction's form before the wind's 7");
    r = *good, r.first.wind_direction.given = 2, r.first.wind_speed = missing;
    refused(r, 7, 41, "the direction's form before the wind's 7");
    r = *good, r.first.wind_direction = missing, r.first.wind_speed.given = 2;
    refused(r, 7, 43, "the wind's 7 and the speed's form at one place");
    r = *good, r.first.wind_speed.given = 0;
    refused(r, 7, 43, "the wind's 7 and the speed's form at one place");
    r.first.wind_direction = missing;
    refused(r, 7, 43, "the speed's form alone");
    r = *good, r.first.wind_direction = missing, r.first.gust.given = 2;
    refused(r, 7, 43, "the wind's 7 before the gust's form");
}

/* A member of another form in each field, and an own fault in each: the one further left, at one place the own. */
static void leftmost_forms(const esk_report *good)
{
    for (int form = 0; form < FIELDS; form++) {
        for (int own = 0; own < FIELDS; own++) {
            esk_report r = *good;
            unsigned code = own_fault(&r, own);
            if (!other_form(&r, form) || code == 0)
                continue;
            if (own <= form)
                refused(r, code, place_of(own), "the own fault is further left, or at the same place");
            else
                refused(r, 7, place_of(form), "the other form is further left");
        }
        for (int other = 0; other < form; other++) {
            esk_report r = *good;
            if (other_form(&r, other) && other_form(&r, form))
                refused(r, 7, place_of(other), "two of another form");
        }
    }
}

/* Records in their one form are written, those with missing figures and absent observations too. */
static void one_form(void)
{
    const esk_report r = esk_report_read((const uint8_t *)printed, ESK_REPORT_BYTES).report;
    HOLD(r.first.gust.given == 0 && r.first.gust.number == 0 && memcmp(&r.later[6], &absent, sizeof absent) == 0);
    write_holds(r, MOST, 0, 0, printed, "missing figures and absent observations");
    write_holds(r, 219, 2, 0, "", "missing figures and absent observations");
    esk_report nothing = r;
    memset(&nothing, 0, sizeof nothing);
    refused(nothing, 4, 0, "all zero");
}

int main(void)
{
    const esk_report good = esk_report_read((const uint8_t *)full, ESK_REPORT_BYTES).report;
    write_all();
    one_form();
    figure_forms(&good);
    present_forms(&good);
    absent_forms(&good);
    spare_forms(&good);
    wind_forms(&good);
    leftmost_forms(&good);
    printf("test_record: %lu checks passed\n", checks);
    return 0;
}
