/* Reading reports: document 01's printed one, every code with its place, every member, canaries round every text. */
#include "check.h"
#include "reports.h"

typedef struct text_case {
    const char *base;
    size_t at;
    const char *bytes;
    unsigned code;
    unsigned long place;
    const char *why;
} text_case;

static const text_case texts[] = {
    {printed, 0, "", 0, 0, "the printed report"},
    {full, 0, "", 0, 0, "eight observations"},
    {printed, 0, "a", 4, 0, "departure"},
    {printed, 3, "\x80", 4, 0, "departure's last byte: place of its first"},
    {printed, 5, " ", 4, 4, "arrival"},
    {printed, 8, "\n", 3, 8, "CR"},
    {printed, 9, "\r", 3, 8, "a wrong LF stands at the CR"},
    {printed, 15, "4", 3, 10, "AMDAR4"},
    {printed, 21, "/", 4, 16, "designator"},
    {printed, 23, " ", 3, 22, "second line's end"},
    {printed, 24, "/", 4, 24, "the first observation is never absent"},
    {printed, 24, "B", 4, 24, "kind"},
    {printed, 25, "K  ", 4, 26, "latitude, at the space after a digit"},
    {printed, 25, " K5", 6, 25, "latitude, too long a spelling"},
    {printed, 25, "NF0", 0, 0, "latitude 5400"},
    {printed, 25, "NF1", 5, 25, "latitude 5401"},
    {printed, 25, "GP0", 0, 0, "latitude -5400"},
    {printed, 25, "GO.", 5, 25, "latitude -5401"},
    {printed, 28, "QU0", 0, 0, "longitude 10800"},
    {printed, 28, "QU1", 5, 28, "longitude 10801"},
    {printed, 31, "    J", 5, 31, "time -1"},
    {printed, 31, "L1X..", 0, 0, "time 2678399"},
    {printed, 31, "L1Y00", 5, 31, "time 2678400"},
    {printed, 31, "   K5", 6, 31, "time, too long a spelling"},
    {printed, 36, "/K/", 4, 37, "altitude, at the digit behind a solidus"},
    {printed, 39, "K5", 6, 39, "temperature, too long a spelling"},
    {printed, 41, "T0", 0, 0, "direction 360"},
    {printed, 41, "T1", 5, 41, "direction 361"},
    {printed, 41, "J.", 6, 41, "6 before 5"},
    {printed, 41, "//", 7, 43, "speed without direction, at the speed"},
    {printed, 43, "//", 7, 43, "direction without speed, at the speed"},
    {printed, 41, "////", 0, 0, "no wind"},
    {printed, 41, "//K5", 6, 43, "the speed's own checks before 7"},
    {printed, 43, " J", 5, 43, "speed -1"},
    {printed, 45, " J", 5, 45, "gust -1"},
    {printed, 31, "     ", 4, 35, "time of spaces alone, at the last"},
    {printed, 36, "a K", 4, 36, "altitude, at its first byte"},
    {printed, 45, " /", 4, 46, "gust, at the solidus behind a space"},
    {printed, 47, "  k", 4, 49, "vapour, at its last byte"},
    {printed, 50, ":", 4, 50, "quality"},
    {printed, 51, "/K", 7, 51, "an absent observation with another byte, at its kind"},
    {printed, 73, "K", 7, 51, "its last byte"},
    {printed, 74, "//", 3, 74, "third line's end"},
    {printed, 76, "R", 7, 76, "a present one behind an absent one"},
    {printed, 76, "X", 4, 76, "a kind's own check before 7"},
    {printed, 195, "R", 7, 195, "the last one behind an absent one"},
    {printed, 218, "\n", 3, 218, "last line's end"},
    {full, 51, "///////////////////////", 7, 76, "a hole, at the next kind"},
    {full, 195, "///////////////////////", 0, 0, "the last one absent"},
    {full, 77, "/0", 4, 78, "latitude change, at the digit behind a solidus"},
    {full, 81, "  J", 5, 81, "time since, -1"},
    {full, 89, "//", 7, 91, "wind of the third observation"},
    {full, 217, "A", 4, 217, "quality of the last one"},
    {full, 0, "/", 4, 0, "left of all else"},
};

static int is_empty(const esk_report *report)
{
    static const esk_report empty;
    checks++;
    return memcmp(report, &empty, sizeof empty) == 0;
}

/* Check and read of one text; where it is accepted, the record writes back the same bytes. */
static void text_case_holds(const uint8_t *text, size_t length, unsigned code, unsigned long place, const char *why,
                            int null)
{
    lent in;
    uint8_t *bytes = lend(&in, text, length, null);
    esk_answer check = esk_report_check(bytes, length);
    if (!is_answer(check, code, place, 0)) {
        fail(why, "esk_report_check", text, length);
        wrong_answer(check, code, place, 0);
    }
    esk_report_got got = esk_report_read(bytes, length);
    if (!is_answer(got.answer, code, place, 0)) {
        fail(why, "esk_report_read", text, length);
        wrong_answer(got.answer, code, place, 0);
    }
    if (!is_written(&in, "", 0)) {
        fail("lent for reading", "esk_report_check or esk_report_read", text, length);
        wrong_bytes(&in);
    }
    if (code != 0 && !is_empty(&got.report)) {
        fail("a refusal has the empty record", "esk_report_read", text, length);
        show("got", (const uint8_t *)&got.report, sizeof got.report);
        exit(1);
    }
    if (code == 0) {
        lent out;
        esk_answer answer = esk_report_write(got.report, lend(&out, NULL, MOST, 0), MOST);
        if (!is_answer(answer, 0, 0, ESK_REPORT_BYTES)) {
            fail("writes back what was read", "esk_report_write", text, length);
            wrong_answer(answer, 0, 0, ESK_REPORT_BYTES);
        }
        if (!is_written(&out, text, length)) {
            fail("writes back what was read", "esk_report_write", text, length);
            wrong_bytes(&out);
        }
    }
}

static void read_all(void)
{
    for (size_t i = 0; i < sizeof texts / sizeof *texts; i++) {
        const text_case *c = &texts[i];
        uint8_t text[ESK_REPORT_BYTES];
        memcpy(text, c->base, sizeof text);
        memcpy(text + c->at, c->bytes, strlen(c->bytes));
        text_case_holds(text, sizeof text, c->code, c->place, c->why, 0);
    }
    uint8_t text[MOST];
    memset(text, '/', sizeof text);
    memcpy(text, printed, ESK_REPORT_BYTES);
    for (size_t length = 0; length <= MOST; length++)
        if (length != ESK_REPORT_BYTES)
            text_case_holds(text, length, 1, 0, "not 220 bytes", length % 2 == 0);
    text_case_holds(text, 0, 1, 0, "the empty report, not NULL", 0);
}

/* The packed fields of an observation: the first begins behind the kind, the last ends before the quality. */
static const size_t first_widths[] = {3, 3, 5, 3, 2, 2, 2, 2, 3}, later_widths[] = {2, 2, 3, 3, 2, 2, 2, 2, 3};

/* What is answered of a report in which this field is the first that can be wrong: 4 at the byte that the lone call
 * names, 6 at the field's first, and neither where its bytes are those of a figure. */
static void field_holds(const uint8_t *text, size_t start, size_t width)
{
    esk_packed lone = esk_packed_read(text + start, width);
    esk_answer check = esk_report_check(text, ESK_REPORT_BYTES);
    esk_report_got got = esk_report_read(text, ESK_REPORT_BYTES);
    size_t place = start + (lone.code == ESK_BYTE ? lone.place : 0);
    int as_lone = check.code == lone.code && check.place == place;
    int as_figure = check.code == ESK_ACCEPTED || check.code == ESK_RANGE || check.code == ESK_DISAGREE;
    checks++;
    if ((lone.code == ESK_ACCEPTED ? as_figure : as_lone) && memcmp(&check, &got.answer, sizeof check) == 0)
        return;
    fail("one byte is another", "esk_report_check or esk_report_read", text, ESK_REPORT_BYTES);
    fprintf(stderr, "  field   : %lu bytes from byte %lu on, by itself code %u place %u\n", (unsigned long)width,
            (unsigned long)start, (unsigned)lone.code, (unsigned)lone.place);
    wrong_answer(check.code == lone.code && check.place == place ? got.answer : check, lone.code, place, 0);
}

/* Every byte of every packed field, each other byte in its stead. */
static void damage_all(void)
{
    static const size_t starts[] = {24, 51, 76, 99, 124, 147, 172, 195};
    uint8_t text[ESK_REPORT_BYTES];
    for (size_t i = 0; i < 8; i++) {
        const size_t *widths = i == 0 ? first_widths : later_widths;
        size_t start = starts[i] + 1;
        for (size_t field = 0; field < 9; start += widths[field++])
            for (size_t at = start; at < start + widths[field]; at++)
                for (unsigned byte = 0; byte < 256; byte++) {
                    memcpy(text, full, sizeof text);
                    text[at] = (uint8_t)byte;
                    field_holds(text, start, widths[field]);
                }
        HOLD(start == starts[i] + (i == 0 ? 26 : 22));
    }
}

static int is_figure(esk_figure figure, int32_t number)
{
    return figure.given == 1 && figure.number == number;
}

static int is_missing(esk_figure figure)
{
    return figure.given == 0 && figure.number == 0;
}

/* Every member of what is read: a missing figure is told apart from zero. */
static void members(void)
{
    esk_report r = esk_report_read((const uint8_t *)printed, ESK_REPORT_BYTES).report;
    HOLD(memcmp(r.departure, "ABCD", 4) == 0 && memcmp(r.arrival, "EFGH", 4) == 0);
    HOLD(memcmp(r.designator, "XY0001", 6) == 0 && r.spare[0] == 0 && r.spare[1] == 0);
    HOLD(r.first.kind == 'A' && r.first.quality == '/' && r.first.present == 1);
    HOLD(is_figure(r.first.latitude, 0) && is_figure(r.first.longitude, 0) && is_figure(r.first.time, 0));
    HOLD(is_figure(r.first.altitude, 0) && is_figure(r.first.temperature, 0));
    HOLD(is_figure(r.first.wind_direction, 0) && is_figure(r.first.wind_speed, 0));
    HOLD(is_missing(r.first.gust) && is_missing(r.first.vapour));
    static const esk_observation absent;
    for (int i = 0; i < 7; i++)
        HOLD(memcmp(&r.later[i], &absent, sizeof absent) == 0);

    r = esk_report_read((const uint8_t *)full, ESK_REPORT_BYTES).report;
    HOLD(memcmp(r.departure, "YMML", 4) == 0 && memcmp(r.arrival, "YPAD", 4) == 0);
    HOLD(r.first.kind == 'R' && r.first.quality == '9' && is_missing(r.first.vapour));
    HOLD(is_figure(r.first.latitude, -2245) && is_figure(r.first.longitude, 8636));
    HOLD(is_figure(r.first.time, 952375) && is_figure(r.first.altitude, 2014));
    HOLD(is_figure(r.first.temperature, -275) && is_figure(r.first.wind_direction, 309));
    HOLD(is_figure(r.first.wind_speed, 10) && is_figure(r.first.gust, 1));
    HOLD(r.later[0].kind == 'R' && r.later[0].present == 1 && r.later[0].quality == '/');
    HOLD(is_missing(r.later[0].latitude) && is_missing(r.later[0].time) && is_missing(r.later[0].wind_speed));
    HOLD(r.later[1].kind == 'D' && is_figure(r.later[1].latitude, 19) && is_figure(r.later[1].longitude, -58));
    HOLD(is_figure(r.later[1].time, 420) && is_figure(r.later[1].gust, 2));
    HOLD(r.later[6].kind == 'R' && is_missing(r.later[6].wind_speed) && r.later[6].quality == '9');
}

/* The layout that the header promises. */
static void layout(void)
{
    HOLD(ESK_REPORT_BYTES == 220 && sizeof printed == 221 && sizeof full == 221);
    HOLD(sizeof(esk_observation) == 76 && offsetof(esk_observation, latitude) == 0);
    HOLD(offsetof(esk_observation, longitude) == 8 && offsetof(esk_observation, time) == 16);
    HOLD(offsetof(esk_observation, altitude) == 24 && offsetof(esk_observation, temperature) == 32);
    HOLD(offsetof(esk_observation, wind_direction) == 40 && offsetof(esk_observation, wind_speed) == 48);
    HOLD(offsetof(esk_observation, gust) == 56 && offsetof(esk_observation, vapour) == 64);
    HOLD(offsetof(esk_observation, kind) == 72 && offsetof(esk_observation, quality) == 73);
    HOLD(offsetof(esk_observation, present) == 74);
    HOLD(sizeof(esk_report) == 624 && offsetof(esk_report, departure) == 0 && offsetof(esk_report, arrival) == 4);
    HOLD(offsetof(esk_report, designator) == 8 && offsetof(esk_report, spare) == 14);
    HOLD(offsetof(esk_report, first) == 16 && offsetof(esk_report, later) == 92);
    HOLD(sizeof(esk_report_got) == 640 && offsetof(esk_report_got, answer) == 0);
    HOLD(offsetof(esk_report_got, report) == 16);
}

int main(void)
{
    layout();
    members();
    read_all();
    damage_all();
    printf("test_report: %lu checks passed\n", checks);
    return 0;
}
