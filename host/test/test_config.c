/* The configuration: reset, validity, commands applied in place, canaries round the configuration and every text. */
#include "uplink.h"

/* Whether a configuration is valid, code 0 or 12: it is lent between canaries, and stays as it is. */
static void valid_holds(const esk_settings *settings, unsigned code, const char *why)
{
    lent_settings held;
    answer_holds(esk_settings_valid(lend_settings(&held, *settings)), code, 0, 0, 0, "esk_settings_valid", why);
    settings_hold(&held, settings, why);
}

/* Document 01's reset, member by member. */
static void reset(void)
{
    esk_settings s = esk_reset();
    static const esk_boxes no_boxes;
    static const esk_airfields no_airfields;
    HOLD(memcmp(s.flags, "\1\0\0\0\1\1\1", 7) == 0);
    HOLD(memcmp(&s.regions.reporting, &no_boxes, sizeof no_boxes) == 0);
    HOLD(memcmp(&s.regions.inhibiting, &no_boxes, sizeof no_boxes) == 0);
    HOLD(memcmp(&s.airports.selected.ascent, &no_airfields, sizeof no_airfields) == 0);
    HOLD(memcmp(&s.airports.selected.descent, &no_airfields, sizeof no_airfields) == 0);
    HOLD(memcmp(&s.airports.inhibited.ascent, &no_airfields, sizeof no_airfields) == 0);
    HOLD(memcmp(&s.airports.inhibited.descent, &no_airfields, sizeof no_airfields) == 0);
    HOLD(s.airports.routine == 0 && s.routine6 == 1 && s.routine8 == 1);
    HOLD(s.enroute.interval == 7 && s.enroute.wind == 1);
    HOLD(s.ascent.mode == 1 && s.ascent.interval1 == 6 && s.ascent.duration == 90 && s.ascent.interval2 == 20);
    HOLD(s.ascent.total == 51 && s.ascent.top == 200 && s.ascent.list == 2 && s.ascent.timer == 1);
    HOLD(s.descent.mode == 1 && s.descent.interval == 40 && s.descent.top == 200);
    HOLD(s.descent.list == 2 && s.descent.timer == 1);
    HOLD(s.hours.start == 0 && s.hours.end == 0);
    valid_holds(&s, 0, "the configuration after reset");
}

/* Configurations made from the full one; whether each is valid. */
typedef struct valid_case {
    void (*make)(esk_settings *);
    int valid;
    const char *why;
} valid_case;

static void as_is(esk_settings *s) { (void)s; }
static void flag(esk_settings *s) { s->flags[3] = 9; }
static void flag2(esk_settings *s) { s->flags[6] = 2; }
static void boxes(esk_settings *s) { s->regions.reporting.count = 17; }
static void unused_box(esk_settings *s) { s->regions.inhibiting.count = 15; }
static void last_box(esk_settings *s)
{
    s->regions.inhibiting.count = 15;
    memset(&s->regions.inhibiting.regions[15], 0, sizeof(esk_region));
}
static void zero_south(esk_settings *s) { s->regions.reporting.regions[15].south.degrees = 0; }
static void zero_north(esk_settings *s)
{
    s->regions.reporting.regions[15].south.degrees = 0;
    s->regions.reporting.regions[15].south.letter = 'N';
}
static void below(esk_settings *s)
{
    s->regions.reporting.regions[3].north.letter = 'S';
    s->regions.reporting.regions[3].south.degrees = 89;
}
static void above(esk_settings *s)
{
    s->regions.reporting.regions[3].west.letter = 'E';
    s->regions.reporting.regions[3].east.degrees = 179;
}
static void letter(esk_settings *s) { s->regions.inhibiting.regions[0].east.letter = 'N'; }
static void airfields(esk_settings *s) { s->airports.selected.ascent.count = 21; }
static void unused_airfield(esk_settings *s) { s->airports.inhibited.descent.count = 19; }
static void airfield(esk_settings *s) { s->airports.inhibited.ascent.names[79] = ' '; }
static void routine(esk_settings *s) { s->airports.routine = 2; }
static void interval(esk_settings *s) { s->enroute.interval = 61; }
static void wind(esk_settings *s) { s->enroute.wind = 9; }
static void mode(esk_settings *s) { s->ascent.mode = 2; }
static void interval1(esk_settings *s) { s->ascent.interval1 = 21; }
static void duration(esk_settings *s) { s->ascent.duration = 29; }
static void interval2(esk_settings *s) { s->ascent.interval2 = 2; }
static void total(esk_settings *s) { s->ascent.total = 50; }
static void top(esk_settings *s) { s->ascent.top = 351; }
static void top_high(esk_settings *s) { s->ascent.top = 256 + 200; }
static void list(esk_settings *s) { s->ascent.list = 3; }
static void timer(esk_settings *s) { s->ascent.timer = 2; }
static void routine6(esk_settings *s) { s->routine6 = 2; }
static void descent_mode(esk_settings *s) { s->descent.mode = 2; }
static void descent_mode_high(esk_settings *s) { s->descent.mode = 0x101; }
static void descent_9(esk_settings *s) { s->descent.interval = 9; }
static void descent_10(esk_settings *s) { s->descent.interval = 10; }
static void descent_300(esk_settings *s) { s->descent.interval = 300; }
static void descent_301(esk_settings *s) { s->descent.interval = 301; }
static void descent_149(esk_settings *s) { s->descent.top = 149; }
static void descent_150(esk_settings *s) { s->descent.top = 150; }
static void descent_350(esk_settings *s) { s->descent.top = 350; }
static void descent_351(esk_settings *s) { s->descent.top = 351; }
static void descent_list(esk_settings *s) { s->descent.list = 0; }
static void descent_timer(esk_settings *s) { s->descent.timer = 9; }
static void no_descent(esk_settings *s) { memset(&s->descent, 0, sizeof s->descent); }
static void routine8(esk_settings *s) { s->routine8 = 2; }
static void start(esk_settings *s) { s->hours.start = 24; }
static void end(esk_settings *s) { s->hours.end = 255; }
static void nothing(esk_settings *s) { memset(s, 0, sizeof *s); }

static const valid_case valids[] = {
    {as_is, 1, "every list full"},
    {flag, 0, "flag 9"},
    {flag2, 0, "flag 2"},
    {boxes, 0, "17 boxes"},
    {unused_box, 0, "an unused box not zero"},
    {last_box, 1, "an unused box of zeros"},
    {zero_south, 0, "zero degrees south"},
    {zero_north, 1, "zero degrees north"},
    {below, 0, "north below south"},
    {above, 1, "west above east: over the date line"},
    {letter, 0, "a longitude's letter"},
    {airfields, 0, "21 airfields"},
    {unused_airfield, 0, "an unused airfield not zero"},
    {airfield, 0, "an airfield's byte"},
    {routine, 0, "routine of section 3"},
    {interval, 0, "interval"},
    {wind, 0, "maximum wind"},
    {mode, 0, "mode"},
    {interval1, 0, "series 1 interval"},
    {duration, 0, "duration"},
    {interval2, 0, "series 2 interval"},
    {total, 0, "total"},
    {top, 0, "top"},
    {top_high, 0, "top, both bytes"},
    {list, 0, "list"},
    {timer, 0, "timer"},
    {routine6, 0, "section 6"},
    {descent_mode, 0, "mode of section 7"},
    {descent_mode_high, 0, "mode of section 7, both bytes"},
    {descent_9, 0, "interval 9"},
    {descent_10, 1, "interval 10"},
    {descent_300, 1, "interval 300"},
    {descent_301, 0, "interval 301"},
    {descent_149, 0, "top 149"},
    {descent_150, 1, "top 150"},
    {descent_350, 1, "top 350"},
    {descent_351, 0, "top 351"},
    {descent_list, 0, "list of section 7"},
    {descent_timer, 0, "timer of section 7"},
    {no_descent, 0, "section 7 all zero"},
    {routine8, 0, "section 8"},
    {start, 0, "start hour"},
    {end, 0, "end hour"},
    {nothing, 0, "all zero: intervals are out of range"},
};

/* Applies a text and holds the answer, the configuration and the text against what is expected. */
static void apply_holds(const esk_settings *from, const char *text, size_t length, unsigned code, unsigned long place,
                        unsigned downlink, const esk_settings *to, const char *why)
{
    lent in;
    lent_settings held;
    const uint8_t *lent_text = lend(&in, text, length, 1);
    esk_applied got = esk_apply(lend_settings(&held, *from), lent_text, length);
    checks++;
    static const uint8_t zero[sizeof got.spare];
    int spare = memcmp(got.spare, zero, sizeof zero) != 0;
    if (got.code != code || got.place != place || got.downlink != downlink || spare) {
        fail(why, "esk_apply", bytes(text), length);
        fprintf(stderr, "  expected: code %u place %lu downlink %u\n", code, place, downlink);
        fprintf(stderr, "  got     : code %u place %lu downlink %u%s\n", (unsigned)got.code, (unsigned long)got.place,
                (unsigned)got.downlink, spare ? ", spare not 0" : "");
        exit(1);
    }
    settings_hold(&held, to, why);
    bytes_hold(&in, "", 0, "the text", why);
}

static void validity(void)
{
    const esk_settings full = after(longest);
    for (size_t i = 0; i < sizeof valids / sizeof *valids; i++) {
        const valid_case *c = &valids[i];
        esk_settings s = full;
        c->make(&s);
        valid_holds(&s, c->valid ? 0 : 12, c->why);
        if (c->valid) {
            apply_holds(&s, NO_CHANGE, 22, 0, 0, 0, &s, c->why);
        } else {
            apply_holds(&s, NO_CHANGE, 22, 12, 0, 0, &s, c->why);
            apply_holds(&s, "", 0, 12, 0, 0, &s, "12 before the text's refusals");
        }
    }
}

/* Texts applied to the full configuration: refusals, which change nothing. */
typedef struct refused_case {
    const char *text;
    unsigned code;
    unsigned long place;
    const char *why;
} refused_case;

static const refused_case refused[] = {
    {"", 8, 0, "the empty command"},
    {"AWR050000000000000000/", 3, 0, "AWR05"},
    {"AWR040000000", 8, 12, "all flags read, nothing set"},
    {H2 "0000/x", 8, 27, "a section read, nothing replaced"},
    {H3 "0001abcd00001/", 4, 26, "an airfield"},
    {H2 "0100S00N000E000E00/", 6, 24, "00S"},
    {H2 "0100N01N000E000E00/", 7, 27, "latitudes"},
    {H5 "1060902005120023/", 4, 37, "timer"},
    {H7 "100920021/", 5, 23, "interval 009"},
    {"AWR040000000000000700/", 8, 22, "section 7 named and not there"},
    {H9 "2401/", 5, 22, "start hour"},
};

/* What each command sets, and nothing else. */
static void applying(void)
{
    const esk_settings full = after(longest), reset_ = esk_reset();
    for (size_t i = 0; i < sizeof refused / sizeof *refused; i++)
        apply_holds(&full, refused[i].text, strlen(refused[i].text), refused[i].code, refused[i].place, 0, &full,
                    refused[i].why);
    static char over[ESK_COMMAND_BYTES + 1];
    memcpy(over, longest, ESK_COMMAND_BYTES);
    apply_holds(&reset_, over, sizeof over, 1, 0, 0, &reset_, "over 845 bytes");
    apply_holds(&reset_, longest, ESK_COMMAND_BYTES, 0, 0, 2, &full, "every section, downlink 2");

    esk_settings s = full;
    s.flags[1] = 0, s.flags[6] = 0;
    apply_holds(&full, "AWR049099990100000000/", 22, 0, 0, 1, &s, "two flags, downlink 1");
    s = full;
    s.regions = reset_.regions;
    apply_holds(&full, H2 "0000/", 27, 0, 0, 0, &s, "section 2 is replaced whole, not merged");
    s.regions.reporting.count = 1;
    s.regions.reporting.regions[0].north.degrees = 1, s.regions.reporting.regions[0].north.letter = 'N';
    s.regions.reporting.regions[0].south.degrees = 1, s.regions.reporting.regions[0].south.letter = 'S';
    s.regions.reporting.regions[0].west.degrees = 2, s.regions.reporting.regions[0].west.letter = 'W';
    s.regions.reporting.regions[0].east.degrees = 3, s.regions.reporting.regions[0].east.letter = 'E';
    apply_holds(&full, H2 "0101N01S002W003E00/", 22 + 19, 0, 0, 0, &s, "one box for sixteen");
    s = full;
    s.airports = reset_.airports;
    apply_holds(&full, H3 "000000000/", 32, 0, 0, 0, &s, "section 3");
    s.airports.inhibited.ascent.count = 1;
    memcpy(s.airports.inhibited.ascent.names, "WXYZ", 4);
    apply_holds(&full, H3 "000001WXYZ000/", 36, 0, 0, 0, &s, "the third list is the ascent's inhibited one");
    s = full;
    s.enroute.interval = 1, s.enroute.wind = 0;
    apply_holds(&full, H4 "010/", 26, 0, 0, 0, &s, "section 4");
    s = full;
    s.ascent.mode = 0, s.ascent.interval1 = 3, s.ascent.duration = 600, s.ascent.interval2 = 60;
    s.ascent.total = 111, s.ascent.top = 350, s.ascent.list = 1, s.ascent.timer = 0;
    apply_holds(&full, H5 "0036006011135010/", 39, 0, 0, 0, &s, "section 5");
    s = full;
    s.routine6 = 0;
    apply_holds(&full, H6 "0/", 24, 0, 0, 0, &s, "section 6");
    s = full;
    s.descent.mode = 0, s.descent.interval = 300, s.descent.top = 350, s.descent.list = 1, s.descent.timer = 0;
    apply_holds(&full, H7 "030035010/", 32, 0, 0, 0, &s, "section 7");
    s = full;
    s.routine8 = 1;
    apply_holds(&full, H8 "1/", 24, 0, 0, 0, &s, "section 8");
    s = full;
    s.hours.start = 1, s.hours.end = 2;
    apply_holds(&full, H9 "0102/", 27, 0, 0, 0, &s, "section 9");
}

/* The layout that the header promises. */
static void layout(void)
{
    struct aligned {
        char one;
        esk_settings settings;
    };
    HOLD(sizeof(esk_regions) == 258 && offsetof(esk_regions, reporting) == 0);
    HOLD(offsetof(esk_regions, inhibiting) == 129);
    HOLD(sizeof(esk_by_phase) == 162 && offsetof(esk_by_phase, ascent) == 0 && offsetof(esk_by_phase, descent) == 81);
    HOLD(sizeof(esk_airports) == 325 && offsetof(esk_airports, selected) == 0);
    HOLD(offsetof(esk_airports, inhibited) == 162 && offsetof(esk_airports, routine) == 324);
    HOLD(sizeof(esk_enroute) == 2 && offsetof(esk_enroute, interval) == 0 && offsetof(esk_enroute, wind) == 1);
    HOLD(sizeof(esk_ascent) == 10 && offsetof(esk_ascent, mode) == 0 && offsetof(esk_ascent, interval1) == 1);
    HOLD(offsetof(esk_ascent, duration) == 2 && offsetof(esk_ascent, interval2) == 4);
    HOLD(offsetof(esk_ascent, total) == 5 && offsetof(esk_ascent, top) == 6);
    HOLD(offsetof(esk_ascent, list) == 8 && offsetof(esk_ascent, timer) == 9);
    HOLD(sizeof(esk_descent) == 8 && offsetof(esk_descent, mode) == 0 && offsetof(esk_descent, interval) == 2);
    HOLD(offsetof(esk_descent, top) == 4 && offsetof(esk_descent, list) == 6 && offsetof(esk_descent, timer) == 7);
    HOLD(sizeof(esk_hours) == 2 && offsetof(esk_hours, start) == 0 && offsetof(esk_hours, end) == 1);
    HOLD(sizeof(esk_settings) == 614 && offsetof(struct aligned, settings) == 2);
    HOLD(offsetof(esk_settings, flags) == 0 && offsetof(esk_settings, regions) == 7);
    HOLD(offsetof(esk_settings, airports) == 265 && offsetof(esk_settings, enroute) == 590);
    HOLD(offsetof(esk_settings, ascent) == 592 && offsetof(esk_settings, descent) == 602);
    HOLD(offsetof(esk_settings, routine6) == 610 && offsetof(esk_settings, routine8) == 611);
    HOLD(offsetof(esk_settings, hours) == 612);
    HOLD(sizeof(esk_applied) == 16 && offsetof(esk_applied, place) == 0 && offsetof(esk_applied, code) == 8);
    HOLD(offsetof(esk_applied, downlink) == 9 && offsetof(esk_applied, spare) == 10);
}

int main(void)
{
    layout();
    reset();
    validity();
    applying();
    printf("test_config: %lu checks passed\n", checks);
    return 0;
}
