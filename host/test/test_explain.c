/* Why it reports or stays silent: document 02's reasons one by one, refusals in order, canaries round configuration,
 * airfield and answer; over generated questions esk_decide's decision, and the reason that is the first to hold. */
#include "uplink.h"

typedef struct explain_case {
    const char *command; /* applied to the configuration after reset */
    unsigned phase;
    int32_t latitude, longitude;
    unsigned hour;
    const char *airfield;
    unsigned code, decision, reason, number;
    const char *why;
} explain_case;

#define OFF "AWR040199999000000009/0023/"
#define INHIBIT "AWR049199999000000009/"
#define REGIONS "AWR049919999020000000/"
#define AIRPORTS "AWR049991999003000000/"
/* Inhibiting boxes: 1 in the north, 2 and 3 which meet on the equator, 4 which is both of these. The one reporting box
 * lies in 1. */
#define NESTED REGIONS "0150N40N000E010E0460N30N000E010E10N00N000E010E00N10S000E010E10N10S000E010E/"
#define GLOBE "0190N90S180W180E"

static const explain_case cases[] = {
    /* refusals */
    {NO_CHANGE, 3, 0, 0, 0, "", 5, 0, 0, 0, "phase, before the airfield"},
    {NO_CHANGE, 0, 0, 0, 24, "", 5, 0, 0, 0, "hour, before the airfield"},
    {NO_CHANGE, 0, 5401, 0, 0, "", 5, 0, 0, 0, "latitude, before the airfield"},
    {NO_CHANGE, 0, -5401, 0, 0, "ABCD", 5, 0, 0, 0, "latitude"},
    {NO_CHANGE, 0, 0, 10801, 0, "ABCD", 5, 0, 0, 0, "longitude"},
    {NO_CHANGE, 0, 0, -10801, 0, "ABCD", 5, 0, 0, 0, "longitude"},
    {NO_CHANGE, 0, INT32_MIN, INT32_MAX, 0, "ABCD", 5, 0, 0, 0, "the ends of the numbers"},
    {NO_CHANGE, 0, INT32_MAX, INT32_MIN, 0, "ABCD", 5, 0, 0, 0, "the ends of the numbers"},
    {NO_CHANGE, 255, 0, 0, 255, "ABCD", 5, 0, 0, 0, "the ends of the numbers"},
    {NO_CHANGE, 0, 5400, 10800, 23, "ABCD", 0, 2, 5, 5, "the ends of the ranges"},
    {NO_CHANGE, 2, -5400, -10800, 0, "0099", 0, 2, 5, 7, "the ends of the ranges"},
    {NO_CHANGE, 0, 0, 0, 0, "", 4, 0, 0, 0, "no airfield"},
    {NO_CHANGE, 1, 0, 0, 0, "ABC", 4, 0, 0, 0, "three bytes, in every phase"},
    {NO_CHANGE, 2, 0, 0, 0, "ABCDE", 4, 0, 0, 0, "five bytes"},
    {NO_CHANGE, 1, 0, 0, 0, "ABc1", 4, 0, 0, 0, "a small letter"},
    {OFF, 1, 0, 0, 0, "ABC ", 4, 0, 0, 0, "refused though AMDAR is off"},
    {OFF, 0, 0, 0, 24, "ABCD", 5, 0, 0, 0, "refused though AMDAR is off"},
    /* 1: AMDAR off, before the hours and the flags */
    {OFF, 0, 0, 0, 0, "ABCD", 0, 0, 1, 0, "AMDAR 0, ascent"},
    {OFF, 1, 0, 0, 22, "ABCD", 0, 0, 1, 0, "AMDAR 0, level"},
    {OFF, 2, 0, 0, 23, "ABCD", 0, 0, 1, 0, "AMDAR 0, descent, past the window"},
    {"AWR040910000020000000/0000/", 0, 0, 0, 0, "ABCD", 0, 0, 1, 0, "AMDAR 0, before the phase flag"},
    {"AWR040910000020000000/00" GLOBE "/", 0, 0, 0, 0, "ABCD", 0, 0, 1, 0, "AMDAR 0, before the boxes"},
    /* 2: hours */
    {INHIBIT "2301/", 0, 0, 0, 22, "ABCD", 0, 2, 5, 5, "before the window"},
    {INHIBIT "2301/", 0, 0, 0, 23, "ABCD", 0, 0, 2, 0, "printed: 2301 silences 23"},
    {INHIBIT "2301/", 2, 0, 0, 0, "ABCD", 0, 0, 2, 0, "printed: and 0"},
    {INHIBIT "2301/", 0, 0, 0, 1, "ABCD", 0, 2, 5, 5, "printed: not 1"},
    {INHIBIT "0507/", 1, 0, 0, 5, "ABCD", 0, 0, 2, 0, "the start hour"},
    {INHIBIT "0507/", 1, 0, 0, 7, "ABCD", 0, 1, 5, 6, "the end hour"},
    {INHIBIT "0505/", 1, 0, 0, 5, "ABCD", 0, 1, 5, 6, "equal hours: none"},
    {H9 "0023/", 1, 0, 0, 5, "ABCD", 0, 1, 5, 6, "the flag is 0"},
    {"AWR049119999020000009/00" GLOBE "/0507/", 0, 0, 0, 6, "ABCD", 0, 0, 2, 0, "the hours before the boxes"},
    {"AWR049199000000000009/0507/", 1, 0, 0, 6, "ABCD", 0, 0, 2, 0, "the hours before the phase flag"},
    /* 3: an inhibiting box, the lowest */
    {NESTED, 0, 2700, 300, 0, "ABCD", 0, 0, 3, 1, "box 1, though a reporting box holds it too"},
    {NESTED, 0, 1800, 0, 0, "ABCD", 0, 0, 3, 1, "a corner of box 1, outside of the reporting box"},
    {NESTED, 0, 300, 300, 0, "ABCD", 0, 0, 3, 2, "2 and 4"},
    {NESTED, 1, -300, 300, 0, "ABCD", 0, 0, 3, 3, "3 and 4, level"},
    {NESTED, 2, 0, 600, 0, "ABCD", 0, 0, 3, 2, "2, 3 and 4 on the edge of two"},
    {"AWR049910000020000000/00" GLOBE "/", 0, 0, 0, 0, "ABCD", 0, 0, 3, 1, "the box before the phase flag"},
    {H2 "00" GLOBE "/", 1, 0, 0, 0, "ABCD", 0, 1, 5, 6, "the regions flag is 0"},
    /* 4: no reporting box */
    {NESTED, 0, 1799, 300, 0, "ABCD", 0, 0, 4, 0, "a minute south of box 1, in no other"},
    {NESTED, 1, 2700, -1, 0, "ABCD", 0, 0, 4, 0, "a minute west of all"},
    {NESTED, 2, 2700, 601, 0, "ABCD", 0, 0, 4, 0, "a minute east of all"},
    {REGIONS "0150N40N000E010E00/", 0, 3000, 600, 0, "ABCD", 0, 2, 5, 5, "a corner belongs to the reporting box"},
    {REGIONS "0150N40N000E010E00/", 0, 3001, 600, 0, "ABCD", 0, 0, 4, 0, "a minute north of it"},
    {REGIONS "0000/", 0, 0, 0, 0, "ABCD", 0, 2, 5, 5, "no boxes: everywhere"},
    /* over the date line */
    {REGIONS "000210N10S000E010E10N10S170E170W/", 1, 0, -10800, 0, "ABCD", 0, 0, 3, 2, "180W in 170E to 170W"},
    {REGIONS "000210N10S000E010E10N10S170E170W/", 1, 0, 10200, 0, "ABCD", 0, 0, 3, 2, "its first edge"},
    {REGIONS "000210N10S000E010E10N10S170E170W/", 1, 0, 10199, 0, "ABCD", 0, 1, 5, 6, "a minute west of it"},
    {REGIONS "000210N10S180E180W10N10S170E170W/", 1, 0, -10800, 0, "ABCD", 0, 0, 3, 1, "180E to 180W: the meridian"},
    {REGIONS "0110N10S170E180E00/", 1, 0, -10800, 0, "ABCD", 0, 1, 5, 6, "180W in 170E to 180E"},
    {REGIONS "0110N10S170E180E00/", 1, 0, -10799, 0, "ABCD", 0, 0, 4, 0, "a minute east of it"},
    {"AWR049919000020000000/0150N40N000E010E00/", 0, 0, 0, 0, "ABCD", 0, 0, 4, 0, "before the phase flag"},
    {H2 "0150N40N000E010E00/", 0, 0, 0, 0, "ABCD", 0, 2, 5, 5, "the regions flag is 0"},
    /* 5 and 7 in level flight: the enroute flag, whatever else */
    {NO_CHANGE, 1, 0, 0, 0, "ABCD", 0, 1, 5, 6, "enroute 1"},
    {"AWR049999909000000000/", 1, 0, 0, 0, "ABCD", 0, 0, 7, 6, "enroute 0"},
    {"AWR049991909003000000/000001ABCD001/", 1, 0, 0, 0, "ABCD", 0, 0, 7, 6, "enroute 0: no list, no digit"},
    {AIRPORTS "01ABCE01ABCE01ABCD01ABCD0/", 1, 0, 0, 0, "ABCD", 0, 1, 5, 6, "enroute 1: no list"},
    /* 5, 6 and 7 without airports */
    {NO_CHANGE, 0, 0, 0, 0, "ABCD", 0, 2, 5, 5, "ascent 1"},
    {NO_CHANGE, 2, 0, 0, 0, "ABCD", 0, 2, 5, 7, "descent 1"},
    {"AWR049999099000000000/", 0, 0, 0, 0, "ABCD", 0, 1, 6, 6, "ascent 0, section 6 says 1: the digit"},
    {"AWR049999990000000000/", 2, 0, 0, 0, "ABCD", 0, 1, 6, 8, "descent 0, section 8 says 1: the digit"},
    {"AWR049999099000006000/0/", 0, 0, 0, 0, "ABCD", 0, 0, 7, 5, "ascent 0, section 6 says 0"},
    {"AWR049999990000000080/0/", 2, 0, 0, 0, "ABCD", 0, 0, 7, 7, "descent 0, section 8 says 0"},
    {"AWR049999990000006000/0/", 2, 0, 0, 0, "ABCD", 0, 1, 6, 8, "section 6 is not the descent's"},
    {"AWR049999099000000080/0/", 0, 0, 0, 0, "ABCD", 0, 1, 6, 6, "section 8 is not the ascent's"},
    {"AWR049999099003006000/01ABCE0001ABCD001/0/", 0, 0, 0, 0, "ABCD", 0, 0, 7, 5, "airports 0: not section 3"},
    {H3 "01ABCE0001ABCD000/", 0, 0, 0, 0, "ABCD", 0, 2, 5, 5, "airports 0: no list"},
    /* 5 to 9 with airports */
    {AIRPORTS "000000000/", 0, 0, 0, 0, "ABCD", 0, 2, 5, 5, "no list: every airfield"},
    {AIRPORTS "01ABCD0000000/", 0, 0, 0, 0, "ABCD", 0, 2, 5, 5, "selected"},
    {AIRPORTS "01ABCD0000000/", 0, 0, 0, 0, "ABCE", 0, 0, 9, 0, "not selected"},
    {AIRPORTS "01ABCD0000001/", 0, 0, 0, 0, "ABCE", 0, 1, 6, 3, "not selected: section 3 says routine"},
    {AIRPORTS "01ABCD0000000/", 2, 0, 0, 0, "ABCE", 0, 2, 5, 7, "the descent has its own list"},
    {AIRPORTS "0001ABCD00000/", 2, 0, 0, 0, "ABCE", 0, 0, 9, 0, "the descent's list"},
    {AIRPORTS "01ABCD0001ABCD000/", 0, 0, 0, 0, "ABCD", 0, 0, 8, 0, "selected and inhibited"},
    {AIRPORTS "01ABCE0001ABCD000/", 0, 0, 0, 0, "ABCD", 0, 0, 8, 0, "inhibited and not selected: inhibited"},
    {AIRPORTS "000001ABCD001/", 0, 0, 0, 0, "ABCD", 0, 1, 6, 3, "inhibited: section 3 says routine"},
    {AIRPORTS "00000001ABCD0/", 2, 0, 0, 0, "ABCD", 0, 0, 8, 0, "inhibited in descent"},
    {AIRPORTS "00000001ABCD0/", 0, 0, 0, 0, "ABCD", 0, 2, 5, 5, "which is not the ascent's list"},
    {"AWR049991099003000000/01ABCE0001ABCD000/", 0, 0, 0, 0, "ABCD", 0, 0, 7, 5, "ascent 0 before the lists"},
    {"AWR049991990003000000/0001ABCE0001ABCD0/", 2, 0, 0, 0, "ABCD", 0, 0, 7, 7, "descent 0 before the lists"},
    {"AWR049991099003000000/000000001/", 0, 0, 0, 0, "ABCD", 0, 1, 6, 3, "ascent 0: section 3 says routine"},
    {"AWR049991990003000080/000000000/1/", 2, 0, 0, 0, "ABCD", 0, 0, 7, 7, "airports 1: section 8 is not asked"},
};

/* What is asked, of a configuration. */
typedef struct question {
    uint8_t phase, hour;
    int32_t latitude, longitude;
    const void *airfield;
    size_t length;
} question;

static void tell(const char *why, question q)
{
    fprintf(stderr, "FAILED after %lu checks: esk_explain: %s\n", checks, why);
    fprintf(stderr, "  phase %u latitude %ld longitude %ld hour %u\n", (unsigned)q.phase, (long)q.latitude,
            (long)q.longitude, (unsigned)q.hour);
    show("airfield", q.airfield, q.length);
}

/* Asks with canaries round all that is lent and round what comes back, and holds what esk_decide says to it. */
static esk_explained ask(esk_settings settings, question q, const char *why)
{
    struct guarded_answer {
        uint8_t before[GUARD];
        esk_explained got;
        uint8_t after[GUARD];
    } answer, was;
    lent in;
    lent_settings held;
    memset(&answer, 0xb7, sizeof answer);
    memset(&was, 0xb7, sizeof was);
    answer.got = esk_explain(lend_settings(&held, settings), q.phase, q.latitude, q.longitude, q.hour,
                             lend(&in, q.airfield, q.length, 1), q.length);
    was.got = answer.got;
    HOLD(memcmp(&answer, &was, sizeof was) == 0);
    bytes_hold(&in, "", 0, "esk_explain", why);
    settings_hold(&held, &settings, why);
    esk_decided d = esk_decide(&settings, q.phase, q.latitude, q.longitude, q.hour, q.airfield, q.length);
    esk_explained e = answer.got;
    checks++;
    if (e.code != d.code || e.place != d.place || e.decision != d.decision || e.spare != 0) {
        tell(why, q);
        fprintf(stderr, "  decided  : code %u place %lu decision %u\n", (unsigned)d.code, (unsigned long)d.place,
                (unsigned)d.decision);
        fprintf(stderr, "  explained: code %u place %lu decision %u spare %lu\n", (unsigned)e.code,
                (unsigned long)e.place, (unsigned)e.decision, (unsigned long)e.spare);
        exit(1);
    }
    return e;
}

static void explain_holds(esk_settings settings, const explain_case *c, size_t length)
{
    question q = {(uint8_t)c->phase, (uint8_t)c->hour, c->latitude, c->longitude, c->airfield, length};
    esk_explained got = ask(settings, q, c->why);
    checks++;
    if (got.code == c->code && got.place == 0 && got.decision == c->decision && got.reason == c->reason &&
        got.number == c->number)
        return;
    tell(c->why, q);
    fprintf(stderr, "  command : %s\n", c->command);
    fprintf(stderr, "  expected: code %u place 0 decision %u reason %u number %u\n", c->code, c->decision, c->reason,
            c->number);
    fprintf(stderr, "  got     : code %u place %lu decision %u reason %u number %u\n", (unsigned)got.code,
            (unsigned long)got.place, (unsigned)got.decision, (unsigned)got.reason, (unsigned)got.number);
    exit(1);
}

/* A configuration that is not valid goes before all else. */
static void not_valid(void)
{
    static const explain_case twelve[] = {
        {NO_CHANGE, 0, 0, 0, 0, "ABCD", 12, 0, 0, 0, "12"},
        {NO_CHANGE, 3, 9999, 0, 24, "", 12, 0, 0, 0, "12 before 5 and 4"},
    };
    esk_settings s = esk_reset();
    s.flags[0] = 9;
    explain_holds(s, &twelve[0], 4);
    explain_holds(s, &twelve[1], 0);
    s = esk_reset();
    s.flags[0] = 0; /* a reason that would be found before the fault is come to */
    s.airports.selected.descent.names[79] = 'A';
    explain_holds(s, &twelve[0], 4);
    s = esk_reset();
    s.flags[0] = 0;
    s.hours.end = 24;
    explain_holds(s, &twelve[0], 4);
    memset(&s, 0xff, sizeof s);
    explain_holds(s, &twelve[1], 0);
    memset(&s, 0, sizeof s);
    explain_holds(s, &twelve[0], 4);
}

/* Full lists: the last entry counts, and a box's number goes up to 16. */
static void full_lists(void)
{
    static const explain_case lists[] = {
        {"full lists", 0, 0, 0, 0, "LAST", 0, 2, 5, 5, "the last of twenty is selected"},
        {"full lists", 0, 0, 0, 0, "DDLA", 0, 0, 9, 0, "bytes of two neighbours are no airfield"},
        {"full lists", 2, 0, 0, 0, "LAST", 0, 0, 8, 0, "the last of twenty is inhibited"},
    };
    esk_settings s = after(AIRPORTS "000000000/");
    esk_airfields list;
    list.count = 20;
    memcpy(list.names, EIGHTY, 80);
    memcpy(list.names + 72, "MIDDLAST", 8);
    s.airports.selected.ascent = list;
    s.airports.inhibited.descent = list;
    for (size_t i = 0; i < sizeof lists / sizeof *lists; i++)
        explain_holds(s, &lists[i], 4);

    /* Sixteen lines, one at each degree from 1N to 16N: the number is the degree. */
    s = after(REGIONS "00" BOXES "/");
    for (int i = 0; i < 16; i++) {
        esk_edge at = {(uint8_t)(i + 1), 'N'};
        s.regions.inhibiting.regions[i].north = at;
        s.regions.inhibiting.regions[i].south = at;
    }
    for (int i = 0; i < 16; i++) {
        explain_case box = {"lines", 0, 60 * (i + 1), 10800, 0, "ABCD", 0, 0, 3, (unsigned)i + 1, "the line's number"};
        explain_case none = {"lines", 0, 60 * (i + 1) + 1, 0, 0, "ABCD", 0, 2, 5, 5, "beside every line"};
        explain_holds(s, &box, 4);
        explain_holds(s, &none, 4);
    }
}

/* Which meridians a box holds: one goes eastward from its first edge, a minute at a time and from 180E on at 180W, up to its
 * second edge. Edges and positions are spelt from -10800 to 10800, and the two ends are one meridian. */
static void walk(int first, int second, uint8_t held[21600])
{
    memset(held, 0, 21600);
    for (int at = first;; at = at == 10800 ? -10800 : at + 1) {
        held[(at + 10800) % 21600] = 1;
        if (at == second)
            return;
    }
}

/* All pairs of edges, by positions at every edge and a minute beside it: as a reporting box and as an inhibiting one. */
static void date_line(void)
{
    static const int degrees[] = {-180, -179, -170, -90, -89, -1, 0, 1, 89, 90, 170, 179, 180};
    enum { EDGES = sizeof degrees / sizeof *degrees };
    static uint8_t held[21600];
    esk_settings reporting = after(REGIONS "0110N10S000E000E00/"), inhibiting = after(REGIONS "000110N10S000E000E/");
    esk_region *boxes[] = {&reporting.regions.reporting.regions[0], &inhibiting.regions.inhibiting.regions[0]};
    for (int i = 0; i < EDGES * EDGES; i++) {
        int first = degrees[i / EDGES], second = degrees[i % EDGES];
        walk(60 * first, 60 * second, held);
        for (int k = 0; k < 2; k++) {
            boxes[k]->west.degrees = (uint8_t)(first < 0 ? -first : first), boxes[k]->west.letter = first < 0 ? 'W' : 'E';
            boxes[k]->east.degrees = (uint8_t)(second < 0 ? -second : second);
            boxes[k]->east.letter = second < 0 ? 'W' : 'E';
        }
        for (int j = 0; j < 3 * EDGES; j++) {
            int at = 60 * degrees[j / 3] + j % 3 - 1;
            if (at < -10800 || at > 10800)
                continue;
            int inside = held[(at + 10800) % 21600];
            question q = {1, 0, 0, at, "ABCD", 4};
            esk_explained in = ask(reporting, q, "a reporting box"), out = ask(inhibiting, q, "an inhibiting box");
            checks++;
            if (in.reason == (inside ? 5 : 4) && out.reason == (inside ? 3 : 5) && out.number == (inside ? 1 : 6))
                continue;
            tell(inside ? "inside" : "outside", q);
            fprintf(stderr, "  of a box from %d to %d degrees: reasons %u and %u\n", first, second, (unsigned)in.reason,
                    (unsigned)out.reason);
            exit(1);
        }
    }
}

/* Airfields of every length that is lent and every byte in each place: four allowed bytes are taken, all else is 4. */
static void airfields(void)
{
    uint8_t name[MOST];
    lent in;
    esk_settings s = esk_reset();
    question q = {0, 0, 0, 0, name, 0};
    esk_explained empty = esk_explain(&s, 0, 0, 0, 0, lend(&in, NULL, 0, 0), 0);
    HOLD(empty.code == 4 && empty.place == 0 && empty.decision == 0 && empty.reason == 0 && empty.number == 0);
    bytes_hold(&in, "", 0, "esk_explain", "no bytes at a place of its own, not NULL");
    memset(name, 'A', sizeof name);
    for (q.length = 0; q.length <= MOST; q.length++) {
        esk_explained e = ask(s, q, "an airfield's length");
        HOLD(q.length == 4 ? e.code == 0 && e.reason == 5 && e.number == 5 : e.code == 4 && !e.reason && !e.number);
    }
    q.length = 4;
    for (int at = 0; at < 4; at++) {
        for (int byte = 0; byte < 256; byte++) {
            int allowed = (byte >= 'A' && byte <= 'Z') || (byte >= '0' && byte <= '9');
            name[at] = (uint8_t)byte;
            esk_explained e = ask(s, q, "an airfield's byte");
            HOLD(allowed ? e.code == 0 && e.reason == 5 : e.code == 4 && e.reason == 0 && e.number == 0);
        }
        name[at] = 'A';
    }
}

/* Every phase and hour that a byte can hold, and the minutes on both sides of each limit. */
static void ranges(void)
{
    static const int32_t edges[] = {INT32_MIN, -10801, -10800, -5401, -5400, 0, 5400, 5401, 10800, 10801, INT32_MAX};
    enum { EDGES = sizeof edges / sizeof *edges };
    esk_settings s = esk_reset();
    for (int number = 0; number < 256; number++) {
        question q = {(uint8_t)number, 0, 0, 0, "ABCD", 4};
        esk_explained e = ask(s, q, "a phase");
        HOLD(number <= 2 ? e.code == 0 && e.reason == 5 && e.number == 5 + number
                         : e.code == 5 && e.reason == 0 && e.number == 0);
        q.phase = 1;
        q.hour = (uint8_t)number;
        e = ask(s, q, "an hour");
        HOLD(number <= 23 ? e.code == 0 && e.reason == 5 && e.number == 6
                          : e.code == 5 && e.reason == 0 && e.number == 0);
    }
    for (int i = 0; i < EDGES; i++)
        for (int j = 0; j < EDGES; j++) {
            question q = {2, 0, edges[i], edges[j], "ABCD", 4};
            esk_explained e = ask(s, q, "a position");
            int within = edges[i] >= -5400 && edges[i] <= 5400 && edges[j] >= -10800 && edges[j] <= 10800;
            HOLD(within ? e.code == 0 && e.reason == 5 && e.number == 7 : e.code == 5 && !e.reason && !e.number);
        }
}

/* ---- generated questions ----------------------------------------------------------------------------------------- */

static uint64_t state = 0x9e3779b97f4a7c15;

/* A number below `limit`, by xorshift: the same ones in every run. */
static unsigned below(unsigned limit)
{
    state ^= state << 13;
    state ^= state >> 7;
    state ^= state << 17;
    return (unsigned)((state >> 33) % limit);
}

/* Few degrees and few names, so that boxes overlap and lists have what is asked for. */
static esk_edge some_edge(unsigned degrees, char above, char beneath)
{
    esk_edge at = {(uint8_t)degrees, (uint8_t)(degrees == 0 || below(2) ? above : beneath)};
    return at;
}

static int degrees_of(esk_edge at)
{
    return at.letter == 'S' || at.letter == 'W' ? -at.degrees : at.degrees;
}

static esk_boxes some_boxes(unsigned most)
{
    esk_boxes boxes;
    memset(&boxes, 0, sizeof boxes);
    boxes.count = (uint8_t)below(most + 1);
    for (int i = 0; i < boxes.count; i++) {
        esk_edge a = some_edge(below(4), 'N', 'S'), b = some_edge(below(4), 'N', 'S');
        esk_edge c = some_edge(below(4), 'E', 'W'), d = some_edge(below(4), 'E', 'W');
        esk_region *r = &boxes.regions[i];
        r->north = degrees_of(a) >= degrees_of(b) ? a : b;
        r->south = degrees_of(a) >= degrees_of(b) ? b : a;
        r->west = c;
        r->east = d;
    }
    return boxes;
}

static const char names[] = "AAAAAAABZZZ90000";

static esk_airfields some_airfields(void)
{
    esk_airfields list;
    memset(&list, 0, sizeof list);
    list.count = (uint8_t)below(3);
    for (int i = 0; i < list.count; i++)
        memcpy(list.names + 4 * i, names + 4 * below(4), 4);
    return list;
}

static esk_settings some_settings(void)
{
    esk_settings s = esk_reset();
    for (int i = 0; i < 7; i++)
        s.flags[i] = (uint8_t)below(2);
    s.flags[0] = below(8) != 0;
    s.flags[1] = below(3) == 0;
    s.regions.reporting = some_boxes(4);
    s.regions.inhibiting = some_boxes(3);
    s.airports.selected.ascent = some_airfields();
    s.airports.selected.descent = some_airfields();
    s.airports.inhibited.ascent = some_airfields();
    s.airports.inhibited.descent = some_airfields();
    s.airports.routine = (uint8_t)below(2);
    s.routine6 = (uint8_t)below(2);
    s.routine8 = (uint8_t)below(2);
    s.hours.start = (uint8_t)below(24);
    s.hours.end = (uint8_t)below(24);
    return s;
}

/* On a degree's edge more often than not, and sometimes outside all that is allowed. */
static question some_question(void)
{
    static const int32_t nudge[] = {0, 0, 0, -1, 1, 30};
    question q = {(uint8_t)below(3), (uint8_t)below(24), 0, 0, names + 4 * below(4), 4};
    q.latitude = 60 * ((int32_t)below(9) - 4) + nudge[below(6)];
    q.longitude = 60 * ((int32_t)below(9) - 4) + nudge[below(6)];
    switch (below(40)) {
    case 0: q.phase = (uint8_t)(3 + below(253)); break;
    case 1: q.hour = (uint8_t)(24 + below(232)); break;
    case 2: q.latitude = 5401 + (int32_t)below(1000); break;
    case 3: q.longitude = -10801 - (int32_t)below(1000); break;
    case 4: q.length = below(4); break;
    case 5: q.airfield = "aaaa"; break;
    }
    return q;
}

/* Document 02's reasons as they are said there, each by itself. */

/* A box over the date line holds what is at or east of its first longitude or at or west of its second. No edge of these is at
 * 180 degrees. */
static int box_holds(const esk_region *r, question q)
{
    int first = 60 * degrees_of(r->west), second = 60 * degrees_of(r->east);
    int past = q.longitude >= first, before = q.longitude <= second;
    return q.latitude <= 60 * degrees_of(r->north) && q.latitude >= 60 * degrees_of(r->south) &&
           (first <= second ? past && before : past || before);
}

/* The lowest box that holds the position, from 1; 0 where none does. */
static int lowest_box(const esk_boxes *boxes, question q)
{
    for (int i = 0; i < boxes->count; i++)
        if (box_holds(&boxes->regions[i], q))
            return i + 1;
    return 0;
}

static int listed(const esk_airfields *list, question q)
{
    for (int i = 0; i < list->count; i++)
        if (memcmp(list->names + 4 * i, q.airfield, 4) == 0)
            return 1;
    return 0;
}

static int in_hours(esk_hours h, unsigned hour)
{
    for (unsigned at = h.start; at != h.end; at = (at + 1) % 24)
        if (at == hour)
            return 1;
    return 0;
}

/* What is to be answered beside the code. */
typedef struct expected {
    int decision, reason, number;
} expected;

static expected expect(const esk_settings *s, question q)
{
    int climbs = q.phase == ESK_ASCENT, airports = s->flags[3], flag = 5 + q.phase;
    const esk_airfields *selected = climbs ? &s->airports.selected.ascent : &s->airports.selected.descent;
    const esk_airfields *inhibited = climbs ? &s->airports.inhibited.ascent : &s->airports.inhibited.descent;
    int box = s->flags[2] ? lowest_box(&s->regions.inhibiting, q) : 0;
    int outside = s->flags[2] && s->regions.reporting.count > 0 && lowest_box(&s->regions.reporting, q) == 0;
    int barred = airports && listed(inhibited, q);
    int missed = airports && selected->count > 0 && !listed(selected, q);
    int section = airports ? 3 : climbs ? 6 : 8;
    int digit = airports ? s->airports.routine : climbs ? s->routine6 : s->routine8;
    int on = s->flags[flag - 1];
    const struct {
        int holds;
        expected then;
    } rules[] = {
        {s->flags[0] == 0, {ESK_SILENT, ESK_WHY_AMDAR_OFF, 0}},
        {s->flags[1] == 1 && in_hours(s->hours, q.hour), {ESK_SILENT, ESK_WHY_HOURS, 0}},
        {box > 0, {ESK_SILENT, ESK_WHY_INHIBITING_BOX, box}},
        {outside, {ESK_SILENT, ESK_WHY_NO_REPORTING_BOX, 0}},
        {q.phase == ESK_LEVEL && on, {ESK_ROUTINE, ESK_WHY_FLAG_ON, 6}},
        {q.phase == ESK_LEVEL, {ESK_SILENT, ESK_WHY_FLAG_OFF, 6}},
        {on && !barred && !missed, {ESK_SCHEME, ESK_WHY_FLAG_ON, flag}},
        {digit, {ESK_ROUTINE, ESK_WHY_DIGIT, section}},
        {!on, {ESK_SILENT, ESK_WHY_FLAG_OFF, flag}},
        {barred, {ESK_SILENT, ESK_WHY_INHIBITED, 0}},
        {missed, {ESK_SILENT, ESK_WHY_NOT_SELECTED, 0}},
    };
    for (size_t i = 0; i < sizeof rules / sizeof *rules; i++)
        if (rules[i].holds)
            return rules[i].then;
    fprintf(stderr, "FAILED: a question without a reason\n");
    exit(1);
}

/* One configuration in sixteen is made one that is not valid. */
static void generated(void)
{
    unsigned long codes[13] = {0}, reasons[10] = {0}, numbers[17] = {0};
    for (int i = 0; i < 40000; i++) {
        esk_settings s = some_settings();
        int broken = below(16) == 0;
        if (broken)
            s.flags[below(7)] = 2;
        for (int j = 0; j < 5; j++) {
            question q = some_question();
            esk_explained e = ask(s, q, "a generated question");
            expected want = {0, 0, 0};
            HOLD((e.code == 12) == broken);
            if (e.code == 0)
                want = expect(&s, q);
            checks++;
            if (e.decision != want.decision || e.reason != want.reason || e.number != want.number) {
                tell("a generated question", q);
                show("settings", (const uint8_t *)&s, sizeof s);
                fprintf(stderr, "  expected: decision %d reason %d number %d\n", want.decision, want.reason,
                        want.number);
                fprintf(stderr, "  got     : code %u decision %u reason %u number %u\n", (unsigned)e.code,
                        (unsigned)e.decision, (unsigned)e.reason, (unsigned)e.number);
                exit(1);
            }
            codes[e.code]++;
            reasons[e.reason]++;
            if (e.reason != 0)
                numbers[e.number]++;
        }
    }
    /* A spread that misses a reason or a refusal shows nothing of it. */
    for (int reason = 1; reason <= 9; reason++)
        HOLD(reasons[reason] >= 1000);
    HOLD(codes[12] >= 1000 && codes[5] >= 1000 && codes[4] >= 1000);
    HOLD(numbers[1] >= 100 && numbers[2] >= 100 && numbers[3] >= 100 && numbers[5] >= 100 && numbers[6] >= 100 &&
         numbers[7] >= 100 && numbers[8] >= 100);
}

int main(void)
{
    HOLD(sizeof(esk_explained) == 16 && offsetof(esk_explained, place) == 0 && offsetof(esk_explained, code) == 8);
    HOLD(offsetof(esk_explained, decision) == 9 && offsetof(esk_explained, reason) == 10);
    HOLD(offsetof(esk_explained, number) == 11 && offsetof(esk_explained, spare) == 12);
    HOLD(ESK_WHY_AMDAR_OFF == 1 && ESK_WHY_HOURS == 2 && ESK_WHY_INHIBITING_BOX == 3);
    HOLD(ESK_WHY_NO_REPORTING_BOX == 4 && ESK_WHY_FLAG_ON == 5 && ESK_WHY_DIGIT == 6);
    HOLD(ESK_WHY_FLAG_OFF == 7 && ESK_WHY_INHIBITED == 8 && ESK_WHY_NOT_SELECTED == 9);
    for (size_t i = 0; i < sizeof cases / sizeof *cases; i++)
        explain_holds(after(cases[i].command), &cases[i], strlen(cases[i].airfield));
    not_valid();
    full_lists();
    date_line();
    airfields();
    ranges();
    generated();
    printf("test_explain: %lu checks passed\n", checks);
    return 0;
}
