/* Whether to report: document 01's rules one by one, refusals in order, canaries round configuration and airfield. */
#include "uplink.h"

typedef struct decide_case {
    const char *command; /* applied to the configuration after reset */
    unsigned phase;
    int32_t latitude, longitude;
    unsigned hour;
    const char *airfield;
    unsigned code, decision;
    const char *why;
} decide_case;

#define INHIBIT "AWR049199999000000009/"
#define REGIONS "AWR049919999020000000/"
#define AIRPORTS "AWR049991999003000000/"
/* A reporting box 10N-10S 010W-010E, and in it an inhibiting line 05N 000E-005E. */
#define LINE REGIONS "0110N10S010W010E0105N05N000E005E/"

static const decide_case cases[] = {
    /* after reset */
    {NO_CHANGE, 0, 0, 0, 0, "ABCD", 0, 2, "ascent: scheme"},
    {NO_CHANGE, 1, 0, 0, 0, "ABCD", 0, 1, "level: routine"},
    {NO_CHANGE, 2, 0, 0, 0, "ABCD", 0, 2, "descent: scheme"},
    /* refusals */
    {NO_CHANGE, 3, 0, 0, 0, "", 5, 0, "phase, before the airfield"},
    {NO_CHANGE, 0, 0, 0, 24, "", 5, 0, "hour, before the airfield"},
    {NO_CHANGE, 0, 5401, 0, 0, "", 5, 0, "latitude, before the airfield"},
    {NO_CHANGE, 0, -5401, 0, 0, "ABCD", 5, 0, "latitude"},
    {NO_CHANGE, 0, 0, 10801, 0, "ABCD", 5, 0, "longitude"},
    {NO_CHANGE, 0, 0, -10801, 0, "ABCD", 5, 0, "longitude"},
    {NO_CHANGE, 0, INT32_MIN, INT32_MAX, 0, "ABCD", 5, 0, "the ends of the numbers"},
    {NO_CHANGE, 255, 0, 0, 255, "ABCD", 5, 0, "the ends of the numbers"},
    {NO_CHANGE, 0, 5400, 10800, 23, "ABCD", 0, 2, "the ends of the ranges"},
    {NO_CHANGE, 2, -5400, -10800, 0, "0099", 0, 2, "the ends of the ranges"},
    {NO_CHANGE, 0, 0, 0, 0, "", 4, 0, "no airfield"},
    {NO_CHANGE, 1, 0, 0, 0, "ABC", 4, 0, "three bytes, in every phase"},
    {NO_CHANGE, 2, 0, 0, 0, "ABCDE", 4, 0, "five bytes"},
    {NO_CHANGE, 1, 0, 0, 0, "ABc1", 4, 0, "a small letter"},
    {"AWR040999999000000000/", 1, 0, 0, 0, "ABC ", 4, 0, "refused though AMDAR is off"},
    /* AMDAR */
    {"AWR040999999000000000/", 0, 0, 0, 0, "ABCD", 0, 0, "AMDAR 0: silent"},
    {"AWR040999999000000000/", 1, 0, 0, 0, "ABCD", 0, 0, "AMDAR 0: silent"},
    {"AWR040999999000000000/", 2, 0, 0, 0, "ABCD", 0, 0, "AMDAR 0: silent"},
    /* inhibit hours */
    {INHIBIT "2301/", 0, 0, 0, 22, "ABCD", 0, 2, "before the window"},
    {INHIBIT "2301/", 0, 0, 0, 23, "ABCD", 0, 0, "printed: 2301 silences 23"},
    {INHIBIT "2301/", 0, 0, 0, 0, "ABCD", 0, 0, "printed: and 0"},
    {INHIBIT "2301/", 0, 0, 0, 1, "ABCD", 0, 2, "printed: not 1"},
    {INHIBIT "0507/", 1, 0, 0, 5, "ABCD", 0, 0, "the start hour"},
    {INHIBIT "0507/", 1, 0, 0, 6, "ABCD", 0, 0, "inside"},
    {INHIBIT "0507/", 1, 0, 0, 7, "ABCD", 0, 1, "the end hour"},
    {INHIBIT "0505/", 1, 0, 0, 5, "ABCD", 0, 1, "equal hours: none"},
    {INHIBIT "2300/", 1, 0, 0, 0, "ABCD", 0, 1, "up to midnight"},
    {H9 "0023/", 1, 0, 0, 5, "ABCD", 0, 1, "the flag is 0"},
    /* regions */
    {REGIONS "0000/", 0, 0, 0, 0, "ABCD", 0, 2, "no boxes: everywhere"},
    {LINE, 0, 600, 600, 0, "ABCD", 0, 2, "a corner belongs to the box"},
    {LINE, 0, -600, -600, 0, "ABCD", 0, 2, "the other corner"},
    {LINE, 0, 601, 0, 0, "ABCD", 0, 0, "a minute north of it"},
    {LINE, 0, -601, 0, 0, "ABCD", 0, 0, "a minute south of it"},
    {LINE, 0, 0, -601, 0, "ABCD", 0, 0, "a minute west of it"},
    {LINE, 1, 0, 601, 0, "ABCD", 0, 0, "a minute east of it, level"},
    {LINE, 0, 300, 0, 0, "ABCD", 0, 0, "on the line: inhibiting wins"},
    {LINE, 0, 300, 300, 0, "ABCD", 0, 0, "its end"},
    {LINE, 0, 300, 301, 0, "ABCD", 0, 2, "past its end"},
    {LINE, 0, 301, 0, 0, "ABCD", 0, 2, "beside it"},
    {REGIONS "000190N90S180W180E/", 1, 5400, 10800, 0, "ABCD", 0, 0, "the globe"},
    {H2 "000190N90S180W180E/", 1, 0, 0, 0, "ABCD", 0, 1, "the flag is 0"},
    /* over the date line: 170E to 170W */
    {REGIONS "0110N10S170E170W00/", 1, 0, 10200, 0, "ABCD", 0, 1, "its first edge"},
    {REGIONS "0110N10S170E170W00/", 1, 0, 10199, 0, "ABCD", 0, 0, "a minute west of it"},
    {REGIONS "0110N10S170E170W00/", 1, 0, -10200, 0, "ABCD", 0, 1, "its second edge"},
    {REGIONS "0110N10S170E170W00/", 1, 0, -10199, 0, "ABCD", 0, 0, "a minute east of it"},
    {REGIONS "0110N10S170E170W00/", 1, 0, 10800, 0, "ABCD", 0, 1, "180E"},
    {REGIONS "0110N10S170E170W00/", 1, 0, -10800, 0, "ABCD", 0, 1, "180W"},
    {REGIONS "0110N10S170E170W00/", 1, 0, 0, 0, "ABCD", 0, 0, "on the other side of the globe"},
    {REGIONS "0110N10S170E170W00/", 1, 601, 10800, 0, "ABCD", 0, 0, "a minute north of it"},
    {REGIONS "000110N10S170E170W/", 1, 0, -10800, 0, "ABCD", 0, 0, "inhibiting, 180W"},
    {REGIONS "000110N10S170E170W/", 1, 0, 0, 0, "ABCD", 0, 1, "inhibiting, on the other side"},
    /* 180E and 180W are one meridian in every box */
    {REGIONS "0110N10S170E180E00/", 1, 0, -10800, 0, "ABCD", 0, 1, "180W in 170E to 180E"},
    {REGIONS "0110N10S170E180E00/", 1, 0, -10799, 0, "ABCD", 0, 0, "a minute east of it"},
    {REGIONS "0110N10S180W170W00/", 1, 0, 10800, 0, "ABCD", 0, 1, "180E in 180W to 170W"},
    {REGIONS "0110N10S180W170W00/", 1, 0, 10799, 0, "ABCD", 0, 0, "a minute west of it"},
    {REGIONS "0110N10S170E179E00/", 1, 0, -10800, 0, "ABCD", 0, 0, "180W outside 170E to 179E"},
    {REGIONS "0110N10S180E180W00/", 1, 0, -10800, 0, "ABCD", 0, 1, "180E to 180W: the meridian"},
    {REGIONS "0110N10S180E180W00/", 1, 0, -10799, 0, "ABCD", 0, 0, "180E to 180W: nothing else"},
    {REGIONS "0110N10S180E180W00/", 1, 0, 0, 0, "ABCD", 0, 0, "180E to 180W: not the globe"},
    {REGIONS "0110N10S180W180E00/", 1, 0, 0, 0, "ABCD", 0, 1, "180W to 180E: the globe"},
    {REGIONS "0110N10S180W180W00/", 1, 0, 10800, 0, "ABCD", 0, 1, "180W to 180W: the meridian"},
    {REGIONS "0110N10S180W180W00/", 1, 0, 10799, 0, "ABCD", 0, 0, "180W to 180W: nothing else"},
    /* level */
    {"AWR049999909000000000/", 1, 0, 0, 0, "ABCD", 0, 0, "enroute 0: silent"},
    {"AWR049991909003000000/000000001/", 1, 0, 0, 0, "ABCD", 0, 0, "the enroute flag alone decides"},
    /* without airports */
    {"AWR049999099000000000/", 0, 0, 0, 0, "ABCD", 0, 1, "ascent 0: routine, section 6 says 1"},
    {"AWR049999099000006000/0/", 0, 0, 0, 0, "ABCD", 0, 0, "ascent 0, section 6 says 0"},
    {"AWR049999990000000000/", 2, 0, 0, 0, "ABCD", 0, 1, "descent 0: routine, section 8 says 1"},
    {"AWR049999990000000080/0/", 2, 0, 0, 0, "ABCD", 0, 0, "descent 0, section 8 says 0"},
    {"AWR049999990000006000/0/", 2, 0, 0, 0, "ABCD", 0, 1, "section 6 is not the descent's"},
    /* with airports */
    {AIRPORTS "000000000/", 0, 0, 0, 0, "ABCD", 0, 2, "no list: every airfield"},
    {AIRPORTS "01ABCD0000000/", 0, 0, 0, 0, "ABCD", 0, 2, "selected"},
    {AIRPORTS "01ABCD0000000/", 0, 0, 0, 0, "ABCE", 0, 0, "not selected"},
    {AIRPORTS "01ABCD0000001/", 0, 0, 0, 0, "ABCE", 0, 1, "not selected: section 3 says routine"},
    {AIRPORTS "01ABCD0000000/", 2, 0, 0, 0, "ABCE", 0, 2, "the descent has its own list"},
    {AIRPORTS "0001ABCD00000/", 2, 0, 0, 0, "ABCE", 0, 0, "the descent's list"},
    {AIRPORTS "01ABCD0001ABCD000/", 0, 0, 0, 0, "ABCD", 0, 0, "selected and inhibited: not scheme"},
    {AIRPORTS "000001ABCD001/", 0, 0, 0, 0, "ABCD", 0, 1, "inhibited: routine"},
    {AIRPORTS "00000001ABCD0/", 2, 0, 0, 0, "ABCD", 0, 0, "inhibited in descent"},
    {"AWR049991099003000000/000000000/", 0, 0, 0, 0, "ABCD", 0, 0, "ascent 0: section 6 is not asked"},
    {"AWR049991099003000000/000000001/", 0, 0, 0, 0, "ABCD", 0, 1, "ascent 0: section 3 says routine"},
};

static void decide_holds(esk_settings settings, const decide_case *c, size_t length)
{
    lent in;
    lent_settings held;
    esk_decided got = esk_decide(lend_settings(&held, settings), (uint8_t)c->phase, c->latitude, c->longitude,
                                 (uint8_t)c->hour, lend(&in, c->airfield, length, 1), length);
    static const uint8_t zero[sizeof got.spare];
    int spare = memcmp(got.spare, zero, sizeof zero) != 0;
    checks++;
    if (got.code != c->code || got.decision != c->decision || got.place != 0 || spare) {
        fail(c->why, "esk_decide", bytes(c->command), strlen(c->command));
        fprintf(stderr, "  phase %u latitude %ld longitude %ld hour %u airfield \"%s\"\n", c->phase, (long)c->latitude,
                (long)c->longitude, c->hour, c->airfield);
        fprintf(stderr, "  expected: code %u place 0 decision %u\n", c->code, c->decision);
        fprintf(stderr, "  got     : code %u place %lu decision %u%s\n", (unsigned)got.code, (unsigned long)got.place,
                (unsigned)got.decision, spare ? ", spare not 0" : "");
        exit(1);
    }
    bytes_hold(&in, "", 0, "esk_decide", c->why);
    settings_hold(&held, &settings, c->why);
}

/* A configuration that is not valid goes before all else. */
static void not_valid(void)
{
    static const decide_case twelve[] = {
        {NO_CHANGE, 0, 0, 0, 0, "ABCD", 12, 0, "12"},
        {NO_CHANGE, 3, 9999, 0, 24, "", 12, 0, "12 before 5 and 4"},
    };
    esk_settings s = esk_reset();
    s.flags[0] = 9;
    decide_holds(s, &twelve[0], 4);
    decide_holds(s, &twelve[1], 0);
    s = esk_reset();
    s.flags[0] = 0;
    s.airports.selected.descent.names[79] = 'A';
    decide_holds(s, &twelve[0], 4);
}

/* Full lists: the last entry counts, and so does the first. */
static void full_lists(void)
{
    static const decide_case ask[] = {
        {"full lists", 0, 0, 0, 0, "LAST", 0, 2, "the last of twenty is selected"},
        {"full lists", 0, 0, 0, 0, "FRST", 0, 2, "the first of twenty is selected"},
        {"full lists", 0, 0, 0, 0, "DDLA", 0, 0, "bytes of two neighbours are no airfield"},
        {"full lists", 2, 0, 0, 0, "LAST", 0, 0, "the last of twenty is inhibited"},
    };
    esk_settings s = after(AIRPORTS "000000000/");
    esk_airfields list;
    list.count = 20;
    memcpy(list.names, EIGHTY, 80);
    memcpy(list.names, "FRST", 4);
    memcpy(list.names + 72, "MIDDLAST", 8);
    s.airports.selected.ascent = list;
    s.airports.inhibited.descent = list;
    for (size_t i = 0; i < sizeof ask / sizeof *ask; i++)
        decide_holds(s, &ask[i], 4);
    s = after(REGIONS BOXES "00/");
    decide_holds(s, &ask[0], 4);
    esk_region far = s.regions.reporting.regions[0];
    far.south = far.north;
    for (int i = 0; i < 15; i++)
        s.regions.reporting.regions[i] = far;
    decide_holds(s, &ask[0], 4);
    s.regions.reporting.regions[15] = far;
    decide_holds(s, &ask[2], 4);
}

int main(void)
{
    HOLD(sizeof(esk_decided) == 16 && offsetof(esk_decided, place) == 0 && offsetof(esk_decided, code) == 8);
    HOLD(offsetof(esk_decided, decision) == 9 && offsetof(esk_decided, spare) == 10);
    HOLD(ESK_ASCENT == 0 && ESK_LEVEL == 1 && ESK_DESCENT == 2);
    HOLD(ESK_SILENT == 0 && ESK_ROUTINE == 1 && ESK_SCHEME == 2);
    for (size_t i = 0; i < sizeof cases / sizeof *cases; i++)
        decide_holds(after(cases[i].command), &cases[i], strlen(cases[i].airfield));
    not_valid();
    full_lists();
    printf("test_decide: %lu checks passed\n", checks);
    return 0;
}
