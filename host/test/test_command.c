/* Commands: document 01's, every code and place in texts and in records, each room, canaries round every buffer. */
#include "uplink.h"

typedef struct text_case {
    const char *text;
    unsigned code;
    unsigned long place;
    const char *why;
} text_case;

static const text_case texts[] = {
    /* document 01, "Figures to hold against the code" */
    {NO_CHANGE, 0, 0, "printed: no change"},
    {"AWR041999999000400000/151/", 0, 0, "printed: first of the join"},
    {"AWR049199999100400009/300/2301/", 0, 0, "printed: second of the join"},
    {"AWR041199999100400009/300/2301/", 0, 0, "printed: the join"},
    {"", 8, 0, "printed: the empty command"},
    {longest, 0, 0, "845 bytes"},
    /* the head */
    {"XX", 8, 0, "8 before 3 within a field"},
    {"AWR05", 3, 0, "AWR04 is one field"},
    {"AWR04", 8, 5, "ends between two fields: at the next"},
    {"AWR042", 4, 5, "a flag"},
    {"AWR04999999x", 4, 11, "the last flag"},
    {"AWR0499999993", 4, 12, "downlink"},
    {"AWR049999999030000000/", 4, 13, "E2 = 3"},
    {"AWR049999999002000000/", 4, 14, "E3 = 2"},
    {"AWR049999999000000600/", 4, 18, "E7 = 6"},
    {"AWR049999999000000100/", 4, 18, "E7 = 1"},
    {"AWR049999999000000/00/", 4, 18, "E7 = /"},
    {"AWR049999999000000000", 8, 21, "no delimiter"},
    {"AWR0499999990000000000", 3, 21, "a wrong delimiter"},
    {NO_CHANGE "/", 8, 22, "a byte after the last delimiter"},
    {NO_CHANGE "xyz", 8, 22, "the first byte after the last delimiter"},
    /* section 2 */
    {H2 "0000/", 0, 0, "no boxes"},
    {H2, 8, 22, "no section"},
    {H2 "x", 8, 22, "8 before 4 within a count"},
    {H2 "xx", 4, 22, "a count"},
    {H2 "17", 5, 22, "17 reporting boxes"},
    {H2 "0017", 5, 24, "17 inhibiting boxes"},
    {H2 "0110N10", 8, 27, "ends inside an edge"},
    {H2 "0199N", 5, 24, "5 before the 8 of a later field"},
    {H2 "0199X", 4, 24, "4 before 5"},
    {H2 "01/0N", 4, 24, "a non-digit"},
    {H2 "0100S10S", 6, 24, "00S"},
    {H2 "0110N10N000W", 6, 30, "000W"},
    {H2 "0110N11N181E000E00/", 7, 27, "latitudes disagree, before the longitudes"},
    {H2 "0110N10N181E", 5, 30, "west"},
    {H2 "0110N10N010E009E00/", 0, 0, "over the date line, all but a degree"},
    {H2 "0110N10N170E170W00/", 0, 0, "over the date line"},
    {H2 "0110N10N180E180W00/", 0, 0, "180E to 180W"},
    {H2 "0110N10N180E181W00/", 5, 34, "east, over the date line"},
    {H2 "0110N10N170E000W00/", 6, 34, "000W, over the date line"},
    {H2 "0110N10N170E170N00/", 4, 34, "a letter, over the date line"},
    {H2 "0110N11N170E170W00/", 7, 27, "latitudes disagree, over the date line"},
    {H2 "0110N10N170E170W0110N11N170E170W/", 7, 43, "latitudes disagree in the second list"},
    {H2 "0110N10N180W180E00/", 0, 0, "180W to 180E"},
    {H2 "0100N00N000E000E00/", 0, 0, "a point at zero"},
    {H2 "0110S10S010E010E00/", 0, 0, "a point"},
    {H2 "0189S90S179W178W00/", 0, 0, "edges below zero"},
    {H2 "0190S89S", 7, 27, "89S is above 90S"},
    {H2 "00000", 3, 26, "the delimiter"},
    /* section 3 */
    {H3 "000000000/", 0, 0, "no airfields"},
    {H3 "02ABCDABCD0000001/", 0, 0, "repeats are kept"},
    {H3 "02AZ09ZZZZ0001A00/", 4, 36, "an airfield of the third list"},
    {H3 "02AZ0900000000000/", 0, 0, "the ends of letters and digits"},
    {H3 "02ABCDAB", 8, 28, "ends inside an airfield"},
    {H3 "02ABCDabcd", 4, 28, "an airfield"},
    {H3 "21", 5, 22, "21 airfields"},
    {H3 "000000002/", 5, 30, "routine is a number"},
    {H3 "00000000//", 4, 30, "routine, a non-digit"},
    /* section 4 */
    {H4 "071", 8, 25, "no delimiter"},
    {H4 "0x1/", 4, 22, "the second digit: place of the first"},
    {H4 "000/", 5, 22, "interval 00"},
    {H4 "610/", 5, 22, "interval 61"},
    {H4 "072/", 5, 24, "maximum wind is a number"},
    {H4 "07x/", 4, 24, "maximum wind, a non-digit"},
    /* section 5 */
    {H5 FIVE, 0, 0, "as after reset"},
    {H5 "2060902005120021/", 4, 22, "mode is a byte"},
    {H5 "1020902005120021/", 5, 23, "series 1 interval 02"},
    {H5 "1060292005120021/", 5, 25, "duration 029"},
    {H5 "1066012005120021/", 5, 25, "duration 601"},
    {H5 "1060906105120021/", 5, 28, "series 2 interval 61"},
    {H5 "1060902011220021/", 5, 30, "total 112"},
    {H5 "106090200512 021/", 4, 33, "the second digit: place of the first"},
    {H5 "1060902005114921/", 5, 33, "top 149"},
    {H5 "1060902005120001/", 4, 36, "list is a byte"},
    {H5 "1060902005120022/", 4, 37, "timer is a byte"},
    /* section 7 */
    {H7 SEVEN, 0, 0, "as after reset"},
    {H7 "004020011/", 0, 0, "as source document 000 prints it"},
    {H7 "001015010/", 0, 0, "the least of each"},
    {H7 "130035021/", 0, 0, "the greatest of each"},
    {H7, 8, 22, "no section"},
    {H7 "104020021", 8, 31, "no delimiter"},
    {H7 "10402002", 8, 30, "ends before the timer"},
    {H7 "10", 8, 23, "ends inside the interval"},
    {H7 "1040200210", 3, 31, "a wrong delimiter"},
    {H7 "1040200211/", 3, 31, "a byte more"},
    {H7 SEVEN "/", 8, 32, "a byte after the last delimiter"},
    {H7 "204020021/", 4, 22, "mode is a byte"},
    {H7 "/04020021/", 4, 22, "mode, a non-digit"},
    {H7 "100920021/", 5, 23, "interval 009"},
    {H7 "100020021/", 5, 23, "interval 000"},
    {H7 "130120021/", 5, 23, "interval 301"},
    {H7 "199920021/", 5, 23, "interval 999"},
    {H7 "104x20021/", 4, 23, "the third digit: place of the first"},
    {H7 "1/0020021/", 4, 23, "4 before 5"},
    {H7 "104014921/", 5, 26, "top 149"},
    {H7 "104035121/", 5, 26, "top 351"},
    {H7 "10402 021/", 4, 26, "top, a space"},
    {H7 "104020001/", 4, 29, "list is a byte"},
    {H7 "104020031/", 4, 29, "list 3"},
    {H7 "104020022/", 4, 30, "timer is a byte"},
    {"AWR049999999000006780/1/" SEVEN "0/", 0, 0, "between sections 6 and 8"},
    {"AWR049999999000006780/" SEVEN "1/0/", 3, 23, "section 7 before 6"},
    {"AWR049999999000006780/1/0/" SEVEN, 4, 25, "section 8 before 7"},
    {"AWR049999999000006080/1/" SEVEN "0/", 3, 25, "a section 7 that is not named"},
    /* sections 6, 8 and 9 */
    {H6 "2/", 5, 22, "routine is a number"},
    {H6 "1/", 0, 0, "routine"},
    {H8 "/", 4, 22, "a non-digit"},
    {H8 "0", 8, 23, "no delimiter"},
    {H9 "2323/", 0, 0, "hours"},
    {H9 "2400/", 5, 22, "start 24"},
    {H9 "0024/", 5, 24, "end 24"},
};

static int is_empty(const esk_command *command)
{
    static const esk_command empty;
    checks++;
    return memcmp(command, &empty, sizeof empty) == 0;
}

static void write_holds(esk_command c, size_t room, unsigned code, unsigned long place, const char *text, size_t length,
                        const char *why)
{
    lent in, out;
    const esk_command *command = (const esk_command *)(const void *)lend(&in, &c, sizeof c, 0);
    esk_answer got = esk_command_write(command, lend(&out, NULL, room, 1), room);
    bytes_hold(&in, "", 0, "the command, lent for reading", why);
    answer_holds(got, code, place, code == 0 ? length : 0, 0, "esk_command_write", why);
    bytes_hold(&out, text, code == 0 ? length : 0, "esk_command_write", why);
}

/* Check and read of one text; where it is accepted, the record writes back the same bytes in every room that fits. */
static void text_holds(const char *text, size_t length, unsigned code, unsigned long place, const char *why, int null)
{
    lent in;
    const uint8_t *lent_text = lend(&in, text, length, null);
    answer_holds(esk_command_check(lent_text, length), code, place, 0, 0, "esk_command_check", why);
    esk_command_got got = esk_command_read(lent_text, length);
    answer_holds(got.answer, code, place, 0, 0, "esk_command_read", why);
    bytes_hold(&in, "", 0, "lent for reading", why);
    if (code != 0) {
        HOLD(is_empty(&got.command));
        return;
    }
    HOLD(got.command.spare == 0);
    for (size_t room = 0; room <= length + 2; room++)
        write_holds(got.command, room, room < length ? 2 : 0, 0, text, length, why);
    write_holds(got.command, MOST, 0, 0, text, length, why);
}

static void read_all(void)
{
    for (size_t i = 0; i < sizeof texts / sizeof *texts; i++)
        for (int null = 0; null < 2; null++)
            text_holds(texts[i].text, strlen(texts[i].text), texts[i].code, texts[i].place, texts[i].why, null);
    static char long_text[MOST];
    memset(long_text, '/', sizeof long_text);
    memcpy(long_text, longest, ESK_COMMAND_BYTES);
    for (size_t length = ESK_COMMAND_BYTES + 1; length <= MOST; length++)
        text_holds(long_text, length, 1, 0, "over 845 bytes", 0);
    for (size_t length = 0; length < ESK_COMMAND_BYTES; length++)
        HOLD(esk_command_check(bytes(longest), length).code == 8);
}

/* Records that are not allowed, each made from what the longest command reads to. */
typedef struct record_case {
    void (*make)(esk_command *);
    unsigned code;
    unsigned long place;
    const char *why;
} record_case;

static esk_region *first_box(esk_command *c) { return &c->settings.regions.reporting.regions[0]; }

static void flag(esk_command *c) { c->settings.flags[0] = 2; }
static void flag_ascii(esk_command *c) { c->settings.flags[6] = '1'; }
static void downlink(esk_command *c) { c->downlink = 3; }
static void indicator(esk_command *c) { c->named[0] = 3; }
static void seven(esk_command *c) { c->named[5] = 8; }
static void no_two(esk_command *c) { c->named[0] = 0; }
static void no_three(esk_command *c) { c->named[1] = 0; }
static void no_four(esk_command *c) { c->named[2] = 0; }
static void no_seven(esk_command *c) { c->named[5] = 0; }
static void no_nine(esk_command *c) { c->named[7] = 0; }
static void count_high(esk_command *c) { c->settings.regions.reporting.count = 17; }
static void count_low(esk_command *c) { c->settings.regions.inhibiting.count = 15; }
static void count_first(esk_command *c) { c->settings.regions.reporting.count = 1, first_box(c)->north.letter = 0; }
static void letter(esk_command *c) { first_box(c)->north.letter = 'E'; }
static void north(esk_command *c) { first_box(c)->north.degrees = 91; }
static void south_zero(esk_command *c) { first_box(c)->south.degrees = 0; }
static void below(esk_command *c) { first_box(c)->north.letter = 'S', first_box(c)->south.degrees = 89; }
static void west_zero(esk_command *c) { first_box(c)->west.degrees = 0; }
static void east(esk_command *c) { first_box(c)->east.degrees = 181; }
static void above(esk_command *c) { first_box(c)->west.letter = 'E', first_box(c)->east.degrees = 179; }
static void airfields(esk_command *c) { c->settings.airports.selected.ascent.count = 21; }
static void airfields_low(esk_command *c) { c->settings.airports.inhibited.descent.count = 19; }
static void airfield(esk_command *c) { memset(c->settings.airports.selected.descent.names + 4, 0, 4); }
static void routine3(esk_command *c) { c->settings.airports.routine = 2; }
static void interval(esk_command *c) { c->settings.enroute.interval = 0; }
static void wind(esk_command *c) { c->settings.enroute.wind = 2; }
static void mode(esk_command *c) { c->settings.ascent.mode = 2; }
static void duration(esk_command *c) { c->settings.ascent.duration = 601; }
static void top(esk_command *c) { c->settings.ascent.top = 149; }
static void list(esk_command *c) { c->settings.ascent.list = 0; }
static void timer(esk_command *c) { c->settings.ascent.timer = 2; }
static void routine6(esk_command *c) { c->settings.routine6 = 2; }
static void descent_mode(esk_command *c) { c->settings.descent.mode = 2; }
static void descent_mode_high(esk_command *c) { c->settings.descent.mode = 256; }
static void descent_9(esk_command *c) { c->settings.descent.interval = 9; }
static void descent_301(esk_command *c) { c->settings.descent.interval = 301; }
static void descent_high(esk_command *c) { c->settings.descent.interval = 1040; }
static void descent_149(esk_command *c) { c->settings.descent.top = 149; }
static void descent_351(esk_command *c) { c->settings.descent.top = 351; }
static void descent_top_high(esk_command *c) { c->settings.descent.top = 0x8000 + 200; }
static void descent_list(esk_command *c) { c->settings.descent.list = 0; }
static void descent_timer(esk_command *c) { c->settings.descent.timer = 2; }
static void routine8(esk_command *c) { c->settings.routine8 = 255; }
static void hours(esk_command *c) { c->settings.hours.end = 24; }
static void leftmost(esk_command *c) { hours(c), east(c), airfield(c); }
static void spare(esk_command *c) { c->spare = 1; }
static void spare_and_flag(esk_command *c) { spare(c), flag(c); }
static void spare_and_downlink(esk_command *c) { spare(c), downlink(c); }
static void spare_and_last(esk_command *c) { spare(c), c->named[7] = 8; }
static void spare_and_count(esk_command *c) { spare(c), count_high(c); }
static void spare_and_no_two(esk_command *c) { spare(c), no_two(c); }
static void spare_and_hours(esk_command *c) { spare(c), hours(c); }

static const record_case records[] = {
    {flag, 4, 5, "flag 2"},
    {flag_ascii, 4, 11, "numbers, not bytes"},
    {downlink, 4, 12, "downlink"},
    {indicator, 4, 13, "E2 = 3"},
    {seven, 4, 18, "E7 = 8"},
    {no_two, 7, 22, "section 2 not named and not zero"},
    {no_three, 7, 475, "section 3 not named: where it would begin"},
    {no_four, 7, 805, "section 4 not named"},
    {no_seven, 7, 828, "section 7 not named"},
    {no_nine, 7, 840, "section 9 not named: at the end of the text"},
    {count_high, 5, 22, "17 boxes"},
    {count_low, 7, 248, "unused entries not zero, at the count"},
    {count_first, 7, 22, "unused entries before entries"},
    {letter, 4, 24, "letter"},
    {north, 5, 24, "91N"},
    {south_zero, 6, 27, "00S"},
    {below, 7, 27, "north below south"},
    {west_zero, 6, 30, "000W"},
    {east, 5, 34, "181E"},
    {airfields, 5, 475, "21 airfields"},
    {airfields_low, 7, 721, "an unused airfield not zero"},
    {airfield, 4, 563, "an airfield"},
    {routine3, 5, 803, "routine of section 3"},
    {interval, 5, 805, "interval"},
    {wind, 5, 807, "maximum wind"},
    {mode, 4, 809, "mode"},
    {duration, 5, 812, "duration"},
    {top, 5, 820, "top"},
    {list, 4, 823, "list"},
    {timer, 4, 824, "timer"},
    {routine6, 5, 826, "section 6"},
    {descent_mode, 4, 828, "mode of section 7"},
    {descent_mode_high, 4, 828, "mode of section 7, both bytes"},
    {descent_9, 5, 829, "interval 9"},
    {descent_301, 5, 829, "interval 301"},
    {descent_high, 5, 829, "interval 1040, four digits"},
    {descent_149, 5, 832, "top 149"},
    {descent_351, 5, 832, "top 351"},
    {descent_top_high, 5, 832, "top, both bytes"},
    {descent_list, 4, 835, "list of section 7"},
    {descent_timer, 4, 836, "timer of section 7"},
    {routine8, 5, 838, "section 8"},
    {hours, 5, 842, "end hour"},
    {leftmost, 5, 34, "the leftmost field"},
    {spare, 7, 21, "spare"},
    {spare_and_flag, 4, 5, "spare behind the flags"},
    {spare_and_downlink, 4, 12, "spare behind the downlink digit"},
    {spare_and_last, 4, 20, "spare behind the last indicator"},
    {spare_and_count, 7, 21, "spare before section 2"},
    {spare_and_no_two, 7, 21, "spare before a section that is not named"},
    {spare_and_hours, 7, 21, "spare before section 9"},
};

static void write_all(void)
{
    static const size_t rooms[] = {0, 1, 844, 845, 846, MOST};
    const esk_command good = esk_command_read(bytes(longest), ESK_COMMAND_BYTES).command;
    for (size_t i = 0; i < sizeof records / sizeof *records; i++) {
        esk_command c = good;
        records[i].make(&c);
        for (size_t j = 0; j < sizeof rooms / sizeof *rooms; j++)
            write_holds(c, rooms[j], records[i].code, records[i].place, "", 0, records[i].why);
    }
    /* over the date line */
    char over[ESK_COMMAND_BYTES];
    memcpy(over, longest, sizeof over);
    memcpy(over + 30, "180E179E", 8);
    esk_command c = good;
    above(&c);
    write_holds(c, ESK_COMMAND_BYTES, 0, 0, over, sizeof over, "west above east");
    write_holds(c, ESK_COMMAND_BYTES - 1, 2, 0, "", 0, "west above east: 2 and not 7");
    esk_command four = esk_command_read(bytes(H4 "071/"), 26).command;
    for (unsigned value = 1; value < 256; value++) {
        four.spare = (uint8_t)value;
        write_holds(four, MOST, 7, 21, "", 0, "every spare byte but 0");
        write_holds(four, 25, 7, 21, "", 0, "7 before 2");
    }
    four.spare = 0;
    write_holds(four, MOST, 0, 0, H4 "071/", 26, "spare 0");
    four.settings.hours.start = 1;
    write_holds(four, MOST, 7, 26, "", 0, "section 9 not named: the text's length");
    four.settings.airports.inhibited.descent.names[79] = 1;
    write_holds(four, 0, 7, 22, "", 0, "section 3 in its turn");
}

static int is_edge(esk_edge edge, unsigned degrees, char letter)
{
    return edge.degrees == degrees && edge.letter == (uint8_t)letter;
}

/* Every member of what is read. */
static void members(void)
{
    esk_command c = esk_command_read(bytes(longest), ESK_COMMAND_BYTES).command;
    const esk_settings *s = &c.settings;
    HOLD(memcmp(s->flags, "\1\1\1\1\1\1\1", 7) == 0 && c.downlink == 2);
    HOLD(memcmp(c.named, "\2\3\4\5\6\7\10\11", 8) == 0 && c.spare == 0);
    HOLD(s->regions.reporting.count == 16 && s->regions.inhibiting.count == 16);
    for (int i = 0; i < 16; i++) {
        esk_region r = s->regions.inhibiting.regions[i];
        HOLD(is_edge(r.north, 90, 'N') && is_edge(r.south, 90, 'S'));
        HOLD(is_edge(r.west, 180, 'W') && is_edge(r.east, 180, 'E'));
    }
    HOLD(s->airports.selected.ascent.count == 20 && s->airports.inhibited.descent.count == 20);
    HOLD(memcmp(s->airports.inhibited.descent.names, EIGHTY, 80) == 0 && s->airports.routine == 1);
    HOLD(s->enroute.interval == 60 && s->enroute.wind == 1);
    HOLD(s->ascent.mode == 1 && s->ascent.interval1 == 6 && s->ascent.duration == 90 && s->ascent.interval2 == 20);
    HOLD(s->ascent.total == 51 && s->ascent.top == 200 && s->ascent.list == 2 && s->ascent.timer == 1);
    HOLD(s->descent.mode == 1 && s->descent.interval == 40 && s->descent.top == 200);
    HOLD(s->descent.list == 2 && s->descent.timer == 1);
    HOLD(s->routine6 == 1 && s->routine8 == 0 && s->hours.start == 23 && s->hours.end == 1);

    c = esk_command_read(bytes(H3 "01AAAA01BBBB01CCCC01DDDD1/"), 22 + 26).command;
    HOLD(memcmp(s->airports.selected.ascent.names, "AAAA\0\0\0\0", 8) == 0);
    HOLD(memcmp(s->airports.selected.descent.names, "BBBB\0\0\0\0", 8) == 0);
    HOLD(memcmp(s->airports.inhibited.ascent.names, "CCCC\0\0\0\0", 8) == 0);
    HOLD(memcmp(s->airports.inhibited.descent.names, "DDDD\0\0\0\0", 8) == 0);

    c = esk_command_read(bytes(H5 "0036006011135010/"), 39).command;
    HOLD(s->ascent.mode == 0 && s->ascent.interval1 == 3 && s->ascent.duration == 600 && s->ascent.interval2 == 60);
    HOLD(s->ascent.total == 111 && s->ascent.top == 350 && s->ascent.list == 1 && s->ascent.timer == 0);

    c = esk_command_read(bytes(H7 "030035010/"), 32).command;
    HOLD(memcmp(c.named, "\0\0\0\0\0\7\0\0", 8) == 0);
    HOLD(s->descent.mode == 0 && s->descent.interval == 300 && s->descent.top == 350);
    HOLD(s->descent.list == 1 && s->descent.timer == 0);

    c = esk_command_read(bytes(NO_CHANGE), 22).command;
    HOLD(memcmp(s->flags, "\11\11\11\11\11\11\11", 7) == 0 && c.downlink == 0);
    memset(c.settings.flags, 0, 7);
    HOLD(is_empty(&c));
}

/* The layout that the header promises. */
static void layout(void)
{
    HOLD(ESK_COMMAND_BYTES == 845 && sizeof longest == 846);
    HOLD(ESK_END == 8 && ESK_NO_SLOT == 9 && ESK_BOARD == 10 && ESK_NOTHING == 11 && ESK_SETTINGS == 12);
    HOLD(sizeof(esk_edge) == 2 && offsetof(esk_edge, degrees) == 0 && offsetof(esk_edge, letter) == 1);
    HOLD(sizeof(esk_region) == 8 && offsetof(esk_region, north) == 0 && offsetof(esk_region, south) == 2);
    HOLD(offsetof(esk_region, west) == 4 && offsetof(esk_region, east) == 6);
    HOLD(sizeof(esk_boxes) == 129 && offsetof(esk_boxes, count) == 0 && offsetof(esk_boxes, regions) == 1);
    HOLD(sizeof(esk_airfields) == 81 && offsetof(esk_airfields, count) == 0 && offsetof(esk_airfields, names) == 1);
    HOLD(sizeof(esk_command) == 624 && offsetof(esk_command, settings) == 0);
    HOLD(offsetof(esk_command, downlink) == 614 && offsetof(esk_command, named) == 615);
    HOLD(offsetof(esk_command, spare) == 623);
    HOLD(sizeof(esk_command_got) == 640 && offsetof(esk_command_got, answer) == 0);
    HOLD(offsetof(esk_command_got, command) == 16);
}

int main(void)
{
    layout();
    members();
    read_all();
    write_all();
    printf("test_command: %lu checks passed\n", checks);
    return 0;
}
