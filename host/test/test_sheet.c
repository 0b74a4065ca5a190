/* The status sheet: the printed one, read and written back; every code with its place; every record's refusal; offsets; canaries
 * round every buffer. */
#define CHECK_MOST 1024
#include "check.h"

enum { SHEET = 913 };

static const char printed[] =
    "- AMDARSTATUS3 AU0115\r\n"
    "AD10/50 RR421 DR50/10\r\n"
    "T1 690 T2 500  0\r\n"
    "S2 SP1 SC5 SD5 I1\r\n"
    "B0     0/  5400 -5399/  9600 1\r\n"
    "B1     0/  9600 -3000/ -9600 1\r\n"
    "B2     0/     0     0/     0 0\r\n"
    "B3     0/     0     0/     0 0\r\n"
    "B4     0/     0     0/     0 0\r\n"
    "B5     0/     0     0/     0 0\r\n"
    "B6     0/     0     0/     0 0\r\n"
    "B7     0/     0     0/     0 0\r\n"
    "B8     0/     0     0/     0 0\r\n"
    "B9     0/     0     0/     0 0\r\n"
    "A1 YPDN/0 A110000/0 A210000/0 A310000/0 A410000/0\r\n"
    "A2 WSSS/1 A120000/0 A220000/0 A320000/0 A420000/0\r\n"
    "A3 0000/0 A130000/0 A230000/0 A330000/0 A430000/0\r\n"
    "A4 0000/0 A140000/0 A240000/0 A340000/0 A440000/0\r\n"
    "A5 0000/0 A150000/0 A250000/0 A350000/0 A450000/0\r\n"
    "A6 0000/0 A160000/0 A260000/0 A360000/0 A460000/0\r\n"
    "A7 0000/0 A170000/0 A270000/0 A370000/0 A470000/0\r\n"
    "A8 0000/0 A180000/0 A280000/0 A380000/0 A480000/0\r\n"
    "A9 0000/0 A190000/0 A290000/0 A390000/0 A490000/0\r\n"
    "A100000/0 A200000/0 A300000/0 A400000/0 A500000/0\r\n";

static void must(int held, const char *why)
{
    checks++;
    if (!held) {
        fail(why, "esk_sheet", (const uint8_t *)printed, SHEET);
        exit(1);
    }
}

/* Checks and reads a text: one answer from both, nothing touched, and an empty record beside a refusal. */
static esk_sheet_got read_as(const void *text, size_t length, unsigned code, size_t place, const char *why)
{
    static const esk_sheet none;
    lent l;
    uint8_t *bytes = lend(&l, text, length, 1);
    esk_answer check = esk_sheet_check(bytes, length);
    must(is_written(&l, text, 0), "the check wrote");
    esk_sheet_got got = esk_sheet_read(bytes, length);
    must(is_written(&l, text, 0), "the read wrote");
    if (check.code != code || check.place != place)
        fprintf(stderr, "%s: code %u at %lu, not %u at %lu\n", why, check.code, (unsigned long)check.place, code, (unsigned long)place);
    must(check.code == code && check.place == place && check.length == 0, why);
    must(memcmp(&got.answer, &check, sizeof check) == 0 && got.spare == 0, why);
    must(code == 0 || memcmp(&got.sheet, &none, sizeof none) == 0, why);
    return got;
}

/* The printed sheet with some bytes written over it. */
static void over_as(size_t at, const char *bytes, unsigned code, size_t place)
{
    uint8_t text[SHEET];
    memcpy(text, printed, SHEET);
    memcpy(text + at, bytes, strlen(bytes));
    read_as(text, SHEET, code, place, bytes);
}

static void write_as(esk_sheet sheet, size_t room, unsigned code, size_t place, const void *text)
{
    lent l;
    uint8_t *out = lend(&l, NULL, room, 0);
    esk_answer a = esk_sheet_write(sheet, out, room);
    if (a.code != code || a.place != place)
        fprintf(stderr, "code %u at %lu, not %u at %lu\n", a.code, (unsigned long)a.place, code, (unsigned long)place);
    must(a.code == code && a.place == place && a.length == (code == 0 ? SHEET : 0), "a written sheet's answer");
    must(is_written(&l, text, code == 0 ? SHEET : 0), "a written sheet's bytes");
}

static void offsets(void)
{
    must(sizeof(esk_sheet) == 388 && sizeof(esk_sheet_got) == 408, "sizes");
    must(sizeof(esk_sheet_box) == 10 && sizeof(esk_sheet_airport) == 5, "sizes of a box and an airport");
    must(offsetof(esk_sheet, ascent) == 0 && offsetof(esk_sheet, ascent_interval2) == 4, "ascent");
    must(offsetof(esk_sheet, level) == 6 && offsetof(esk_sheet, level_interval) == 8, "level");
    must(offsetof(esk_sheet, descent) == 10 && offsetof(esk_sheet, descent_interval2) == 14, "descent");
    must(offsetof(esk_sheet, trigger1) == 16 && offsetof(esk_sheet, trigger2) == 18, "triggers");
    must(offsetof(esk_sheet, observations) == 20 && offsetof(esk_sheet, smoothing) == 22, "observations");
    must(offsetof(esk_sheet, profile_constant) == 24 && offsetof(esk_sheet, instant_constant) == 30, "constants");
    must(offsetof(esk_sheet, boxes) == 32 && offsetof(esk_sheet_box, longitude2) == 6, "boxes");
    must(offsetof(esk_sheet_box, status) == 8 && offsetof(esk_sheet_airport, status) == 4, "statuses");
    must(offsetof(esk_sheet, designator) == 132 && offsetof(esk_sheet, airports) == 138, "names");
    must(offsetof(esk_sheet_got, sheet) == 16 && offsetof(esk_sheet_got, spare) == 404, "the answer");
}

int main(void)
{
    offsets();
    esk_sheet_got got = read_as(printed, SHEET, 0, 0, "the printed sheet");
    esk_sheet x = got.sheet;
    must(x.ascent == 0 && x.ascent_interval1 == 10 && x.ascent_interval2 == 50, "ascent");
    must(x.level == 1 && x.level_interval == 421, "level");
    must(x.descent == 1 && x.descent_interval1 == 50 && x.descent_interval2 == 10, "descent");
    must(x.trigger1 == 690 && x.trigger2 == 500 && x.observations == 0, "triggers");
    must(x.smoothing == 2 && x.profile_constant == 1 && x.cruise_constant == 5, "smoothing");
    must(x.gust_constant == 5 && x.instant_constant == 1, "constants");
    must(x.boxes[0].latitude1 == 0 && x.boxes[0].longitude1 == 5400, "box 0, first corner");
    must(x.boxes[0].latitude2 == -5399 && x.boxes[0].longitude2 == 9600 && x.boxes[0].status == 1, "box 0, second corner");
    must(x.boxes[1].latitude2 == -3000 && x.boxes[1].longitude2 == -9600 && x.boxes[1].status == 1, "box 1");
    must(x.boxes[9].longitude2 == 0 && x.boxes[9].status == 0, "box 9");
    must(memcmp(x.designator, "AU0115", 6) == 0, "designator");
    must(memcmp(x.airports[0].icao, "YPDN", 4) == 0 && x.airports[0].status == 0, "airport 1");
    must(memcmp(x.airports[1].icao, "WSSS", 4) == 0 && x.airports[1].status == 1, "airport 2");
    must(memcmp(x.airports[49].icao, "0000", 4) == 0 && x.airports[49].status == 0, "airport 50");
    write_as(x, SHEET, 0, 0, printed);
    write_as(x, SHEET + 7, 0, 0, printed);
    write_as(x, SHEET - 1, 2, 0, printed);
    write_as(x, 0, 2, 0, printed);

    /* early and late ends: 8 at the field that has no room, or behind the last */
    read_as("", 0, 8, 0, "no byte");
    read_as(printed, 14, 8, 0, "a byte of the first group missing");
    read_as(printed, 15, 8, 15, "no designator");
    read_as(printed, 912, 8, 911, "a line end cut");
    {
        char longer[SHEET + 1];
        memcpy(longer, printed, SHEET);
        longer[SHEET] = ' ';
        read_as(longer, sizeof longer, 8, 913, "a byte more");
    }
    over_as(0, "+", 3, 0);
    over_as(14, "_", 3, 0);
    over_as(15, "a", 4, 15);
    over_as(21, "\n", 3, 21);
    over_as(23, "B", 3, 23);
    over_as(24, "S", 4, 24);
    over_as(25, " 0", 5, 25);
    over_as(25, "01", 6, 25);
    over_as(25, "1 ", 4, 25);
    over_as(25, "  ", 4, 25);
    over_as(25, "-1", 5, 25);
    over_as(25, "-0", 6, 25);
    over_as(25, "+1", 4, 25);
    over_as(25, " -", 4, 25);
    over_as(48, "0690", 6, 48);
    over_as(65, "3", 4, 65);
    over_as(86, " 5401", 5, 86);
    over_as(86, "-5401", 5, 86);
    over_as(86, "-5400", 0, 0);
    over_as(92, "-10800", 0, 0);
    over_as(92, " 10801", 5, 92);
    over_as(112, "2", 4, 112);
    over_as(115, "B2", 3, 115);
    over_as(403, "A2 ", 3, 403);
    over_as(406, "ypdn", 4, 406);
    over_as(412, "  ", 3, 412);
    over_as(411, "2", 4, 411);
    over_as(412, " A12", 3, 412);

    /* airport 12 stands in the second row's second place */
    {
        uint8_t text[SHEET];
        memcpy(text, printed, SHEET);
        memcpy(text + 403 + 51 + 10 + 3, "EHAM/1", 6);
        esk_sheet_got far = read_as(text, SHEET, 0, 0, "airport 12");
        must(memcmp(far.sheet.airports[11].icao, "EHAM", 4) == 0 && far.sheet.airports[11].status == 1, "airport 12");
        write_as(far.sheet, SHEET, 0, 0, text);
    }

    /* records that are not allowed: the leftmost field first, whatever the room */
    {
        esk_sheet y = x;
        y.airports[49].status = 2;
        write_as(y, 0, 4, 403 + 51 * 9 + 40 + 8, printed);
        y.boxes[9].status = -1;
        write_as(y, SHEET, 4, 83 + 32 * 9 + 29, printed);
        y.boxes[3].longitude1 = -10801;
        write_as(y, SHEET, 5, 83 + 32 * 3 + 9, printed);
        y.instant_constant = 10;
        write_as(y, SHEET, 5, 80, printed);
        y.smoothing = 3;
        write_as(y, SHEET, 4, 65, printed);
        y.trigger1 = -1;
        write_as(y, SHEET, 5, 48, printed);
        y.ascent_interval1 = 0;
        write_as(y, SHEET, 5, 25, printed);
        y.ascent = 2;
        write_as(y, SHEET, 4, 24, printed);
        y.designator[5] = 'a';
        write_as(y, SHEET, 4, 15, printed);
    }
    printf("test_sheet: %lu checks passed\n", checks);
    return 0;
}
