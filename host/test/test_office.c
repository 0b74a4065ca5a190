/*
 * Two offices on one board: code 13 and its place in the order, every flag, section and downlink outside a grant, every byte of slots
 * and area, canaries on both sides; then random nights: what each office finds of its own is the join of its own commands.
 */
#include "board.h"

static const esk_grant all = {{1, 1, 1, 1, 1, 1, 1}, 1, {1, 1, 1, 1, 1, 1, 1, 1}};
static const esk_grant none = {{0, 0, 0, 0, 0, 0, 0}, 0, {0, 0, 0, 0, 0, 0, 0, 0}};
static const esk_grant east = {{1, 0, 2, 0, 1, 0, 0}, 255, {1, 0, 1, 0, 0, 1, 0, 1}}; /* any byte but 0 grants */
static const esk_grant west = {{0, 1, 0, 1, 0, 1, 1}, 0, {0, 1, 0, 1, 1, 0, 1, 0}};

static esk_answer add(const char *designator, size_t n, const char *text, size_t length, esk_grant own, esk_grant other)
{
    lent name, in;
    const uint8_t *d = lend(&name, designator, n, 1), *t = lend(&in, text, length, 1);
    esk_answer got = esk_office_add(slots(), b.n, area(), b.area_length, d, n, t, length, own, other);
    bytes_hold(&name, "", 0, "esk_office_add: the designator", "as it was");
    bytes_hold(&in, "", 0, "esk_office_add: the text", "as it was");
    return got;
}

static void office_holds(const char *designator, size_t n, const char *text, size_t length, esk_grant own, esk_grant other,
                         unsigned code, unsigned long place, size_t waits, const char *why)
{
    esk_answer got = add(designator, n, text, length, own, other);
    answer_holds(got, code, place, code == 0 ? waits : 0, 0, "esk_office_add", why);
    board_holds("esk_office_add", why);
}

static void order(void)
{
    static const char outside[] = "AWR041199999000000000/";
    clear(1);
    b.area_length--;
    office_holds("", 0, "", 0, all, all, 13, 0, 0, "grants that overlap before all else");
    office_holds("XY000a", 6, outside, 22, east, west, 10, 0, 0, "10 before 4");
    b.area_length++;
    office_holds("XY000a", 6, outside, 22, east, west, 4, 0, 0, "4 before 13");
    office_holds("XY0001", 6, outside, 21, east, west, 8, 21, 0, "the command's own refusals before 13");
    office_holds("XY0001", 6, outside, 22, east, west, 13, 0, 0, "a flag that the other office has");
    office_holds("XY0001", 6, outside, 22, none, none, 13, 0, 0, "a flag that neither has");
    expect(0, "XY0001", FIRST);
    office_holds("XY0001", 6, FIRST, 26, east, west, 0, 0, 26, "within the grant");
    office_holds("XY0002", 6, outside, 22, east, west, 13, 0, 0, "13 before 9");
    office_holds("XY0002", 6, NO_CHANGE, 22, none, all, 9, 0, 0, "no change is in every grant: 9");
    expect(0, "XY0001", "AWR041199999000400000/151/");
    office_holds("XY0001", 6, "AWR049199999000000000/", 22, west, east, 0, 0, 26, "the other office's, onto what waits");
}

/* Grants that share one flag, one section or the downlinks, whatever the command. */
static void overlaps(void)
{
    clear(1);
    for (size_t i = 0; i < sizeof all; i++) {
        esk_grant own = none, other = none;
        ((uint8_t *)&own)[i] = 1;
        for (size_t j = 0; j < sizeof all; j++) {
            other = none;
            ((uint8_t *)&other)[j] = (uint8_t)(1 + 50 * (i % 6));
            if (i == j)
                office_holds("XY0001", 6, NO_CHANGE, 22, own, other, 13, 0, 0, "one byte in both");
            else
                office_holds("XY0001", 6, "AWR04", 5, own, other, 8, 5, 0, "no byte in both");
        }
    }
}

/* Every flag, section and digit by itself, with all granted but that, and with that granted alone. */
static void one_by_one(void)
{
    static const char *const bodies[] = {"0000/", "000000001/", "151/", FIVE, "1/", SEVEN, "0/", "2301/"};
    for (size_t i = 0; i < sizeof all; i++) {
        char text[64] = NO_CHANGE;
        text[5 + i] = i < 7 ? '0' : i == 7 ? '1' : (char)('0' + i - 6);
        if (i > 7)
            strcat(text, bodies[i - 8]);
        esk_grant but = all, alone = none;
        ((uint8_t *)&but)[i] = 0;
        ((uint8_t *)&alone)[i] = 1;
        clear(1);
        office_holds("XY0001", 6, text, strlen(text), but, none, 13, 0, 0, "all is granted but this");
        expect(0, "XY0001", text);
        office_holds("XY0001", 6, text, strlen(text), alone, but, 0, 0, strlen(text), "this alone is granted");
    }
}

/* A short command within a grant, in every third one with something that is not. */
static void make(char *text, const esk_grant *own)
{
    static const char *const bodies[8][2] = {{"0000/", "0110N10S170E170W00/"}, {"000000001/", "01ABCD0000000/"},
        {"151/", "600/"}, {FIVE, "0060902005120011/"}, {"1/", "0/"}, {SEVEN, "004020011/"}, {"0/", "1/"}, {"2301/", "0000/"}};
    int wild = chance(3) == 0;
    strcpy(text, NO_CHANGE);
    for (size_t i = 0; i < 7; i++)
        if ((own->flags[i] != 0 || (wild && chance(7) == 0)) && chance(2) == 0)
            text[5 + i] = (char)('0' + chance(2));
    if (own->downlinks != 0 || (wild && chance(4) == 0))
        text[12] = (char)('0' + chance(3));
    for (size_t i = 0; i < 8; i++)
        if ((own->sections[i] != 0 || (wild && chance(8) == 0)) && chance(3) == 0) {
            text[13 + i] = (char)('2' + i);
            strcat(text, bodies[i][chance(2)]);
        }
}

/* The byte of a text that its office may not have there, or 0. */
static int is_outside(const char *text, const esk_grant *own)
{
    for (size_t i = 0; i < 16; i++)
        if (text[5 + i] != (i < 7 ? '9' : '0') && ((const uint8_t *)own)[i] == 0)
            return 1;
    return 0;
}

/* Joins a text onto another, which may be none. */
static void joins(char *onto, const char *text)
{
    static uint8_t out[TEXT];
    if (onto[0] == 0) {
        strcpy(onto, text);
        return;
    }
    esk_answer a = esk_join(bytes(onto), strlen(onto), bytes(text), strlen(text), out, sizeof out);
    answer_holds(a, 0, 0, a.length, 0, "esk_join", "two accepted texts");
    memcpy(onto, out, a.length);
    onto[a.length] = 0;
}

/* What of a text lies inside a grant: the same text with all else left out. */
static void inside(char *part, const char *text, const esk_grant *own)
{
    strcpy(part, NO_CHANGE);
    if (text[0] == 0)
        return;
    for (size_t i = 0; i < 7; i++)
        if (own->flags[i] != 0)
            part[5 + i] = text[5 + i];
    for (unsigned k = 2; k <= 9; k++) {
        esk_part found = esk_section(k, bytes(text), strlen(text));
        if (own->sections[k - 2] == 0 || found.length == 0)
            continue;
        part[11 + k] = text[11 + k];
        strncat(part, text + found.place, found.length);
    }
}

static void night(void)
{
    static char sent[3][2][TEXT + 1], all_sent[3][TEXT + 1], text[TEXT + 1], part[TEXT + 1], own_part[TEXT + 1], waits[TEXT + 1];
    static const char *const names[] = {"XY0001", "XY0002", "XY0003"};
    const esk_grant *grants[] = {&east, &west};
    memset(sent, 0, sizeof sent), memset(all_sent, 0, sizeof all_sent);
    clear(2);
    for (int turn = 0; turn < 200; turn++) {
        uint32_t craft = chance(3), office = chance(2);
        if (chance(6) == 0) {
            uint8_t out[TEXT];
            esk_answer a = esk_board_take(slots(), b.n, area(), b.area_length, bytes(names[craft]), 6, out, sizeof out);
            answer_holds(a, all_sent[craft][0] == 0 ? 11 : 0, 0, strlen(all_sent[craft]), 0, "esk_board_take", "a night");
            memset(sent[craft], 0, sizeof sent[craft]), all_sent[craft][0] = 0;
        } else {
            size_t used = (b.now.slots[0].length != 0) + (size_t)(b.now.slots[1].length != 0);
            make(text, grants[office]);
            struct memory was = b.now;
            esk_answer a = add(names[craft], 6, text, strlen(text), *grants[office], *grants[1 - office]);
            unsigned code = is_outside(text, grants[office]) ? 13 : all_sent[craft][0] == 0 && used == 2 ? 9 : 0;
            if (code == 0)
                joins(sent[craft][office], text), joins(all_sent[craft], text);
            answer_holds(a, code, 0, code == 0 ? strlen(all_sent[craft]) : 0, 0, "esk_office_add", "a night");
            checks++;
            if (code != 0 && memcmp(&was, &b.now, sizeof was) != 0) {
                fprintf(stderr, "FAILED: a refusal with code %u changed the board\n", code);
                exit(1);
            }
        }
        waits[0] = 0;
        for (size_t i = 0; i < b.n; i++)
            if (b.now.slots[i].length != 0 && memcmp(b.now.slots[i].designator, names[craft], 6) == 0) {
                memcpy(waits, b.now.area + i * TEXT, b.now.slots[i].length);
                waits[b.now.slots[i].length] = 0;
            }
        for (int o = 0; o < 2; o++) {
            inside(part, waits, grants[o]), inside(own_part, sent[craft][o], grants[o]);
            checks++;
            if (strcmp(part, own_part) != 0) {
                fprintf(stderr, "FAILED: office %d finds %s of its own, and sent %s\n", o, part, own_part);
                exit(1);
            }
        }
    }
}

/* One office that may do all, beside one that may do nothing, is esk_board_add. */
static void alone(void)
{
    clear(2);
    for (int turn = 0; turn < 2000; turn++) {
        static char text[TEXT + 1];
        static const char *const names[] = {"XY0001", "XY0002", "XY0003", "xy0003"};
        const char *name = names[chance(4)];
        make(text, &all);
        if (chance(9) == 0)
            text[chance(22)] = 'x';
        struct memory was = b.now;
        esk_answer base = esk_board_add(slots(), b.n, area(), b.area_length, bytes(name), 6, bytes(text), strlen(text));
        b.want = b.now;
        b.now = was;
        office_holds(name, 6, text, strlen(text), all, none, base.code, base.place, base.length, "as esk_board_add");
        if (chance(5) == 0) {
            uint8_t out[TEXT];
            (void)esk_board_take(slots(), b.n, area(), b.area_length, bytes(name), 6, out, sizeof out);
            b.want = b.now;
        }
    }
}

int main(void)
{
    order();
    overlaps();
    one_by_one();
    for (int i = 0; i < 100; i++)
        night();
    alone();
    printf("test_office: %lu checks passed\n", checks);
    return 0;
}
