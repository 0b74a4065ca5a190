/*
 * The waiting board: codes 9, 10 and 11 and their order, every byte of slots, area and output, canaries on both sides
 * of each; then long random nights against a plain model.
 */
#include "board.h"
#include "night.h"

/* One short evening on two slots, step by step. */
static void evening(void)
{
    clear(2);
    check_holds(0, "free slots may hold anything");
    expect(0, "XY0001", FIRST);
    add_holds("XY0001", 6, FIRST, 26, 0, 0, 26, "the lowest free slot");
    expect(1, "XY0002", NO_CHANGE);
    add_holds("XY0002", 6, NO_CHANGE, 22, 0, 0, 22, "a no-change command takes a slot");
    add_holds("XY0003", 6, NO_CHANGE, 22, 9, 0, 0, "no slot is free");
    add_holds("XY0003", 6, "AWR04", 5, 8, 5, 0, "the command's own refusals before 9");
    expect(0, "XY0001", BOTH);
    add_holds("XY0001", 6, SECOND, 31, 0, 0, 31, "joined onto what waits; the length is that of the join");
    take_holds("XY0001", 6, 30, 2, "", 0, "one byte too few");
    take_holds("XY0001", 6, 0, 2, "", 0, "no room");
    take_holds("XY0003", 6, 900, 11, "", 0, "nothing waits");
    take_holds("XY0003", 6, 0, 11, "", 0, "11 before 2");
    b.want.slots[0].length = 0;
    take_holds("XY0001", 6, 900, 0, BOTH, 31, "the slot is freed; its designator and text stay");
    take_holds("XY0001", 6, 900, 11, "", 0, "handed over once");
    expect(1, "XY0002", SECOND);
    add_holds("XY0002", 6, SECOND, 31, 0, 0, 31, "its own slot, though a lower one is free");
    expect(0, "XY0001", NO_CHANGE);
    add_holds("XY0001", 6, NO_CHANGE, 22, 0, 0, 22, "a freed slot is used again; bytes past the text stay");
}

static void shortening(void)
{
    static char joined[TEXT + 1];
    clear(1);
    expect(0, "XY0001", longest);
    add_holds("XY0001", 6, longest, TEXT, 0, 0, TEXT, "845 bytes");
    strcpy(joined, "AWR041111111223456789/0000/");
    strcat(joined, longest + 475);
    expect(0, "XY0001", joined);
    add_holds("XY0001", 6, H2 "0000/", 27, 0, 0, strlen(joined), "a join that shortens: the bytes past it stay");
    b.want.slots[0].length = 0;
    take_holds("XY0001", 6, strlen(joined), 0, joined, strlen(joined), "just enough room");
}

static void no_slots(void)
{
    clear(0);
    check_holds(0, "a board without slots is valid");
    add_holds("XY0001", 6, NO_CHANGE, 22, 9, 0, 0, "no slots");
    take_holds("XY0001", 6, 900, 11, "", 0, "no slots");
}

static void designators(void)
{
    static const char *const wrong[] = {"", "XY000", "XY00011", "xy0001", "XY000/", "XY 001", "XY000\xff"};
    clear(1);
    for (size_t i = 0; i < sizeof wrong / sizeof *wrong; i++) {
        add_holds(wrong[i], strlen(wrong[i]), "AWR04", 5, 4, 0, 0, "4 before the command's refusals");
        add_holds(wrong[i], strlen(wrong[i]), NO_CHANGE, 22, 4, 0, 0, "designator");
        take_holds(wrong[i], strlen(wrong[i]), 900, 4, "", 0, "designator");
    }
    add_holds("XY0001", 6, "", 0, 8, 0, 0, "the empty command");
    static char over[TEXT + 1];
    memcpy(over, longest, TEXT);
    add_holds("XY0001", 6, over, sizeof over, 1, 0, 0, "over 845 bytes");
    add_holds("XY0001", 6, H2 "0110N11N", 30, 7, 27, 0, "a place in the command");
}

/* A board that is not valid, whatever is asked of it. */
static void not_valid(const char *why)
{
    check_holds(10, why);
    add_holds("XY0001", 6, NO_CHANGE, 22, 10, 0, 0, why);
    add_holds("NEW001", 6, NO_CHANGE, 22, 10, 0, 0, why);
    add_holds("", 0, "", 0, 10, 0, 0, "10 before all else");
    take_holds("XY0001", 6, 900, 10, "", 0, why);
    take_holds("", 0, 0, 10, "", 0, "10 before all else");
}

static void two(void)
{
    clear(3);
    put(0, "XY0001", NO_CHANGE, 22);
    put(2, "XY0002", FIRST, 26);
}

typedef struct board_case {
    size_t slot;
    const char *designator, *text;
    size_t length;
    const char *why;
} board_case;

static const board_case boards[] = {
    {2, "XY0001", FIRST, 26, "doubled designators"},
    {1, "XY0002", FIRST, 26, "doubled designators, the lower one put last"},
    {1, "XY000a", FIRST, 26, "a designator's byte"},
    {1, "\0Y0003", FIRST, 26, "a designator's first byte"},
    {1, "XY0003", FIRST, 1, "length 1"},
    {1, "XY0003", NO_CHANGE, 21, "length 21"},
    {1, "XY0003", FIRST, 25, "length below the text's"},
    {1, "XY0003", FIRST, 27, "length above the text's"},
    {1, "XY0003", longest, 846, "length 846"},
    {1, "XY0003", longest, 0xffff, "the greatest length"},
    {2, "XY0003", longest, 846, "length 846 in the last slot: not read past the area"},
    {1, "XY0003", "AWR050000000000000000/", 22, "a text with another head"},
    {1, "XY0003", H2 "0100S00S000E000E00/", 41, "a text with 00S"},
    {0, "XY0001", H7, 22, "a text that names section 7 and ends, in the first slot"},
    {1, "XY0003", H7 "100920021/", 32, "a text with interval 009"},
};

static void boards_not_valid(void)
{
    two();
    check_holds(0, "two texts wait");
    put(1, "XY0001", "rubbish", 0);
    check_holds(0, "a free slot may hold a used one's designator, and any bytes");
    put(1, "XY0002", "rubbish", 0);
    check_holds(0, "also that of a later one");
    b.want.slots[2].length = 0;
    take_holds("XY0002", 6, 900, 0, FIRST, 26, "a search looks at the length first");
    for (size_t i = 0; i < sizeof boards / sizeof *boards; i++) {
        two();
        put(boards[i].slot, boards[i].designator, boards[i].text, boards[i].length);
        not_valid(boards[i].why);
    }
    two();
    b.area_length = 3 * TEXT - 1;
    not_valid("an area one byte short");
    b.area_length = 3 * TEXT + 1;
    not_valid("an area one byte long");
    b.area_length = 0;
    not_valid("no area");
    b.area_length = 3 * 835;
    not_valid("the area of a board from before section 7");
    clear(0);
    b.area_length = 1;
    not_valid("an area without slots");
    clear(64);
    check_holds(0, "64 slots");
    b.area_length = 64 * 835;
    not_valid("64 slots from before section 7, all free");
    clear(65);
    not_valid("65 free slots");
}

int main(void)
{
    HOLD(sizeof(esk_slot) == 8 && offsetof(esk_slot, designator) == 0 && offsetof(esk_slot, length) == 6);
    HOLD(ESK_BOARD_SLOTS == 64);
    evening();
    shortening();
    no_slots();
    designators();
    boards_not_valid();
    state = 20261115;
    night(0, 200, 50);
    night(1, 2000, 60);
    night(2, 2000, 60);
    night(7, 4000, 70);
    night(64, 6000, 70);
    printf("test_board: %lu checks passed\n", checks);
    return 0;
}
