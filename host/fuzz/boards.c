/* Targets of the waiting board. */
#include "harness.h"

#define MOST_SLOTS 66 /* more than a board may have */

typedef struct board {
    lent slots, area;
    size_t n;
} board;

static esk_slot *slots_of(uint8_t *bytes)
{
    return (esk_slot *)(void *)bytes;
}

/*
 * The number of slots, up to 66; what the area has more or less than the longest command for each (1: one byte more, 2:
 * one less, 3: ten less for each slot, as it was before section 7, else nothing); then each slot, followed by its text
 * where that is no longer than the longest command. All else in the area is a pattern.
 */
static board take_board(input *from)
{
    static uint8_t area[MOST_SLOTS * ESK_COMMAND_BYTES + 1];
    esk_slot slots[MOST_SLOTS];
    size_t n = take_byte(from) % (MOST_SLOTS + 1), odd = take_byte(from), bytes = n * ESK_COMMAND_BYTES;
    fill(area, bytes + 1);
    for (size_t i = 0; i < n; i++) {
        take_into(from, &slots[i], sizeof slots[i]);
        if (slots[i].length <= ESK_COMMAND_BYTES)
            take_into(from, area + i * ESK_COMMAND_BYTES, slots[i].length);
    }
    if (odd == 1)
        bytes++;
    else if (odd == 2 && bytes > 0)
        bytes--;
    else if (odd == 3)
        bytes -= n * 10;
    board taken = {lend(slots, n * sizeof slots[0]), lend(area, bytes), n};
    return taken;
}

static void give_board_back(board what)
{
    give_back("slots", what.slots);
    give_back("area", what.area);
}

/* Board. */
static void board_check(input from)
{
    board on = take_board(&from);
    esk_answer ours = esk_board_check(slots_of(on.slots.ours), on.n, on.area.ours, on.area.length);
    esk_answer second = second_board_check(slots_of(on.slots.second), on.n, on.area.second, on.area.length);
    hold("answer", &ours, &second, sizeof ours);
    give_board_back(on);
}

/* Length of the designator, designator, board, text. */
static void board_add(input from)
{
    size_t length = take_byte(&from) % 9;
    lent of = lend_next(&from, length);
    board on = take_board(&from);
    lent text = lend_rest(&from);
    esk_answer ours = esk_board_add(slots_of(on.slots.ours), on.n, on.area.ours, on.area.length, of.ours, of.length,
                                    text.ours, text.length);
    esk_answer second = second_board_add(slots_of(on.slots.second), on.n, on.area.second, on.area.length, of.second,
                                         of.length, text.second, text.length);
    hold("answer", &ours, &second, sizeof ours);
    give_back("designator", of);
    give_board_back(on);
    give_back("text", text);
}

/* Length of the designator, designator, room, board. */
static void board_take(input from)
{
    size_t length = take_byte(&from) % 9;
    lent of = lend_next(&from, length);
    lent out = lend_room(take_short(&from) % 1024);
    board on = take_board(&from);
    esk_answer ours = esk_board_take(slots_of(on.slots.ours), on.n, on.area.ours, on.area.length, of.ours, of.length,
                                     out.ours, out.length);
    esk_answer second = second_board_take(slots_of(on.slots.second), on.n, on.area.second, on.area.length, of.second,
                                          of.length, out.second, out.length);
    hold("answer", &ours, &second, sizeof ours);
    give_back("designator", of);
    give_board_back(on);
    give_back("out", out);
}

/* The office's grant, the other's, and then as for an adding. */
static void office_add(input from)
{
    esk_grant own, other;
    take_into(&from, &own, sizeof own);
    take_into(&from, &other, sizeof other);
    size_t length = take_byte(&from) % 9;
    lent of = lend_next(&from, length);
    board on = take_board(&from);
    lent text = lend_rest(&from);
    esk_answer ours = esk_office_add(slots_of(on.slots.ours), on.n, on.area.ours, on.area.length, of.ours, of.length,
                                     text.ours, text.length, own, other);
    esk_answer second = second_office_add(slots_of(on.slots.second), on.n, on.area.second, on.area.length, of.second,
                                          of.length, text.second, text.length, own, other);
    hold("answer", &ours, &second, sizeof ours);
    give_back("designator", of);
    give_board_back(on);
    give_back("text", text);
}

/* A list: what it has more or less bytes than the board has slots (1: one more, 2: one less, else none), then its bytes. */
static lent take_list(input *from, size_t n)
{
    uint8_t list[MOST_SLOTS + 1];
    size_t odd = take_byte(from), bytes = odd == 1 ? n + 1 : odd == 2 && n > 0 ? n - 1 : n;
    take_into(from, list, bytes);
    return lend(list, bytes);
}

/* Board, list. */
static void tails_make(input from)
{
    board on = take_board(&from);
    lent list = take_list(&from, on.n);
    esk_answer ours = esk_tails_make(slots_of(on.slots.ours), on.n, list.ours, list.length);
    esk_answer second = second_tails_make(slots_of(on.slots.second), on.n, list.second, list.length);
    hold("answer", &ours, &second, sizeof ours);
    give_board_back(on);
    give_back("list", list);
}

/* Length of the designator, designator, board, list. */
static void tails_find(input from)
{
    size_t length = take_byte(&from) % 9;
    lent of = lend_next(&from, length);
    board on = take_board(&from);
    lent list = take_list(&from, on.n);
    esk_tail ours = esk_tails_find(slots_of(on.slots.ours), on.n, list.ours, list.length, of.ours, of.length);
    esk_tail second = second_tails_find(slots_of(on.slots.second), on.n, list.second, list.length, of.second, of.length);
    hold("answer", &ours, &second, sizeof ours);
    give_back("designator", of);
    give_board_back(on);
    give_back("list", list);
}

/* Length of the designator, designator, board, list, text. */
static void tails_add(input from)
{
    size_t length = take_byte(&from) % 9;
    lent of = lend_next(&from, length);
    board on = take_board(&from);
    lent list = take_list(&from, on.n);
    lent text = lend_rest(&from);
    esk_answer ours = esk_tails_add(slots_of(on.slots.ours), on.n, on.area.ours, on.area.length, list.ours, list.length,
                                    of.ours, of.length, text.ours, text.length);
    esk_answer second = second_tails_add(slots_of(on.slots.second), on.n, on.area.second, on.area.length, list.second,
                                         list.length, of.second, of.length, text.second, text.length);
    hold("answer", &ours, &second, sizeof ours);
    give_back("designator", of);
    give_board_back(on);
    give_back("list", list);
    give_back("text", text);
}

/* Length of the designator, designator, room, board, list. */
static void tails_take(input from)
{
    size_t length = take_byte(&from) % 9;
    lent of = lend_next(&from, length);
    lent out = lend_room(take_short(&from) % 1024);
    board on = take_board(&from);
    lent list = take_list(&from, on.n);
    esk_answer ours = esk_tails_take(slots_of(on.slots.ours), on.n, on.area.ours, on.area.length, list.ours, list.length,
                                     of.ours, of.length, out.ours, out.length);
    esk_answer second = second_tails_take(slots_of(on.slots.second), on.n, on.area.second, on.area.length, list.second,
                                          list.length, of.second, of.length, out.second, out.length);
    hold("answer", &ours, &second, sizeof ours);
    give_back("designator", of);
    give_board_back(on);
    give_back("list", list);
    give_back("out", out);
}

const target board_targets[] = {
    {"esk_board_check", "answer slots area", board_check},
    {"esk_board_add", "answer designator slots area text", board_add},
    {"esk_board_take", "answer designator slots area out", board_take},
    {"esk_office_add", "answer designator slots area text", office_add},
    {"esk_tails_make", "answer slots area list", tails_make},
    {"esk_tails_find", "answer designator slots area list", tails_find},
    {"esk_tails_add", "answer designator slots area list text", tails_add},
    {"esk_tails_take", "answer designator slots area list out", tails_take},
    {NULL, NULL, NULL},
};
