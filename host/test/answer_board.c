/*
 * answer_board: boards for the comparison run; answer.h has how it talks.
 *
 *   question                                        reply
 *   slots (2), area's length (4), list's (2),       for each event, in order, on the one board:
 *   slots, area, list,
 *   how many events (2), and for each
 *     1                                             esk_answer of the check, changes
 *     2, length (2), designator, length (2), text   esk_answer of the add, changes
 *     3, length (2), designator, room (2)           esk_answer of the taking, changes, arena
 *     4, esk_grant, esk_grant, length (2),          esk_answer of the office's add, changes
 *     designator, length (2), text
 *     5                                             esk_answer of making the list, changes
 *     6, length (2), designator                     esk_tail of the search, changes
 *     7, as 2, and 8, as 3: with the list beside the board
 *
 * The board is lent as one block: a guard, the slots, a guard, the area, a guard, the list, a guard. Changes are what an event changed in
 * all of the block: from (4), to (4), and the bytes from the first that is another to behind the last; 0, 0 where none.
 */
#include "answer.h"

static uint8_t *block, *was;
static size_t length, n, area_length, list_length;
static esk_slot *slots;
static uint8_t *area, *list;

/* Lends the board of a question, and gives the place behind it. */
static const uint8_t *board(const uint8_t *q)
{
    n = number(q, 2);
    area_length = number(q + 2, 4);
    list_length = number(q + 6, 2);
    q += 8;
    size_t slots_length = n * sizeof(esk_slot);
    length = 4 * GUARD + slots_length + area_length + list_length;
    block = malloc(length);
    was = malloc(length);
    if (block == NULL || was == NULL)
        exit(2);
    fill(block, length);
    memcpy(block + GUARD, q, slots_length);
    memcpy(block + 2 * GUARD + slots_length, q + slots_length, area_length);
    memcpy(block + 3 * GUARD + slots_length + area_length, q + slots_length + area_length, list_length);
    slots = n == 0 ? NULL : (esk_slot *)(void *)(block + GUARD);
    area = area_length == 0 ? NULL : block + 2 * GUARD + slots_length;
    list = list_length == 0 ? NULL : block + 3 * GUARD + slots_length + area_length;
    memcpy(was, block, length);
    return q + slots_length + area_length + list_length;
}

static void give_number(size_t number)
{
    uint8_t bytes[4];
    for (int i = 0; i < 4; i++)
        bytes[i] = (uint8_t)(number >> (8 * i));
    give(bytes, 4);
}

static void give_changes(void)
{
    size_t from = 0, to = 0;
    if (memcmp(block, was, length) != 0) {
        while (block[from] == was[from])
            from++;
        for (to = length; block[to - 1] == was[to - 1];)
            to--;
    }
    give_number(from);
    give_number(to);
    give(block + from, to - from);
    memcpy(was + from, block + from, to - from);
}

static void give_answer(esk_answer answer)
{
    give(&answer, sizeof answer);
    give_changes();
}

static const uint8_t *event(const uint8_t *q)
{
    if (q[0] == 1) {
        give_answer(esk_board_check(slots, n, area, area_length));
        return q + 1;
    }
    if (q[0] == 4) {
        esk_grant own, other;
        memcpy(&own, q + 1, sizeof own);
        memcpy(&other, q + 1 + sizeof own, sizeof other);
        string designator = string_at(q + 1 + 2 * sizeof own), text = string_at(designator.end);
        give_answer(esk_office_add(slots, n, area, area_length, designator.bytes, designator.length, text.bytes,
                                   text.length, own, other));
        return text.end;
    }
    if (q[0] == 5) {
        give_answer(esk_tails_make(slots, n, list, list_length));
        return q + 1;
    }
    string designator = string_at(q + 1);
    if (q[0] == 6) {
        esk_tail found = esk_tails_find(slots, n, list, list_length, designator.bytes, designator.length);
        give(&found, sizeof found);
        give_changes();
        return designator.end;
    }
    if (q[0] == 2 || q[0] == 7) {
        string text = string_at(designator.end);
        give_answer(q[0] == 2 ? esk_board_add(slots, n, area, area_length, designator.bytes, designator.length, text.bytes,
                                              text.length)
                              : esk_tails_add(slots, n, area, area_length, list, list_length, designator.bytes,
                                              designator.length, text.bytes, text.length));
        return text.end;
    }
    size_t room = number(designator.end, 2);
    uint8_t *out = lend(room);
    give_answer(q[0] == 3 ? esk_board_take(slots, n, area, area_length, designator.bytes, designator.length, out, room)
                          : esk_tails_take(slots, n, area, area_length, list, list_length, designator.bytes,
                                           designator.length, out, room));
    give_arena(room);
    return designator.end + 2;
}

static const uint8_t *question(const uint8_t *q)
{
    q = board(q);
    size_t events = number(q, 2);
    q += 2;
    while (events-- > 0)
        q = event(q);
    free(block);
    free(was);
    return q;
}
