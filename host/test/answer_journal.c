/*
 * answer_journal: journals for the comparison run; answer.h has how it talks.
 *
 *   question                                        reply
 *   room (4), buffer, how many events (4), and      for each event, in order, on the one buffer:
 *   for each
 *     1, end (8)                                    esk_answer of the check, changes
 *     2, end (8)                                    esk_entry of the newest, changes
 *     3, end (8), length (2), designator,           esk_answer of the add, changes
 *        length (2), text
 *     4, end (8), count (8)                         esk_answer of the drop, changes
 *     5, end (8), room (4)                          esk_answer of the print, changes, changes of the printing room
 *     6, end (8), length (2), designator            esk_answer of the replay, changes, changes of the settings
 *     7, place (4), byte                            nothing: that byte of the buffer is made this one
 *
 * All that is lent has a guard on both sides, and buffer, printing room and settings are blocks of their own. Changes
 * are what an event changed in all of a block: from (4), to (4), and the bytes from the first that is another to behind
 * the last; 0, 0 where none.
 */
#include "answer.h"

/* What is lent, with its guards, and what it was before the event. */
typedef struct block {
    uint8_t *bytes, *was;
    size_t length;
} block;

static block journal, printed, settings;

/* A block in its pattern with room for so many bytes between its guards; the empty room is lent as NULL. */
static uint8_t *lend_block(block *of, size_t room)
{
    size_t length = room + 2 * GUARD;
    if (of->length < length) {
        of->bytes = realloc(of->bytes, length);
        of->was = realloc(of->was, length);
        if (of->bytes == NULL || of->was == NULL)
            exit(2);
    }
    of->length = length;
    fill(of->bytes, length);
    memcpy(of->was, of->bytes, length);
    return room == 0 ? NULL : of->bytes + GUARD;
}

static void give_number(size_t number)
{
    uint8_t bytes[4];
    for (int i = 0; i < 4; i++)
        bytes[i] = (uint8_t)(number >> (8 * i));
    give(bytes, 4);
}

static void give_changes(block *of)
{
    size_t from = 0, to = 0;
    if (memcmp(of->bytes, of->was, of->length) != 0) {
        while (of->bytes[from] == of->was[from])
            from++;
        for (to = of->length; of->bytes[to - 1] == of->was[to - 1];)
            to--;
    }
    give_number(from);
    give_number(to);
    give(of->bytes + from, to - from);
    memcpy(of->was + from, of->bytes + from, to - from);
}

static void give_answer(esk_answer answer)
{
    give(&answer, sizeof answer);
    give_changes(&journal);
}

static void give_print(const uint8_t *lent, size_t room, size_t end, size_t out_room)
{
    uint8_t *out = lend_block(&printed, out_room);
    give_answer(esk_journal_print(lent, room, end, out, out_room));
    give_changes(&printed);
}

static void give_replay(const uint8_t *lent, size_t room, size_t end, string of)
{
    uint8_t *held = lend_block(&settings, sizeof(esk_settings));
    give_answer(esk_journal_replay((esk_settings *)(void *)held, lent, room, end, of.bytes, of.length));
    give_changes(&settings);
}

/* One event on a buffer of so many bytes; gives the place behind it. */
static const uint8_t *event(const uint8_t *q, uint8_t *lent, size_t room)
{
    if (q[0] == 7) {
        size_t at = GUARD + number(q + 1, 4);
        journal.bytes[at] = journal.was[at] = q[5];
        return q + 6;
    }
    size_t end = number(q + 1, 8);
    if (q[0] == 1) {
        give_answer(esk_journal_check(lent, room, end));
        return q + 9;
    }
    if (q[0] == 2) {
        esk_entry entry = esk_journal_last(lent, room, end);
        give(&entry, sizeof entry);
        give_changes(&journal);
        return q + 9;
    }
    if (q[0] == 4) {
        give_answer(esk_journal_drop(lent, room, end, number(q + 9, 8)));
        return q + 17;
    }
    if (q[0] == 5) {
        give_print(lent, room, end, number(q + 9, 4));
        return q + 13;
    }
    string of = string_at(q + 9);
    if (q[0] == 6) {
        give_replay(lent, room, end, of);
        return of.end;
    }
    string text = string_at(of.end);
    give_answer(esk_journal_add(lent, room, end, of.bytes, of.length, text.bytes, text.length));
    return text.end;
}

static const uint8_t *question(const uint8_t *q)
{
    size_t room = number(q, 4);
    uint8_t *lent = lend_block(&journal, room);
    memcpy(journal.bytes + GUARD, q + 4, room);
    memcpy(journal.was + GUARD, q + 4, room);
    q += 4 + room;
    size_t events = number(q, 4);
    q += 4;
    while (events-- > 0)
        q = event(q, lent, room);
    return q;
}
