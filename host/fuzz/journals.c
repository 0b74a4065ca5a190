/* Targets of the journal. */
#include "harness.h"

#include <string.h>

#define MOST_JOURNAL 65535
#define ENTRY_BYTES 31 /* of an entry with the command that changes nothing */

typedef struct journal {
    lent buffer;
    size_t end;
} journal;

/*
 * How the journal stands in its buffer, and its bytes, which are all that is left of the input:
 *   up to 250  so many bytes of the buffer are behind it
 *   251        its length passes the buffer by one
 *   252        its length is the greatest that there is
 *   253        as many entries in front of it as leave 65,535 bytes room for one more, and 64 bytes behind it
 *   254        two entries more than that
 *   255        as 253, in a buffer of 65,535 bytes
 */
static journal take_journal(input *from)
{
    static uint8_t bytes[2 * MOST_JOURNAL];
    static const char entry[] = "XY0001AWR049999999000000000/\0\026J";
    size_t how = take_byte(from), more = how <= 250 ? how : 0, at = 0;
    size_t length = from->left < MOST_JOURNAL ? from->left : MOST_JOURNAL;
    if (how >= 253) {
        size_t fit = (MOST_JOURNAL - length) / ENTRY_BYTES, front = how == 254 ? fit + 1 : fit > 0 ? fit - 1 : 0;
        for (; at < front * ENTRY_BYTES; at += ENTRY_BYTES)
            memcpy(bytes + at, entry, ENTRY_BYTES);
        more = how == 255 ? MOST_JOURNAL - length - at : 64;
    }
    take_into(from, bytes + at, length);
    fill(bytes + at + length, more);
    journal taken = {lend(bytes, at + length + more), at + length};
    if (how == 251)
        taken.end++;
    else if (how == 252)
        taken.end = SIZE_MAX;
    return taken;
}

/* Journal. */
static void journal_check(input from)
{
    journal on = take_journal(&from);
    esk_answer ours = esk_journal_check(on.buffer.ours, on.buffer.length, on.end);
    esk_answer second = second_journal_check(on.buffer.second, on.buffer.length, on.end);
    hold("answer", &ours, &second, sizeof ours);
    give_back("buffer", on.buffer);
}

/* Journal. */
static void journal_last(input from)
{
    journal on = take_journal(&from);
    esk_entry ours = esk_journal_last(on.buffer.ours, on.buffer.length, on.end);
    esk_entry second = second_journal_last(on.buffer.second, on.buffer.length, on.end);
    hold("entry", &ours, &second, sizeof ours);
    give_back("buffer", on.buffer);
}

/* Length of the designator, designator, length of the text, text, journal. */
static void journal_add(input from)
{
    size_t length = take_byte(&from) % 9;
    lent of = lend_next(&from, length);
    length = take_short(&from) % 1024;
    lent text = lend_next(&from, length);
    journal on = take_journal(&from);
    esk_answer ours = esk_journal_add(on.buffer.ours, on.buffer.length, on.end, of.ours, of.length, text.ours,
                                      text.length);
    esk_answer second = second_journal_add(on.buffer.second, on.buffer.length, on.end, of.second, of.length,
                                           text.second, text.length);
    hold("answer", &ours, &second, sizeof ours);
    give_back("designator", of);
    give_back("text", text);
    give_back("buffer", on.buffer);
}

/* Count, of which 65,535 stands for the greatest that there is; journal. */
static void journal_drop(input from)
{
    size_t count = take_short(&from);
    if (count == UINT16_MAX)
        count = SIZE_MAX;
    journal on = take_journal(&from);
    esk_answer ours = esk_journal_drop(on.buffer.ours, on.buffer.length, on.end, count);
    esk_answer second = second_journal_drop(on.buffer.second, on.buffer.length, on.end, count);
    hold("answer", &ours, &second, sizeof ours);
    give_back("buffer", on.buffer);
}

/* Room, journal. */
static void journal_print(input from)
{
    lent out = lend_room(take_word(&from) % MOST_ROOM);
    journal on = take_journal(&from);
    esk_answer ours = esk_journal_print(on.buffer.ours, on.buffer.length, on.end, out.ours, out.length);
    esk_answer second = second_journal_print(on.buffer.second, on.buffer.length, on.end, out.second, out.length);
    hold("answer", &ours, &second, sizeof ours);
    give_back("buffer", on.buffer);
    give_back("out", out);
}

/* Length of the designator, designator, journal. The settings hold a pattern before. */
static void journal_replay(input from)
{
    size_t length = take_byte(&from) % 9;
    lent of = lend_next(&from, length);
    lent settings = lend_room(sizeof(esk_settings));
    journal on = take_journal(&from);
    esk_answer ours = esk_journal_replay((esk_settings *)(void *)settings.ours, on.buffer.ours, on.buffer.length,
                                         on.end, of.ours, of.length);
    esk_answer second = second_journal_replay((esk_settings *)(void *)settings.second, on.buffer.second,
                                              on.buffer.length, on.end, of.second, of.length);
    hold("answer", &ours, &second, sizeof ours);
    give_back("designator", of);
    give_back("buffer", on.buffer);
    give_back("settings", settings);
}

const target journal_targets[] = {
    {"esk_journal_check", "answer buffer", journal_check},
    {"esk_journal_last", "entry buffer", journal_last},
    {"esk_journal_add", "answer designator text buffer", journal_add},
    {"esk_journal_drop", "answer buffer", journal_drop},
    {"esk_journal_print", "answer buffer out", journal_print},
    {"esk_journal_replay", "answer designator buffer settings", journal_replay},
    {NULL, NULL, NULL},
};
