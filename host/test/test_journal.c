/*
 * The journal: code 14 of every kind with its place, and its order beside 4, the command's own, 2 and 5; every byte of
 * the journal, the lines, the configuration and what is lent for reading, canaries on both sides of each; lengths at
 * both limits; then random journals, every truncation and every other byte, against a plain model.
 */
#include "journal.h"

#define EVERY_60 H4 "601/"

/* Reads the first `end` bytes from their end, as the header says it. Gives the code, and the place. */
static unsigned model(size_t end, size_t *place)
{
    *place = 0;
    if (end > ESK_JOURNAL_BYTES || end > j.room)
        return 14;
    while (end > 0) {
        if (end < TRAILER)
            return *place = 0, 14;
        const uint8_t *trailer = j.now.bytes + end - TRAILER;
        size_t length = 256u * trailer[0] + trailer[1];
        *place = end - TRAILER;
        if (trailer[2] != 'J' || length + 6 > *place)
            return 14;
        for (size_t i = 0; i < 6; i++) {
            uint8_t c = trailer[-(long)length - 6 + (long)i];
            if (!((c >= 'A' && c <= 'Z') || (c >= '0' && c <= '9')))
                return 14;
        }
        if (esk_command_check(trailer - length, length).code != 0)
            return 14;
        end = *place - length - 6;
    }
    return *place = 0, 0;
}

/* A broken journal, whatever is asked of it: 14 before all else, and nothing is written. */
static void broken(size_t place, const char *why)
{
    check_is(14, place, why);
    add_is("XY0001", 6, NO_CHANGE, 22, 14, place, why);
    add_is("", 0, "", 0, 14, place, "14 before all else");
    drop_is(0, 14, place, 0, why);
    drop_is((size_t)-1, 14, place, 0, "14 before 5");
    print_is(ESK_JOURNAL_PRINTED, 14, place, "", 0, why);
    print_is(0, 14, place, "", 0, "14 before 2");
    replay_is(j.end, "XY0001", 6, 14, place, NULL, why);
    replay_is(j.end, "", 0, 14, place, NULL, "14 before 4");
}

/* The lines, by the list of what was added. Gives their length. */
static size_t lines_of(char *to)
{
    size_t length = 0;
    for (size_t i = j.count; i-- > 0;)
        length += (size_t)sprintf(to + length, "%lu %.6s %s\n", (unsigned long)j.list[i].offset, j.list[i].who,
                                  j.list[i].text);
    return length;
}

/* After reset, each of the aircraft's texts among the first `count` applied. */
static esk_settings settings_of(const char *who, size_t count)
{
    esk_settings settings = esk_reset();
    for (size_t i = 0; i < count; i++)
        if (memcmp(j.list[i].who, who, 6) == 0)
            HOLD(esk_apply(&settings, bytes(j.list[i].text), j.list[i].length).code == 0);
    return settings;
}

static void printed(const char *why)
{
    static char lines[ESK_JOURNAL_PRINTED + 1];
    size_t length = lines_of(lines);
    HOLD(length <= ESK_JOURNAL_PRINTED);
    print_is(length, 0, 0, lines, length, why);
    print_is(ESK_JOURNAL_PRINTED, 0, 0, lines, length, why);
    if (length > 0) {
        print_is(length - 1, 2, 0, "", 0, "one byte too few");
        print_is(0, 2, 0, "", 0, "no room");
    }
}

/* A sound journal of the list: newest first, without its last n for every n, and printed. */
static void sound(const char *who, const char *why)
{
    size_t end = j.end, whole = j.end, count = j.count;
    check_is(0, 0, why);
    for (size_t n = 0; n <= count; n++) {
        size_t left = n == 0 ? whole : j.list[count - n].offset;
        drop_is(n, 0, 0, left, "without the newest n");
        esk_settings want = settings_of(who, count - n);
        replay_is(left, who, 6, 0, 0, &want, "what the others give");
        HOLD(esk_journal_check(lent_bytes(), j.room, left).code == 0);
        last_is(end, n < count ? &j.list[count - n - 1] : NULL, 0, 0, "newest first");
        end = n < count ? j.list[count - n - 1].offset : 0;
    }
    drop_is(count + 1, 5, 0, 0, "more than there are");
    drop_is((size_t)-1, 5, 0, 0, "the greatest number");
    printed(why);
}

/* Document 02's printed case. */
static void one_entry(void)
{
    clear(100);
    sound("XY0001", "the empty journal");
    add_is("XY0001", 6, NO_CHANGE, 22, 0, 0, "into an empty journal");
    HOLD(j.end == 31 && memcmp(j.now.bytes, "XY0001AWR049999999000000000/\0\26J", 31) == 0);
    print_is(32, 0, 0, "0 XY0001 AWR049999999000000000/\n", 32, "one no-change command");
    sound("XY0001", "one entry");
    sound("XY0002", "of another aircraft");
}

static void three(void)
{
    clear(400);
    put("XY0001", NO_CHANGE);
    put("AU0137", EVERY_60);
    put("XY0001", H9 "2301/");
}

/* Makes one byte another. */
static void spoil(size_t at, uint8_t byte)
{
    j.now.bytes[at] = j.want.bytes[at] = byte;
}

/* Each part of each entry at fault: the place is that entry's trailer. */
static void broken_entries(void)
{
    for (size_t i = 0; i < 3; i++) {
        three();
        const added e = j.list[i];
        const size_t trailer = e.offset + 6 + e.length;
        const struct { size_t at; uint8_t byte; const char *why; } faults[] = {
            {trailer + 2, 'j', "the letter"},        {trailer + 2, 0, "a letter of 0"},
            {trailer, 1, "length, high byte"},       {trailer, 0xff, "a length beyond byte 0"},
            {trailer + 1, (uint8_t)(e.length + 1), "length, low byte"},
            {trailer + 1, (uint8_t)(e.length - 1), "length, low byte"}, {trailer + 1, 0, "an empty text"},
            {e.offset, 'a', "a designator's first byte"}, {e.offset + 5, '/', "a designator's last byte"},
            {e.offset + 6, 'B', "the text's first byte"}, {trailer - 1, '.', "the text's last byte"},
        };
        for (size_t k = 0; k < sizeof faults / sizeof *faults; k++) {
            three();
            spoil(faults[k].at, faults[k].byte);
            broken(trailer, faults[k].why);
            if (i < 2)
                last_is(j.end, &j.list[2], 0, 0, "what stands before the newest is not looked at");
            else
                last_is(j.end, NULL, 14, trailer, faults[k].why);
        }
    }
    three();
    spoil(6, 'B');
    spoil(j.end - 1, 'K');
    broken(j.end - 3, "two faults: the one nearer to the end");
}

/* Bytes before the oldest entry: fewer than three are 14 at 0, more are a trailer that is none. */
static void begins_late(void)
{
    for (size_t before = 1; before < 12; before++) {
        clear(400);
        j.end = before;
        put("XY0001", NO_CHANGE);
        put("XY0002", EVERY_60);
        broken(before < 3 ? 0 : before - 3, "the entries do not end at byte 0");
    }
}

/* Ends at which there is no journal, in rooms of all kinds. */
static void lengths(void)
{
    static const size_t ends[] = {1, 2, 3, 65535, 65536, 69999, (size_t)-1};
    static const size_t rooms[] = {0, 1, 2, 3, 65535, 65536, 69999};
    for (size_t r = 0; r < sizeof rooms / sizeof *rooms; r++) {
        clear(rooms[r]);
        sound("XY0001", "no bytes");
        last_is(0, NULL, 0, 0, "no bytes");
        for (size_t e = 0; e < sizeof ends / sizeof *ends; e++) {
            clear(rooms[r]);
            j.end = ends[e];
            size_t place = 0;
            HOLD(model(j.end, &place) == 14);
            HOLD(place == (j.end == 65535 && j.room >= j.end ? 65532 : 0));
            broken(place, "a length that is no journal's");
            last_is(j.end, NULL, 14, place, "a length that is no journal's");
        }
    }
    three();
    j.room = j.end - 1;
    broken(0, "longer than its buffer");
    j.room = j.end;
    sound("XY0001", "as long as its buffer");
}

/* 65,535 bytes to the byte, by adding. */
static void full(void)
{
    clear(65536);
    for (int i = 0; i < 75; i++)
        add_is("XY0001", 6, longest, strlen(longest), 0, 0, "845 bytes");
    for (int i = 0; i < 7; i++)
        add_is("XY0002", 6, EVERY_60, 26, 0, 0, "26 bytes");
    for (int i = 0; i < 39; i++)
        add_is("XY0003", 6, NO_CHANGE, 22, 0, 0, "22 bytes");
    add_is("XY0003", 6, EVERY_60, 26, 2, 0, "over 65,535, in a longer buffer");
    add_is("XY0003", 6, NO_CHANGE, 22, 0, 0, "the last that fits");
    HOLD(j.end == 65535);
    sound("XY0002", "65,535 bytes");
    add_is("XY0003", 6, NO_CHANGE, 22, 2, 0, "full");
    add_is("XY0003", 6, "", 0, 8, 0, "the command's own before 2");
    add_is("xy0003", 6, "", 0, 4, 0, "4 before the command's own");
    j.end = 65536;
    broken(0, "65,536 bytes");
    clear(65535);
    while (j.end + 31 <= 65535)
        put("XY0001", NO_CHANGE);
    HOLD(j.count == 2114);
    check_is(0, 0, "as many entries as there can be");
    printed("as many entries as there can be");
}

/* 4, the command's own, 2, each with the later ones at fault too; and an exact fit. */
static void order_of_adding(void)
{
    static const char *const wrong[] = {"", "XY000", "XY00011", "xy0001", "XY000/", "XY 001", "XY000\xff"};
    three();
    j.room = j.end + 30;
    for (size_t i = 0; i < sizeof wrong / sizeof *wrong; i++) {
        add_is(wrong[i], strlen(wrong[i]), "AWR04", 5, 4, 0, "4 before the command's refusals");
        add_is(wrong[i], strlen(wrong[i]), NO_CHANGE, 22, 4, 0, "4 before 2");
        replay_is(j.end, wrong[i], strlen(wrong[i]), 4, 0, NULL, "designator");
    }
    static char over[ESK_COMMAND_BYTES + 1];
    memcpy(over, longest, ESK_COMMAND_BYTES);
    add_is("XY0001", 6, "", 0, 8, 0, "the empty command");
    add_is("XY0001", 6, over, sizeof over, 1, 0, "over 845 bytes");
    add_is("XY0001", 6, H2 "0110N11N", 30, 7, 27, "a place in the command");
    add_is("XY0001", 6, NO_CHANGE, 22, 2, 0, "one byte too few");
    j.room = j.end;
    add_is("XY0001", 6, NO_CHANGE, 22, 2, 0, "no byte left");
    j.room = j.end + 31;
    add_is("XY0001", 6, NO_CHANGE, 22, 0, 0, "just enough");
    HOLD(j.end == j.room);
    sound("XY0001", "as long as its buffer");
}

static unsigned long state = 20261116;

static size_t random_below(size_t n)
{
    state = (state * 1103515245ul + 12345ul) & 0x7ffffffful;
    return (size_t)(state >> 8) % n;
}

static const char *const fleet[] = {"XY0001", "XY0002", "AU0137", "000000", "ZZZZZZ"};
static const char *const texts[] = {
    NO_CHANGE, EVERY_60, H4 "010/", H9 "2301/", H6 "1/", H8 "0/", H5 "1030902005120021/", "AWR040000000200000000/",
    "AWR041111111000000000/", H2 "0110S45S110E155E00/", H3 "01YMML0000000/", H7 "030035010/", longest,
};

/* Random journals by adding, of several aircraft; each replayed for each, and for one that is not in it. */
static void random_journals(void)
{
    for (int round = 0; round < 60; round++) {
        size_t count = random_below(30);
        clear(30 * (ESK_COMMAND_BYTES + 9));
        for (size_t i = 0; i < count; i++) {
            const char *text = texts[random_below(sizeof texts / sizeof *texts)];
            add_is(fleet[random_below(5)], 6, text, strlen(text), 0, 0, "random");
        }
        sound(fleet[round % 5], "random");
        for (size_t i = 0; i < 5; i++) {
            esk_settings want = settings_of(fleet[i], count);
            replay_is(j.end, fleet[i], 6, 0, 0, &want, "random");
        }
        esk_settings reset = esk_reset();
        replay_is(j.end, "NOBODY", 6, 0, 0, &reset, "an aircraft without an entry");
    }
}

/* Every truncation of a journal, and every other byte at every place of it, against the model. */
static void every_byte(void)
{
    size_t place = 0, sounds = 0;
    three();
    const size_t whole = j.end;
    for (j.end = 0; j.end <= whole + 1; j.end++) {
        unsigned code = model(j.end, &place);
        sounds += code == 0;
        check_is(code, place, "cut short");
    }
    HOLD(sounds == 4); /* nothing, one, two, all three */
    sounds = 0;
    j.end = whole;
    for (size_t at = 0; at < whole; at++) {
        const uint8_t was = j.now.bytes[at];
        for (unsigned byte = 0; byte < 256; byte++) {
            spoil(at, (uint8_t)byte);
            unsigned code = model(whole, &place);
            sounds += code == 0;
            check_is(code, place, "another byte");
        }
        spoil(at, was);
    }
    HOLD(sounds > whole && sounds < 20 * whole); /* some bytes may be others: letters of a name, digits, flags */
}

int main(void)
{
    HOLD(sizeof(esk_entry) == 32 && offsetof(esk_entry, offset) == 8 && offsetof(esk_entry, text) == 16);
    HOLD(offsetof(esk_entry, length) == 24 && offsetof(esk_entry, code) == 28 && offsetof(esk_entry, given) == 29);
    HOLD(ESK_JOURNAL == 14 && ESK_JOURNAL_BYTES == 65535);
    one_entry();
    broken_entries();
    begins_late();
    lengths();
    full();
    order_of_adding();
    random_journals();
    every_byte();
    printf("test_journal: %lu checks passed\n", checks);
    return 0;
}
