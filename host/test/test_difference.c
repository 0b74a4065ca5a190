/* What differs between two configurations: none, each flag, each section, every pair of these, all; one byte of a list's
 * entry; every room; every refusal. The command is held against esk_apply: it makes the first into the second, and
 * without any one of its items it does not. Canaries round both configurations and the buffer. */
#include "uplink.h"

#include <stddef.h>

enum { ITEMS = 15, SECTION = 10 };

/* Asks with everything lent: both configurations stay as they were. */
static esk_differing ask(const esk_settings *a, const esk_settings *b, lent *out, size_t room, const char *why)
{
    lent one, other;
    const void *first = lend(&one, a, sizeof *a, 0), *second = lend(&other, b, sizeof *b, 0);
    uint8_t *to = lend(out, NULL, room, 1);
    esk_differing got = esk_difference(first, second, to, room);
    bytes_hold(&one, "", 0, "esk_difference: the first", why);
    bytes_hold(&other, "", 0, "esk_difference: the second", why);
    return got;
}

/* Ends the program unless the answer is this one, all of its 32 bytes. */
static void answer_is(esk_differing got, esk_differing wanted, const char *why)
{
    checks++;
    if (memcmp(&got, &wanted, sizeof got) == 0)
        return;
    fprintf(stderr, "FAILED after %lu checks: esk_difference: %s\n", checks, why);
    fprintf(stderr, "  expected: code %u length %u count %u\n", wanted.answer.code, wanted.answer.length, wanted.count);
    fprintf(stderr, "  got     : code %u place %lu length %u count %u\n", got.answer.code,
            (unsigned long)got.answer.place, got.answer.length, got.count);
    show("expected", wanted.items, ITEMS);
    show("got", got.items, ITEMS);
    exit(1);
}

static void refused(const esk_settings *a, const esk_settings *b, size_t room, unsigned code, const char *why)
{
    static const esk_differing none;
    esk_differing wanted = none;
    lent out;
    wanted.answer.code = (uint8_t)code;
    answer_is(ask(a, b, &out, room, why), wanted, why);
    bytes_hold(&out, "", 0, "esk_difference: the buffer", why);
}

/* The text without one of its items: a flag is 9 again; a section goes with its indicator. */
static size_t without(const uint8_t *text, size_t length, int item, uint8_t *to)
{
    memcpy(to, text, length);
    if (item < SECTION) {
        to[4 + item] = '9';
        return length;
    }
    esk_part part = esk_section((uint32_t)(item - SECTION), text, length);
    HOLD(part.code == 0 && part.length > 0);
    to[1 + item] = '0';
    memmove(to + part.place, to + part.place + part.length, length - part.place - part.length);
    return length - part.length;
}

/* The law, by the other calls. */
static void makes(const esk_settings *a, const esk_settings *b, const esk_differing *d, const uint8_t *text)
{
    uint8_t less[ESK_COMMAND_BYTES];
    size_t length = d->answer.length;
    esk_settings made = *a;
    esk_applied applied = esk_apply(&made, text, length);
    HOLD(applied.code == 0 && applied.downlink == 0 && memcmp(&made, b, sizeof made) == 0);
    for (int i = 0; i < d->count; i++) {
        size_t shorter = without(text, length, d->items[i], less);
        made = *a;
        HOLD(esk_apply(&made, less, shorter).code == 0 && memcmp(&made, b, sizeof made) != 0);
    }
}

/* Two configurations that differ in these items: the command is this one, in every room that holds it. */
static void differ(const esk_settings *a, const esk_settings *b, const char *items, const char *text, const char *why)
{
    esk_differing wanted = {{0, 0, 0, 0, {0, 0}}, 0, {0}};
    size_t length = strlen(text);
    lent out;
    wanted.answer.length = (uint32_t)length;
    wanted.count = (uint8_t)strlen(items);
    memcpy(wanted.items, items, wanted.count);
    for (size_t room = 0; room < length; room++)
        refused(a, b, room, ESK_ROOM, why);
    for (size_t room = length; room <= length + 3; room++) {
        answer_is(ask(a, b, &out, room, why), wanted, why);
        bytes_hold(&out, text, length, "esk_difference: the buffer", why);
    }
    makes(a, b, &wanted, bytes(text));
}

/* Each item as a command that sets it to other contents than after reset: of a flag the byte, of a section its text. */
static const struct item {
    char number;
    char flag;
    const char *section;
} all[ITEMS] = {
    {1, '0', ""}, {2, '1', ""}, {3, '1', ""}, {4, '1', ""}, {5, '0', ""}, {6, '0', ""}, {7, '0', ""},
    {12, 0, "0110N10S010W010E00/"}, {13, 0, "000001ABCD000/"}, {14, 0, "151/"}, {15, 0, "1060902005120020/"},
    {16, 0, "0/"}, {17, 0, "104020020/"}, {18, 0, "0/"}, {19, 0, "2301/"},
};

/* The command that sets the items of a set, one bit each, and the list of them. */
static void set_of(unsigned set, char *text, char *items)
{
    strcpy(text, NO_CHANGE);
    for (int i = 0; i < ITEMS; i++)
        if (set >> i & 1) {
            if (all[i].flag)
                text[4 + all[i].number] = all[i].flag;
            else {
                text[1 + all[i].number] = (char)('0' + all[i].number - SECTION);
                strcat(text, all[i].section);
            }
            *items++ = all[i].number;
        }
    *items = 0;
}

static void sets(unsigned set, const char *why)
{
    char text[256], items[ITEMS + 1];
    set_of(set, text, items);
    esk_settings a = esk_reset(), b = after(text);
    differ(&a, &b, items, text, why);
}

static void each(void)
{
    esk_settings reset = esk_reset();
    lent out;
    differ(&reset, &reset, "", NO_CHANGE, "the same");
    esk_differing same = esk_difference(&reset, &reset, lend(&out, NULL, 22, 0), 22); /* the very same memory */
    HOLD(same.answer.code == 0 && same.answer.length == 22 && same.count == 0);
    for (int i = 0; i < ITEMS; i++) {
        sets(1u << i, "one item");
        for (int j = 0; j < i; j++)
            sets(1u << i | 1u << j, "two items");
        sets(0x7fff & ~(1u << i), "all but one");
    }
    sets(0x7fff, "all");
    sets(0x7f, "all flags");
    sets(0x7f80, "all sections");
}

/* To full lists and back: flags 5 to 7 and sections 5 to 7 are as after reset. The command that filled them asked for a
 * downlink, which plays no part. */
static void full_lists(void)
{
    static const char there[] = "AWR049111999023400089/" BOXES BOXES "/" NAMES NAMES NAMES NAMES "1/601/0/2301/";
    static const char back[] = "AWR049000999023400089/0000/000000000/071/1/0000/";
    esk_settings reset = esk_reset(), full = after(longest);
    differ(&reset, &full, "\2\3\4\14\15\16\22\23", there, "to full lists");
    differ(&full, &reset, "\2\3\4\14\15\16\22\23", back, "from full lists");
}

/* One byte of one entry. */
static void one_byte(void)
{
    esk_settings a = after(longest), b = a;
    lent out;
    b.regions.inhibiting.regions[15].south.degrees = 89;
    esk_differing d = ask(&a, &b, &out, MOST, "one edge");
    HOLD(d.answer.code == 0 && d.count == 1 && d.items[0] == 12);
    makes(&a, &b, &d, out.now + GUARD);
    b = a;
    b.regions.reporting.regions[0].west.letter = 'E';
    d = ask(&a, &b, &out, MOST, "one letter");
    HOLD(d.answer.code == 0 && d.count == 1 && d.items[0] == 12);
    makes(&a, &b, &d, out.now + GUARD);
    for (int list = 0; list < 4; list++)
        for (int i = 0; i < 80; i++) {
            b = a;
            esk_airfields *l[] = {&b.airports.selected.ascent, &b.airports.selected.descent, &b.airports.inhibited.ascent,
                                  &b.airports.inhibited.descent};
            l[list]->names[i] = '0';
            d = ask(&a, &b, &out, MOST, "one letter of an airfield");
            HOLD(d.answer.code == 0 && d.count == 1 && d.items[0] == 13);
            makes(&a, &b, &d, out.now + GUARD);
        }
    b = a;
    b.airports.inhibited.descent.count = 19; /* a count alone leaves an entry that isn't used */
    refused(&a, &b, MOST, ESK_SETTINGS, "an entry that isn't used");
    memset(b.airports.inhibited.descent.names + 76, 0, 4);
    d = ask(&a, &b, &out, MOST, "one airfield fewer");
    HOLD(d.answer.code == 0 && d.count == 1 && d.items[0] == 13);
    makes(&a, &b, &d, out.now + GUARD);
}

/* 12 for either, in any room, before 2. */
static void refusals(void)
{
    esk_settings good = esk_reset();
    for (size_t i = 0; i < sizeof good; i++) {
        esk_settings bad = good;
        ((uint8_t *)&bad)[i] = 0xff;
        if (esk_settings_valid(&bad).code == 0)
            continue;
        static const size_t rooms[] = {0, 21, 22, MOST};
        for (int r = 0; r < 4; r++) {
            refused(&bad, &good, rooms[r], ESK_SETTINGS, "the first is not valid");
            refused(&good, &bad, rooms[r], ESK_SETTINGS, "the second is not valid");
            refused(&bad, &bad, rooms[r], ESK_SETTINGS, "neither is valid");
        }
    }
}

int main(void)
{
    each();
    full_lists();
    one_byte();
    refusals();
    printf("test_difference: %lu checks passed\n", checks);
    return 0;
}
