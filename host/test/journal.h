/* journal.h: a journal that the tests lend, between canaries, and what each call ought to answer and to leave of it. */
#ifndef JOURNAL_H
#define JOURNAL_H

#include "uplink.h"

enum { ROOM_MOST = 70000, ENTRIES_MOST = 2200, TRAILER = 3, OVERHEAD = 6 + TRAILER };

/* What was added, the oldest first. */
typedef struct added {
    const char *who, *text;
    size_t length, offset;
} added;

/* A journal's buffer between canaries, what all of it is expected to be, and the list of what is in it. */
typedef struct journal {
    struct buffer {
        uint8_t before[GUARD];
        uint8_t bytes[ROOM_MOST + GUARD];
    } now, want;
    size_t room, end, count;
    added list[ENTRIES_MOST];
} journal;

static journal j;

/* An empty journal in a buffer of so many bytes; all of them in a pattern that no call may change. */
static void clear(size_t room)
{
    uint8_t *memory = (uint8_t *)&j.now;
    for (size_t i = 0; i < sizeof j.now; i++)
        memory[i] = (uint8_t)(0xc3 + 29 * i);
    j.want = j.now;
    j.room = room;
    j.end = j.count = 0;
}

static uint8_t *lent_bytes(void) { return j.room == 0 ? NULL : j.now.bytes; }

/* The buffer is what it is expected to be, and so are the canaries on both sides. */
static void journal_holds(const char *call, const char *why)
{
    checks++;
    if (memcmp(&j.now, &j.want, GUARD + j.room + GUARD) == 0)
        return;
    size_t at = 0;
    while (((uint8_t *)&j.now)[at] == ((uint8_t *)&j.want)[at])
        at++;
    fprintf(stderr, "FAILED after %lu checks: %s: %s\n", checks, call, why);
    fprintf(stderr, "  byte %ld of the journal's buffer\n", (long)at - GUARD);
    show("expected", (uint8_t *)&j.want + at, 40);
    show("got", (uint8_t *)&j.now + at, 40);
    exit(1);
}

/* An entry's bytes, as the header has them; gives how many. */
static size_t put_bytes(uint8_t *to, const char *who, const char *text, size_t length)
{
    memcpy(to, who, 6);
    memcpy(to + 6, text, length);
    to[6 + length] = (uint8_t)(length >> 8);
    to[7 + length] = (uint8_t)length;
    to[8 + length] = 'J';
    return OVERHEAD + length;
}

/* Behind the others in the list. */
static void note(const char *who, const char *text)
{
    size_t length = strlen(text);
    added a = {who, text, length, j.end};
    j.list[j.count++] = a;
    j.end += OVERHEAD + length;
}

/* Puts an entry there, without a call. */
static void put(const char *who, const char *text)
{
    put_bytes(j.now.bytes + j.end, who, text, strlen(text));
    put_bytes(j.want.bytes + j.end, who, text, strlen(text));
    note(who, text);
}

static void check_is(unsigned code, size_t place, const char *why)
{
    esk_answer got = esk_journal_check(lent_bytes(), j.room, j.end);
    answer_holds(got, code, place, 0, 0, "esk_journal_check", why);
    journal_holds("esk_journal_check", why);
}

static void entry_is(esk_entry got, esk_entry want, const char *why)
{
    checks++;
    if (memcmp(&got, &want, sizeof got) == 0)
        return;
    fprintf(stderr, "FAILED after %lu checks: esk_journal_last: %s\n", checks, why);
    fprintf(stderr, "  expected: code %u place %lu given %u offset %lu text %lu length %u\n", (unsigned)want.code,
            (unsigned long)want.place, (unsigned)want.given, (unsigned long)want.offset, (unsigned long)want.text,
            (unsigned)want.length);
    fprintf(stderr, "  got     : code %u place %lu given %u offset %lu text %lu length %u, spare %u\n",
            (unsigned)got.code, (unsigned long)got.place, (unsigned)got.given, (unsigned long)got.offset,
            (unsigned long)got.text, (unsigned)got.length, (unsigned)got.spare);
    exit(1);
}

/* The newest entry of the first `end` bytes, or none with a code and a place. */
static void last_is(size_t end, const added *want, unsigned code, size_t place, const char *why)
{
    esk_entry e;
    memset(&e, 0, sizeof e);
    e.code = (uint8_t)code;
    e.place = place;
    if (want != NULL) {
        e.given = 1;
        e.offset = want->offset;
        e.text = want->offset + 6;
        e.length = (uint32_t)want->length;
    }
    entry_is(esk_journal_last(lent_bytes(), j.room, end), e, why);
    journal_holds("esk_journal_last", why);
}

/* Adds; where that is accepted the entry's bytes are expected from then on. */
static void add_is(const char *who, size_t n, const char *text, size_t length, unsigned code, size_t place,
                   const char *why)
{
    lent name, in;
    const uint8_t *d = lend(&name, who, n, 1), *t = lend(&in, text, length, 1);
    esk_answer got = esk_journal_add(lent_bytes(), j.room, j.end, d, n, t, length);
    answer_holds(got, code, place, code == 0 ? j.end + OVERHEAD + length : 0, 0, "esk_journal_add", why);
    if (code == 0) {
        put_bytes(j.want.bytes + j.end, who, text, length);
        note(who, text);
    }
    journal_holds("esk_journal_add", why);
    bytes_hold(&name, "", 0, "esk_journal_add: the designator", why);
    bytes_hold(&in, "", 0, "esk_journal_add: the text", why);
}

static void drop_is(size_t count, unsigned code, size_t place, size_t left, const char *why)
{
    esk_answer got = esk_journal_drop(lent_bytes(), j.room, j.end, count);
    answer_holds(got, code, place, left, 0, "esk_journal_drop", why);
    journal_holds("esk_journal_drop", why);
}

/* Replays over the first `end` bytes into a configuration that holds no sound one; that stays on refusal. */
static void replay_is(size_t end, const char *who, size_t n, unsigned code, size_t place, const esk_settings *want,
                      const char *why)
{
    static lent_settings held;
    esk_settings rubbish;
    lent name;
    memset(&rubbish, 0xa5, sizeof rubbish);
    esk_settings *settings = lend_settings(&held, rubbish);
    const uint8_t *d = lend(&name, who, n, 1);
    esk_answer got = esk_journal_replay(settings, lent_bytes(), j.room, end, d, n);
    answer_holds(got, code, place, 0, 0, "esk_journal_replay", why);
    settings_hold(&held, code == 0 ? want : &rubbish, why);
    journal_holds("esk_journal_replay", why);
    bytes_hold(&name, "", 0, "esk_journal_replay: the designator", why);
}

/* Where the lines of a journal go, between canaries. */
static struct lines {
    uint8_t now[GUARD + ESK_JOURNAL_PRINTED + GUARD], want[GUARD + ESK_JOURNAL_PRINTED + GUARD];
} out;

/* Prints into so much room: the text is expected at its start, and all else as it was. */
static void print_is(size_t room, unsigned code, size_t place, const char *text, size_t length, const char *why)
{
    for (size_t i = 0; i < sizeof out.now; i++)
        out.now[i] = out.want[i] = (uint8_t)(0x5a + 31 * i);
    esk_answer got = esk_journal_print(lent_bytes(), j.room, j.end, room == 0 ? NULL : out.now + GUARD, room);
    answer_holds(got, code, place, code == 0 ? length : 0, 0, "esk_journal_print", why);
    if (code == 0)
        memcpy(out.want + GUARD, text, length);
    checks++;
    if (memcmp(out.now, out.want, sizeof out.now) != 0) {
        fprintf(stderr, "FAILED after %lu checks: esk_journal_print: %s: other bytes\n", checks, why);
        exit(1);
    }
    journal_holds("esk_journal_print", why);
}

#endif
