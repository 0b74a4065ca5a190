/* board.h: a board that the tests lend, slots and area between canaries, and what each call ought to leave of it. */
#ifndef BOARD_H
#define BOARD_H

#include "uplink.h"

enum { TEXT = ESK_COMMAND_BYTES, SLOTS = 66 };

/* A board that is lent, slots and area between canaries, and what all of it is expected to be. */
typedef struct board {
    struct memory {
        uint8_t before[GUARD];
        esk_slot slots[SLOTS];
        uint8_t between[GUARD];
        uint8_t area[SLOTS * TEXT + 1];
        uint8_t after[GUARD];
    } now, want;
    size_t n, area_length;
} board;

static board b;

/* Free slots; all bytes in a pattern that no call may change. */
static inline void clear(size_t n)
{
    uint8_t *memory = (uint8_t *)&b.now;
    for (size_t i = 0; i < sizeof b.now; i++)
        memory[i] = (uint8_t)(0xc3 + 29 * i);
    for (size_t i = 0; i < SLOTS; i++)
        b.now.slots[i].length = 0;
    b.want = b.now;
    b.n = n;
    b.area_length = n * TEXT;
}

/* Puts a text into a slot, as if it had been added. */
static inline void put(size_t slot, const char *designator, const char *text, size_t length)
{
    memcpy(b.now.slots[slot].designator, designator, 6);
    b.now.slots[slot].length = (uint16_t)length;
    memcpy(b.now.area + slot * TEXT, text, strlen(text));
    b.want = b.now;
}

static inline void board_holds(const char *call, const char *why)
{
    checks++;
    if (memcmp(&b.now, &b.want, sizeof b.now) == 0)
        return;
    const uint8_t *now = (const uint8_t *)&b.now, *want = (const uint8_t *)&b.want;
    size_t at = 0;
    while (now[at] == want[at])
        at++;
    fprintf(stderr, "FAILED after %lu checks: %s: %s\n", checks, call, why);
    fprintf(stderr, "  byte %lu of the board (slots from %lu on, area from %lu on)\n", (unsigned long)at,
            (unsigned long)offsetof(struct memory, slots), (unsigned long)offsetof(struct memory, area));
    show("expected", want + at, 40);
    show("got", now + at, 40);
    exit(1);
}

static inline esk_slot *slots(void) { return b.n == 0 ? NULL : b.now.slots; }
static inline uint8_t *area(void) { return b.area_length == 0 ? NULL : b.now.area; }

static inline void check_holds(unsigned code, const char *why)
{
    esk_answer got = esk_board_check(slots(), b.n, area(), b.area_length);
    answer_holds(got, code, 0, 0, 0, "esk_board_check", why);
    board_holds("esk_board_check", why);
}

/* Adds, holds the answer, and holds the board against b.want as it then stands. */
static inline void add_holds(const char *designator, size_t n, const char *text, size_t length, unsigned code,
                      unsigned long place, size_t waits, const char *why)
{
    lent name, in;
    const uint8_t *d = lend(&name, designator, n, 1), *t = lend(&in, text, length, 1);
    esk_answer got = esk_board_add(slots(), b.n, area(), b.area_length, d, n, t, length);
    answer_holds(got, code, place, code == 0 ? waits : 0, 0, "esk_board_add", why);
    board_holds("esk_board_add", why);
    bytes_hold(&name, "", 0, "esk_board_add: the designator", why);
    bytes_hold(&in, "", 0, "esk_board_add: the text", why);
}

static inline void take_holds(const char *designator, size_t n, size_t room, unsigned code, const char *text, size_t length,
                       const char *why)
{
    lent name, out;
    const uint8_t *d = lend(&name, designator, n, 1);
    esk_answer got = esk_board_take(slots(), b.n, area(), b.area_length, d, n, lend(&out, NULL, room, 1), room);
    answer_holds(got, code, 0, code == 0 ? length : 0, 0, "esk_board_take", why);
    board_holds("esk_board_take", why);
    bytes_hold(&out, text, code == 0 ? length : 0, "esk_board_take", why);
    bytes_hold(&name, "", 0, "esk_board_take: the designator", why);
}

/* A text in a slot is expected from now on. */
static inline void expect(size_t slot, const char *designator, const char *text)
{
    memcpy(b.want.slots[slot].designator, designator, 6);
    b.want.slots[slot].length = (uint16_t)strlen(text);
    memcpy(b.want.area + slot * TEXT, text, strlen(text));
}

/* A number below `end`, the same ones in every run. */
static inline uint32_t chance(uint32_t end)
{
    static uint32_t state = 2463534242u;
    state ^= state << 13, state ^= state >> 17, state ^= state << 5;
    return state % end;
}

/* Document 01's join. */
#define FIRST "AWR041999999000400000/151/"
#define SECOND "AWR049199999100400009/300/2301/"
#define BOTH "AWR041199999100400009/300/2301/"

#endif
