/* night.h: long random nights of adds and takings on a board, against a plain model of what waits. */
#ifndef NIGHT_H
#define NIGHT_H

#include "board.h"

/* What all the accepted commands of an aircraft since its last hand-over say together. A section's bytes are those
 * from behind one solidus up to the next: there is none inside. */
typedef struct waiting {
    int waits;
    size_t slot;
    char flags[8], downlink;
    const char *section[10];
} waiting;

enum { FLEET = 80 };

static waiting fleet[FLEET];

static void name(int aircraft, char *to)
{
    memcpy(to, "AU0000", 7);
    to[4] = (char)('0' + aircraft / 10);
    to[5] = (char)('0' + aircraft % 10);
}

/* Takes a command into what waits. */
static void join(waiting *w, const char *text)
{
    const char *at = text + 22;
    for (int i = 0; i < 7; i++)
        if (text[5 + i] != '9')
            w->flags[i] = text[5 + i];
    if (text[12] > w->downlink)
        w->downlink = text[12];
    for (int k = 2; k <= 9; k++)
        if (text[11 + k] != '0') {
            w->section[k] = at;
            at = strchr(at, '/') + 1;
        }
}

/* The one text that says it. */
static size_t spell(const waiting *w, char *to)
{
    char *at = to + sprintf(to, "AWR04%s%c", w->flags, w->downlink);
    for (int k = 2; k <= 9; k++)
        *at++ = (char)(w->section[k] != NULL ? '0' + k : '0');
    *at++ = '/';
    for (int k = 2; k <= 9; k++)
        if (w->section[k] != NULL) {
            size_t length = (size_t)(strchr(w->section[k], '/') + 1 - w->section[k]);
            memcpy(at, w->section[k], length);
            at += length;
        }
    *at = 0;
    return (size_t)(at - to);
}

static const char *const commands[] = {
    NO_CHANGE, FIRST, SECOND, BOTH, longest, H2 "0000/", H2 "0110N10S010W010E00/", H2 "000190N90S180W180E/",
    H3 "000000000/", H3 "01ABCD02EFGHIJKL00001/", H3 "0001WXYZ00000/", H4 "071/", H4 "600/", H5 FIVE,
    H5 "0036006011135010/", H6 "0/", H6 "1/", H7 SEVEN, H7 "030035010/", H8 "0/", H8 "1/", H9 "2301/", H9 "0000/",
    "AWR040000000200000000/", "AWR041111111000000000/", "AWR049990999100000080/1/",
    "AWR041000111023456789/0000/000000000/071/" FIVE "1/" SEVEN "1/0000/",
};

typedef struct refused_command {
    const char *text;
    unsigned code;
    unsigned long place;
} refused_command;

static const refused_command refused[] = {
    {"", 8, 0},        {"AWR04", 8, 5},     {NO_CHANGE "/", 8, 22},
    {H2 "17", 5, 22}, {H4 "07x/", 4, 24}, {"AWR043999999000000000/", 4, 5}, {H7 "100920021/", 5, 23},
};

static uint64_t state;

static unsigned below(unsigned end)
{
    state = state * 6364136223846793005u + 1442695040888963407u;
    return (unsigned)((state >> 33) % end);
}

static size_t lowest_free(void)
{
    size_t slot = 0;
    while (slot < b.n && b.want.slots[slot].length != 0)
        slot++;
    return slot;
}

static void add_event(int aircraft)
{
    char designator[8], text[TEXT + 1];
    const char *command = commands[below(sizeof commands / sizeof *commands)];
    waiting *w = &fleet[aircraft];
    name(aircraft, designator);
    if (below(20) == 0) {
        const refused_command *r = &refused[below(sizeof refused / sizeof *refused)];
        add_holds(designator, 6, r->text, strlen(r->text), r->code, r->place, 0, "a night: a refused command");
        return;
    }
    if (!w->waits && lowest_free() == b.n) {
        add_holds(designator, 6, command, strlen(command), 9, 0, 0, "a night: no slot");
        return;
    }
    if (!w->waits) {
        memset(w, 0, sizeof *w);
        memcpy(w->flags, "9999999", 8);
        w->downlink = '0';
        w->waits = 1;
        w->slot = lowest_free();
    }
    join(w, command);
    size_t length = spell(w, text);
    expect(w->slot, designator, text);
    add_holds(designator, 6, command, strlen(command), 0, 0, length, "a night: an add");
}

static void take_event(int aircraft)
{
    char designator[8], text[TEXT + 1];
    waiting *w = &fleet[aircraft];
    size_t room = below(4) == 0 ? below(900) : 900;
    name(aircraft, designator);
    if (!w->waits) {
        take_holds(designator, 6, room, 11, "", 0, "a night: nothing waits");
        return;
    }
    size_t length = spell(w, text);
    if (room < length) {
        take_holds(designator, 6, room, 2, "", 0, "a night: too little room");
        return;
    }
    w->waits = 0;
    b.want.slots[w->slot].length = 0;
    take_holds(designator, 6, room, 0, text, length, "a night: all that waited");
}

static void night(size_t n, unsigned long events, unsigned adds)
{
    int size = (int)(n + n / 5 + 1);
    clear(n);
    memset(fleet, 0, sizeof fleet);
    while (events-- > 0) {
        int aircraft = (int)below((unsigned)size);
        if (below(100) < adds)
            add_event(aircraft);
        else
            take_event(aircraft);
    }
    check_holds(0, "after a night");
}

#endif
