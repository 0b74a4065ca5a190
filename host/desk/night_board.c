#define _XOPEN_SOURCE 700
#include "night.h"

#include "journal_file.h"

#include <stdio.h>
#include <stdlib.h>
#include <string.h>
#include <unistd.h>

const aircraft fleet[AIRCRAFT] = {
    {"AU0137", "AWR049999099000000000/"},                  /* ascent reports off */
    {"AU0245", "AWR049999999000050000/1030902005120021/"}, /* in ascent, a sample every 3 seconds */
    {"NZ7001", "AWR049999999000000000/"},                  /* nothing */
    {"NZ7002", "AWR049199999000000009/2206/"},             /* silent from 22 to 06 */
    {"FJ0003", "AWR049999099000000000/"},                  /* ascent reports off */
};

const sending sendings[] = {
    {0, "AWR049999199000000000/", "ascent reports on"},
    {1, "AWR049999999000050000/1060902005120021/", "a sample every 6 seconds, not every 3"},
    {2, "AWR049199999000000009/2301/", "silent from 23 to 01"},
    {3, "AWR049099999000000000/", "no hours of silence"},
    {0, "AWR049999999000400000/151/", "level flight: every 15 minutes"},
    {1, "AWR049999999000400000/200/", "level flight: every 20 minutes"},
    {2, "AWR049991999003000000/01YMML0000000/", "ascent scheme at Melbourne only"},
    {3, "AWR049999999000400000/051/", "level flight: every 5 minutes"},
    {4, "AWR049999199000000000/", "ascent reports on"},
    {0, "AWR049999999000400000/101/", "level flight: every 10 minutes"},
    {1, "AWR049999999000006000/0/", "no routine reports in ascent"},
    {2, "AWR049919999020000000/0110S45S110E155E00/", "reports over Australia only"},
    {0, "AWR049999999000050000/106090200512002 1/", "a slip of the hand"},
    {3, "AWR04999999900005000", "cut off"},
    {1, "AWR049999999100000000/", "downlink 1"},
    {2, "AWR049999999000000080/0/", "no routine reports in descent"},
    {0, "AWR049999999000000009/0204/", "hours of silence 02 to 04, when they apply"},
    {1, "AWR049999999000400000/091/", "level flight: every 9 minutes"},
    {2, "AWR049999999000400000/301/", "level flight: every 30 minutes"},
    {3, "AWR049999999000000080/0/", "no routine reports in descent"},
    {0, "AWR049199999000000000/", "hours of silence apply"},
    {1, "AWR049999999000400000/071/", "level flight: every 7 minutes"},
    {2, "AWR049099999000000000/", "no hours of silence"},
    {0, "AWR049999999200000000/", "downlink 2"},
    {1, "AWR049999990000000000/", "descent reports off"},
    {2, "AWR049999999000400000/121/", "level flight: every 12 minutes"},
    {3, "AWR049999999000400000/081/", "level flight: every 8 minutes"},
    {0, "AWR049999999000006000/1/", "routine reports in ascent"},
    {1, "AWR049999999000000009/0000/", "no window of silence"},
    {4, "AWR049999199000000000/", "ascent reports on, sent again"},
};

const int sendings_count = sizeof sendings / sizeof *sendings - 1;

/* Puts the board in place of the one in the file. */
static int put_back(kept *k, const board *b)
{
    int status = board_write(k, b);
    return status == FINE ? keep_replace(k) : status;
}

int night_enter(const night_files *f, const char *designator, const uint8_t *text, size_t length)
{
    static journal j;
    int status = journal_hold(&j, f->journal, 0, 1);
    if (status == FINE)
        status = journal_add(&j, designator, text, length);
    if (status == FINE)
        status = journal_write(&j);
    if (status == FINE)
        status = journal_put(&j);
    keep_release(&j.file);
    return status;
}

int night_add(const night_files *f, const char *designator, const char *text, esk_answer *a)
{
    static board b;
    kept k;
    int status = board_hold(&k, &b, f->board, 0);
    if (status == FINE) {
        *a = esk_board_add(b.slots, b.n, b.area, b.n * ESK_COMMAND_BYTES, (const uint8_t *)designator,
                           strlen(designator), (const uint8_t *)text, strlen(text));
        if (a->code == ESK_ACCEPTED)
            status = put_back(&k, &b);
    }
    keep_release(&k);
    return status;
}

int night_take(const night_files *f, const char *designator, uint8_t *out, esk_answer *a)
{
    static board b;
    kept k;
    int status = board_hold(&k, &b, f->board, 0);
    if (status == FINE) {
        *a = esk_board_take(b.slots, b.n, b.area, b.n * ESK_COMMAND_BYTES, (const uint8_t *)designator,
                            strlen(designator), out, ESK_COMMAND_BYTES);
        if (a->code == ESK_ACCEPTED)
            status = night_enter(f, designator, out, a->length);
        if (a->code == ESK_ACCEPTED && status == FINE)
            status = put_back(&k, &b);
    }
    keep_release(&k);
    return status;
}

int night_folder(night_files *f)
{
    const char *under = getenv("TMPDIR");
    if (under == NULL || *under == 0)
        under = "/tmp";
    if (snprintf(f->folder, PATH_ROOM, "%s/eskelvor-night-XXXXXX", under) >= PATH_ROOM)
        return trouble(under, "the path is too long");
    if (mkdtemp(f->folder) == NULL)
        return failed(under, "make a folder in it");
    snprintf(f->board, sizeof f->board, "%s/board", f->folder);
    snprintf(f->journal, sizeof f->journal, "%s/journal", f->folder);
    return FINE;
}

void night_clear(const night_files *f)
{
    static const char *const names[] = {"board", "journal", ".board.eskelvor-lock", ".journal.eskelvor-lock"};
    char path[PATH_ROOM + 32];
    for (size_t i = 0; i < sizeof names / sizeof *names; i++) {
        snprintf(path, sizeof path, "%s/%s", f->folder, names[i]);
        unlink(path);
    }
    rmdir(f->folder);
}
