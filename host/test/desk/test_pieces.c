/*
 * Files of reports with random damage: every report that is still whole is found at its offset, every byte belongs to
 * one piece or to the line ends between them, and pieces come in order.
 */
#define _POSIX_C_SOURCE 200809L
#include "../../desk/pieces.h"

#include <stdlib.h>
#include <string.h>

enum { REPORTS = 60, ROOM = 1 << 17, FILES = 400 };

static unsigned long checks;

#define HOLD(what, why)                                                                                             \
    do {                                                                                                            \
        checks++;                                                                                                   \
        if (!(what)) {                                                                                              \
            fprintf(stderr, "FAILED after %lu checks, file %d: %s: %s\n", checks, file_number, #what, why);         \
            exit(1);                                                                                                \
        }                                                                                                           \
    } while (0)

#define SOLIDI "//////////////////////////////////////////////\r\n"
static const char whole[] = "YMMLYPAD\r\nAMDAR3AU0137\r\nRINZPF: YZ9FLAED5RT U L///9R .IM UKM335UQEKQ M///9\r\n" SOLIDI
    SOLIDI SOLIDI;

static int file_number;
static uint8_t bytes[ROOM];
static size_t length;
static size_t whole_at[REPORTS]; /* offsets of the reports without damage */
static int wholes;

static uint64_t state = 20261115;

static unsigned below(unsigned end)
{
    state = state * 6364136223846793005u + 1442695040888963407u;
    return (unsigned)((state >> 33) % end);
}

static void put(const void *from, size_t count)
{
    memcpy(bytes + length, from, count);
    length += count;
}

/* Noise of any bytes, some of it longer than many reports. */
static void put_noise(void)
{
    unsigned count = below(10) == 0 ? below(9000) : below(600);
    while (count-- > 0)
        bytes[length++] = (uint8_t)below(256);
}

/* A report that has lost some bytes, gained some, or holds a wrong one. */
static void put_damaged(void)
{
    unsigned at = 1 + below(200), count = 1 + below(18);
    put(whole, at);
    if (below(3) == 0)
        put("~~~~~~~~~~~~~~~~~~", count);
    put(whole + at + count, sizeof whole - 1 - at - count);
    bytes[length - 1 - below(100)] = '~';
}

static void put_whole(void)
{
    whole_at[wholes++] = length;
    put(whole, sizeof whole - 1);
}

static void make_file(void)
{
    length = 0;
    wholes = 0;
    for (int i = 0; i < REPORTS; i++) {
        unsigned kind = below(10);
        if (kind < 5)
            put_whole();
        else if (kind < 8)
            put_damaged();
        else if (kind < 9 && length < ROOM / 2)
            put_noise();
        else
            put("\r\n\n\r", 1 + below(4));
    }
}

/* The bytes between two pieces are line ends. */
static int only_line_ends(size_t from, size_t to)
{
    int only = 1;
    for (size_t i = from; i < to; i++)
        only &= bytes[i] == '\r' || bytes[i] == '\n';
    return only;
}

static void cut_file(void)
{
    static pieces cut;
    piece p;
    size_t end = 0;
    int found = 0;
    FILE *file = fmemopen(bytes, length, "rb");
    HOLD(file != NULL, "a file in memory");
    pieces_begin(&cut, file);
    while (next_piece(&cut, &p)) {
        HOLD(p.offset >= end && only_line_ends(end, (size_t)p.offset), "pieces in order, line ends between them");
        HOLD(p.whole >= p.length && p.length > 0, "a piece has bytes");
        HOLD(memcmp(p.bytes, bytes + p.offset, p.length) == 0, "its own bytes");
        end = (size_t)(p.offset + p.whole);
        if (esk_report_check(p.bytes, p.length).code == ESK_ACCEPTED) {
            HOLD(found < wholes && whole_at[found] == p.offset, "a whole report, at its offset");
            found++;
        }
    }
    HOLD(only_line_ends(end, length), "to the file's end");
    HOLD(found == wholes, "every whole report");
    fclose(file);
}

int main(void)
{
    for (file_number = 0; file_number < FILES; file_number++) {
        make_file();
        if (length > 0)
            cut_file();
    }
    printf("test_pieces: %lu checks hold\n", checks);
    return 0;
}
