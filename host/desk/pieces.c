#include "pieces.h"

#include <string.h>

enum {
    REACH = 2 * ESK_REPORT_BYTES, /* how far a damaged report may run */
    BEGINNING = 16,               /* the bytes by which one is known to begin */
    LOOK = REACH + 2 * BEGINNING, /* the bytes that must be there to see where the next one begins */
    LOST = 20                     /* pieces in a row after which the file seems to hold something else */
};

void pieces_begin(pieces *p, FILE *from)
{
    memset(p, 0, sizeof *p);
    p->from = from;
}

/* Sees to it that so many bytes are held, at most LOOK, unless the file ends before. No more are waited for: a report that
 * comes through a pipe is handed on before the next is there. */
static void fill(pieces *p, size_t bytes)
{
    size_t held = p->end - p->at;
    if (held >= bytes || feof(p->from) || ferror(p->from))
        return;
    if (sizeof p->held - p->at < bytes) {
        memmove(p->held, p->held + p->at, held);
        p->at = 0;
        p->end = held;
    }
    p->end += fread(p->held + p->end, 1, bytes - held, p->from);
}

static void pass(pieces *p, size_t bytes)
{
    p->at += bytes;
    p->offset += bytes;
}

static void pass_line_ends(pieces *p)
{
    fill(p, 1);
    while (p->at < p->end && (p->held[p->at] == '\r' || p->held[p->at] == '\n')) {
        pass(p, 1);
        fill(p, 1);
    }
}

static int is_name(const uint8_t *bytes)
{
    int fine = 1;
    for (int i = 0; i < 8; i++)
        fine &= (bytes[i] >= 'A' && bytes[i] <= 'Z') || (bytes[i] >= '0' && bytes[i] <= '9');
    return fine;
}

/* Whether a report seems to begin here: also one whose line ends have lost their CR. */
static int seems_to_begin(const uint8_t *bytes, size_t length)
{
    if (length < BEGINNING || !is_name(bytes))
        return 0;
    size_t line_end = bytes[8] == '\r' ? 2 : 1;
    return bytes[7 + line_end] == '\n' && memcmp(bytes + 8 + line_end, "AMDAR3", 6) == 0;
}

/* The length of a piece whose first 220 bytes are not accepted. */
static size_t damaged_length(const uint8_t *bytes, size_t length)
{
    size_t to = 1;
    while (to < length && to < REACH && !seems_to_begin(bytes + to, length - to))
        to++;
    return to < REACH ? to : ESK_REPORT_BYTES;
}

/* Passes over all up to the next beginning, or the file's end. */
static void pass_over(pieces *p, piece *got)
{
    size_t held = p->end - p->at;
    memcpy(p->passed, p->held + p->at, held < sizeof p->passed ? held : sizeof p->passed);
    do {
        pass(p, 1);
        fill(p, BEGINNING);
    } while (p->at < p->end && !seems_to_begin(p->held + p->at, p->end - p->at));
    got->bytes = p->passed;
    got->whole = p->offset - got->offset;
    got->length = got->whole < sizeof p->passed ? (size_t)got->whole : sizeof p->passed;
}

static int is_report(const pieces *p)
{
    return p->end - p->at >= ESK_REPORT_BYTES &&
           esk_report_check(p->held + p->at, ESK_REPORT_BYTES).code == ESK_ACCEPTED;
}

int next_piece(pieces *p, piece *got)
{
    pass_line_ends(p);
    fill(p, ESK_REPORT_BYTES);
    if (p->at == p->end || ferror(p->from))
        return 0;
    got->offset = p->offset;
    got->number = ++p->number;
    got->length = ESK_REPORT_BYTES;
    if (is_report(p))
        p->lost = 0;
    else if (p->lost >= LOST) {
        fill(p, LOOK);
        pass_over(p, got);
        p->lost = 0;
        return 1;
    } else {
        fill(p, LOOK);
        got->length = damaged_length(p->held + p->at, p->end - p->at);
        p->lost++;
    }
    got->bytes = p->held + p->at;
    got->whole = got->length;
    pass(p, got->length);
    return 1;
}
