/*
 * check.h: what the C tests share. A buffer that is lent has canary bytes on both sides, and all of it is compared
 * with what it was. The first failure prints input, expected and got, and ends the program with 1.
 */
#ifndef CHECK_H
#define CHECK_H

#include "eskelvor.h"

#include <stdio.h>
#include <stdlib.h>
#include <string.h>

/* The most bytes that a test lends. */
#ifndef CHECK_MOST
#define CHECK_MOST 256
#endif

enum { GUARD = 32, MOST = CHECK_MOST };

static unsigned long checks;

static inline void show(const char *label, const uint8_t *bytes, size_t length)
{
    fprintf(stderr, "  %-8s: %lu bytes \"", label, (unsigned long)length);
    for (size_t i = 0; i < length; i++)
        fprintf(stderr, bytes[i] >= 0x20 && bytes[i] < 0x7f ? "%c" : "\\x%02x", bytes[i]);
    fprintf(stderr, "\"\n");
}

static inline void fail(const char *why, const char *call, const uint8_t *input, size_t length)
{
    fprintf(stderr, "FAILED after %lu checks: %s: %s\n", checks, call, why);
    show("input", input, length);
}

/* Bytes that are lent, between canaries, and what all of it was before the call. */
typedef struct lent {
    uint8_t now[GUARD + MOST + GUARD];
    uint8_t was[GUARD + MOST + GUARD];
    size_t length;
} lent;

/* Lends a copy of the bytes, or a pattern where from is NULL. The empty string is lent as NULL where `null` is set. */
static inline uint8_t *lend(lent *l, const void *from, size_t length, int null)
{
    for (size_t i = 0; i < sizeof l->now; i++)
        l->now[i] = (uint8_t)(0xc3 + 29 * i);
    if (from != NULL && length > 0)
        memcpy(l->now + GUARD, from, length);
    memcpy(l->was, l->now, sizeof l->now);
    l->length = length;
    return length == 0 && null ? NULL : l->now + GUARD;
}

/* The first `length` of the bytes lent are now the text, and all else is as it was: with length 0, untouched. */
static inline int is_written(lent *l, const void *text, size_t length)
{
    memcpy(l->was + GUARD, text, length);
    checks++;
    return memcmp(l->now, l->was, sizeof l->now) == 0;
}

static inline int is_spare(esk_answer got) { return got.spare[0] == 0 && got.spare[1] == 0; }

static inline int is_answer(esk_answer got, unsigned code, unsigned long place, unsigned length)
{
    checks++;
    return got.code == code && got.place == place && got.length == length && got.text == 0 && is_spare(got);
}

/* Ends the program over an answer that is another than expected. */
static inline void wrong_answer(esk_answer got, unsigned code, unsigned long place, unsigned length)
{
    fprintf(stderr, "  expected: code %u place %lu length %u text 0\n", code, place, length);
    fprintf(stderr, "  got     : code %u place %lu length %u text %u\n", (unsigned)got.code, (unsigned long)got.place,
            (unsigned)got.length, (unsigned)got.text);
    exit(1);
}

/* Ends the program over lent bytes that are others than expected. */
static inline void wrong_bytes(const lent *l)
{
    show("expected", l->was, 2 * GUARD + l->length);
    show("got", l->now, 2 * GUARD + l->length);
    exit(1);
}

#define HOLD(what)                                                            \
    do {                                                                      \
        checks++;                                                             \
        if (!(what)) {                                                        \
            fprintf(stderr, "FAILED after %lu checks: %s\n", checks, #what); \
            exit(1);                                                          \
        }                                                                     \
    } while (0)

#endif
