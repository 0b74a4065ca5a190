/*
 * answer.h: what the programs share that ask the proved calls for the comparison run, over standard input and output.
 *
 * Numbers are little-endian. A batch is its length in bytes (4) and then that many bytes of questions; for each batch
 * comes back the length of the replies (4) and the replies, in the same order. Each program says what a question is
 * and what is replied to it, and has a function `question` that answers one and gives the place behind it.
 *
 * What is lent for writing has GUARD bytes on both sides, all of it in a known pattern before the call.
 */
#ifndef ANSWER_H
#define ANSWER_H

#include "eskelvor.h"

#include <stdio.h>
#include <stdlib.h>
#include <string.h>

enum { GUARD = 8, MOST = 1 << 16 };

static uint8_t *questions, *replies;
static size_t replied, held;

static const uint8_t *question(const uint8_t *q);

static inline void give(const void *bytes, size_t length)
{
    if (held < replied + length) {
        held = 2 * (replied + length);
        replies = realloc(replies, held);
        if (replies == NULL)
            exit(2);
    }
    memcpy(replies + replied, bytes, length);
    replied += length;
}

static inline size_t number(const uint8_t *from, int bytes)
{
    size_t sum = 0;
    while (bytes-- > 0)
        sum = sum << 8 | from[bytes];
    return sum;
}

/* A byte string of a question, behind its length (2); the empty one is NULL. */
typedef struct string {
    const uint8_t *bytes;
    size_t length;
    const uint8_t *end; /* the place behind it in the question */
} string;

static inline string string_at(const uint8_t *q)
{
    string s;
    s.length = number(q, 2);
    s.bytes = s.length == 0 ? NULL : q + 2;
    s.end = q + 2 + s.length;
    return s;
}

static inline void fill(uint8_t *bytes, size_t length)
{
    for (size_t i = 0; i < length; i++)
        bytes[i] = (uint8_t)((i * 37) ^ 0xa5);
}

static uint8_t arena[GUARD + MOST + GUARD];

/* The arena in its pattern; the empty room is lent as NULL. */
static inline uint8_t *lend(size_t room)
{
    fill(arena, room + 2 * GUARD);
    return room == 0 ? NULL : arena + GUARD;
}

static inline void give_arena(size_t room) { give(arena, room + 2 * GUARD); }

int main(void)
{
    uint8_t head[4];
    while (fread(head, 1, 4, stdin) == 4) {
        size_t length = number(head, 4);
        free(questions);
        questions = malloc(length + 1);
        if (questions == NULL || fread(questions, 1, length, stdin) != length)
            return 2;
        replied = 0;
        for (const uint8_t *q = questions; q < questions + length;)
            q = question(q);
        for (int i = 0; i < 4; i++)
            head[i] = (uint8_t)(replied >> (8 * i));
        fwrite(head, 1, 4, stdout);
        fwrite(replies, 1, replied, stdout);
        if (fflush(stdout) != 0)
            return 2;
    }
    return 0;
}

#endif
