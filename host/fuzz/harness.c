/* Inputs, blocks and the holding of two answers. */
#include "harness.h"

#include <stdio.h>
#include <stdlib.h>
#include <string.h>

/* ---- inputs ---- */

uint8_t take_byte(input *from)
{
    uint8_t byte = 0;
    take_into(from, &byte, 1);
    return byte;
}

uint16_t take_short(input *from)
{
    uint16_t low = take_byte(from);
    return (uint16_t)(low | take_byte(from) << 8);
}

uint32_t take_word(input *from)
{
    uint32_t low = take_short(from);
    return low | (uint32_t)take_short(from) << 16;
}

void take_into(input *from, void *to, size_t length)
{
    size_t there = length < from->left ? length : from->left;
    memset(to, 0, length);
    if (there > 0)
        memcpy(to, from->at, there);
    from->at += there;
    from->left -= there;
}

/* ---- blocks ---- */

/* A block of exactly this length; what comes back for 0 is past the end of a block of one. */
static uint8_t *block(const void *bytes, size_t length)
{
    uint8_t *at = malloc(length > 0 ? length : 1);
    if (at == NULL)
        abort();
    if (length == 0)
        return at + 1;
    memcpy(at, bytes, length);
    return at;
}

static void drop(uint8_t *at, size_t length)
{
    free(length > 0 ? at : at - 1);
}

lent lend(const void *bytes, size_t length)
{
    lent what = {block(bytes, length), block(bytes, length), length};
    return what;
}

lent lend_next(input *from, size_t length)
{
    size_t there = length < from->left ? length : from->left;
    lent what = lend(from->at, there);
    from->at += there;
    from->left -= there;
    return what;
}

lent lend_rest(input *from)
{
    return lend_next(from, from->left);
}

void fill(uint8_t *to, size_t length)
{
    for (size_t i = 0; i < length; i++)
        to[i] = (uint8_t)(i * 37) ^ 0xa5;
}

lent lend_room(size_t length)
{
    static uint8_t pattern[MOST_ROOM];
    if (length > sizeof pattern)
        abort();
    fill(pattern, length);
    return lend(pattern, length);
}

/* ---- holding ---- */

static const char *call;                /* of the target that runs */
static const uint8_t *whole;            /* the input that it was given */
static size_t whole_length;

static void show(const char *name, const uint8_t *bytes, size_t length)
{
    fprintf(stderr, "%s (%lu bytes):", name, (unsigned long)length);
    for (size_t i = 0; i < length; i++)
        fprintf(stderr, "%s%02x", i % 4 == 0 ? " " : "", bytes[i]);
    fprintf(stderr, "\n");
}

/* Shows a run of bytes from somewhat before the first difference on: an area of a board has 54,000. */
static void differ(const char *part, const uint8_t *ours, const uint8_t *second, size_t length)
{
    size_t at = 0;
    while (ours[at] == second[at])
        at++;
    size_t from = at < 32 ? 0 : at - 32;
    size_t shown = length - from < 96 ? length - from : 96;
    fprintf(stderr, "%s: %s differs at byte %lu of %lu\n", call, part, (unsigned long)at, (unsigned long)length);
    show("input", whole, whole_length);
    fprintf(stderr, "%s from byte %lu:\n", part, (unsigned long)from);
    show("ours  ", ours + from, shown);
    show("second", second + from, shown);
    abort();
}

/* Whether a wrong answer is to be planted here: ESKELVOR_PLANT is CALL:PART. */
static int planted(const char *part)
{
    const char *plant = getenv("ESKELVOR_PLANT");
    size_t length = strlen(call);
    return plant != NULL && strncmp(plant, call, length) == 0 && plant[length] == ':' &&
           strcmp(plant + length + 1, part) == 0;
}

void hold(const char *part, const void *ours, const void *second, size_t length)
{
    uint8_t *bytes;
    if (length == 0)
        return;
    bytes = block(ours, length);
    if (planted(part))
        bytes[length - 1] ^= 1;
    if (memcmp(bytes, second, length) != 0)
        differ(part, bytes, second, length);
    drop(bytes, length);
}

void give_back(const char *part, lent what)
{
    hold(part, what.ours, what.second, what.length);
    drop(what.ours, what.length);
    drop(what.second, what.length);
}

/* ---- targets ---- */

static const target *among(const target *targets, const char *name)
{
    while (targets->call != NULL && strcmp(targets->call, name) != 0)
        targets++;
    return targets->call != NULL ? targets : NULL;
}

const target *target_of(const char *name)
{
    const target *found = among(downlink_targets, name);
    if (found == NULL)
        found = among(uplink_targets, name);
    if (found == NULL)
        found = among(board_targets, name);
    return found != NULL ? found : among(journal_targets, name);
}

void run_target(const target *which, const uint8_t *bytes, size_t length)
{
    input from = {bytes, length};
    call = which->call;
    whole = bytes;
    whole_length = length;
    which->run(from);
}
