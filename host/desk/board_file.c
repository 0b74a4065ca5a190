#include "board_file.h"

#include <stdio.h>
#include <string.h>

static const char magic[8] = {'E', 'S', 'K', 'B', 'O', 'A', 'R', 'D'};

/* What a version of the format has. */
typedef struct format {
    uint32_t version;
    size_t text; /* bytes of text for each slot */
} format;

static const format present = {BOARD_VERSION, ESK_COMMAND_BYTES}, older = {1, 835};

static void put_number(uint8_t *to, uint32_t number, int bytes)
{
    for (int i = 0; i < bytes; i++)
        to[i] = (uint8_t)(number >> (8 * i));
}

static uint32_t get_number(const uint8_t *from, int bytes)
{
    uint32_t number = 0;
    for (int i = 0; i < bytes; i++)
        number |= (uint32_t)from[i] << (8 * i);
    return number;
}

size_t board_pack(const board *b, uint8_t *to)
{
    size_t length = BOARD_HEAD + b->n * BOARD_A_SLOT;
    memcpy(to, magic, sizeof magic);
    put_number(to + 8, BOARD_VERSION, 4);
    put_number(to + 12, (uint32_t)b->n, 4);
    for (size_t i = 0; i < b->n; i++) {
        memcpy(to + BOARD_HEAD + 8 * i, b->slots[i].designator, 6);
        put_number(to + BOARD_HEAD + 8 * i + 6, b->slots[i].length, 2);
    }
    memcpy(to + BOARD_HEAD + 8 * b->n, b->area, b->n * ESK_COMMAND_BYTES);
    put_number(to + length, checksum(to, length), 4);
    return length + BOARD_TAIL;
}

/* A file of another version than the one that is wanted. */
static void word_version(uint32_t version, const format *f, char *why, size_t room)
{
    if (f == &present && version == older.version)
        snprintf(why, room, "a board's file of format version 1, from before section 7: its commands are carried over "
                            "into a new one by eskelvor board OLD convert NEW");
    else if (f == &older && version == present.version)
        snprintf(why, room, "a board's file of format version %d, which is read as it is; there is nothing to convert",
                 BOARD_VERSION);
    else
        snprintf(why, room, "a board's file of format version %lu; this program reads version %d",
                 (unsigned long)version, BOARD_VERSION);
}

/* The first 16 bytes, and whether the file is as long as they say. */
static int head_status(const uint8_t *bytes, size_t length, const format *f, char *why, size_t room)
{
    if (length == 0)
        snprintf(why, room, "the file is empty");
    else if (memcmp(bytes, magic, length < 8 ? length : 8) != 0)
        snprintf(why, room, "not a board's file: it does not begin with ESKBOARD");
    else if (length < BOARD_HEAD)
        snprintf(why, room, "the file is cut short: %lu bytes", (unsigned long)length);
    else if (get_number(bytes + 8, 4) != f->version) {
        word_version(get_number(bytes + 8, 4), f, why, room);
        return TROUBLE;
    } else if (get_number(bytes + 12, 4) > ESK_BOARD_SLOTS)
        snprintf(why, room, "%lu slots, more than 64", (unsigned long)get_number(bytes + 12, 4));
    else
        return FINE;
    return REFUSED;
}

static int length_status(size_t length, size_t wanted, char *why, size_t room)
{
    if (length == wanted)
        return FINE;
    if (length < wanted)
        snprintf(why, room, "the file is cut short: %lu bytes of %lu", (unsigned long)length, (unsigned long)wanted);
    else
        snprintf(why, room, "the file goes on behind its %lu bytes", (unsigned long)wanted);
    return REFUSED;
}

/* Which used slot makes a board not valid. */
static void find_fault(const board *b, char *why, size_t room)
{
    snprintf(why, room, "a designator is wrong or stands in two slots");
    for (size_t i = 0; i < b->n; i++) {
        const esk_slot *s = &b->slots[i];
        if (s->length == 0)
            continue;
        esk_answer a = esk_command_check(board_text(b, i), s->length > ESK_COMMAND_BYTES ? 0 : s->length);
        if (a.code != ESK_ACCEPTED) {
            snprintf(why, room, "the text in slot %lu is refused with code %u at byte %lu", (unsigned long)i + 1,
                     (unsigned)a.code, (unsigned long)a.place);
            return;
        }
    }
}

static void get_slots(board *b, const uint8_t *bytes, size_t text)
{
    memset(b, 0, sizeof *b);
    b->n = get_number(bytes + 12, 4);
    const uint8_t *area = bytes + BOARD_HEAD + 8 * b->n;
    for (size_t i = 0; i < b->n; i++) {
        memcpy(b->slots[i].designator, bytes + BOARD_HEAD + 8 * i, 6);
        b->slots[i].length = (uint16_t)get_number(bytes + BOARD_HEAD + 8 * i + 6, 2);
        memcpy(b->area + i * ESK_COMMAND_BYTES, area + i * text, text);
    }
}

static int unpack(board *b, const uint8_t *bytes, size_t length, const format *f, char *why, size_t room)
{
    int status = head_status(bytes, length, f, why, room);
    if (status != FINE)
        return status;
    size_t summed = BOARD_HEAD + get_number(bytes + 12, 4) * (8 + f->text);
    if (length_status(length, summed + BOARD_TAIL, why, room) != FINE)
        return REFUSED;
    if (get_number(bytes + summed, 4) != checksum(bytes, summed)) {
        snprintf(why, room, "the file is damaged: its checksum is not that of its bytes");
        return REFUSED;
    }
    get_slots(b, bytes, f->text);
    if (esk_board_check(b->slots, b->n, b->area, b->n * ESK_COMMAND_BYTES).code == ESK_ACCEPTED)
        return FINE;
    find_fault(b, why, room);
    return REFUSED;
}

int board_unpack(board *b, const uint8_t *bytes, size_t length, char *why, size_t room)
{
    return unpack(b, bytes, length, &present, why, room);
}

/* The proved check is that of today; a text that fits no slot of version 1, or names what it had no place for, is none
 * that such a board held. */
int board_unpack_older(board *b, const uint8_t *bytes, size_t length, char *why, size_t room)
{
    int status = unpack(b, bytes, length, &older, why, room);
    for (size_t i = 0; status == FINE && i < b->n; i++)
        if (b->slots[i].length > older.text ||
            (b->slots[i].length > 0 && esk_command_read(board_text(b, i), b->slots[i].length).command.named[7 - 2])) {
            snprintf(why, room, "the text in slot %lu is none of format version 1", (unsigned long)i + 1);
            status = REFUSED;
        }
    return status;
}

/* What reads the board of a file's bytes: board_unpack or board_unpack_older. */
typedef int (*unpacker)(board *b, const uint8_t *bytes, size_t length, char *why, size_t room);

static int read_by(unpacker unpacks, const char *file, board *b)
{
    static uint8_t bytes[BOARD_MOST + 1];
    size_t length = 0;
    char why[200] = "";
    if (keep_read(file, bytes, sizeof bytes, &length) != FINE)
        return TROUBLE;
    int status = unpacks(b, bytes, length, why, sizeof why);
    if (status == TROUBLE)
        return trouble(file, "%s", why);
    return status == FINE ? FINE : refuse_plain(file, A_BOARD, ESK_BOARD, why);
}

int board_read(const char *file, board *b) { return read_by(board_unpack, file, b); }

int board_read_older(const char *file, board *b) { return read_by(board_unpack_older, file, b); }

int board_write(kept *k, const board *b)
{
    static uint8_t bytes[BOARD_MOST];
    return keep_write(k, bytes, board_pack(b, bytes));
}

const uint8_t *board_text(const board *b, size_t slot)
{
    return b->area + slot * ESK_COMMAND_BYTES;
}

size_t board_used(const board *b)
{
    size_t used = 0;
    for (size_t i = 0; i < b->n; i++)
        used += b->slots[i].length != 0;
    return used;
}
