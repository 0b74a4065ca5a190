#include "board.h"
#include "json.h"
#include "mark.h"
#include "settings.h"

#include <stdio.h>
#include <string.h>

/* Used slots of a board in rising order of designator: those from place `from` of its list up to `to`. */
typedef struct part {
    uint8_t list[ESK_BOARD_SLOTS];
    size_t from, to;
} part;

/* The used slots of a valid board, all of them. */
static part all_of(const board *b)
{
    part all;
    (void)esk_tails_make(b->slots, b->n, all.list, b->n);
    all.from = 0;
    all.to = board_used(b);
    return all;
}

static void list_slots(const board *b, const part *which)
{
    for (size_t at = which->from; at < which->to; at++) {
        size_t i = which->list[at];
        const esk_slot *s = &b->slots[i];
        printf("  slot %2lu  %.6s  %3d bytes  %.*s\n", (unsigned long)i + 1, (const char *)s->designator, s->length,
               s->length, (const char *)board_text(b, i));
    }
}

static void json_slots(const board *b, const part *which)
{
    json_list("waiting");
    for (size_t at = which->from; at < which->to; at++) {
        size_t i = which->list[at];
        json_object(NULL);
        json_number("slot", (long long)i + 1);
        json_text("designator", b->slots[i].designator, 6);
        json_number("length", b->slots[i].length);
        json_text("text", board_text(b, i), b->slots[i].length);
        json_close();
    }
    json_close();
}

/* A reader needs no lock: it sees the old file or the new one. */
int board_look(const char *file, int lists)
{
    static board b;
    char name[NAME_ROOM];
    int status = board_read(file, &b);
    if (status != FINE)
        return status;
    part all = all_of(&b);
    if (as_json) {
        json_object(NULL);
        json_bool("accepted", 1);
        json_number("code", ESK_ACCEPTED);
        json_number("slots", (long long)b.n);
        json_number("used", (long long)board_used(&b));
        if (lists)
            json_slots(&b, &all);
        json_close();
        return FINE;
    }
    printf("%s: valid, %lu of %lu slots used\n", name_safely(file, name, sizeof name), (unsigned long)board_used(&b),
           (unsigned long)b.n);
    if (lists)
        list_slots(&b, &all);
    return FINE;
}

/*
 * The part of the list whose designators begin so. The first of them is found by bisecting for the least designator that
 * begins so: '0' comes before every other byte of a designator.
 */
static int part_of(const board *b, const char *prefix, part *which)
{
    char least[7];
    int status = prefix_status(prefix, least);
    if (status != FINE)
        return status;
    *which = all_of(b);
    size_t used = which->to;
    which->from = esk_tails_find(b->slots, b->n, which->list, b->n, (const uint8_t *)least, 6).at;
    which->to = which->from;
    while (which->to < used && memcmp(b->slots[which->list[which->to]].designator, prefix, strlen(prefix)) == 0)
        which->to++;
    return FINE;
}

int board_find(const char *file, const char *prefix)
{
    static board b;
    part which;
    int status = board_read(file, &b);
    if (status == FINE)
        status = part_of(&b, prefix, &which);
    if (status != FINE)
        return status;
    if (!as_json) {
        list_slots(&b, &which);
        return FINE;
    }
    json_object(NULL);
    json_bool("accepted", 1);
    json_number("code", ESK_ACCEPTED);
    json_word("prefix", prefix);
    json_number("found", (long long)(which.to - which.from));
    json_slots(&b, &which);
    json_close();
    return FINE;
}

/* The slot of an aircraft that something waits for. */
static size_t slot_of(const board *b, const char *designator)
{
    part all = all_of(b);
    return esk_tails_find(b->slots, b->n, all.list, b->n, (const uint8_t *)designator, 6).slot;
}

void tell_waiting(size_t slot, const char *designator, const uint8_t *text, size_t length)
{
    esk_command command = esk_command_read(text, length).command;
    if (!as_json) {
        if (slot > 0)
            printf("slot %lu  ", (unsigned long)slot);
        printf("%s  %lu bytes  %.*s\n", designator, (unsigned long)length, (int)length, (const char *)text);
        say_command(&command);
        return;
    }
    json_object(NULL);
    json_bool("accepted", 1);
    json_number("code", ESK_ACCEPTED);
    if (slot > 0)
        json_number("slot", (long long)slot);
    json_word("designator", designator);
    json_number("length", (long long)length);
    json_text("text", text, length);
    json_command(&command);
    json_close();
}

/* What waits for one aircraft, in words. What is taken of the board that was read still waits in the file. */
int board_look_at(const char *file, const char *designator)
{
    static board b, copy;
    uint8_t text[ESK_COMMAND_BYTES];
    size_t length = 0;
    int status = board_read(file, &b);
    copy = b;
    if (status == FINE)
        status = board_take(&copy, designator, text, &length);
    if (status == FINE)
        tell_waiting(slot_of(&b, designator) + 1, designator, text, length);
    return status;
}
