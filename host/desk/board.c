#include "board.h"

#include <string.h>

int board_create(const char *file, long slots, long wait)
{
    static board empty;
    static uint8_t packed[BOARD_MOST];
    empty.n = (size_t)slots;
    return keep_new(file, packed, board_pack(&empty, packed), NULL, wait);
}

int board_convert(const char *from, const char *to, board *b, long wait)
{
    static uint8_t packed[BOARD_MOST];
    kept k;
    int status = board_read_older(from, b); /* what is no sound board gets no lock file beside it */
    if (status != FINE)
        return status;
    status = keep_hold(&k, from, wait);
    if (status == FINE)
        status = board_read_older(from, b);
    if (status == FINE)
        status = keep_new(to, packed, board_pack(b, packed), from, wait);
    keep_release(&k);
    return status;
}

int board_hold(kept *k, board *b, const char *file, long wait)
{
    k->locked = -1;
    int status = board_read(file, b); /* what is no sound board gets no lock file beside it */
    if (status == FINE)
        status = keep_hold(k, file, wait);
    if (status == FINE)
        status = keep_may_replace(k);
    return status == FINE ? board_read(file, b) : status;
}

int board_grow(board *b, const char *file, long slots)
{
    size_t n = (size_t)slots, had = b->n;
    if (n < had)
        return trouble(file, "%lu slots are fewer than the %lu that it has; a board is not made smaller", (unsigned long)n,
                       (unsigned long)had);
    memset(b->slots + had, 0, (n - had) * sizeof *b->slots);
    memset(b->area + had * ESK_COMMAND_BYTES, 0, (n - had) * ESK_COMMAND_BYTES);
    b->n = n;
    esk_answer a = esk_board_check(b->slots, b->n, b->area, b->n * ESK_COMMAND_BYTES);
    return a.code == ESK_ACCEPTED ? FINE : refuse_plain(file, A_BOARD, a.code, NULL);
}

static const uint8_t *bytes(const char *word)
{
    return (const uint8_t *)word;
}

/* Whether it is a designator; a refusal shows what was typed. A taking answers 4 before it looks whether anything waits,
 * also of a board without slots. */
static int status_of(const char *designator, const char *what, const char *typed)
{
    size_t length = strlen(typed);
    origin from = {NULL, what, 0, 0};
    esk_answer a = esk_board_take(NULL, 0, NULL, 0, bytes(designator), strlen(designator), NULL, 0);
    return a.code == ESK_BYTE ? refuse(&from, A_DESIGNATOR, a, bytes(typed), length, length) : FINE;
}

int designator_status(const char *designator)
{
    return status_of(designator, "designator", designator);
}

/* '0' comes before every other byte of a designator, so that a prefix is filled up with it. */
int prefix_status(const char *prefix, char least[7])
{
    size_t length = strlen(prefix);
    memcpy(least, "000000", 7);
    if (length > 6)
        return trouble("find", "a designator has six letters or digits; give no more of it");
    memcpy(least, prefix, length);
    return status_of(least, "prefix", prefix);
}

int board_add(board *b, const char *designator, const uint8_t *text, size_t length, size_t *waiting)
{
    if (designator_status(designator) != FINE)
        return REFUSED;
    esk_answer a = esk_board_add(b->slots, b->n, b->area, b->n * ESK_COMMAND_BYTES, bytes(designator),
                                 strlen(designator), text, length);
    *waiting = a.length;
    return a.code == ESK_ACCEPTED ? FINE : refuse_plain(designator, A_BOARD, a.code, NULL);
}

/* A taking. A refusal is told, but for the code `quiet`. */
static int take(board *b, const char *designator, uint8_t *out, size_t *length, unsigned quiet)
{
    if (designator_status(designator) != FINE)
        return REFUSED;
    esk_answer a = esk_board_take(b->slots, b->n, b->area, b->n * ESK_COMMAND_BYTES, bytes(designator),
                                  strlen(designator), out, ESK_COMMAND_BYTES);
    *length = a.length;
    return a.code == ESK_ACCEPTED || a.code == quiet ? FINE : refuse_plain(designator, A_BOARD, a.code, NULL);
}

int board_take(board *b, const char *designator, uint8_t *out, size_t *length)
{
    return take(b, designator, out, length, ESK_ACCEPTED);
}

int board_waiting(board *b, const char *designator, uint8_t *out, size_t *length)
{
    return take(b, designator, out, length, ESK_NOTHING);
}

int board_return(board *b, const char *designator, const uint8_t *text, size_t length, size_t *waiting)
{
    uint8_t later[ESK_COMMAND_BYTES], both[ESK_COMMAND_BYTES];
    size_t came = 0;
    int status = board_waiting(b, designator, later, &came);
    if (status != FINE)
        return status;
    if (came == 0)
        return board_add(b, designator, text, length, waiting);
    esk_answer a = esk_join(text, length, later, came, both, sizeof both);
    if (a.code != ESK_ACCEPTED)
        return refuse_plain(designator, A_COMMAND, a.code, NULL);
    return board_add(b, designator, both, a.length, waiting);
}
