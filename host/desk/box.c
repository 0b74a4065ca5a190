#include "box.h"

#include <stdio.h>
#include <string.h>

/* What stands before the north edge, and between the edges, in each spelling; and before the east edge of a box that goes
 * over the date line, where that is told. */
static const struct spelling {
    const char *before[4], *over;
} spellings[] = {
    {{"", "-", ",", "-"}, NULL},
    {{"", " to ", ", ", " to "}, " eastward over the date line to "},
    {{"from ", " down to ", ", from ", " east to "}, " eastward over the date line to "},
};

static int east_of_greenwich(const esk_edge *e)
{
    return e->letter == 'W' ? -e->degrees : e->degrees;
}

/* Whether a box goes over the date line: its first longitude is above its second. */
static int is_over(const esk_region *r)
{
    return east_of_greenwich(&r->west) > east_of_greenwich(&r->east);
}

void name_edge(const esk_edge *e, char to[EDGE_ROOM])
{
    snprintf(to, EDGE_ROOM, "%d%c", e->degrees, e->letter);
}

void name_box(const esk_region *r, box_spelling as, char to[BOX_ROOM])
{
    const esk_edge *const edges[] = {&r->north, &r->south, &r->west, &r->east};
    const char *over = is_over(r) ? spellings[as].over : NULL;
    size_t at = 0;
    for (int i = 0; i < 4; i++) {
        char edge[EDGE_ROOM];
        name_edge(edges[i], edge);
        at += (size_t)snprintf(to + at, BOX_ROOM - at, "%s%s", i == 3 && over ? over : spellings[as].before[i], edge);
    }
}

static int is_letter(char byte)
{
    return (byte >= 'A' && byte <= 'Z') || (byte >= 'a' && byte <= 'z');
}

const char *edge_at(const char *at, esk_edge *to)
{
    const char *from = at;
    unsigned degrees = 0;
    for (; *at >= '0' && *at <= '9'; at++)
        degrees = degrees > UINT8_MAX ? degrees : 10 * degrees + (unsigned)(*at - '0');
    if (at == from || !is_letter(*at))
        return NULL;
    to->degrees = (uint8_t)(degrees > UINT8_MAX ? UINT8_MAX : degrees);
    to->letter = (uint8_t)*at;
    return at + 1;
}

/* A box in one spelling, with its words for the date line or without. Only a box that goes over it is told so. */
static int is_spelt(const char *at, const struct spelling *as, int over, esk_region *to)
{
    esk_edge *const edges[] = {&to->north, &to->south, &to->west, &to->east};
    for (int i = 0; i < 4; i++) {
        const char *before = i == 3 && over ? as->over : as->before[i];
        size_t length = strlen(before);
        if (strncmp(at, before, length) != 0)
            return 0;
        at = edge_at(at + length, edges[i]);
        if (at == NULL)
            return 0;
    }
    return *at == 0 && (!over || is_over(to));
}

int box_of(const char *word, esk_region *to)
{
    for (size_t i = 0; i < sizeof spellings / sizeof *spellings; i++)
        if (is_spelt(word, &spellings[i], 0, to) || (spellings[i].over && is_spelt(word, &spellings[i], 1, to)))
            return 1;
    return 0;
}
