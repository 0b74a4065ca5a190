#include "draft.h"

#include "box.h"
#include "mark.h"
#include "places.h"
#include "tell.h"
#include "settings.h"

#include <stdio.h>
#include <string.h>

enum { NO_CHANGE = 9, BOXES_MOST = 16, AIRFIELDS_MOST = 20 };

draft draft_begin(const char *where)
{
    draft d;
    memset(&d, 0, sizeof d);
    memset(d.command.settings.flags, NO_CHANGE, sizeof d.command.settings.flags);
    d.where = where;
    return d;
}

static void name_section(draft *d, int k)
{
    if (k > 0)
        d->command.named[k - 2] = (uint8_t)k;
}

void draft_figure(draft *d, int figure, long number)
{
    const figure_name *f = &figure_names[figure];
    d->given[figure] = 1;
    d->numbers[figure] = number;
    set_named(&d->command, f, number < 0 ? -1 : number / f->step);
    name_section(d, f->section);
}

void draft_list(draft *d, int list)
{
    d->listed[list] = 1;
    name_section(d, list_names[list].section);
}

void draft_box(draft *d, int list, const esk_region *box)
{
    esk_boxes *boxes = boxes_of(&d->command, &list_names[list]);
    draft_list(d, list);
    if (boxes->count < BOXES_MOST)
        boxes->regions[boxes->count] = *box;
    if (boxes->count < UINT8_MAX)
        boxes->count++;
}

void draft_airfield(draft *d, int list, const char name[4])
{
    esk_airfields *names = airfields_of(&d->command, &list_names[list]);
    draft_list(d, list);
    if (names->count < AIRFIELDS_MOST)
        memcpy(names->names + 4 * names->count, name, 4);
    if (names->count < UINT8_MAX)
        names->count++;
}

void draft_fill(draft *d, const esk_settings *rest)
{
    esk_command from = {.settings = *rest};
    for (int i = 0; i < FIGURE_NAMES; i++) {
        const figure_name *f = &figure_names[i];
        if (f->section > 0 && d->command.named[f->section - 2] && !d->given[i])
            draft_figure(d, i, get_named(&from, f) * f->step);
    }
    for (int i = 0; i < LIST_NAMES; i++) {
        const list_name *l = &list_names[i];
        if (!d->command.named[l->section - 2] || d->listed[i])
            continue;
        draft_list(d, i);
        if (i < BOX_LISTS)
            *boxes_of(&d->command, l) = *boxes_of(&from, l);
        else
            *airfields_of(&d->command, l) = *airfields_of(&from, l);
    }
}

int draft_lacks(const draft *d)
{
    for (int i = 0; i < FIGURE_NAMES; i++) {
        int k = figure_names[i].section;
        if (k > 0 && d->command.named[k - 2] && !d->given[i])
            return i;
    }
    return -1;
}

/* Which figure a place is, or -1. */
static int figure_at(const record_place *at)
{
    for (int i = 0; i < FIGURE_NAMES && at->list == NULL; i++)
        if (figure_names[i].section == at->section && figure_names[i].place == at->offset)
            return i;
    return -1;
}

/* Which list a place is in, or -1. */
static int list_at(const record_place *at)
{
    for (int i = 0; i < LIST_NAMES && at->list != NULL; i++)
        if (list_names[i].section == at->section && strcmp(list_names[i].name, at->list) == 0)
            return i;
    return -1;
}

/* Of a box: the edge at fault and what may stand there; or that its latitudes disagree; or how zero is spelt. */
static void word_box(const esk_region *r, const record_place *at, unsigned code, char *to, size_t room)
{
    int latitude = at->offset < 6;
    const esk_edge *e = latitude ? &r->north : &r->west;
    if (at->offset == 3 || at->offset == 10)
        e = latitude ? &r->south : &r->east;
    char edge[EDGE_ROOM], box[BOX_ROOM];
    name_edge(e, edge);
    name_box(r, BOX_TYPED, box);
    if (code == ESK_SPELLING)
        snprintf(to, room, "%s: zero degrees are %s", edge, latitude ? "0N" : "0E");
    else if (code == ESK_DISAGREE)
        snprintf(to, room, "%s: the north edge, which comes first, is below the south edge", box);
    else
        snprintf(to, room, "%s is not %s", edge, latitude ? "0 to 90 and N or S" : "0 to 180 and E or W");
}

static void word_item(const draft *d, int list, const record_place *at, unsigned code, char *to, size_t room)
{
    esk_command c = d->command;
    const list_name *l = &list_names[list];
    if (at->item == 0) {
        int count = list < BOX_LISTS ? boxes_of(&c, l)->count : airfields_of(&c, l)->count;
        snprintf(to, room, "%d%s %s are given, and %d are the most", count, count == UINT8_MAX ? " or more" : "",
                 list < BOX_LISTS ? "boxes" : "airfields", list < BOX_LISTS ? BOXES_MOST : AIRFIELDS_MOST);
    } else if (list < BOX_LISTS)
        word_box(&boxes_of(&c, l)->regions[at->item - 1], at, code, to, room);
    else {
        size_t end = name_bytes(airfields_of(&c, l)->names + 4 * (at->item - 1), 4, to, room);
        snprintf(to + end, room - end, " is not four letters A to Z or digits");
    }
}

/* What is told to be at fault: the option, or the key, with its file and line. */
static void name_fault(const draft *d, int figure, int list, char *to, size_t room)
{
    int k = figure >= 0 ? figure_names[figure].section : list >= 0 ? list_names[list].section : 0;
    const char *option = figure >= 0 ? figure_names[figure].option : list >= 0 ? list_names[list].option : "compose";
    const char *key = figure >= 0 ? figure_names[figure].key : list >= 0 ? list_names[list].key : "";
    if (d->where == NULL)
        snprintf(to, room, "%s", option);
    else if (k > 0)
        snprintf(to, room, "%s, sections.%d.%s", d->where, k, key);
    else
        snprintf(to, room, "%s, %s%s", d->where, figure >= 0 && figure < FLAGS ? "flags." : "", key);
}

static int refuse_draft(const draft *d, esk_answer a)
{
    char about[NAME_ROOM], because[200] = "";
    record_place at;
    find_record_place(&d->command, a.place, &at);
    int figure = figure_at(&at), list = list_at(&at);
    name_fault(d, figure, list, about, sizeof about);
    if (figure >= 0)
        snprintf(because, sizeof because, "%ld is not %s", d->numbers[figure],
                 figure_names[figure].words ? at.range : figure_names[figure].range);
    else if (list >= 0)
        word_item(d, list, &at, a.code, because, sizeof because);
    return refuse_record(about, A_COMMAND, a, at.name, because);
}

int draft_write(const draft *d, uint8_t out[ESK_COMMAND_BYTES], size_t *length)
{
    esk_answer a = esk_command_write(&d->command, out, ESK_COMMAND_BYTES);
    *length = a.length;
    return a.code == ESK_ACCEPTED ? FINE : refuse_draft(d, a);
}
