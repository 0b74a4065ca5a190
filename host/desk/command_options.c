#include "box.h"
#include "command_names.h"

#include <stdio.h>
#include <string.h>

enum { NO_CHANGE = 9 };

/* Whether a figure says something: a flag that is set, a downlink that is asked for, a section that is named. */
static int says(const esk_command *c, const figure_name *f)
{
    if (f->section > 0)
        return c->named[f->section - 2] != 0;
    return get_named(c, f) != (strcmp(f->key, "downlink") == 0 ? 0 : NO_CHANGE);
}

static void write_figure(const esk_command *c, const figure_name *f)
{
    if (strcmp(f->key, "end_hour") == 0)
        return; /* it is written with the start */
    if (f->section == 9)
        printf(" %s %02d-%02d", f->option, c->settings.hours.start, c->settings.hours.end);
    else if (f->words)
        printf(" %s %s", f->option, word_of_value(f->words, get_named(c, f)));
    else
        printf(" %s %ld", f->option, get_named(c, f) * f->step);
}

static void write_boxes(const char *name, const esk_boxes *boxes)
{
    char box[BOX_ROOM];
    if (boxes->count == 0)
        printf(" %s none", name);
    for (int i = 0; i < boxes->count; i++) {
        name_box(&boxes->regions[i], BOX_TYPED, box);
        printf(" %s %s", name, box);
    }
}

static void write_airfields(const char *name, const esk_airfields *list)
{
    printf(" %s %s", name, list->count == 0 ? "none" : "");
    for (int i = 0; i < list->count; i++)
        printf("%s%.4s", i ? "," : "", (const char *)list->names + 4 * i);
}

void write_options(const esk_command *command)
{
    esk_command c = *command;
    int written = 0;
    printf("eskelvor compose");
    for (int i = 0; i < FIGURE_NAMES; i++)
        if (says(&c, &figure_names[i])) {
            write_figure(&c, &figure_names[i]);
            written++;
        }
    for (int i = 0; i < LIST_NAMES; i++)
        if (c.named[list_names[i].section - 2]) {
            if (i < BOX_LISTS)
                write_boxes(list_names[i].option, boxes_of(&c, &list_names[i]));
            else
                write_airfields(list_names[i].option, airfields_of(&c, &list_names[i]));
            written++;
        }
    puts(written ? "" : " --amdar no-change");
}
