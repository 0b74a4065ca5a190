#include "box.h"
#include "command_names.h"
#include "json.h"
#include "settings.h"

void json_flags(const char *key, const esk_settings *s)
{
    json_object(key);
    for (int i = 0; i < FLAGS; i++)
        json_number(figure_names[i].key, s->flags[i]);
    json_close();
}

static void json_edge(const char *key, const esk_edge *edge)
{
    char word[EDGE_ROOM];
    name_edge(edge, word);
    json_word(key, word);
}

static void json_boxes(const char *key, const esk_boxes *boxes)
{
    json_list(key);
    for (int i = 0; i < boxes->count; i++) {
        json_object(NULL);
        json_edge("north", &boxes->regions[i].north);
        json_edge("south", &boxes->regions[i].south);
        json_edge("west", &boxes->regions[i].west);
        json_edge("east", &boxes->regions[i].east);
        json_close();
    }
    json_close();
}

static void json_airfields(const char *key, const esk_airfields *list)
{
    json_list(key);
    for (int i = 0; i < list->count; i++)
        json_text(NULL, list->names + 4 * i, 4);
    json_close();
}

void json_section(const char *key, const esk_settings *s, int k)
{
    esk_command c = {.settings = *s};
    json_object(key);
    for (int i = 0; i < LIST_NAMES; i++)
        if (list_names[i].section == k) {
            if (k == 2)
                json_boxes(list_names[i].key, boxes_of(&c, &list_names[i]));
            else
                json_airfields(list_names[i].key, airfields_of(&c, &list_names[i]));
        }
    for (int i = 0; i < FIGURE_NAMES; i++)
        if (figure_names[i].section == k)
            json_number(figure_names[i].key, get_named(&c, &figure_names[i]) * figure_names[i].step);
    json_close();
}

void json_command(const esk_command *c)
{
    char key[2] = "0";
    json_flags("flags", &c->settings);
    json_number("downlink", c->downlink);
    json_object("sections");
    for (int k = 2; k <= 9; k++)
        if (c->named[k - 2]) {
            key[0] = (char)('0' + k);
            json_section(key, &c->settings, k);
        }
    json_close();
}
