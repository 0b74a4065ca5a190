#include "compose.h"

#include "box.h"
#include "draft.h"
#include "settings.h"
#include "tell.h"

#include <string.h>

/* The keys of an object. Those behind RESULT_KEYS say where its text came from, or follow from the others: they are
 * passed over. */
enum {
    RESULTS, ACCEPTED, FAILURE,                   /* of any */
    FLAGS_KEY, DOWNLINK, SECTIONS,                /* of a command */
    DEPARTURE, ARRIVAL, DESIGNATOR, OBSERVATIONS, /* of a report */
    RESULT_KEYS
};

static const char *const object_keys[] = {
    "results",    "accepted", "error",   "flags", "downlink", "sections", "departure", "arrival",
    "designator", "observations",                                                      /* RESULT_KEYS */
    "subcommand", "status",   "about",   "file",  "line",     "command",  "report",    "offset",
    "code",       "place",    "meaning", "field", "because",  "length",   "text",      "slot",
    NULL,
};

/* An object as it is read. */
typedef struct object {
    unsigned long long seen;
    int accepted;
    draft d;
    esk_report r;
    json_place begin;
    char where[NAME_ROOM + 64];
} object;

static int has(const object *o, int key)
{
    return o->seen >> key & 1;
}

static int read_flags(json_in *in, draft *d)
{
    const char *keys[FLAGS + 1] = {NULL};
    unsigned long long seen = 0;
    int i;
    long value;
    for (i = 0; i < FLAGS; i++)
        keys[i] = figure_names[i].key;
    if (!json_in_object(in))
        return 0;
    while ((i = json_in_key(in, keys, &seen)) >= 0 && json_in_number(in, 0, 1, &value))
        draft_figure(d, i, value);
    return in->status == FINE;
}

/* An edge of a box, a string as "60N". */
static int read_edge(json_in *in, esk_edge *to)
{
    char word[8] = "";
    size_t length;
    if (!json_in_string(in, word, sizeof word - 1, &length))
        return 0;
    const char *end = length < sizeof word ? edge_at(word, to) : NULL;
    return end != NULL && *end == 0 ? 1 : json_in_wrong(in, "an edge is degrees and a letter, as 60N");
}

static int read_box(json_in *in, esk_region *box)
{
    static const char *const keys[] = {"north", "south", "west", "east", NULL};
    esk_edge *const edges[] = {&box->north, &box->south, &box->west, &box->east};
    unsigned long long seen = 0;
    int i;
    if (!json_in_object(in))
        return 0;
    json_place begin = in->value;
    while ((i = json_in_key(in, keys, &seen)) >= 0 && read_edge(in, edges[i]))
        ;
    if (in->status != FINE)
        return 0;
    return seen == 15 ? 1 : json_in_wrong_at(in, begin, "a box has north, south, west and east");
}

static int read_airfield(json_in *in, char name[4])
{
    size_t length;
    if (!json_in_string(in, name, 4, &length))
        return 0;
    return length == 4 ? 1 : json_in_wrong(in, "an airfield has four letters or digits");
}

static int read_list(json_in *in, draft *d, int list)
{
    unsigned long items = 0;
    esk_region box;
    char name[4];
    if (!json_in_list(in))
        return 0;
    draft_list(d, list);
    while (json_in_item(in, &items))
        if (list < BOX_LISTS && read_box(in, &box))
            draft_box(d, list, &box);
        else if (list >= BOX_LISTS && read_airfield(in, name))
            draft_airfield(d, list, name);
    return in->status == FINE;
}

/* The lists and figures of section k, and their keys. */
typedef struct section_keys {
    const char *keys[16];
    int lists[16], figures[16]; /* -1: it is none */
    int count;
} section_keys;

static section_keys keys_of(int k)
{
    section_keys s;
    memset(&s, 0, sizeof s);
    for (int i = 0; i < LIST_NAMES + FIGURE_NAMES; i++) {
        int list = i < LIST_NAMES ? i : -1, figure = i < LIST_NAMES ? -1 : i - LIST_NAMES;
        if ((list >= 0 ? list_names[list].section : figure_names[figure].section) != k)
            continue;
        s.keys[s.count] = list >= 0 ? list_names[list].key : figure_names[figure].key;
        s.lists[s.count] = list;
        s.figures[s.count++] = figure;
    }
    return s;
}

/* A section is replaced whole, so all its keys are due. */
static int read_section(json_in *in, draft *d, int k)
{
    section_keys s = keys_of(k);
    unsigned long long seen = 0;
    int i, fine = json_in_object(in);
    json_place begin = in->value;
    while (fine && (i = json_in_key(in, s.keys, &seen)) >= 0) {
        long value;
        if (s.lists[i] >= 0)
            fine = read_list(in, d, s.lists[i]);
        else if ((fine = json_in_number(in, 0, figure_names[s.figures[i]].step, &value)))
            draft_figure(d, s.figures[i], value * figure_names[s.figures[i]].step);
    }
    for (i = 0; i < s.count && in->status == FINE; i++)
        if (!(seen >> i & 1))
            return json_in_wrong_at(in, begin, "section %d, which is replaced whole, lacks %s", k, s.keys[i]);
    return in->status == FINE;
}

static int read_sections(json_in *in, draft *d)
{
    static const char *const keys[] = {"2", "3", "4", "5", "6", "7", "8", "9", NULL};
    unsigned long long seen = 0;
    int i;
    if (!json_in_object(in))
        return 0;
    while ((i = json_in_key(in, keys, &seen)) >= 0 && read_section(in, d, keys[i][0] - '0'))
        ;
    return in->status == FINE;
}

/* A name of a report, which has so many bytes. */
static int read_name(json_in *in, uint8_t *to, size_t bytes)
{
    char name[8];
    size_t length;
    if (!json_in_string(in, name, bytes, &length))
        return 0;
    if (length != bytes)
        return json_in_wrong(in, "a text of %lu bytes is due", (unsigned long)bytes);
    memcpy(to, name, bytes);
    return 1;
}

static int read_downlink(json_in *in, draft *d)
{
    long value;
    if (!json_in_number(in, 0, 1, &value))
        return 0;
    draft_figure(d, FLAGS, value);
    return 1;
}

/* The value of a key, of one object. */
static int read_value(json_in *in, object *o, int key)
{
    switch (key) {
    case ACCEPTED: return json_in_bool(in, &o->accepted);
    case FLAGS_KEY: return read_flags(in, &o->d);
    case DOWNLINK: return read_downlink(in, &o->d);
    case SECTIONS: return read_sections(in, &o->d);
    case DEPARTURE: return read_name(in, o->r.departure, sizeof o->r.departure);
    case ARRIVAL: return read_name(in, o->r.arrival, sizeof o->r.arrival);
    case DESIGNATOR: return read_name(in, o->r.designator, sizeof o->r.designator);
    case OBSERVATIONS: return read_observations(in, &o->r);
    default: return json_in_skip(in);
    }
}

/* A whole report's object is there. */
static int write_object_report(json_in *in, const object *o)
{
    uint8_t out[ESK_REPORT_BYTES];
    for (int key = DEPARTURE; key <= OBSERVATIONS; key++)
        if (!has(o, key)) {
            json_in_wrong_at(in, o->begin, "a report's object lacks %s", object_keys[key]);
            return in->status;
        }
    int status = write_report(&o->r, o->where, out);
    if (status == FINE)
        tell_composed(out, sizeof out, 1);
    return status;
}

/* An object was read: what it is of is written. */
static int write_object(json_in *in, const object *o)
{
    uint8_t text[ESK_COMMAND_BYTES];
    size_t length;
    int command = has(o, FLAGS_KEY) || has(o, DOWNLINK) || has(o, SECTIONS);
    int report = has(o, DEPARTURE) || has(o, ARRIVAL) || has(o, OBSERVATIONS);
    if (!o->accepted || has(o, FAILURE)) {
        trouble(o->where, "this tells of something that was refused; nothing is made of it");
        return REFUSED;
    }
    if (command && !report) {
        int status = draft_write(&o->d, text, &length);
        if (status == FINE)
            tell_composed(text, length, 0);
        return status;
    }
    if (report && !command)
        return write_object_report(in, o);
    in->status = trouble(o->where, "an object of one command or one report is due");
    return TROUBLE;
}

/* One object; at the top it may be a document, whose results are read one by one. */
static int read_object(json_in *in, int at_top)
{
    object o;
    int key, status = FINE, fine = json_in_object(in);
    memset(&o, 0, sizeof o);
    o.accepted = 1;
    o.d = draft_begin(o.where);
    o.begin = in->value;
    snprintf(o.where, sizeof o.where, "%s, line %lu, column %lu", in->name, o.begin.line, o.begin.column);
    while (fine && (key = json_in_key(in, object_keys, &o.seen)) >= 0) {
        unsigned long items = 0;
        if (key != RESULTS)
            fine = read_value(in, &o, key);
        else if (!at_top)
            fine = json_in_wrong(in, "results within results");
        else if ((fine = json_in_list(in)))
            while (json_in_item(in, &items) && !ferror(stdout))
                status = worse(status, read_object(in, 0));
    }
    if (in->status != FINE || (at_top && !json_in_end(in)))
        return TROUBLE;
    if (has(&o, RESULTS) && !(o.seen & ((1ULL << RESULT_KEYS) - 2)))
        return status;
    return worse(status, write_object(in, &o));
}

int compose_json(const char *file)
{
    int is_stdin = strcmp(file, "-") == 0, status = FINE;
    const char *name = is_stdin ? "standard input" : file;
    FILE *from = is_stdin ? stdin : fopen(file, "rb");
    unsigned long objects = 0;
    json_in in;
    if (from == NULL)
        return failed(name, "open");
    for (json_in_begin(&in, from, name); json_in_more(&in) && !ferror(stdout); objects++)
        status = worse(status, read_object(&in, 1));
    status = worse(status, in.status);
    if (objects == 0 && status == FINE)
        status = trouble(name, "empty: there is no object in it");
    if (!is_stdin)
        fclose(from);
    return status;
}
