#include "compose.h"

#include "columns.h"
#include "mark.h"
#include "places.h"
#include "tell.h"

#include <string.h>

enum { OBSERVATIONS = 8, KEYS_MOST = 40 };

/* The keys of an observation: `present`, and the columns that are its own. */
typedef struct observation_keys {
    const char *keys[KEYS_MOST];
    int count;
} observation_keys;

static observation_keys all_keys(void)
{
    observation_keys k;
    memset(&k, 0, sizeof k);
    k.keys[k.count++] = "present";
    for (int i = first_own_column; i < columns_count; i++)
        k.keys[k.count++] = columns[i].name;
    return k;
}

/* Whether a column is a figure of the record's own, in this observation; else it follows from others. */
static int is_own_figure(const column *c, int number)
{
    return c->from == FROM_FIGURE || (c->from == FROM_TRACK && number == 1) || (c->from == FROM_CHANGE && number > 1);
}

static int is_needed(const column *c, int number)
{
    return c->from == FROM_KIND || c->from == FROM_QUALITY || is_own_figure(c, number);
}

static int read_byte(json_in *in, uint8_t *to)
{
    char byte[1];
    size_t length;
    if (!json_in_string(in, byte, 1, &length))
        return 0;
    *to = (uint8_t)byte[0];
    return length == 1 ? 1 : json_in_wrong(in, "a text of one byte is due");
}

static int read_figure(json_in *in, const column *c, esk_observation *o)
{
    esk_figure figure = {0, 0};
    long number;
    if (!json_in_null(in)) {
        if (!json_in_number(in, c->places, c->step, &number))
            return 0;
        figure.given = 1;
        figure.number = (int32_t)number;
    }
    set_figure(o, c->figure, figure);
    return 1;
}

static int read_count(json_in *in, int number)
{
    long count;
    if (!json_in_number(in, 0, 1, &count))
        return 0;
    return count == number ? 1 : json_in_wrong(in, "observation %ld stands where %d is due", count, number);
}

static int read_column(json_in *in, const column *c, int number, esk_observation *o)
{
    if (c->from == FROM_NUMBER)
        return read_count(in, number);
    if (c->from == FROM_KIND)
        return read_byte(in, &o->kind);
    if (c->from == FROM_QUALITY)
        return read_byte(in, &o->quality);
    if (is_own_figure(c, number))
        return read_figure(in, c, o);
    if (c->from == FROM_CHANGE)
        return json_in_wrong(in, "the first observation has no %s", c->name);
    return json_in_skip(in);
}

static int read_observation(json_in *in, int number, esk_observation *o)
{
    observation_keys k = all_keys();
    unsigned long long seen = 0;
    int key, yes = 1, fine = json_in_object(in);
    json_place begin = in->value;
    while (fine && (key = json_in_key(in, k.keys, &seen)) >= 0)
        fine = key == 0 ? json_in_bool(in, &yes) : read_column(in, &columns[first_own_column + key - 1], number, o);
    if (in->status != FINE)
        return 0;
    o->present = (uint16_t)yes;
    for (int i = 1; i < k.count && yes; i++)
        if (!(seen >> i & 1) && is_needed(&columns[first_own_column + i - 1], number))
            return json_in_wrong_at(in, begin, "observation %d lacks %s; a missing figure is null", number, k.keys[i]);
    return 1;
}

int read_observations(json_in *in, esk_report *to)
{
    unsigned long items = 0;
    if (!json_in_list(in))
        return 0;
    json_place begin = in->value;
    while (json_in_item(in, &items)) {
        if (items > OBSERVATIONS)
            return json_in_wrong(in, "a report has %d observations at most", OBSERVATIONS);
        if (!read_observation(in, (int)items, items == 1 ? &to->first : &to->later[items - 2]))
            return 0;
    }
    if (in->status == FINE && items == 0)
        return json_in_wrong_at(in, begin, "a report has an observation at least");
    return in->status == FINE;
}

/* What stood at a field of the record, and what may. */
static void word_fault(const esk_report *r, esk_answer a, char *to, size_t room)
{
    const uint8_t *const names[] = {r->departure, r->arrival, NULL, NULL, r->designator, NULL};
    size_t observation, number;
    const char *range = find_report_field(a.place, &observation, &number);
    const esk_observation *o = observation < 2 ? &r->first : &r->later[observation - 2];
    if (a.code == ESK_RANGE && observation > 0 && number > 0 && number <= FIGURES)
        snprintf(to, room, "%ld is not %s", (long)get_figure(o, (int)number - 1).number, range ? range : "-800 to 799");
    else if (a.code == ESK_DISAGREE && observation > 0 && number == 7)
        snprintf(to, room, "wind direction and wind speed are both given or both null");
    else if (a.code == ESK_DISAGREE && observation > 0 && number == 0)
        snprintf(to, room, "an absent observation has no figures, and none that is present comes behind it");
    else if (a.code == ESK_BYTE && range != NULL) {
        const uint8_t *bytes = observation == 0 ? names[number] : number == 0 ? &o->kind : &o->quality;
        size_t at = name_bytes(bytes, observation > 0 ? 1 : number < 2 ? 4 : 6, to, room);
        snprintf(to + at, room - at, " is not %s", range);
    }
}

int write_report(const esk_report *r, const char *where, uint8_t out[ESK_REPORT_BYTES])
{
    char field[96], because[200] = "";
    esk_answer a = esk_report_write(*r, out, ESK_REPORT_BYTES);
    if (a.code == ESK_ACCEPTED)
        return FINE;
    name_place(A_REPORT, NULL, ESK_REPORT_BYTES, a.place, field, sizeof field);
    word_fault(r, a, because, sizeof because);
    return refuse_record(where, A_REPORT, a, field, because);
}
