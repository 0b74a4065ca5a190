#include "places.h"

#include "mark.h"

#include <stdio.h>
#include <string.h>

/* Room for a text whose lists have up to COUNTED_MOST items each, more than any that is accepted. */
enum { COUNTED_MOST = 20, SKETCH_ROOM = 22 + 2 * (2 + COUNTED_MOST * 14) + 4 * (2 + COUNTED_MOST * 4) + 64 };

enum { LINE_END = 2, LATER_BYTES = 23 }; /* the bytes of a CR LF, and of a later observation */

/* A field of a report: the bytes it has, and what may stand there. */
typedef struct field {
    size_t bytes;
    const char *name, *range; /* no range: nothing but the field's own bytes, or any figure that they hold */
    int packed;               /* the range is that of a packed figure */
} field;

#define AIRFIELD "four letters A to Z or digits"

static const field report_head[] = {
    {4, "departure", AIRFIELD, 0},
    {4, "arrival", AIRFIELD, 0},
    {2, "line end", NULL, 0},
    {6, "AMDAR3", NULL, 0},
    {6, "designator", "six letters A to Z or digits", 0},
    {2, "line end", NULL, 0},
};

/* What every observation ends with. */
#define FIGURES                                                                                               \
    {3, "altitude", "-100 to 6000 tens of feet", 1}, {2, "temperature", NULL, 1},                             \
        {2, "wind direction", "0 to 360 degrees", 1}, {2, "wind speed", "0 to 799 knots", 1},                 \
        {2, "gust", "0 to 799 tenths of a metre a second", 1},                                                \
        {3, "vapour", "0 to 31999 thousandths of a gram a kilogram", 1}, {1, "quality", "0 to 9 or /", 0}

static const field first_fields[] = {
    {1, "kind", "A, D, R, W, U or E", 0},
    {3, "latitude", "-5400 to 5400 minutes", 1},
    {3, "longitude", "-10800 to 10800 minutes", 1},
    {5, "time", "0 to 2678399 seconds", 1},
    FIGURES,
};

static const field later_fields[] = {
    {1, "kind", "A, D, R, W, U, E or /", 0},
    {2, "latitude change", NULL, 1},
    {2, "longitude change", NULL, 1},
    {3, "time since", "0 to 31999 seconds", 1},
    FIGURES,
};

/* A figure of a command: where its bytes stand in its section (0 is the head), and what may stand there. */
typedef struct figure {
    int section;
    size_t offset, width;
    const char *name, *range; /* no range: nothing but the figure's own bytes */
} figure;

static const figure figures[] = {
    {0, 0, 5, "AWR04", NULL},
    {0, 5, 1, "flag AMDAR", "0, 1 or 9"},
    {0, 6, 1, "flag inhibit hours", "0, 1 or 9"},
    {0, 7, 1, "flag regions", "0, 1 or 9"},
    {0, 8, 1, "flag airports", "0, 1 or 9"},
    {0, 9, 1, "flag ascent", "0, 1 or 9"},
    {0, 10, 1, "flag enroute", "0, 1 or 9"},
    {0, 11, 1, "flag descent", "0, 1 or 9"},
    {0, 12, 1, "downlink", "0, 1 or 2"},
    {0, 13, 1, "indicator E2", "0 or 2"},
    {0, 14, 1, "indicator E3", "0 or 3"},
    {0, 15, 1, "indicator E4", "0 or 4"},
    {0, 16, 1, "indicator E5", "0 or 5"},
    {0, 17, 1, "indicator E6", "0 or 6"},
    {0, 18, 1, "indicator E7", "0 or 7"},
    {0, 19, 1, "indicator E8", "0 or 8"},
    {0, 20, 1, "indicator E9", "0 or 9"},
    {0, 21, 1, "delimiter", NULL},
    {4, 0, 2, "interval", "01 to 60"},
    {4, 2, 1, "maximum wind", "0 or 1"},
    {4, 3, 1, "delimiter", NULL},
    {5, 0, 1, "mode", "0 or 1"},
    {5, 1, 2, "series 1 interval", "03 to 20"},
    {5, 3, 3, "series 1 duration", "030 to 600"},
    {5, 6, 2, "series 2 interval", "03 to 60"},
    {5, 8, 3, "total duration", "051 to 111"},
    {5, 11, 3, "top", "150 to 350"},
    {5, 14, 1, "list", "1 or 2"},
    {5, 15, 1, "timer", "0 or 1"},
    {5, 16, 1, "delimiter", NULL},
    {6, 0, 1, "routine", "0 or 1"},
    {6, 1, 1, "delimiter", NULL},
    {7, 0, 1, "mode", "0 or 1"},
    {7, 1, 3, "interval", "010 to 300"},
    {7, 4, 3, "top", "150 to 350"},
    {7, 7, 1, "list", "1 or 2"},
    {7, 8, 1, "timer", "0 or 1"},
    {7, 9, 1, "delimiter", NULL},
    {8, 0, 1, "routine", "0 or 1"},
    {8, 1, 1, "delimiter", NULL},
    {9, 0, 2, "start hour", "00 to 23"},
    {9, 2, 2, "end hour", "00 to 23"},
    {9, 4, 1, "delimiter", NULL},
};

/* What the lists of sections 2 and 3 are made of: a count, and as many items of these figures. */
static const figure box_figures[] = {
    {2, 0, 3, "north edge", "00 to 90 and N or S"},
    {2, 3, 3, "south edge", "00 to 90 and N or S"},
    {2, 6, 4, "west edge", "000 to 180 and E or W"},
    {2, 10, 4, "east edge", "000 to 180 and E or W"},
};

static const figure airfield_figures[] = {{3, 0, 4, "airfield", AIRFIELD}};

/* The lists of a section, in their order, with the counts' range, and what stands behind them. */
static const figure lists[] = {
    {2, 0, 2, "reporting boxes", "00 to 16"},   {2, 0, 2, "inhibiting boxes", "00 to 16"},
    {3, 0, 2, "ascent selected", "00 to 20"},   {3, 0, 2, "descent selected", "00 to 20"},
    {3, 0, 2, "ascent inhibited", "00 to 20"},  {3, 0, 2, "descent inhibited", "00 to 20"},
};

static const figure behind_lists[] = {
    {2, 0, 1, "delimiter", NULL}, {3, 0, 1, "routine", "0 or 1"}, {3, 1, 1, "delimiter", NULL},
};

#define COUNT(list) (sizeof(list) / sizeof *(list))

/* The field that holds the byte `place` of a run of fields, or NULL behind the last. `left` is then what it has from that
 * byte on. */
static const field *field_at(const field *fields, size_t count, size_t place, size_t *left)
{
    for (size_t i = 0; i < count; i++) {
        *left = fields[i].bytes - place;
        if (place < fields[i].bytes)
            return &fields[i];
        place -= fields[i].bytes;
    }
    return NULL;
}

/* The field of a report's place, and the number of its observation, 0 in the head. Observations stand two in a line: 24 +
 * 27 + 23 + 2 bytes to the end of the first, 23 + 23 + 2 in each after it. NULL is the line end behind two. */
static const field *report_field(size_t place, size_t *number, size_t *left)
{
    *number = 0;
    if (place < 24)
        return field_at(report_head, COUNT(report_head), place, left);
    *number = 1;
    if (place < 51)
        return field_at(first_fields, COUNT(first_fields), place - 24, left);
    *number = 2;
    if (place < 76)
        return field_at(later_fields, COUNT(later_fields), place - 51, left);
    size_t in_line = (place - 76) % 48;
    *number = 3 + (place - 76) / 48 * 2 + (in_line >= 23);
    return field_at(later_fields, COUNT(later_fields), in_line < 23 ? in_line : in_line - 23, left);
}

static void name_report_place(size_t place, char *to, size_t room)
{
    size_t number, left;
    const field *f = report_field(place, &number, &left);
    if (f == NULL)
        snprintf(to, room, "line end");
    else if (number == 0)
        snprintf(to, room, "%s", f->name);
    else
        snprintf(to, room, "%s of observation %lu", f->name, (unsigned long)number);
}

size_t report_field_end(size_t place, int whole_observation)
{
    size_t number, left;
    const field *f = report_field(place, &number, &left);
    return place + (f == NULL ? LINE_END : whole_observation ? LATER_BYTES : left);
}

/* The figure of a section that begins at an offset, or NULL. */
static const figure *figure_at(const figure *from, size_t count, int section, size_t offset)
{
    for (size_t i = 0; i < count; i++)
        if (from[i].section == section && from[i].offset == offset)
            return &from[i];
    return NULL;
}

/* A place of a command: its section, the figure that begins there or NULL, and the list and item that it stands in. */
typedef struct spot {
    int section; /* 0 the head, -1 behind the last delimiter */
    const figure *figure;
    const char *list; /* NULL: in none */
    size_t item;      /* from 1; 0 is the list's count */
} spot;

/* Sections 2 and 3: the lists before the place have been read, so that their counts are digits. */
static void find_in_lists(spot *s, const uint8_t *at, size_t offset)
{
    const figure *parts = s->section == 2 ? box_figures : airfield_figures;
    size_t count = s->section == 2 ? COUNT(box_figures) : COUNT(airfield_figures), size = s->section == 2 ? 14 : 4;
    for (size_t i = 0; i < COUNT(lists); i++) {
        if (lists[i].section != s->section)
            continue;
        if (offset < 2) {
            s->figure = offset == 0 ? &lists[i] : NULL;
            return;
        }
        size_t items = (size_t)(at[0] - '0') * 10 + (size_t)(at[1] - '0');
        if (offset - 2 < items * size) {
            s->list = lists[i].name;
            s->item = (offset - 2) / size + 1;
            s->figure = figure_at(parts, count, s->section, (offset - 2) % size);
            return;
        }
        at += 2 + items * size;
        offset -= 2 + items * size;
    }
    s->figure = figure_at(behind_lists, COUNT(behind_lists), s->section, offset);
}

/* The sections named stand one behind the other, and the only solidi before a place are the ones that end them. */
static spot find_spot(const uint8_t *text, size_t place)
{
    spot s = {place < 22 ? 0 : -1, NULL, NULL, 0};
    size_t ended = 0, named = 0, start = 0;
    for (size_t i = 21; i < place; i++)
        if (text[i] == '/') {
            ended++;
            start = i + 1;
        }
    for (int k = 2; k <= 9 && s.section < 0; k++)
        if (text[11 + k] != '0' && ++named == ended)
            s.section = k;
    if (s.section == 2 || s.section == 3)
        find_in_lists(&s, text + start, place - start);
    else
        s.figure = figure_at(figures, COUNT(figures), s.section, place - start);
    return s;
}

static void name_command_place(const uint8_t *text, size_t place, char *to, size_t room)
{
    spot s = find_spot(text, place);
    const char *name = s.figure ? s.figure->name : NULL;
    if (s.section < 0)
        snprintf(to, room, BEHIND_THE_LAST);
    else if (s.section == 0)
        snprintf(to, room, "%s", name ? name : "");
    else if (name == NULL)
        snprintf(to, room, "section %d", s.section);
    else if (s.list != NULL)
        snprintf(to, room, "section %d, %s, %s %lu%s%s", s.section, s.list, s.section == 2 ? "box" : "airfield",
                 (unsigned long)s.item, s.section == 2 ? ", " : "", s.section == 2 ? name : "");
    else
        snprintf(to, room, "section %d, %s", s.section, name);
}

/* The bytes of a section behind any lists, up to its delimiter, which is the last figure that it has. */
static size_t bytes_behind_lists(int section)
{
    const figure *from = section == 2 || section == 3 ? behind_lists : figures;
    size_t count = section == 2 || section == 3 ? COUNT(behind_lists) : COUNT(figures), bytes = 0;
    for (size_t i = 0; i < count; i++)
        if (from[i].section == section)
            bytes = from[i].offset;
    return bytes;
}

/* The delimiters, indicators and counts of the text that a record would have, all that find_spot looks at. Behind a
 * count that no text has, nothing is refused any more. */
static void sketch_text(const esk_command *c, uint8_t *text)
{
    const esk_settings *s = &c->settings;
    const uint8_t counts[] = {s->regions.reporting.count,        s->regions.inhibiting.count,
                              s->airports.selected.ascent.count, s->airports.selected.descent.count,
                              s->airports.inhibited.ascent.count, s->airports.inhibited.descent.count};
    uint8_t *at = text + 22;
    memset(text, '0', SKETCH_ROOM);
    text[21] = '/';
    for (int k = 2; k <= 9; k++) {
        if (!c->named[k - 2])
            continue;
        text[11 + k] = (uint8_t)('0' + k);
        for (size_t i = 0; i < COUNT(lists); i++)
            if (lists[i].section == k) {
                if (counts[i] > COUNTED_MOST)
                    return;
                at[0] = (uint8_t)('0' + counts[i] / 10);
                at[1] = (uint8_t)('0' + counts[i] % 10);
                at += 2 + (size_t)counts[i] * (k == 2 ? 14 : 4);
            }
        at += bytes_behind_lists(k);
        *at++ = '/';
    }
}

void find_record_place(const esk_command *c, size_t place, record_place *to)
{
    uint8_t text[SKETCH_ROOM];
    memset(to, 0, sizeof *to);
    sketch_text(c, text);
    name_command_place(text, place, to->name, sizeof to->name);
    spot s = find_spot(text, place);
    to->section = s.section;
    to->item = s.item;
    to->list = s.list;
    if (s.figure == NULL)
        return;
    to->offset = s.figure->offset;
    to->range = s.figure->range;
    if (s.figure >= lists && s.figure < lists + COUNT(lists))
        to->list = s.figure->name;
}

const char *find_report_field(size_t place, size_t *observation, size_t *number)
{
    size_t left;
    const field *f = report_field(place, observation, &left);
    const field *first = *observation == 0 ? report_head : *observation == 1 ? first_fields : later_fields;
    *number = f == NULL ? 0 : (size_t)(f - first);
    return f == NULL ? NULL : f->range;
}

void name_place(subject kind, const uint8_t *text, size_t length, size_t place, char *to, size_t room)
{
    *to = 0;
    if (kind == A_REPORT)
        name_report_place(place, to, room);
    else if (kind == A_COMMAND && place <= length)
        name_command_place(text, place, to, room);
}

static void word_command_figure(const uint8_t *text, size_t length, size_t place, char *to, size_t room)
{
    const figure *f = find_spot(text, place).figure;
    if (f == NULL || f->range == NULL || f->width > length - place)
        return;
    size_t at = name_bytes(text + place, f->width, to, room);
    snprintf(to + at, room - at, " is not %s", f->range);
}

/* Why no packed field goes on from its first `at` bytes with the next one. */
static void word_packed_byte(const uint8_t *bytes, size_t at, char *to, size_t room)
{
    char byte[5];
    name_bytes(bytes + at, 1, byte, sizeof byte);
    if (bytes[at] == ' ' && (at == 0 || bytes[at - 1] == ' '))
        snprintf(to, room, "spaces alone are no figure");
    else if (at > 0 && bytes[0] == '/')
        snprintf(to, room, "%s behind a solidus: a missing figure is solidi alone", *byte == ' ' ? "a space" : byte);
    else if (bytes[at] == '/')
        snprintf(to, room, "/ behind another byte: a missing figure is solidi alone");
    else if (bytes[at] == ' ')
        snprintf(to, room, "a space behind a digit");
    else
        snprintf(to, room, "%s is no digit: they are 0 to 9, A to Z and : , - .", byte);
}

/* A packed figure is told as the number that it is too; one that is none by the byte at fault, or by the code's words. */
static void word_report_field(const uint8_t *text, size_t length, esk_answer a, char *to, size_t room)
{
    size_t number, bytes;
    const field *f = report_field(a.place, &number, &bytes);
    if (f != NULL && f->packed && a.code == ESK_BYTE && a.place < length)
        word_packed_byte(text + a.place + bytes - f->bytes, f->bytes - bytes, to, room);
    if (f == NULL || f->range == NULL || bytes > length - a.place || f->packed != (a.code == ESK_RANGE))
        return;
    size_t at = name_bytes(text + a.place, bytes, to, room);
    if (f->packed)
        snprintf(to + at, room - at, " is %ld, not %s", (long)esk_packed_read(text + a.place, bytes).number, f->range);
    else
        snprintf(to + at, room - at, " is not %s", f->range);
}

void word_figure(subject kind, const uint8_t *text, size_t length, esk_answer a, char *to, size_t room)
{
    *to = 0;
    if ((a.code != ESK_BYTE && a.code != ESK_RANGE) || a.place > length)
        return;
    if (kind == A_COMMAND)
        word_command_figure(text, length, a.place, to, room);
    else if (kind == A_REPORT)
        word_report_field(text, length, a, to, room);
    else if (kind == A_FIELD && a.code == ESK_BYTE && a.place < length)
        word_packed_byte(text, a.place, to, room);
}
