#include "report_json.h"

#include "json.h"

void json_cell(const char *key, const column *c, const row *r)
{
    cell value;
    fill_cell(&value, c, r);
    if (value.kind == CELL_MISSING)
        json_null(key);
    else if (value.kind == CELL_NUMBER)
        json_digits(key, value.bytes, value.length);
    else if (c->from == FROM_FILE)
        json_word(key, r->file);
    else
        json_text(key, value.bytes, value.length);
}

static void json_head(const esk_report *r)
{
    json_text("departure", r->departure, 4);
    json_text("arrival", r->arrival, 4);
    json_text("designator", r->designator, 6);
}

static void json_observation(const row *r)
{
    json_object(NULL);
    json_number("observation", r->number);
    json_bool("present", is_present(r));
    for (int i = first_own_column + 1; i < columns_count && is_present(r); i++)
        if (columns[i].from != FROM_CHANGE || r->number > 1)
            json_cell(columns[i].name, &columns[i], r);
    json_close();
}

void json_report_keys(row r)
{
    json_head(r.of);
    json_list("observations");
    do
        json_observation(&r);
    while (next_row(&r));
    json_close();
}

static void json_point(const row *r)
{
    json_object(NULL);
    for (int i = first_own_column; i < columns_count; i++)
        if (columns[i].from != FROM_CHANGE)
            json_cell(columns[i].name, &columns[i], r);
    json_close();
}

void json_track_keys(row r)
{
    json_head(r.of);
    json_list("points");
    do
        if (is_present(&r))
            json_point(&r);
    while (next_row(&r));
    json_close();
}
