#include "table.h"

#include "json.h"
#include "report_json.h"
#include "tell.h"

#include <stdio.h>
#include <string.h>

enum { CHOSEN_MOST = 64 };

/* The columns that were chosen, in order, each with the name that it was asked for by. */
static const column *chosen[CHOSEN_MOST];
static const char *names[CHOSEN_MOST];
static int count;

/* Tells of a name that is none, with all that there are. */
static int no_such_field(const char *name, size_t length)
{
    char all[900] = "";
    size_t at = 0;
    for (int i = 0; i < columns_count; i++) {
        const column *c = &columns[i];
        at += (size_t)snprintf(all + at, sizeof all - at, "%s%s%s%s%s", i ? ", " : "", c->name, c->brief ? " (or " : "",
                               c->brief ? c->brief : "", c->brief ? ")" : "");
    }
    return trouble("--fields", "no such field: %.*s; there are %s", length < 40 ? (int)length : 40, name, all);
}

static int choose_one(const char *name, size_t length)
{
    const column *c = find_column(name, length);
    if (c == NULL)
        return no_such_field(name, length);
    const char *as = strlen(c->name) == length ? c->name : c->brief;
    for (int i = 0; i < count; i++)
        if (chosen[i] == c)
            return trouble("--fields", "%s is there twice", c->name);
    chosen[count] = c;
    names[count++] = as;
    return FINE;
}

int table_choose(const char *fields)
{
    int status = FINE;
    for (int i = 0; fields == NULL && i < columns_count; i++)
        status = choose_one(columns[i].name, strlen(columns[i].name));
    while (fields != NULL && status == FINE) {
        size_t length = strcspn(fields, ",");
        status = choose_one(fields, length);
        fields = fields[length] ? fields + length + 1 : NULL;
    }
    return status;
}

/* A value of a table: quoted where it holds what would end it, its quotes doubled. */
static void csv_value(const char *bytes, size_t length)
{
    int quotes = 0;
    for (size_t i = 0; i < length; i++)
        quotes |= bytes[i] == ',' || bytes[i] == '"' || bytes[i] == '\r' || bytes[i] == '\n';
    if (!quotes) {
        fwrite(bytes, 1, length, stdout);
        return;
    }
    putchar('"');
    for (size_t i = 0; i < length; i++) {
        if (bytes[i] == '"')
            putchar('"');
        putchar(bytes[i]);
    }
    putchar('"');
}

void csv_head(void)
{
    for (int i = 0; i < count; i++)
        printf("%s%s", i ? "," : "", names[i]);
    putchar('\n');
}

void csv_row(const row *r)
{
    for (int i = 0; i < count; i++) {
        cell value;
        fill_cell(&value, chosen[i], r);
        if (i > 0)
            putchar(',');
        csv_value(value.bytes, value.length);
    }
    putchar('\n');
}

void jsonl_row(const row *r)
{
    json_object(NULL);
    for (int i = 0; i < count; i++)
        json_cell(names[i], chosen[i], r);
    json_close();
    json_line();
}
