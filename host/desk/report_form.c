#include "report_form.h"

#include "json.h"
#include "report_json.h"
#include "table.h"

static unsigned long reports, observations;

int form_begin(const report_form *f)
{
    if (f->jsonl + f->csv + f->count + f->quiet > 1)
        return trouble(NULL, "give one of --jsonl, --csv, --count and --quiet");
    if (as_json && (f->jsonl || f->csv || f->quiet))
        return trouble("--json", "does not go with --jsonl, --csv or --quiet");
    if (f->fields != NULL && !f->jsonl && !f->csv)
        return trouble("--fields", "goes with --csv or --jsonl");
    if (f->jsonl)
        json_lines();
    if (table_choose(f->fields) != FINE)
        return TROUBLE;
    if (f->csv)
        csv_head();
    return FINE;
}

static void show_report(row r)
{
    origin from = {r.file, "report", r.report, r.offset};
    char name[NAME_ROOM];
    name_origin(&from, name, sizeof name);
    printf("%s%s: %.4s to %.4s, aircraft %.6s\n", reports == 1 ? "" : "\n", name, (const char *)r.of->departure,
           (const char *)r.of->arrival, (const char *)r.of->designator);
    do
        show_observation(r.number, r.o, &r.here);
    while (next_row(&r));
}

static void json_report(row r)
{
    origin from = {r.file, "report", r.report, r.offset};
    json_object(NULL);
    json_bool("accepted", 1);
    json_origin(&from);
    json_number("code", ESK_ACCEPTED);
    json_report_keys(r);
    json_close();
}

/* A row for each observation that is present. */
static void write_rows(const report_form *f, row r)
{
    do
        if (is_present(&r)) {
            if (f->csv)
                csv_row(&r);
            else
                jsonl_row(&r);
        }
    while (next_row(&r));
}

static void count_observations(row r)
{
    do
        observations += is_present(&r) != 0;
    while (next_row(&r));
}

void form_report(const report_form *f, const piece *p, const char *file, const esk_report *report)
{
    esk_track track = esk_report_track(p->bytes, p->length);
    row first = first_row(report, &track);
    first.file = file;
    first.report = p->number;
    first.offset = p->offset;
    reports++;
    if (f->count)
        count_observations(first);
    else if (f->csv || (f->jsonl && f->fields != NULL))
        write_rows(f, first);
    else if (f->jsonl || as_json) {
        json_report(first);
        if (f->jsonl)
            json_line();
    } else if (!f->quiet)
        show_report(first);
    if (f->csv || f->jsonl)
        fflush(stdout); /* as it is read: the next report may come much later */
}

void form_end(const report_form *f, unsigned long refused)
{
    if (!f->count)
        return;
    if (!as_json) {
        printf("%lu\n", reports);
        return;
    }
    json_object(NULL);
    json_number("reports", (long long)reports);
    json_number("refused", (long long)refused);
    json_number("observations", (long long)observations);
    json_close();
}
