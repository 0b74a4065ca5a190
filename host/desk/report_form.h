/* report_form.h: the forms in which accepted reports are shown: words, a document, JSON lines, a table, a count. */
#ifndef DESK_REPORT_FORM_H
#define DESK_REPORT_FORM_H

#include "pieces.h"
#include "tell.h"

/* What the options say. In words, or as a document, where none is set. */
typedef struct report_form {
    int jsonl, csv, count, quiet;
    const char *fields; /* NULL: all */
} report_form;

/* Looks the options over, and writes what stands before the first report. */
int form_begin(const report_form *f);

/* An accepted report. */
void form_report(const report_form *f, const piece *p, const char *file, const esk_report *r);

/* Writes what stands behind the last report, of so many that were refused. */
void form_end(const report_form *f, unsigned long refused);

#endif
