/* report_json.h: a report and its track as JSON: for the desk program and for the SQL functions (host/sql). */
#ifndef DESK_REPORT_JSON_H
#define DESK_REPORT_JSON_H

#include "columns.h"

/* The keys of a report, in the object that is open: its airfields, its designator and its observations. */
void json_report_keys(row first);

/* The same with where and when each was made, in the place of the observations. */
void json_track_keys(row first);

/* A column's value in the object that is open. */
void json_cell(const char *key, const column *c, const row *r);

#endif
