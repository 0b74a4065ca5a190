/* table.h: observations as rows of chosen columns, as comma-separated values or as JSON lines. */
#ifndef DESK_TABLE_H
#define DESK_TABLE_H

#include "columns.h"

/* Chooses columns by their names, parted by commas; NULL chooses all. Gives a status: TROUBLE, told with the names that
 * there are, for another name. */
int table_choose(const char *fields);

/* The line of names, and a row, of comma-separated values: those with a comma, a quote or a line end are quoted. */
void csv_head(void);
void csv_row(const row *r);

/* A row as an object on a line of its own. */
void jsonl_row(const row *r);

#endif
