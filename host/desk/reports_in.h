/* reports_in.h: files of reports, read one by one; and how one that is refused is told. */
#ifndef DESK_REPORTS_IN_H
#define DESK_REPORTS_IN_H

#include "pieces.h"
#include "tell.h"

/* Does something with a piece of a file that ought to be a report, and gives a status. */
typedef int (*report_taker)(const piece *p, const char *file);

/* Hands every piece of the files to `take`, of standard input where there is none; - is standard input. Gives the worst
 * status. */
int each_report(int count, char **words, report_taker take);

/* A piece that the call refused is told with its number, its offset and a mark, one of another length with where it is cut
 * or first departs from a report. Gives REFUSED. */
int refuse_report(const piece *p, const char *file, esk_answer a);

#endif
