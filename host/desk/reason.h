/* reason.h: why an aircraft reports or stays silent, in words: for the desk program and for the SQL functions (host/sql). */
#ifndef DESK_REASON_H
#define DESK_REASON_H

#include "question.h"

enum { SENTENCE = 192 };

/* A decision's one word. */
extern const char *const decision_names[3];

/* ESK_ASCENT.. for "ascent", "level" or "descent"; -1 for any other word. */
int phase_of(const char *word);

/* "37.6667 S 144.8333 E" */
void name_position(const question *q, char *to, size_t room);

/* "silent", "reports by the ascent scheme" */
void name_decision(const question *q, esk_explained e, char *to, size_t room);

/* The reason, with what it names as the configuration has it. */
void name_reason(const question *q, esk_explained e, char *to, size_t room);

/* What is at fault in a question that was refused with a code; NULL where the code says it all. */
const char *question_fault(const question *q, unsigned code);

#endif
