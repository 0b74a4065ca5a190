/* progress.h: how far a long input has got, on standard error where that is a terminal and standard output is none. */
#ifndef DESK_PROGRESS_H
#define DESK_PROGRESS_H

/* Tells it twice a second at most, and not in the first second. */
void progress(const char *units, unsigned long count, unsigned long long bytes);

/* Clears the line. */
void progress_done(void);

#endif
