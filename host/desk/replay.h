/* replay.h: what an aircraft's configuration was after each command that was taken for it. */
#ifndef DESK_REPLAY_H
#define DESK_REPLAY_H

#include "journal_file.h"

/* Tells what each of the aircraft's commands in a journal's file changed, and the configuration after the last of them;
 * where `at` is not below 0, up to the entry that begins at that byte. Gives a status. */
int replay(const char *file, const char *designator, long at);

/* Tells what each of the aircraft's commands in a sound journal changed: lines, or items of the JSON list that is open. */
void replay_changes(const journal *j, const char *designator);

#endif
