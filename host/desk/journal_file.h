/*
 * journal_file.h: a journal kept in a file, which is the journal's bytes and nothing else. A file that is not there yet is
 * an empty journal to whoever adds. One that is broken is refused with code 14, and never mended.
 */
#ifndef DESK_JOURNAL_FILE_H
#define DESK_JOURNAL_FILE_H

#include "keep.h"

/* One byte more than a journal may have, so that a longer file is seen to be one. */
enum { JOURNAL_ROOM = ESK_JOURNAL_BYTES + 1, JOURNAL_ENTRIES = ESK_JOURNAL_BYTES / 31 };

/* A journal that was read, and its file where that is held for writing. */
typedef struct journal {
    kept file;
    int is_new; /* there is no file yet */
    size_t end;
    uint8_t bytes[JOURNAL_ROOM];
} journal;

/* All of these give a status, and have told what is wrong. */

/* Reads a journal's file, without holding it. */
int journal_read(const char *file, journal *j);

/* Holds the file and reads it; whatever it gives, keep_release of j->file is then due. */
int journal_hold(journal *j, const char *file, long wait, int may_be_new);

/* Adds an entry to the journal that was read; the file stays. */
int journal_add(journal *j, const char *designator, const uint8_t *text, size_t length);

/* Takes the newest entries off the journal that was read. */
int journal_drop(journal *j, const char *file, size_t count);

/* Writes the journal beside its held file, flushed to disk; puts that in place. */
int journal_write(journal *j);
int journal_put(journal *j);

/* The entry that ends at a byte of a sound journal, 0 where none does: the newest first, from j->end on. */
esk_entry journal_last(const journal *j, size_t end);

/* All entries, the oldest first; gives how many. */
size_t journal_entries(const journal *j, esk_entry entries[JOURNAL_ENTRIES]);

#endif
