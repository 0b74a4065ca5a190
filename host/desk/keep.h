/*
 * keep.h: files that are kept: read whole, and replaced whole, by one writer at a time, so that a kill at any moment
 * leaves the old file or the new one.
 *
 * The new bytes go to a file beside the kept one, .NAME.eskelvor-new, which is flushed to disk and then renamed onto
 * it; then the folder is flushed. A writer holds a lock on .NAME.eskelvor-lock, from before it reads to after it has
 * written. What a killed writer left of a new file is removed by the next writer. The lock file stays.
 *
 * The new file and the lock file have the group and mode of the old one, and its owner where the system lets this user
 * give a file away.
 */
#ifndef DESK_KEEP_H
#define DESK_KEEP_H

#include "tell.h"

enum { PATH_ROOM = 4096 };

/* A file held for writing. */
typedef struct kept {
    const char *name; /* as the user wrote it */
    char path[PATH_ROOM], fresh[PATH_ROOM], lock[PATH_ROOM], folder[PATH_ROOM];
    const char *like; /* the file whose rights a new one is given, where none is there; NULL: none */
    int locked;       /* the lock file, open; -1 where it is not */
} kept;

/* All of these give FINE or TROUBLE, which they have told. */

/* Takes the lock, waiting so many seconds for another writer. A link is followed. */
int keep_hold(kept *k, const char *file, long wait);

/* Whether a held file that is there may be replaced: this user may write it, its mode lets someone write it (root may
 * without), and it has no second name, which would part from it. */
int keep_may_replace(const kept *k);

/* Writes the new file beside the kept one and flushes it to disk. */
int keep_write(kept *k, const uint8_t *bytes, size_t length);

/* Puts the new file in place of the kept one. */
int keep_replace(kept *k);

/* Puts the new file in place where there is none yet. */
int keep_create(kept *k);

/* All of that for a file that is not there yet: held, written, put in place, released. Where `like` is not NULL the new
 * file has the rights of that one. */
int keep_new(const char *file, const uint8_t *bytes, size_t length, const char *like, long wait);

/* Removes the new file, if it was not put in place. */
void keep_drop(kept *k);

void keep_release(kept *k);

/* Reads a file of at most `room` bytes; of a longer one `room` bytes are read. */
int keep_read(const char *file, uint8_t *bytes, size_t room, size_t *length);

/* CRC-32 (IEEE 802.3) of the bytes. */
uint32_t checksum(const uint8_t *bytes, size_t length);

#endif
