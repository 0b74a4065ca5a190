#define _POSIX_C_SOURCE 200809L
#include "journal_file.h"

#include "mark.h"

#include <errno.h>
#include <stdio.h>
#include <string.h>
#include <unistd.h>

enum { TRAILER = 3, DESIGNATOR = 6 };

static const uint8_t *bytes(const char *word)
{
    return (const uint8_t *)word;
}

esk_entry journal_last(const journal *j, size_t end)
{
    return esk_journal_last(j->bytes, sizeof j->bytes, end);
}

size_t journal_entries(const journal *j, esk_entry entries[JOURNAL_ENTRIES])
{
    size_t count = 0;
    for (esk_entry e = journal_last(j, j->end); e.given; e = journal_last(j, e.offset))
        entries[count++] = e;
    for (size_t i = 0; i < count / 2; i++) {
        esk_entry e = entries[i];
        entries[i] = entries[count - 1 - i];
        entries[count - 1 - i] = e;
    }
    return count;
}

/* What stands at the trailer where reading from the end fails. */
static void name_fault(const journal *j, size_t place, char *why, size_t room)
{
    const uint8_t *trailer = j->bytes + place;
    size_t length = 256u * trailer[0] + trailer[1];
    char shown[40];
    if (trailer[2] != 'J') {
        name_bytes(trailer + 2, 1, shown, sizeof shown);
        snprintf(why, room, "its letter is %s, not J", shown);
        return;
    }
    if (length + DESIGNATOR > place) {
        snprintf(why, room, "its length is %lu, and before it stand %lu bytes, designator and text",
                 (unsigned long)length, (unsigned long)place);
        return;
    }
    esk_answer a = esk_command_check(trailer - length, length);
    if (a.code != ESK_ACCEPTED) {
        snprintf(why, room, "the text of %lu bytes before it is refused with code %u at its byte %lu",
                 (unsigned long)length, (unsigned)a.code, (unsigned long)a.place);
        return;
    }
    name_bytes(trailer - length - DESIGNATOR, DESIGNATOR, shown, sizeof shown);
    snprintf(why, room, "the designator of its entry is %s, not six letters or digits, A to Z and 0 to 9", shown);
}

/* Tells where a journal is broken, and by what. */
static int refuse_broken(const char *file, const journal *j, esk_answer a)
{
    char why[160];
    size_t end = j->end;
    for (esk_entry e = journal_last(j, end); e.given; e = journal_last(j, end))
        end = e.offset;
    if (end > ESK_JOURNAL_BYTES)
        snprintf(why, sizeof why, "the file has more than the %d bytes of a journal", ESK_JOURNAL_BYTES);
    else if (end < TRAILER)
        snprintf(why, sizeof why, "the oldest entry begins at byte %lu, not at byte 0", (unsigned long)end);
    else
        name_fault(j, a.place, why, sizeof why);
    return refuse_record(file, A_JOURNAL, a, end > ESK_JOURNAL_BYTES || end < TRAILER ? "" : "trailer", why);
}

int journal_read(const char *file, journal *j)
{
    if (keep_read(file, j->bytes, sizeof j->bytes, &j->end) != FINE)
        return TROUBLE;
    esk_answer a = esk_journal_check(j->bytes, sizeof j->bytes, j->end);
    return a.code == ESK_ACCEPTED ? FINE : refuse_broken(file, j, a);
}

/* The same, of a file that need not be there. */
static int read_or_begin(const char *file, journal *j, int may_be_new)
{
    j->end = 0;
    j->is_new = access(file, F_OK) != 0 && errno == ENOENT;
    return j->is_new && may_be_new ? FINE : journal_read(file, j);
}

int journal_hold(journal *j, const char *file, long wait, int may_be_new)
{
    j->file.locked = -1;
    int status = read_or_begin(file, j, may_be_new); /* what is no sound journal gets no lock file beside it */
    if (status == FINE)
        status = keep_hold(&j->file, file, wait);
    if (status == FINE)
        status = keep_may_replace(&j->file);
    return status == FINE ? read_or_begin(file, j, may_be_new) : status;
}

int journal_add(journal *j, const char *designator, const uint8_t *text, size_t length)
{
    size_t n = strlen(designator);
    origin from = {NULL, "designator", 0, 0};
    char why[120];
    esk_answer a = esk_journal_add(j->bytes, sizeof j->bytes, j->end, bytes(designator), n, text, length);
    if (a.code == ESK_ACCEPTED) {
        j->end = a.length;
        return FINE;
    }
    if (a.code == ESK_BYTE && esk_command_check(text, length).code == ESK_ACCEPTED)
        return refuse(&from, A_DESIGNATOR, a, bytes(designator), n, n);
    snprintf(why, sizeof why, "it has %lu bytes, and no room for %lu more: a journal has at most %d",
             (unsigned long)j->end, (unsigned long)(DESIGNATOR + length + TRAILER), ESK_JOURNAL_BYTES);
    return refuse_plain(j->file.name, A_JOURNAL, a.code, a.code == ESK_ROOM ? why : NULL);
}

int journal_drop(journal *j, const char *file, size_t count)
{
    static esk_entry entries[JOURNAL_ENTRIES];
    char why[80];
    esk_answer a = esk_journal_drop(j->bytes, sizeof j->bytes, j->end, count);
    if (a.code == ESK_ACCEPTED) {
        j->end = a.length;
        return FINE;
    }
    snprintf(why, sizeof why, "it has %lu entries, and %lu are to be dropped",
             (unsigned long)journal_entries(j, entries), (unsigned long)count);
    return refuse_plain(file, A_JOURNAL, a.code, why);
}

int journal_write(journal *j)
{
    return keep_write(&j->file, j->bytes, j->end);
}

int journal_put(journal *j)
{
    return j->is_new ? keep_create(&j->file) : keep_replace(&j->file);
}
