/*
 * A taking, in the order that loses nothing: the new board and the new journal are written beside the old ones and
 * flushed; the command is handed out; the new journal is put in place, and then the new board. A kill before the journal
 * is in place leaves the command on the board, one after that leaves it in the journal, and between the last two steps
 * it is in both.
 */
#define _POSIX_C_SOURCE 200809L
#include "board_take.h"

#include "journal_file.h"
#include "json.h"
#include "mark.h"

#include <errno.h>
#include <stdio.h>
#include <string.h>
#include <unistd.h>

static void json_entry(const taking *t, const taken *got)
{
    json_word("journal", t->journal);
    json_number("offset", got->entry);
    if (got->same == NOWHERE)
        json_null("same_text_at");
    else
        json_number("same_text_at", got->same);
}

static void tell_as_json(const taking *t, const taken *got)
{
    json_object(NULL);
    json_bool("accepted", 1);
    json_number("code", ESK_ACCEPTED);
    json_word("designator", t->designator);
    json_number("length", (long long)got->length);
    json_text("text", got->text, got->length);
    if (t->to != NULL)
        json_word("file", t->to);
    if (t->journal != NULL)
        json_entry(t, got);
    json_close();
}

/* All that was told is out of this program, and on disk where standard output is a file. */
static int flush_output(void)
{
    if (tell_end(FINE) != FINE)
        return TROUBLE;
    if (fsync(STDOUT_FILENO) == 0 || errno == EINVAL || errno == EROFS || errno == ENOTSUP)
        return FINE;
    return failed("standard output", "flush");
}

int hand_out(const taking *t, const taken *got)
{
    uint8_t line[ESK_COMMAND_BYTES + 1];
    memcpy(line, got->text, got->length);
    line[got->length] = '\n';
    if (t->to != NULL)
        return keep_new(t->to, line, got->length + 1, NULL, t->wait);
    if (as_json)
        tell_as_json(t, got);
    else
        fwrite(line, 1, got->length + 1, stdout);
    return flush_output();
}

/* What is on standard output by now is the command alone, so that the rest is told beside it. */
void tell_done(const taking *t, const taken *got)
{
    char name[NAME_ROOM];
    if (as_json) {
        if (t->to != NULL)
            tell_as_json(t, got);
        return;
    }
    if (t->to != NULL)
        printf("taken: the %lu bytes that waited for %s are in %s\n", (unsigned long)got->length, t->designator,
               name_safely(t->to, name, sizeof name));
    if (got->same == NOWHERE)
        return;
    fflush(stdout);
    fprintf(stderr, "eskelvor: %s: the entries at bytes %ld and %ld of %s have the same text: if a taking was killed\n"
            "  between journal and board it was taken once, and eskelvor journal FILE drop 1 takes the second away\n",
            t->designator, got->same, got->entry, name_safely(t->journal, name, sizeof name));
}

/* Where the aircraft's newest entry begins, if it has this text: so it is where a taking was killed after the journal was
 * in place, and also where the same command was sent twice. */
static long find_same(const journal *j, const taking *t, const taken *got)
{
    esk_entry e = journal_last(j, j->end);
    while (e.given && memcmp(j->bytes + e.offset, t->designator, 6) != 0)
        e = journal_last(j, e.offset);
    if (e.given && e.length == got->length && memcmp(j->bytes + e.text, got->text, got->length) == 0)
        return (long)e.offset;
    return NOWHERE;
}

/* Enters the text into the journal that is written beside the held one. */
static int enter(journal *j, const taking *t, taken *got)
{
    int status = journal_hold(j, t->journal, t->wait, 1);
    if (status != FINE)
        return status;
    got->entry = (long)j->end;
    got->same = find_same(j, t, got);
    status = journal_add(j, t->designator, got->text, got->length);
    return status == FINE ? journal_write(j) : status;
}

/* Both new files are ready. */
static int hand_over(const taking *t, const taken *got, kept *k, journal *j)
{
    int status = hand_out(t, got);
    if (status != FINE) {
        keep_drop(k);
        if (t->journal != NULL)
            keep_drop(&j->file);
        trouble(t->designator, "not handed out; it still waits");
    } else if (t->journal != NULL && journal_put(j) != FINE) {
        keep_drop(k);
        status = trouble(t->designator, "handed out, and still waits: take it again once the journal can be written");
    } else if (keep_replace(k) != FINE)
        status = trouble(t->designator, "handed out, and may still wait: take it again");
    else
        tell_done(t, got);
    return status;
}

int board_hand_over(const taking *t)
{
    static board b;
    static journal j;
    taken got = {{0}, 0, NOWHERE, NOWHERE};
    kept k;
    j.file.locked = -1;
    int status = board_hold(&k, &b, t->file, t->wait);
    if (status == FINE)
        status = board_take(&b, t->designator, got.text, &got.length);
    if (status == FINE && t->journal != NULL)
        status = enter(&j, t, &got);
    if (status == FINE) {
        status = board_write(&k, &b);
        if (status != FINE && t->journal != NULL)
            keep_drop(&j.file);
    }
    if (status == FINE)
        status = hand_over(t, &got, &k, &j);
    keep_release(&j.file);
    keep_release(&k);
    return status;
}
