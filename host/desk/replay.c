#include "replay.h"

#include "changes.h"
#include "json.h"
#include "mark.h"

#include <stdio.h>
#include <string.h>

/* The entries that are replayed, the oldest first, and the byte behind the last of them. */
typedef struct stretch {
    size_t count, end;
    esk_entry entries[JOURNAL_ENTRIES];
} stretch;

/* All the entries, or those up to the one that begins at byte `at`. */
static int cut(const journal *j, long at, stretch *s)
{
    s->count = journal_entries(j, s->entries);
    s->end = j->end;
    if (at < 0)
        return FINE;
    size_t i = 0;
    while (i < s->count && s->entries[i].offset != (size_t)at)
        i++;
    if (i == s->count)
        return trouble("--at", "no entry begins at byte %ld; list tells where each does", at);
    s->end = i + 1 < s->count ? s->entries[i + 1].offset : j->end;
    s->count = i + 1;
    return FINE;
}

static void tell_step(const journal *j, const esk_entry *e, const esk_settings *old, const esk_settings *now)
{
    const char *text = (const char *)j->bytes + e->text;
    if (!as_json) {
        printf("entry at byte %lu: %.*s\n", (unsigned long)e->offset, (int)e->length, text);
        say_changes(old, now);
        return;
    }
    json_object(NULL);
    json_number("offset", (long long)e->offset);
    json_text("text", text, e->length);
    json_changes(old, now);
    json_close();
}

/* What each of the aircraft's commands changed; gives how many there are. What a replay gives is reset and then each of
 * them applied, so that after each step this is the replay up to there. */
static size_t tell_steps(const journal *j, const stretch *s, const char *designator)
{
    esk_settings old = esk_reset(), now = old;
    size_t steps = 0;
    for (size_t i = 0; i < s->count; i++) {
        const esk_entry *e = &s->entries[i];
        if (memcmp(j->bytes + e->offset, designator, 6) != 0)
            continue;
        esk_apply(&now, j->bytes + e->text, e->length);
        tell_step(j, e, &old, &now);
        old = now;
        steps++;
    }
    return steps;
}

static void tell_as_json(const journal *j, const stretch *s, const char *designator, const esk_settings *end)
{
    json_object(NULL);
    json_bool("accepted", 1);
    json_number("code", ESK_ACCEPTED);
    json_word("designator", designator);
    json_list("entries");
    tell_steps(j, s, designator);
    json_close();
    json_configuration(end);
    json_close();
}

void replay_changes(const journal *j, const char *designator)
{
    static stretch s;
    cut(j, -1, &s);
    tell_steps(j, &s, designator);
}

int replay(const char *file, const char *designator, long at)
{
    static journal j;
    static stretch s;
    esk_settings end;
    size_t n = strlen(designator);
    origin from = {NULL, "designator", 0, 0};
    int status = journal_read(file, &j);
    if (status == FINE)
        status = cut(&j, at, &s);
    if (status != FINE)
        return status;
    esk_answer a = esk_journal_replay(&end, j.bytes, sizeof j.bytes, s.end, (const uint8_t *)designator, n);
    if (a.code != ESK_ACCEPTED)
        return refuse(&from, A_DESIGNATOR, a, (const uint8_t *)designator, n, n);
    if (as_json) {
        tell_as_json(&j, &s, designator, &end);
        return FINE;
    }
    size_t steps = tell_steps(&j, &s, designator);
    printf("%s after reset and %lu of its commands:\n", designator, (unsigned long)steps);
    say_configuration(&end);
    return FINE;
}
