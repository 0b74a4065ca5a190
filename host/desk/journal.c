/* eskelvor journal: the commands that were taken for aircraft, kept in a file, and replayed. */
#include "intake.h"
#include "json.h"
#include "mark.h"
#include "options.h"
#include "replay.h"

#include <stdio.h>
#include <string.h>

enum { WAIT_MOST = 86400, COUNT_MOST = 1000000 };

/* The words of one call: the journal's file, what to do with it, and what the options say. */
typedef struct call {
    const char *file, *verb, *at;
    long wait;
    intake in;
} call;

static journal j;

static unsigned long count_entries(void)
{
    static esk_entry entries[JOURNAL_ENTRIES];
    return (unsigned long)journal_entries(&j, entries);
}

/* The keys that every accepted result of a journal has. */
static void json_begin(void)
{
    json_object(NULL);
    json_bool("accepted", 1);
    json_number("code", ESK_ACCEPTED);
    json_number("count", (long long)count_entries());
    json_number("length", (long long)j.end);
}

static int check(const call *c)
{
    char name[NAME_ROOM];
    int status = journal_read(c->file, &j);
    if (status != FINE)
        return status;
    if (as_json) {
        json_begin();
        json_close();
    } else
        printf("%s: sound, %lu %s in %lu bytes\n", name_safely(c->file, name, sizeof name), count_entries(),
               count_entries() == 1 ? "entry" : "entries", (unsigned long)j.end);
    return FINE;
}

static void json_entries(void)
{
    json_begin();
    json_list("entries");
    for (esk_entry e = journal_last(&j, j.end); e.given; e = journal_last(&j, e.offset)) {
        json_object(NULL);
        json_number("offset", (long long)e.offset);
        json_text("designator", j.bytes + e.offset, 6);
        json_text("text", j.bytes + e.text, e.length);
        json_close();
    }
    json_close();
    json_close();
}

static int list(const call *c)
{
    static uint8_t lines[ESK_JOURNAL_PRINTED];
    int status = journal_read(c->file, &j);
    if (status != FINE)
        return status;
    if (as_json) {
        json_entries();
        return FINE;
    }
    esk_answer a = esk_journal_print(j.bytes, sizeof j.bytes, j.end, lines, sizeof lines);
    fwrite(lines, 1, a.length, stdout);
    return FINE;
}

/* The one command of an entry. */
typedef struct one_text {
    uint8_t bytes[ESK_COMMAND_BYTES];
    size_t length;
    int given;
} one_text;

/* A text_taker: holds the one text. */
static int hold_text(void *with, const command_text *t)
{
    one_text *one = with;
    esk_answer a = esk_command_check(t->bytes, t->length);
    if (a.code != ESK_ACCEPTED)
        return refuse(&t->from, A_COMMAND, a, t->bytes, t->length, t->whole);
    if (one->given)
        return trouble("add", "an entry is one command, as it was taken: add them one by one");
    memcpy(one->bytes, t->bytes, t->length);
    one->length = t->length;
    one->given = 1;
    return FINE;
}

static int tell_added(const call *c, const char *designator, size_t offset)
{
    char name[NAME_ROOM];
    if (as_json) {
        json_begin();
        json_word("designator", designator);
        json_number("offset", (long long)offset);
        json_bool("new", j.is_new);
        json_close();
        return FINE;
    }
    printf("accepted: an entry for %s at byte %lu of %s%s\n", designator, (unsigned long)offset,
           name_safely(c->file, name, sizeof name), j.is_new ? ", a new journal" : "");
    return FINE;
}

/* What is accepted is told once it is on disk. */
static int add(call *c, int count, char **words)
{
    static one_text one;
    if (count < 2)
        return trouble("add", "give the aircraft's designator and the command that was taken");
    c->in.stop = 1;
    c->in.each = hold_text;
    c->in.with = &one;
    int status = each_text(&c->in, count - 1, words + 1);
    if (status != FINE)
        return status;
    status = journal_hold(&j, c->file, c->wait, 1);
    size_t offset = j.end;
    if (status == FINE)
        status = journal_add(&j, words[0], one.bytes, one.length);
    if (status == FINE)
        status = journal_write(&j);
    if (status == FINE)
        status = journal_put(&j);
    keep_release(&j.file);
    return status == FINE ? tell_added(c, words[0], offset) : status;
}

static int tell_dropped(const call *c, long dropped)
{
    char name[NAME_ROOM];
    if (as_json) {
        json_begin();
        json_number("dropped", dropped);
        json_close();
    } else
        printf("%s: dropped the newest %ld; left: %lu %s in %lu bytes\n", name_safely(c->file, name, sizeof name),
               dropped, count_entries(), count_entries() == 1 ? "entry" : "entries", (unsigned long)j.end);
    return FINE;
}

static int drop(const call *c, int count, char **words)
{
    char name[NAME_ROOM];
    if (count != 1)
        return trouble("drop", "give how many of the newest entries are to be dropped");
    long n = whole_number(words[0], 0, COUNT_MOST);
    if (n < 0)
        return trouble("drop", "%s is not a number of entries", name_safely(words[0], name, sizeof name));
    int status = journal_hold(&j, c->file, c->wait, 0);
    if (status == FINE)
        status = journal_drop(&j, c->file, (size_t)n);
    if (status == FINE)
        status = journal_write(&j);
    if (status == FINE)
        status = journal_put(&j);
    keep_release(&j.file);
    return status == FINE ? tell_dropped(c, n) : status;
}

static int replay_one(const call *c, int count, char **words)
{
    char name[NAME_ROOM];
    long at = c->at == NULL ? -1 : whole_number(c->at, 0, ESK_JOURNAL_BYTES);
    if (count != 1)
        return trouble("replay", "give the aircraft's designator");
    if (c->at != NULL && at < 0)
        return trouble("--at", "%s is not an entry's first byte, 0 to %d", name_safely(c->at, name, sizeof name),
                       ESK_JOURNAL_BYTES);
    return replay(c->file, words[0], at);
}

/* What is done with the journal, by its word. */
static int act(call *c, int count, char **words)
{
    if (c->at != NULL && strcmp(c->verb, "replay") != 0)
        return trouble("--at", "only a replay has it");
    if (strcmp(c->verb, "replay") == 0)
        return replay_one(c, count, words);
    if (strcmp(c->verb, "add") == 0)
        return add(c, count, words);
    if (strcmp(c->verb, "drop") == 0)
        return drop(c, count, words);
    if (count == 0 && strcmp(c->verb, "list") == 0)
        return list(c);
    if (count == 0 && strcmp(c->verb, "check") == 0)
        return check(c);
    if (strcmp(c->verb, "list") == 0 || strcmp(c->verb, "check") == 0)
        return trouble(c->verb, "this takes no words");
    return trouble(c->verb, "no such thing to do with a journal; --help tells what there is");
}

static int run(int count, char **words)
{
    const char *wait = "10";
    call c = {NULL, NULL, NULL, 0, {0, 0, 0, NULL, NULL}};
    const option known[] = {VALUE_OPTION("--wait", NULL, &wait), VALUE_OPTION("--at", NULL, &c.at),
                            SET_OPTION("--text", &c.in.typed), SET_OPTION("--exact", &c.in.exact)};
    if (take_options(&count, words, known, OPTIONS(known)) != FINE)
        return TROUBLE;
    c.wait = whole_number(wait, 0, WAIT_MOST);
    if (c.wait < 0)
        return trouble("--wait", "give whole seconds");
    if (count < 2)
        return trouble(NULL, "give the journal's file and what to do; --help tells more");
    c.file = words[0];
    c.verb = words[1];
    return act(&c, count - 2, words + 2);
}

const subcommand journal_subcommand = {
    "journal",
    "FILE list | check | replay [--at OFFSET] DESIGNATOR\n"
    "             | add DESIGNATOR COMMAND | drop N",
    "Keeps the journal of commands that were taken, and replays it",
    "  list         a line for each entry, the newest first: the place of its first\n"
    "               byte, the aircraft, the command\n"
    "  replay       what each of an aircraft's commands changed, from reset on, and its\n"
    "               configuration at the end\n"
    "  --at OFFSET  the configuration after the entry that begins at this byte\n"
    "  add          adds a command that was taken for an aircraft; a file that is not\n"
    "               there yet is an empty journal. The command is a word or in a file,\n"
    "               as for eskelvor check\n"
    "  drop N       takes the newest N entries away\n"
    "  check        says whether the journal is sound, and where it is broken\n"
    "  --wait S     waits S seconds for another writer of the journal (10)\n"
    "  --text       the word behind the designator is a command\n"
    "  --exact      all the bytes of a file are one command, line ends too\n"
    "\n"
    "eskelvor board FILE take --journal FILE adds what it hands over. A journal has at\n"
    "most 65535 bytes, and its file has them and nothing else. A kill at any moment\n"
    "leaves it as it was before, or as it is after. A broken one is refused with code\n"
    "14, and never mended.\n",
    run,
    0,
};
