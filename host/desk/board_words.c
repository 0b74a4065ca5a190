/* eskelvor board: a board kept in a file. */
#include "board_db.h"
#include "joining.h"
#include "json.h"
#include "mark.h"
#include "office.h"
#include "options.h"
#include "settings.h"

#include <stdio.h>
#include <string.h>

enum { WAIT_MOST = 86400 };

/* The words of one call: the board's file, what to do with it, and what the options say. */
typedef struct call {
    const char *file, *verb;
    int in_db; /* the file is a database */
    long wait;
    const char *to;      /* the file for what is taken; NULL: standard output */
    const char *journal; /* the journal of what is taken; NULL: none */
    const char *office;  /* for whom an adding is; NULL: no office */
    const char *flags, *sections; /* of a grant */
    int downlinks;
    intake in;
} call;

/* The number of slots that a call gives, or -1, which is told. */
static long slots_of(const call *c, int count, char **words)
{
    char name[NAME_ROOM];
    long slots = count == 1 ? whole_number(words[0], 0, ESK_BOARD_SLOTS) : -1;
    if (count != 1)
        trouble(c->verb, "give the number of slots, 0 to %d", ESK_BOARD_SLOTS);
    else if (slots < 0)
        trouble(c->verb, "%s is not 0 to %d slots", name_safely(words[0], name, sizeof name), ESK_BOARD_SLOTS);
    return slots;
}

static int create(const call *c, int count, char **words)
{
    char name[NAME_ROOM];
    long slots = slots_of(c, count, words);
    if (slots < 0 || board_create(c->file, slots, c->wait) != FINE)
        return TROUBLE;
    if (!as_json) {
        printf("%s: a board of %ld slots\n", name_safely(c->file, name, sizeof name), slots);
        return FINE;
    }
    json_object(NULL);
    json_bool("accepted", 1);
    json_number("code", ESK_ACCEPTED);
    json_number("slots", slots);
    json_close();
    return FINE;
}

static int tell_grown(const call *c, long slots, size_t had, size_t used)
{
    char name[NAME_ROOM];
    if (!as_json) {
        printf("%s: a board of %ld slots, before %lu; %lu are used\n", name_safely(c->file, name, sizeof name), slots,
               (unsigned long)had, (unsigned long)used);
        return FINE;
    }
    json_object(NULL);
    json_bool("accepted", 1);
    json_number("code", ESK_ACCEPTED);
    json_number("slots", slots);
    json_number("slots_before", (long long)had);
    json_number("used", (long long)used);
    json_close();
    return FINE;
}

static int grow(const call *c, int count, char **words)
{
    static board b;
    size_t had = 0;
    kept k;
    long slots = slots_of(c, count, words);
    if (slots < 0)
        return TROUBLE;
    int status = board_hold(&k, &b, c->file, c->wait);
    if (status == FINE) {
        had = b.n;
        status = board_grow(&b, c->file, slots);
    }
    if (status == FINE)
        status = board_write(&k, &b);
    if (status == FINE)
        status = keep_replace(&k);
    keep_release(&k);
    return status == FINE ? tell_grown(c, slots, had, board_used(&b)) : status;
}

static int tell_converted(const char *from, const char *to, const board *b)
{
    char name[NAME_ROOM], old[NAME_ROOM];
    if (!as_json) {
        printf("%s: a board of %lu slots, %lu of them used, as in %s, which is left as it is\n",
               name_safely(to, name, sizeof name), (unsigned long)b->n, (unsigned long)board_used(b),
               name_safely(from, old, sizeof old));
        return FINE;
    }
    json_object(NULL);
    json_bool("accepted", 1);
    json_number("code", ESK_ACCEPTED);
    json_word("file", to);
    json_number("slots", (long long)b->n);
    json_number("used", (long long)board_used(b));
    json_close();
    return FINE;
}

static int convert(const call *c, int count, char **words)
{
    static board b;
    if (count != 1)
        return trouble("convert", "give the file of the new board");
    int status = board_convert(c->file, words[0], &b, c->wait);
    return status == FINE ? tell_converted(c->file, words[0], &b) : status;
}

static int tell_added(const char *designator, unsigned long commands, size_t length)
{
    if (!as_json) {
        printf("accepted: %lu bytes wait for %s\n", (unsigned long)length, designator);
        return FINE;
    }
    json_object(NULL);
    json_bool("accepted", 1);
    json_number("code", ESK_ACCEPTED);
    json_word("designator", designator);
    json_number("commands", (long long)commands);
    json_number("length", (long long)length);
    json_close();
    return FINE;
}

/* What puts a command on a board that was read: board_add or board_return. */
typedef int (*putter)(board *b, const char *designator, const uint8_t *text, size_t length, size_t *waiting);

/* All the commands or none: what is accepted is told once it is on disk. */
static int put(call *c, putter onto, int count, char **words)
{
    static board b;
    static joined all;
    size_t length = 0;
    kept k;
    if (count < 2)
        return trouble(c->verb, "give the aircraft's designator and a command");
    int status = gather(&c->in, count - 1, words + 1, &all);
    if (status == FINE && c->in_db) {
        status = db_put(c->file, c->wait, words[0], all.text, all.length, onto == board_return, &length);
        return status == FINE ? tell_added(words[0], all.texts, length) : status;
    }
    if (status != FINE)
        return status;
    offices shared;
    status = board_hold(&k, &b, c->file, c->wait);
    if (status == FINE)
        status = offices_read(c->file, &shared);
    if (status == FINE && c->office != NULL)
        status = office_add(&b, &shared, c->office, words[0], all.text, all.length, &length);
    else if (status == FINE && onto == board_add && shared.count > 0)
        status = trouble("add", "offices share this board; say which one adds, with --office");
    else if (status == FINE)
        status = onto(&b, words[0], all.text, all.length, &length);
    if (status == FINE)
        status = board_write(&k, &b);
    if (status == FINE)
        status = keep_replace(&k);
    keep_release(&k);
    return status == FINE ? tell_added(words[0], all.texts, length) : status;
}

/* Whether a word of an option names a file. */
static int is_file(const char *option, const char *word)
{
    if (word == NULL || strcmp(word, "-") != 0)
        return 1;
    trouble(option, "give a file%s", strcmp(option, "--to") == 0 ? "; without --to it goes to standard output" : "");
    return 0;
}

static int take(const call *c, int count, char **words)
{
    if (count != 1)
        return trouble("take", "give the aircraft's designator");
    if (!is_file("--to", c->to) || !is_file("--journal", c->journal))
        return TROUBLE;
    if (c->to != NULL && c->journal != NULL && strcmp(c->to, c->journal) == 0)
        return trouble("--to", "%s is the journal; give another file", c->to);
    taking t = {c->file, words[0], c->to, c->journal, c->wait};
    return c->in_db ? db_hand_over(&t) : board_hand_over(&t);
}

/* The grants, one line or one object for each office. */
static int tell_grants(const offices *all)
{
    char words[600];
    for (size_t i = 0; i < all->count; i++) {
        const esk_grant *g = &all->each[i].grant;
        grant_words(g, words, sizeof words);
        if (!as_json) {
            printf("%s: %s\n", all->each[i].name, words);
            continue;
        }
        json_object(NULL);
        json_word("office", all->each[i].name);
        json_list("flags");
        for (int j = 0; j < 7; j++)
            if (g->flags[j])
                json_word(NULL, flag_names[j]);
        json_close();
        json_list("sections");
        for (int j = 0; j < 8; j++)
            if (g->sections[j])
                json_number(NULL, j + 2);
        json_close();
        json_bool("downlinks", g->downlinks != 0);
        json_close();
    }
    return FINE;
}

static int grant(const call *c, int count, char **words)
{
    offices all;
    esk_grant g;
    if (count > 1)
        return trouble("grant", "give one office");
    int status = count == 0 ? offices_read(c->file, &all) : grant_of(c->flags, c->sections, c->downlinks, &g);
    if (status == FINE && count == 1)
        status = offices_grant(c->file, words[0], &g, &all, c->wait);
    return status == FINE ? tell_grants(&all) : status;
}

/* Words of a board's own file, which a database has not: it has no slots, no offices and a journal of its own. */
static int is_for_files(const call *c)
{
    static const char *const verbs[] = {"grow", "convert", "grant"};
    int found = c->journal != NULL || c->office != NULL;
    for (size_t i = 0; i < sizeof verbs / sizeof *verbs; i++)
        found |= strcmp(c->verb, verbs[i]) == 0;
    return found;
}

/* What is done with the board, by its word. */
static int act(call *c, int count, char **words)
{
    const char *verb = c->verb;
    if (c->in_db && is_for_files(c))
        return trouble("--db", "there are no slots, offices or journal files in a database; --help tells what there is");
    if (c->to != NULL && strcmp(verb, "take") != 0)
        return trouble("--to", "only a taking has it");
    if (c->journal != NULL && strcmp(verb, "take") != 0)
        return trouble("--journal", "only a taking has it");
    if (c->office != NULL && strcmp(verb, "add") != 0)
        return trouble("--office", "only an adding has it");
    if ((c->flags != NULL || c->sections != NULL || c->downlinks) && strcmp(verb, "grant") != 0)
        return trouble(verb, "--flags, --sections and --downlinks are a grant's");
    if (strcmp(verb, "grant") == 0)
        return grant(c, count, words);
    if (c->in_db && strcmp(verb, "create") == 0)
        return count == 0 ? db_create(c->file, c->wait) : trouble("create", "a board in a database has no slots");
    if (strcmp(verb, "create") == 0)
        return create(c, count, words);
    if (strcmp(verb, "grow") == 0)
        return grow(c, count, words);
    if (strcmp(verb, "convert") == 0)
        return convert(c, count, words);
    if (strcmp(verb, "add") == 0)
        return put(c, board_add, count, words);
    if (strcmp(verb, "return") == 0)
        return put(c, board_return, count, words);
    if (strcmp(verb, "take") == 0)
        return take(c, count, words);
    int is_list = strcmp(verb, "list") == 0;
    int is_check = strcmp(verb, "check") == 0;
    if (is_list && count > 1)
        return trouble("list", "give one designator, or none for all");
    if (is_check && count > 0)
        return trouble("check", "it takes no words");
    if (is_list && count == 1)
        return c->in_db ? db_look_at(c->file, c->wait, words[0]) : board_look_at(c->file, words[0]);
    if (is_list || is_check)
        return c->in_db ? db_look(c->file, c->wait, is_list) : board_look(c->file, is_list);
    if (count != 1 && strcmp(verb, "find") == 0)
        return trouble("find", "give what the designators begin with, once; '' for all");
    if (strcmp(verb, "find") == 0)
        return c->in_db ? db_find(c->file, c->wait, words[0]) : board_find(c->file, words[0]);
    return trouble(verb, "no such thing to do with a board; --help tells what there is");
}

static int run(int count, char **words)
{
    const char *wait = "10";
    call c = {NULL, NULL, 0, 0, NULL, NULL, NULL, NULL, NULL, 0, {0, 0, 0, NULL, NULL}};
    const option known[] = {SET_OPTION("--db", &c.in_db), VALUE_OPTION("--wait", NULL, &wait),
                            VALUE_OPTION("--to", NULL, &c.to), VALUE_OPTION("--journal", NULL, &c.journal),
                            VALUE_OPTION("--office", NULL, &c.office),
                            VALUE_OPTION("--flags", NULL, &c.flags), VALUE_OPTION("--sections", NULL, &c.sections),
                            SET_OPTION("--downlinks", &c.downlinks), SET_OPTION("--text", &c.in.typed),
                            SET_OPTION("--exact", &c.in.exact)};
    if (take_options(&count, words, known, OPTIONS(known)) != FINE)
        return TROUBLE;
    c.wait = whole_number(wait, 0, WAIT_MOST);
    if (c.wait < 0)
        return trouble("--wait", "give whole seconds");
    if (count < 2)
        return trouble(NULL, "give the board's file and what to do; --help tells more");
    c.file = words[0];
    c.verb = words[1];
    return act(&c, count - 2, words + 2);
}

const subcommand board_subcommand = {
    "board",
    "FILE create N | add [--office NAME] DESIGNATOR COMMAND..\n"
    "           | take [--to FILE] [--journal FILE] DESIGNATOR\n"
    "           | return DESIGNATOR COMMAND..\n"
    "           | list [DESIGNATOR] | find PREFIX | check | grow N | convert NEW\n"
    "           | grant [OFFICE [--flags F,..] [--sections N,..] [--downlinks]]\n"
    "       eskelvor board --db FILE create | add | take | return | list | find | check ..",
    "Keeps the board of waiting commands in a file",
    "  create N     makes a board of N slots, at most 64; a file that is there stays\n"
    "  add          adds commands for an aircraft, all of them or none; words and\n"
    "               files as for eskelvor check\n"
    "  take         hands what waits for an aircraft to standard output, and frees\n"
    "               its slot\n"
    "  --to FILE    takes it into a new file instead, which is on disk before the\n"
    "               slot is freed; a file that is there stays\n"
    "  --journal FILE\n"
    "               enters it into this journal (eskelvor help journal), which is on\n"
    "               disk before the slot is freed; a broken or full one is refused, and\n"
    "               the command still waits\n"
    "  return       puts what was taken back, before all that waits by now\n"
    "  list         shows what waits, in rising order of designator; for one aircraft,\n"
    "               in words\n"
    "  find PREFIX  shows what waits for the aircraft whose designators begin so\n"
    "  check        says whether the file and its board are sound\n"
    "  grow N       gives the board N slots, no fewer than it has and at most 64;\n"
    "               all that waits stays\n"
    "  convert NEW  of a board from before section 7, which is refused elsewhere, makes\n"
    "               a new one with all that waits; a file that is there stays, and so\n"
    "               does the old board\n"
    "  grant OFFICE gives one of two offices that share the board its grant, kept in\n"
    "               FILE.grants; refused with 13 where the other office has any of it.\n"
    "               Without a name it shows the grants\n"
    "  --flags F,.. of amdar, hours, regions, airports, ascent, enroute, descent\n"
    "  --sections N,..\n"
    "               of 2 to 9\n"
    "  --downlinks  and downlinks\n"
    "  --office NAME\n"
    "               adds for that office: a command outside its grant is refused with\n"
    "               13, which says what is outside; where there are grants, every add\n"
    "               has an office. Taking needs none\n"
    "  --db         the board is in a database, FILE of SQLite: it has no slots, and all\n"
    "               that is taken is in its own journal, the table handed_over\n"
    "  --wait S     waits S seconds for another writer of the board (10)\n"
    "  --text       every word behind the designator is a command\n"
    "  --exact      all the bytes of a file are one command, line ends too\n"
    "\n"
    "A kill at any moment leaves the board as it was before, or as it is after. An\n"
    "add that was told accepted is on disk. A taking is handed out before the board\n"
    "that lacks it is put in place: a kill between the two hands it out twice. Into a\n"
    "file it is never lost. A pipe may hold it when its reader stops, and then it is\n"
    "lost: take it --to a file, send that, and return it where that fails. With a\n"
    "journal it is on the board or in the journal at every moment; a kill between the\n"
    "two leaves it in both, which the next taking tells. A damaged file is refused\n"
    "with code 10, and never mended.\n",
    run,
    0,
};
