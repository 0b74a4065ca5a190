/*
 * A taking that is entered into a journal, killed or failed at each step: the command is on the board or in the journal,
 * never in neither; it is in both at some step, which the next taking tells. The same for an add to a journal and for a
 * dropping; and a second writer of the journal.
 */
#include "stopped.h"

#include "../../desk/board.h"
#include "../../desk/journal_file.h"

#define TEXT "AWR041199999100400009/300/2301/"
#define OTHER "AWR049999999000000000/"

static char file[64], book[64], sent[64], to_book[80], to_sent[80];
static int begins_empty; /* the journal's file is not there yet */
static int with_file;    /* the command also goes into a file */
static int in_both;      /* steps after which it was on the board and in the journal */

static char *word(const char *text)
{
    return (char *)(size_t)text;
}

static int on_board(long step, int how, const char *verb, const char *third, const char *fourth)
{
    char *words[] = {file, word(verb), word(third), word(fourth)};
    return run_stopped(&board_subcommand, step, how, fourth ? 4 : 3, words);
}

static int on_journal(long step, int how, const char *verb, const char *third, const char *fourth)
{
    char *words[] = {book, word(verb), word(third), word(fourth)};
    return run_stopped(&journal_subcommand, step, how, fourth ? 4 : 3, words);
}

static int waits(void)
{
    static board b;
    HOLD(board_read(file, &b) == FINE, "the board is sound, whatever happened");
    HOLD(b.slots[0].length == 0 || b.slots[0].length == strlen(TEXT), "all of the text, or none");
    return b.slots[0].length != 0 && memcmp(board_text(&b, 0), TEXT, strlen(TEXT)) == 0;
}

/* How many entries of the text the journal has, behind the one that it began with. */
static int entered(void)
{
    static journal j;
    int count = 0;
    if (access(book, F_OK) != 0) {
        HOLD(begins_empty, "a journal that was there is there");
        return 0;
    }
    HOLD(journal_read(book, &j) == FINE, "the journal is sound, whatever happened");
    esk_entry e = journal_last(&j, j.end);
    for (; e.given && e.length == strlen(TEXT); e = journal_last(&j, e.offset)) {
        HOLD(memcmp(j.bytes + e.offset, "XY0001" TEXT, 6 + e.length) == 0, "the entry is the aircraft's");
        count++;
    }
    HOLD(e.given == !begins_empty, "what was in the journal stays");
    return count;
}

static void fresh(void)
{
    unlink(file);
    unlink(book);
    unlink(sent);
    HOLD(on_board(-1, KILLED, "create", "2", NULL) == FINE, "a new board");
    HOLD(on_board(-1, KILLED, "add", "XY0001", TEXT) == FINE, "a command waits");
    if (!begins_empty)
        HOLD(on_journal(-1, KILLED, "add", "XY0002", OTHER) == FINE, "an entry is there");
}

static int take(long step, int how)
{
    char *words[] = {file, word("take"), word("XY0001"), to_book, to_sent};
    return run_stopped(&board_subcommand, step, how, with_file ? 5 : 4, words);
}

static int handed(void)
{
    return with_file ? access(sent, F_OK) == 0 && strcmp(text_of(sent), TEXT "\n") == 0 : strcmp(said(), TEXT "\n") == 0;
}

/* Taken again where it still waits: then it is entered once, or twice after a stop in between, which a drop mends. */
static void take_again(int had)
{
    unlink(sent);
    HOLD(take(-1, KILLED) == FINE && handed() && !waits(), "the next taking finds all in order");
    HOLD(entered() == had + 1, "and is entered");
    if (had == 1)
        HOLD(on_journal(-1, KILLED, "drop", "1", NULL) == FINE && entered() == 1, "mended: the second is taken away");
}

static int stopped_take(long step, int how)
{
    fresh();
    int status = take(step, how);
    int board = waits(), had = entered();
    HOLD(board || had == 1, "on the board or in the journal, never in neither");
    HOLD(had <= 1, "entered once");
    HOLD(had == 0 || handed(), "what is in the journal was handed out");
    HOLD(status != FINE || (had == 1 && !board), "status 0 where it is in the journal and gone from the board");
    in_both += board && had == 1;
    if (board)
        take_again(had);
    return status;
}

/* An add to a journal: as it was, or with the entry; told once it is on disk. */
static int stopped_add(long step, int how)
{
    fresh();
    int status = on_journal(step, how, "add", "XY0001", TEXT);
    int had = entered(), told = strncmp(said(), "accepted", 8) == 0;
    HOLD(had <= 1 && (!told || had == 1), "accepted is told once it is on disk");
    HOLD(status != FINE || told, "status 0 where it was told");
    HOLD(on_journal(-1, KILLED, "add", "XY0001", TEXT) == FINE && entered() == had + 1, "the next writer finds all in order");
    return status;
}

static int stopped_drop(long step, int how)
{
    fresh();
    HOLD(on_journal(-1, KILLED, "add", "XY0001", TEXT) == FINE, "an entry to drop");
    int status = on_journal(step, how, "drop", "1", NULL);
    int had = entered(), told = strstr(said(), "dropped the newest 1;") != NULL;
    HOLD(had <= 1 && (!told || had == 0), "it is told once it is on disk");
    HOLD(status != FINE || told, "status 0 where it was told");
    HOLD(on_journal(-1, KILLED, "add", "XY0001", TEXT) == FINE && entered() == had + 1, "the next writer finds all in order");
    return status;
}

/* Killed with and without a journal's file and one for the command; failing with both or neither of them there. */
static void stops_anywhere(int how)
{
    long taking = 0;
    for (int i = 0; i < 4; i += how == KILLED ? 1 : 3) {
        begins_empty = i & 1;
        with_file = i >> 1;
        in_both = 0;
        long steps = each_step(stopped_take, how);
        HOLD(steps >= 12, "there are steps");
        HOLD(in_both >= 1, "at some step it is in both");
        taking += steps;
    }
    begins_empty = with_file = 0;
    long add = each_step(stopped_add, how), drop = each_step(stopped_drop, how);
    begins_empty = 1;
    long first = each_step(stopped_add, how);
    HOLD(add >= 6 && drop >= 6 && first >= 6, "there are steps");
    printf("test_taking: stopped at each of %ld steps of %d takings with a journal, %ld of an add, %ld of a first one, "
           "%ld of a dropping (%s)\n",
           taking, how == KILLED ? 4 : 2, add, first, drop, way_in_words(how));
}

/* While another writes the journal nothing is taken. */
static void second_writer(void)
{
    static journal j;
    begins_empty = with_file = 0;
    fresh();
    HOLD(journal_hold(&j, book, 0, 0) == FINE, "the first writer");
    char *words[] = {file, word("take"), word("XY0001"), to_book, word("--wait=0")};
    HOLD(run_stopped(&board_subcommand, -1, KILLED, 5, words) == TROUBLE, "the taking is turned away");
    HOLD(*said() == 0 && waits() && entered() == 0, "and nothing was handed out");
    keep_release(&j.file);
    HOLD(take(-1, KILLED) == FINE && entered() == 1, "then it is");
}

static void clear_away(void)
{
    static const char *const names[] = {"board", "book", "sent", "output", ".board.eskelvor-lock", ".book.eskelvor-lock",
                                        ".sent.eskelvor-lock"};
    for (size_t i = 0; i < sizeof names / sizeof *names; i++) {
        char path[80];
        snprintf(path, sizeof path, "%s/%s", folder, names[i]);
        unlink(path);
    }
    HOLD(rmdir(folder) == 0, "nothing else is left in the folder");
}

int main(void)
{
    HOLD(mkdtemp(folder) != NULL, "a folder");
    snprintf(file, sizeof file, "%s/board", folder);
    snprintf(book, sizeof book, "%s/book", folder);
    snprintf(sent, sizeof sent, "%s/sent", folder);
    snprintf(output, sizeof output, "%s/output", folder);
    snprintf(to_book, sizeof to_book, "--journal=%s", book);
    snprintf(to_sent, sizeof to_sent, "--to=%s", sent);
    for (int how = KILLED; how <= BROKEN; how++)
        stops_anywhere(how);
    second_writer();
    clear_away();
    printf("test_taking: %lu checks hold\n", checks);
    return 0;
}
