/*
 * Files that are kept: what is left of a board's file when the program is killed, or a call of the system fails, at
 * each step of an add, a taking, a return, a growth and a creation; every bit of a board's file flipped, every length
 * cut; the same for a configuration's.
 */
#include "stopped.h"

#include "../../desk/board.h"
#include "../../desk/config_file.h"

/* ---- a board's file, stopped ------------------------------------------------------------------------------------ */

#define FIRST "AWR041999999000400000/151/"
#define SECOND "AWR049199999100400009/300/2301/"
#define BOTH "AWR041199999100400009/300/2301/"

static char file[64], sent[64], to_sent[80];

/* Calls `eskelvor board FILE ..`, stopped at a step. Gives its status; -1: it was killed. */
static int call(long step, int how, const char *verb, const char *designator, const char *command)
{
    char *words[] = {file, (char *)(size_t)verb, (char *)(size_t)designator, (char *)(size_t)command};
    return run_stopped(&board_subcommand, step, how, command ? 4 : designator ? 3 : 2, words);
}

/* The text that waits for the aircraft, "" for none; the file must be sound. */
static const char *waiting(void)
{
    static board b;
    static char text[ESK_COMMAND_BYTES + 1];
    HOLD(board_read(file, &b) == FINE, "the file is sound, whatever happened");
    text[0] = 0;
    if (b.slots[0].length != 0)
        snprintf(text, sizeof text, "%.*s", b.slots[0].length, (const char *)board_text(&b, 0));
    return text;
}

static void fresh_board(const char *command)
{
    unlink(file);
    HOLD(call(-1, KILLED, "create", "2", NULL) == FINE, "a new board");
    if (command)
        HOLD(call(-1, KILLED, "add", "XY0001", command) == FINE, "a command waits");
}

/* An add that stops at a step: the old text waits or the joined one, and the joined one where it was told accepted. */
static int stopped_add(long step, int how)
{
    fresh_board(FIRST);
    int status = call(step, how, "add", "XY0001", SECOND);
    const char *text = waiting();
    int told = strncmp(said(), "accepted", 8) == 0;
    HOLD(strcmp(text, FIRST) == 0 || strcmp(text, BOTH) == 0, "the old text, or the new one");
    HOLD(!told || strcmp(text, BOTH) == 0, "accepted is told once it is on disk");
    HOLD(status != FINE || told, "status 0 where it was told");
    HOLD(call(-1, KILLED, "add", "XY0001", SECOND) == FINE, "the next writer finds all in order");
    HOLD(strcmp(waiting(), BOTH) == 0, "added again, it is the same text");
    return status;
}

/* A taking that stops at a step: the text waits, or it was handed out whole. */
static int stopped_take(long step, int how)
{
    fresh_board(BOTH);
    int status = call(step, how, "take", "XY0001", NULL);
    int waits = strcmp(waiting(), BOTH) == 0, handed = strcmp(said(), BOTH "\n") == 0;
    HOLD(waits || *waiting() == 0, "all of the text, or none");
    HOLD(waits || handed, "what no longer waits was handed out");
    HOLD(status != FINE || (handed && !waits), "status 0 where it was handed out and is gone");
    HOLD(call(-1, KILLED, "add", "XY0001", BOTH) == FINE, "the next writer finds all in order");
    return status;
}

/* A taking into a file that stops at a step: the text waits, or it is whole in the file. */
static int stopped_take_to(long step, int how)
{
    fresh_board(BOTH);
    unlink(sent);
    int status = call(step, how, "take", "XY0001", to_sent);
    int waits = strcmp(waiting(), BOTH) == 0, there = access(sent, F_OK) == 0;
    HOLD(!there || strcmp(text_of(sent), BOTH "\n") == 0, "the whole text in the file, or no file");
    HOLD(waits || (there && *waiting() == 0), "what no longer waits is in the file");
    HOLD(status != FINE || (there && !waits), "status 0 where it is there and is gone");
    HOLD(status == FINE || *said() == 0 || !waits, "taken is told once it is so");
    HOLD(call(-1, KILLED, "return", "XY0001", BOTH) == FINE, "it can be put back");
    HOLD(strcmp(waiting(), BOTH) == 0, "and is what waited");
    return status;
}

/* A return that stops at a step: the newer text waits, or the returned one with the newer one behind it. */
static int stopped_return(long step, int how)
{
    fresh_board(SECOND);
    int status = call(step, how, "return", "XY0001", FIRST);
    int told = strncmp(said(), "accepted", 8) == 0;
    HOLD(strcmp(waiting(), SECOND) == 0 || strcmp(waiting(), BOTH) == 0, "the newer text, or both");
    HOLD(!told || strcmp(waiting(), BOTH) == 0, "accepted is told once it is on disk");
    HOLD(status != FINE || told, "status 0 where it was told");
    HOLD(call(-1, KILLED, "return", "XY0001", FIRST) == FINE, "the next writer finds all in order");
    HOLD(strcmp(waiting(), BOTH) == 0, "returned again, it is the same text");
    return status;
}

static int stopped_create(long step, int how)
{
    unlink(file);
    int status = call(step, how, "create", "2", NULL), there = access(file, F_OK) == 0;
    HOLD(!there || *waiting() == 0, "a whole board, or none");
    HOLD(status != FINE || there, "status 0 where it is there");
    HOLD(!there || call(-1, KILLED, "add", "XY0001", FIRST) == FINE, "what a killed creation left is no second name");
    return status;
}

/* A growth that stops at a step: the board has its old slots or the new ones, and the text waits. */
static int stopped_grow(long step, int how)
{
    static board b;
    fresh_board(BOTH);
    int status = call(step, how, "grow", "9", NULL);
    int told = strstr(said(), "a board of 9 slots") != NULL;
    HOLD(strcmp(waiting(), BOTH) == 0, "what waits stays");
    HOLD(board_read(file, &b) == FINE && (b.n == 2 || b.n == 9), "the old slots, or the new ones");
    HOLD(!told || b.n == 9, "it is told once it is on disk");
    HOLD(status != FINE || told, "status 0 where it was told");
    HOLD(call(-1, KILLED, "grow", "9", NULL) == FINE, "the next writer finds all in order");
    HOLD(strcmp(waiting(), BOTH) == 0, "and what waits stays");
    return status;
}

static void stops_anywhere(void)
{
    for (int how = KILLED; how <= BROKEN; how++) {
        long add = each_step(stopped_add, how), take = each_step(stopped_take, how);
        long create = each_step(stopped_create, how), back = each_step(stopped_return, how);
        long into = each_step(stopped_take_to, how), grow = each_step(stopped_grow, how);
        HOLD(add >= 6 && take >= 7 && create >= 6 && back >= 6 && into >= 13 && grow >= 6, "there are steps");
        printf("test_keep: stopped at each of %ld steps of a return, %ld of a taking into a file, %ld of a growth\n",
               back, into, grow);
        printf("test_keep: stopped at each of %ld steps of an add, %ld of a taking, %ld of a creation (%s)\n", add,
               take, create, way_in_words(how));
    }
}

/* While one writer holds the board, another is turned away and a reader is not. */
static void second_writer(void)
{
    kept k;
    fresh_board(FIRST);
    HOLD(keep_hold(&k, file, 0) == FINE, "the first writer");
    char *words[] = {file, "add", "XY0001", SECOND, "--wait=0"};
    fflush(NULL);
    pid_t child = fork();
    if (child == 0) {
        int turned = freopen("/dev/null", "wb", stderr) != NULL && board_subcommand.run(5, words) == TROUBLE;
        char *look[] = {file, "check"};
        _exit(freopen("/dev/null", "wb", stdout) != NULL && turned && board_subcommand.run(2, look) == FINE ? 0 : 1);
    }
    int status;
    HOLD(child > 0 && waitpid(child, &status, 0) == child && WIFEXITED(status), "a process of its own");
    HOLD(WEXITSTATUS(status) == 0, "the second writer is turned away, the reader is not");
    keep_release(&k);
    HOLD(strcmp(waiting(), FIRST) == 0, "and nothing was added");
}

/* ---- damaged files ---------------------------------------------------------------------------------------------- */

static uint8_t packed[BOARD_MOST + 1];

/* A small board: one slot used, one free. */
static size_t small_board(void)
{
    static board b;
    memset(&b, 0, sizeof b);
    b.n = 2;
    esk_answer a = esk_board_add(b.slots, 2, b.area, 2 * ESK_COMMAND_BYTES, (const uint8_t *)"XY0001", 6,
                                 (const uint8_t *)BOTH, sizeof BOTH - 1);
    HOLD(a.code == ESK_ACCEPTED, "a small board");
    return board_pack(&b, packed);
}

static int board_status(size_t length)
{
    static board b;
    char why[200] = "";
    int status = board_unpack(&b, packed, length, why, sizeof why);
    HOLD(status == FINE || why[0] != 0, "a refusal says why");
    return status;
}

static void flipped_board(void)
{
    size_t length = small_board();
    HOLD(length == BOARD_HEAD + 2 * BOARD_A_SLOT + BOARD_TAIL && board_status(length) == FINE, "sound as it is");
    for (size_t i = 0; i < 8 * length; i++) {
        packed[i / 8] ^= (uint8_t)(1 << i % 8);
        HOLD(board_status(length) != FINE, "a bit flipped");
        packed[i / 8] ^= (uint8_t)(1 << i % 8);
    }
    HOLD(board_status(length) == FINE, "and back");
}

static void cut_board(void)
{
    size_t length = small_board();
    for (size_t i = 0; i < length; i++)
        HOLD(board_status(i) == REFUSED, "a file cut short");
    HOLD(board_status(length + 1) == REFUSED, "a byte more");
}

/* A board whose checksum is right and which is not valid all the same. */
static void wrong_board(void)
{
    size_t length = small_board() - BOARD_TAIL;
    packed[BOARD_HEAD] = 'x'; /* the designator */
    for (int i = 0; i < 4; i++)
        packed[length + (size_t)i] = (uint8_t)(checksum(packed, length) >> 8 * i);
    HOLD(board_status(length + BOARD_TAIL) == REFUSED, "the proved check has the last word");
    packed[8] = BOARD_VERSION + 1;
    HOLD(board_status(length + BOARD_TAIL) == TROUBLE, "a later format version");
    packed[8] = BOARD_VERSION - 1;
    HOLD(board_status(length + BOARD_TAIL) == TROUBLE, "an older one");
}

static void flipped_config(void)
{
    uint8_t bytes[CONFIG_MOST + 1];
    const char *why;
    esk_settings s = esk_reset(), got;
    size_t length = config_pack(&s, bytes);
    HOLD(config_unpack(&got, bytes, length, &why) == FINE && memcmp(&got, &s, sizeof s) == 0, "there and back");
    for (size_t i = 0; i < 8 * length; i++) {
        bytes[i / 8] ^= (uint8_t)(1 << i % 8);
        HOLD(config_unpack(&got, bytes, length, &why) != FINE && why != NULL, "a bit flipped");
        bytes[i / 8] ^= (uint8_t)(1 << i % 8);
    }
}

static void cut_config(void)
{
    uint8_t bytes[CONFIG_MOST + 1];
    const char *why;
    esk_settings s = esk_reset(), got;
    size_t length = config_pack(&s, bytes);
    for (size_t i = 0; i < length; i++)
        HOLD(config_unpack(&got, bytes, i, &why) == REFUSED, "a file cut short");
}

int main(void)
{
    char lock[80];
    HOLD(checksum((const uint8_t *)"123456789", 9) == 0xcbf43926u, "CRC-32's own check value");
    HOLD(mkdtemp(folder) != NULL, "a folder");
    snprintf(file, sizeof file, "%s/board", folder);
    snprintf(output, sizeof output, "%s/output", folder);
    snprintf(sent, sizeof sent, "%s/sent", folder);
    snprintf(to_sent, sizeof to_sent, "--to=%s", sent);
    stops_anywhere();
    second_writer();
    flipped_board();
    cut_board();
    wrong_board();
    flipped_config();
    cut_config();
    snprintf(lock, sizeof lock, "%s/.board.eskelvor-lock", folder);
    unlink(lock);
    snprintf(lock, sizeof lock, "%s/.sent.eskelvor-lock", folder);
    unlink(lock);
    unlink(sent);
    unlink(file);
    unlink(output);
    HOLD(rmdir(folder) == 0, "nothing else is left in the folder");
    printf("test_keep: %lu checks hold\n", checks);
    return 0;
}
