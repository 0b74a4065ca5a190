/*
 * Files from before section 7, carried over: a full board of 64 texts of the old size; what is left when the program is
 * killed, or a call of the system fails, at each step; every bit of the old file flipped, every length cut, and boards and
 * configurations that no program of that time kept. The old bytes are laid down here, field by field.
 */
#include "stopped.h"

#include "../../desk/board.h"
#include "../../desk/config_file.h"

enum { OLD_TEXT = 835, OLD_SLOT = 8 + OLD_TEXT, OLD_MOST = 16 + 65 * OLD_SLOT + 4, CONFIG_ROOM = 900 };

/* The longest command of that time: every list full, every section but 7. */
#define BOX "90N90S180W180E"
#define BOXES "16" BOX BOX BOX BOX BOX BOX BOX BOX BOX BOX BOX BOX BOX BOX BOX BOX
#define EIGHTY "ABCDEFGHABCDEFGHABCDEFGHABCDEFGHABCDEFGHABCDEFGHABCDEFGHABCDEFGHABCDEFGHABCDEFGH"
#define NAMES "20" EIGHTY
#define LONGEST "AWR041111111223456089/" BOXES BOXES "/" NAMES NAMES NAMES NAMES "1/601/1060902005120021/1/0/2301/"
#define SHORT "AWR049199999100400009/300/2301/"

static char from[64], to[64];
static uint8_t old[OLD_MOST];

static void put_number(uint8_t *at, uint32_t number, int bytes)
{
    for (int i = 0; i < bytes; i++)
        at[i] = (uint8_t)(number >> 8 * i);
}

static void put_sum(size_t length)
{
    put_number(old + length, checksum(old, length), 4);
}

/* An old board of n free slots, all else of it a pattern; gives its length. */
static size_t old_board(size_t n)
{
    size_t length = 16 + n * OLD_SLOT;
    for (size_t i = 16; i < length; i++)
        old[i] = (uint8_t)(7 * i + 1);
    memcpy(old, "ESKBOARD\1\0\0\0", 12);
    put_number(old + 12, (uint32_t)n, 4);
    for (size_t i = 0; i < n; i++)
        put_number(old + 16 + 8 * i + 6, 0, 2);
    put_sum(length);
    return length + 4;
}

/* Puts a text into a slot of an old board of n slots. */
static void put_text(size_t n, size_t slot, const char *designator, const char *text, size_t length)
{
    memcpy(old + 16 + 8 * slot, designator, 6);
    put_number(old + 16 + 8 * slot + 6, (uint32_t)length, 2);
    memcpy(old + 16 + 8 * n + slot * OLD_TEXT, text, strlen(text));
    put_sum(16 + n * OLD_SLOT);
}

/* A text of the old longest that no other slot has: its flags count the slot. */
static const char *text_of_slot(size_t slot)
{
    static char text[sizeof LONGEST];
    memcpy(text, LONGEST, sizeof text);
    for (int i = 0; i < 7; i++)
        text[5 + i] = (char)('0' + (slot >> i & 1));
    return text;
}

static void put_file(const char *name, const void *bytes, size_t length)
{
    FILE *file = fopen(name, "wb");
    HOLD(file != NULL && fwrite(bytes, 1, length, file) == length && fclose(file) == 0, "a file");
}

/* Whether the old file is byte for byte as it was. */
static int is_left(size_t length)
{
    static uint8_t now[OLD_MOST];
    size_t there = 0;
    return keep_read(from, now, sizeof now, &there) == FINE && there == length && memcmp(now, old, length) == 0;
}

static int convert(const subcommand *s, long step, int how)
{
    char *words[] = {from, "convert", to};
    return run_stopped(s, step, how, 3, words);
}

/* ---- boards --------------------------------------------------------------------------------------------------------- */

/* All 64 slots used, each by a text of the old longest. */
static void full_board(void)
{
    static board b;
    char designator[7], why[200] = "";
    size_t length = old_board(64);
    for (size_t i = 0; i < 64; i++) {
        snprintf(designator, sizeof designator, "XY%04u", (unsigned)(64 - i));
        put_text(64, i, designator, text_of_slot(i), OLD_TEXT);
    }
    put_file(from, old, length);
    HOLD(board_unpack(&b, old, length, why, sizeof why) == TROUBLE, "it is not read as it is");
    HOLD(strstr(why, "eskelvor board OLD convert NEW") != NULL, "and the way over is told");
    HOLD(convert(&board_subcommand, -1, KILLED) == FINE, "a full board");
    HOLD(strstr(said(), "a board of 64 slots, 64 of them used") != NULL, "which is told");
    HOLD(is_left(length), "the old file is as it was");
    HOLD(board_read(to, &b) == FINE && b.n == 64 && board_used(&b) == 64, "the new one is sound, and as full");
    for (size_t i = 0; i < 64; i++) {
        snprintf(designator, sizeof designator, "XY%04u", (unsigned)(64 - i));
        HOLD(memcmp(b.slots[i].designator, designator, 6) == 0 && b.slots[i].length == OLD_TEXT, "the slot's aircraft");
        HOLD(memcmp(board_text(&b, i), text_of_slot(i), OLD_TEXT) == 0, "and its text, whole");
    }
    HOLD(convert(&board_subcommand, -1, KILLED) == TROUBLE && board_read(to, &b) == FINE, "a file that is there stays");
    HOLD(unlink(to) == 0, "removed");
}

/* Two of three slots used; the free one between them has bytes of its own, which are carried too. */
static size_t some_board(void)
{
    size_t length = old_board(3);
    put_text(3, 0, "XY0001", SHORT, sizeof SHORT - 1);
    put_text(3, 2, "AU0137", text_of_slot(5), OLD_TEXT);
    return length;
}

static int is_some_board(void)
{
    static board b;
    const uint8_t *area = old + 16 + 3 * 8;
    int same = board_read(to, &b) == FINE && b.n == 3 && board_used(&b) == 2 && b.slots[1].length == 0;
    for (size_t i = 0; i < 3 && same; i++)
        same = memcmp(b.slots[i].designator, old + 16 + 8 * i, 6) == 0 &&
               memcmp(board_text(&b, i), area + i * OLD_TEXT, OLD_TEXT) == 0;
    return same;
}

/* A conversion that stops at a step: a whole new board or none, and the old one as it was. */
static int stopped_board(long step, int how)
{
    size_t length = some_board();
    unlink(to);
    put_file(from, old, length);
    int status = convert(&board_subcommand, step, how), there = access(to, F_OK) == 0;
    HOLD(is_left(length), "the old file is as it was");
    HOLD(!there || is_some_board(), "a whole new board, or none");
    HOLD(status != FINE || there, "status 0 where it is there");
    HOLD(*said() == 0 || there, "it is told once it is there");
    HOLD(there || convert(&board_subcommand, -1, KILLED) == FINE, "the next one finds all in order");
    HOLD(is_some_board() && is_left(length), "and carries all of it");
    return status;
}

static int board_status(size_t length)
{
    static board b;
    char why[200] = "";
    int status = board_unpack_older(&b, old, length, why, sizeof why);
    HOLD(status == FINE || why[0] != 0, "a refusal says why");
    return status;
}

static void damaged_board(void)
{
    size_t length = some_board();
    HOLD(board_status(length) == FINE, "sound as it is");
    for (size_t i = 0; i < 8 * length; i++) {
        old[i / 8] ^= (uint8_t)(1 << i % 8);
        HOLD(board_status(length) != FINE, "a bit flipped");
        old[i / 8] ^= (uint8_t)(1 << i % 8);
    }
    for (size_t i = 0; i < length; i++)
        HOLD(board_status(i) == REFUSED, "cut short");
    HOLD(board_status(length + 1) == REFUSED, "a byte more");
}

/* Boards whose checksum is right, and which no program of that time kept. */
static void wrong_boards(void)
{
    size_t length = some_board();
    put_text(3, 1, "AU0137", SHORT, sizeof SHORT - 1);
    HOLD(board_status(length) == REFUSED, "one aircraft in two slots");
    some_board();
    put_text(3, 1, "au0137", SHORT, sizeof SHORT - 1);
    HOLD(board_status(length) == REFUSED, "a designator in small letters");
    some_board();
    put_text(3, 1, "ZZ9999", "AWR049999999000400000/611/", 26);
    HOLD(board_status(length) == REFUSED, "a text that is not accepted");
    some_board();
    put_text(3, 1, "ZZ9999", SHORT, sizeof SHORT - 2);
    HOLD(board_status(length) == REFUSED, "a text cut short");
    for (size_t more = 1; more <= 11; more++) {
        some_board();
        put_text(3, 1, "ZZ9999", LONGEST, OLD_TEXT + more);
        HOLD(board_status(length) == REFUSED, "a text longer than its slot");
    }
    some_board();
    put_text(3, 1, "ZZ9999", "AWR049999999000000700/104020021/", 32);
    HOLD(board_status(length) == REFUSED, "a text with section 7");
    some_board();
    put_text(3, 1, "ZZ9999", "AWR049999999000000009/2301/", 27);
    HOLD(board_status(length) == FINE, "a third text that is sound");
    HOLD(board_status(old_board(0)) == FINE && board_status(old_board(64)) == FINE, "no slots, and 64 free ones");
    HOLD(board_status(old_board(65)) == REFUSED, "65 slots");
    length = some_board();
    for (uint32_t version = 0; version < 260; version++) {
        put_number(old + 8, version, 4);
        put_sum(length - 4);
        HOLD(board_status(length) == (version == 1 ? FINE : TROUBLE), "another format version");
    }
}

/* ---- configurations ------------------------------------------------------------------------------------------------- */

#define ALL "AWR041100101023456089/0110S45S110E155E00/01YMML0000000/300/0036006011135010/0/1/2301/"
#define ALL_NOW "AWR041100101023456789/0110S45S110E155E00/01YMML0000000/300/0036006011135010/0/104020021/1/2301/"

/* An old configuration of this command; gives its length. */
static size_t old_config(const char *command)
{
    int length = snprintf((char *)old, CONFIG_ROOM, "ESKELVOR CONFIGURATION 1\n%s\n", command);
    length += snprintf((char *)old + length, 10, "%08lx\n", (unsigned long)checksum(old, (size_t)length));
    return (size_t)length;
}

static int config_status(size_t length)
{
    esk_settings s;
    const char *why = NULL;
    int status = config_unpack_older(&s, old, length, &why);
    HOLD(status == FINE || why != NULL, "a refusal says why");
    return status;
}

/* It is not read as it is, and the way over is told. */
static void told_config(void)
{
    esk_settings s;
    const char *why = NULL;
    HOLD(config_unpack(&s, old, old_config(ALL), &why) == TROUBLE, "an old configuration");
    HOLD(why != NULL && strstr(why, "eskelvor config OLD convert NEW") != NULL, "the way over");
}

static int is_carried(void)
{
    uint8_t text[ESK_COMMAND_BYTES];
    esk_settings s;
    if (config_read(to, &s) != FINE)
        return 0;
    size_t length = config_text(&s, text);
    return length == sizeof ALL_NOW - 1 && memcmp(text, ALL_NOW, length) == 0;
}

static int stopped_config(long step, int how)
{
    size_t length = old_config(ALL);
    unlink(to);
    put_file(from, old, length);
    int status = convert(&config_subcommand, step, how), there = access(to, F_OK) == 0;
    HOLD(is_left(length), "the old file is as it was");
    HOLD(!there || is_carried(), "a whole new configuration, or none");
    HOLD(status != FINE || there, "status 0 where it is there");
    HOLD(there || convert(&config_subcommand, -1, KILLED) == FINE, "the next one finds all in order");
    HOLD(is_carried() && is_left(length), "and carries all of it");
    return status;
}

static void wrong_configs(void)
{
    size_t length = old_config(ALL);
    HOLD(config_status(length) == FINE, "sound as it is");
    for (size_t i = 0; i < 8 * length; i++) {
        old[i / 8] ^= (uint8_t)(1 << i % 8);
        HOLD(config_status(length) != FINE, "a bit flipped");
        old[i / 8] ^= (uint8_t)(1 << i % 8);
    }
    for (size_t i = 0; i < length; i++)
        HOLD(config_status(i) == REFUSED, "cut short");
    HOLD(config_status(old_config(LONGEST)) == FINE, "the longest");
    HOLD(config_status(old_config(ALL_NOW)) == REFUSED, "one that has section 7");
    HOLD(config_status(old_config("AWR049100101023456089/0000/000000000/071/1060902005120021/1/1/0000/")) == REFUSED,
         "one that leaves a flag open");
    HOLD(config_status(old_config("AWR041100101023456080/0000/000000000/071/1060902005120021/1/1/")) == REFUSED,
         "one without section 9");
    HOLD(config_status(old_config("AWR041100101023456089/0000/000000000/611/1060902005120021/1/1/0000/")) == REFUSED,
         "one that is not accepted");
}

int main(void)
{
    static const char *const left[] = {"old", "new", "output", ".old.eskelvor-lock", ".new.eskelvor-lock"};
    char name[80];
    HOLD(sizeof LONGEST - 1 == OLD_TEXT, "the old longest");
    HOLD(mkdtemp(folder) != NULL, "a folder");
    snprintf(from, sizeof from, "%s/old", folder);
    snprintf(to, sizeof to, "%s/new", folder);
    snprintf(output, sizeof output, "%s/output", folder);
    full_board();
    for (int how = KILLED; how <= BROKEN; how++) {
        long board = each_step(stopped_board, how), config = each_step(stopped_config, how);
        HOLD(board >= 8 && config >= 7, "there are steps");
        printf("test_convert: stopped at each of %ld steps of a board's conversion, %ld of a configuration's (%s)\n", board,
               config, way_in_words(how));
    }
    damaged_board();
    wrong_boards();
    told_config();
    wrong_configs();
    for (size_t i = 0; i < sizeof left / sizeof *left; i++) {
        snprintf(name, sizeof name, "%s/%s", folder, left[i]);
        unlink(name);
    }
    HOLD(rmdir(folder) == 0, "nothing else is left in the folder");
    printf("test_convert: %lu checks hold\n", checks);
    return 0;
}
