/*
 * Every SQL function of the SQLite extension handed anything at all: damaged commands and reports, any bytes, NULs, numbers,
 * NULL, long texts, too few and too many values. Each call answers or is an SQL error; none ends the process.
 *
 *   any_bytes EXTENSION REPORTS CALLS SEED
 */
#include <sqlite3.h>
#include <stdint.h>
#include <stdio.h>
#include <stdlib.h>
#include <string.h>

enum { ROOM = 1 << 20, REPORT = 220 };

static const struct function {
    const char *name;
    unsigned values;
} functions[] = {
    {"check", 1},   {"refusal", 1}, {"accepted", 1},     {"designator", 1},     {"join", 2},   {"joined", 1},
    {"commute", 2}, {"section", 2}, {"reset", 0},        {"apply", 2},          {"difference", 2}, {"why", 6},
    {"report", 1},  {"track", 1},   {"report_check", 1}, {"report_refusal", 1}, {"version", 0},
};

static const char *const commands[] = {
    "AWR049999999000000000/",
    "AWR041199999100400009/300/2301/",
    "AWR049999999023456789/0160N40N010W005E00/01ABCD0000001/151/1060902005120021/1/104020021/1/2301/",
};

static const char *const words[] = {"", "ascent", "level", "descent", "YMML", "AU0137", "0000", "\xc3\xa9", "\xff"};
static const sqlite3_int64 numbers[] = {0, 1, 2, 9, 10, -1, 23, 24, 5400, 5401, INT64_MIN, INT64_MAX};

static uint64_t state;
static uint8_t report[REPORT];

static unsigned below(unsigned end)
{
    state ^= state >> 12;
    state ^= state << 25;
    state ^= state >> 27;
    return (unsigned)((state * 2685821657736338717ULL) >> 32) % end;
}

/* A text with up to three damages; gives its length. */
static size_t damaged(const void *from, size_t length, uint8_t *to)
{
    memcpy(to, from, length);
    for (unsigned left = below(4); left > 0; left--) {
        size_t at = below((unsigned)length + 1);
        if (at == length)
            to[length++] = (uint8_t)below(256);
        else if (below(4) == 0)
            length = at;
        else
            to[at] = (uint8_t)below(256);
    }
    return length;
}

/* The bytes of a text or blob. Long ones are rare. */
static size_t bytes(uint8_t *to)
{
    const char *command = commands[below(3)];
    size_t length = below(900);
    switch (below(6)) {
    case 0:
    case 1: return damaged(command, strlen(command), to);
    case 2: return damaged(report, REPORT, to);
    case 3:
        for (size_t i = 0; i < length; i++)
            to[i] = (uint8_t)below(256);
        return length;
    case 4: length = below(200) == 0 ? ROOM : 844 + below(3); memset(to, 'A', length); return length;
    default: return (size_t)snprintf((char *)to, 16, "%s", words[below(9)]);
    }
}

static void bind(sqlite3_stmt *statement, int at)
{
    static uint8_t text[ROOM];
    switch (below(10)) {
    case 0: sqlite3_bind_null(statement, at); break;
    case 1: sqlite3_bind_int64(statement, at, numbers[below(12)]); break;
    case 2: sqlite3_bind_double(statement, at, below(2) ? 1.5 : 1e300); break;
    case 3:
    case 4: sqlite3_bind_blob(statement, at, text, (int)bytes(text), SQLITE_TRANSIENT); break;
    default: sqlite3_bind_text(statement, at, (const char *)text, (int)bytes(text), SQLITE_TRANSIENT); break;
    }
}

/* One call; gives whether it answered. */
static int call(sqlite3 *db)
{
    const struct function *f = &functions[below(sizeof functions / sizeof *functions)];
    unsigned values = below(20) == 0 ? below(8) : f->values;
    char text[128];
    int at = snprintf(text, sizeof text, "SELECT eskelvor_%s(", f->name);
    for (unsigned i = 0; i < values; i++)
        at += snprintf(text + at, sizeof text - (size_t)at, i ? ", ?" : "?");
    snprintf(text + at, sizeof text - (size_t)at, ")");
    sqlite3_stmt *statement = NULL;
    int status = sqlite3_prepare_v2(db, text, -1, &statement, NULL);
    for (unsigned i = 1; status == SQLITE_OK && i <= values; i++)
        bind(statement, (int)i);
    int answered = status == SQLITE_OK && sqlite3_step(statement) == SQLITE_ROW;
    sqlite3_finalize(statement);
    return answered;
}

int main(int count, char **given)
{
    sqlite3 *db;
    char *message = NULL;
    unsigned long answered = 0, calls = count == 5 ? strtoul(given[3], NULL, 10) : 0;
    FILE *from = count == 5 ? fopen(given[2], "rb") : NULL;
    if (from == NULL || fread(report, 1, REPORT, from) != REPORT)
        return 2;
    fclose(from);
    state = strtoul(given[4], NULL, 10) * 2654435761u + 1;
    if (sqlite3_open(":memory:", &db) != SQLITE_OK || sqlite3_enable_load_extension(db, 1) != SQLITE_OK ||
        sqlite3_load_extension(db, given[1], NULL, &message) != SQLITE_OK) {
        fprintf(stderr, "any_bytes: %s\n", message ? message : "no database");
        return 2;
    }
    for (unsigned long i = 0; i < calls; i++)
        answered += (unsigned long)call(db);
    sqlite3_close(db);
    printf("any bytes: %lu calls answered, %lu SQL errors\n", answered, calls - answered);
    return 0;
}
