/* The engine of load.c for PostgreSQL, over libpq. */
#define _POSIX_C_SOURCE 200809L
#include "load.h"

#include <libpq-fe.h>
#include <stdio.h>
#include <stdlib.h>
#include <string.h>
#include <time.h>

/*
 * The statements of host/sql/board.postgres.sql, each counted in the same statement: the row of `steps` is made of the row
 * that was changed, so that its number is drawn while that is locked. An add is handed $1 designator, $2 command, $3
 * client, $4 step; a taking has no $2.
 */
#define ADDED(what) \
    "WITH added AS (" what ") INSERT INTO steps (kind, client, step, designator, given, text) " \
    "SELECT 'add', $3::int, $4::bigint, $1, $2, command FROM added RETURNING number, text"
#define UPSERT(value) \
    "INSERT INTO waiting (designator, command) VALUES ($1, $2) ON CONFLICT (designator) DO UPDATE SET command = " value \
    " RETURNING command"
#define TAKEN(journalled) \
    "WITH taken AS (DELETE FROM waiting WHERE designator = $1 RETURNING designator, command), " journalled \
    "INSERT INTO steps (kind, client, step, designator, text) " \
    "SELECT 'take', $2::int, $3::bigint, designator, command FROM taken RETURNING number, text"
#define JOURNALLED \
    "journalled AS (INSERT INTO handed_over (designator, command) SELECT designator, command FROM taken RETURNING number) "
#define JOINED "eskelvor_join(waiting.command, excluded.command)"

static const struct statements {
    const char *name, *add, *take;
} all[] = {
    {"right", ADDED(UPSERT(JOINED)), TAKEN(JOURNALLED)},
    /* A partition on another server takes no ON CONFLICT: an update, and an insertion where there was no row. Another's
     * insertion in between is an error, and the step is sent again. */
    {"sharded",
     "WITH joined AS (UPDATE waiting SET command = eskelvor_join(command, $2) WHERE designator = $1 RETURNING command), "
     "fresh AS (INSERT INTO waiting (designator, command) SELECT $1, $2 WHERE NOT EXISTS (SELECT FROM joined) "
     "RETURNING command) "
     "INSERT INTO steps (kind, client, step, designator, given, text) SELECT 'add', $3::int, $4::bigint, $1, $2, command "
     "FROM (SELECT command FROM joined UNION ALL SELECT command FROM fresh) AS either RETURNING number, text",
     TAKEN(JOURNALLED)},
    /* Wrong ones, which the check has to refuse. */
    {"swapped", ADDED(UPSERT("eskelvor_join(excluded.command, waiting.command)")), TAKEN(JOURNALLED)},
    {"last", ADDED(UPSERT("excluded.command")), TAKEN(JOURNALLED)},
    {"unlocked",
     "WITH added AS (INSERT INTO waiting (designator, command) VALUES ($1, coalesce(eskelvor_join((SELECT command FROM "
     "waiting WHERE designator = $1), $2), $2)) ON CONFLICT (designator) DO UPDATE SET command = excluded.command "
     "RETURNING command) INSERT INTO steps (kind, client, step, designator, given, text) "
     "SELECT 'add', $3::int, $4::bigint, $1, $2, command FROM added RETURNING number, text",
     TAKEN(JOURNALLED)},
    {"blind", ADDED(UPSERT(JOINED)),
     "WITH taken AS (DELETE FROM waiting WHERE designator = $1 AND random() < 0.5 RETURNING designator, command), " JOURNALLED
     "INSERT INTO steps (kind, client, step, designator, text) "
     "SELECT 'take', $2::int, $3::bigint, designator, command FROM taken RETURNING number, text"},
    {"unjournalled", ADDED(UPSERT(JOINED)), TAKEN("unused AS (SELECT 1) ")},
    /* For measuring: the board's own statements; and the same of tables without checks, with concatenation. */
    {"bare",
     "SELECT 0, command FROM (SELECT $3::int, $4::bigint) AS unused, board_add($1, $2) AS command",
     "SELECT number, command FROM (SELECT $2::int, $3::bigint) AS unused, board_take($1)"},
    {"plain",
     "SELECT 0, command FROM (SELECT $3::int, $4::bigint) AS unused, plain_add($1, $2) AS command",
     "SELECT number, command FROM (SELECT $2::int, $3::bigint) AS unused, plain_take($1)"},
};

static const struct statements *chosen;
static const char *database;
static PGconn *connection;

static void pause_a_little(void)
{
    struct timespec t = {0, 50000000};
    nanosleep(&t, NULL);
}

static int prepared(const char *name, const char *text)
{
    PGresult *r = PQprepare(connection, name, text, 0, NULL);
    int fine = PQresultStatus(r) == PGRES_COMMAND_OK;
    if (!fine && PQstatus(connection) == CONNECTION_OK && PQresultErrorField(r, PG_DIAG_SQLSTATE) != NULL &&
        strncmp(PQresultErrorField(r, PG_DIAG_SQLSTATE), "42", 2) == 0)
        die("statement", PQerrorMessage(connection)); /* it is wrong: no waiting mends it */
    PQclear(r);
    return fine;
}

/* Connects, also to a server that is being started again: up to two minutes. */
static void reconnect(void)
{
    for (int i = 0; i < 2400; i++) {
        PQfinish(connection);
        connection = PQconnectdb(database);
        if (PQstatus(connection) == CONNECTION_OK && prepared("add", chosen->add) && prepared("take", chosen->take))
            return;
        pause_a_little();
    }
    die(database, PQerrorMessage(connection));
}

void engine_open(const char *words, const char *statements)
{
    database = words;
    for (size_t i = 0; i < sizeof all / sizeof *all; i++)
        if (strcmp(all[i].name, statements) == 0)
            chosen = &all[i];
    if (chosen == NULL)
        die(statements, "no such statements");
    reconnect();
}

static int is_one_of(const char *state, const char *const *states)
{
    while (*states != NULL && strcmp(state, *states) != 0)
        states++;
    return *states != NULL;
}

/* An error that the server told is a statement that changed nothing; but for those by which a connection ends, also that to
 * the other server of two. */
static outcome error(step *s, const PGresult *r)
{
    static const char *const again[] = {"40001", "40P01", "23505", NULL}; /* another was first */
    const char *state = PQresultErrorField(r, PG_DIAG_SQLSTATE);
    if (state == NULL || strncmp(state, "57P", 3) == 0 || strncmp(state, "08", 2) == 0 ||
        PQstatus(connection) != CONNECTION_OK) {
        pause_a_little();
        reconnect();
        return DOUBTED;
    }
    snprintf(s->text, sizeof s->text, "%s", PQresultErrorMessage(r));
    if (is_one_of(state, again))
        return AGAIN;
    if (strcmp(state, "22P02") != 0)
        die("statement", s->text);
    return REFUSED;
}

outcome engine_run(step *s)
{
    char client[16], number[24];
    snprintf(client, sizeof client, "%d", s->client);
    snprintf(number, sizeof number, "%ld", s->number);
    const char *adding[] = {s->designator, s->command, client, number}, *taking[] = {s->designator, client, number};
    PGresult *r = s->command != NULL ? PQexecPrepared(connection, "add", 4, adding, NULL, NULL, 0)
                                     : PQexecPrepared(connection, "take", 3, taking, NULL, NULL, 0);
    outcome o = DONE;
    if (PQresultStatus(r) != PGRES_TUPLES_OK)
        o = error(s, r);
    else if (PQntuples(r) == 0)
        o = NOTHING_WAITED;
    else {
        s->committed = atoll(PQgetvalue(r, 0, 0));
        snprintf(s->text, sizeof s->text, "%s", PQgetvalue(r, 0, 1));
    }
    PQclear(r);
    return o;
}

void engine_close(void)
{
    PQfinish(connection);
}
