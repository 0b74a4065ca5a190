#!/bin/sh
# A command to 20,000 aircraft in one statement, for which others wait already; and what the board then takes on disk. The
# commands that wait are long ones, near the 845 bytes that one can have.
. "$(dirname "$0")/common.sh"
. "$here/server.sh"
"$root/host/tool" build generate "$root/host/test/desk/generate.c"
long=$("$root/host/tool" run generate commands 50000 1 | awk 'length($0) > length(most) { most = $0 } END { print most }')
short=AWR049999999000400000/151/
upsert='ON CONFLICT (designator) DO UPDATE SET command = eskelvor_join(waiting.command, excluded.command)'
numbers='WITH RECURSIVE n(i) AS (SELECT 0 UNION ALL SELECT i + 1 FROM n WHERE i < 19999)'

echo "SQLite, $(echo "$long" | awk '{ print length($0) }') bytes wait for each of 20,000 aircraft:"
{
    echo ".load $out/eskelvor"
    cat "$root/host/sql/board.sqlite.sql"
    echo '.timer on'
    echo "$numbers INSERT INTO waiting SELECT printf('F%05d', i), '$long' FROM n;"
    echo "INSERT INTO waiting SELECT designator, '$short' FROM waiting WHERE true $upsert;"
    echo 'DELETE FROM waiting;'
} | sqlite3 "$scratch/board.db"
ls -l "$scratch/board.db" | awk '{ print "  file, board and journal:", $5, "bytes" }'

servers_prepare
server_new 0
echo "PostgreSQL, the same:"
ask 0 -c 'CREATE EXTENSION eskelvor' -f "$root/host/sql/board.postgres.sql" -c '\timing on' \
    -c "INSERT INTO waiting SELECT 'F' || to_char(i, 'FM00000'), '$long' FROM generate_series(0, 19999) AS i" \
    -c "INSERT INTO waiting SELECT designator, '$short' FROM waiting $upsert" \
    -c "SELECT pg_total_relation_size('waiting')" \
    -c "WITH taken AS (DELETE FROM waiting RETURNING designator, command) INSERT INTO handed_over (designator, command) SELECT designator, command FROM taken" \
    -c "SELECT pg_total_relation_size('handed_over')"
