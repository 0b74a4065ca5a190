#!/bin/sh
# The SQL functions, by the same statements in both engines: functions.sql, and what each is to answer in functions.expected.
# Words: sqlite | postgres.
. "$(dirname "$0")/common.sh"

# What the statements look at: a table of commands, reports, and a text of a megabyte.
tables='
CREATE TABLE commands (number integer, command text);
INSERT INTO commands VALUES (1, '"'AWR041999999000400000/151/'"'), (2, '"'AWR049199999000400009/300/2301/'"'), (3, '"'AWR040999999100000000/'"'),
    (4, NULL), (5, '"'AWR049999999000400000/601/'"'), (6, '"'AWR049999999000400000/611/'"');'

# An engine's answers in one form: a refusal in its words, any other error by that word alone.
one_form() {
    sed -E -e '/^(LINE [0-9]+:|HINT:|DETAIL:|CONTEXT:|QUERY:|[[:space:]]*\^)/d' -e '/(--- error here|error here ---)/d' \
        -e '/^  (SELECT|INSERT|UPDATE)/d' \
        -e 's/^.*(ERROR: |error near line [0-9]+:|error near line [0-9]+:? ?stepping,) *(eskelvor_[a-z_]*: .*refused: .*)$/error: \2/' \
        -e 's/^(error: eskelvor_.*) \([0-9]+\)$/\1/' \
        -e 's/^.*(ERROR: |[Ee]rror near line|Error: ).*$/error/' -e '/^error: eskelvor_/!s/^error:.*/error/'
}

in_sqlite() {
    {
        echo ".load $out/eskelvor"
        cat "$root/host/sql/board.sqlite.sql"
        echo "$tables"
        echo "CREATE TABLE megabyte AS SELECT replace(hex(zeroblob(500000)), '0', 'x') AS text;"
        echo "CREATE TABLE reports AS SELECT 1 AS number, readfile('examples/one.report') AS report
            UNION ALL SELECT 2, substr(CAST(readfile('examples/damaged.reports') AS BLOB), 221, 220);"
        cat "$here/functions.sql"
    } | (cd "$root" && env ${ENGINE_ENV:-} sqlite3 "$scratch/functions.db" 2>&1) | sed '/^wal$/d' | one_form
}

in_postgres() {
    servers_prepare
    server_new 0
    {
        echo 'CREATE EXTENSION eskelvor;'
        cat "$root/host/sql/board.postgres.sql"
        echo "$tables"
        echo "CREATE TABLE megabyte AS SELECT repeat('x', 1000000) AS text;"
        echo "CREATE TABLE reports AS SELECT 1 AS number, '\\x$(od -An -v -tx1 "$root/examples/one.report" | tr -d ' \n')'::bytea AS report
            UNION ALL SELECT 2, substr('\\x$(od -An -v -tx1 "$root/examples/damaged.reports" | tr -d ' \n')'::bytea, 221, 220);"
        cat "$here/functions.sql"
    } | ask 0 -v ON_ERROR_STOP=0 2>&1 | one_form
}

case ${1:-} in
sqlite) in_sqlite >"$scratch/answers" ;;
postgres)
    . "$here/server.sh"
    in_postgres >"$scratch/answers"
    ;;
*) echo 'usage: functions.sh sqlite | postgres' >&2; exit 2 ;;
esac
[ "${2:-}" != --show ] || { cat "$scratch/answers"; exit 0; }
diff -u "$here/functions.expected" "$scratch/answers" || fail "$1 answers otherwise than functions.expected says"
echo "functions $1: $(grep -c ';$' "$here/functions.sql") statements answer as they are to"
