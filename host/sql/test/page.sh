#!/bin/sh
# Every session of docs/DATABASE.md that is marked for an engine is run as it stands there, and what it writes is what stands
# there. Words: sqlite | postgres.
#
# A block begins with ```sqlite, ```postgres or ```desk; in the first two the lines behind `> ` are handed to the engine's own
# program, in the last those behind `$ ` to a shell.
. "$(dirname "$0")/common.sh"
page=$root/docs/DATABASE.md

# The lines of all blocks of a name.
block() { awk -v name="\`\`\`$1" '$0 == name { on = 1; next } /^```$/ { on = 0 } on' "$page"; }

# Each line that is handed over, and what is answered to it. An empty line ends what belongs together.
in_sqlite() {
    mkdir -p "$scratch/folder"
    cd "$scratch/folder"
    {
        echo ".load $out/eskelvor"
        block sqlite | sed -n 's/^> //p' | sed -e 's/^\.load .*//' -e 's/^\.read .*board.sqlite.sql/.read "'"$(echo "$root" | sed 's/\//\\\//g')"'\/host\/sql\/board.sqlite.sql"/'
    } | sqlite3 session.db 2>&1
}

in_postgres() {
    servers_prepare
    server_new 0
    block postgres | sed -n 's/^> //p' | sed -e "s|^\\\\i .*board.postgres.sql|\\\\i $root/host/sql/board.postgres.sql|" |
        ask 0 -v ON_ERROR_STOP=0 2>&1 | sed -e 's/^psql:<stdin>:[0-9]*: //'
}

in_desk() {
    mkdir -p "$scratch/desk/bin"
    printf '#!/bin/sh\nexec "%s/host/tool" run eskelvor "$@"\n' "$root" >"$scratch/desk/bin/eskelvor"
    chmod +x "$scratch/desk/bin/eskelvor"
    cd "$scratch/desk"
    block desk | grep '^\$ ' | while read -r _ line; do
        printf '$ %s\n' "$line"
        PATH=$scratch/desk/bin:$PATH sh -c "$line" 2>&1 </dev/null || true
    done
}

same() { diff -u "$scratch/want" "$scratch/got" || fail "docs/DATABASE.md does not say what $1 answers"; }

case ${1:-} in
sqlite)
    block sqlite | grep -v '^> ' >"$scratch/want"
    in_sqlite >"$scratch/got"
    same sqlite
    block desk >"$scratch/want"
    in_desk >"$scratch/got"
    same 'the desk program'
    ;;
postgres)
    . "$here/server.sh"
    block postgres | grep -v '^> ' >"$scratch/want"
    in_postgres >"$scratch/got"
    same postgres
    ;;
*) echo 'usage: page.sh sqlite | postgres' >&2; exit 2 ;;
esac
echo "page $1: the sessions of docs/DATABASE.md are as they stand there"
