#!/bin/sh
# make install-sql into a folder: what it puts there is loaded and used; make uninstall-sql takes all of it away.
. "$(dirname "$0")/common.sh"
dest=$scratch/dest
quietly() {
    make -C "$root" --no-print-directory "$@" PREFIX=/opt/eskelvor DESTDIR="$dest" >"$scratch/said" 2>&1 ||
        fail "make $1 failed: $(cat "$scratch/said")"
}

quietly install-sql
at=$dest/opt/eskelvor
for board in sqlite postgres sharded; do
    [ -s "$at/share/eskelvor/sql/board.$board.sql" ] || fail "board.$board.sql is not there"
done
if "$root/host/sql/build" has sqlite >/dev/null && command -v sqlite3 >/dev/null; then
    said=$(sqlite3 "$scratch/board.db" ".load $at/lib/eskelvor/eskelvor" ".read $at/share/eskelvor/sql/board.sqlite.sql" \
        "INSERT INTO waiting VALUES ('AU0137', 'AWR049999199000000000/')" 'SELECT command FROM waiting')
    [ "$said" = "$(printf 'wal\nAWR049999199000000000/')" ] || fail "what was installed says: $said"
fi
if "$root/host/sql/build" has postgres >/dev/null; then
    for file in "$("$PG_CONFIG" --pkglibdir)/eskelvor.so" "$("$PG_CONFIG" --sharedir)/extension/eskelvor.control" \
        "$("$PG_CONFIG" --sharedir)/extension/eskelvor--1.0.sql"; do
        [ -s "$dest$file" ] || fail "$file is not there"
    done
fi
quietly uninstall-sql
left=$(find "$dest" ! -type d)
[ -z "$left" ] || fail "left: $left"
echo 'install: installed, used, taken away'
