#!/bin/sh
# The board in a database: the same words as for a file; and a program that was built without SQLite.
. "$(dirname "$0")/cases.sh"
cd "$scratch"
first=AWR041999999000400000/151/
second=AWR049199999100400009/300/2301/
both=AWR041199999100400009/300/2301/

why='a program built without SQLite' words='board --db'
DESK_WITHOUT_SQLITE=1 "$root/host/tool" build eskelvor_plain "$root"/host/desk/*.c >out 2>err || fail 'it was not built'
got=0
"$root/host/tool" run eskelvor_plain board --db b add XY0001 $first >out 2>err || got=$?
[ $got = 2 ] || fail "status $got, not 2"
err_is 'eskelvor: b: this program was built without SQLite, and keeps boards in files of its own alone'
cases=$((cases + 1))

if [ -z "$("$root/host/sql/build" flags)" ] || [ "$(uname -m)" != x86_64 ]; then
    echo "db: $("$root/host/sql/build" has sqlite || true); a board in a database was not looked at"
    done_with 'a board in a database, without SQLite'
    exit 0
fi

why='the schema that the program has' words='host/sql/build schema'
"$root/host/sql/build" schema | cmp -s - "$root/host/sql/board_schema.h" || fail 'it is not that of board.sqlite.sql'
cases=$((cases + 1))

answers 0 'a new one' board --db b create
out_is 'b: a board in a database'
answers 2 'a file that is there is left as it is' board --db b create
err_is 'eskelvor: b: there is a file of this name already; it is left as it is'
answers 2 'it has no slots' board --db c create 64
[ ! -e c ] || fail 'it was made'
answers 0 'nothing waits yet' board --db b list
out_is 'b: 0 aircraft have a command waiting, 0 were handed over'
answers 0 'an add' board --db b add XY0001 $first
out_is 'accepted: 26 bytes wait for XY0001'
answers 0 'joined onto what waits' board --db b add XY0001 $second
out_is 'accepted: 31 bytes wait for XY0001'
answers 0 'two at once, for a machine' board --db b add --json XY0000 $first $second
json_has results.0.accepted=true results.0.designator=XY0000 results.0.commands=2 results.0.length=31 status=0
answers 1 'the second of two is refused: neither is added' board --db b add XY0002 $first AWR04999
err_has 'command 2: refused: code 8 at byte 8'
answers 1 'no designator' board --db b add xy0001 $first
err_has 'code 4 at byte 0: xy0001: a designator has six letters or digits'
answers 0 'what waits, by designator' board --db b list
out_is 'b: 2 aircraft have a command waiting, 0 were handed over' "  XY0000   31 bytes  $both" "  XY0001   31 bytes  $both"
answers 0 'the same for a machine' board --db b list --json
json_has results.0.used=2 results.0.waiting.1.designator=XY0001 results.0.waiting.0.text=$both results.0.handed_over=0
answers 0 'those that begin so' board --db b find XY0001
out_is "  XY0001   31 bytes  $both"
answers 0 'all' board --db b find ''
out_is "  XY0000   31 bytes  $both" "  XY0001   31 bytes  $both"
answers 0 'none, for a machine' board --db b find --json XZ
json_has results.0.prefix=XZ results.0.found=0 status=0
answers 0 'two, for a machine' board --db b find --json XY
json_has results.0.found=2 results.0.waiting.1.designator=XY0001 status=0
answers 1 'small letters' board --db b find xy
err_has 'prefix: refused: code 4 at byte 0: xy: a designator'
answers 2 'no prefix' board --db b find
err_has 'find: give what the designators begin with'
answers 2 'two designators' board --db b list XY0000 XY0001
err_has 'list: give one designator, or none for all'
answers 2 'a word for check' board --db b check XY0000
err_has 'check: it takes no words'
answers 2 'seven bytes' board --db b find XY00011
answers 0 'in words' board --db b list XY0001
out_has "XY0001  31 bytes  $both" '  from 23:00 up to 01:00, over midnight'
answers 0 'in words, for a machine' board --db b list --json XY0001
json_has results.0.designator=XY0001 results.0.text=$both results.0.sections.9.end_hour=1
answers 1 'nothing waits for it' board --db b list XY0003
err_is 'eskelvor: XY0003: refused: code 11 at byte 0: nothing waits for that aircraft'
answers 0 'a taking' board --db b take XY0001
out_is $both
answers 1 'once' board --db b take XY0001
err_is 'eskelvor: XY0001: refused: code 11 at byte 0: nothing waits for that aircraft'
answers 0 'into a file' board --db b take --to sent XY0000
out_is 'taken: the 31 bytes that waited for XY0000 are in sent'
[ "$(cat sent)" = $both ] || fail 'another text'
answers 0 'newer ones' board --db b add XY0000 AWR049999999000400000/601/
answers 0 'put back before them' board --db b return XY0000 sent
answers 2 'a file that is there: it still waits' board --db b take --to sent XY0000
err_has 'not handed out; it still waits'
answers 0 'the newer has the last word' board --db b take --json XY0000
json_has results.0.text=AWR041199999100400009/601/2301/ results.0.designator=XY0000
answers 0 'all that was taken is in its journal' board --db b check
out_is 'b: 0 aircraft have a command waiting, 3 were handed over'
for verb in 'grow 3' 'convert c' grant 'take --journal j XY0000' 'add --office a XY0000 x'; do
    # shellcheck disable=SC2086
    answers 2 "no word of a database: $verb" board --db b $verb
done
answers 2 'no database' board --db nowhere list
[ ! -e nowhere ] || fail 'it was made'
printf 'something else, and longer than a line of it would be' >other
answers 2 'something else' board --db other list
err_is 'eskelvor: other: file is not a database'
answers 2 'a database without a board' board --db b lists

# Another writer is waited for
if command -v sqlite3 >/dev/null; then
    { echo 'BEGIN IMMEDIATE;'; sleep 2; echo 'COMMIT;'; } | sqlite3 b &
    sleep 0.5
    answers 2 'another writes' board --db b add --wait 0 XY0001 $first
    err_is 'eskelvor: b: database is locked'
    answers 0 'until it is done' board --db b add --wait 20 XY0001 $first
    wait
    why='a row that nobody checked' words='sqlite3'
    sqlite3 b 'PRAGMA ignore_check_constraints = ON' "UPDATE waiting SET command = 'x'" || fail 'it cannot be written'
    answers 1 'is found' board --db b check
    err_has 'code 10 at byte 0: the board is not valid: eskelvor_accepted: refused: code 8 at byte 0'
fi
done_with 'a board in a database'
