#!/bin/sh
# The journal in a file: add, list, check, replay, drop; the taking that enters into it; broken and full ones.
. "$(dirname "$0")/cases.sh"
cd "$scratch"
nothing=AWR049999999000000000/
off=AWR049999099000000000/
hours=AWR049199999100400009/300/2301/
level=AWR049999999000400000/151/

# What is not there, and the printed case of one entry
answers 2 'no such file' journal j list
err_is 'eskelvor: j: cannot open: No such file or directory'
for slip in 'j check' 'j replay XY0001' 'j drop 1' 'j' 'j burn' 'j add' 'j add XY0001' 'j replay' 'j replay XY0001 XY0002' \
    'j drop' 'j drop 1 2' 'j list now' 'j check now' '--wait soon j list' '--at 0 j list'; do
    # shellcheck disable=SC2086
    answers 2 "a slip: $slip" journal $slip
done
[ ! -e j ] && [ ! -e .j.eskelvor-lock ] || fail 'it was made'
answers 0 'the first entry makes the file' journal j add XY0001 $nothing
out_is 'accepted: an entry for XY0001 at byte 0 of j, a new journal'
printf 'XY0001%s\000\026J' $nothing >want
cmp -s j want || fail 'the file is not the entry'
answers 0 'one line' journal j list
out_is "0 XY0001 $nothing"
: >empty
answers 0 'no bytes are the empty journal' journal empty check
out_is 'empty: sound, 0 entries in 0 bytes'
answers 0 'of which nothing is shown' journal empty list
out_is
answers 0 'and which replays to reset' journal empty replay --json XY0001
json_has results.0.designator=XY0001 \
    results.0.configuration=AWR041000111023456789/0000/000000000/071/1060902005120021/1/104020021/1/0000/ status=0
answers 0 'a file that is there' journal empty add XY0001 $level --json
json_has results.0.offset=0 results.0.count=1 results.0.length=35 results.0.new=false status=0

# Several aircraft
answers 0 'another aircraft' journal j add AU0137 $off --json
json_has results.0.accepted=true results.0.offset=31 results.0.designator=AU0137 results.0.count=2 results.0.length=62 status=0
echo $hours >one
answers 0 'from a file' journal j add XY0001 one
out_is 'accepted: an entry for XY0001 at byte 62 of j'
answers 0 'the third for the first one' journal j add XY0001 $level
printf '%s\n%s\n' $off $hours >two
cp j before
answers 2 'two at once' journal j add XY0001 two
err_has 'an entry is one command'
answers 1 'a command that is refused' journal j add XY0001 AWR049999999000400000/611/
err_has 'command 1: refused: code 5 at byte 22, section 4, interval: 61 is not 01 to 60'
answers 1 'a designator in small letters' journal j add xy0001 $off
six='a designator has six letters or digits, A to Z and 0 to 9'
err_is "eskelvor: designator: refused: code 4 at byte 0: xy0001: $six" '  xy0001' '  ^'
answers 1 'also for a replay' journal j replay --json xy0001
json_has results.0.code=4 results.0.place=0 results.0.text=xy0001 status=1
cmp -s j before || fail 'a refusal changed the journal'
answers 0 'newest first' journal j list
out_is "102 XY0001 $level" "62 XY0001 $hours" "31 AU0137 $off" "0 XY0001 $nothing"
answers 0 'for a machine' journal j list --json
json_has results.0.count=4 results.0.length=137 results.0.entries.0.offset=102 results.0.entries.0.designator=XY0001 \
    results.0.entries.0.text=$level results.0.entries.3.offset=0 results.0.entries.2.designator=AU0137 status=0
answers 0 'sound' journal j check
out_is 'j: sound, 4 entries in 137 bytes'

# Replays
answers 0 'what each command changed' journal j replay XY0001
head -24 out >steps
cp steps out
out_is "entry at byte 0: $nothing" 'nothing changed' "entry at byte 62: $hours" \
    'flag inhibit hours: was 0, is 1, on: silent in the hours of section 9' \
    'section 4: level flight' '  was' '    a report every 7 minutes' '    reports of the maximum wind: yes' \
    '  is' '    a report every 30 minutes' '    reports of the maximum wind: no' \
    'section 9: the hours of silence' '  was' '    none: both are 00' '  is' \
    '    from 23:00 up to 01:00, over midnight' "entry at byte 102: $level" \
    'section 4: level flight' '  was' '    a report every 30 minutes' '    reports of the maximum wind: no' \
    '  is' '    a report every 15 minutes' '    reports of the maximum wind: yes'
answers 0 'and the configuration at the end' journal j replay XY0001
sed 1,24d out >shown
answers 0 'the same by apply' apply -o applied $nothing $hours $level
answers 0 'shown whole' apply -c applied
{ echo 'XY0001 after reset and 3 of its commands:'; cat out; } >want
cmp -s shown want || fail 'not what apply shows'
answers 0 'after an entry' journal j replay XY0001 --at 62 --json
json_has results.0.entries.0.offset=0 results.0.entries.1.offset=62 'results.0.entries.1.changes.0.flag=inhibit hours' \
    results.0.entries.1.changes.0.is=1 results.0.entries.1.changes.1.section=4 \
    results.0.configuration=AWR041100111023456789/0000/000000000/300/1060902005120021/1/104020021/1/2301/ status=0
! grep -q 'entries.2' flat || fail 'a later one too'
answers 0 'after an entry of another aircraft' journal j replay XY0001 --at=31
out_has "entry at byte 0: $nothing" 'XY0001 after reset and 1 of its commands:' 'flag inhibit hours: 0, off: reports at every hour'
answers 0 'the other aircraft' journal j replay AU0137
out_has "entry at byte 31: $off" 'flag ascent: was 1, is 0' 'AU0137 after reset and 1 of its commands:'
answers 0 'one without an entry' journal j replay NOBODY
out_has 'NOBODY after reset and 0 of its commands:'
for at in 1 61 137 65535; do
    answers 2 'no entry begins there' journal j replay XY0001 --at $at
    err_is "eskelvor: --at: no entry begins at byte $at; list tells where each does"
done
for at in 65536 -1 x ''; do
    answers 2 'no byte of a journal' journal j replay XY0001 --at "$at"
    err_is "eskelvor: --at: $at is not an entry's first byte, 0 to 65535"
done
cmp -s j before || fail 'looking changed the journal'

# Dropping, to each length; and back
for n in 0 1 2 3 4; do
    cp before d
    answers 0 "without the newest $n" journal d drop $n
    out_has "d: dropped the newest $n; left: $((4 - n)) ent"
    answers 0 'the rest' journal d list
    cp out rest
    answers 0 'of all' journal before list
    sed "1,${n}d" out >want
    [ $n != 0 ] || cp out want
    cmp -s rest want || fail 'not the others'
    cmp -s -n "$(wc -c <d)" d before || fail 'not the same bytes'
done
[ ! -s d ] || fail 'something is left'
cp before d
answers 1 'more than there are' journal d drop 5
err_is 'eskelvor: d: refused: code 5 at byte 0: a number outside its range: it has 4 entries, and 5 are to be dropped'
for n in -1 two 1000001; do
    answers 2 'no number of entries' journal d drop -- $n
    err_is "eskelvor: drop: $n is not a number of entries"
done
cmp -s d before || fail 'a refusal changed the journal'
answers 0 'for a machine' journal d drop --json 3
json_has results.0.dropped=3 results.0.count=1 results.0.length=31 status=0

# Broken ones: each kind, with its place and what stands there
spoil() { # AT BYTE: a journal with another byte
    cp before broken
    # shellcheck disable=SC2059
    printf "$2" | dd of=broken bs=1 seek="$1" conv=notrunc 2>/dev/null
    cp broken broken.was
}
refused() { # PLACE WORDS..: whatever is asked
    place=$1
    shift
    for verb in list check 'replay XY0001' "add XY0001 $off" 'drop 1' 'drop 0'; do
        # shellcheck disable=SC2086
        answers 1 "broken: $verb" journal broken $verb
        err_is "eskelvor: broken: refused: code 14 at byte $place$*"
        out_is
    done
    cmp -s broken broken.was || fail 'it was mended'
    [ ! -e .broken.eskelvor-lock ] || fail 'it has a lock file'
    answers 1 'for a machine' journal broken check --json
    json_has results.0.accepted=false results.0.code=14 results.0.place="$place" 'results.0.meaning=the journal is broken'
}
spoil 136 K
refused 134 ', trailer: its letter is K, not J'
spoil 61 '\000'
refused 59 ', trailer: its letter is \x00, not J'
spoil 28 '\377'
refused 28 ', trailer: its length is 65302, and before it stand 28 bytes, designator and text'
spoil 29 '\025'
refused 28 ', trailer: the text of 21 bytes before it is refused with code 3 at its byte 0'
spoil 62 x
refused 99 ', trailer: the designator of its entry is xY0001, not six letters or digits, A to Z and 0 to 9'
spoil 130 6
refused 134 ', trailer: the text of 26 bytes before it is refused with code 5 at its byte 22'
{ printf xy && cat before; } >broken
cp broken broken.was
refused 0 ': the oldest entry begins at byte 2, not at byte 0'
head -c 65536 /dev/zero >broken
cp broken broken.was
refused 0 ': the file has more than the 65535 bytes of a journal'
head -c 200000 /dev/zero >broken
cp broken broken.was
refused 0 ': the file has more than the 65535 bytes of a journal'
answers 2 'a folder' journal . check

# Full: entries of 31 bytes up to 65,534
printf 'XY0001%s\000\026J' $nothing >full
for _ in 1 2 3 4 5 6 7 8 9 10 11; do cat full full >twice && mv twice full; done
head -c $((66 * 31)) full >rest
cat rest >>full
answers 0 'as many as there can be' journal full check
out_is 'full: sound, 2114 entries in 65534 bytes'
cp full full.was
answers 1 'no room' journal full add XY0001 $nothing
err_is "eskelvor: full: refused: code 2 at byte 0: the journal has no room for the entry: it has 65534 bytes, and no room for 31 more: a journal has at most 65535"
cmp -s full full.was || fail 'it is another'
answers 0 'listed' journal full list
[ "$(wc -l <out)" = 2114 ] && [ "$(tail -1 out)" = "0 XY0001 $nothing" ] || fail 'not all of them'
answers 0 'replayed' journal full replay XY0001 --at 65503
out_has 'XY0001 after reset and 2114 of its commands:'

# The taking that enters
answers 0 'a board' board b create 2
answers 0 'with a command' board b add XY0001 $level
cp b b.was
for wrong in broken full; do
    answers 1 "a journal that is $wrong: nothing is taken" board b take --journal $wrong XY0001
    out_is
    answers 1 'nor into a file' board b take --to sent --journal $wrong XY0001
    [ ! -e sent ] || fail 'a file for nothing'
    cmp -s b b.was || fail 'the board is another'
    cmp -s $wrong $wrong.was || fail 'the journal is another'
done
answers 1 'the board is no journal' board b take --journal b XY0001
err_has 'eskelvor: b: refused: code 14'
answers 2 'no file' board b take --journal - XY0001
answers 2 'the file for the command is another' board b take --journal t --to t XY0001
answers 2 'of a taking alone' board b list --journal t
echo mine >sent
answers 2 'a hand-over that fails' board b take --journal t --to sent XY0001
err_has 'XY0001: not handed out; it still waits'
[ ! -e t ] && [ ! -e .t.eskelvor-new ] || fail 'it is in the journal'
answers 2 'no folder for the journal' board b take --journal nowhere/t XY0001
out_is
answers 1 'nothing waits' board b take --journal t XY0002
[ ! -e t ] || fail 'a journal of nothing'
cmp -s b b.was || fail 'the board is another'
rm sent
answers 0 'taken' board b take --journal t XY0001
out_is $level
err_is
answers 1 'once' board b take --journal t XY0001
err_has 'code 11'
answers 0 'and entered' journal t list
out_is "0 XY0001 $level"
answers 0 'another' board b add XY0001 $hours
answers 0 'into a file and the journal' board b take --journal t --to sent XY0001 --json
json_has results.0.file=sent results.0.journal=t results.0.offset=35 results.0.same_text_at=null results.0.text=$hours status=0

# As a kill between journal and board leaves them: seen, and mended
cp b.was b
cp t t.was
answers 0 'the next' board b take --journal t XY0001
err_is
cp b.was b
answers 0 'on the board, and the newest in the journal' board b take --journal t XY0001
out_is $level
err_has 'XY0001: the entries at bytes 75 and 110 of t have the same text'
cp b.was b
answers 0 'for a machine' board b take --journal t XY0001 --json
json_has results.0.offset=145 results.0.same_text_at=110 status=0
answers 0 'the second is taken away' journal t drop 2
answers 0 'and each stands once' journal t list
out_is "75 XY0001 $level" "35 XY0001 $hours" "0 XY0001 $level"

# Another writer of the journal
chmod 640 t
answers 0 'the mode' journal t add XY0002 $off
[ "$(ls -l t | cut -c 1-10)" = -rw-r----- ] || fail 'the mode is another'
chmod 440 t
cp b.was b
answers 2 'a journal that may not be written' board b take --journal t XY0001
err_has 'it may not be written; it is left as it is'
out_is
cmp -s b b.was || fail 'the board is another'

done_with 'the journal'
