#!/bin/sh
# The board in a file: create, add, take, list, check; other writers; files that are damaged or of another version.
. "$(dirname "$0")/cases.sh"
cd "$scratch"
first=AWR041999999000400000/151/
second=AWR049199999100400009/300/2301/
both=AWR041199999100400009/300/2301/

answers 0 'a new board' board b create 2
out_is 'b: a board of 2 slots'
answers 2 'a file that is there is left as it is' board b create 3
err_is 'eskelvor: b: there is a file of this name already; it is left as it is'
answers 0 'a board without a command' board b check
out_is 'b: valid, 0 of 2 slots used'
answers 0 'into the lowest free slot' board b add XY0001 $first
out_is 'accepted: 26 bytes wait for XY0001'
answers 0 'joined onto what waits' board b add XY0001 $second
out_is 'accepted: 31 bytes wait for XY0001'
answers 0 'two at once, for a machine' board b add --json XY0002 $first $second
json_has results.0.accepted=true results.0.designator=XY0002 results.0.commands=2 results.0.length=31 status=0
answers 1 'nothing waits for it and no slot is free' board b add XY0003 $first
err_is 'eskelvor: XY0003: refused: code 9 at byte 0: nothing waits for that aircraft and no slot is free'
answers 1 'the same for a machine' board b add --json XY0003 $first
json_has results.0.code=9 results.0.place=0 results.0.about=XY0003 status=1
cp b before
answers 1 'the second of two is refused: neither is added' board b add XY0001 AWR049999999000400000/601/ AWR04999
err_has 'command 2: refused: code 8 at byte 8'
cmp -s b before || fail 'the board is another'
answers 1 'a designator in small letters' board b add xy0001 $first
six='a designator has six letters or digits, A to Z and 0 to 9'
err_is "eskelvor: designator: refused: code 4 at byte 0: xy0001: $six" '  xy0001' '  ^'
answers 1 'a designator of five' board b take AU137
err_is "eskelvor: designator: refused: code 4 at byte 0: AU137: $six" '  AU137' '  ^'
answers 1 'a designator of five, for a machine' board b take --json XY000
json_has results.0.code=4 results.0.text=XY000 "results.0.because=XY000: $six" status=1
answers 0 'what waits' board b list
out_is 'b: valid, 2 of 2 slots used' "  slot  1  XY0001   31 bytes  $both" "  slot  2  XY0002   31 bytes  $both"
answers 0 'what waits, for a machine' board b list --json
json_has results.0.slots=2 results.0.used=2 results.0.waiting.1.slot=2 results.0.waiting.1.designator=XY0002 \
    results.0.waiting.0.text=$both status=0
answers 0 'what waits for one aircraft, in words' board b list XY0002
out_is "slot 2  XY0002  31 bytes  $both" flags '  AMDAR          1  on' \
    '  inhibit hours  1  on: silent in the hours of section 9' \
    '  regions        9  no change' '  airports       9  no change' '  ascent         9  no change' \
    '  enroute        9  no change' '  descent        9  no change' \
    'downlink         1  the flags are sent down' \
    'section 4: level flight' '  a report every 30 minutes' '  reports of the maximum wind: no' \
    'section 9: the hours of silence' '  from 23:00 up to 01:00, over midnight'
answers 0 'the same for a machine' board b list --json XY0002
json_has results.0.slot=2 results.0.designator=XY0002 results.0.length=31 results.0.text=$both results.0.flags.amdar=1 \
    results.0.downlink=1 results.0.sections.4.interval_minutes=30 results.0.sections.9.end_hour=1 status=0
answers 1 'nothing waits for it' board b list XY0003
err_is 'eskelvor: XY0003: refused: code 11 at byte 0: nothing waits for that aircraft'
answers 1 'no designator' board b list XY3
err_has "XY3: $six"
answers 2 'two of them' board b list XY0001 XY0002
# In rising order of designator, and those that begin so
answers 0 'a board out of order' board tails create 5
for tail in XY0002 AB0001 XY0011 AB0002; do
    answers 0 "$tail" board tails add $tail $first
done
one="  26 bytes  $first"
answers 0 'in rising order of designator' board tails list
out_is 'tails: valid, 4 of 5 slots used' "  slot  2  AB0001 $one" "  slot  4  AB0002 $one" "  slot  1  XY0002 $one" \
    "  slot  3  XY0011 $one"
answers 0 'those that begin so' board tails find XY00
out_is "  slot  1  XY0002 $one" "  slot  3  XY0011 $one"
answers 0 'one letter' board tails find A
out_is "  slot  2  AB0001 $one" "  slot  4  AB0002 $one"
answers 0 'all six' board tails find AB0002
out_is "  slot  4  AB0002 $one"
answers 0 'no letter: all' board tails find ''
out_is "  slot  2  AB0001 $one" "  slot  4  AB0002 $one" "  slot  1  XY0002 $one" "  slot  3  XY0011 $one"
for none in 0 AA AB0003 M XY0003 XZ Z; do
    answers 0 "none begins with $none" board tails find $none
    out_is
done
answers 0 'for a machine' board tails find --json XY
json_has results.0.prefix=XY results.0.found=2 results.0.waiting.0.designator=XY0002 results.0.waiting.1.slot=3 status=0
answers 0 'none, for a machine' board tails find --json Q
json_has results.0.found=0 status=0
answers 1 'small letters' board tails find xy
err_has 'prefix: refused: code 4 at byte 0: xy: a designator has six letters or digits'
answers 2 'seven bytes' board tails find XY00022
answers 2 'no prefix' board tails find
err_has 'find: give what the designators begin with'
answers 2 'two of them' board tails find X Y
err_has 'find: give what the designators begin with'
answers 2 'two designators' board tails list XY0001 XY0002
err_has 'list: give one designator, or none for all'
answers 2 'a word for check' board tails check XY0001
err_has 'check: it takes no words'
answers 0 'taken out of the middle' board tails take AB0002
answers 0 'the others are still found' board tails find AB
out_is "  slot  2  AB0001 $one"
cmp -s b before || fail 'looking changed the board'

# More slots: all that waits stays, in its slot
cp b grown
answers 0 'a larger board' board grown grow 64
out_is 'grown: a board of 64 slots, before 2; 2 are used'
answers 0 'with the same texts in the same slots' board grown list
out_is 'grown: valid, 2 of 64 slots used' "  slot  1  XY0001   31 bytes  $both" "  slot  2  XY0002   31 bytes  $both"
answers 0 'and room for more' board grown add XY0003 $first
answers 0 'in the next slot' board grown list XY0003
out_has "slot 3  XY0003  26 bytes  $first"
cp grown before-grow
answers 2 'it is not made smaller' board grown grow 63
err_is 'eskelvor: grown: 63 slots are fewer than the 64 that it has; a board is not made smaller'
answers 2 'nor larger than a board may be' board grown grow 65
err_is 'eskelvor: grow: 65 is not 0 to 64 slots'
answers 2 'without a number' board grown grow
cmp -s grown before-grow || fail 'a refused growth changed the board'
answers 0 'as large as it is' board grown grow 64 --json
json_has results.0.slots=64 results.0.slots_before=64 results.0.used=3 status=0
cmp -s grown before-grow || fail 'the same size, and another board'
answers 2 'a board that is not there' board nowhere grow 3
[ ! -e nowhere ] || fail 'it was made'
printf 'something else' >other
answers 1 'what is no board' board other grow 3
[ "$(cat other)" = 'something else' ] || fail 'it was written over'
[ ! -e .other.eskelvor-lock ] || fail 'it has a lock file'
rm grown other

answers 0 'handed over, and nothing else on standard output' board b take XY0001
out_is $both
answers 1 'once' board b take XY0001
err_is 'eskelvor: XY0001: refused: code 11 at byte 0: nothing waits for that aircraft'
answers 1 'the same for a machine' board b take --json XY0001
json_has results.0.code=11 status=1
answers 0 'the slot is free again' board b add XY0003 $first
answers 0 'handed over for a machine' board b take XY0003 --json
json_has results.0.text=$first results.0.length=26 status=0
printf '%s\n%s\n' $first $second >commands
answers 0 'commands from a file' board b add XY0004 commands
out_is 'accepted: 31 bytes wait for XY0004'
input=commands
answers 0 'commands from standard input' board b add XY0004 -
out_is 'accepted: 31 bytes wait for XY0004'
input=/dev/null
answers 0 'a board of no slots is valid' board none create 0 --json
json_has results.0.accepted=true results.0.code=0 results.0.slots=0 status=0
answers 1 'and takes nothing' board none add XY0001 $first
err_has 'code 9'
for slip in 'b' 'b create' 'c create 65' 'c create -1' 'c create two' 'b add XY0001' 'b take' 'b take A B' \
    'b return XY0001' 'b burn' \
    'b list XY0001 x' '--wait soon b list'; do
    # shellcheck disable=SC2086
    answers 2 "a slip: $slip" board $slip
done

# into a file, and back
answers 0 'a board to take from' board t create 2
answers 0 'with a command' board t add XY0001 $first
cp t before
echo mine >sent
answers 2 'a file that is there is left as it is' board t take --to sent XY0001
err_is 'eskelvor: sent: there is a file of this name already; it is left as it is' \
    'eskelvor: XY0001: not handed out; it still waits'
out_is
[ "$(cat sent)" = mine ] || fail 'the file is another'
answers 2 'no folder' board t take --to nowhere/sent XY0001
answers 2 'no file' board t take --to - XY0001
[ ! -e ./- ] || fail 'there is a file of the name -'
answers 2 'the board itself is no such file' board t take --to t XY0001
answers 2 'an option of the taking alone' board t list --to sent
cmp -s t before || fail 'the board is another'
rm sent
answers 1 'nothing waits: no file' board t take --to sent XY0002
[ ! -e sent ] || fail 'a file for nothing'
answers 0 'into a file' board t take --to sent XY0001
out_is 'taken: the 26 bytes that waited for XY0001 are in sent'
[ "$(cat sent)" = $first ] || fail 'another text'
answers 1 'the slot is free' board t take XY0001
answers 0 'newer ones come to wait' board t add XY0001 $second
answers 0 'back before the newer one' board t return XY0001 sent
out_is 'accepted: 31 bytes wait for XY0001'
answers 0 'the newer one has the last word' board t take --json --to=again XY0001
json_has results.0.text=$both results.0.file=again results.0.length=31 status=0
answers 1 'a text that is no command is not returned' board t return XY0001 AWR04
answers 0 'two that set the same' board t add XY0001 AWR049999999000400000/301/
answers 0 'returned' board t return XY0001 --json AWR049999999000400000/151/
json_has results.0.accepted=true results.0.designator=XY0001 results.0.commands=1 results.0.length=26 status=0
answers 0 'the newer one stays, added it would be the other' board t take XY0001
out_is AWR049999999000400000/301/
answers 0 'where nothing waits it is an add' board t return XY0001 again
answers 0 'for another' board t add XY0002 $first
answers 1 'where no slot is free it is refused as an add is' board t return XY0003 again
err_has 'code 9'
answers 0 'on a full board, where its aircraft has a slot' board t return XY0001 $first
answers 0 'both wait' board t list
out_is 't: valid, 2 of 2 slots used' "  slot  1  XY0001   31 bytes  $both" "  slot  2  XY0002   26 bytes  $first"
answers 1 'a designator in small letters' board t return xy0001 $first
err_has 'designator: refused: code 4'

# links, the file's mode, and other writers
ln -s b linked
chmod 640 b
answers 0 'an add through a link' board linked add XY0002 $first
[ -L linked ] || fail 'the link was replaced'
[ "$(ls -l b | cut -c 1-10)" = -rw-r----- ] || fail 'the mode is another'

# rights: the lock's and the board's; second names
rights() { stat -c '%a %u %g' "$1"; }
answers 0 'a board that a group shares' board shared create 2
chmod 660 shared
group=$(id -G | tr ' ' '\n' | tail -1)
if [ "$(id -u)" = 0 ]; then chown 12345:54321 shared; else chgrp "$group" shared; fi
before=$(rights shared)
(umask 077 && eskelvor board shared add XY0001 $first >out 2>err) || fail 'an add'
[ "$(rights shared)" = "$before" ] || fail "was $before, is $(rights shared)"
[ "$(stat -c '%a %g' .shared.eskelvor-lock)" = "660 ${before##* }" ] || fail 'the lock has other rights'
if [ "$(id -u)" = 0 ] && command -v setpriv >/dev/null; then
    chmod 755 .
    mkdir ours && chown 12345:54321 ours && chmod 2770 ours && mv shared .shared.eskelvor-lock ours
    as() { # USER WORD..: as that user of the group
        user=$1
        shift
        setpriv --reuid "$user" --regid 54321 --clear-groups "$root/host/tool" run eskelvor "$@" >out 2>err
    }
    if as 12346 --version; then
        as 12346 board ours/shared add XY0002 $first || fail 'another of the group'
        [ "$(stat -c '%a %g' ours/shared)" = '660 54321' ] || fail 'its group or mode is another'
        as 12345 board ours/shared add XY0002 $first || fail 'the first of the group again'
        chmod 640 ours/shared
        ! as 12346 board ours/shared add XY0002 $first || fail 'one who may not write it'
        cases=$((cases + 3))
    else
        echo 'board: other users cannot run the program here; that case is passed over'
    fi
fi
cp b unwritable
chmod 440 unwritable
cp unwritable before
for verb in "add XY0001 $first" 'take XY0002'; do
    # shellcheck disable=SC2086
    answers 2 "a board without write permission: $verb" board unwritable $verb
    err_is 'eskelvor: unwritable: it may not be written; it is left as it is'
    out_is
done
cmp -s unwritable before || fail 'the board is another'
answers 0 'it may be read' board unwritable check
cp b named
ln named named2
cp named before
for verb in "add XY0001 $first" 'take XY0002'; do
    # shellcheck disable=SC2086
    answers 2 "a board with a second name: $verb" board named $verb
    err_is 'eskelvor: named: it has a second name, a hard link, which would part from it; it is left as it is'
    out_is
done
cmp -s named before || fail 'the board is another'
rm named2
answers 0 'with one name again' board named take XY0002
cp b lured
echo precious >prey
ln -s prey .lured.eskelvor-lock
answers 2 'a lock file that is a link' board lured add XY0001 $first
err_has '.lured.eskelvor-lock: the lock file is a link, and is not followed'
ln -sf made .lured.eskelvor-lock
answers 2 'and leads nowhere' board lured add XY0001 $first
[ ! -e made ] || fail 'a file was made through the link'
[ "$(cat prey)" = precious ] || fail 'the file behind the link is another'
rm .lured.eskelvor-lock
chmod 600 prey
chmod 666 lured
ln prey .lured.eskelvor-lock
answers 0 'a lock file with a second name is locked' board lured add XY0002 $first
[ "$(stat -c %a prey)" = 600 ] || fail 'a file under another name got the rights of the board'

answers 0 'eight writers at once' board many create 8
writers=''
for i in 1 2 3 4 5 6 7 8; do
    eskelvor board many add "XY000$i" $first >/dev/null 2>&1 &
    writers="$writers $!"
done
for writer in $writers; do
    wait "$writer" || fail 'one of eight writers'
done
answers 0 'none is lost' board many check
out_is 'many: valid, 8 of 8 slots used'

# files that are damaged, or of another version
flip() { # FILE OFFSET: the byte there becomes another
    { head -c "$2" many; printf '\245'; tail -c +$(($2 + 2)) many; } >"$1"
}
flip damaged 8
answers 2 'another version' board damaged list
err_has 'format version 165; this program reads version 2'
answers 2 'another version, for a machine' board damaged list --json
json_has results.0.about=damaged status=2
cp damaged before
answers 2 'is not written either' board damaged add XY0001 $first
cmp -s damaged before || fail 'the file is another'
for place in 0 3 12 13 16 22 80 1000 6839; do
    flip damaged $place
    cp damaged before
    for verb in 'list' 'check' "add XY0001 $first" 'take XY0001'; do
        # shellcheck disable=SC2086
        answers 1 "byte $place damaged: $verb" board damaged $verb
        err_has 'eskelvor: damaged: refused: code 10 at byte 0: the board is not valid: '
        out_is
    done
    cmp -s damaged before || fail 'the damaged file was changed'
done
answers 1 'damaged, for a machine' board damaged check --json
json_has results.0.code=10 results.0.place=0 results.0.about=damaged status=1
head -c 500 many >damaged
answers 1 'cut short' board damaged check
err_is 'eskelvor: damaged: refused: code 10 at byte 0: the board is not valid: the file is cut short: 500 bytes of 6844'
{ cat many; echo; } >damaged
answers 1 'a byte more' board damaged check
err_has 'the file goes on behind its 6844 bytes'

# A board's name cannot move the cursor, and its letters stay
odd=$(printf 'b\033[2Jé')
answers 0 'a board of an odd name' board "$odd" create 2
out_is 'b\x1b[2Jé: a board of 2 slots'
answers 0 'and what waits on it' board "$odd" check
out_is 'b\x1b[2Jé: valid, 0 of 2 slots used'
answers 0 'a command to take' board "$odd" add XY0001 AWR049999199000000000/
answers 0 'taken into a file of an odd name' board "$odd" take --to "t$odd" XY0001
out_is 'taken: the 22 bytes that waited for XY0001 are in tb\x1b[2Jé'

done_with 'boards kept in files'
