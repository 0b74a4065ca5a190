#!/bin/sh
# Files from before section 7, as a program of version 3.3.0 kept them (examples/older.*): refused with a way over, carried
# over whole, and used from then on.
. "$(dirname "$0")/cases.sh"
cd "$scratch"
cp "$examples/older.board" board
cp "$examples/older.configuration" config
cp "$examples/older.journal" journal
way="from before section 7: its commands are carried over into a new one by eskelvor board OLD convert NEW"

for words in list check 'add AU0137 AWR049999999000000000/' 'take AU0137' 'return AU0137 AWR049999999000000000/' \
    'grow 9' 'list AU0137'; do
    # shellcheck disable=SC2086
    answers 2 "an old board is refused: $words" board board $words
    out_is
    err_is "eskelvor: board: a board's file of format version 1, $way"
done
answers 2 'the same for a machine' board board list --json
json_has results.0.about=board "results.0.error=a board's file of format version 1, $way" status=2
[ ! -e .board.eskelvor-lock ] || fail 'a lock for what is not read'

answers 0 'carried over' board board convert tonight
out_is 'tonight: a board of 4 slots, 2 of them used, as in board, which is left as it is'
cmp -s board "$examples/older.board" || fail 'the old board is another'
answers 0 'what waits is all there, each in its slot' board tonight list --json
long=$(eskelvor journal journal list | sed -n 's/^0 XY0001 //p')
[ ${#long} = 835 ] || fail 'not the longest command of that time'
json_has results.0.slots=4 results.0.used=2 results.0.waiting.0.slot=1 results.0.waiting.0.designator=AU0137 \
    results.0.waiting.0.text=AWR049999199000400000/151/ results.0.waiting.1.slot=3 \
    results.0.waiting.1.designator=ZZ9999 results.0.waiting.1.length=835 "results.0.waiting.1.text=$long" status=0
answers 0 'and takes section 7' board tonight add ZZ9999 AWR049999999000000700/104020021/
out_is 'accepted: 845 bytes wait for ZZ9999'
answers 0 'a slot that was freed before is used again' board tonight add XY0002 AWR049999999000000700/104020021/
answers 0 'the lowest' board tonight list --json
json_has results.0.waiting.1.slot=2 results.0.waiting.1.designator=XY0002

cp tonight kept
answers 2 'a file that is there stays' board board convert tonight
err_is 'eskelvor: tonight: there is a file of this name already; it is left as it is'
cmp -s tonight kept || fail 'it was replaced'
answers 2 'the old board itself, too' board board convert board
err_is 'eskelvor: board: there is a file of this name already; it is left as it is'
cmp -s board "$examples/older.board" || fail 'it was replaced'
answers 2 'what is new already' board tonight convert other
err_is "eskelvor: tonight: a board's file of format version 2, which is read as it is; there is nothing to convert"
answers 2 'no new name' board board convert
err_is 'eskelvor: convert: give the file of the new board'
answers 2 'two of them' board board convert one two
{ [ ! -e other ] && [ ! -e one ]; } || fail 'something was made'
head -c 3000 board >short
answers 1 'a board that is cut' board short convert other
err_is 'eskelvor: short: refused: code 10 at byte 0: the board is not valid: the file is cut short: 3000 bytes of 3392'
{ head -c 60 board && printf X && tail -c +62 board; } >damaged
answers 1 'a damaged one' board damaged convert other
err_is 'eskelvor: damaged: refused: code 10 at byte 0: the board is not valid: the file is damaged: its checksum is not that of its bytes'
answers 1 'what is none at all' board "$examples/one.report" convert other
[ ! -e other ] || fail 'something was made'
answers 0 'for a machine' board board convert other --json
json_has results.0.accepted=true results.0.code=0 results.0.file=other results.0.slots=4 results.0.used=2 status=0
chmod 600 board
answers 0 'the new one has the mode of the old one' board board convert secret
[ "$(stat -c %a secret)" = 600 ] || fail "mode $(stat -c %a secret)"

way="from before section 7: it is carried over into a new one by eskelvor config OLD convert NEW"
for words in 'apply -c config' 'apply -c config -o config AWR049999999000000000/' 'compose -c config --report-every 15' \
    'decide -c config --phase level --lat 0 --lon 0 --hour 0' 'why -c config --phase level --lat 0 --lon 0 --hour 0'; do
    # shellcheck disable=SC2086
    answers 2 "an old configuration is refused: $words" $words
    out_is
    err_is "eskelvor: config: a configuration's file of format version 1, $way"
done
answers 2 'nor is one begun over it' apply -o config AWR049999999000000000/
err_is "eskelvor: config: a configuration's file of format version 1, $way"
answers 0 'carried over, and what it had not is told' config config convert held
out_is 'held: the configuration of config, which is left as it is' \
    'section 7, which that had not, is as after reset: the descent scheme' '  mode 1: samples by time' \
    '  series: every 40 seconds' '  top of the descent: 20000 feet' '  list of pressure levels: 2' \
    '  timer for level stretches: on'
cmp -s config "$examples/older.configuration" || fail 'the old one is another'
answers 0 'all else is as it was' apply -c held --json
before=$(sed -n 2p config)
[ "$before" = AWR041100101023456089/0000/000000000/300/1060902005120021/1/0/2301/ ] || fail 'another one was kept'
json_has results.0.configuration=AWR041100101023456789/0000/000000000/300/1060902005120021/1/104020021/0/2301/ status=0
answers 0 'and section 7 can be set' apply -c held -o held AWR049999999000000700/030035010/
out_has 'section 7: the descent scheme' '    series: every 300 seconds'
cp held kept
answers 2 'a file that is there stays' config config convert held
err_is 'eskelvor: held: there is a file of this name already; it is left as it is'
cmp -s held kept || fail 'it was replaced'
answers 2 'what is new already' config held convert other2
err_is "eskelvor: held: a configuration's file of format version 2, which is read as it is; there is nothing to convert"
sed 's/2301/2302/' config >damaged
answers 1 'a damaged one' config damaged convert other2
err_has 'eskelvor: damaged: refused: code 12 at byte 0: the configuration is not valid: the file is cut or damaged: '
answers 2 'one that is not there' config nowhere convert other2
{ [ ! -e other2 ] && [ ! -e .nowhere.eskelvor-lock ]; } || fail 'something was made'
answers 0 'for a machine' config config convert other2 --json
json_has results.0.accepted=true results.0.file=other2 \
    results.0.configuration=AWR041100101023456789/0000/000000000/300/1060902005120021/1/104020021/0/2301/ status=0
for words in '' 'held' 'held convert' 'held convert a b' 'held mend a' 'held convert a --wait=soon'; do
    # shellcheck disable=SC2086
    answers 2 "a slip: config $words" config $words
done

# A journal has no version: what was taken before reads as it did, and is replayed with section 7 as after reset
answers 0 'an old journal' journal journal check
out_is 'journal: sound, 2 entries in 875 bytes'
answers 0 'replayed' journal journal replay XY0001 --json
json_has "results.0.entries.0.text=$long" status=0
grep -q 'results.0.configuration=.*/1/104020021/0/2301/$' flat || fail 'section 7 is not as after reset'
answers 0 'and goes on' journal journal add XY0001 AWR049999999000000700/030035010/
answers 0 'with section 7' journal journal replay XY0001
out_has 'entry at byte 875: AWR049999999000000700/030035010/' '    series: every 300 seconds'

done_with 'files from before section 7, carried over'
