#!/bin/sh
# What differs between two configurations: diff.
. "$(dirname "$0")/cases.sh"
cd "$scratch"
none=AWR049999999000000000/
second=AWR049199999000400009/300/2301/
box=AWR040999999020000000/0160N40N010W010E00/

answers 0 'a configuration' apply -o a $second
answers 0 'another' apply -o b $second $box

answers 0 'nothing' diff a a
out_is $none
err_is 'nothing differs'
answers 0 'nor from reset to itself, whatever the status says' diff --exit-code reset reset
out_is $none
answers 0 'flags and sections, the one beside the other; the command alone on standard output' diff reset a
out_is $second
err_is 'flag inhibit hours: 0, off: reports at every hour | 1, on: silent in the hours of section 9' \
    'section 4: level flight' '  a report every 7 minutes         | a report every 30 minutes' \
    '  reports of the maximum wind: yes | reports of the maximum wind: no' 'section 9: the hours of silence' \
    '  none: both are 00 | from 23:00 up to 01:00, over midnight'
answers 0 'and back' diff a reset
out_is AWR049099999000400009/071/0000/
answers 0 'lists of other lengths; the lines that are the same have no bar' diff a b
out_is $box
err_is 'flag AMDAR: 1, on | 0, off: never reports' 'section 2: boxes where to report, and where not' \
    '  reporting boxes: none, so everywhere | reporting boxes:' \
    '  inhibiting boxes: none               |    1. from 60N down to 40N, from 10W east to 10E' \
    '                                       | inhibiting boxes: none'
answers 0 'one line of several' diff reset b
err_has '  none: both are 00 | from 23:00'
answers 1 'by the status' diff --exit-code a b
out_is $box
answers 0 'the command does what it says' apply -c a -o c $box
answers 0 'so nothing differs then' diff --exit-code c b
out_is $none

answers 0 'for a machine' diff --json a b
json_has results.0.accepted=true results.0.code=0 results.0.first=a results.0.second=b results.0.equal=false \
    results.0.changes.0.flag=AMDAR results.0.changes.0.was=1 results.0.changes.0.is=0 results.0.changes.1.section=2 \
    results.0.changes.1.is.reporting.0.north=60N results.0.length=41 results.0.text=$box status=0
answers 0 'nothing, for a machine' diff --json b b
json_has results.0.equal=true results.0.text=$none results.0.length=22 status=0
answers 1 'for a machine, by the status' diff --json --exit-code a b
json_has results.0.accepted=true results.0.equal=false status=1

answers 0 'a board' board waiting create 2
eskelvor diff a b 2>diff.err >diff.out || fail 'not answered'
input=diff.out
answers 0 'down a pipe onto the board' board waiting add XY0001 -
out_is 'accepted: 41 bytes wait for XY0001'
input=/dev/null
eskelvor diff a b 2>/dev/null | eskelvor board waiting add XY0002 - >"$scratch/out" || fail 'the pipe'
out_is 'accepted: 41 bytes wait for XY0002'
answers 0 'and that is what waits' board waiting take XY0002
out_is $box

answers 2 'no second' diff a
out_is
err_is 'eskelvor: give two configurations; --help tells more'
answers 2 'three' diff a b c
answers 2 'one that is not there' diff a nowhere
out_is
err_is 'eskelvor: nowhere: cannot open: No such file or directory'
answers 2 'a file of the name reset is another' diff ./reset a
err_is 'eskelvor: ./reset: cannot open: No such file or directory'
sed 's/AWR04/AWR05/' a >damaged
answers 1 'one that is damaged' diff damaged a
out_is
err_has 'damaged: refused: code 12'
answers 1 'the same for a machine' diff --json a damaged
json_has results.0.accepted=false results.0.code=12 status=1

done_with 'differences'
