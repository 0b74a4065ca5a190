#!/bin/sh
# One section of commands: as bytes, in words, for a machine; and what isn't looked at.
. "$(dirname "$0")/cases.sh"
second=AWR049199999100400009/300/2301/
lists=AWR049999999023400009/0160N40N010W005E00/01EGLL0000001/151/2301/
broken=AWR049999999023400009/01aaaaaaaaaaaaaa00?01eeee0000009?xx1?2301/and

answers 0 'its bytes, with the delimiter' section 9 $second
out_is 2301/
answers 0 'behind lists' section 4 $lists
out_is 151/
answers 0 'a list' section 3 $lists
out_is 01EGLL0000001/
answers 0 'nothing where it is not named' section 5 $lists
out_is
answers 0 'of several commands' section 4 $second $lists
out_is 300/ 151/
answers 0 'what else is wrong is not seen' section 9 "$broken"
out_is 2301/
printf '%s\n' $second $lists >"$scratch/texts"
answers 0 'of a file' section 9 "$scratch/texts"
out_is 2301/ 2301/
answers 0 'a text that could be a file' section 9 --text $second
out_is 2301/

answers 0 'in words' section 4 --words $lists
out_is 'section 4: level flight' '  a report every 15 minutes' '  reports of the maximum wind: yes'
answers 0 'in words, not named' section 5 --words $lists
out_is "section 5 isn't named"
answers 1 'in words it is read' section 4 --words "$broken"
err_has 'command 1: refused: code 4 at byte 55'
answers 1 'in words, the field' section 9 --words AWR049999999000400009/xx1/2401/
err_has 'command 1: refused: code 5 at byte 26'

answers 0 'for a machine' section 9 --json $lists $second
json_has subcommand=section results.0.accepted=true results.0.section=9 results.0.named=true results.0.place=59 \
    results.0.length=5 results.0.text=2301/ results.1.place=26 status=0
answers 0 'for a machine, in words' section 4 --words --json $lists
json_has results.0.place=55 results.0.holds.interval_minutes=15 status=0
answers 0 'for a machine, not named' section 7 --json $second
json_has results.0.named=false results.0.place=0 results.0.length=0 results.0.text= status=0

answers 1 'a count that is cut' section 2 AWR049999999023000000/00
err_has 'command 1: refused: code 8 at byte 24' 'the command ends before this section does'
answers 1 'a section that runs past the end' section 3 AWR049999999023000000/01
err_has 'code 8 at byte 22'
answers 1 'a count on the way' section 3 --json AWR049999999023000000/17
json_has results.0.code=5 results.0.place=22 status=1
answers 1 'the header' section 3 AWR05
err_has 'code 3 at byte 0'
answers 0 'the header alone' section 4 AWR049999999023000000/
out_is

answers 2 'no such section' section 1 $second
err_is 'eskelvor: 1: no section: they are numbered 2 to 9'
answers 2 'no such section' section 10 $second
answers 2 'no number' section nine $second
err_is 'eskelvor: nine: no section: they are numbered 2 to 9'
answers 2 'no command' section 9
err_has 'no section or no command'
done_with 'sections found'
