#!/bin/sh
# Commands: check, explain, join, commute.
. "$(dirname "$0")/cases.sh"
none=AWR049999999000000000/
first=AWR041999999000400000/151/
second=AWR049199999100400009/300/2301/
both=AWR041199999100400009/300/2301/

answers 0 'the no-change command' check $none
out_is 'command 1: accepted, 22 bytes'
answers 0 'two, for a machine' check --json $none $second
json_has results.0.accepted=true results.0.length=22 results.1.command=2 results.1.text=$second status=0

answers 1 'a number that ends too early' check AWR049999999000400000/15
err_is 'eskelvor: command 1: refused: code 8 at byte 24, section 4, maximum wind: the command ends inside a field' \
    '  AWR049999999000400000/15' \
    '                          ^'
out_is
answers 1 'a byte more' check ${none}x
err_is 'eskelvor: command 1: refused: code 8 at byte 22, behind the last delimiter: bytes after the last delimiter' \
    "  ${none}x" \
    '                        ^'
answers 1 'each code at its field' check --json AWR042999999000000000/ AWR049999999000000000. \
    AWR049999999000400000/611/ AWR049999999020000000/0100S10S010W010E00/ AWR049999999020000000/0110N11N010W010E00/ \
    AWR049999999000000600/
json_has results.0.code=4 results.0.place=5 'results.0.field=flag AMDAR' \
    results.1.code=3 results.1.place=21 results.1.field=delimiter \
    results.2.code=5 results.2.place=22 'results.2.field=section 4, interval' \
    'results.2.meaning=a number outside its range' 'results.2.because=61 is not 01 to 60' \
    results.3.code=6 results.3.place=24 'results.3.field=section 2, reporting boxes, box 1, north edge' \
    results.3.because=null \
    results.4.code=7 results.4.place=27 'results.4.meaning=fields disagree' \
    results.5.code=4 results.5.place=18 'results.5.field=indicator E7' status=1
answers 1 'one refused among accepted ones' check $none AWR04 $none
out_is 'command 1: accepted, 22 bytes' 'command 3: accepted, 22 bytes'
err_has 'command 2: refused: code 8 at byte 5'

long=AWR041111111223456789/
box=90N90S180W180E
boxes=16$box$box$box$box$box$box$box$box$box$box$box$box$box$box$box$box
eight=ABCDEFGH
names=20$eight$eight$eight$eight$eight$eight$eight$eight$eight$eight
long=$long$boxes$boxes/$names$names$names${names}1/601/1060902005120021/1/104020021/0/2301/
answers 0 'the longest command has 845 bytes' check "$long"
out_is 'command 1: accepted, 845 bytes'
answers 1 'one byte more is code 1' check --json "${long}x"
json_has results.0.code=1 results.0.place=0 results.0.length=846
answers 1 'far into a long command the part round the mark is shown' check "${long%/*/}/2401/"
err_is 'eskelvor: command 1: refused: code 5 at byte 840, section 9, start hour: 24 is not 00 to 23' \
    '  ..FGHABCDEFGHABCDEFGH1/601/1060902005120021/1/104020021/0/2401/' \
    '                                                            ^'

# Each figure of the layout, its range, and what stood there
while IFS='|' read -r text at said; do
    answers 1 "a figure in words: $said" check "AWR04$text"
    err_has "command 1: refused: code $at, $said"
done <<'END'
9999993000000000/|4 at byte 11|flag descent: 3 is not 0, 1 or 9
9999999300000000/|4 at byte 12|downlink: 3 is not 0, 1 or 2
9999999000000003/|4 at byte 20|indicator E9: 3 is not 0 or 9
9999999000000800/|4 at byte 18|indicator E7: 8 is not 0 or 7
9999999020000000/17|5 at byte 22|section 2, reporting boxes: 17 is not 00 to 16
9999999020000000/0191N10S010W010E00/|5 at byte 24|section 2, reporting boxes, box 1, north edge: 91N is not 00 to 90 and N or S
9999999020000000/000110S45S110E155X/|4 at byte 36|section 2, inhibiting boxes, box 1, east edge: 155X is not 000 to 180 and E or W
9999999003000000/21|5 at byte 22|section 3, ascent selected: 21 is not 00 to 20
9999999003000000/01YMML02YPADyssy00000/|4 at byte 34|section 3, descent selected, airfield 2: yssy is not four letters A to Z or digits
9999999003000000/000000002/|5 at byte 30|section 3, routine: 2 is not 0 or 1
9999999003000000/000000001x|3 at byte 31|section 3, delimiter: a fixed byte is wrong
9999999000400000/611/|5 at byte 22|section 4, interval: 61 is not 01 to 60
9999999000400000/001/|5 at byte 22|section 4, interval: 00 is not 01 to 60
9999999000400000/6x1/|4 at byte 22|section 4, interval: 6x is not 01 to 60
9999999000400000/602/|5 at byte 24|section 4, maximum wind: 2 is not 0 or 1
9999999000050000/2060902005120021/|4 at byte 22|section 5, mode: 2 is not 0 or 1
9999999000050000/1020902005120021/|5 at byte 23|section 5, series 1 interval: 02 is not 03 to 20
9999999000050000/1060292005120021/|5 at byte 25|section 5, series 1 duration: 029 is not 030 to 600
9999999000050000/1060906105120021/|5 at byte 28|section 5, series 2 interval: 61 is not 03 to 60
9999999000050000/1060902011220021/|5 at byte 30|section 5, total duration: 112 is not 051 to 111
9999999000050000/1060902005135121/|5 at byte 33|section 5, top: 351 is not 150 to 350
9999999000050000/1060902005120031/|4 at byte 36|section 5, list: 3 is not 1 or 2
9999999000050000/1060902005120023/|4 at byte 37|section 5, timer: 3 is not 0 or 1
9999999000000700/204020021/|4 at byte 22|section 7, mode: 2 is not 0 or 1
9999999000000700/100920021/|5 at byte 23|section 7, interval: 009 is not 010 to 300
9999999000000700/130120021/|5 at byte 23|section 7, interval: 301 is not 010 to 300
9999999000000700/10 020021/|4 at byte 23|section 7, interval: 0 0 is not 010 to 300
9999999000000700/104014921/|5 at byte 26|section 7, top: 149 is not 150 to 350
9999999000000700/104020031/|4 at byte 29|section 7, list: 3 is not 1 or 2
9999999000000700/104020023/|4 at byte 30|section 7, timer: 3 is not 0 or 1
9999999000000700/104020021x|3 at byte 31|section 7, delimiter: a fixed byte is wrong
9999999000006780/1/100920021/0/|5 at byte 25|section 7, interval: 009 is not 010 to 300
9999999000406080/601/1/2/|5 at byte 28|section 8, routine: 2 is not 0 or 1
9999999000400009/601/2324/|5 at byte 28|section 9, end hour: 24 is not 00 to 23
END
answers 1 'a control character in a figure is shown' check "$(printf 'AWR049999999000400000/6\0331/')"
err_has 'section 4, interval: 6\x1b is not 01 to 60'

printf '%s\n' $none >"$scratch/one"
answers 0 'the line end of a file is no part of the command' check "$scratch/one"
out_is "$scratch/one, line 1: accepted, 22 bytes"
answers 1 'unless every byte is asked for' check --exact "$scratch/one"
err_is "eskelvor: $scratch/one: refused: code 8 at byte 22, behind the last delimiter: bytes after the last delimiter" \
    "  $none\\x0a" \
    '                        ^'
printf '%s\r\n\r\n\n%s' $none $second >"$scratch/lines"
answers 0 'CR LF, empty lines, and a last line without its end' check --json "$scratch/lines"
json_has results.0.line=1 results.0.offset=0 results.0.length=22 \
    results.1.line=4 results.1.offset=27 results.1.length=31 status=0
printf '%s \n' $none >"$scratch/space"
answers 1 'a space behind the command is a byte like any other' check "$scratch/space"
err_has 'code 8 at byte 22'
printf '%s\r\r\n' $none >"$scratch/crcr"
answers 1 'of two CR one belongs to the line end' check "$scratch/crcr"
err_has 'code 8 at byte 22'
printf 'AWR04\0009999999000000000/\n' >"$scratch/nul"
answers 1 'a byte 0 is seen' check "$scratch/nul"
err_is "eskelvor: $scratch/nul, line 1: refused: code 4 at byte 5, flag AMDAR: \\x00 is not 0, 1 or 9" \
    '  AWR04\x009999999000000000/' \
    '       ^'
printf 'AWR04\0479\377\\99999000000000/\n' >"$scratch/odd"
answers 1 'odd bytes for a machine' check --json "$scratch/odd"
json_has "results.0.text=AWR04'9\\u00ff\\\\99999000000000/"
input=$scratch/lines
answers 0 'standard input' check -
out_is 'standard input, line 1: accepted, 22 bytes' 'standard input, line 4: accepted, 31 bytes'
input=/dev/null
answers 2 'a word that does not begin with AWR is a file' check XWR049999999000000000/
err_has 'XWR049999999000000000/: cannot open' 'a command begins with AWR'
answers 1 'unless all words are texts' check --text XWR049999999000000000/ ''
err_has 'command 1: refused: code 3 at byte 0, AWR04: a fixed byte is wrong' 'command 2: refused: code 8 at byte 0'

answers 0 'every flag, digit and section in words' explain $both
out_is $both flags '  AMDAR          1  on' '  inhibit hours  1  on: silent in the hours of section 9' \
    '  regions        9  no change' '  airports       9  no change' '  ascent         9  no change' \
    '  enroute        9  no change' '  descent        9  no change' \
    'downlink         1  the flags are sent down' \
    'section 4: level flight' '  a report every 30 minutes' '  reports of the maximum wind: no' \
    'section 9: the hours of silence' '  from 23:00 up to 01:00, over midnight'
answers 0 'boxes and airfields' explain AWR049911999223000000/0110S45S110E155E0100N01S000E001E/01YMML0001YPAD000/
out_has 'downlink         2  the whole configuration is sent down' 'reporting boxes:' \
    '     1. from 10S down to 45S, from 110E east to 155E' '     1. from 0N down to 1S, from 0E east to 1E' \
    '  selected for ascent: YMML' '  selected for descent: none, so every airfield' '  inhibited for ascent: YPAD' \
    '  routine reports instead of a scheme: no'
answers 0 'boxes over the date line' explain AWR049919999020000000/0210N10S170E170W10N10S180E180W0110N10S180W180E/
out_has '     1. from 10N down to 10S, from 170E eastward over the date line to 170W' \
    '     2. from 10N down to 10S, from 180E eastward over the date line to 180W' \
    '     1. from 10N down to 10S, from 180W east to 180E'
answers 0 'accepted' check AWR049919999020000000/0210N10S170E170W10N10S180E180W00/
answers 0 'for a machine' explain --json AWR049919999020000000/0110N10S170E170W00/
json_has results.0.sections.2.reporting.0.west=170E results.0.sections.2.reporting.0.east=170W status=0
answers 0 'its options' explain --options AWR049919999020000000/0110N10S170E170W00/
out_has ' --reporting-box 10N-10S,170E-170W '
answers 0 'the ascent scheme, and routine reports' explain AWR049999999000056080/0032006011120010/1/0/
out_has 'mode 0: samples by pressure level' 'series 1: every 3 seconds, for 200 seconds' \
    'series 2: every 60 seconds, until 1110 seconds in all' 'top of the ascent: 20000 feet' \
    'list of pressure levels: 1' 'timer for level stretches: off' \
    'section 6: routine reports in ascent' 'section 8: routine reports in descent'
answers 0 'the descent scheme, as source document 000 prints one' explain AWR049999999000000700/004020011/
out_has 'section 7: the descent scheme' '  mode 0: samples by pressure level' '  series: every 40 seconds' \
    '  top of the descent: 20000 feet' '  list of pressure levels: 1' '  timer for level stretches: on'
answers 0 'the flag that asks for it' explain AWR049999991000000000/
out_has '  descent        1  on: the scheme of section 7'
answers 0 'a command that says nothing' explain $none
out_has 'no section is named'
all=AWR041911999223456789/0110S45S110E155E00/01YMML0001YPAD001/071/1060902005120021/1/130015010/0/2301/
answers 0 'the same for a machine' explain --json $all
json_has results.0.flags.amdar=1 results.0.flags.inhibit_hours=9 results.0.downlink=2 \
    results.0.sections.2.reporting.0.north=10S results.0.sections.2.reporting.0.east=155E \
    results.0.sections.3.ascent_selected.0=YMML results.0.sections.3.ascent_inhibited.0=YPAD \
    results.0.sections.3.routine=1 results.0.sections.4.interval_minutes=7 results.0.sections.5.top_feet=20000 \
    results.0.sections.6.routine=1 results.0.sections.7.mode=1 results.0.sections.7.interval_seconds=300 \
    results.0.sections.7.top_feet=15000 results.0.sections.7.list=1 results.0.sections.7.timer=0 \
    results.0.sections.8.routine=0 results.0.sections.9.start_hour=23 results.0.sections.9.end_hour=1 status=0
answers 1 'a refusal is the same as that of check' explain --json AWR04
json_has results.0.code=8 results.0.place=5 status=1

answers 0 "document 01's join" join $first $second
out_is $both
answers 0 'in the other order it is another' join $second $first
out_is AWR041199999100400009/151/2301/
answers 0 'section 7 goes between 6 and 8' join AWR049999999000006080/1/0/ AWR049999999000000700/104020021/
out_is AWR049999999000006780/1/104020021/0/
answers 0 'no change on either side alters nothing' join $none $both $none
out_is $both
answers 0 'one command is itself' join $first
out_is $first
printf '%s\n%s\n' $first $second >"$scratch/two"
answers 0 'all lines of a file, in order, for a machine' join --json "$scratch/two"
json_has results.0.text=$both results.0.length=31 results.0.commands=2 status=0
answers 1 'one is refused: nothing is joined' join $first AWR049x $second
err_has 'command 2: refused: code 4 at byte 6'
out_is
answers 1 'which one, for a machine' join --json $first AWR049x $second
json_has results.0.accepted=false results.0.command=2 results.0.code=4 results.0.place=6 status=1

for command in "$examples"/*.commands; do
    answers 0 'the examples are accepted' check "$command"
done
for file in "$examples"/*.damaged; do
    answers 1 'the damaged one is refused' check "$file"
done

# Either way round
answers 0 'nothing is shared' commute $first AWR049199999100000009/2301/
out_is 'either way round'
answers 0 'the same is shared' commute $first AWR041999999200400000/151/
out_is 'either way round'
answers 0 'a section stands against it' commute $first $second
out_is 'the order counts: both set section 4 (level flight), and differently'
answers 0 'a flag and two sections do' commute AWR041999999000400009/151/0102/ AWR040999999000400009/150/0103/
out_is 'the order counts: both set flag AMDAR, section 4 (level flight) and section 9 (the hours of silence), and differently'
answers 0 'two flags do' commute AWR040000000000000000/ AWR049991991000000000/
out_is 'the order counts: both set flag airports and flag descent, and differently'
answers 1 'and by the status' commute --exit-code $first $second
answers 0 'which is 0 where it does not count' commute --exit-code $first $none
answers 0 'for a machine' commute --json AWR040000000000000000/ AWR049991991000006000/0/
json_has results.0.either_way=false results.0.flags.0=airports results.0.flags.1=descent results.0.first=1 results.0.second=2 \
    'results.0.second_from=command 2' status=0
answers 0 'sections for a machine' commute --json $first $second
json_has results.0.either_way=false results.0.sections.0=4
answers 1 'for a machine, by the status' commute --json --exit-code $first $second
json_has results.0.either_way=false status=1
printf '%s\n' $first $second $none >"$scratch/three"
answers 0 'of more than two, each against those before it' commute "$scratch/three"
out_is "$scratch/three, line 2 may not be moved before $scratch/three, line 1: both set section 4 (level flight), and differently" \
    "$scratch/three, line 3 may be moved before $scratch/three, line 1" \
    "$scratch/three, line 3 may be moved before $scratch/three, line 2"
answers 0 'the same typed, for a machine' commute --json $none $first $second
json_has results.0.either_way=true results.1.either_way=true results.2.either_way=false results.2.first=2 results.2.second=3
answers 1 'one is refused: none is told' commute $first AWR049x $second
out_is
err_has 'command 2: refused: code 4 at byte 6'
answers 2 'one alone' commute $first
err_is 'eskelvor: one command alone; give two or more'

done_with 'commands checked, explained, joined, held against each other'
