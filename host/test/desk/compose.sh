#!/bin/sh
# compose: commands from words, refusals with the option at fault, commands and reports from JSON and back.
. "$(dirname "$0")/cases.sh"
cd "$scratch"
generate() { "$root/host/tool" run generate "$@"; }

# Every flag, digit and figure by its option, and the command that it makes
while IFS='|' read -r made options; do
    # shellcheck disable=SC2086
    answers 0 "by options: $options" compose $options
    out_is "AWR04$made"
    err_is
done <<'END'
9999999000000000/|--amdar no-change
1999999000000000/|--amdar on
0999999000000000/|--amdar off
9199999000000000/|--inhibit-hours on
9919999000000000/|--regions on
9991999000000000/|--airports on
9999199000000000/|--ascent on
9999919000000000/|--enroute on
9999990000000000/|--descent off
9999999000000000/|--downlink nothing
9999999100000000/|--downlink flags
9999999200000000/|--downlink configuration
9999999020000000/0160N40N010W005E00/|--reporting-box 60N-40N,10W-5E
9999999020000000/000290N90S180W180E00N00N000E000E/|--inhibiting-box 90N-90S,180W-180E --inhibiting-box=0N-0N,0E-0E
9999999020000000/0260N40N170E170W60N40N005E010W00/|--report 60N-40N,170E-170W --reporting-box=60N-40N,5E-10W
9999999020000000/0260N40N010W005E10S45S110E155E0101N01N001E001E/|--report 60N-40N,10W-5E --inhibit=1N-1N,1E-1E --report 10S-45S,110E-155E
9999999020000000/0000/|--reporting-box none
9999999020000000/0000/|--inhibiting-box none
9999999003000000/02YMMLYPAD0000001/|--selected-for-ascent YMML --selected-for-ascent YPAD --routine-instead yes
9999999003000000/0002YMMLYPAD00000/|--selected-for-descent YMML,YPAD --routine-instead no
9999999003000000/000001AB12000/|--inhibited-for-ascent AB12 --inhibited-for-descent none --routine-instead no
9999999003000000/00000003AAAABBBBAAAA0/|--inhibited-for-descent AAAA,BBBB --inhibited-for-descent AAAA --routine-instead no
9999999000400000/601/|--report-every 60 --maximum-wind yes
9999999000400000/010/|--maximum-wind no --report-every=1
9999999000050000/0032006011115010/|--samples-by pressure-level --series-1-every 3 --series-1-for 200 --series-2-every 60 --series-2-until 1110 --top 15000 --level-list 1 --timer off
9999999000050000/1200300305135021/|--samples-by time --series-1-every 20 --series-1-for 30 --series-2-every 3 --series-2-until 510 --top 35000 --level-list 2 --timer on
9999999000006000/1/|--routine-in-ascent yes
9999999000000700/001015010/|--descent-samples-by pressure-level --descent-every 10 --descent-top 15000 --descent-level-list 1 --descent-timer off
9999999000000700/130035021/|--descent-samples-by time --descent-every 300 --descent-top 35000 --descent-level-list 2 --descent-timer on
9999999000000080/0/|--routine-in-descent no
9999999000000009/2301/|--hours 23-01
9999999000000009/2301/|--hours 23:00-01:00
9999999000000009/0505/|--hours 5-5
9999999000000009/0000/|--hours none
1199199120000009/000160N40N010W005E/2301/|--amdar on --ascent on --inhibit-hours on --hours 23-01 --inhibiting-box 60N-40N,10W-5E --downlink flags
END

# What the program prints of a figure can be typed back
answers 0 'a box as explain prints it' compose --reporting-box 'from 10S down to 45S, from 110E east to 155E'
out_is 'AWR049999999020000000/0110S45S110E155E00/'
answers 0 'a box as why prints it' compose --reporting-box '10S to 45S, 110E to 155E'
out_is 'AWR049999999020000000/0110S45S110E155E00/'
for box in 'from 10N down to 10S, from 170E eastward over the date line to 170W' 'from 10N down to 10S, from 170E east to 170W' \
    '10N to 10S, 170E eastward over the date line to 170W' '10N to 10S, 170E to 170W' 10N-10S,170E-170W; do
    answers 0 'a box over the date line' compose --inhibiting-box "$box"
    out_is 'AWR049999999020000000/000110N10S170E170W/'
done
answers 2 'one that does not go over it' compose --report '10S to 45S, 110E eastward over the date line to 155E'
err_has 'is not a box, as 60N-40N,10W-5E'
answers 0 'the hours as explain prints them' compose --hours 'from 23:00 up to 01:00, over midnight'
out_is 'AWR049999999000000009/2301/'
answers 0 'and by day' compose --hours 'from 02:00 up to 04:00'
out_is 'AWR049999999000000009/0204/'
answers 0 'and none' compose --hours 'none: both are 05'
out_is 'AWR049999999000000009/0505/'
answers 0 'numbers with their units' compose --report-every '30 minutes' --maximum-wind no --samples-by time \
    --series-1-every '6 seconds' --series-1-for '90 seconds' --series-2-every '20 seconds' \
    --series-2-until '510 seconds' --top '20000 feet' --level-list 2 --timer on
out_is 'AWR049999999000450000/300/1060902005120021/'
answers 0 'of the descent too' compose --descent-samples-by 'pressure level' --descent-every '40 seconds' \
    --descent-top '20000 feet' --descent-level-list 1 --descent-timer on
out_is 'AWR049999999000000700/004020011/'
answers 2 'another unit' compose --report-every '30 seconds' --maximum-wind no
err_is 'eskelvor: --report-every: 30 seconds is not 1 to 60 minutes'
answers 0 'the downlink as explain prints it' compose --downlink 'the whole configuration is sent down' --amdar 'no change'
out_is 'AWR049999999200000000/'
answers 0 'airfields and empty lists as explain prints them' compose --selected-for-ascent 'YMML YPAD' \
    --selected-for-descent 'none, so every airfield' --routine-instead no --reporting-box 'none, so everywhere'
out_is 'AWR049999999023000000/0000/02YMMLYPAD0000000/'
answers 0 'samples by pressure level' compose --samples-by 'pressure level' --series-1-every 3 --series-1-for 30 \
    --series-2-every 3 --series-2-until 510 --top 15000 --level-list 1 --timer off
out_is 'AWR049999999000050000/0030300305115010/'

# The writer's refusals, with the option, what was given and what may be
while IFS='|' read -r option said rest; do
    # shellcheck disable=SC2086
    answers 1 "the writer refuses: $option" compose $option $rest
    err_is "eskelvor: ${option%% *}: refused: code $said"
    out_is
done <<'END'
--report-every 61|5 at byte 22, section 4, interval: 61 is not 1 to 60 minutes|--maximum-wind yes
--report-every 0|5 at byte 22, section 4, interval: 0 is not 1 to 60 minutes|--maximum-wind yes
--report-every 300|5 at byte 22, section 4, interval: 300 is not 1 to 60 minutes|--maximum-wind yes
--hours 24-01|5 at byte 22, section 9, start hour: 24 is not 0 to 23|
--hours 23-99|5 at byte 24, section 9, end hour: 99 is not 0 to 23|
--hours 24-01|5 at byte 61, section 9, start hour: 24 is not 0 to 23|--reporting-box 60N-40N,10W-5E --selected-for-ascent YMML,YPAD --routine-instead no --routine-in-ascent yes
--inhibiting-box 40N-60N,10W-5E|7 at byte 29, section 2, inhibiting boxes, box 1, south edge: 40N-60N,10W-5E: the north edge, which comes first, is below the south edge|
--reporting-box 91N-40N,10W-5E|5 at byte 24, section 2, reporting boxes, box 1, north edge: 91N is not 0 to 90 and N or S|
--reporting-box 60N-40N,10W-181E|5 at byte 34, section 2, reporting boxes, box 1, east edge: 181E is not 0 to 180 and E or W|
--reporting-box 60N-40X,10W-5E|4 at byte 27, section 2, reporting boxes, box 1, south edge: 40X is not 0 to 90 and N or S|
--reporting-box 60N-0S,10W-5E|6 at byte 27, section 2, reporting boxes, box 1, south edge: 0S: zero degrees are 0N|
--inhibiting-box 60N-0N,0W-5E|6 at byte 46, section 2, inhibiting boxes, box 1, west edge: 0W: zero degrees are 0E|--reporting-box 60N-40N,10W-5E
--selected-for-ascent ymml|4 at byte 24, section 3, ascent selected, airfield 1: ymml is not four letters A to Z or digits|--routine-instead no
--inhibited-for-ascent YMML,YP/D|4 at byte 32, section 3, ascent inhibited, airfield 2: YP/D is not four letters A to Z or digits|--routine-instead no
END
box=60N-40N,10W-5E
boxes=$box
for i in 2 3 4 5 6 7 8 9 10 11 12 13 14 15 16; do
    boxes="$boxes --reporting-box $box"
done
# shellcheck disable=SC2086
answers 0 'sixteen boxes' compose --reporting-box $boxes
out_has 'AWR049999999020000000/1660N40N010W005E60N40N'
# shellcheck disable=SC2086
answers 1 'one more is refused' compose --reporting-box $boxes --reporting-box $box
err_is 'eskelvor: --reporting-box: refused: code 5 at byte 22, section 2, reporting boxes: 17 boxes are given, and 16 are the most'
five=AAAA,AAAA,AAAA,AAAA,AAAA
answers 1 'twenty-one airfields' compose --selected-for-descent $five,$five --selected-for-descent $five,$five,AAAA \
    --routine-instead no
err_has 'code 5 at byte 24, section 3, descent selected: 21 airfields are given, and 20 are the most'
answers 1 'a refusal for a machine' --json compose --report-every 61 --maximum-wind yes
json_has subcommand=compose results.0.accepted=false results.0.about=--report-every results.0.code=5 results.0.place=22 \
    'results.0.field=section 4, interval' 'results.0.because=61 is not 1 to 60 minutes' status=1
answers 0 'a command for a machine' --json compose --hours 23-01
json_has results.0.accepted=true results.0.length=27 results.0.text=AWR049999999000000009/2301/ status=0

# Slips, each told with its option
while IFS='|' read -r options said; do
    # shellcheck disable=SC2086
    answers 2 "a slip: $options" compose $options
    err_is "eskelvor: $said"
    out_is
done <<'END'
|nothing is given; --help tells what there is
--amdar maybe|--amdar: maybe is not on, off or no-change
--downlink 1|--downlink: 1 is not nothing, flags or configuration
--report-every x|--report-every: x is not 1 to 60 minutes
--report-every -5|--report-every: -5 is not 1 to 60 minutes
--series-2-until 515|--series-2-until: 515 is not 510 to 1110 seconds, in tens
--top 20050|--top: 20050 is not 15000 to 35000 feet, in hundreds
--descent-top 20050|--descent-top: 20050 is not 15000 to 35000 feet, in hundreds
--hours 23|--hours: 23 is not two hours, as 23-01, or none
--hours 23-|--hours: 23- is not two hours, as 23-01, or none
--hours 23-01x|--hours: 23-01x is not two hours, as 23-01, or none
--reporting-box 60-40,10W-5E|--reporting-box: 60-40,10W-5E is not a box, as 60N-40N,10W-5E: north, south, west, east; or none
--reporting-box 60N-40N|--reporting-box: 60N-40N is not a box, as 60N-40N,10W-5E: north, south, west, east; or none
--reporting-box 60N-40N,10W-5E,|--reporting-box: 60N-40N,10W-5E, is not a box, as 60N-40N,10W-5E: north, south, west, east; or none
--selected-for-ascent YML|--selected-for-ascent: YML is not an airfield of four letters or digits, several, or none
--report-every 15|--maximum-wind: it is needed too: section 4 is replaced whole; -c FILE takes the rest from a configuration
--selected-for-ascent YMML|--routine-instead: it is needed too: section 3 is replaced whole; -c FILE takes the rest from a configuration
--amdar on --amdar off|--amdar: it is given twice
--hours 1-2 --hours 3-4|--hours: it is given twice
--amdar on AWR049999999000000000/|AWR049999999000000000/: this takes options alone; --help tells which there are
--json - --amdar on|--json: takes no other option beside it
--json nowhere|nowhere: cannot open: No such file or directory
--section-7 on|--section-7: no such option here; --help tells which there are
END

# The rest of a section from a configuration
answers 0 'a configuration' apply -o au0137 AWR049999999020450000/0110S45S110E155E0100N01S000E001E/300/1200300305135021/
answers 0 'one figure, the rest of its section as it is' compose -c au0137 --report-every 15
out_is AWR049999999000400000/150/
answers 0 'one of eight' compose --config au0137 --series-1-every 6
out_is AWR049999999000050000/1060300305135021/
answers 0 'a list, and the other one as it is' compose -c au0137 --inhibiting-box none
out_is AWR049999999020000000/0110S45S110E155E00/
answers 0 'lists left out are as they are' compose -c au0137 --routine-instead yes
out_is AWR049999999003000000/000000001/
answers 2 'no such configuration' compose -c nowhere --report-every 15
err_is 'eskelvor: nowhere: cannot open: No such file or directory'

# explain --options, and what it prints run by the shell
answers 0 'the call that makes a command' explain --options AWR041911999223456789/0110S45S110E155E00/01YMML0001YPAD001/071/1060902005120021/1/104020021/0/2301/
out_has 'eskelvor compose --amdar on --regions on --airports on --downlink configuration --routine-instead yes' \
    ' --report-every 7 --maximum-wind yes --samples-by time --series-1-every 6 ' ' --hours 23-01 ' \
    ' --descent-samples-by time --descent-every 40 --descent-top 20000 --descent-level-list 2 --descent-timer on ' \
    ' --reporting-box 10S-45S,110E-155E --inhibiting-box none --selected-for-ascent YMML ' ' --inhibited-for-ascent YPAD '
answers 2 'it is no document' explain --options --json AWR049999999000000000/
json_has results.0.about=--options status=2
why='what explain --options prints, run' words=''
generate commands 60 7 >some
{ cat "$examples"/*.commands some; echo AWR049999999000000000/; } >commands
eskelvor explain --options commands >calls || fail 'explain --options'
while read -r _ line; do
    # shellcheck disable=SC2086
    eskelvor $line </dev/null || fail "not a call: $line"
done <calls >"$scratch/out" 2>"$scratch/err"
cmp -s commands "$scratch/out" || fail 'the commands are others'
cases=$((cases + 66))

# There and back by JSON: every example, and thousands that the library wrote
there_and_back() { # FILE FORM WORD..: what the program shows of a file in this form is put together to the same bytes
    file=$1
    shift
    words=$*
    eskelvor "$@" "$file" >"$scratch/form" 2>"$scratch/err" || fail 'it is not shown'
    eskelvor compose --json "$scratch/form" >"$scratch/back" 2>"$scratch/err" || fail 'it is not put together'
    cmp -s "$file" "$scratch/back" || fail "$file is another"
    cases=$((cases + 1))
}
why='there and back'
: >"$scratch/out"
generate commands 3000 1 >many.commands
generate reports 3000 1 >many.reports
for file in "$examples"/*.commands many.commands; do
    there_and_back "$file" explain --json
done
for file in "$examples"/one.report "$examples"/three.reports many.reports; do
    there_and_back "$file" report --json
    there_and_back "$file" report --jsonl
done
[ "$(wc -l <many.commands)" = 3000 ] && [ "$(wc -c <many.reports)" = 660000 ] || fail 'they are not thousands'
input=$scratch/form
answers 0 'standard input' compose --json -
cmp -s "$scratch/out" many.reports || fail 'by standard input it is another'
input=/dev/null
answers 0 'a board' board b create 1
answers 0 'a command on it' board b add XY0001 AWR041199999100400009/300/2301/
eskelvor board b list XY0001 --json >waits
answers 0 'what waits for an aircraft, put together' compose --json waits
out_is AWR041199999100400009/300/2301/
answers 0 'a document of commands for a machine' --json compose --json waits
json_has subcommand=compose results.0.text=AWR041199999100400009/300/2301/ status=0

eskelvor report --json "$examples/damaged.reports" >damaged || true
answers 1 'of what was refused nothing is made, and the others are' compose --json damaged
err_is 'eskelvor: damaged, line 3, column 1: this tells of something that was refused; nothing is made of it' \
    'eskelvor: damaged, line 5, column 1: this tells of something that was refused; nothing is made of it'
{ head -c 220 "$examples/damaged.reports"; tail -c +441 "$examples/damaged.reports" | head -c 220
    tail -c 220 "$examples/damaged.reports"; } | cmp -s - "$scratch/out" || fail 'the three are others'

answers 0 'edited: the text beside it is passed over' explain --json AWR049999999000400000/151/
sed 's/"interval_minutes":15/"interval_minutes":20/' "$scratch/out" >edited
answers 0 'edited, and put together' compose --json edited
out_is AWR049999999000400000/201/

# JSON that is wrong in each way
section='{"flags":{"amdar":1},"sections":{"4":{"interval_minutes":15,"maximum_wind":1}}}'
bad() { # STATUS WHY MESSAGE TEXT
    printf '%s' "$4" >bad
    answers "$1" "$2" compose --json bad
    err_is "eskelvor: bad$3"
    out_is
}
printf '%s' "$section" >fine
answers 0 'this one is sound' compose --json fine
out_is AWR041999999000400000/151/
bad 2 'nothing at all' ': empty: there is no object in it' ''
bad 2 'spaces alone' ': empty: there is no object in it' '
  '
bad 2 'an unknown key' ': line 1, column 11: no such key here: amdr; there are amdar, inhibit_hours, regions, airports, ascent, enroute, descent' \
    '{"flags":{"amdr":1}}'
bad 2 'section 1' ': line 1, column 14: no such key here: 1; there are 2, 3, 4, 5, 6, 7, 8, 9' '{"sections":{"1":{}}}'
bad 2 'section 7, not whole' ': line 1, column 18: section 7, which is replaced whole, lacks top_feet' \
    '{"sections":{"7":{"mode":1,"interval_seconds":40,"list":2,"timer":1}}}'
bad 2 'a key twice' ': line 1, column 13: the key flags is there a second time' '{"flags":{},"flags":{}}'
bad 2 'a section key twice' ': line 2, column 12: the key 9 is there a second time' \
    '{"sections":{"9":{"start_hour":1,"end_hour":2},
           "9":{"start_hour":1,"end_hour":2}}}'
bad 2 'a wrong type: a string for a number' ': line 1, column 19: amdar: " stands here, and a number is due' '{"flags":{"amdar":"on"}}'
bad 2 'a wrong type: a list for an object' ': line 1, column 10: flags: [ stands here, and an object, {..}, is due' '{"flags":[1]}'
bad 2 'a wrong type: an object for a list' ': line 1, column 31: reporting: { stands here, and a list, [..], is due' \
    '{"sections":{"2":{"reporting":{}}}}'
bad 2 'a wrong type: null for a flag' ': line 1, column 19: amdar: n stands here, and a number is due' '{"flags":{"amdar":null}}'
bad 2 'a list at the top' ': line 1, column 1: [ stands here, and an object, {..}, is due' "[$section]"
bad 2 'text behind it' ": line 1, column 80: x stands here, and another object, or the text's end, is due" "${section}x"
bad 2 'cut short' ': line 1, column 20: the text ends here, and a comma or } is due' '{"flags":{"amdar":1'
bad 2 'cut in a string' ': line 1, column 14: the text ends here, and a closing quote is due' '{"flags":{"am'
bad 2 'a comma too many' ': line 1, column 21: } stands here, and a string is due' '{"flags":{"amdar":1,}}'
bad 2 'a number between two steps' ': line 1, column 19: amdar: 0.5 is not a whole number' '{"flags":{"amdar":0.5}}'
bad 2 'digits far behind the point' ': line 1, column 19: amdar: 1.000000000000000000000 is not a whole number' \
    '{"flags":{"amdar":1.00000000000000000000000000001}}'
bad 2 'a number with a leading 0' ': line 1, column 20: amdar: 1 stands here, and no digit behind a 0 that a number begins with is due' \
    '{"flags":{"amdar":01}}'
bad 2 'a part of a section is not there' ': line 1, column 18: section 4, which is replaced whole, lacks maximum_wind' \
    '{"sections":{"4":{"interval_minutes":15}}}'
bad 2 'a box of three edges' ': line 1, column 32: a box has north, south, west and east' \
    '{"sections":{"2":{"reporting":[{"north":"1N","south":"1N","west":"1E"}],"inhibiting":[]}}}'
bad 2 'an edge without its letter' ': line 1, column 41: north: an edge is degrees and a letter, as 60N' \
    '{"sections":{"2":{"reporting":[{"north":"10","south":"1N","west":"1E","east":"1E"}],"inhibiting":[]}}}'
bad 2 'nested too deep' ': line 1, column 24: nested deeper than 16' '{"text":[[[[[[[[[[[[[[[[[[[[[[[[[[]]]]]]]]]]]]]]]]]]]]]]]]]]}'
bad 2 'neither a command nor a report' ', line 1, column 1: an object of one command or one report is due' '{"code":0}'
bad 2 'both at once' ', line 1, column 1: an object of one command or one report is due' '{"flags":{},"departure":"ABCD"}'
bad 2 'a byte that is no letter' ': line 1, column 13: text: the bytes before this are no letter in UTF-8' \
    "$(printf '{"text":"ab\377\376"}')"
bad 1 'a number out of range is the writer'"'"'s' \
    ', line 1, column 1, sections.4.interval_minutes: refused: code 5 at byte 22, section 4, interval: 61 is not 1 to 60 minutes' \
    '{"sections":{"4":{"interval_minutes":61,"maximum_wind":1}}}'
bad 1 'far out of range' \
    ', line 1, column 1, sections.4.interval_minutes: refused: code 5 at byte 22, section 4, interval: 2000000000 is not 1 to 60 minutes' \
    '{"sections":{"4":{"interval_minutes":1e300,"maximum_wind":1}}}'
bad 1 'below zero' ', line 1, column 1, flags.descent: refused: code 4 at byte 11, flag descent: -1 is not 0, 1 or 9' \
    '{"flags":{"descent":-1}}'
bad 1 'a downlink of 3' ', line 1, column 1, downlink: refused: code 4 at byte 12, downlink: 3 is not 0, 1 or 2' '{"downlink":3}'
bad 1 'a mode of 2' ', line 1, column 1, sections.6.routine: refused: code 5 at byte 22, section 6, routine: 2 is not 0 or 1' \
    '{"sections":{"6":{"routine":2}}}'

# Every figure of a command that has all sections, out of its range: the key and the field are the figure's own
all=AWR041011119223456789/0210S45S110E155E90N90S180W180E0100N01S000E001E/01YMML0002YPADYSSY01ABCD1/301/1060902005120021/1/104020021/0/2301/
eskelvor explain --json $all >whole
answers 0 'as it is' compose --json whole
out_is $all
while IFS='|' read -r part number key field; do
    sed "s/\(\"${part%:*}\":\)${part#*:}/\19999900/$number" whole >bad
    ! cmp -s whole bad || fail "no such part: $part"
    answers 1 "out of its range: $key" compose --json bad
    err_has "bad, line 2, column 1, $key: refused: code" ", $field: 9999900 is not "
    place=$(sed -n 's/.* at byte \([0-9]*\), .*/\1/p' "$scratch/err")
    printf '%sx%s' "$(printf %s $all | head -c "$place")" "$(printf %s $all | tail -c +$((place + 2)))" >text
    answers 1 'a text with another byte at that place is refused there' check --exact text
    err_has "at byte $place, $field: "
done <<'END'
amdar:1||flags.amdar|flag AMDAR
inhibit_hours:0||flags.inhibit_hours|flag inhibit hours
regions:1||flags.regions|flag regions
airports:1||flags.airports|flag airports
ascent:1||flags.ascent|flag ascent
enroute:1||flags.enroute|flag enroute
descent:9||flags.descent|flag descent
downlink:2||downlink|downlink
routine:1|1|sections.3.routine|section 3, routine
interval_minutes:30||sections.4.interval_minutes|section 4, interval
maximum_wind:1||sections.4.maximum_wind|section 4, maximum wind
mode:1||sections.5.mode|section 5, mode
series_1_interval_seconds:6||sections.5.series_1_interval_seconds|section 5, series 1 interval
series_1_duration_seconds:90||sections.5.series_1_duration_seconds|section 5, series 1 duration
series_2_interval_seconds:20||sections.5.series_2_interval_seconds|section 5, series 2 interval
list:2||sections.5.list|section 5, list
timer:1||sections.5.timer|section 5, timer
routine:1|2|sections.6.routine|section 6, routine
mode:1|2|sections.7.mode|section 7, mode
interval_seconds:40||sections.7.interval_seconds|section 7, interval
list:2|2|sections.7.list|section 7, list
timer:1|2|sections.7.timer|section 7, timer
routine:0||sections.8.routine|section 8, routine
start_hour:23||sections.9.start_hour|section 9, start hour
end_hour:1||sections.9.end_hour|section 9, end hour
total_seconds:510||sections.5.total_seconds|section 5, total duration
top_feet:20000||sections.5.top_feet|section 5, top
top_feet:20000|2|sections.7.top_feet|section 7, top
END

# Reports that are wrong, from the example's own object
eskelvor report --jsonl "$examples/one.report" >one
wrong() { # STATUS WHY MESSAGE FROM TO: the example with one part made another
    sed "s|$4|$5|" one >bad
    ! cmp -s one bad || fail "no such part: $4"
    answers "$1" "$2" compose --json bad
    err_has "$3"
    out_is
}
wrong 1 'a latitude' 'code 5 at byte 25, latitude of observation 1: 5401 is not -5400 to 5400 minutes' \
    '"latitude_minutes":-2245' '"latitude_minutes":5401'
wrong 1 'an altitude' 'code 5 at byte 36, altitude of observation 1: 6001 is not -100 to 6000 tens of feet' \
    '"altitude_feet":20140' '"altitude_feet":60010'
wrong 1 'a temperature' 'code 5 at byte 39, temperature of observation 1: 800 is not -800 to 799' '"temperature_celsius":-27.5' \
    '"temperature_celsius":80'
wrong 1 'a wind without its speed' 'code 7 at byte 43, wind speed of observation 1: wind direction and wind speed are both given or both null' \
    '"wind_speed_knots":10' '"wind_speed_knots":null'
wrong 1 'a kind' 'code 4 at byte 24, kind of observation 1: Q is not A, D, R, W, U or E' '"kind":"R"' '"kind":"Q"'
wrong 1 'a departure' 'code 4 at byte 0, departure: ymml is not four letters A to Z or digits' YMML ymml
wrong 1 'a present one behind an absent one' 'code 7 at byte' '{"observation":2,"present":true' '{"observation":2,"present":false'
wrong 2 'feet between two steps' ': altitude_feet: 20145 falls between two steps of 10' '"altitude_feet":20140' \
    '"altitude_feet":20145'
wrong 2 'tenths' ': temperature_celsius: -27.55 falls between two steps of 1/10' '"temperature_celsius":-27.5' '"temperature_celsius":-27.55'
wrong 2 'a key is not there' 'observation 1 lacks temperature_celsius; a missing figure is null' '"temperature_celsius":-27.5,' ''
wrong 2 'an observation is not there' 'observation 3 stands where 2 is due' '"observation":2' '"observation":3'
wrong 2 'a change in the first' 'the first observation has no latitude_change_minutes' '"latitude_minutes":-2245' \
    '"latitude_change_minutes":1,"latitude_minutes":-2245'
wrong 2 'a designator of five' 'a text of 6 bytes is due' AU0137 AU137
wrong 2 'no designator' "a report's object lacks designator" '"designator":"AU0137",' ''
wrong 2 'a ninth' 'a report has 8 observations at most' '{"observation":8,"present":false}' \
    '{"observation":8,"present":false},{"observation":9,"present":false}'

# Every figure of the first observation and of a later one, out of its range: the field is the figure's own
while IFS='|' read -r key number field; do
    sed "s/\(\"$key\":\)[^,]*/\19999900/$number" one >bad
    answers 1 "out of its range: $field" compose --json bad
    err_has "bad, line 1, column 1: refused: code 5 at byte " ", $field: "
    place=$(sed -n 's/.* at byte \([0-9]*\), .*/\1/p' "$scratch/err")
    { head -c "$place" "$examples/one.report" && printf x && tail -c +$((place + 2)) "$examples/one.report"; } >text
    answers 1 'a report with another byte at that place is refused there' report text
    err_has "at byte $place, $field: "
done <<'END'
latitude_minutes|1|latitude of observation 1
longitude_minutes|1|longitude of observation 1
seconds_into_month|1|time of observation 1
altitude_feet|1|altitude of observation 1
temperature_celsius|1|temperature of observation 1
wind_direction_degrees|1|wind direction of observation 1
wind_speed_knots|1|wind speed of observation 1
gust_metres_per_second|1|gust of observation 1
vapour_grams_per_kilogram|1|vapour of observation 1
latitude_change_minutes|1|latitude change of observation 2
longitude_change_minutes|1|longitude change of observation 2
time_since_seconds|1|time since of observation 2
altitude_feet|2|altitude of observation 2
temperature_celsius|2|temperature of observation 2
wind_direction_degrees|2|wind direction of observation 2
wind_speed_knots|2|wind speed of observation 2
gust_metres_per_second|2|gust of observation 2
vapour_grams_per_kilogram|2|vapour of observation 2
END
sed 's/"latitude_minutes":-2226/"latitude_minutes":9999900/' one >bad
answers 0 'what a later observation'"'"'s changes add up to is passed over' compose --json bad
cmp -s "$scratch/out" "$examples/one.report" || fail 'it is another'
sed 's/,{"observation":3.*}\]/]/' one >bad
answers 0 'those that are not listed are absent' compose --json bad
cmp -s "$scratch/out" "$examples/one.report" || fail 'it is another'

done_with 'commands and reports put together'
