#!/bin/sh
# Configurations: apply and decide.
. "$(dirname "$0")/cases.sh"
cd "$scratch"
second=AWR049199999100400009/300/2301/
australia=AWR049919999020000000/0110S45S110E155E00/
melbourne=AWR049991999003000000/01YMML0000000/

answers 0 'the configuration after reset, in words' apply
out_has 'flag AMDAR: 1, on' 'flag inhibit hours: 0, off: reports at every hour' 'section 4: level flight' \
    '  a report every 7 minutes' '  series 1: every 6 seconds, for 90 seconds' '  none: both are 00' \
    'section 7: the descent scheme' '  series: every 40 seconds' '  top of the descent: 20000 feet'
answers 0 'the same for a machine, as the command that sets all of it' apply --json
json_has results.0.configuration=AWR041000111023456789/0000/000000000/071/1060902005120021/1/104020021/1/0000/ status=0

answers 0 'what a command changes' apply $second
out_is 'command 1: accepted; downlink 1, the flags are sent down' \
    'flag inhibit hours: was 0, is 1, on: silent in the hours of section 9' \
    'section 4: level flight' '  was' '    a report every 7 minutes' '    reports of the maximum wind: yes' \
    '  is' '    a report every 30 minutes' '    reports of the maximum wind: no' \
    'section 9: the hours of silence' '  was' '    none: both are 00' '  is' '    from 23:00 up to 01:00, over midnight'
answers 0 'what a command of section 7 changes' apply AWR049999999000000700/030035010/
out_is 'command 1: accepted; downlink 0, nothing is sent down' 'section 7: the descent scheme' '  was' \
    '    mode 1: samples by time' '    series: every 40 seconds' '    top of the descent: 20000 feet' \
    '    list of pressure levels: 2' '    timer for level stretches: on' '  is' \
    '    mode 0: samples by pressure level' '    series: every 300 seconds' '    top of the descent: 35000 feet' \
    '    list of pressure levels: 1' '    timer for level stretches: off'
answers 0 'the same for a machine' apply --json AWR049999999000000700/030035010/
json_has results.1.changes.0.section=7 results.1.changes.0.was.interval_seconds=40 \
    results.1.changes.0.is.interval_seconds=300 results.1.changes.0.is.top_feet=35000 status=0
answers 0 'a command that changes nothing' apply AWR041000111000400000/071/
out_is 'command 1: accepted; downlink 0, nothing is sent down' 'nothing changed'
answers 0 'the same for a machine' apply --json $second
json_has results.0.downlink=1 'results.1.changes.0.flag=inhibit hours' results.1.changes.0.is=1 \
    results.1.changes.1.section=4 results.1.changes.1.was.interval_minutes=7 \
    results.1.changes.1.is.interval_minutes=30 \
    results.1.changes.2.section=9 results.1.changes.2.is.start_hour=23 status=0

answers 0 'kept in a file' apply -o held $second
all=AWR041100111023456789/0000/000000000/300/1060902005120021/1/104020021/1/2301/
[ "$(sed -n 2p held)" = $all ] || fail 'another configuration'
answers 0 'and changed there' apply --config=held --out=held $australia $melbourne
out_has 'command 2: accepted' 'flag regions: was 0, is 1' 'flag airports: was 0, is 1'
cp held before
answers 1 'one command is refused: nothing is kept' apply -c held -o held AWR049999999000400000/071/ \
    AWR049999999000400000/611/
err_has 'command 2: refused: code 5 at byte 22, section 4'
out_is
cmp -s held before || fail 'the file is another'
answers 1 'nor shown as accepted where nothing is kept' apply $second AWR049999999000400000/611/
out_is
answers 1 'nor for a machine' apply --json -c held -o held $second AWR049999999000400000/611/
json_has results.0.accepted=false results.0.code=5 status=1
answers 2 'nothing is accepted where the configuration is not there' apply -c nowhere -o held $second
out_is
err_is 'eskelvor: nowhere: cannot open: No such file or directory'
answers 2 'a configuration is not begun anew over one that is there' apply -o held $second
out_is
err_is 'eskelvor: held: there is a configuration in it already; -c held changes it'
answers 2 'the same for a machine' apply --json -o held $second
json_has results.0.about=held status=2
cmp -s held before || fail 'the file is another'
answers 2 'a file of the name - is not made' apply -o - $second
out_is
err_is 'eskelvor: --out: a configuration is kept in a file, and - is none; --json shows it on standard output'
[ ! -e ./- ] || fail 'there is a file of the name -'
printf '%s\n%s\n' $australia $melbourne >two
input=two
answers 0 'commands of a file and of standard input, told in order' apply two - $second
out_has 'two, line 1: accepted' 'two, line 2: accepted' 'standard input, line 2: accepted' 'command 3: accepted'
input=/dev/null
ln -s nothing leads
answers 2 'a link that leads nowhere is left as it is' apply -o leads $second
[ -L leads ] || fail 'the link was replaced'
answers 1 'the same for a machine' apply --json -c held -o held AWR049999999000400000/611/
json_has results.0.code=5 results.0.place=22 status=1
cmp -s held before || fail 'the file is another'

sed 's/2301/2302/' held >damaged
answers 1 'a damaged file is code 12' apply -c damaged
err_has 'eskelvor: damaged: refused: code 12 at byte 0: the configuration is not valid: the file is cut or damaged: '
answers 1 'the same for a machine' apply --json -c damaged
json_has results.0.code=12 results.0.place=0 results.0.about=damaged status=1
answers 1 'and is not mended' apply -c damaged -o damaged $second
sed 's/2301/2302/' held | cmp -s - damaged || fail 'the file is another'
sed 's/CONFIGURATION 2/CONFIGURATION 3/' held >later
answers 2 'a file of another version' apply -c later
err_is "eskelvor: later: a configuration's file of another format version; this program reads version 2"
answers 1 'a file of another kind' apply -c "$examples/one.report"
err_has 'not a configuration'

answers 0 'a board is no place for a configuration' board board create 1
cp board before
answers 2 'another file is left as it is' apply -o board $second
err_is 'eskelvor: board: there is something else of this name; it is left as it is'
cmp -s board before || fail 'the file is another'
answers 2 'a damaged configuration too' apply -o damaged $second

# decide: who reports, in words that a forecaster uses
answers 0 'after reset: the ascent scheme everywhere' decide --phase ascent \
    --lat 37.67S --lon 144.84E --hour 23 --airfield YMML
out_is 'scheme: in ascent, at 37.6667 S 144.8333 E, in hour 23, airfield YMML'
answers 0 'level flight needs no airfield' decide --phase level --lat 0 --lon 0 --hour 0
out_is 'routine: in level flight, at 0.0000 N 0.0000 E, in hour 00'
answers 0 'the window 23 to 01 silences hour 23' decide -c held --phase level --lat -37.5 --lon 144:30E --hour 23
out_has 'silent: in level flight, at 37.5000 S 144.5000 E, in hour 23'
answers 0 'and hour 0' decide -c held --phase level --lat=-37.5 --lon 8670m --hour 0
out_has 'silent:'
answers 0 'not hour 1' decide -c held --phase level --lat "2250'S" --lon 8670mE --hour 1
out_has 'routine:'
answers 0 'outside every reporting box' decide -c held --phase level --lat 50N --lon 8E --hour 12 --json
json_has results.0.decision=silent results.0.latitude_minutes=3000 results.0.longitude_minutes=480 \
    results.0.airfield=null
answers 0 'edges belong to a box' decide -c held --phase level --lat 10S --lon 110E --hour 12
out_has 'routine:'
answers 0 'one minute north of it' decide -c held --phase level --lat 9:59S --lon 110E --hour 12
out_has 'silent:'
answers 0 'Melbourne is selected' decide -c held --phase ascent --lat 37S --lon 144E --hour 12 --airfield YMML
out_has 'scheme:'
answers 0 'Adelaide is not, and section 3 has no routine reports' decide -c held --phase ascent \
    --lat 35S --lon 138E --hour 12 --airfield YPAD
out_has 'silent:'
answers 0 'a command is applied first, and not kept' decide --phase level \
    --lat 0 --lon 0 --hour 0 AWR040999999000000000/
out_has 'silent:'
answers 1 'that command is refused' decide --phase level --lat 0 --lon 0 --hour 0 AWR042999999000000000/
err_has 'command 1: refused: code 4 at byte 5'
answers 1 'beyond the pole' decide --phase level --lat 90.1N --lon 0 --hour 0
ranges='latitudes are 90S to 90N, longitudes 180W to 180E'
err_is "eskelvor: refused: code 5 at byte 0: a number outside its range: $ranges"
answers 1 'a number beyond all' decide --phase level --lat 0 --lon 99999999999999999999W --hour 0
err_has 'code 5'
answers 1 'hour 24' decide --phase level --lat 0 --lon 0 --hour 24
err_has 'code 5' 'an hour is 0 to 23'
answers 1 'an airfield in small letters' decide --phase level --lat 0 --lon 0 --hour 0 --airfield ymml --json
json_has results.0.code=4 'results.0.because=an airfield is four letters A to Z or digits' status=1
answers 1 'the configuration before all else' decide -c damaged --phase level --lat 0 --lon 0 --hour 24
err_has 'code 12'
answers 2 'ascent without an airfield' decide --phase ascent --lat 0 --lon 0 --hour 0
err_has '--airfield: needed in ascent and descent'
for slip in '--lat 37X' '--lat S' '--lat -37S' '--lat 37:60S' '--lat 3..7' '--lat 0x10' \
    '--lat nan' '--lon 12N' '--hour noon' \
    '--hour -1' '--phase climb'; do
    # shellcheck disable=SC2086
    answers 2 "a slip: $slip" decide --phase level --lat 0 --lon 0 --hour 0 $slip
    err_has "eskelvor: ${slip% *}:"
done

done_with 'configurations applied, kept, asked'
