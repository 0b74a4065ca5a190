#!/bin/sh
# why: each reason in a sentence and for a machine, the first that holds, refusals, slips.
. "$(dirname "$0")/cases.sh"
cd "$scratch"

# because DECISION REASON NUMBER SENTENCE WHY WORD..: both ways of asking, and decide's own decision.
because() {
    decision=$1 reason=$2 number=$3 sentence=$4 what=$5
    shift 5
    answers 0 "$what" why "$@"
    out_is "$sentence"
    err_is
    answers 0 "$what, for a machine" why --json "$@"
    json_has subcommand=why results.0.accepted=true results.0.code=0 "results.0.decision=$decision" \
        "results.0.reason=$reason" "results.0.number=$number" "results.0.why=${sentence#*: }" status=0
    answers 0 "$what: decided alike" decide --json "$@"
    json_has "results.0.decision=$decision" status=0
}

at='--lat 51.4775N --lon 0.4614W --hour 23 --airfield EGLL'
here='51.4833 N 0.4667 W'
off=AWR040199999000000009/0023/
night=AWR049199999000000009/2301/
boxes=AWR049919999020000000/0190N90S180W180E0310N10S010W010E60N55N010W005E60N40N010W005E/
reporting=AWR049919999020000000/0110S45S110E155E00/
# shellcheck disable=SC2086
{
    because silent 1 0 'silent: AMDAR is off' 'AMDAR off, before the hours' --phase ascent $at $off
    because silent 2 0 'silent: hour 23 is in the hours of silence, from 23:00 up to 01:00' \
        'hours, before the boxes' --phase ascent $at $night $boxes
    because silent 3 3 "silent: at $here, inside inhibiting box 3, 60N to 40N, 10W to 5E" \
        'an inhibiting box, though a reporting box holds the place too' --phase level $at $boxes
    because silent 3 1 'silent: at 10.0000 N 5.0000 E, inside inhibiting box 1, 10N to 10S, 10W to 10E' \
        'an edge belongs to a box' --phase level --lat 10N --lon 5E --hour 0 $boxes
    pacific=AWR049919999020000000/000210N10S010W010E10N10S170E170W/
    because silent 3 2 'silent: at 0.0000 N 175.0000 W, inside inhibiting box 2, 10N to 10S, 170E eastward over the date line to 170W' \
        'over the date line' --phase level --lat 0 --lon 175W --hour 0 $pacific
    because silent 3 2 'silent: at 0.0000 N 180.0000 W, inside inhibiting box 2, 10N to 10S, 170E eastward over the date line to 170W' \
        'on the date line' --phase level --lat 0 --lon 180W --hour 0 $pacific
    because routine 5 6 'reports routinely: the enroute flag is 1' \
        'outside of it' --phase level --lat 0 --lon 169.9W --hour 0 $pacific
    because routine 5 6 'reports routinely: the enroute flag is 1' '180W is in a box that ends at 180E' \
        --phase level --lat 0 --lon 180W --hour 0 AWR049919999020000000/0110N10S170E180E00/
    because silent 4 0 "silent: at $here, outside every reporting box" \
        'no reporting box, before the flags' --phase ascent $at $reporting AWR049999000000000000/
    because scheme 5 5 'reports by the ascent scheme: the ascent flag is 1' 'ascent after reset' --phase ascent $at
    because routine 5 6 'reports routinely: the enroute flag is 1' 'level after reset, without an airfield' \
        --phase level --lat 0 --lon 0 --hour 0
    because scheme 5 7 'reports by the descent scheme: the descent flag is 1' 'descent after reset' \
        --phase descent $at
    because routine 6 6 'reports routinely: without the ascent scheme, section 6 asks for routine reports' \
        'ascent 0' --phase ascent $at AWR049999099000000000/
    because routine 6 8 'reports routinely: without the descent scheme, section 8 asks for routine reports' \
        'descent 0' --phase descent $at AWR049999990000000000/
    because routine 6 3 'reports routinely: without the ascent scheme, section 3 asks for routine reports' \
        'an inhibited airfield, and routine instead' --phase ascent $at AWR049991999003000000/000001EGLL001/
    because silent 7 5 'silent: the ascent flag is 0' 'ascent 0, section 6 0' --phase ascent $at \
        AWR049999099000006000/0/
    because silent 7 6 'silent: the enroute flag is 0' 'enroute 0' --phase level $at AWR049999909000000000/
    because silent 7 7 'silent: the descent flag is 0' 'descent 0, section 8 0' --phase descent $at \
        AWR049999990000000080/0/
    because silent 8 0 'silent: airfield EGLL is inhibited for ascent' 'inhibited, and not selected either' \
        --phase ascent $at AWR049991999003000000/01YMML0001EGLL000/
    because silent 9 0 'silent: airfield EGLL is not selected for descent' 'not selected' \
        --phase descent $at AWR049991999003000000/0001YMML00000/
}

answers 0 'what was asked, for a machine' why --json --phase level --lat 50N --lon 8W --hour 12
json_has results.0.phase=level results.0.latitude_minutes=3000 results.0.longitude_minutes=-480 results.0.hour=12 \
    results.0.airfield=null

# A configuration from a file, and a command that is not kept
answers 0 'a configuration to ask' apply -o held $night
cp held before
answers 0 'by the file' why -c held --phase level --lat 0 --lon 0 --hour 0
out_is 'silent: hour 00 is in the hours of silence, from 23:00 up to 01:00'
answers 0 'a command is applied first' why -c held --phase level --lat 0 --lon 0 --hour 0 AWR049099999000000000/
out_is 'reports routinely: the enroute flag is 1'
cmp -s held before || fail 'the file is another'

# Refusals and slips are decide's
sed 's/2301/2302/' held >damaged
asked='--phase level --lat 0 --lon 0 --hour 0'
while read -r status line; do
    # shellcheck disable=SC2086
    answers "$status" 'a refusal or a slip' why $line
    out_is
    err_has 'eskelvor: '
    cp err theirs
    # shellcheck disable=SC2086
    answers "$status" 'the same of decide' decide $line
    cmp -s err theirs || fail 'decide says something else'
    # shellcheck disable=SC2086
    answers "$status" 'for a machine' why --json $line
    json_has subcommand=why "status=$status"
done <<END
1 $asked -c damaged --hour 24
1 $asked --hour 24
1 $asked --lat 90.1N
1 $asked --lon 180.1W
1 $asked --airfield ymml
1 $asked --airfield YMMLX
1 $asked AWR042999999000000000/
2 $asked --phase climb
2 $asked --hour noon
2 $asked --lat 37X
2 $asked --lon 12N
2 $asked --phase ascent
2 $asked --loud
2 $asked -c nowhere
2 --phase level
END
answers 1 'hour 24, by its code' why --json --phase level --lat 0 --lon 0 --hour 24 --airfield ymml
json_has results.0.code=5 results.0.place=0 'results.0.because=an hour is 0 to 23' status=1
answers 1 'an airfield, by its code' why --json --phase level --lat 0 --lon 0 --hour 0 --airfield ymml
json_has results.0.code=4 'results.0.because=an airfield is four letters A to Z or digits' status=1
answers 1 'a damaged configuration, by its code' why --json --phase level --lat 0 --lon 0 --hour 24 -c damaged
json_has results.0.code=12 status=1

# Once what waits on a board is handed over; the board stays as it is
asked='--phase ascent --lat 51.4775N --lon 0.4614W --hour 12 --airfield EGLL'
waits='--board tonight --aircraft XY0001'
answers 0 'a board' board tonight create 3
answers 0 'a command waits' board tonight add XY0001 AWR049999199000000000/
answers 0 'another waits for another' board tonight add XY0003 AWR040999999000000000/
cp tonight board-before
# shellcheck disable=SC2086
{
    answers 0 'silent now, and a scheme afterwards' why $asked $waits AWR049999099000006000/0/
    out_is 'silent now: the ascent flag is 0
reports by the ascent scheme after what waits for XY0001 is handed over: the ascent flag is 1'
    err_is
    answers 0 'the same for a machine' why --json $asked $waits AWR049999099000006000/0/
    json_has results.0.decision=silent results.0.reason=7 results.0.number=5 results.0.designator=XY0001 \
        results.0.waiting_text=AWR049999199000000000/ results.0.after.changed=true results.0.after.decision=scheme \
        results.0.after.reason=5 results.0.after.number=5 'results.0.after.why=the ascent flag is 1' status=0
    answers 0 'what waits changes nothing here' why $asked $waits
    out_is 'reports by the ascent scheme now: the ascent flag is 1
no change after what waits for XY0001 is handed over'
    answers 0 'no change, for a machine' why --json $asked $waits
    json_has results.0.after.changed=false results.0.after.decision=scheme status=0
    answers 0 'nothing waits for another' why $asked --board tonight --aircraft XY0002
    out_is 'reports by the ascent scheme now: the ascent flag is 1
nothing waits for XY0002'
    answers 0 'nothing waits, for a machine' why --json $asked --board tonight --aircraft XY0002
    json_has results.0.designator=XY0002 results.0.waiting_text=null results.0.after=null status=0
    answers 0 'silent by its flag now, by AMDAR afterwards' why $asked --board tonight --aircraft XY0003 \
        AWR049999099000006000/0/
    out_is 'silent now: the ascent flag is 0
silent after what waits for XY0003 is handed over: AMDAR is off'
    answers 1 'a designator that is none' why $asked --board tonight --aircraft xy0001
    out_is
    err_has 'designator: refused: code 4 at byte 0'
    answers 1 'a designator, for a machine' why --json $asked --board tonight --aircraft XY1
    json_has results.0.code=4 results.0.place=0 status=1
    answers 1 'the question is refused before the board is looked at' why --json $asked --hour 24 --board nowhere \
        --aircraft XY0001
    json_has results.0.code=5 status=1
    answers 2 'no such board' why $asked --board nowhere --aircraft XY0001
    out_is
    answers 2 'a board without an aircraft' why $asked --board tonight
    err_has 'give --board and --aircraft together'
    answers 2 'an aircraft without a board' why $asked --aircraft XY0001
    err_has 'give --board and --aircraft together'
    answers 2 'decide has no board' decide $asked --board tonight --aircraft XY0001
}
cmp -s tonight board-before || fail 'the board is another'
printf x >>tonight
# shellcheck disable=SC2086
{
    answers 1 'a damaged board' why --json $asked $waits
    json_has results.0.code=10 status=1
    answers 1 'a file that is no board' why --json $asked --board held --aircraft XY0001
    json_has results.0.code=10 status=1
}

done_with 'why it reports or stays silent'
