#!/bin/sh
# Reports: what is shown, damaged files, separators.
. "$(dirname "$0")/cases.sh"

answers 0 'the example: two observations, six absent' report "$examples/one.report"
out_is "$examples/one.report, report 1 from byte 0 on: YMML to YPAD, aircraft AU0137" \
    'observation 1: R, level flight' \
    '  latitude           37.4167 S' \
    '  longitude         143.9333 E' \
    '  time            day 12, 00:32:55' \
    '  altitude             20140 feet' \
    '  temperature          -27.5 degrees C' \
    '  wind from              309 degrees' \
    '  wind speed              10 knots' \
    '  gust                   0.1 metres a second' \
    '  water vapour             -' \
    '  vapour quality           9' \
    'observation 2: R, level flight' \
    '  moved               0.3167 degrees north, at 37.1000 S' \
    '  moved               0.9667 degrees west, at 142.9667 E' \
    '  after                  420 seconds, on day 12, 00:39:55' \
    '  altitude             33230 feet' \
    '  temperature          -57.0 degrees C' \
    '  wind from              254 degrees' \
    '  wind speed              26 knots' \
    '  gust                   0.2 metres a second' \
    '  water vapour             -' \
    '  vapour quality           9' \
    'observation 3: absent' 'observation 4: absent' 'observation 5: absent' \
    'observation 6: absent' 'observation 7: absent' 'observation 8: absent'
err_is

answers 0 'the same for a machine: a missing figure is null, never 0' report --json "$examples/one.report"
json_has subcommand=report results.0.report=1 results.0.offset=0 results.0.designator=AU0137 \
    results.0.observations.0.latitude_minutes=-2245 results.0.observations.0.seconds_into_month=952375 \
    results.0.observations.0.altitude_feet=20140 results.0.observations.0.temperature_celsius=-27.5 \
    results.0.observations.0.gust_metres_per_second=0.1 \
    results.0.observations.0.vapour_grams_per_kilogram=null results.0.observations.0.quality=9 \
    results.0.observations.1.latitude_change_minutes=19 results.0.observations.1.latitude_minutes=-2226 \
    results.0.observations.1.time_since_seconds=420 results.0.observations.1.seconds_into_month=952795 \
    results.0.observations.2.present=false status=0

answers 0 'three reports in one file' report "$examples/three.reports"
out_has 'report 1 from byte 0 on' 'report 2 from byte 220 on: ABCD to EFGH' 'report 3 from byte 440 on'
answers 0 'once a change is missing, what comes behind is not derived' report --json "$examples/three.reports"
json_has results.2.observations.1.latitude_change_minutes=null results.2.observations.1.latitude_minutes=null \
    results.2.observations.2.latitude_change_minutes=19 results.2.observations.2.latitude_minutes=null

input=$examples/one.report
answers 0 'standard input, where there is no word' report
out_has 'standard input, report 1 from byte 0 on: YMML to YPAD'
answers 0 'standard input as -' report - --json
json_has results.0.file=- results.0.departure=YMML
input=/dev/null

one=$examples/one.report
{ printf '\r\n\n' && cat "$one" && printf '\n\r\n\n' && cat "$one" && printf '\n'; } >"$scratch/gaps"
answers 0 'line ends between reports, before and behind them, are passed over' report --json "$scratch/gaps"
json_has results.0.offset=3 results.1.offset=227 results.1.report=2 status=0

answers 1 'a damaged file: the bad ones are told, the others shown' report "$examples/damaged.reports"
out_has 'report 1 from byte 0 on: YMML' 'report 3 from byte 440 on: ABCD' 'report 5 from byte 873 on: YMML'
damaged="eskelvor: $examples/damaged.reports, report"
outside='latitude of observation 1: ZZZ is 25435, not -5400 to 5400 minutes'
err_is "$damaged 2 from byte 220 on: refused: code 5 at byte 25, $outside" \
    '  RZZZPF: YZ9FLAED5RT U L///9R .IM UKM335UQEKQ M///9\x0d\x0a' \
    '   ^' \
    "$damaged 4 from byte 660 on: refused: code 1 at byte 0: a report has 220 bytes, this one 213" \
    '  ABCDEFGH\x0d\x0a' \
    '  ^' \
    "  its bytes first depart from a report's at byte 99" \
    'eskelvor: 3 reports shown, 2 refused'
answers 1 'the same for a machine' report --json "$examples/damaged.reports"
json_has results.1.code=5 results.1.place=25 results.1.offset=220 'results.1.field=latitude of observation 1' \
    results.3.code=1 results.3.length=213 results.4.accepted=true status=1

sed 's/\r$//' "$examples/three.reports" >"$scratch/lf"
answers 1 'line ends that have lost their CR: three reports, each told why' report "$scratch/lf"
err_has 'report 3 from byte 428 on: refused: code 1 at byte 0: a report has 220 bytes, this one 214' \
    '  its line ends are not CR LF' 'eskelvor: 0 reports shown, 3 refused'

{ head -c 100 "$one" && printf 'xyz' && tail -c +101 "$one" && cat "$one"; } >"$scratch/grown"
answers 1 'three bytes too many: the next report is still found' report --json "$scratch/grown"
json_has results.0.code=1 results.0.length=223 results.1.offset=223 results.1.accepted=true status=1

{ cat "$examples/one.report"; head -c 77 "$examples/one.report"; } >"$scratch/cut"
answers 1 'a file cut in its second report' report --json "$scratch/cut"
json_has results.0.accepted=true results.1.code=1 results.1.length=77 \
    'results.1.because=cut short: 77 bytes of 220 are there' status=1
for bytes in 1 9 15 16 23 24 26 50 52 74 75 76 77 98 100 122 123 124 170 219; do
    head -c $bytes "$one" >"$scratch/cut"
    answers 1 "cut behind byte $bytes: told as cut, not as departing" report "$scratch/cut"
    err_has "report 1 from byte 0 on: refused: code 1 at byte 0: cut short: $bytes bytes of 220 are there"
    ! grep -q depart "$scratch/err" || fail 'it departs from nothing'
done
for bytes in 16 50 76 98 100; do
    { head -c $bytes "$one" && printf '\r\n\n' && cat "$one"; } >"$scratch/cut"
    answers 1 "cut behind byte $bytes, and another behind a line end" report "$scratch/cut"
    err_has "report 1 from byte 0 on: refused: code 1 at byte 0: cut short: $bytes bytes of 220 are there"
    out_has 'report 2 from byte'
done
{ head -c 40 "$one" && tail -c +44 "$one" && printf '\n' && cat "$one"; } >"$scratch/cut"
answers 1 'three bytes are lost, and an LF stands behind the report: its own line ends are sound' report "$scratch/cut"
err_has "  its bytes first depart from a report's at byte "
{ head -c 90 "$one"; printf '//x///'; } >"$scratch/cut"
answers 1 'a wrong byte before the cut still counts' report "$scratch/cut"
err_has 'a report has 220 bytes, this one 96' "  its bytes first depart from a report's at byte 76"
{ cat "$one" "$one"; head -c 219 "$one"; } >"$scratch/cut"
answers 1 'one byte is missing at the end' report "$scratch/cut"
err_has 'report 3 from byte 440 on: refused: code 1 at byte 0: cut short: 219 bytes of 220 are there'

head -c 1000 /dev/zero | tr '\0' '/' >"$scratch/noise"
answers 1 'bytes that are no report at all: in pieces of 220 bytes' report --json "$scratch/noise"
json_has results.0.code=4 results.0.place=0 results.1.offset=220 results.2.offset=440 results.3.offset=660 status=1

printf 'ABCDEFGH\r\nAMDAR3XY\000\033[2J01\r\n' >"$scratch/escape"
answers 1 'bytes that a terminal would obey are escaped for a machine' report --json "$scratch/escape"
json_has 'results.0.text=ABCDEFGH\u000d\u000aAMDAR3XY\u0000\u001b[2J01\u000d\u000a'

{ head -c 18 "$examples/one.report"; printf '\033'; tail -c +20 "$examples/one.report"; } >"$scratch/mark"
answers 1 'the mark lines up where a byte before it is not printable' report "$scratch/mark"
refused='refused: code 4 at byte 16, designator: AU\x1b137 is not six letters A to Z or digits'
err_is "eskelvor: $scratch/mark, report 1 from byte 0 on: $refused" \
    '  AMDAR3AU\x1b137\x0d\x0a' \
    '        ^'

{ head -c 25 "$one" && printf 'I/Z' && tail -c +29 "$one"; } >"$scratch/mark"
answers 1 'the mark stands under the byte of a packed field, not under its first' report "$scratch/mark"
refused='refused: code 4 at byte 26, latitude of observation 1: / behind another byte: a missing figure is solidi alone'
err_is "eskelvor: $scratch/mark, report 1 from byte 0 on: $refused" \
    '  RI/ZPF: YZ9FLAED5RT U L///9R .IM UKM335UQEKQ M///9\x0d\x0a' \
    '    ^'
answers 1 'the same for a machine' report --json "$scratch/mark"
json_has results.0.code=4 results.0.place=26 'results.0.field=latitude of observation 1'

for place in 0:departure 4:arrival 8:'line end' 10:AMDAR3 22:'line end' 24:'kind of observation 1' \
    50:'quality of observation 1' 51:'kind of observation 2' 73:'quality of observation 2' 74:'line end' \
    76:'kind of observation 3' 122:'line end'; do
    at=${place%%:*}
    { head -c "$at" "$one" && printf '\001' && tail -c +$((at + 2)) "$one"; } >"$scratch/field"
    answers 1 "a wrong byte $at names its field" report --json "$scratch/field"
    json_has "results.0.place=$at" "results.0.field=${place#*:}"
done

# A figure, what stood there, and its range; where the bytes are no figure, the byte at fault and why
while IFS='|' read -r at bytes place said; do
    { head -c "$at" "$one" && printf %s "$bytes" && tail -c +$((at + ${#bytes} + 1)) "$one"; } >"$scratch/figure"
    answers 1 "a figure in words: $said" report "$scratch/figure"
    err_has "at byte $place, $said"
done <<'END'
0|ymml|0|departure: ymml is not four letters A to Z or digits
24|Q|24|kind of observation 1: Q is not A, D, R, W, U or E
25|ZZZ|25|latitude of observation 1: ZZZ is 25435, not -5400 to 5400 minutes
25|Z/Z|26|latitude of observation 1: / behind another byte: a missing figure is solidi alone
25|   |27|latitude of observation 1: spaces alone are no figure
31|K    |32|time of observation 1: a space behind a digit
41|/5|42|wind direction of observation 1: 5 behind a solidus: a missing figure is solidi alone
56| Ux|58|time since of observation 2: x is no digit: they are 0 to 9, A to Z and : , - .
25| K5|25|latitude of observation 1: a number in a spelling other than its one spelling
31|  J|31|time of observation 1:   J9F is -1225, not 0 to 2678399 seconds
50|x|50|quality of observation 1: x is not 0 to 9 or /
51|Q|51|kind of observation 2: Q is not A, D, R, W, U, E or /
56|  J|56|time since of observation 2:   J is -1, not 0 to 31999 seconds
END

done_with 'reports shown, cut and refused'
