#!/bin/sh
# gust: document 02's cases in words and for a machine, each input's range, slips; types by name; tables.
. "$(dirname "$0")/cases.sh"
cd "$scratch"

# of TYPE HEIGHT MASS ACCELERATION SPEED: the options.
of() { set -- --type "$1" --height "$2" --mass "$3" --acceleration "$4" --speed "$5" && answers "$wants" "$about" gust "$@"; }

wants=0 about='rounded down: toward zero it would be 39.7'
of A320-200 10000 54321 1303 101
out_is '39.6 m/s'
err_is
about='the greatest'
of B737-300 20000 50000 3565 150
out_is '79.9 m/s'
about='no acceleration'
of 'KingAir 100' 0 500000 0 1
out_is '0.0 m/s'
about='a hyphen for the space, small letters'
of kingair-100 -5 3000 1000 200
out_is '1.4 m/s'

wants=1 about='a gust of -1: toward zero it would be 0'
of 'KingAir 100' 0 10000 1 500
out_is
err_is 'eskelvor: refused: code 5 at byte 0: a number outside its range: the gust comes out below 0 or above 79.9 m/s'
about='800'
of B737-300 20000 50000 3566 150
err_has 'above 79.9 m/s'
while IFS='|' read -r height mass acceleration speed range; do
    about="outside: $range"
    of A310 "$height" "$mass" "$acceleration" "$speed"
    err_is "eskelvor: refused: code 5 at byte 0: a number outside its range: the $range"
done <<'END'
-1001|1|0|1|height is -1000 to 50000 feet
50001|1|0|1|height is -1000 to 50000 feet
-99999999999999999999|1|0|1|height is -1000 to 50000 feet
0|0|0|1|mass is 1 to 500000 kilograms
0|-1|0|1|mass is 1 to 500000 kilograms
0|500001|0|1|mass is 1 to 500000 kilograms
0|4294967297|0|1|mass is 1 to 500000 kilograms
0|1|5001|1|acceleration is 0 to 5000 thousandths of g from 1 g
0|1|-1|1|acceleration is 0 to 5000 thousandths of g from 1 g
0|1|0|0|speed is 1 to 500 knots
0|1|0|501|speed is 1 to 500 knots
0|1|0|99999999999999999999|speed is 1 to 500 knots
END

answers 0 'for a machine' gust --json --type A320-200 --height 10000 --mass 54321 --acceleration 1303 --speed 101
json_has subcommand=gust results.0.accepted=true results.0.code=0 results.0.type=A320-200 results.0.row=4 \
    results.0.height_feet=10000 results.0.mass_kilograms=54321 results.0.acceleration_thousandths=1303 \
    results.0.speed_knots=101 results.0.gust_tenths=396 results.0.gust_metres_per_second=39.6 status=0
answers 1 'refused, for a machine' gust --json --type A310 --height 0 --mass 0 --acceleration 0 --speed 1
json_has results.0.accepted=false results.0.code=5 results.0.place=0 \
    'results.0.because=the mass is 1 to 500000 kilograms' status=1

answers 0 'the types' gust --list
[ "$(wc -l <"$scratch/out")" -eq 36 ] || fail 'not 36 types'
[ "$(sed -n 1p "$scratch/out")/$(sed -n 13p "$scratch/out")/$(sed -n 36p "$scratch/out")" = A300B4/B737-300/L1011-500 ] ||
    fail 'not the order of the table'
# Each type's number in the header is the one that the program has for it.
sed -n '/---- the derived equivalent gust/,/A figure of a report/p' "$root/host/eskelvor.h" |
    grep -oE '[0-9]+  [A-Z][A-Za-z0-9-]+( 100)?' | sort -n | sed 's/^[0-9]*  //' >header
cmp -s header "$scratch/out" || fail "the header's types are others"
answers 0 'the types for a machine' gust --list --json
json_has results.0.row=0 results.0.type=A300B4 results.34.row=34 'results.34.type=KingAir 100' results.35.type=L1011-500

cat >night.csv <<'END'
flight,type,speed,height,mass,acceleration
AU0137,A320-200,101,10000,54321,1303
XY0001,"KingAir 100",500,0,10000,1
XY0002,B999,1,1,1,1
XY0003,A310,250,x,1,1

XY0004,A310,250
"XY,0005",A310,250,0,120000,1000
END
answers 1 'a table: one line refused, three not understood' gust --csv night.csv
out_is 'flight,type,speed,height,mass,acceleration,gust_metres_per_second' \
    'AU0137,A320-200,101,10000,54321,1303,39.6' \
    'XY0001,"KingAir 100",500,0,10000,1,' \
    '"XY,0005",A310,250,0,120000,1000,18.0'
err_is 'eskelvor: night.csv, line 3: refused: code 5: the gust comes out below 0 or above 79.9 m/s' \
    'eskelvor: night.csv, line 4: not understood: type: no such type; eskelvor gust --list names them' \
    'eskelvor: night.csv, line 5: not understood: height: a whole number of feet' \
    'eskelvor: night.csv, line 7: not understood: not as many values as the first line has names'
answers 1 'the same for a machine' gust --csv night.csv --json
json_has results.0.line=2 results.0.gust_tenths=396 results.1.line=3 results.1.code=5 results.1.accepted=false \
    results.2.line=4 results.2.code=null results.3.line=5 results.4.line=7 results.5.line=8 results.5.gust_tenths=180
printf 'mass,type,height,speed,acceleration\r\n120000,A300B4,0,250,1000\r\n' >crlf.csv
input=crlf.csv
answers 0 'from standard input, with CR LF' gust --csv -
out_is 'mass,type,height,speed,acceleration,gust_metres_per_second' '120000,A300B4,0,250,1000,16.8'
input=/dev/null
printf 'type,height,mass,acceleration\nA310,0,1,0\n' >lacking.csv
answers 2 'a column that is not there' gust --csv lacking.csv
err_is 'eskelvor: lacking.csv: its first line names no column speed'
printf 'type,height,mass,acceleration,speed,mass\n' >twice.csv
answers 2 'a column twice' gust --csv twice.csv
err_is 'eskelvor: twice.csv: its first line names the column mass twice'
: >empty.csv
answers 2 'an empty file' gust --csv empty.csv
err_is 'eskelvor: empty.csv: empty: its first line names the columns'
answers 2 'no such file' gust --csv nowhere.csv
err_has 'nowhere.csv: cannot open'
{
    printf 'type,height,mass,acceleration,speed\n"A310,0,1,0,1\n"A310"x,0,1,0,1\n'
    printf 'A310,0,1,0,%05000d\nA310,0,1,\0000,1\nA310,0,1,0,1\n' 1
} >odd.csv
answers 1 'quotes, a long line, a byte 0' gust --csv odd.csv
out_is 'type,height,mass,acceleration,speed,gust_metres_per_second' 'A310,0,1,0,1,0.0'
err_is 'eskelvor: odd.csv, line 2: not understood: a quote that is not closed' \
    'eskelvor: odd.csv, line 3: not understood: bytes behind a closing quote' \
    'eskelvor: odd.csv, line 4: not understood: a line of more than 4095 bytes' \
    'eskelvor: odd.csv, line 5: not understood: a byte 0'

for slip in '' '--type A310' '--list --csv night.csv' '--list --mass 5' 'A310' \
    '--type A399 --height 0 --mass 1 --acceleration 0 --speed 1' \
    '--type A310 --height 0.5 --mass 1 --acceleration 0 --speed 1' \
    '--type A310 --height 0 --mass x --acceleration 0 --speed 1' \
    '--type A310 --height 0 --mass 1 --acceleration 1e3 --speed 1' \
    '--type A310 --height 0 --mass 1 --acceleration 0 --speed -'; do
    # shellcheck disable=SC2086
    answers 2 "a slip: $slip" gust $slip
done

done_with 'gusts, types, tables'
