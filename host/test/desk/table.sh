#!/bin/sh
# Reports for scripts and plots: tables, JSON lines, chosen fields, counts, the status alone, constant memory.
. "$(dirname "$0")/cases.sh"
cd "$scratch"
generate() { "$root/host/tool" run generate "$@"; }
cp "$examples"/*.report "$examples"/*.reports .
head='file,report,offset,departure,arrival,designator,observation,kind,kind_in_words,latitude_change_minutes,'
head=${head}longitude_change_minutes,time_since_seconds,latitude_minutes,latitude_degrees,longitude_minutes,
head=${head}longitude_degrees,seconds_into_month,day,time,altitude_feet,temperature_celsius,wind_direction_degrees,
head=${head}wind_speed_knots,gust_metres_per_second,vapour_grams_per_kilogram,quality

answers 0 'a row for each observation that is there, degrees and times beside the figures' report --csv one.report
out_is "$head" \
    'one.report,1,0,YMML,YPAD,AU0137,1,R,level flight,,,,-2245,-37.4167,8636,143.9333,952375,12,00:32:55,20140,-27.5,309,10,0.1,,9' \
    'one.report,1,0,YMML,YPAD,AU0137,2,R,level flight,19,-58,420,-2226,-37.1000,8578,142.9667,952795,12,00:39:55,33230,-57.0,254,26,0.2,,9'
answers 0 'a missing figure is empty, never 0; what it would have added up to is empty too' report --csv three.reports
out_has 'three.reports,3,440,YMML,YPAD,AU0137,2,R,level flight,,,,,,,,,,,,,,,,,/' \
    'three.reports,3,440,YMML,YPAD,AU0137,3,D,descent,19,-58,420,,,,,,,,33230,-57.0,254,44,0.2,,9' \
    'three.reports,2,220,ABCD,EFGH,XY0001,1,A,ascent,,,,0,0.0000,0,0.0000,0,1,00:00:00,0,0.0,0,0,,,/'
[ "$(wc -l <"$scratch/out")" = 12 ] || fail 'not a head and eleven rows'
cp one.report 'a,"b
c.report'
answers 0 'a name with a comma, a quote and a line end' report --csv --fields file,kind 'a,"b
c.report'
out_is file,kind '"a,""b' 'c.report",R' '"a,""b' 'c.report",R'
for name in 'a,b' 'a"b' "$(printf 'a\nb')" "$(printf 'a\rb')"; do
    cp one.report "$name"
    answers 0 'each of them alone' report --csv --fields file,kind "$name"
    quoted=$(printf %s "$name" | sed 's/"/""/g')
    out_is file,kind "\"$quoted\",R" "\"$quoted\",R"
done

answers 0 'chosen columns, in the order asked for, under the names asked for' report --csv \
    --fields temperature,lon,lat,latitude_minutes,designator one.report
out_is temperature,lon,lat,latitude_minutes,designator -27.5,143.9333,-37.4167,-2245,AU0137 -57.0,142.9667,-37.1000,-2226,AU0137
answers 0 'the same as JSON lines: an object for each observation' report --jsonl --fields=temperature,lat,vapour,time one.report
out_is '{"temperature":-27.5,"lat":-37.4167,"vapour":null,"time":"00:32:55"}' \
    '{"temperature":-57.0,"lat":-37.1000,"vapour":null,"time":"00:39:55"}'
answers 2 'a name that is none is told with those that there are' report --csv --fields lat,lng one.report
out_is
err_has 'eskelvor: --fields: no such field: lng; there are file, report, offset, departure,' 'latitude_degrees (or lat),' \
    'temperature_celsius (or temperature),' ', quality'
answers 2 'an empty name' report --csv --fields lat, one.report
err_has 'no such field: ;'
answers 2 'a column twice' report --csv --fields lat,latitude_degrees one.report
err_is 'eskelvor: --fields: latitude_degrees is there twice'
answers 2 'fields of nothing' report --fields lat one.report
err_is 'eskelvor: --fields: goes with --csv or --jsonl'

# Every name that the help tells is a column, and every column is told there
why='the names of --fields' words=''
for name in $(printf %s "$head" | tr , ' ') lat lon altitude temperature wind_direction wind_speed gust vapour; do
    answers 0 "the column $name" report --csv --fields "$name" one.report
    [ "$(head -n 1 "$scratch/out")" = "$name" ] || fail 'its head is another'
    answers 0 'the help' help report
    tr -s ' \n' ' ' <"$scratch/out" | grep -q "[ (]\(or \)\?$name[,) ]" || fail "$name is not told"
done

answers 0 'an object for each report, on a line of its own' report --jsonl three.reports
[ "$(wc -l <"$scratch/out")" = 3 ] || fail 'not three lines'
i=0
while read -r line; do
    i=$((i + 1))
    printf '%s\n' "$line" | "$root/target/host/json_flat" >"$scratch/flat" || fail "line $i is not JSON"
    grep -qxF "report=$i" "$scratch/flat" || fail "line $i is of another report"
    grep -qxF 'observations.0.observation=1' "$scratch/flat" || fail "line $i has no observation"
done <"$scratch/out"
answers 0 'in the document too there are degrees, a day and a time' report --json one.report
json_has results.0.observations.0.latitude_degrees=-37.4167 results.0.observations.0.longitude_degrees=143.9333 \
    results.0.observations.0.day=12 results.0.observations.0.time=00:32:55 \
    results.0.observations.1.latitude_degrees=-37.1000 results.0.observations.1.time=00:39:55 status=0
answers 0 'and null where they are not known' report --json three.reports
json_has results.2.observations.1.latitude_degrees=null results.2.observations.1.day=null results.2.observations.1.time=null

for form in --csv --jsonl; do
    answers 1 "$form: refusals are told on standard error" report $form damaged.reports
    err_has 'damaged.reports, report 2 from byte 220 on: refused: code 5 at byte 25' '3 reports shown, 2 refused'
    ! grep -q refused "$scratch/out" || fail 'a refusal among the results'
    grep -q XY0001 "$scratch/out" || fail 'the accepted ones are not there'
done

answers 0 'how many there are' report --count three.reports one.report
out_is 4
err_is
answers 1 'the refused ones are told, and not counted' report --count damaged.reports
out_is 3
err_has 'report 4 from byte 660 on: refused' 'eskelvor: 3 reports counted, 2 refused'
answers 1 'counts for a machine' report --count --json damaged.reports
json_has results.0.code=5 results.2.reports=3 results.2.refused=2 results.2.observations=11 status=1
answers 0 'the status alone' report --quiet three.reports
out_is
err_is
answers 1 'the status alone: refused' report --quiet damaged.reports
out_is
err_is
answers 2 'a file that is not there is told all the same' report --quiet nowhere
out_is
err_is 'eskelvor: nowhere: cannot open: No such file or directory'
for two in '--csv --jsonl' '--count --quiet' '--csv --count' '--jsonl --quiet'; do
    # shellcheck disable=SC2086
    answers 2 "two forms at once: $two" report $two one.report
    err_is 'eskelvor: give one of --jsonl, --csv, --count and --quiet'
done
for form in --csv --jsonl --quiet; do
    answers 2 "$form is no document" report --json $form one.report
    json_has 'results.0.error=does not go with --jsonl, --csv or --quiet' status=2
done

# A report that comes through a pipe is shown before the next one comes
has_lines() { # COUNT: within ten seconds so many lines are there
    tries=0
    until [ "$(wc -l <live)" = "$1" ]; do
        tries=$((tries + 1))
        [ $tries -lt 100 ] || fail "not $1 lines before the next report"
        sleep 0.1
    done
}
why='reports as they come' words='report --jsonl -'
for form in --jsonl '--csv --fields designator,lat'; do
    mkfifo feed
    # shellcheck disable=SC2086
    eskelvor report $form - <feed >live &
    reader=$!
    exec 3>feed
    cat one.report >&3
    [ "$form" = --jsonl ] && lines=1 || lines=3
    has_lines $lines
    printf '\r\n' >&3
    head -c 440 three.reports | tail -c 220 >&3
    has_lines $((lines + 1))
    exec 3>&-
    wait $reader || fail 'the reader failed'
    rm feed live
    cases=$((cases + 2))
done

# The memory does not grow with the file: 15 times as many reports, and less than a quarter of what they are longer
why='constant memory'
generate reports 2000 3 >few
generate reports 30000 3 >many
for form in --jsonl --csv --count; do
    words="report $form"
    "$root/target/host/peak" few.peak "$root/host/tool" run eskelvor report $form few >few.out || fail 'few'
    "$root/target/host/peak" many.peak "$root/host/tool" run eskelvor report $form many >many.out || fail 'many'
    more=$(($(cat many.peak) - $(cat few.peak)))
    [ $more -lt 1500 ] || fail "$more KB more for 28000 reports more, which are 6160 KB"
    cases=$((cases + 1))
done
words='report --jsonl'
eskelvor report --jsonl many >many.out
[ "$(wc -l <many.out)" = 30000 ] || fail 'not 30000 lines'

done_with 'tables, lines, counts'
