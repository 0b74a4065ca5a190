#!/bin/sh
# kill -9 at random moments, during many adds and takings on one board: it is always readable, an add that was told
# accepted is never lost, and what no longer waits was handed out whole.
. "$(dirname "$0")/cases.sh"
cd "$scratch"
rounds=${ROUNDS:-60}
killed=0 finished=0 twice=0
why='kill -9 at a random moment' words='board b add'

eskelvor board b create 4 >out
began=$(date +%s%N)
for _ in 1 2 3 4 5; do
    eskelvor board b add XY0002 AWR049999999000400000/601/ >out
done
call_takes=$((($(date +%s%N) - began) / 5000)) # microseconds

# A pause of some part of what a call takes, up to all of it and a quarter.
pause() {
    pause=$((call_takes * 5 / 4 * $(od -An -N2 -tu2 /dev/urandom) / 65536))
    sleep "$(printf '%d.%06d' $((pause / 1000000)) $((pause % 1000000)))"
}

# Starts a call, and kills it after a pause: which may be before it has opened its output, where the last call's words
# would still stand.
interrupted() {
    : >call
    "$root/host/tool" run eskelvor board b "$@" >call 2>/dev/null &
    call=$!
    pause
    if kill -9 $call 2>/dev/null; then killed=$((killed + 1)); else finished=$((finished + 1)); fi
    wait $call 2>/dev/null || true
}

waiting() { # the interval that waits for XY0001, or nothing
    eskelvor board b list >out 2>err || fail 'the board is not readable'
    grep -q 'XY0002 .*/601/$' out || fail 'the other aircraft lost its command'
    sed -n 's|.*XY0001 .*AWR049999999000400000/\(..\)1/$|\1|p' out
}

for round in $(seq "$rounds"); do
    interval=$(printf '%02d' $((round % 60 + 1)))
    before=$(waiting)
    if [ $((round % 3)) != 0 ]; then
        interrupted add XY0001 "AWR049999999000400000/${interval}1/"
        now=$(waiting)
        if grep -q accepted call; then
            [ "$now" = "$interval" ] || fail "accepted and lost: $interval, but $now waits"
        else
            [ "$now" = "$interval" ] || [ "$now" = "$before" ] || fail "neither $before nor $interval waits, but $now"
        fi
    else
        interrupted take XY0001
        now=$(waiting)
        if [ -z "$now" ] && [ -n "$before" ]; then
            grep -qx "AWR049999999000400000/${before}1/" call || fail "$before no longer waits, and was not handed out"
        else
            [ "$now" = "$before" ] || fail "$now waits, not $before"
            [ ! -s call ] || twice=$((twice + 1))
        fi
    fi
    cases=$((cases + 1))
done
[ $killed -gt $((rounds / 20)) ] || fail "only $killed of $rounds calls were killed"
done_with "killed $killed calls, $finished were done before; $twice handed out and still waiting"
