#!/bin/sh
# kill -9 at random moments, during takings that are entered into a journal: board and journal are always readable, the
# command is on the board or in the journal, and what is in the journal was handed out whole. What is in both is seen by the
# next taking, and mended: at the end the journal has each command once.
. "$(dirname "$0")/cases.sh"
cd "$scratch"
rounds=${ROUNDS:-40}
killed=0 finished=0 both=0
why='kill -9 at a random moment' words='board b take --journal j XY0001'

text() { printf 'AWR049999999000400009/%02d1/%02d00/' $((round % 60 + 1)) $((round / 60 % 24)); } # another each round

round=0
eskelvor board b create 4 >out
began=$(date +%s%N)
for _ in 1 2 3; do
    eskelvor board b add XY0001 "$(text)" >out
    eskelvor board b take --journal first XY0001 >out
done 2>err
call_takes=$((($(date +%s%N) - began) / 6000)) # microseconds

# Starts a taking, and kills it after some part of what a call takes, up to all of it and a quarter.
interrupted() {
    pause=$((call_takes * 5 / 4 * $(od -An -N2 -tu2 /dev/urandom) / 65536))
    : >call
    "$root/host/tool" run eskelvor board b take --journal j XY0001 >call 2>/dev/null &
    call=$!
    sleep "$(printf '%d.%06d' $((pause / 1000000)) $((pause % 1000000)))"
    if kill -9 $call 2>/dev/null; then killed=$((killed + 1)); else finished=$((finished + 1)); fi
    wait $call 2>/dev/null || true
}

waits() { # whether the round's command is on the board
    eskelvor board b list >out 2>err || fail 'the board is not readable'
    grep -q "XY0001 .*$(text)\$" out
}
entries() { # how often it is in the journal
    [ -e j ] || { echo 0; return; }
    eskelvor journal j list >out 2>err || fail 'the journal is not readable'
    grep -c " XY0001 $(text)\$" out || true
}

for round in $(seq "$rounds"); do
    eskelvor board b add XY0001 "$(text)" >out
    interrupted
    entered=$(entries)
    if waits; then
        eskelvor board b take --journal j XY0001 >out 2>err || fail 'the next taking is refused'
        [ "$(cat out)" = "$(text)" ] || fail 'it hands out something else'
        if [ "$entered" = 1 ]; then
            both=$((both + 1))
            grep -q 'have the same text' err || fail 'it is not told that it is in the journal already'
            eskelvor journal j drop 1 >out 2>err || fail 'it is not mended'
        fi
    else
        [ "$entered" = 1 ] || fail "it waits no longer, and is $entered times in the journal"
    fi
    [ "$entered" = 0 ] || grep -qx "$(text)" call || fail 'it is in the journal and was not handed out'
    [ "$(entries)" = 1 ] || fail 'it is not once in the journal'
    cases=$((cases + 1))
done
eskelvor journal j list >out 2>err
[ "$(wc -l <out)" = "$rounds" ] || fail 'not every command is once in the journal'
eskelvor journal j replay XY0001 >out 2>err
grep -qx "XY0001 after reset and $rounds of its commands:" out || fail 'not all are replayed'
grep -qx "  a report every $((round % 60 + 1)) minutes" out || fail 'not the last one holds'
[ $killed -gt $((rounds / 20)) ] || fail "only $killed of $rounds calls were killed"
done_with "killed $killed takings, $finished were done before; $both in both"
