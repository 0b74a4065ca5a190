#!/bin/sh
# The busy night.
. "$(dirname "$0")/cases.sh"
mkdir "$scratch/tmp"
export TMPDIR="$scratch/tmp"

answers 0 'every aircraft holds what the desk shows' night
out_has '26 of 29 commands accepted' 'A queue of 16 would have taken 27, dropped the first 11, and told nobody:' \
    'With the board 5 of 5 aircraft hold what the desk shows; with the queue 0.' \
    '  AU0137  AWR049199199200406009/101/1/0204/' \
    'AU0137  ascent reports off, a sample every 6 seconds: NOT WHAT THE DESK SHOWS' \
    'AU0245  ascent reports on, a sample every 3 seconds: NOT WHAT THE DESK SHOWS' \
    'refused: code 9, no slot is free'
grep -A 3 'NZ700. .*NOT WHAT' "$scratch/out" >"$scratch/differs"
mv "$scratch/differs" "$scratch/out"
alike='ascent reports on, a sample every 6 seconds: NOT WHAT THE DESK SHOWS:'
out_is "  NZ7001  $alike" \
    '          flag airports: 0, the desk shows 1' \
    '          section 3, airfields for the schemes of ascent and descent: 000000000, the desk shows 01YMML0000000' \
    '          section 9, the hours of silence: 0000, the desk shows 2301' \
    "  NZ7002  $alike" \
    '          flag inhibit hours: 1, the desk shows 0' \
    '  FJ0003  ascent reports off, a sample every 6 seconds: NOT WHAT THE DESK SHOWS:' \
    '          flag ascent: 0, the desk shows 1'
[ -z "$(ls -A "$TMPDIR")" ] || fail 'something is left in the folder'

# It ends with a replay of the journal, which the desk program's own subcommand gives as well
answers 0 'the night once more' night
out_has 'The journal gives what 5 of 5 aircraft hold.'
sed -n 's/^[0-9]* \([A-Z]*[0-9]* AWR[^ ]*\)$/\1/p' "$scratch/out" >"$scratch/listed"
[ "$(wc -l <"$scratch/listed")" = 10 ] || fail 'not two entries for each aircraft'
sed -n '/^AU0137, replayed/,/^Each aircraft/p' "$scratch/out" | sed '1,2d;$d' | sed '$d' >"$scratch/steps"
[ "$(tail -7 "$scratch/out" | grep -c ': as the desk shows$')" = 5 ] || fail 'not what each holds'
tac "$scratch/listed" | while read -r aircraft text; do
    eskelvor journal "$scratch/again" add "$aircraft" "$text" >"$scratch/out" 2>"$scratch/err" || fail 'an entry'
done
answers 0 'the same entries, replayed' journal "$scratch/again" replay AU0137
sed '/^AU0137 after reset/,$d' "$scratch/out" >"$scratch/want"
[ -s "$scratch/want" ] && cmp -s "$scratch/want" "$scratch/steps" || fail 'not what the night shows'

# What the board hands over is what eskelvor join makes of the aircraft's accepted commands.
for aircraft in AU0137 AU0245 NZ7001 NZ7002; do
    answers 0 'the night again' night
    sent=$(sed -n "s/^  $aircraft  \(AWR[^ ]*\) .* bytes wait.*/\1/p" "$scratch/out")
    handed=$(sed -n "s/^  $aircraft  \(AWR[^ ]*\)\$/\1/p" "$scratch/out")
    # shellcheck disable=SC2086
    answers 0 "all that was accepted for $aircraft, joined" join $sent
    out_is "$handed"
done

answers 0 'for a machine' night --json
json_has results.0.event=add results.0.designator=AU0137 results.0.code=0 results.0.length=22 results.8.code=9 \
    results.12.code=4 results.12.place=37 results.29.event=hand-over results.29.as_the_desk_shows=true \
    'results.35.event=old queue' results.35.as_the_desk_shows=false \
    results.37.differs.0.flag=airports results.37.differs.0.holds=0 results.37.differs.0.shown=1 \
    results.37.differs.2.section=9 results.37.differs.2.holds=0000 results.37.differs.2.shown=2301 \
    'results.38.differs.0.flag=inhibit hours' results.40.event=replay results.44.event=replay \
    results.40.designator=AU0137 results.40.as_the_desk_shows=true results.44.as_the_desk_shows=true status=0
answers 2 'it takes no words' night now
TMPDIR=$scratch/nowhere
answers 2 'a folder that is not there' night
err_has 'cannot make a folder in it: No such file or directory'

done_with 'the busy night'
