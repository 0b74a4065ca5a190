#!/bin/sh
# status: the printed sheet in words and for a machine; sheets that are cut, go on, or have a wrong byte.
. "$(dirname "$0")/cases.sh"
cd "$scratch"

cp "$root/examples/printed.sheet" sheet
answers 0 'the printed sheet' status sheet
out_has 'status sheet of AU0115'
out_has '  level flight active: every 421 seconds'
out_has '  trigger levels: 690 hPa and 500 hPa; 0 observations'
out_has '  airports that are on: 2 WSSS'
answers 0 'for a machine' --json status sheet
out_has '"level_interval_seconds":421'
out_has '{"number":2,"icao":"WSSS","active":true}'

head -c 912 sheet >cut
answers 1 'its last byte is missing' status cut
err_has 'code 8 at byte 911'
{ cat sheet && printf ' '; } >more
answers 1 'a byte more' status more
err_has 'code 8 at byte 913'
sed 's/RR421/RR 42/' sheet >spaced
answers 0 'a number behind a space' status spaced
out_has 'every 42 seconds'
sed 's/RR421/RR042/' sheet >zero
answers 1 'a leading zero' status zero
err_has 'code 6 at byte 33'
answers 2 'no such file' status missing
answers 2 'no file' status

done_with 'status sheets'
