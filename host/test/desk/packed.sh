#!/bin/sh
# Packed figures: document 01's own, read and written.
. "$(dirname "$0")/cases.sh"

while IFS='|' read -r field number; do
    answers 0 "document 01: $field" packed read -- "$field"
    out_is "$number"
    [ "$number" = missing ] && width=2 || width=${#field}
    answers 0 "document 01, written: $number" packed write "$number" "$width"
    out_is "$field"
done <<'END'
INZ|-2245
LAE|2014
D5|-275
 U|10
 UK|420
 YZ9F|952375
  K|0
KK|20
JJ|-21
//|missing
END

answers 1 'more digits than the figure needs' packed read K5
err_is 'eskelvor: field: refused: code 6 at byte 0: a number in a spelling other than its one spelling' '  K5' '  ^'
answers 1 'a solidus among others' packed read --json /5
json_has results.0.code=4 results.0.place=1 results.0.text=/5 results.0.field=null \
    'results.0.because=5 behind a solidus: a missing figure is solidi alone' status=1

# The mark stands under the byte up to which a field could still be right, and the words say what is wrong with it
solidi='a missing figure is solidi alone'
digits='they are 0 to 9, A to Z and : , - .'
while IFS='|' read -r field place said; do
    answers 1 "the byte at fault of '$field'" packed read -- "$field"
    err_is "eskelvor: field: refused: code 4 at byte $place: $said" "  $field" "$(printf '  %*s^' "$place" '')"
    answers 1 "the byte at fault of '$field', for a machine" packed read --json -- "$field"
    json_has results.0.code=4 "results.0.place=$place" "results.0.because=$said"
done <<END
/5|1|5 behind a solidus: $solidi
////K|4|K behind a solidus: $solidi
/ |1|a space behind a solidus: $solidi
 /|1|/ behind another byte: $solidi
K/|1|/ behind another byte: $solidi
  |1|spaces alone are no figure
 |0|spaces alone are no figure
     |4|spaces alone are no figure
K  /|1|a space behind a digit
 K K|2|a space behind a digit
a5|0|a is no digit: $digits
 Kk|2|k is no digit: $digits
END
answers 1 'a byte that is not printable takes four columns, and the mark stands under its first' \
    packed read -- "$(printf 'K\001\001')"
err_is "eskelvor: field: refused: code 4 at byte 1: \\x01 is no digit: $digits" '  K\x01\x01' '   ^'
answers 1 'no field, and six bytes' packed read --json '' KKKKKK
json_has results.0.code=1 results.0.length=0 \
    results.1.code=1 results.1.length=6 'results.1.meaning=a packed field has 1 to 5 bytes'
answers 1 'one refused, one read' packed read K5 KK
out_is 20
answers 0 'for a machine: missing is null' packed read --json /// ' U'
json_has results.0.number=null results.1.number=10 'results.1.text= U'
answers 0 'written for a machine' packed write --json -2245 4
json_has 'results.0.text= INZ' results.0.number=-2245
answers 1 'a figure that does not fit' packed write 800 2
err_is 'eskelvor: 800: refused: code 5 at byte 0: a number outside its range'
answers 1 'one that fits nowhere' packed write 99999999999999999999 5
err_has 'code 5'
answers 1 'a width of 6' packed write 0 6
err_has 'code 1 at byte 0: a packed field has 1 to 5 bytes'
answers 1 'a width of 0' packed write 0 0
err_has 'code 1'
for slip in 'write x 2' 'write 5' 'write 5 x' 'read' 'turn 5' 'write 5 -1' 'write 1.5 2'; do
    # shellcheck disable=SC2086
    answers 2 "a slip: $slip" packed $slip
done

done_with 'figures read and written'
