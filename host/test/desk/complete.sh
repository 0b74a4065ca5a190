#!/bin/sh
# Help on each subcommand, and the shell's completion held against the program's own list of subcommands and options.
. "$(dirname "$0")/cases.sh"

answers 0 'all subcommands' help --list
names=$(cat "$scratch/out")
[ "$(echo "$names" | wc -l)" -ge 14 ] || fail 'there are more'
for name in $names; do
    answers 0 "help on $name" help "$name"
    cp "$scratch/out" "$scratch/help"
    answers 0 "the same by --help" "$name" --help
    cmp -s "$scratch/out" "$scratch/help" || fail 'it is another'
    answers 0 "the options of $name" help --list "$name"
    while read -r option; do
        grep -qe "$option\\([ ,=]\\|\$\\)" "$scratch/help" || fail "$option is not in the help"
        grep -qF -e "$(printf %s "$option" | sed 's/-/\\-/g')" "$root/host/desk/eskelvor.1" ||
            fail "$option is not in the manual page"
    done <"$scratch/out"
    # What the help tells is an option of this subcommand, or named there as another's
    for option in $(grep -oe '^ *\(-[a-z], \)\?--[a-z0-9-]*' "$scratch/help" | grep -oe '--[a-z0-9-]*'); do
        grep -qxF -e "$option" "$scratch/out" || fail "$option is told, and is none"
    done
done
answers 0 'help on all' help
out_has 'usage: eskelvor SUBCOMMAND'
answers 2 'help on what is none' help chekc
err_is 'eskelvor: chekc: no such subcommand; eskelvor help tells which there are'
answers 2 'help on two' help check join
err_is 'eskelvor: join: give one subcommand, or none'

if ! command -v bash >/dev/null; then
    echo 'complete: bash is not here; its completion was not looked at'
    done_with 'help'
    exit 0
fi

# What bash offers for the words that were typed, each on a line
offers() {
    why="completion of: $*" words=$*
    # shellcheck disable=SC2016
    bash -c '. "$1"; shift; COMP_WORDS=(eskelvor "$@"); COMP_CWORD=$#; _eskelvor; printf "%s\n" "${COMPREPLY[@]}"' \
        - "$root/host/desk/eskelvor.bash" "$@" >"$scratch/out" 2>"$scratch/err" || fail 'it failed'
    err_is
    cases=$((cases + 1))
}
same_words() { # FILE: what is offered is what the file has, in any order
    sort "$scratch/out" >"$scratch/one"
    sort "$1" >"$scratch/other"
    cmp -s "$scratch/one" "$scratch/other" || fail "not these: $(tr '\n' ' ' <"$scratch/other")"
}
offers ''
{ echo "$names"; printf '%s\n' --json --help --version; } >"$scratch/want"
same_words "$scratch/want"
offers re
out_is report
for name in $names; do
    offers "$name" --
    eskelvor help --list "$name" >"$scratch/known"
    grep -e '^--' "$scratch/known" >"$scratch/want"
    same_words "$scratch/want"
done
offers --json compose --hour
out_is --hours
offers apply -
[ "$(cat "$scratch/out")" = '' ] || fail 'a single - is standard input'
offers board tonight gr
out_is grow grant
offers board --db fleet.db ta
out_is take
offers journal taken re
out_is replay
offers config old ''
out_is convert
offers packed ''
out_is read write
offers help bo
out_is board
offers gust --type King
out_is KingAir-100
offers gust --type ''
eskelvor gust --list | tr ' ' - >"$scratch/want"
same_words "$scratch/want"
offers report --fields lat,lo
out_is lat,longitude_change_minutes lat,longitude_minutes lat,longitude_degrees lat,lon
offers report three
out_is ''

# Every value that is offered is one that the program takes
eskelvor help --list compose >"$scratch/known"
for option in $(grep -e '^--' "$scratch/known"); do
    offers compose "$option" ''
    for value in $(cat "$scratch/out"); do
        got=0
        eskelvor compose "$option" "$value" >"$scratch/out" 2>"$scratch/err" || got=$?
        ! grep -q "$value is not" "$scratch/err" || fail "$option does not take $value"
        cases=$((cases + 1))
    done
done
offers report --fields ''
for name in $(cat "$scratch/out"); do
    answers 0 "a field that is offered: $name" report --csv --fields "$name" "$examples/one.report"
done
for phase in ascent level descent; do
    offers decide --phase $phase
    out_is $phase
done
for verb in create add take return list find check grow convert grant; do
    offers board tonight $verb
    out_is $verb
    answers 0 'the help' help board
    out_has "  $verb "
done
for verb in list replay add drop check; do
    offers journal taken $verb
    out_is $verb
    answers 0 'the help' help journal
    out_has "  $verb "
done

done_with 'help and completion'
