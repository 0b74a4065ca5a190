#!/bin/sh
# Help, version, and words that are wrong.
. "$(dirname "$0")/cases.sh"

answers 0 'the program says what there is' --help
out_has 'usage: eskelvor SUBCOMMAND' 'Exit status: 0 accepted, 1 refused, 2 usage or files'
err_is
for name in report track check explain section compose join commute apply config diff decide why packed board journal night help; do
    out_has "  $name "
    answers 0 "help on $name" "$name" --help
    out_has "usage: eskelvor $name" '--json'
    answers 0 'the program says what there is' --help
done

answers 0 'the version is the header'"'"'s' --version
out_is "eskelvor $(sed -n 's/^#define ESK_VERSION "\(.*\)"/\1/p' "$root/host/eskelvor.h")"

answers 2 'no word at all'
err_has 'no subcommand'
answers 2 'a slip in the subcommand' chekc
err_is 'eskelvor: chekc: no such subcommand; eskelvor --help tells which there are'
out_is
answers 2 'the same for a machine' chekc --json
json_has subcommand=chekc results.0.about=chekc status=2

answers 2 'an option that is not known' check --loud AWR04
err_is 'eskelvor: --loud: no such option here; --help tells which there are'
answers 2 'the same for a machine, wherever --json stands' check --loud --json AWR04
json_has results.0.about=--loud status=2
answers 2 'an option without its value' apply AWR049999999000000000/ --config
err_is 'eskelvor: --config: this option needs a value'
answers 2 'a value that is not wanted' check --text=yes AWR049999999000000000/
err_is 'eskelvor: --text=yes: this option takes no value'
answers 2 'behind -- there are no options: this is a file' check -- --json
err_has 'eskelvor: --json: cannot open: No such file or directory'
for name in check explain section compose join commute config diff decide why packed board journal; do
    answers 2 "$name without a word" "$name"
    answers 2 "$name without a word, for a machine" --json "$name"
    json_has "subcommand=$name" status=2
done

done_with 'help, version, slips'
