#!/bin/sh
# The functions of both engines under the address sanitizer: the extensions are compiled with it, and the engine runs with its
# library. The proved archive is as it is: host/native sanitized looks at that. A server is made without it, and runs with it.
. "$(dirname "$0")/common.sh"
SQL_OUT=$root/target/sql-sanitized
FLAGS='-g -fsanitize=address -fno-omit-frame-pointer'
"${CC:-cc}" -std=c99 -Wall -Wextra -pedantic -Werror -shared -fPIC -o "$scratch/no_translations.so" "$here/no_translations.c"
chmod 755 "$scratch" # the server's user reads it too
ENGINE_ENV="LD_PRELOAD=$("${CC:-cc}" -print-file-name=libasan.so):$scratch/no_translations.so ASAN_OPTIONS=detect_leaks=0:abort_on_error=1"
export SQL_OUT FLAGS ENGINE_ENV
cd "$root"

# A report of the sanitizer would stand on standard error, and the engine would end there.
if host/sql/build has sqlite; then
    host/sql/build sqlite
    "$here/functions.sh" sqlite
    # shellcheck disable=SC2086
    "${CC:-cc}" -std=c99 -Wall -Wextra -pedantic -Werror -O1 $FLAGS -o "$scratch/any_bytes" "$here/any_bytes.c" -lsqlite3
    ASAN_OPTIONS=detect_leaks=1:abort_on_error=1 "$scratch/any_bytes" "$SQL_OUT/eskelvor.so" examples/three.reports 200000 2
fi
if host/sql/build has postgres && host/sql/build has server; then
    host/sql/build postgres
    "$here/functions.sh" postgres
    "$here/any_bytes.sh"
fi
