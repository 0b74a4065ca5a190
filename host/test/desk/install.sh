#!/bin/sh
# make install into a folder, programs against what was installed, the installed desk program, make uninstall.
. "$(dirname "$0")/cases.sh"
why='make install' words=''
: >"$scratch/out" >"$scratch/err"
dest=$scratch/dest
prefix=/opt/eskelvor
at=$dest$prefix
make_quietly() {
    make -C "$root" --no-print-directory "$@" PREFIX=$prefix DESTDIR="$dest" >"$scratch/out" 2>"$scratch/err" ||
        fail 'make failed'
}

make_quietly install
headers=$(sed -n 's/^#define ESK_VERSION "\(.*\)"/\1/p' "$root/host/eskelvor.h")
major=${headers%%.*}
for file in include/eskelvor.h lib/libeskelvor.a "lib/libeskelvor.so.$headers" "lib/libeskelvor.so.$major" \
    lib/libeskelvor.so lib/pkgconfig/eskelvor.pc bin/eskelvor share/man/man1/eskelvor.1 \
    share/bash-completion/completions/eskelvor \
    share/eskelvor/python/eskelvor/__init__.py; do
    [ -s "$at/$file" ] || fail "$file is not there"
    cases=$((cases + 1))
done
grep -q "^.TH ESKELVOR 1 .*eskelvor $headers" "$at/share/man/man1/eskelvor.1" ||
    fail 'the manual page is of another version'

# The proved code of the installed library is that of the archive for this machine, which on x86-64 is the proved one.
archive=$root/target/native/libdesk.a
if [ "$(uname -m)" = x86_64 ]; then archive=$root/target/staticlib/libdesk.a; fi
ar p "$at/lib/libeskelvor.a" "$(ar t "$archive")" >"$scratch/ours"
ar p "$archive" >"$scratch/theirs"
cmp -s "$scratch/ours" "$scratch/theirs" || fail 'the library is of another archive'
cases=$((cases + 1))

cat >"$scratch/small.c" <<'END'
#include <eskelvor.h>
#include <stdio.h>
int main(void)
{
    esk_packed p = esk_packed_read((const uint8_t *)"INZ", 3);
    printf("%d %d %s %s %s\n", p.code, (int)p.number, ESK_VERSION, esk_version(), esk_words(11));
    return 0;
}
END

# The flags, read from the .pc file; where pkg-config is there, it must read the same.
pc=$at/lib/pkgconfig/eskelvor.pc
grep -qx "prefix=$prefix" "$pc" || fail 'the .pc file has another prefix'
version=$(sed -n 's/^Version: //p' "$pc")
flags=$(sed -n -e 's/^Cflags: //p' -e 's/^Libs: //p' "$pc" |
    sed -e "s|\${includedir}|$at/include|" -e "s|\${libdir}|$at/lib|" | tr '\n' ' ')
if command -v pkg-config >/dev/null; then
    theirs=$(PKG_CONFIG_PATH="$at/lib/pkgconfig" PKG_CONFIG_SYSROOT_DIR="$dest" pkg-config --cflags --libs eskelvor)
    # shellcheck disable=SC2086
    [ "$(echo $theirs)" = "$(echo $flags)" ] || fail "pkg-config says $theirs, the file $flags"
else
    echo 'install: pkg-config is not here; its file was read instead'
fi
[ "$version" = "$headers" ] || fail "version $version"

# By the machine's own compiler, with the shared library and with the static one.
says() {
    [ "$1" = "0 -2245 $version $version nothing waits for that aircraft" ] || fail "a program over the library says: $1"
    cases=$((cases + 1))
}
compile() { "${CC:-cc}" -std=c99 -Wall -Wextra -pedantic -Werror -o "$scratch/small" "$scratch/small.c" "$@" || fail 'cc'; }
# shellcheck disable=SC2086
compile $flags
says "$(LD_LIBRARY_PATH=$at/lib "$scratch/small")"
readelf -d "$scratch/small" | grep -q "NEEDED.*libeskelvor.so.$major\]" || fail 'the flags link another library'
compile -I"$at/include" "$at/lib/libeskelvor.a"
says "$("$scratch/small")"

# The Python module finds the library under any prefix, and has every file that it imports.
in_python() { env -i PATH="$PATH" HOME="$HOME" PYTHONPATH="$at/share/eskelvor/python" python3 -c "$1"; }
python_says=$(in_python 'import eskelvor; print(eskelvor.library_version, eskelvor.read_packed("INZ"), eskelvor.__file__)') ||
    fail 'the Python module cannot be imported'
[ "$python_says" = "$version -2245 $at/share/eskelvor/python/eskelvor/__init__.py" ] || fail "Python says: $python_says"
cases=$((cases + 1))

why='the installed program' words='join'
joined=$("$at/bin/eskelvor" join AWR041999999000400000/151/ AWR049199999100400009/300/2301/) || fail 'it failed'
[ "$joined" = AWR041199999100400009/300/2301/ ] || fail "it says: $joined"
ln -s "$at/bin/eskelvor" "$scratch/eskelvor"
[ "$("$scratch/eskelvor" --version)" = "eskelvor $version" ] || fail 'by a link it is another'
got=0
"$at/bin/eskelvor" check AWR04 2>"$scratch/err" || got=$?
[ $got = 1 ] || fail "status $got, not 1"
# It is this machine's own: nothing of the kit is looked for.
[ "$(env -i PATH=/nowhere "$at/bin/eskelvor" --version)" = "eskelvor $version" ] || fail 'it needs more than itself'
cases=$((cases + 4))

why='make uninstall' words=''
touch "$at/lib/another"
make_quietly uninstall
left=$(cd "$at" && find . ! -type d)
[ "$left" = ./lib/another ] || fail "left: $left"
[ ! -d "$at/share/eskelvor" ] || fail 'a folder of ours is left'
cases=$((cases + 1))

done_with 'installed, used, taken away'
