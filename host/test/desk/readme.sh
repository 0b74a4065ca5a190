#!/bin/sh
# Every example of README.md and of docs/requests: the lines behind a `$` are run, in order, in one folder, and what they
# write is what stands there.
. "$(dirname "$0")/cases.sh"
mkdir "$scratch/bin" "$scratch/folder"
printf '#!/bin/sh\nexec "%s/host/tool" run eskelvor "$@"\n' "$root" >"$scratch/bin/eskelvor"
chmod +x "$scratch/bin/eskelvor"
PATH=$scratch/bin:$PATH
# The Python module, as README.md says to use it in place.
export PYTHONPATH="$root/python" ESKELVOR_LIBRARY="$root/target/native/libeskelvor.so" PYTHONDONTWRITEBYTECODE=1
cd "$scratch/folder"
ln -s "$examples" examples

awk '/^```console$/ { on = 1; next } /^```$/ { on = 0 } on' "$root/README.md" "$root"/docs/requests/*.md \
    >"$scratch/want"
: >"$scratch/out" >"$scratch/err"
grep '^\$ ' "$scratch/want" | while read -r _ line; do
    printf '$ %s\n' "$line"
    sh -c "$line" 2>&1 </dev/null || true
done >"$scratch/out"
cases=$(grep -c '^\$ ' "$scratch/want")
why='the examples of README.md and docs/requests' words=''
diff "$scratch/want" "$scratch/out" >"$scratch/err" || fail 'they differ'
[ "$cases" -ge 10 ] || fail "only $cases examples"

done_with 'the examples of README.md and docs/requests'
