# What the scripts of this folder share: $root, $here, $out where the extensions are, and $scratch, a folder that is taken
# away at the end, with any server in it stopped.
set -eu
here=$(cd "$(dirname "$0")" && pwd -P)
root=$(cd "$here/../../.." && pwd -P)
out=${SQL_OUT:-$root/target/sql}
scratch=$(mktemp -d "${TMPDIR:-/tmp}/eskelvor-sql.XXXXXX")
CARGO_TARGET_DIR=${CARGO_TARGET_DIR:-$root/target/compare}
PG_CONFIG=${PG_CONFIG:-pg_config}
fleet=$CARGO_TARGET_DIR/release/fleet

fail() {
    printf 'sql: %s\n' "$*" >&2
    exit 1
}

servers_stop() { :; }
trap 'servers_stop; [ -n "${KEEP:-}" ] || rm -rf "$scratch"' EXIT
trap 'exit 130' INT TERM
