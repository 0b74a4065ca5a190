# PostgreSQL servers of the tests' own, read by the scripts beside it. They are on loopback, in folders of the test, over a
# copy of the installed server's folders in which the extension is installed: nothing of the machine's own servers is
# touched. The caller sets $root and $scratch, and calls servers_stop at its end.

bin=$("$PG_CONFIG" --bindir)
copy=$scratch/copy

# Two ports that are free, below those that the system gives to outgoing connections: one of these could take a server's
# place while it is down.
is_free() { ! grep -qi ":$(printf %04X "$1") " /proc/net/tcp /proc/net/tcp6 2>/dev/null; }
first_port=$((20000 + $$ % 10000))
until is_free $first_port && is_free $((first_port + 1)); do first_port=$((first_port + 2)); done

# A server does not run as root: root runs it as the user that has none of its own files, or the fewest.
if [ "$(id -u)" = 0 ]; then
    server_user=nobody
    ! id postgres >/dev/null 2>&1 || server_user=postgres
    as_server() { exec setpriv --reuid="$server_user" --regid="$(id -g "$server_user")" --clear-groups env -u HOME "$@"; }
else
    as_server() { exec "$@"; }
fi

# Links everything of folder $1 into folder $2, as deep as $3 folders.
mirror() {
    mkdir -p "$2"
    for entry in "$1"/*; do
        if [ "$3" -gt 0 ] && [ -d "$entry" ]; then
            mirror "$entry" "$2/$(basename "$entry")" $(($3 - 1))
        else
            ln -s "$entry" "$2/"
        fi
    done
}

# The copy: programs find the other folders from where they are themselves, so that they are copied, and the rest linked.
servers_prepare() {
    chmod 755 "$scratch"
    mkdir -p "$copy$bin"
    cp "$bin/postgres" "$bin/initdb" "$copy$bin/"
    mirror "$("$PG_CONFIG" --pkglibdir)" "$copy$("$PG_CONFIG" --pkglibdir)" 0
    mirror "$("$PG_CONFIG" --sharedir)" "$copy$("$PG_CONFIG" --sharedir)" 1
    make -s -C "${SQL_OUT:-$root/target/sql}/postgres" -f "$root/host/sql/Makefile" DESTDIR="$copy" \
        LIBRARY="$root/target/native/libeskelvor.a" install
}

# Server $1, 0 or 1: made, and started. Its port is $((first_port + $1)).
server_new() {
    data=$scratch/server$1
    mkdir "$data"
    [ "$(id -u)" != 0 ] || chown "$server_user" "$data"
    (as_server "$copy$bin/initdb" -D "$data" -A trust -U desk -E UTF8 --no-locale >"$scratch/initdb$1.log")
    cat >>"$data/postgresql.conf" <<END
listen_addresses = '127.0.0.1'
port = $((first_port + $1))
unix_socket_directories = ''
max_connections = 80
fsync = ${SERVER_FSYNC:-on}
log_min_messages = fatal # refused commands are part of the load
log_min_error_statement = panic
END
    server_start "$1"
}

# It is this script's own child, so that it is seen to end.
server_start() {
    (as_server env ${ENGINE_ENV:-} "$copy$bin/postgres" -D "$scratch/server$1") >>"$scratch/server$1.log" 2>&1 &
    eval "server$1=$!"
    for i in $(seq 1200); do
        ! "$bin/pg_isready" -q -h 127.0.0.1 -p $((first_port + $1)) || return 0
        kill -0 $! 2>/dev/null || break
        sleep 0.05
    done
    fail "the server does not start: $(tail -n 5 "$scratch/server$1.log")"
}

# As a power failure would, but for the system's own buffers: the first process is stopped, so that it starts no others, and
# then all of them are killed and gone.
server_kill() {
    eval "first=\$server$1"
    kill -STOP "$first"
    others=$(ps -o pid= --ppid "$first")
    # shellcheck disable=SC2086
    kill -9 "$first" $others
    wait "$first" 2>/dev/null || true
    for other in $others; do
        while kill -0 "$other" 2>/dev/null && ! grep -q '^State:.Z' "/proc/$other/status" 2>/dev/null; do sleep 0.01; done
    done
}

# At once, without a last checkpoint.
servers_stop() {
    for server in ${server0:-} ${server1:-}; do
        kill -QUIT "$server" 2>/dev/null || true
        wait "$server" 2>/dev/null || true
    done
}

server_words() { echo "host=127.0.0.1 port=$((first_port + $1)) user=desk dbname=postgres connect_timeout=5"; }

# psql on server $1.
ask() {
    words=$(server_words "$1")
    shift
    psql -X -q -A -t -v ON_ERROR_STOP=1 -d "$words" "$@"
}
