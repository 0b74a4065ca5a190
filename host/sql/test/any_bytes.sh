#!/bin/sh
# any_bytes.sql on a server of its own.
. "$(dirname "$0")/common.sh"
. "$here/server.sh"
servers_prepare
server_new 0
ask 0 -c "CREATE DATABASE ascii ENCODING 'SQL_ASCII' TEMPLATE template0 LOCALE 'C'"
psql -X -q -d "$(server_words 0) dbname=ascii" -v ON_ERROR_STOP=1 -c 'CREATE EXTENSION eskelvor' -f "$here/any_bytes.sql" 2>&1 |
    sed 's/^.*INFO:  //'
[ "$(ask 0 -c 'SELECT 1')" = 1 ] || fail 'the server does not answer any more'
