-- The board over two PostgreSQL servers, by hash of the designator (postgres_fdw). This is for the server that is asked, and
-- holds one half; the other server has board.postgres.sql, and its tables are the other half. Run by psql, with the other's
-- address:
--
--   psql -v host=.. -v port=.. -v dbname=.. -v user=.. -f board.sharded.sql
--
-- All of an aircraft, what waits and its journal, is on one server, so that every add and every taking is a transaction of
-- that one alone: postgres_fdw has no commit in two phases, and none is needed.
--
-- A partition on another server cannot have ON CONFLICT, and a table with one has no unique key of its own. So an add
-- updates, and inserts where there was no row; each half has its own primary key. postgres_fdw reads the other server under
-- REPEATABLE READ, whatever is asked for here: of two statements on the same aircraft at once the second fails with 40001,
-- or with 23505 where both inserted. Nothing was changed then, and the caller sends it again. It never waits in vain: one of
-- the two was committed.
--
-- `extensions` lets the join run where the row is, and not here over a row that was fetched.
CREATE EXTENSION IF NOT EXISTS postgres_fdw;
CREATE SERVER other FOREIGN DATA WRAPPER postgres_fdw
    OPTIONS (host :'host', port :'port', dbname :'dbname', extensions 'eskelvor');
CREATE USER MAPPING FOR CURRENT_USER SERVER other OPTIONS (user :'user');

CREATE TABLE waiting (
    designator text COLLATE "C" NOT NULL CHECK (eskelvor_designator(designator)),
    command text COLLATE "C" NOT NULL CHECK (eskelvor_accepted(command))
) PARTITION BY HASH (designator);
CREATE TABLE waiting_here PARTITION OF waiting (PRIMARY KEY (designator))
    FOR VALUES WITH (MODULUS 2, REMAINDER 0) WITH (fillfactor = 50);
CREATE FOREIGN TABLE waiting_there PARTITION OF waiting
    FOR VALUES WITH (MODULUS 2, REMAINDER 1) SERVER other OPTIONS (table_name 'waiting');

CREATE SEQUENCE handed_over_number;
CREATE TABLE handed_over (
    number bigint NOT NULL DEFAULT nextval('handed_over_number'),
    designator text COLLATE "C" NOT NULL CHECK (eskelvor_designator(designator)),
    command text COLLATE "C" NOT NULL CHECK (eskelvor_accepted(command)),
    at timestamptz NOT NULL DEFAULT clock_timestamp()
) PARTITION BY HASH (designator);
CREATE TABLE handed_over_here PARTITION OF handed_over (PRIMARY KEY (number))
    FOR VALUES WITH (MODULUS 2, REMAINDER 0);
CREATE INDEX ON handed_over_here (designator, number);
CREATE FOREIGN TABLE handed_over_there PARTITION OF handed_over
    FOR VALUES WITH (MODULUS 2, REMAINDER 1) SERVER other OPTIONS (table_name 'handed_over');

CREATE FUNCTION board_add(designator text, command text) RETURNS text LANGUAGE sql VOLATILE STRICT AS $$
    WITH joined AS (UPDATE waiting SET command = eskelvor_join(waiting.command, $2) WHERE waiting.designator = $1
                    RETURNING waiting.command),
         fresh AS (INSERT INTO waiting (designator, command) SELECT $1, $2 WHERE NOT EXISTS (SELECT FROM joined)
                   RETURNING waiting.command)
    SELECT command FROM joined UNION ALL SELECT command FROM fresh
$$;

CREATE FUNCTION board_take(designator text) RETURNS TABLE (number bigint, command text) LANGUAGE sql VOLATILE STRICT AS $$
    WITH taken AS (DELETE FROM waiting WHERE waiting.designator = $1 RETURNING waiting.designator, waiting.command)
    INSERT INTO handed_over (designator, command) SELECT taken.designator, taken.command FROM taken
    RETURNING handed_over.number, handed_over.command
$$;
