-- The SQL functions of Eskelvor, as host/sql/sqlite.c has them for SQLite. An answer hangs on what is handed over alone:
-- each is immutable, strict and safe in a parallel worker. A refused text is an error with SQLSTATE 22P02, whose message
-- has the code, the place and the words.
\echo Use "CREATE EXTENSION eskelvor" to load this file. \quit

-- Commands.
CREATE FUNCTION eskelvor_check(command text) RETURNS integer
    LANGUAGE C IMMUTABLE STRICT PARALLEL SAFE AS 'MODULE_PATHNAME';
CREATE FUNCTION eskelvor_refusal(command text) RETURNS text
    LANGUAGE C IMMUTABLE STRICT PARALLEL SAFE AS 'MODULE_PATHNAME';
CREATE FUNCTION eskelvor_accepted(command text) RETURNS boolean
    LANGUAGE C IMMUTABLE STRICT PARALLEL SAFE AS 'MODULE_PATHNAME';
CREATE FUNCTION eskelvor_designator(designator text) RETURNS boolean
    LANGUAGE C IMMUTABLE STRICT PARALLEL SAFE AS 'MODULE_PATHNAME';
CREATE FUNCTION eskelvor_join(first text, second text) RETURNS text
    LANGUAGE C IMMUTABLE STRICT PARALLEL SAFE AS 'MODULE_PATHNAME';
CREATE FUNCTION eskelvor_commute(first text, second text) RETURNS boolean
    LANGUAGE C IMMUTABLE STRICT PARALLEL SAFE AS 'MODULE_PATHNAME';
CREATE FUNCTION eskelvor_section(command text, section integer) RETURNS text
    LANGUAGE C IMMUTABLE STRICT PARALLEL SAFE AS 'MODULE_PATHNAME';

-- A column joined in order: eskelvor_joined(command ORDER BY number). It has no COMBINEFUNC: grouping never alters a byte,
-- but order does, and what parallel workers would have joined of a table's rows comes in no order. It may still be worked
-- out inside a worker. Over no rows it is NULL, as sum() is: where there were no commands nothing waits, and a command
-- that changes nothing is still one.
CREATE FUNCTION eskelvor_joined_next(so_far text, command text) RETURNS text
    LANGUAGE C IMMUTABLE CALLED ON NULL INPUT PARALLEL SAFE AS 'MODULE_PATHNAME';
CREATE AGGREGATE eskelvor_joined(command text) (
    SFUNC = eskelvor_joined_next,
    STYPE = text,
    PARALLEL = SAFE
);

-- Configurations, each held as the command that sets all of it.
CREATE FUNCTION eskelvor_reset() RETURNS text
    LANGUAGE C IMMUTABLE STRICT PARALLEL SAFE AS 'MODULE_PATHNAME';
CREATE FUNCTION eskelvor_apply(configuration text, command text) RETURNS text
    LANGUAGE C IMMUTABLE STRICT PARALLEL SAFE AS 'MODULE_PATHNAME';
CREATE FUNCTION eskelvor_difference(first text, second text) RETURNS text
    LANGUAGE C IMMUTABLE STRICT PARALLEL SAFE AS 'MODULE_PATHNAME';
CREATE FUNCTION eskelvor_why(configuration text, phase text, latitude_minutes integer, longitude_minutes integer,
                             hour integer, airfield text) RETURNS text
    LANGUAGE C IMMUTABLE STRICT PARALLEL SAFE AS 'MODULE_PATHNAME';

-- Reports, as text or as bytes: one that was damaged on its way may hold what no text of the database can.
CREATE FUNCTION eskelvor_report_check(report text) RETURNS integer
    LANGUAGE C IMMUTABLE STRICT PARALLEL SAFE AS 'MODULE_PATHNAME';
CREATE FUNCTION eskelvor_report_check(report bytea) RETURNS integer
    LANGUAGE C IMMUTABLE STRICT PARALLEL SAFE AS 'MODULE_PATHNAME';
CREATE FUNCTION eskelvor_report_refusal(report text) RETURNS text
    LANGUAGE C IMMUTABLE STRICT PARALLEL SAFE AS 'MODULE_PATHNAME';
CREATE FUNCTION eskelvor_report_refusal(report bytea) RETURNS text
    LANGUAGE C IMMUTABLE STRICT PARALLEL SAFE AS 'MODULE_PATHNAME';
CREATE FUNCTION eskelvor_report(report text) RETURNS json
    LANGUAGE C IMMUTABLE STRICT PARALLEL SAFE AS 'MODULE_PATHNAME';
CREATE FUNCTION eskelvor_report(report bytea) RETURNS json
    LANGUAGE C IMMUTABLE STRICT PARALLEL SAFE AS 'MODULE_PATHNAME';
CREATE FUNCTION eskelvor_track(report text) RETURNS json
    LANGUAGE C IMMUTABLE STRICT PARALLEL SAFE AS 'MODULE_PATHNAME';
CREATE FUNCTION eskelvor_track(report bytea) RETURNS json
    LANGUAGE C IMMUTABLE STRICT PARALLEL SAFE AS 'MODULE_PATHNAME';

-- Of the library that the extension was built with. Another build may answer another, so it is stable alone.
CREATE FUNCTION eskelvor_version() RETURNS text
    LANGUAGE C STABLE STRICT PARALLEL SAFE AS 'MODULE_PATHNAME';
