-- The board of waiting commands in SQLite: one row for each aircraft for which something waits, and no slots. It needs the
-- functions of eskelvor.so; without them the tables can be read, and every write fails.
--
-- SQLite has one writer at a time, and a transaction sees none that is not committed: all are one after the other, whatever
-- is asked for. A statement by itself is a transaction. Several in one begin with BEGIN IMMEDIATE, so that it has the write
-- lock before it reads; one that began as a reader and then finds another's write is refused with SQLITE_BUSY. Every
-- connection sets a busy_timeout, to wait for the other writers. PRAGMA journal_mode = WAL, which is kept in the file, lets
-- readers go on meanwhile; synchronous stays FULL, so that what was committed outlives a power failure.
--
--   add     INSERT INTO waiting (designator, command) VALUES (?1, ?2)
--           ON CONFLICT (designator) DO UPDATE SET command = eskelvor_join(waiting.command, excluded.command)
--           RETURNING command;
--   take    DELETE FROM waiting WHERE designator = ?1 RETURNING command;    -- the trigger below journals it
--   return  as add, with eskelvor_join(excluded.command, waiting.command): before what has come to wait since

BEGIN;

-- What waits. No row can hold a command that is not accepted; the refusal's words are the error's.
CREATE TABLE waiting (
    designator TEXT PRIMARY KEY NOT NULL CHECK (eskelvor_designator(designator)),
    command TEXT NOT NULL CHECK (eskelvor_accepted(command))
) STRICT, WITHOUT ROWID;

-- The journal: what was handed over, without end. No number comes twice.
CREATE TABLE handed_over (
    number INTEGER PRIMARY KEY AUTOINCREMENT,
    designator TEXT NOT NULL CHECK (eskelvor_designator(designator)),
    command TEXT NOT NULL CHECK (eskelvor_accepted(command)),
    at TEXT NOT NULL DEFAULT (strftime('%Y-%m-%dT%H:%M:%fZ', 'now'))
) STRICT;
CREATE INDEX handed_over_by_aircraft ON handed_over (designator, number);

-- SQLite cannot insert what a DELETE returns. So every deletion is a taking: within its statement it is journalled.
CREATE TRIGGER hand_over BEFORE DELETE ON waiting
BEGIN
    INSERT INTO handed_over (designator, command) VALUES (old.designator, old.command);
END;

COMMIT;

PRAGMA journal_mode = WAL;
