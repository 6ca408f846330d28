-- A ledger of format 1 as it is left where a program is killed that takes it over, before the end of its transaction: all of it
-- lies in the log, and behind it what belongs to the transaction. `sqlite3 half <unended.sql` makes it, and a file `half`.
PRAGMA wal_autocheckpoint = 0;
.read format-1-folder.sql
PRAGMA cache_size = 1;
PRAGMA cache_spill = 1;
BEGIN;
CREATE TABLE rows2 (target BLOB NOT NULL PRIMARY KEY, source BLOB NOT NULL, digest BLOB NOT NULL, output BLOB) STRICT;
INSERT INTO rows2 SELECT target, source, digest, NULL FROM written;
DROP TABLE written;
.shell cp half unended
.shell cp half-wal unended-wal
