-- A database of another program: `sqlite3 notes <notes.sql` makes it.
PRAGMA page_size = 512;
PRAGMA journal_mode = WAL;
CREATE TABLE note (title TEXT NOT NULL) STRICT;
INSERT INTO note VALUES ('kept');
