-- A later ledger of format 1, which has a table of the working folder: `sqlite3 format-1-folder <format-1-folder.sql` makes it.
.read format-1.sql
CREATE TABLE folder (number INTEGER PRIMARY KEY, path BLOB NOT NULL) STRICT;
