-- A database with the rows of both formats: `sqlite3 both <both.sql` makes it.
.read format-1-folder.sql
CREATE TABLE rows2 (target BLOB NOT NULL PRIMARY KEY, source BLOB NOT NULL, digest BLOB NOT NULL, output BLOB) STRICT;
