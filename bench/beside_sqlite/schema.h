/* The tables of files and of their versions: a trigger keeps each content that ends. */
static const char SCHEMA[] =
    "CREATE TABLE files (id INTEGER PRIMARY KEY, name TEXT NOT NULL UNIQUE, number INTEGER NOT NULL,"
    " opened INTEGER NOT NULL, closed INTEGER NOT NULL, content BLOB NOT NULL);"
    "CREATE TABLE versions (file INTEGER NOT NULL, number INTEGER NOT NULL, opened INTEGER NOT NULL,"
    " closed INTEGER NOT NULL, ended INTEGER NOT NULL, content BLOB NOT NULL);"
    "CREATE INDEX version_closed ON versions (file, closed);"
    "CREATE INDEX version_ended ON versions (ended);"
    "CREATE TRIGGER keep_version AFTER UPDATE OF content ON files BEGIN"
    " INSERT INTO versions VALUES (old.id, old.number, old.opened, old.closed, new.closed, old.content);"
    " END;";
