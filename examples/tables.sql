-- The tables of a file that has no collection yet, as `streetmap create` makes them (format 2).
CREATE TABLE streetmap_meta (name TEXT PRIMARY KEY, value INTEGER NOT NULL) STRICT;
CREATE TABLE streetmap_collections (id TEXT PRIMARY KEY, title TEXT NOT NULL, time TEXT) STRICT;
CREATE TABLE streetmap_batches (
  key TEXT PRIMARY KEY, body TEXT NOT NULL,
  opened INTEGER NOT NULL, inserted INTEGER NOT NULL, replaced INTEGER NOT NULL,
  deleted INTEGER NOT NULL, serial INTEGER NOT NULL UNIQUE
) STRICT;
CREATE TABLE streetmap_features (
  collection TEXT NOT NULL REFERENCES streetmap_collections(id), id TEXT NOT NULL,
  body TEXT NOT NULL,
  x0 INTEGER, y0 INTEGER, x1 INTEGER, y1 INTEGER, s0 INTEGER, s1 INTEGER,
  PRIMARY KEY (collection, id)
) STRICT;
INSERT INTO streetmap_meta VALUES ('format', 2);
