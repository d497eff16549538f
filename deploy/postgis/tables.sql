-- The tables of the mirror: the state of a Streetmap after one serial of its journal.
--
-- journal_to_postgres.py --features runs the files of this folder in one transaction, again at each
-- start. Its own settings, among them the geometry's system, are in the row of streetmap_mirror.

CREATE EXTENSION IF NOT EXISTS postgis SCHEMA public;

-- One row: the serial of the last batch that has acted, and the office's reference system. The
-- grid's 0,0 is at easting and northing, in thousandths of the system's unit.
CREATE TABLE IF NOT EXISTS streetmap_mirror (
    is_only_row boolean PRIMARY KEY DEFAULT true CHECK (is_only_row),
    format integer NOT NULL DEFAULT 1,
    serial bigint NOT NULL DEFAULT 0,
    srid integer NOT NULL,
    easting bigint NOT NULL,
    northing bigint NOT NULL
);

-- A collection: its title, its time property, the edit that opened it, and `changed`: the serial of
-- the state in which it or a feature of it last changed.
CREATE TABLE IF NOT EXISTS streetmap_collections (
    id text COLLATE "C" PRIMARY KEY,
    title text NOT NULL,
    time text,
    serial bigint NOT NULL,
    place integer NOT NULL
);

-- Mirrors that were made before have no such column: all of theirs may have changed just now.
DO $$
BEGIN
    IF NOT EXISTS (SELECT FROM pg_attribute
                   WHERE attrelid = 'streetmap_collections'::regclass AND attname = 'changed')
    THEN
        ALTER TABLE streetmap_collections ADD COLUMN changed bigint;
        UPDATE streetmap_collections SET changed = mirror.serial FROM streetmap_mirror AS mirror;
        ALTER TABLE streetmap_collections ALTER COLUMN changed SET NOT NULL;
    END IF;
END
$$;

-- A feature: the serial of its last change; its text, as an export has it; and of that text the
-- properties, the geometry in the grid's whole millimetres with heights, and the time. `geometry`
-- is the same in the office's system, without heights: ADD_GEOMETRY of journal_mirror.py adds it.
-- `mercator` is that in EPSG:3857, from which tiles are drawn.
CREATE TABLE IF NOT EXISTS streetmap_features (
    collection text COLLATE "C" NOT NULL,
    id text COLLATE "C" NOT NULL,
    serial bigint NOT NULL,
    body text NOT NULL,
    properties jsonb,
    grid geometry CHECK (ST_SRID(grid) = 0),
    time tstzrange CHECK (NOT isempty(time)),
    mercator geometry(Geometry, 3857),
    PRIMARY KEY (collection, id)
);

-- Mirrors that were made before have no such column: streetmap_place_again fills it.
DO $$
BEGIN
    IF NOT EXISTS (SELECT FROM pg_attribute
                   WHERE attrelid = 'streetmap_features'::regclass AND attname = 'mercator')
    THEN
        ALTER TABLE streetmap_features ADD COLUMN mercator geometry(Geometry, 3857);
    END IF;
END
$$;

-- A tile of level 14 that a feature was in, or near: the serial of the state in which one of them
-- last changed; and the tile as it was drawn in the state of a serial, if it was.
CREATE TABLE IF NOT EXISTS streetmap_tiles (
    collection text COLLATE "C" NOT NULL,
    "column" integer NOT NULL,
    "row" integer NOT NULL,
    changed bigint NOT NULL,
    drawn bigint,
    is_cut boolean,
    body bytea,
    PRIMARY KEY (collection, "column", "row")
);
CREATE INDEX IF NOT EXISTS streetmap_tiles_due
    ON streetmap_tiles (changed) WHERE drawn IS NULL OR drawn < changed;

-- The kinds of values seen in a property: string, number, large (a number above 2^63 - 1),
-- boolean, array, object. Nulls, and names of more than 63 bytes, are not noted.
CREATE TABLE IF NOT EXISTS streetmap_properties (
    collection text COLLATE "C" NOT NULL,
    name text COLLATE "C" NOT NULL,
    kind text COLLATE "C" NOT NULL,
    seen bigint GENERATED ALWAYS AS IDENTITY,
    PRIMARY KEY (collection, name, kind)
);

-- Types that an office sets for columns of views, in place of those that follow from the kinds
-- seen. `SELECT streetmap_make_views()` makes the views again.
CREATE TABLE IF NOT EXISTS streetmap_columns (
    collection text COLLATE "C" NOT NULL,
    name text COLLATE "C" NOT NULL,
    type text NOT NULL
        CHECK (type IN ('text', 'bigint', 'numeric', 'boolean', 'date', 'timestamptz', 'jsonb')),
    PRIMARY KEY (collection, name)
);

-- Collections whose view has to be made, or made again.
CREATE TABLE IF NOT EXISTS streetmap_due_views (
    collection text COLLATE "C" PRIMARY KEY
);

CREATE INDEX IF NOT EXISTS streetmap_journal_key ON streetmap_journal (key);

-- Long batch texts, and tiles, are packed and unpacked in less time, if this PostgreSQL was built
-- so.
DO $$
BEGIN
    ALTER TABLE streetmap_journal ALTER COLUMN batch SET COMPRESSION lz4;
    ALTER TABLE streetmap_tiles ALTER COLUMN body SET COMPRESSION lz4;
EXCEPTION
    WHEN feature_not_supported THEN NULL;
END
$$;

-- The schema of the views has no name that a role may have who puts lines in: its views would come
-- before the tables then.
DO $$
BEGIN
    EXECUTE format('CREATE SCHEMA IF NOT EXISTS %I', streetmap_views_schema());
END
$$;

-- The role that only reads. Whoever may not make roles has it made by another (README.md).
DO $$
BEGIN
    IF NOT EXISTS (SELECT FROM pg_roles WHERE rolname = 'streetmap_reader') THEN
        CREATE ROLE streetmap_reader NOLOGIN;
    END IF;
EXCEPTION
    WHEN insufficient_privilege OR duplicate_object OR unique_violation THEN NULL;
END
$$;

DO $$
BEGIN
    IF EXISTS (SELECT FROM pg_roles WHERE rolname = 'streetmap_reader') THEN
        EXECUTE format('GRANT USAGE ON SCHEMA %I, %I TO streetmap_reader',
            current_schema, streetmap_views_schema());
        GRANT SELECT ON streetmap_mirror, streetmap_collections, streetmap_features,
            streetmap_tiles, streetmap_properties, streetmap_columns TO streetmap_reader;
        EXECUTE format('GRANT SELECT ON ALL TABLES IN SCHEMA %I TO streetmap_reader',
            streetmap_views_schema());
    END IF;
END
$$;
