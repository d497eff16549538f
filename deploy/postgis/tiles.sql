-- Tiles of EPSG:3857: which of them a change concerns, and how one is drawn.

-- The column or row of level 14 at some metres from the north-west of the world. What is beyond all
-- tiles is beside them.
CREATE OR REPLACE FUNCTION streetmap_tile_at(metres double precision)
RETURNS integer LANGUAGE sql IMMUTABLE PARALLEL SAFE AS $$
    SELECT least(greatest(floor(metres / 2445.98490512564), -1), 16384)::integer
$$;

-- The tiles of level 14 that a geometry meets or is near, from one column and row to another. A
-- tile has 64 of its 4,096 units around it, which are 38.2 m of EPSG:3857. Here they are twice as
-- many, since boxes that are compared are rounded.
CREATE OR REPLACE FUNCTION streetmap_tile_range(mercator geometry)
RETURNS TABLE (first_column integer, last_column integer, first_row integer, last_row integer)
LANGUAGE sql IMMUTABLE PARALLEL SAFE AS $$
    SELECT streetmap_tile_at(ST_XMin(mercator) + 20037508.342789244 - 76.4),
        streetmap_tile_at(ST_XMax(mercator) + 20037508.342789244 + 76.4),
        streetmap_tile_at(20037508.342789244 - ST_YMax(mercator) - 76.4),
        streetmap_tile_at(20037508.342789244 - ST_YMin(mercator) + 76.4)
$$;

-- Notes that the tiles in the temporary table of them have changed. Of a feature that meets more
-- than 1,024 tiles all that are noted have: one that is not noted is as new as its collection.
CREATE OR REPLACE FUNCTION streetmap_note_tiles(ended bigint)
RETURNS void LANGUAGE plpgsql AS $$
DECLARE
    most integer := 1024;
    wide text[] := ARRAY(
        SELECT DISTINCT collection FROM streetmap_near
        WHERE (last_column - first_column + 1) * (last_row - first_row + 1)::bigint > most);
BEGIN
    INSERT INTO streetmap_tiles AS kept (collection, "column", "row", changed)
    SELECT DISTINCT near.collection, "column", "row", ended
    FROM streetmap_near AS near
    CROSS JOIN LATERAL generate_series(first_column, last_column) AS "column"
    CROSS JOIN LATERAL generate_series(first_row, last_row) AS "row"
    WHERE (last_column - first_column + 1) * (last_row - first_row + 1)::bigint <= most
    ON CONFLICT (collection, "column", "row") DO UPDATE SET changed = excluded.changed;
    IF wide <> '{}' THEN
        UPDATE streetmap_tiles SET changed = ended
        WHERE changed < ended AND collection = ANY (wide);
    END IF;
END
$$;

-- A tile of a collection: its first 10,000 features by id, and whether it has more. Those in the
-- bounds are read, which are in the system of `geometry` and around the tile. The first ones are
-- taken in the order of the CTE. OFFSET 0 has each geometry made once, although it is both tested
-- and drawn. A row that another hand put in may have no `mercator`.
CREATE OR REPLACE FUNCTION streetmap_draw(
    asked text, bounds geometry, level integer, "column" integer, "row" integer,
    OUT is_cut boolean, OUT body bytea
) LANGUAGE plpgsql STABLE SET work_mem = '32MB' SET plan_cache_mode = force_custom_plan AS $$
DECLARE
    envelope geometry := ST_TileEnvelope(level, "column", "row");
    around geometry := ST_Expand(envelope, (ST_XMax(envelope) - ST_XMin(envelope)) / 64);
    tile box2d := envelope;
    -- Whether a property has the name of the id, which a tile has once.
    has_id boolean := EXISTS (
        SELECT FROM streetmap_properties WHERE collection = asked AND name = 'id');
BEGIN
    WITH chosen AS MATERIALIZED (
        SELECT id, properties, coalesce(mercator, ST_Transform(geometry, 3857)) AS mercator
        FROM streetmap_features
        WHERE collection = asked AND geometry && bounds
            AND (mercator && around OR mercator IS NULL)
        ORDER BY id LIMIT 10001
    )
    SELECT (SELECT count(*) FROM chosen) > 10000, ST_AsMVT(drawn, asked, 4096, 'geometry')
    INTO is_cut, body
    FROM (
        SELECT id, CASE WHEN has_id THEN properties - 'id' ELSE properties END AS properties,
            ST_AsMVTGeom(mercator, tile, 4096, 64) AS geometry
        FROM (SELECT * FROM chosen LIMIT 10000) AS first
        OFFSET 0
    ) AS drawn WHERE geometry IS NOT NULL;
END
$$;

-- Draws a tile of level 14 that has changed since it was drawn, or never was; false if none is due.
-- Tile and serial are of the state that the one UPDATE reads.
CREATE OR REPLACE FUNCTION streetmap_make_tile()
RETURNS boolean LANGUAGE plpgsql SET max_parallel_workers_per_gather = 0 SET jit = off AS $$
DECLARE
    due record;
    bounds geometry;
BEGIN
    SELECT collection, "column", "row" INTO due FROM streetmap_tiles
    WHERE drawn IS NULL OR drawn < changed ORDER BY changed LIMIT 1;
    IF NOT FOUND THEN
        RETURN false;
    END IF;
    SELECT ST_Transform(ST_Segmentize(ST_Expand(tile, 100), 100), srid) INTO bounds
    FROM streetmap_mirror CROSS JOIN ST_TileEnvelope(14, due."column", due."row") AS tile;
    UPDATE streetmap_tiles AS kept
    SET drawn = mirror.serial, is_cut = made.is_cut, body = coalesce(made.body, '')
    FROM streetmap_mirror AS mirror
    CROSS JOIN streetmap_draw(due.collection, bounds, 14, due."column", due."row") AS made
    WHERE kept.collection = due.collection AND kept."column" = due."column"
        AND kept."row" = due."row";
    RETURN true;
END
$$;
