-- How lines of the journal act on the state: as many as come at once, by sets of edits.

-- A fault of a line, which undoes the transaction. journal_table.py knows the SQLSTATE.
CREATE OR REPLACE FUNCTION streetmap_fault(said text)
RETURNS void LANGUAGE plpgsql AS $$
BEGIN
    RAISE EXCEPTION USING ERRCODE = 'SM001', MESSAGE = said;
END
$$;

-- The temporary table of the edits that are about to act, in each session. `before` is the kind of
-- the edit before it of the same feature, if that is among them; the last of a feature `is_last`.
-- `is_open` says that an edit before it opened its collection, and `was_there` that its feature is
-- there before all of them. Beside it is that of the tiles that they concern (tiles.sql).
CREATE OR REPLACE FUNCTION streetmap_clear_edits()
RETURNS void LANGUAGE plpgsql AS $$
BEGIN
    IF to_regclass('pg_temp.streetmap_near') IS NOT NULL THEN
        DELETE FROM pg_temp.streetmap_acting;
        DELETE FROM pg_temp.streetmap_near;
        RETURN;
    END IF;
    CREATE TEMPORARY TABLE streetmap_acting (
        serial bigint, place integer, op text, collection text COLLATE "C", id text COLLATE "C",
        body text, properties jsonb, grid geometry, time tstzrange, is_open boolean,
        was_there boolean, before text, is_last boolean
    ) ON COMMIT DELETE ROWS;
    CREATE TEMPORARY TABLE streetmap_near (
        collection text COLLATE "C", first_column integer, last_column integer, first_row integer,
        last_row integer
    ) ON COMMIT DELETE ROWS;
END
$$;

-- Opens the collections of the lines after one serial and up to another: the first `open` of each.
CREATE OR REPLACE FUNCTION streetmap_open(after bigint, up_to bigint)
RETURNS void LANGUAGE plpgsql AS $$
DECLARE
    refused streetmap_collections;
BEGIN
    WITH opened AS (
        INSERT INTO streetmap_collections (id, title, time, serial, place, changed)
        SELECT DISTINCT ON (edit.collection)
            edit.collection, edit.title, edit."time", edit.serial, edit.place, up_to
        FROM streetmap_edits(after, up_to) AS edit
        WHERE edit.op = 'open'
        ORDER BY edit.collection, edit.serial, edit.place
        ON CONFLICT DO NOTHING
        RETURNING id
    )
    INSERT INTO streetmap_due_views SELECT id FROM opened ON CONFLICT DO NOTHING;
    -- A name with U+0000 cannot be kept, and another property might have the name in its place.
    SELECT opened.* INTO refused
    FROM streetmap_collections AS opened JOIN streetmap_journal AS line USING (serial)
    WHERE serial > after AND serial <= up_to
        AND strpos(opened.time, chr(65533)) > 0 AND strpos(line.batch, '\u0000') > 0;
    IF FOUND THEN
        PERFORM streetmap_fault(
            format('refused %s zero_in_time %s', refused.serial, refused.place));
    END IF;
END
$$;

-- Reads the edits of these lines into the temporary table.
CREATE OR REPLACE FUNCTION streetmap_read(after bigint, up_to bigint)
RETURNS void LANGUAGE plpgsql AS $$
BEGIN
    PERFORM streetmap_clear_edits();
    IF EXISTS (SELECT FROM streetmap_journal AS line
               WHERE line.serial > after AND line.serial <= up_to
                   AND strpos(line.batch, '"op":"open"') > 0)
    THEN
        PERFORM streetmap_open(after, up_to);
    END IF;
    INSERT INTO streetmap_acting
    SELECT edit.serial, edit.place, edit.op, edit.collection, edit.id, edit.body, held.properties,
        ST_SetSRID(ST_GeomFromGeoJSON(edit.geometry), 0),
        CASE WHEN opened.time IS NOT NULL
            THEN streetmap_held_time(held.properties -> opened.time) END,
        coalesce((opened.serial, opened.place) < (edit.serial, edit.place), false),
        kept.id IS NOT NULL,
        lag(edit.op) OVER of_feature,
        lead(edit.op) OVER of_feature IS NULL
    FROM streetmap_edits(after, up_to) AS edit
    CROSS JOIN LATERAL (SELECT edit.properties::jsonb) AS held (properties)
    LEFT JOIN streetmap_collections AS opened ON opened.id = edit.collection
    LEFT JOIN streetmap_features AS kept
        ON kept.collection = edit.collection AND kept.id = edit.id
    WINDOW of_feature AS (PARTITION BY edit.collection, edit.id ORDER BY edit.serial, edit.place);
END
$$;

-- The same. A line that cannot be read is refused: the first by itself.
CREATE OR REPLACE FUNCTION streetmap_read_or_refuse(after bigint, up_to bigint)
RETURNS void LANGUAGE plpgsql AS $$
BEGIN
    PERFORM streetmap_read(after, up_to);
EXCEPTION
    WHEN data_exception OR internal_error OR not_null_violation THEN
        IF up_to - after = 1 THEN
            PERFORM streetmap_fault(format('refused %s bad_batch', up_to));
        END IF;
        FOR serial IN after + 1 .. up_to LOOP
            PERFORM streetmap_read_or_refuse(serial - 1, serial);
        END LOOP;
        RAISE;
END
$$;

-- The first fault of these lines as the ledger judges them: its serial, its place in the batch and
-- its code. Of an edit the collection is judged first, then whether the feature is there, then its
-- time. No row if they have none.
CREATE OR REPLACE FUNCTION streetmap_first_fault(after bigint, up_to bigint)
RETURNS TABLE (serial bigint, place integer, code text) LANGUAGE plpgsql AS $$
#variable_conflict use_column
BEGIN
    RETURN QUERY
    WITH judged AS (
        SELECT line.serial, 0 AS place, 'key_used' AS code
        FROM streetmap_journal AS line
        WHERE line.serial > after AND line.serial <= up_to
            AND EXISTS (SELECT FROM streetmap_journal AS earlier
                        WHERE earlier.key = line.key AND earlier.serial < line.serial)
        UNION ALL
        SELECT edit.serial, edit.place, CASE
            WHEN edit.op NOT IN ('open', 'insert', 'replace', 'delete') OR edit.op IS NULL
                OR edit.collection IS NULL OR (edit.id IS NULL) <> (edit.op = 'open')
                OR (edit.body IS NULL) <> (edit.op IN ('open', 'delete')) THEN 'bad_batch'
            WHEN edit.op = 'open' THEN CASE WHEN edit.is_open THEN 'collection_exists' END
            WHEN NOT edit.is_open THEN 'no_collection'
            WHEN edit.op = 'insert' AND is_there THEN 'feature_exists'
            WHEN edit.op <> 'insert' AND NOT is_there THEN 'no_feature'
            WHEN isempty(edit.time) THEN 'bad_time'
        END
        FROM streetmap_acting AS edit
        CROSS JOIN LATERAL (
            SELECT coalesce(edit.before <> 'delete', edit.was_there)
        ) AS state (is_there)
    )
    SELECT * FROM judged WHERE code IS NOT NULL ORDER BY serial, place LIMIT 1;
END
$$;

-- Puts in the features that the edits in the temporary table insert or replace. What cannot be
-- placed in EPSG:3857 fails, unless that is taken into account, which takes longer.
CREATE OR REPLACE FUNCTION streetmap_put_features(is_careful boolean)
RETURNS void LANGUAGE plpgsql AS $$
BEGIN
    WITH put AS (
        UPDATE streetmap_features AS kept
        SET serial = edit.serial, body = edit.body, properties = edit.properties, grid = edit.grid,
            time = edit.time,
            geometry = streetmap_placed(edit.grid, mirror.easting, mirror.northing, mirror.srid),
            mercator = CASE WHEN is_careful THEN streetmap_mercator_or_null(
                    edit.grid, mirror.easting, mirror.northing, mirror.srid)
                ELSE streetmap_mercator(
                    edit.grid, mirror.easting, mirror.northing, mirror.srid) END
        FROM streetmap_acting AS edit CROSS JOIN streetmap_mirror AS mirror
        WHERE edit.is_last AND edit.op IN ('insert', 'replace') AND edit.was_there
            AND kept.collection = edit.collection AND kept.id = edit.id
        RETURNING kept.collection, kept.mercator
    )
    INSERT INTO streetmap_near SELECT DISTINCT put.collection, near.*
    FROM put CROSS JOIN LATERAL streetmap_tile_range(put.mercator) AS near
    WHERE put.mercator IS NOT NULL;
    WITH put AS (
        INSERT INTO streetmap_features
            (collection, id, serial, body, properties, grid, time, geometry, mercator)
        SELECT edit.collection, edit.id, edit.serial, edit.body, edit.properties, edit.grid,
            edit.time, streetmap_placed(edit.grid, mirror.easting, mirror.northing, mirror.srid),
            CASE WHEN is_careful THEN streetmap_mercator_or_null(
                    edit.grid, mirror.easting, mirror.northing, mirror.srid)
                ELSE streetmap_mercator(
                    edit.grid, mirror.easting, mirror.northing, mirror.srid) END
        FROM streetmap_acting AS edit CROSS JOIN streetmap_mirror AS mirror
        WHERE edit.is_last AND edit.op IN ('insert', 'replace') AND NOT edit.was_there
        RETURNING collection, mercator
    )
    INSERT INTO streetmap_near SELECT DISTINCT put.collection, near.*
    FROM put CROSS JOIN LATERAL streetmap_tile_range(put.mercator) AS near
    WHERE put.mercator IS NOT NULL;
END
$$;

-- Changes the features as the edits in the temporary table say. The tiles in which they were, or
-- are now, are in the other one then.
CREATE OR REPLACE FUNCTION streetmap_change_features()
RETURNS void LANGUAGE plpgsql AS $$
BEGIN
    -- OFFSET 0 has each feature found by its key.
    INSERT INTO streetmap_near SELECT DISTINCT edit.collection, near.*
    FROM streetmap_acting AS edit
    CROSS JOIN LATERAL (
        SELECT kept.mercator FROM streetmap_features AS kept
        WHERE kept.collection = edit.collection AND kept.id = edit.id OFFSET 0
    ) AS kept
    CROSS JOIN LATERAL streetmap_tile_range(kept.mercator) AS near
    WHERE edit.is_last AND edit.was_there AND kept.mercator IS NOT NULL;
    DELETE FROM streetmap_features AS kept USING streetmap_acting AS edit
    WHERE edit.is_last AND edit.op = 'delete'
        AND kept.collection = edit.collection AND kept.id = edit.id;
    BEGIN
        PERFORM streetmap_put_features(false);
    EXCEPTION
        WHEN internal_error THEN
            PERFORM streetmap_put_features(true);
    END;
END
$$;

-- Features whose `mercator` is not what PostGIS makes now, of the first ones, or of all if their
-- number is not given.
CREATE OR REPLACE FUNCTION streetmap_misplaced(most bigint)
RETURNS TABLE (collection text, id text, mercator geometry) LANGUAGE sql STABLE AS $$
    SELECT kept.collection, kept.id, made.it
    FROM (SELECT * FROM streetmap_features LIMIT most) AS kept CROSS JOIN streetmap_mirror AS mirror
    CROSS JOIN LATERAL (
        SELECT streetmap_mercator_or_null(kept.grid, mirror.easting, mirror.northing, mirror.srid)
    ) AS made (it)
    WHERE kept.mercator::bytea IS DISTINCT FROM made.it::bytea
$$;

-- Places features again in EPSG:3857 if one of the first thousand is not there: in a mirror that
-- was made without that, or after PROJ was given another grid. All tiles are noted then, and in a
-- mirror that has none yet.
CREATE OR REPLACE FUNCTION streetmap_place_again()
RETURNS void LANGUAGE plpgsql AS $$
BEGIN
    IF EXISTS (SELECT FROM streetmap_misplaced(1000)) THEN
        UPDATE streetmap_features AS kept SET mercator = made.mercator
        FROM streetmap_misplaced(NULL) AS made
        WHERE kept.collection = made.collection AND kept.id = made.id;
        DELETE FROM streetmap_tiles;
    END IF;
    IF NOT EXISTS (SELECT FROM streetmap_tiles) THEN
        PERFORM streetmap_clear_edits();
        INSERT INTO streetmap_near SELECT DISTINCT kept.collection, near.*
        FROM streetmap_features AS kept
        CROSS JOIN LATERAL streetmap_tile_range(kept.mercator) AS near
        WHERE kept.mercator IS NOT NULL;
        PERFORM streetmap_note_tiles(serial) FROM streetmap_mirror;
    END IF;
END
$$;

-- Notes kinds of values that were not seen before, whose views are due then. Features of the same
-- names and types count once, but each that has a number above 2^63 - 1. The number of edits is not
-- known to the planner, and a hash of them takes less than to sort them.
CREATE OR REPLACE FUNCTION streetmap_note_kinds()
RETURNS void LANGUAGE plpgsql SET enable_sort = off AS $$
BEGIN
    WITH forms AS MATERIALIZED (
        SELECT DISTINCT edit.collection, ARRAY(SELECT jsonb_object_keys(edit.properties)) AS names,
            jsonb_path_query_array(edit.properties, '$.*.type()') AS types,
            CASE WHEN edit.properties @? 'strict $.* ? (@ > 9223372036854775807)'
                THEN edit.properties END AS large
        FROM streetmap_acting AS edit WHERE edit.is_last AND edit.properties IS NOT NULL
    ), held AS (
        SELECT DISTINCT forms.collection, property.name, CASE
            WHEN property.type = 'number' AND (large -> name)::numeric > 9223372036854775807
                THEN 'large'
            ELSE property.type END AS kind
        FROM forms CROSS JOIN LATERAL ROWS FROM (
            unnest(names), jsonb_array_elements_text(types)) AS property (name, type)
        WHERE octet_length(property.name) <= 63 AND property.type <> 'null'
    ), noted AS (
        INSERT INTO streetmap_properties (collection, name, kind)
        SELECT collection, name, kind FROM held
        WHERE NOT EXISTS (
            SELECT FROM streetmap_properties AS seen
            WHERE seen.collection = held.collection AND seen.name = held.name
                AND seen.kind = held.kind)
        ORDER BY collection, name, kind
        RETURNING collection
    )
    INSERT INTO streetmap_due_views SELECT DISTINCT collection FROM noted ON CONFLICT DO NOTHING;
END
$$;

-- The serial of the last of the next lines that act at once: up to `most_lines`, few bytes if they
-- are long. NULL if no line is next. A line that is missing is a fault.
CREATE OR REPLACE FUNCTION streetmap_next_serial(after bigint, most_lines integer)
RETURNS bigint LANGUAGE plpgsql AS $$
DECLARE
    last bigint;
    number bigint;
BEGIN
    SELECT max(serial), count(*) INTO last, number
    FROM (SELECT serial, sum(octet_length(batch)) OVER (ORDER BY serial) - octet_length(batch)
          FROM streetmap_journal WHERE serial > after ORDER BY serial LIMIT most_lines
    ) AS line (serial, bytes_before)
    WHERE bytes_before < 4194304;
    IF last - after <> number THEN
        SELECT min(serial) INTO last FROM streetmap_journal AS line
        WHERE serial > after + 1
            AND NOT EXISTS (SELECT FROM streetmap_journal AS before
                            WHERE before.serial = line.serial - 1);
        PERFORM streetmap_fault(format('lines_missing %s %s', (
            SELECT coalesce(max(serial), after) + 1 FROM streetmap_journal
            WHERE serial > after AND serial < last), last - 1));
    END IF;
    RETURN last;
END
$$;

-- Lets the next lines of the journal act, at most `most_lines`, and gives the state's serial. As
-- nothing is known yet of the temporary table, the plans are those for few edits: by indexes.
CREATE OR REPLACE FUNCTION streetmap_act(most_lines integer)
RETURNS bigint LANGUAGE plpgsql
SET enable_seqscan = off SET enable_bitmapscan = off SET enable_hashjoin = off
SET enable_mergejoin = off SET jit = off SET work_mem = '64MB' AS $$
DECLARE
    begun bigint;
    ended bigint;
    fault record;
BEGIN
    SELECT serial INTO STRICT begun FROM streetmap_mirror FOR UPDATE;
    ended := streetmap_next_serial(begun, most_lines);
    IF ended IS NULL THEN
        RETURN begun;
    END IF;
    PERFORM streetmap_read_or_refuse(begun, ended);
    SELECT * INTO fault FROM streetmap_first_fault(begun, ended);
    IF FOUND THEN
        PERFORM streetmap_fault(concat_ws(' ', 'refused', fault.serial, fault.code,
                                          nullif(fault.place, 0)));
    END IF;
    PERFORM streetmap_change_features();
    PERFORM streetmap_note_tiles(ended);
    PERFORM streetmap_note_kinds();
    UPDATE streetmap_collections SET changed = ended
    WHERE id IN (SELECT collection FROM streetmap_acting);
    UPDATE streetmap_mirror SET serial = ended;
    RETURN ended;
END
$$;

-- Lines that were put in act in the same transaction, whoever put them in.
CREATE OR REPLACE FUNCTION streetmap_lines_put_in()
RETURNS trigger LANGUAGE plpgsql SET search_path FROM CURRENT AS $$
BEGIN
    WHILE streetmap_act(100) < (SELECT max(serial) FROM streetmap_journal) LOOP
    END LOOP;
    RETURN NULL;
END
$$;

CREATE OR REPLACE TRIGGER streetmap_mirror AFTER INSERT ON streetmap_journal
FOR EACH STATEMENT EXECUTE FUNCTION streetmap_lines_put_in();
