-- What the texts of a batch say: edits, times, geometries.

-- Whether a day exists in the Gregorian calendar, which goes back to the year 0.
CREATE OR REPLACE FUNCTION streetmap_is_day(year integer, month integer, day integer)
RETURNS boolean LANGUAGE sql IMMUTABLE PARALLEL SAFE AS $$
    SELECT month BETWEEN 1 AND 12 AND day BETWEEN 1 AND CASE
        WHEN month IN (4, 6, 9, 11) THEN 30
        WHEN month <> 2 THEN 31
        WHEN year % 4 = 0 AND (year % 100 <> 0 OR year % 400 = 0) THEN 29
        ELSE 28
    END
$$;

-- A clock of UTC on a day. PostgreSQL writes the year 0 as -1, the first before Christ.
CREATE OR REPLACE FUNCTION streetmap_clock(
    year integer, month integer, day integer, hour integer, minute integer, second integer
) RETURNS timestamp LANGUAGE sql IMMUTABLE PARALLEL SAFE AS $$
    SELECT make_timestamp(CASE year WHEN 0 THEN -1 ELSE year END, month, day, hour, minute, second)
$$;

-- A date-time (RFC 3339, section 5.6) in UTC, down to the microsecond, and the nanoseconds beyond;
-- NULL if the text is none.
CREATE OR REPLACE FUNCTION streetmap_moment(given text, OUT clock timestamp, OUT beyond integer)
LANGUAGE plpgsql IMMUTABLE PARALLEL SAFE AS $$
DECLARE
    part text[] := regexp_match(given,
        '^([0-9]{4})-([0-9]{2})-([0-9]{2})'
        '[Tt]([01][0-9]|2[0-3]):([0-5][0-9]):([0-5][0-9])(?:\.([0-9]{1,9}))?'
        '(?:[Zz]|([-+ ])([01][0-9]|2[0-3]):([0-5][0-9]))$');
    nanoseconds integer;
    minutes_east integer;
BEGIN
    IF part IS NULL OR NOT streetmap_is_day(part[1]::integer, part[2]::integer, part[3]::integer)
    THEN
        RETURN;
    END IF;
    nanoseconds := rpad(coalesce(part[7], ''), 9, '0')::integer;
    minutes_east := coalesce(part[9]::integer * 60 + part[10]::integer, 0)
        * CASE part[8] WHEN '-' THEN -1 ELSE 1 END;
    clock := streetmap_clock(part[1]::integer, part[2]::integer, part[3]::integer,
                             part[4]::integer, part[5]::integer, part[6]::integer)
        - minutes_east * interval '1 minute' + nanoseconds / 1000 * interval '1 microsecond';
    beyond := nanoseconds % 1000;
END
$$;

-- The time of a day, from its first to its last nanosecond; empty if the text is none. By the days
-- since 1970, since names of time zones take long to read. PostgreSQL has no year 0 (see above).
CREATE OR REPLACE FUNCTION streetmap_day(given text)
RETURNS tstzrange LANGUAGE plpgsql IMMUTABLE PARALLEL SAFE AS $$
DECLARE
    year integer := substr(given, 1, 4);
    month integer := substr(given, 6, 2);
    day integer := substr(given, 9, 2);
    begun integer;
BEGIN
    IF NOT streetmap_is_day(year, month, day) THEN
        RETURN 'empty';
    END IF;
    begun := make_date(CASE year WHEN 0 THEN -1 ELSE year END, month, day) - date '1970-01-01';
    RETURN tstzrange(to_timestamp(begun * 86400.0), to_timestamp((begun + 1) * 86400.0));
END
$$;

-- The time from one date-time to another, of which one may be open: the least range of
-- microseconds that holds it. Empty if a text is no date-time, or the start is after the end.
CREATE OR REPLACE FUNCTION streetmap_span(first text, last text)
RETURNS tstzrange LANGUAGE plpgsql IMMUTABLE PARALLEL SAFE AS $$
DECLARE
    start record := streetmap_moment(first);
    stop record := streetmap_moment(last);
    is_open_before boolean := first IN ('', '..');
    is_open_after boolean := last IN ('', '..');
BEGIN
    IF is_open_before AND is_open_after
        OR start.clock IS NULL AND NOT is_open_before
        OR stop.clock IS NULL AND NOT is_open_after
        OR (start.clock, start.beyond) > (stop.clock, stop.beyond)
    THEN
        RETURN 'empty';
    END IF;
    IF stop.beyond > 0 THEN
        RETURN tstzrange(start.clock AT TIME ZONE 'UTC',
                         (stop.clock + interval '1 microsecond') AT TIME ZONE 'UTC', '[)');
    END IF;
    RETURN tstzrange(start.clock AT TIME ZONE 'UTC', stop.clock AT TIME ZONE 'UTC', '[]');
END
$$;

-- The time that a time property holds: a date-time, an interval, or a date. NULL if it has
-- none; empty if it cannot be read (bad_time).
CREATE OR REPLACE FUNCTION streetmap_held_time(held jsonb)
RETURNS tstzrange LANGUAGE plpgsql IMMUTABLE PARALLEL SAFE AS $$
DECLARE
    given text := held #>> '{}';
    slash integer;
BEGIN
    -- Days first, since most times are days. No other value than a text is written so.
    IF translate(given, '123456789', '000000000') = '0000-00-00' THEN
        RETURN streetmap_day(given);
    ELSIF given IS NULL THEN
        RETURN NULL;
    ELSIF jsonb_typeof(held) <> 'string' THEN
        RETURN 'empty';
    END IF;
    slash := strpos(given, '/');
    IF slash > 0 THEN
        RETURN streetmap_span(left(given, slash - 1), substr(given, slash + 1));
    ELSIF given IN ('', '..') THEN
        RETURN 'empty';
    END IF;
    RETURN streetmap_span(given, given);
END
$$;

-- The same. Views call it, whoever reads them.
CREATE OR REPLACE FUNCTION streetmap_time(held jsonb)
RETURNS tstzrange LANGUAGE plpgsql IMMUTABLE PARALLEL SAFE SET search_path FROM CURRENT AS $$
BEGIN
    RETURN streetmap_held_time(held);
END
$$;

-- A geometry of the grid in the office's system: each coordinate is the double nearest to
-- origin + grid / 1000, which a product of doubles need not be. By its text, or, in a third of the
-- time, by TWKB, whose whole numbers are divided by a power of ten that its first byte names: here
-- 0 becomes 3. TWKB leaves out positions that are those before them, and parts of a collection have
-- such a byte each.
CREATE OR REPLACE FUNCTION streetmap_placed(
    grid geometry, easting bigint, northing bigint, srid integer
) RETURNS geometry LANGUAGE plpgsql IMMUTABLE PARALLEL SAFE AS $$
DECLARE
    shifted geometry := ST_TransScale(ST_Force2D(grid), easting, northing, 1, 1);
    packed bytea := ST_AsTWKB(shifted, 0);
    placed geometry;
BEGIN
    IF get_byte(packed, 0) < 7 THEN
        placed := ST_GeomFromTWKB(set_byte(packed, 0, get_byte(packed, 0) + 96));
        IF ST_NPoints(placed) = ST_NPoints(grid) THEN
            RETURN ST_SetSRID(placed, srid);
        END IF;
    END IF;
    RETURN ST_GeomFromText(ST_AsText(ST_TransScale(shifted, 0, 0, 0.001, 0.001), 3), srid);
END
$$;

-- The same in EPSG:3857, by PostGIS's own operation, which may fail: that does not lead there from
-- everywhere. NULL without a system. Doubles are near enough here.
CREATE OR REPLACE FUNCTION streetmap_mercator(
    grid geometry, easting bigint, northing bigint, srid integer
) RETURNS geometry LANGUAGE sql IMMUTABLE PARALLEL SAFE AS $$
    SELECT CASE WHEN srid <> 0 THEN ST_Transform(ST_SetSRID(
        ST_TransScale(ST_Force2D(grid), easting, northing, 0.001, 0.001), srid), 3857) END
$$;

-- The same; NULL if the operation fails.
CREATE OR REPLACE FUNCTION streetmap_mercator_or_null(
    grid geometry, easting bigint, northing bigint, srid integer
) RETURNS geometry LANGUAGE plpgsql IMMUTABLE PARALLEL SAFE AS $$
BEGIN
    RETURN streetmap_mercator(grid, easting, northing, srid);
EXCEPTION
    WHEN internal_error THEN
        RETURN NULL;
END
$$;

-- A JSON text without U+0000, which neither json functions nor jsonb take: an escape for U+FFFD is
-- in its place. Texts of the server have no such escape themselves, so it can be taken back.
CREATE OR REPLACE FUNCTION streetmap_without_zeros(given text)
RETURNS text LANGUAGE sql IMMUTABLE PARALLEL SAFE AS $$
    SELECT CASE strpos(given, '\u0000') WHEN 0 THEN given
        ELSE regexp_replace(given, '(?<!\\)((?:\\\\)*)\\u0000', '\1\\ufffd', 'g') END
$$;

CREATE OR REPLACE FUNCTION streetmap_with_zeros(given text)
RETURNS text LANGUAGE sql IMMUTABLE PARALLEL SAFE AS $$
    SELECT CASE strpos(given, '\ufffd') WHEN 0 THEN given
        ELSE regexp_replace(given, '(?<!\\)((?:\\\\)*)\\ufffd', '\1\\u0000', 'g') END
$$;

-- The array of edits of a batch text, which ends with the key. It is cut out by its place, which
-- the server's texts always have, since that costs less than to read the whole; and as bytes,
-- since the characters of a text have to be counted.
CREATE OR REPLACE FUNCTION streetmap_edits_of(batch text, key text)
RETURNS json LANGUAGE plpgsql STABLE AS $$
DECLARE
    -- A new text, so that a long one is unpacked once.
    unpacked text := batch || '';
    whole bytea := convert_to(streetmap_without_zeros(unpacked), 'UTF8');
    beginning bytea := '{"edits":[';
    ending bytea := format(',"key":"%s"}', key)::bytea;
    size integer := octet_length(whole) - 9 - octet_length(ending);
BEGIN
    IF substr(whole, 1, 10) <> beginning OR substr(whole, 10 + size) <> ending THEN
        RAISE data_exception;
    END IF;
    RETURN convert_from(substr(whole, 10, size), 'UTF8');
END
$$;

-- The edits of the journal's lines after one serial and up to another. `body` is the text of the
-- feature as it is in the batch; type json keeps it byte for byte.
CREATE OR REPLACE FUNCTION streetmap_edits(after bigint, up_to bigint)
RETURNS TABLE (
    serial bigint, place integer, op text, collection text, id text, title text, "time" text,
    body text, geometry text, properties text
) LANGUAGE sql STABLE AS $$
    SELECT line.serial, edit.place::integer, edit.op, edit.collection,
        coalesce(feature.id, edit.id), edit.title, edit."time",
        streetmap_with_zeros(edit.feature::text), feature.geometry, feature.properties
    FROM streetmap_journal AS line
    CROSS JOIN LATERAL ROWS FROM (
        json_to_recordset(streetmap_edits_of(line.batch, line.key))
            AS (op text, collection text, id text, title text, "time" text, feature json)
    ) WITH ORDINALITY AS edit (op, collection, id, title, "time", feature, place)
    LEFT JOIN LATERAL json_to_record(edit.feature)
        AS feature (id text, geometry text, properties text) ON true
    WHERE line.serial > after AND line.serial <= up_to
$$;
