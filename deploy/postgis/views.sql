-- A view for each collection, with a column for each property.

-- The name of a collection's view: its id, or a shorter one, since a name has 63 bytes at most.
CREATE OR REPLACE FUNCTION streetmap_view_name(collection text)
RETURNS text LANGUAGE sql IMMUTABLE AS $$
    SELECT CASE WHEN octet_length(collection) <= 63 THEN collection
        ELSE left(collection, 54) || '_' || left(md5(collection), 8) END
$$;

-- The type of a column that has these kinds of values.
CREATE OR REPLACE FUNCTION streetmap_type_of(kinds text[])
RETURNS text LANGUAGE sql IMMUTABLE AS $$
    SELECT CASE
        WHEN kinds && '{array,object}' THEN 'jsonb'
        WHEN kinds <@ '{number}' THEN 'bigint'
        WHEN kinds <@ '{number,large}' THEN 'numeric'
        WHEN kinds <@ '{boolean}' THEN 'boolean'
        ELSE 'text'
    END
$$;

-- The value of a property as a column of a type; NULL if it is none of that type.
CREATE OR REPLACE FUNCTION streetmap_value(name text, type text)
RETURNS text LANGUAGE sql IMMUTABLE AS $$
    SELECT format(CASE type
        WHEN 'jsonb' THEN 'properties -> %1$L'
        WHEN 'text' THEN 'properties ->> %1$L'
        WHEN 'bigint' THEN
            'CASE WHEN properties ->> %1$L ~ ''^-?[0-9]{1,18}$'' '
            'OR jsonb_typeof(properties -> %1$L) = ''number'' '
            'AND (properties -> %1$L)::numeric BETWEEN -9223372036854775808 '
            'AND 9223372036854775807 THEN (properties ->> %1$L)::bigint END'
        WHEN 'numeric' THEN
            'CASE WHEN properties ->> %1$L ~ ''^-?[0-9]{1,40}([.][0-9]{1,40})?$'' '
            'THEN (properties ->> %1$L)::numeric END'
        WHEN 'boolean' THEN
            'CASE properties ->> %1$L WHEN ''true'' THEN true WHEN ''false'' THEN false END'
        WHEN 'date' THEN
            '(lower(streetmap_time(properties -> %1$L)) AT TIME ZONE ''UTC'')::date'
        WHEN 'timestamptz' THEN 'lower(streetmap_time(properties -> %1$L))'
    END, name)
$$;

-- The columns of a collection's properties, in the order in which these were seen: at most 300.
CREATE OR REPLACE FUNCTION streetmap_columns_of(asked text)
RETURNS text LANGUAGE plpgsql AS $$
DECLARE
    taken text[] := '{id,serial,geometry,starts,ends}';
    columns text := '';
    column_name text;
    property record;
BEGIN
    FOR property IN
        SELECT name, coalesce(given.type, streetmap_type_of(array_agg(kind))) AS type,
            row_number() OVER (ORDER BY min(seen)) AS number
        FROM streetmap_properties AS noted
        LEFT JOIN streetmap_columns AS given USING (collection, name)
        WHERE collection = asked
        GROUP BY name, given.type
        ORDER BY number LIMIT 300
    LOOP
        column_name := property.name;
        WHILE column_name = '' OR lower(column_name) = ANY (taken) LOOP
            column_name := format('property_%s', property.number);
            property.number := property.number + 300;
        END LOOP;
        taken := taken || lower(column_name);
        columns := columns || format(E',\n    %s AS %I',
            streetmap_value(property.name, property.type), column_name);
    END LOOP;
    RETURN columns;
END
$$;

-- Makes the view of a collection, or makes it again. One that others depend on stays as it was if
-- it cannot be replaced. False if somebody reads it for longer than lock_timeout.
CREATE OR REPLACE FUNCTION streetmap_make_view(asked text)
RETURNS boolean LANGUAGE plpgsql AS $$
DECLARE
    name text := format('%I.%I', streetmap_views_schema(), streetmap_view_name(asked));
    query text := format(
        'AS SELECT id, geometry, serial, lower(time) AS starts, upper(time) AS ends%s '
        'FROM streetmap_features WHERE collection = %L', streetmap_columns_of(asked), asked);
BEGIN
    BEGIN
        EXECUTE format('CREATE OR REPLACE VIEW %s %s', name, query);
    EXCEPTION
        WHEN invalid_table_definition THEN
            EXECUTE format('DROP VIEW %s', name);
            EXECUTE format('CREATE VIEW %s %s', name, query);
    END;
    IF EXISTS (SELECT FROM pg_roles WHERE rolname = 'streetmap_reader') THEN
        EXECUTE format('GRANT SELECT ON %s TO streetmap_reader', name);
    END IF;
    RETURN true;
EXCEPTION
    WHEN lock_not_available THEN
        RETURN false;
    WHEN dependent_objects_still_exist THEN
        RAISE WARNING 'the view % has others on it, and stays as it was', name;
        RETURN true;
END
$$;

-- Makes views that are due, at most `most`, up to the first that is read; gives the number of
-- those that are still due.
CREATE OR REPLACE FUNCTION streetmap_make_due_views(most integer)
RETURNS bigint LANGUAGE plpgsql SET lock_timeout = '100ms' AS $$
DECLARE
    due text;
BEGIN
    FOR due IN SELECT collection FROM streetmap_due_views ORDER BY random() LIMIT most LOOP
        EXIT WHEN NOT streetmap_make_view(due);
        DELETE FROM streetmap_due_views WHERE collection = due;
    END LOOP;
    RETURN (SELECT count(*) FROM streetmap_due_views);
END
$$;

-- Makes all views again, as after a change of streetmap_columns; gives their number.
CREATE OR REPLACE FUNCTION streetmap_make_views()
RETURNS bigint LANGUAGE sql SET search_path FROM CURRENT AS $$
    SELECT count(*) FILTER (WHERE streetmap_make_view(id)) FROM streetmap_collections
$$;
