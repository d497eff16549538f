-- The schema of the views, one for each collection: `collections`; or, beside the tables of a town
-- of several in a schema `streetmap_TOWN`, `collections_TOWN`.
CREATE OR REPLACE FUNCTION streetmap_views_schema()
RETURNS text LANGUAGE sql STABLE SET search_path FROM CURRENT AS $$
    SELECT CASE WHEN current_schema LIKE 'streetmap\_%'
        THEN 'collections_' || substr(current_schema, 11) ELSE 'collections' END
$$;
