-- Takes the mirror away, with all views. The types that an office has set for columns stay.
DO $$
DECLARE
    name text;
BEGIN
    DROP TRIGGER IF EXISTS streetmap_mirror ON streetmap_journal;
    EXECUTE format('DROP SCHEMA IF EXISTS %I CASCADE', streetmap_views_schema());
    FOREACH name IN ARRAY '{streetmap_mirror,streetmap_collections,streetmap_features,'
        'streetmap_tiles,streetmap_properties,streetmap_due_views}'::text[]
    LOOP
        EXECUTE format('DROP TABLE IF EXISTS %I.%I', current_schema, name);
    END LOOP;
END
$$;
