-- Indexes that the state alone does not need. They are made once all lines of a journal are in,
-- since a table is filled faster without them.

CREATE INDEX IF NOT EXISTS streetmap_features_geometry
    ON streetmap_features USING gist (geometry);
CREATE INDEX IF NOT EXISTS streetmap_features_time
    ON streetmap_features USING gist (time) WHERE time IS NOT NULL;
CREATE INDEX IF NOT EXISTS streetmap_features_properties
    ON streetmap_features USING gin (properties jsonb_path_ops);
