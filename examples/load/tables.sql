-- The tables that load.py fills. Change them as you like: the columns of features have this order.
CREATE TABLE IF NOT EXISTS streams (
    stream bigint GENERATED ALWAYS AS IDENTITY PRIMARY KEY,
    path   text NOT NULL,
    header json NOT NULL  -- the first line, with the transform of all vertices
);
CREATE TABLE IF NOT EXISTS features (
    stream bigint NOT NULL REFERENCES streams,
    line   bigint NOT NULL,  -- its number in the stream, from 1
    id     text,             -- NULL where it is no text here: it has U+0000 or half a character
    min_x  double precision, -- world coordinates, NULL where the feature has no vertex
    max_x  double precision,
    min_y  double precision,
    max_y  double precision,
    min_z  double precision,
    max_z  double precision,
    types  text[] NOT NULL,  -- of its city objects
    lods   text[] NOT NULL,  -- of its geometries: 0 to 4, and other
    feature json NOT NULL,   -- the line, byte for byte; jsonb would refuse U+0000
    PRIMARY KEY (stream, line)
);
