-- The positions as shapes, where PostGIS is in the database. For searches by area:
--     CREATE INDEX ON jt808.position USING gist (jt808.shape(latitude, longitude));
CREATE FUNCTION jt808.shape(latitude double precision, longitude double precision) RETURNS geometry(Point, 4326)
    LANGUAGE sql IMMUTABLE PARALLEL SAFE
    RETURN CASE WHEN abs(latitude) <= 90 AND abs(longitude) <= 180 THEN ST_SetSRID(ST_MakePoint(longitude, latitude), 4326) END;
CREATE VIEW jt808.position_shape AS SELECT *, jt808.shape(latitude, longitude) AS geom FROM jt808.position;
CREATE VIEW jt808.track_shape AS
    SELECT platform, phone, day, min(time) AS first, max(time) AS last, count(*) AS positions,
        ST_MakeLine(jt808.shape(latitude, longitude) ORDER BY time, number, place) AS geom
    FROM jt808.track GROUP BY platform, phone, day;
