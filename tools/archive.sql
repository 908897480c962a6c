-- What tools/archive.py makes in a database, once. It wants PostgreSQL 14 or later.
CREATE SCHEMA IF NOT EXISTS jt808;
SET LOCAL search_path = jt808, public;

CREATE TABLE platform (id smallserial PRIMARY KEY, name text NOT NULL UNIQUE);

-- The last row of each phone that stands here: its number, the day of its last position, and the sum that tells it from another.
CREATE TABLE mark (
    platform smallint, phone text COLLATE "C", number bigint NOT NULL, day date NOT NULL, sum numeric NOT NULL, PRIMARY KEY (platform, phone)
);

-- A position a row: `place` of `count` in the unit of this number, `kind` that of its batch. `octets` are the position's; where a unit
-- has none that reads (count 0) they are its body. `day` is that of the position's own moment, by the clock of China; one without a
-- moment has that of the first of its unit that has one, or 1970-01-01.
CREATE TABLE position (
    platform smallint NOT NULL, phone text COLLATE "C" NOT NULL, day date NOT NULL, number bigint NOT NULL, place integer NOT NULL,
    message integer NOT NULL, count integer NOT NULL, kind smallint NOT NULL, octets bytea NOT NULL,
    time timestamptz, latitude double precision, longitude double precision, altitude integer, speed double precision,
    direction integer, alarm bigint, status bigint, mileage double precision, items jsonb,
    PRIMARY KEY (phone, platform, day, number, place)
) PARTITION BY RANGE (day);

-- Days too far off for a table of their own, and positions without a moment.
CREATE TABLE position_rest PARTITION OF position DEFAULT;
CREATE INDEX ON position_rest (day);

CREATE FUNCTION digest(number bigint, place integer, message integer, count integer, kind smallint, octets bytea) RETURNS bigint
    LANGUAGE sql IMMUTABLE PARALLEL SAFE
    RETURN ('x0' || substr(md5(number || '.' || place || '.' || message || '.' || count || '.' || kind || '.' || encode(octets, 'hex')), 1, 15))::bit(64)::bigint;

-- The day in China.
CREATE FUNCTION today() RETURNS date LANGUAGE sql STABLE PARALLEL SAFE RETURN (now() AT TIME ZONE 'Asia/Shanghai')::date;

-- Metres between two points of a sphere, or null where a part of one is.
CREATE FUNCTION metres(latitude1 double precision, longitude1 double precision, latitude2 double precision, longitude2 double precision)
    RETURNS double precision LANGUAGE sql IMMUTABLE PARALLEL SAFE
    RETURN CASE WHEN latitude1 + longitude1 + latitude2 + longitude2 IS NOT NULL THEN
        2 * 6371008.8 * asin(least(1, sqrt(sin(radians(latitude2 - latitude1) / 2) ^ 2
        + cos(radians(latitude1)) * cos(radians(latitude2)) * sin(radians(longitude2 - longitude1) / 2) ^ 2))) END;

-- Of each phone the last position of the last unit.
CREATE VIEW last_position AS
    SELECT platform.name AS platform_name, last.* FROM mark JOIN platform ON platform.id = mark.platform
    CROSS JOIN LATERAL (SELECT * FROM position
        WHERE (position.phone, position.platform, position.day, position.number) = (mark.phone, mark.platform, mark.day, mark.number)
        ORDER BY place DESC LIMIT 1) last;

-- Each position that was located and has a moment, with the one before it of the same phone and day. Ask for a day, and mostly for a phone.
CREATE VIEW track AS
    SELECT platform, phone, day, time, latitude, longitude, speed, direction, altitude, mileage, alarm, status, items, number, place,
        lag(time) OVER way AS time_before,
        metres(lag(latitude) OVER way, lag(longitude) OVER way, latitude, longitude) AS metres_before
    FROM position WHERE time IS NOT NULL AND abs(latitude) <= 90 AND abs(longitude) <= 180 AND status & 2 = 2
    WINDOW way AS (PARTITION BY phone, platform, day ORDER BY time, number, place);

CREATE VIEW mileage_a_day AS
    SELECT platform, phone, day, count(*) AS positions, min(time) AS first, max(time) AS last,
        sum(metres_before) / 1000 AS km_by_positions, max(mileage) - min(mileage) AS km_by_odometer, max(speed) AS top_speed
    FROM track GROUP BY platform, phone, day;

-- Runs of positions below 1 km/h, of one day, that last five minutes or more.
CREATE VIEW stay AS
    SELECT platform, phone, day, min(time) AS first, max(time) AS last, max(time) - min(time) AS length,
        avg(latitude) AS latitude, avg(longitude) AS longitude, count(*) AS positions
    FROM (SELECT *, count(*) FILTER (WHERE speed >= 1) OVER (PARTITION BY phone, platform, day ORDER BY time, number, place) AS run
        FROM track) moves
    WHERE speed < 1 GROUP BY platform, phone, day, run HAVING max(time) - min(time) >= interval '5 minutes';

-- Units that stand twice: sent again under their serial when the row before had left the platform's file. Ask for a day.
CREATE VIEW twice AS
    SELECT again.platform, again.phone, again.day, earlier.number AS first, again.number AS second FROM position earlier JOIN position again
        ON (earlier.phone, earlier.platform, earlier.day, earlier.message, earlier.count, earlier.kind, earlier.place, earlier.octets)
            = (again.phone, again.platform, again.day, again.message, again.count, again.kind, again.place, again.octets)
    WHERE earlier.number < again.number AND (again.number - earlier.number) % 65536 = 0 AND again.place = 0;
