-- The ledgers of one or more hubs in PostgreSQL, and the bills and settlements over all of them. `tools/to-postgres`
-- runs this in each database that it fills; it may be run again at any time.

CREATE SCHEMA IF NOT EXISTS fare;

-- What all hubs share: the first traffic day, in days since 1970-01-01, and the zone.
CREATE TABLE IF NOT EXISTS fare.scheme (
    start integer NOT NULL,
    zone text NOT NULL
);

-- The hubs, the parts of their schemes, and the order in which they were registered first.
CREATE TABLE IF NOT EXISTS fare.hub (
    hub text PRIMARY KEY,
    place integer GENERATED ALWAYS AS IDENTITY
);
CREATE TABLE IF NOT EXISTS fare.owner (
    owner integer PRIMARY KEY,
    place integer GENERATED ALWAYS AS IDENTITY
);
CREATE TABLE IF NOT EXISTS fare.operator (
    operator integer PRIMARY KEY,
    place integer GENERATED ALWAYS AS IDENTITY
);
-- Amounts are pence, `hop` is seconds.
CREATE TABLE IF NOT EXISTS fare.product (
    product bigint PRIMARY KEY,
    owner integer NOT NULL REFERENCES fare.owner,
    fare bigint NOT NULL,
    daily bigint NOT NULL,
    weekly bigint NOT NULL,
    hop bigint NOT NULL
);
CREATE TABLE IF NOT EXISTS fare.station (
    hub text NOT NULL REFERENCES fare.hub,
    station integer NOT NULL,
    operator integer NOT NULL REFERENCES fare.operator,
    PRIMARY KEY (hub, station)
);
-- A device is at one hub.
CREATE TABLE IF NOT EXISTS fare.device (
    device bigint PRIMARY KEY,
    hub text NOT NULL,
    station integer NOT NULL,
    place integer GENERATED ALWAYS AS IDENTITY,
    FOREIGN KEY (hub, station) REFERENCES fare.station
);

-- What each owner's ledger has of each device: how many taps it took, and how many days it closed, from the first on.
CREATE TABLE IF NOT EXISTS fare.lane (
    owner integer NOT NULL REFERENCES fare.owner,
    device bigint NOT NULL REFERENCES fare.device,
    hub text NOT NULL REFERENCES fare.hub,
    taken bigint NOT NULL,
    closed bigint NOT NULL,
    PRIMARY KEY (owner, device)
);
-- Whether the owner has retired it.
ALTER TABLE fare.lane ADD COLUMN IF NOT EXISTS retired boolean NOT NULL DEFAULT false;
CREATE TABLE IF NOT EXISTS fare.tap (
    owner integer NOT NULL,
    device bigint NOT NULL,
    lane bigint NOT NULL,
    link bigint NOT NULL,
    product bigint NOT NULL,
    token bigint NOT NULL,
    moment bigint NOT NULL,
    day integer NOT NULL,
    hub text NOT NULL,
    PRIMARY KEY (owner, device, lane)
);
-- The route on which it was made, or 0 where it is not known.
ALTER TABLE fare.tap ADD COLUMN IF NOT EXISTS route integer NOT NULL DEFAULT 0;
CREATE TABLE IF NOT EXISTS fare.statement (
    owner integer NOT NULL,
    device bigint NOT NULL,
    day integer NOT NULL,
    total bigint NOT NULL,
    hub text NOT NULL,
    PRIMARY KEY (owner, device, day)
);

-- The taps of an owner's days, account by account and in their order: a week is read off this index alone.
CREATE INDEX IF NOT EXISTS tap_by_day ON fare.tap (owner, day, product, token, moment, device, lane);

-- The paid ones among the moments of an account's taps of a day, in order: the first is paid and opens a window of so
-- many seconds; those within it are free, and the next one is paid and opens the next window.
CREATE OR REPLACE FUNCTION fare.paid_flags(moments bigint[], hop bigint) RETURNS boolean[]
LANGUAGE plpgsql IMMUTABLE AS $$
DECLARE
    flags boolean[] := '{}';
    opened bigint := NULL;
    at bigint;
BEGIN
    FOREACH at IN ARRAY moments LOOP
        IF opened IS NULL OR hop = 0 OR at - opened > hop THEN
            opened := at;
            flags := flags || true;
        ELSE
            flags := flags || false;
        END IF;
    END LOOP;
    RETURN flags;
END $$;

-- How many of them are paid.
CREATE OR REPLACE FUNCTION fare.paid(moments bigint[], hop bigint) RETURNS bigint
LANGUAGE plpgsql IMMUTABLE AS $$
DECLARE
    many bigint := 0;
    opened bigint := NULL;
    at bigint;
BEGIN
    IF hop = 0 THEN
        RETURN cardinality(moments);
    END IF;
    FOREACH at IN ARRAY moments LOOP
        IF opened IS NULL OR at - opened > hop THEN
            opened := at;
            many := many + 1;
        END IF;
    END LOOP;
    RETURN many;
END $$;

-- The day from which the week of a day is billed: its Monday (day 4 was one), or the first day where that is later.
CREATE OR REPLACE FUNCTION fare.week_start(day integer) RETURNS integer
LANGUAGE sql STABLE AS $$
    SELECT greatest(start, day - (day + 3) % 7) FROM fare.scheme
$$;

-- Refuses, in this order, an owner that isn't registered, a day before the first one, and a day that isn't closed for
-- some device of some hub whose lane isn't retired, the first in the order of registration.
CREATE OR REPLACE FUNCTION fare.judge(of_owner integer, of_day integer) RETURNS void
LANGUAGE plpgsql STABLE AS $$
DECLARE
    first_day integer;
    open_device bigint;
BEGIN
    PERFORM 1 FROM fare.owner WHERE owner = of_owner;
    IF NOT FOUND THEN
        RAISE EXCEPTION 'refused UnknownOwner';
    END IF;
    SELECT start INTO first_day FROM fare.scheme;
    IF of_day < first_day THEN
        RAISE EXCEPTION 'refused BeforeStart';
    END IF;
    SELECT d.device INTO open_device
        FROM fare.device d LEFT JOIN fare.lane l ON l.owner = of_owner AND l.device = d.device
        WHERE first_day + coalesce(l.closed, 0) - 1 < of_day AND NOT coalesce(l.retired, false)
        ORDER BY d.place LIMIT 1;
    IF FOUND THEN
        RAISE EXCEPTION 'refused NotClosed %', open_device;
    END IF;
END $$;

-- The devices of which a bill is short: their lanes are retired, and the day isn't closed.
CREATE OR REPLACE FUNCTION fare.short(of_owner integer, of_day integer) RETURNS TABLE (device bigint, place integer)
LANGUAGE sql STABLE AS $$
    SELECT d.device, d.place FROM fare.scheme s, fare.device d JOIN fare.lane l ON l.owner = of_owner AND l.device = d.device
    WHERE l.retired AND s.start + l.closed - 1 < of_day
$$;

-- What each account rode and paid on each day of the week up to a day: how many taps count, and how many are paid.
-- Taps with more than a window between them are in different runs; a run no longer than a window has one paid tap.
CREATE OR REPLACE FUNCTION fare.rides(of_owner integer, from_day integer, to_day integer)
RETURNS TABLE (product bigint, token bigint, day integer, rides bigint, paid bigint)
LANGUAGE sql STABLE AS $$
    WITH counted AS (
        SELECT t.day, t.product, t.token, t.moment, t.device, t.lane, p.hop,
            CASE WHEN t.moment - lag(t.moment) OVER account <= p.hop AND p.hop > 0 THEN 0 ELSE 1 END AS apart
        FROM fare.tap t JOIN fare.product p USING (product) JOIN fare.device d USING (device)
        WHERE t.owner = of_owner AND t.day BETWEEN from_day AND to_day
        WINDOW account AS (PARTITION BY t.day, t.product, t.token ORDER BY t.moment, t.device, t.lane)
    ), in_runs AS (
        SELECT *, sum(apart) OVER (PARTITION BY day, product, token ORDER BY moment, device, lane ROWS UNBOUNDED PRECEDING) AS run
        FROM counted
    ), runs AS (
        SELECT day, product, token, run, count(*) AS many,
            CASE WHEN max(moment) - min(moment) <= min(hop) THEN 1
                ELSE fare.paid(array_agg(moment ORDER BY moment, device, lane), min(hop)) END AS paid
        FROM in_runs GROUP BY day, product, token, run
    )
    SELECT product, token, day, sum(many)::bigint, sum(paid)::bigint FROM runs GROUP BY day, product, token
$$;

-- What each account pays for a day: the lesser of the weekly cap and its fares up to the day, less the lesser of the
-- weekly cap and its fares before it. A day's fare is the flat fare of each paid tap, at most the daily cap.
CREATE OR REPLACE FUNCTION fare.bill_rows(of_owner integer, of_day integer)
RETURNS TABLE (product bigint, token bigint, rides bigint, amount bigint)
LANGUAGE plpgsql STABLE AS $$
BEGIN
    PERFORM fare.judge(of_owner, of_day);
    RETURN QUERY
    WITH fares AS (
        SELECT r.product, r.token, r.day, r.rides, least(p.daily, p.fare * r.paid) AS fare, p.weekly
        FROM fare.rides(of_owner, fare.week_start(of_day), of_day) r JOIN fare.product p USING (product)
    ), accounts AS (
        SELECT f.product, f.token, min(f.weekly) AS weekly,
            coalesce(sum(f.fare) FILTER (WHERE f.day < of_day), 0) AS before,
            sum(f.fare) AS upto,
            sum(f.rides) FILTER (WHERE f.day = of_day) AS many
        FROM fares f GROUP BY f.product, f.token
    )
    SELECT a.product, a.token, a.many::bigint, (least(a.weekly, a.upto) - least(a.weekly, a.before))::bigint
    FROM accounts a WHERE a.many IS NOT NULL ORDER BY a.product, a.token;
END $$;

-- A bill in the lines of `fare_hub bill`.
CREATE OR REPLACE FUNCTION fare.bill(of_owner integer, of_day integer) RETURNS SETOF text
LANGUAGE plpgsql STABLE AS $$
BEGIN
    RETURN QUERY
    WITH accounts AS MATERIALIZED (SELECT * FROM fare.bill_rows(of_owner, of_day))
    SELECT line FROM (
        SELECT 0 AS part, 0::bigint AS product, 0::bigint AS token,
            format('bill %s %s %s %s', of_owner, of_day, count(*), coalesce(sum(amount), 0)) AS line FROM accounts
        UNION ALL
        SELECT 1, product, token, format('account %s %s %s %s', product, token, rides, amount) FROM accounts
        UNION ALL
        SELECT 2, s.place, 0, format('short %s', s.device) FROM fare.short(of_owner, of_day) s
    ) lines ORDER BY part, product, token;
END $$;

-- What each operator gets of a day for each route that its devices' taps have: how many they are, and the sum of their
-- charges. A tap is charged what the account pays with it less what it pays without it.
CREATE OR REPLACE FUNCTION fare.route_rows(of_owner integer, of_day integer)
RETURNS TABLE (operator integer, route integer, taps bigint, amount bigint)
LANGUAGE plpgsql STABLE AS $$
BEGIN
    PERFORM fare.judge(of_owner, of_day);
    RETURN QUERY
    WITH before AS (
        SELECT r.product, r.token, sum(least(p.daily, p.fare * r.paid)) AS fares
        FROM fare.rides(of_owner, fare.week_start(of_day), of_day - 1) r JOIN fare.product p USING (product)
        GROUP BY r.product, r.token
    ), accounts AS (
        SELECT t.product, t.token,
            array_agg(t.device ORDER BY t.moment, t.device, t.lane) AS devices,
            array_agg(t.route ORDER BY t.moment, t.device, t.lane) AS routes,
            fare.paid_flags(array_agg(t.moment ORDER BY t.moment, t.device, t.lane), p.hop) AS flags
        FROM fare.tap t JOIN fare.product p USING (product) JOIN fare.device d USING (device)
        WHERE t.owner = of_owner AND t.day = of_day GROUP BY t.product, t.token, p.hop
    ), taps AS (
        SELECT a.product, a.token, u.device, u.route, u.paid::integer AS paid,
            sum(u.paid::integer) OVER (PARTITION BY a.product, a.token ORDER BY u.at) AS upto
        FROM accounts a, unnest(a.devices, a.routes, a.flags) WITH ORDINALITY AS u (device, route, paid, at)
    ), charges AS (
        SELECT t.device, t.route,
            least(p.weekly, coalesce(b.fares, 0) + least(p.daily, p.fare * t.upto))
            - least(p.weekly, coalesce(b.fares, 0) + least(p.daily, p.fare * (t.upto - t.paid))) AS charge
        FROM taps t JOIN fare.product p USING (product) LEFT JOIN before b USING (product, token)
    )
    SELECT s.operator, c.route, count(*)::bigint, sum(c.charge)::bigint
    FROM charges c JOIN fare.device d USING (device) JOIN fare.station s ON s.hub = d.hub AND s.station = d.station
    GROUP BY s.operator, c.route ORDER BY s.operator, c.route;
END $$;

-- The same of each operator, with or without taps.
CREATE OR REPLACE FUNCTION fare.settlement_rows(of_owner integer, of_day integer)
RETURNS TABLE (operator integer, taps bigint, amount bigint)
LANGUAGE sql STABLE AS $$
    SELECT o.operator, coalesce(sum(r.taps), 0)::bigint, coalesce(sum(r.amount), 0)::bigint
    FROM fare.operator o LEFT JOIN fare.route_rows(of_owner, of_day) r USING (operator)
    GROUP BY o.operator, o.place ORDER BY o.place
$$;

-- A settlement in the lines of `fare_hub settle`.
CREATE OR REPLACE FUNCTION fare.settlement(of_owner integer, of_day integer) RETURNS SETOF text
LANGUAGE plpgsql STABLE AS $$
BEGIN
    RETURN QUERY
    WITH routes AS MATERIALIZED (
        SELECT * FROM fare.route_rows(of_owner, of_day)
    ), shares AS (
        SELECT o.operator, o.place, coalesce(sum(r.taps), 0) AS taps, coalesce(sum(r.amount), 0) AS amount
        FROM fare.operator o LEFT JOIN routes r USING (operator) GROUP BY o.operator, o.place
    )
    SELECT line FROM (
        SELECT 0 AS part, 0 AS place, 0 AS route, format('settlement %s %s %s', of_owner, of_day, count(*)) AS line FROM shares
        UNION ALL
        SELECT 1, s.place, 0, format('operator %s %s %s', s.operator, s.taps, s.amount) FROM shares s
        UNION ALL
        SELECT 1, o.place, r.route, format('route %s %s %s', r.route, r.taps, r.amount)
        FROM routes r JOIN fare.operator o USING (operator) WHERE r.route > 0
        UNION ALL
        SELECT 2, s.place, 0, format('short %s', s.device) FROM fare.short(of_owner, of_day) s
    ) lines ORDER BY part, place, route;
END $$;
