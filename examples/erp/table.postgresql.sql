-- Writes the table of mrp from PostgreSQL: psql -qd firm -f table.postgresql.sql
-- What was due before the first day counts in period 0, and so does the start of a firm order. What is due after the last period is
-- left out, a firm order too, and then nothing asks for what it takes; a shipment that arrives then counts in the cumulative figure.
-- Lead times, fence, sooner and cover are in periods. What goes into parents from a day on counts from the first period that begins on it or later, and of
-- two that count from one period the later. A date is 2026-12-16: where it is none the period is empty, and where stock is of no item the row is a
-- receipt of now. mrp refuses both, and a firm order that is due in a period before its start.
-- Periods begin on the days of the table days, as far as these go, and then so many days after each other.
\set ON_ERROR_STOP on
SET datestyle = ISO, YMD;

-- the periods that begin on days of the table, and the first days of all, with that of the one that would follow them
CREATE TEMP TABLE begun AS
SELECT period, begins
FROM (
    SELECT row_number() OVER (ORDER BY begins) AS period, begins, periods
    FROM (SELECT CASE WHEN date::text ~ '^\d{4}-\d\d-\d\d' THEN date::date END AS begins FROM days) AS dated, calendar
    WHERE begins > first_day::date
) AS numbered
WHERE period < periods;
CREATE TEMP TABLE starts AS
WITH RECURSIVE starts (period, begins) AS (
    SELECT 0, first_day::date FROM calendar
    UNION ALL
    SELECT period + 1, coalesce((SELECT begun.begins FROM begun WHERE begun.period = starts.period + 1), begins + calendar.days)
    FROM starts, calendar
    WHERE period < periods
)
SELECT array_agg(begins ORDER BY period) AS days FROM starts;

CREATE TEMP VIEW wanted AS
SELECT 'demand' AS kind, plant, item, CASE WHEN due::text ~ '^\d{4}-\d\d-\d\d' THEN greatest(0, width_bucket(due::date, (SELECT days FROM starts)) - 1) END AS period, quantity
FROM forecasts
UNION ALL
SELECT 'receipt', plant, item, CASE WHEN due::text ~ '^\d{4}-\d\d-\d\d' THEN greatest(0, width_bucket(due::date, (SELECT days FROM starts)) - 1) END, quantity
FROM open_orders;

CREATE TEMP VIEW under_way AS
SELECT supplier, customer, item, CASE WHEN arrives::text ~ '^\d{4}-\d\d-\d\d' THEN greatest(0, width_bucket(arrives::date, (SELECT days FROM starts)) - 1) END AS period, quantity
FROM shipments
WHERE received IS NULL;

CREATE TEMP VIEW firm AS
SELECT plant, item, CASE WHEN start::text ~ '^\d{4}-\d\d-\d\d' THEN greatest(0, width_bucket(start::date, (SELECT days FROM starts)) - 1) END AS start,
    CASE WHEN due::text ~ '^\d{4}-\d\d-\d\d' THEN greatest(0, width_bucket(due::date, (SELECT days FROM starts)) - 1) END AS due, quantity
FROM firm_orders;

-- (of each period the row with the latest day)
CREATE TEMP VIEW usage AS
SELECT DISTINCT ON (plant, parent, component, period) plant, parent, component, period, per, coalesce(base, 1) AS base
FROM (
    SELECT usages.*, CASE WHEN valid_from::text ~ '^\d{4}-\d\d-\d\d' THEN width_bucket(valid_from::date - 1, (SELECT days FROM starts)) END AS period
    FROM usages, calendar
) AS dated
ORDER BY plant, parent, component, period, valid_from DESC;

-- (a figure that has started again before the first day is what the row says, and one that does so behind the last period doesn't yet; what is no
-- date stays, and mrp refuses it)
CREATE TEMP VIEW delivered AS
SELECT vendor, plant, item, coalesce(received, 0) AS received, coalesce(in_transit, 0) AS in_transit,
    CASE
        WHEN starts_again::text !~ '^\d{4}-\d\d-\d\d' THEN starts_again::text
        WHEN starts_again::date < first_day::date OR starts_again::date >= days[periods + 1] THEN NULL
        ELSE (width_bucket(starts_again::date, days) - 1)::text
    END AS reset
FROM vendors, (SELECT first_day, periods, starts.days FROM calendar, starts) AS plan;

-- what the rows of shipments don't have: received, or to arrive after the last period
CREATE TEMP VIEW shipped_before AS
SELECT supplier, customer, item, quantity FROM shipments WHERE received IS NOT NULL
UNION ALL
SELECT supplier, customer, item, quantity FROM under_way, calendar WHERE period >= periods;

CREATE TEMP TABLE lines AS
SELECT 1 AS place, 'run' AS kind, first_day AS b, days::text AS c, periods::text AS d, NULL AS e, NULL AS f, NULL AS g, NULL AS h FROM calendar
UNION ALL
SELECT 2, 'plant', plant, NULL, NULL, NULL, NULL, NULL, NULL FROM plants
UNION ALL
SELECT 3, 'pair', plant, item, supply, lot_rule, lead_time::text,
    (SELECT coalesce(sum(quantity), 0)::text FROM stock WHERE stock.plant = items.plant AND stock.item = items.item), safety_stock::text
FROM items
UNION ALL
SELECT 4, 'bill', plant, parent, component, per::text, NULL, NULL, NULL FROM bills
UNION ALL
SELECT CASE kind WHEN 'demand' THEN 5 ELSE 6 END, kind, plant, item, period::text, quantity::text, NULL, NULL, NULL
FROM wanted, calendar
WHERE coalesce(period, 0) < periods
UNION ALL
SELECT 6, 'receipt', plant, item, '0', sum(quantity)::text, NULL, NULL, NULL
FROM stock
WHERE NOT EXISTS (SELECT * FROM items WHERE items.plant = stock.plant AND items.item = stock.item)
GROUP BY plant, item
HAVING sum(quantity) <> 0
UNION ALL
SELECT 7, 'ship', supplier, customer, item, period::text, quantity::text, NULL, NULL
FROM under_way, calendar
WHERE coalesce(period, 0) < periods
UNION ALL
SELECT 8, 'cum', supplier, customer, item, sum(quantity)::text, NULL, NULL, NULL
FROM shipped_before
GROUP BY supplier, customer, item
UNION ALL
SELECT 9, 'firm', plant, item, start::text, due::text, quantity::text, NULL, NULL
FROM firm, calendar
WHERE coalesce(due, 0) < periods
UNION ALL
SELECT 10, 'policy', plant, item, coalesce(fence, 0)::text, coalesce(sooner, 0)::text, coalesce(cover, 0)::text, coalesce(least, 0)::text,
    coalesce(multiple, 0)::text
FROM policies
UNION ALL
SELECT 11, 'usage', plant, parent, component, period::text, per::text, base::text, NULL
FROM usage, calendar
WHERE coalesce(period, 0) < periods
UNION ALL
SELECT 12, 'vendor', vendor, plant, item, received::text, in_transit::text, reset, NULL FROM delivered
UNION ALL
SELECT 13, 'day', period::text, begins::text, NULL, NULL, NULL, NULL, NULL FROM begun
UNION ALL
SELECT 13, 'day', NULL, date::text, NULL, NULL, NULL, NULL, NULL FROM days WHERE date::text !~ '^\d{4}-\d\d-\d\d';

-- the kinds in their order, and within a kind by names; at the end how many there are, so that mrp --whole refuses a table that is cut
COPY (
    SELECT kind, b, c, d, e, f, g, h
    FROM (
        SELECT * FROM lines
        UNION ALL
        SELECT 14, 'end', count(*)::text, NULL, NULL, NULL, NULL, NULL, NULL FROM lines
    ) AS rows
    ORDER BY place, CASE kind WHEN 'day' THEN lpad(b, 3, '0') ELSE b END, c, d, e, f
) TO STDOUT (FORMAT csv);
