-- Reads the reports of mrp into PostgreSQL, version 15 or later: psql -qd firm -f report.postgresql.sql
-- The files are those of report.sql, which has the same tables and views. The first run makes these, or what a database lacks of them.
-- All or nothing: where a report is missing, plan.csv has no rows, or one with names of columns is empty or has others, the database
-- is as it was, and the status is 3. Others read the old plan until the new one is whole; a second run waits.
\set ON_ERROR_STOP on
BEGIN;
SELECT to_regclass('run') IS NULL OR EXISTS (
    SELECT FROM pg_attribute WHERE attrelid = to_regclass('pegs_rows') AND attname = 'per' AND atttypid = 'bigint'::regtype
) AS is_first \gset
\if :is_first
SET LOCAL client_min_messages = warning;
CREATE TABLE IF NOT EXISTS plan_rows ("row" TEXT, plant TEXT, item TEXT, period INTEGER, date DATE,
    gross BIGINT, incoming BIGINT, "order" BIGINT, release BIGINT, available BIGINT);
CREATE TABLE IF NOT EXISTS lane_rows ("row" TEXT, kind TEXT, sender TEXT, receiver TEXT, item TEXT,
    opening BIGINT, shipped BIGINT, received BIGINT, transit BIGINT);
CREATE TABLE IF NOT EXISTS order_rows ("row" TEXT, plant TEXT, item TEXT, supply TEXT, quantity BIGINT,
    release INTEGER, release_date DATE, due INTEGER, due_date DATE, late INTEGER);
CREATE TABLE IF NOT EXISTS schedule_rows ("row" TEXT, kind TEXT, supplier TEXT, customer TEXT, item TEXT,
    period INTEGER, date DATE, quantity BIGINT, cumulative BIGINT);
CREATE TABLE IF NOT EXISTS pegs_rows ("row" TEXT, plant TEXT, item TEXT, period INTEGER, source TEXT, by_plant TEXT, by_item TEXT,
    release BIGINT, per TEXT, quantity BIGINT);
CREATE TABLE IF NOT EXISTS advice_rows ("row" TEXT, action TEXT, kind TEXT, plant TEXT, item TEXT, supplier TEXT,
    period INTEGER, date DATE, quantity BIGINT, needed INTEGER, needed_date DATE);
CREATE TABLE IF NOT EXISTS run (first_day DATE, made_at TIMESTAMPTZ, "rows" BIGINT, pairs BIGINT, orders BIGINT, late BIGINT,
    seconds NUMERIC);
CREATE INDEX IF NOT EXISTS late_orders ON order_rows (plant, item) WHERE late > 0;
CREATE INDEX IF NOT EXISTS firm_orders_due ON order_rows (plant, item) WHERE "row" = 'firm';

-- (of an earlier version per is a number)
DROP VIEW IF EXISTS pegging;
TRUNCATE pegs_rows;
ALTER TABLE pegs_rows ALTER per TYPE TEXT;

CREATE OR REPLACE VIEW record AS
SELECT plant, item, period, date AS first_day, gross AS gross_requirements, incoming AS scheduled_receipts, available AS projected_available,
    available - (
        SELECT coalesce(sum(quantity), 0)
        FROM order_rows
        WHERE order_rows.plant = plan_rows.plant AND order_rows.item = plan_rows.item AND late > 0
            AND plan_rows.period BETWEEN due AND due + late - 1
    ) AS available_with_delays,
    "order" AS planned_order_receipts, release AS planned_order_releases,
    (
        SELECT coalesce(sum(quantity), 0)
        FROM order_rows
        WHERE order_rows.plant = plan_rows.plant AND order_rows.item = plan_rows.item AND order_rows."row" = 'firm' AND due = plan_rows.period
    ) AS firm_orders
FROM plan_rows;
CREATE OR REPLACE VIEW planned_order AS
SELECT plant, item, supply, quantity, release AS release_period, release_date, due AS due_period, due_date, late AS periods_late
FROM order_rows
WHERE "row" = 'order';
CREATE OR REPLACE VIEW firm_order AS
SELECT plant, item, supply, quantity, release AS release_period, release_date, due AS due_period, due_date
FROM order_rows
WHERE "row" = 'firm';
CREATE OR REPLACE VIEW to_release AS
SELECT plant, item, supply, quantity, due_date, late AS periods_late, "row" AS kind FROM order_rows WHERE release = 0;
CREATE OR REPLACE VIEW late AS
SELECT plant, item, due AS period, due_date AS due, quantity, late AS periods_late, due + late AS comes_in
FROM order_rows
WHERE late > 0;
CREATE OR REPLACE VIEW in_transit AS
SELECT despatch.sender AS supplier, despatch.receiver AS customer, despatch.item, despatch.opening AS received,
    despatch.shipped - despatch.opening AS in_transit, schedule.shipped - despatch.shipped AS still_to_be_shipped
FROM lane_rows AS despatch
JOIN lane_rows AS schedule ON schedule.sender = despatch.receiver AND schedule.receiver = despatch.sender AND schedule.item = despatch.item
WHERE despatch.kind = 'despatch' AND schedule.kind = 'schedule';
CREATE OR REPLACE VIEW delivery_schedule AS
SELECT supplier, customer, item, kind, date AS leaves, quantity, cumulative FROM schedule_rows;
CREATE OR REPLACE VIEW pegging AS
SELECT plant, item, period, source, by_plant, by_item, release, split_part(per, '/', 1)::bigint AS per, quantity,
    coalesce(nullif(split_part(per, '/', 2), '')::bigint, 1) AS base
FROM pegs_rows;
CREATE OR REPLACE VIEW exception_message AS
SELECT action, kind, plant, item, supplier, quantity, date AS comes, needed_date AS needed FROM advice_rows;
\endif

LOCK TABLE plan_rows IN EXCLUSIVE MODE;
DELETE FROM plan_rows;
DELETE FROM lane_rows;
DELETE FROM order_rows;
DELETE FROM schedule_rows;
DELETE FROM pegs_rows;
DELETE FROM advice_rows;
DELETE FROM run;
-- (grep fails where it finds nothing, and then so does the run)
\copy plan_rows FROM PROGRAM 'grep ^plan, plan.csv' (FORMAT csv)
\copy lane_rows FROM 'cums.csv' (FORMAT csv)
\copy order_rows FROM PROGRAM 'grep . orders.csv' (FORMAT csv, HEADER MATCH)
\copy schedule_rows FROM PROGRAM 'grep . schedule.csv' (FORMAT csv, HEADER MATCH)
\copy pegs_rows FROM PROGRAM 'grep . pegs.csv' (FORMAT csv, HEADER MATCH)
\copy advice_rows FROM PROGRAM 'grep . advice.csv' (FORMAT csv, HEADER MATCH)
\copy run FROM PROGRAM 'grep . run.csv' (FORMAT csv, HEADER MATCH)
COMMIT;
