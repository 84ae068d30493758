-- Reads the reports of mrp and shows them: sqlite3 firm.db < report.sql
-- plan.csv and cums.csv are those of mrp plan and mrp cums; orders.csv, schedule.csv, pegs.csv and advice.csv have the names of
-- their columns above them (--header). run.csv has a line for each run, the last of them for plan.csv (bin/renew --run).
-- All or nothing: where a report is missing, plan.csv has no rows, or another has no names, the database is as it was, and the
-- status is 1.
.bail on
.mode csv
BEGIN IMMEDIATE;
DROP TABLE IF EXISTS plan_rows;
DROP TABLE IF EXISTS lane_rows;
DROP TABLE IF EXISTS order_rows;
DROP TABLE IF EXISTS schedule_rows;
DROP TABLE IF EXISTS pegs_rows;
DROP TABLE IF EXISTS advice_rows;
DROP TABLE IF EXISTS run;
CREATE TABLE plan_rows ("row" TEXT, plant TEXT, item TEXT, period INTEGER, date TEXT,
    gross INTEGER, incoming INTEGER, "order" INTEGER, release INTEGER, available INTEGER);
CREATE TABLE lane_rows ("row" TEXT, kind TEXT, sender TEXT, receiver TEXT, item TEXT,
    opening INTEGER, shipped INTEGER, received INTEGER, transit INTEGER);
CREATE TABLE order_rows ("row" TEXT, plant TEXT, item TEXT, supply TEXT, quantity INTEGER,
    release INTEGER, release_date TEXT, due INTEGER, due_date TEXT, late INTEGER);
CREATE TABLE schedule_rows ("row" TEXT, kind TEXT, supplier TEXT, customer TEXT, item TEXT,
    period INTEGER, date TEXT, quantity INTEGER, cumulative INTEGER);
CREATE TABLE pegs_rows ("row" TEXT, plant TEXT, item TEXT, period INTEGER, source TEXT, by_plant TEXT, by_item TEXT,
    release INTEGER, per TEXT, quantity INTEGER);
CREATE TABLE advice_rows ("row" TEXT, action TEXT, kind TEXT, plant TEXT, item TEXT, supplier TEXT,
    period INTEGER, date TEXT, quantity INTEGER, needed INTEGER, needed_date TEXT);
-- how old the plan is: the last row is of this plan, and those before it are of earlier ones
CREATE TABLE run (first_day TEXT, made_at TEXT, "rows" INTEGER, pairs INTEGER, orders INTEGER, late INTEGER, seconds REAL);
.import "|grep '^plan,' plan.csv" plan_rows
.import cums.csv lane_rows
.import orders.csv order_rows
.import schedule.csv schedule_rows
.import pegs.csv pegs_rows
.import advice.csv advice_rows
.import run.csv run
CREATE INDEX late_orders ON order_rows (plant, item) WHERE late > 0;
CREATE INDEX firm_orders_due ON order_rows (plant, item) WHERE "row" = 'firm';

-- a plan without rows is none, and so is another report without the names of its columns: this stops here
CREATE TEMP TABLE found (
    plan_rows INTEGER CONSTRAINT "plan.csv has no rows" CHECK (plan_rows > 0),
    orders TEXT CONSTRAINT "orders.csv has no names of columns" CHECK (orders = 'supply'),
    schedule TEXT CONSTRAINT "schedule.csv has no names of columns" CHECK (schedule = 'customer'),
    pegs TEXT CONSTRAINT "pegs.csv has no names of columns" CHECK (pegs = 'by_plant'),
    advice TEXT CONSTRAINT "advice.csv has no names of columns" CHECK (advice = 'action'),
    run TEXT CONSTRAINT "run.csv has no names of columns" CHECK (run = 'made_at')
);
INSERT INTO found SELECT
    (SELECT count(*) FROM plan_rows),
    coalesce((SELECT supply FROM order_rows WHERE "row" = 'row'), ''),
    coalesce((SELECT customer FROM schedule_rows WHERE "row" = 'row'), ''),
    coalesce((SELECT by_plant FROM pegs_rows WHERE "row" = 'row'), ''),
    coalesce((SELECT action FROM advice_rows WHERE "row" = 'row'), ''),
    coalesce((SELECT made_at FROM run WHERE first_day = 'first_day'), '');
DELETE FROM order_rows WHERE "row" = 'row';
DELETE FROM schedule_rows WHERE "row" = 'row';
DELETE FROM pegs_rows WHERE "row" = 'row';
DELETE FROM advice_rows WHERE "row" = 'row';
DELETE FROM run WHERE first_day = 'first_day';

-- the record of each pair, period by period; with delays a late order counts from when it comes. Scheduled receipts and planned order
-- releases have firm orders too, and what comes in of these stands in the last column; receipts that a policy counts sooner stand where the
-- plan counts them, with delays too (bin/record --table has them when they come)
DROP VIEW IF EXISTS record;
CREATE VIEW record AS
SELECT plant, item, period, date AS first_day, gross AS gross_requirements, incoming AS scheduled_receipts, available AS projected_available,
    available - (
        SELECT coalesce(sum(quantity), 0)
        FROM order_rows
        WHERE order_rows.plant = plan_rows.plant AND order_rows.item = plan_rows.item AND late > 0
            AND plan_rows.period BETWEEN due AND due + late - 1
    ) AS available_with_delays,
    "order" AS planned_order_receipts, release AS planned_order_releases,
    (
        SELECT coalesce(sum(quantity), 0)
        FROM order_rows
        WHERE order_rows.plant = plan_rows.plant AND order_rows.item = plan_rows.item AND order_rows."row" = 'firm' AND due = plan_rows.period
    ) AS firm_orders
FROM plan_rows;

-- planned orders, firm ones, and those of both kinds to be released now
DROP VIEW IF EXISTS planned_order;
CREATE VIEW planned_order AS
SELECT plant, item, supply, quantity, release AS release_period, release_date, due AS due_period, due_date, late AS periods_late
FROM order_rows
WHERE "row" = 'order';
DROP VIEW IF EXISTS firm_order;
CREATE VIEW firm_order AS
SELECT plant, item, supply, quantity, release AS release_period, release_date, due AS due_period, due_date
FROM order_rows
WHERE "row" = 'firm';
DROP VIEW IF EXISTS to_release;
CREATE VIEW to_release AS
SELECT plant, item, supply, quantity, due_date, late AS periods_late, "row" AS kind FROM order_rows WHERE release = 0;

-- late orders: when they are due, and when they come if they are released now, or as soon as releases aren't frozen
DROP VIEW IF EXISTS late;
CREATE VIEW late AS
SELECT plant, item, due AS period, due_date AS due, quantity, late AS periods_late, due + late AS comes_in
FROM order_rows
WHERE late > 0;

-- what each supplier has shipped, and has still to ship, of each item to each customer
DROP VIEW IF EXISTS in_transit;
CREATE VIEW in_transit AS
SELECT despatch.sender AS supplier, despatch.receiver AS customer, despatch.item, despatch.opening AS received,
    despatch.shipped - despatch.opening AS in_transit, schedule.shipped - despatch.shipped AS still_to_be_shipped
FROM lane_rows AS despatch
JOIN lane_rows AS schedule ON schedule.sender = despatch.receiver AND schedule.receiver = despatch.sender AND schedule.item = despatch.item
WHERE despatch.kind = 'despatch' AND schedule.kind = 'schedule';

-- what each supplier, a plant or a vendor, is to ship and when, with the cumulative figure in force; a reset closes a figure and has no quantity
DROP VIEW IF EXISTS delivery_schedule;
CREATE VIEW delivery_schedule AS
SELECT supplier, customer, item, kind, nullif(date, '') AS leaves, nullif(quantity, '') AS quantity, cumulative
FROM schedule_rows;

-- what each gross requirement consists of, of components with the pieces that go into so many parents (base); the largest table makes some 30
-- million rows, and who asks for none leaves them out
DROP VIEW IF EXISTS pegging;
CREATE VIEW pegging AS
SELECT plant, item, period, source, by_plant, by_item, release, CAST(per AS INTEGER) AS per, quantity,
    CASE instr(per, '/') WHEN 0 THEN 1 ELSE CAST(substr(per, instr(per, '/') + 1) AS INTEGER) END AS base
FROM pegs_rows;

-- open orders and firm ones to expedite, to defer and to cancel; one to cancel isn't needed before the horizon ends. By mrp advice --reach one is
-- beyond that isn't needed as far as that is known, and none is to be cancelled
DROP VIEW IF EXISTS exception_message;
CREATE VIEW exception_message AS
SELECT action, kind, plant, item, nullif(supplier, '') AS supplier, quantity, date AS comes, nullif(needed_date, '') AS needed FROM advice_rows;
COMMIT;
