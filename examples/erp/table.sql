-- Writes the table of mrp: sqlite3 -list -separator , firm.db < table.sql
-- What was due before the first day counts in period 0, and so does the start of a firm order. What is due after the last period is
-- left out, a firm order too, and then nothing asks for what it takes; a shipment that arrives then counts in the cumulative figure.
-- Lead times, fence, sooner and cover are in periods. What goes into parents from a day on counts from the first period that begins on it or later, and of
-- two that count from one period the later. A date is 2026-12-16: where it is none the period is empty, and where stock is of no item the row is a
-- receipt of now. mrp refuses both, and a firm order that is due in a period before its start.
-- Periods begin on the days of the table days, as far as these go, and then so many days after each other.

-- the periods that begin on days of the table, and all periods with the one that would follow them
CREATE TEMP TABLE begun AS
SELECT period, begins
FROM (
    SELECT row_number() OVER (ORDER BY date) AS period, substr(date, 1, 10) AS begins, periods
    FROM days, calendar
    WHERE date(date, '+0 days') = substr(date, 1, 10) AND substr(date, 1, 10) > first_day
)
WHERE period < periods;
CREATE TEMP TABLE starts AS
WITH RECURSIVE starts (period, begins) AS (
    SELECT 0, first_day FROM calendar
    UNION ALL
    SELECT period + 1, coalesce((SELECT begins FROM begun WHERE begun.period = starts.period + 1), date(begins, '+' || calendar.days || ' days'))
    FROM starts, calendar
    WHERE period < periods
)
SELECT period, begins FROM starts;
CREATE INDEX temp.starts_begin ON starts (begins);

CREATE TEMP VIEW wanted AS
SELECT 'demand' AS kind, plant, item,
    CASE WHEN date(due, '+0 days') = substr(due, 1, 10)
        THEN coalesce((SELECT period FROM starts WHERE begins <= due ORDER BY begins DESC LIMIT 1), 0) END AS period,
    quantity, forecasts.rowid AS row
FROM forecasts
UNION ALL
SELECT 'receipt', plant, item,
    CASE WHEN date(due, '+0 days') = substr(due, 1, 10)
        THEN coalesce((SELECT period FROM starts WHERE begins <= due ORDER BY begins DESC LIMIT 1), 0) END,
    quantity, open_orders.rowid
FROM open_orders;

CREATE TEMP VIEW under_way AS
SELECT supplier, customer, item,
    CASE WHEN date(arrives, '+0 days') = substr(arrives, 1, 10)
        THEN coalesce((SELECT period FROM starts WHERE begins <= arrives ORDER BY begins DESC LIMIT 1), 0) END AS period,
    quantity, shipments.rowid AS row
FROM shipments
WHERE received IS NULL;

CREATE TEMP VIEW firm AS
SELECT plant, item,
    CASE WHEN date(start, '+0 days') = substr(start, 1, 10)
        THEN coalesce((SELECT period FROM starts WHERE begins <= start ORDER BY begins DESC LIMIT 1), 0) END AS start,
    CASE WHEN date(due, '+0 days') = substr(due, 1, 10)
        THEN coalesce((SELECT period FROM starts WHERE begins <= due ORDER BY begins DESC LIMIT 1), 0) END AS due,
    quantity, firm_orders.rowid AS row
FROM firm_orders;

-- (of each period the row with the latest day)
CREATE TEMP VIEW usage AS
SELECT plant, parent, component,
    CASE WHEN date(valid_from, '+0 days') = substr(valid_from, 1, 10)
        THEN coalesce((SELECT period FROM starts WHERE begins >= substr(valid_from, 1, 10) ORDER BY begins LIMIT 1), periods) END AS period,
    per, coalesce(base, 1) AS base, max(valid_from), usages.rowid AS row
FROM usages, calendar
GROUP BY plant, parent, component, period;

-- (a figure that has started again before the first day is what the row says, and one that does so behind the last period doesn't yet; what is no
-- date stays, and mrp refuses it)
CREATE TEMP VIEW delivered AS
SELECT vendor, plant, item, coalesce(received, 0) AS received, coalesce(in_transit, 0) AS in_transit,
    CASE
        WHEN starts_again IS NULL THEN ''
        WHEN date(starts_again, '+0 days') IS NOT substr(starts_again, 1, 10) THEN starts_again
        WHEN starts_again < first_day OR starts_again >= (SELECT max(begins) FROM starts) THEN ''
        ELSE (SELECT period FROM starts WHERE begins <= starts_again ORDER BY begins DESC LIMIT 1)
    END AS reset, vendors.rowid AS row
FROM vendors, calendar;

-- what the rows of shipments don't have: received, or to arrive after the last period
CREATE TEMP VIEW shipped_before AS
SELECT supplier, customer, item, quantity, rowid AS row FROM shipments WHERE received IS NOT NULL
UNION ALL
SELECT supplier, customer, item, quantity, row FROM under_way, calendar WHERE period >= periods;

-- (columns without a type, so that a name as 007 stays what it is)
CREATE TEMP TABLE lines (place, row, kind, b, c, d, e, f, g, h);
INSERT INTO lines
SELECT 1, 0, 'run', first_day, days, periods, '', '', '', '' FROM calendar
UNION ALL
SELECT 2, rowid, 'plant', plant, '', '', '', '', '', '' FROM plants
UNION ALL
SELECT 3, items.rowid, 'pair', plant, item, supply, lot_rule, lead_time,
    (SELECT coalesce(sum(quantity), 0) FROM stock WHERE stock.plant = items.plant AND stock.item = items.item), safety_stock
FROM items
UNION ALL
SELECT 4, rowid, 'bill', plant, parent, component, per, '', '', '' FROM bills
UNION ALL
SELECT CASE kind WHEN 'demand' THEN 5 ELSE 6 END, row, kind, plant, item, coalesce(period, ''), quantity, '', '', ''
FROM wanted, calendar
WHERE coalesce(period, 0) < periods
UNION ALL
SELECT 6, min(rowid), 'receipt', plant, item, 0, sum(quantity), '', '', ''
FROM stock
WHERE NOT EXISTS (SELECT * FROM items WHERE items.plant = stock.plant AND items.item = stock.item)
GROUP BY plant, item
HAVING sum(quantity) <> 0
UNION ALL
SELECT 7, row, 'ship', supplier, customer, item, coalesce(period, ''), quantity, '', ''
FROM under_way, calendar
WHERE coalesce(period, 0) < periods
UNION ALL
SELECT 8, min(row), 'cum', supplier, customer, item, sum(quantity), '', '', ''
FROM shipped_before
GROUP BY supplier, customer, item
UNION ALL
SELECT 9, row, 'firm', plant, item, coalesce(start, ''), coalesce(due, ''), quantity, '', ''
FROM firm, calendar
WHERE coalesce(due, 0) < periods
UNION ALL
SELECT 10, rowid, 'policy', plant, item, coalesce(fence, 0), coalesce(sooner, 0), coalesce(cover, 0), coalesce(least, 0), coalesce(multiple, 0)
FROM policies
UNION ALL
SELECT 11, row, 'usage', plant, parent, component, coalesce(period, ''), per, base, ''
FROM usage, calendar
WHERE coalesce(period, 0) < periods
UNION ALL
SELECT 12, row, 'vendor', vendor, plant, item, received, in_transit, reset, '' FROM delivered
UNION ALL
SELECT 13, period, 'day', period, begins, '', '', '', '', '' FROM begun
UNION ALL
SELECT 13, 0, 'day', '', date, '', '', '', '', '' FROM days WHERE date IS NULL OR date(date, '+0 days') IS NOT substr(date, 1, 10);

-- the kinds in their order, and within a kind the rows as they were entered; at the end how many there are, so that mrp --whole refuses a
-- table that is cut
SELECT kind, b, c, d, e, f, g, h
FROM (
    SELECT * FROM lines
    UNION ALL
    SELECT 14, 0, 'end', count(*), '', '', '', '', '', '' FROM lines
)
ORDER BY place, row;
