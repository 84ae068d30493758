-- The firm of three_plants.csv as the tables of an ERP hold it, on the morning of 2026-01-05.
CREATE TABLE calendar (first_day TEXT, days INTEGER, periods INTEGER);
CREATE TABLE plants (plant TEXT PRIMARY KEY);
CREATE TABLE items (plant TEXT, item TEXT, supply TEXT, lot_rule TEXT, lead_time INTEGER, safety_stock INTEGER, PRIMARY KEY (plant, item));
CREATE TABLE bills (plant TEXT, parent TEXT, component TEXT, per INTEGER);
CREATE TABLE stock (plant TEXT, item TEXT, bin TEXT, quantity INTEGER);
CREATE TABLE forecasts (plant TEXT, item TEXT, due TEXT, quantity INTEGER);
CREATE TABLE open_orders (plant TEXT, item TEXT, due TEXT, quantity INTEGER);
-- (orders whose parts aren't issued yet, and whose dates stand; there is none this morning)
CREATE TABLE firm_orders (plant TEXT, item TEXT, start TEXT, due TEXT, quantity INTEGER);
-- (how an item is planned beyond its row: times in periods, NULL or 0 where it is planned as ever; there is none this morning)
CREATE TABLE policies (plant TEXT, item TEXT, fence INTEGER, sooner INTEGER, cover INTEGER, least INTEGER, multiple INTEGER, PRIMARY KEY (plant, item));
-- (scrap, fractions and changes: from a day on so many pieces go into so many parents in the place of what the bill says, into one where base is
-- NULL, and none where per is 0; there is none this morning)
CREATE TABLE usages (plant TEXT, parent TEXT, component TEXT, valid_from TEXT, per INTEGER, base INTEGER, PRIMARY KEY (plant, parent, component, valid_from));
-- (who delivers a bought item by cumulative schedules: the figure that is booked, the pieces under way, which are among the open orders, and the
-- day on which the figure starts again, or NULL; there is none this morning)
CREATE TABLE vendors (vendor TEXT, plant TEXT, item TEXT, received INTEGER, in_transit INTEGER, starts_again TEXT, PRIMARY KEY (plant, item));
-- (the first days of periods, where not all begin so many days after each other: up to the last that doesn't; there is none this morning)
CREATE TABLE days (date TEXT PRIMARY KEY);
CREATE TABLE shipments (supplier TEXT, customer TEXT, item TEXT, shipped TEXT, arrives TEXT, received TEXT, quantity INTEGER);

INSERT INTO calendar VALUES ('2026-01-05', 7, 6);
INSERT INTO plants VALUES ('NORTH'), ('SOUTH'), ('EAST');
INSERT INTO items VALUES
    ('NORTH', 'BIKE', 'make', 'lot', 1, 0),
    ('NORTH', 'FRAME', 'from:SOUTH', 'lot', 1, 0),
    ('NORTH', 'WHEEL', 'make', 'fixed:50', 1, 10),
    ('NORTH', 'RIM', 'buy', 'min:100:20', 1, 0),
    ('SOUTH', 'FRAME', 'make', 'lot', 1, 0),
    ('SOUTH', 'TUBE', 'buy', 'periods:3', 2, 0),
    ('SOUTH', 'WHEEL', 'from:NORTH', 'lot', 1, 0),
    ('EAST', 'BIKE', 'from:NORTH', 'periods:2', 1, 2),
    ('EAST', 'WHEEL', 'from:NORTH:600:SOUTH:400', 'lot', 1, 0);
INSERT INTO bills VALUES
    ('NORTH', 'BIKE', 'FRAME', 1),
    ('NORTH', 'BIKE', 'WHEEL', 2),
    ('NORTH', 'WHEEL', 'RIM', 1),
    ('SOUTH', 'FRAME', 'TUBE', 3);
INSERT INTO stock VALUES
    ('NORTH', 'BIKE', 'N-01', 4),
    ('NORTH', 'FRAME', 'N-02', 10),
    ('NORTH', 'WHEEL', 'N-03', 25),
    ('NORTH', 'WHEEL', 'N-04', 15),
    ('NORTH', 'RIM', 'N-05', 60),
    ('SOUTH', 'FRAME', 'S-01', 4),
    ('SOUTH', 'TUBE', 'S-02', 12),
    ('SOUTH', 'WHEEL', 'S-03', 8),
    ('EAST', 'BIKE', 'E-01', 6);
INSERT INTO forecasts VALUES
    ('EAST', 'BIKE', '2026-01-19', 9),
    ('EAST', 'BIKE', '2026-01-28', 7),
    ('EAST', 'BIKE', '2026-02-09', 12),
    ('EAST', 'BIKE', '2026-03-02', 20),
    ('EAST', 'WHEEL', '2026-02-06', 25),
    ('NORTH', 'BIKE', '2026-01-30', 10),
    ('SOUTH', 'WHEEL', '2026-01-26', 6);
INSERT INTO open_orders VALUES ('NORTH', 'RIM', '2026-01-14', 20);
INSERT INTO shipments VALUES
    ('SOUTH', 'NORTH', 'FRAME', '2025-11-03', '2025-11-10', '2025-11-10', 200),
    ('SOUTH', 'NORTH', 'FRAME', '2025-12-01', '2025-12-08', '2025-12-09', 140),
    ('NORTH', 'EAST', 'BIKE', '2025-12-08', '2025-12-15', '2025-12-15', 120),
    ('NORTH', 'SOUTH', 'WHEEL', '2025-12-10', '2025-12-17', '2025-12-16', 75),
    ('SOUTH', 'NORTH', 'FRAME', '2026-01-02', '2026-01-12', NULL, 5),
    ('NORTH', 'EAST', 'BIKE', '2026-01-02', '2026-01-13', NULL, 4);
