"""The queries of examples/erp/, and the run at night of docs/night.md."""
import shutil

import mrp
import oracle
import support
from support import postgresql, skip, TOP, wants, write_from_recipe


# What writes the rows of a table before its end row.
SQLITE = "sqlite3 -bail -list -separator , firm.db < examples/erp/table.sql | sed /^end,/d"
POSTGRESQL = "psql -qd firm -f examples/erp/table.postgresql.sql | sed /^end,/d"


def test_database_is_the_firm_of_three_plants(room):
    """With Python's sqlite3, so that the query is tested where the command isn't there."""
    try:
        import sqlite3
    except ImportError:
        skip("Python's sqlite3")
    with sqlite3.connect(":memory:") as base:
        for name in ("firm", "table"):
            with open(f"{TOP}/examples/erp/{name}.sql", encoding="utf-8") as file:
                *parts, last = file.read().rstrip().rstrip(";").split(";\n")
                base.executescript(";\n".join(parts) + ";")
                rows = base.execute(last).fetchall()
    with open(f"{TOP}/examples/three_plants.csv", encoding="utf-8") as file:
        text = file.read()
    assert "".join(",".join(map(str, row)) + "\n" for row in rows) == f"{text}end,{text.count(chr(10))},,,,,,\n"


# Rows of an ERP that no table can have: dates that are none, or aren't there, and stock of what isn't planned.
UNKNOWN = (
    "INSERT INTO forecasts VALUES ('NORTH', 'BIKE', NULL, 1); INSERT INTO open_orders VALUES ('NORTH', 'RIM', NULL, 2);"
)
UNKNOWN += "INSERT INTO shipments VALUES ('SOUTH', 'NORTH', 'FRAME', NULL, NULL, NULL, 3); INSERT INTO stock VALUES ('EAST', 'NUT', 'E-02', 4);"
# A shipment that arrives after the last period, and the figure with it.
FAR = "INSERT INTO shipments VALUES ('SOUTH', 'NORTH', 'FRAME', '2026-01-02', '2026-02-16', NULL, 50)"
FAR_ROWS = "cum,SOUTH,NORTH,FRAME,390,,,\n"
UNKNOWN_ROWS = (
    "demand,NORTH,BIKE,,1,,,\nreceipt,NORTH,RIM,,2,,,\nreceipt,EAST,NUT,0,4,,,\nship,SOUTH,NORTH,FRAME,,3,,\n"
)


# Firm orders: one twice, one that should have been started and is due on the last day, and one that is due the day
# after; then such as mrp refuses, without a start, without a day on which they are due, and due before their start.
FIRM = """INSERT INTO firm_orders VALUES
    ('SOUTH', 'FRAME', '2026-01-08', '2026-01-21', 7), ('SOUTH', 'FRAME', '2026-01-08', '2026-01-21', 7),
    ('EAST', 'BIKE', '2025-12-30', '2026-02-15', 3), ('NORTH', 'WHEEL', '2026-01-30', '2026-02-16', 50)"""
FIRM_ROWS = "firm,SOUTH,FRAME,0,2,7,,\nfirm,SOUTH,FRAME,0,2,7,,\nfirm,EAST,BIKE,0,5,3,,\n"
WRONG_FIRM = """INSERT INTO firm_orders VALUES ('NORTH', 'BIKE', NULL, '2026-01-20', 1),
    ('NORTH', 'BIKE', '2026-01-20', '20.01.2026', 2), ('NORTH', 'RIM', '2026-01-26', '2026-01-12', 4)"""
WRONG_FIRM_ROWS = "firm,NORTH,BIKE,,2,1,,\nfirm,NORTH,BIKE,2,,2,,\nfirm,NORTH,RIM,3,1,4,,\n"


def test_firm_orders_end_the_table(room):
    """They stand after all other kinds, with the periods of their days."""
    wants("sqlite3")
    table = SQLITE
    added = "tail -n +$(($(wc -l < examples/three_plants.csv) + 1))"
    room.run(f'sqlite3 firm.db < examples/erp/firm.sql; sqlite3 firm.db "{FIRM}"; {table} > table.csv')
    assert room.run("head -n $(wc -l < examples/three_plants.csv) table.csv | diff - examples/three_plants.csv") == ""
    assert room.run(f"{added} table.csv") == FIRM_ROWS
    assert room.run(f'sqlite3 firm.db "{WRONG_FIRM}"; {table} | {added}') == FIRM_ROWS + WRONG_FIRM_ROWS


# Policies: of each column, and of none; then such as mrp refuses, of an item that isn't planned, and with a figure below 0.
POLICIES = """INSERT INTO policies VALUES ('SOUTH', 'TUBE', 3, NULL, NULL, NULL, NULL),
    ('NORTH', 'RIM', NULL, 2, 1, 100, 20), ('EAST', 'BIKE', NULL, NULL, NULL, NULL, NULL)"""
POLICY_ROWS = "policy,SOUTH,TUBE,3,0,0,0,0\npolicy,NORTH,RIM,0,2,1,100,20\npolicy,EAST,BIKE,0,0,0,0,0\n"
WRONG_POLICIES = "INSERT INTO policies VALUES ('NORTH', 'TUBE', 1, 0, 0, 0, 0), ('SOUTH', 'FRAME', -1, 0, 0, 0, 0)"
WRONG_POLICY_ROWS = "policy,NORTH,TUBE,1,0,0,0,0\npolicy,SOUTH,FRAME,-1,0,0,0,0\n"


def test_policies_end_the_table(room):
    """They stand behind the firm orders, as they were entered."""
    wants("sqlite3")
    table = SQLITE
    added = "tail -n +$(($(wc -l < examples/three_plants.csv) + 1))"
    room.run(f'sqlite3 firm.db < examples/erp/firm.sql; sqlite3 firm.db "{POLICIES}; {FIRM}"; {table} > table.csv')
    assert room.run("head -n $(wc -l < examples/three_plants.csv) table.csv | diff - examples/three_plants.csv") == ""
    assert room.run(f"{added} table.csv") == FIRM_ROWS + POLICY_ROWS
    assert oracle.Oracle(room.run("cat table.csv").encode()).refused is None
    assert room.run(f'sqlite3 firm.db "{WRONG_POLICIES}"; {table} | {added}') == FIRM_ROWS + POLICY_ROWS + WRONG_POLICY_ROWS
    assert "UNIQUE" in room.run(f'sqlite3 firm.db "{POLICIES}" 2>&1 || true')


def test_policies_end_the_table_of_postgresql(room):
    """By their names."""
    with postgresql(room):
        room.run(f'createdb firm && psql -qd firm -f examples/erp/firm.sql && psql -qd firm -c "{POLICIES}; {FIRM}; {WRONG_POLICIES}"')
        rows = room.run("psql -qd firm -f examples/erp/table.postgresql.sql | grep -v ^end, | grep -vxFf examples/three_plants.csv").splitlines(keepends=True)
        firm, policies = (sorted(it.splitlines(keepends=True)) for it in (FIRM_ROWS, POLICY_ROWS + WRONG_POLICY_ROWS))
        assert rows == firm + policies


# Usages: two that count from the first day, of which the first is older, and one from a day within a period; what ends and begins again; and one
# that begins in a period behind the last. Then such as mrp refuses, of no bill and without a day.
USAGES = """INSERT INTO usages VALUES ('NORTH', 'BIKE', 'WHEEL', '2026-01-05', 206, 100), ('NORTH', 'BIKE', 'WHEEL', '2025-11-01', 5, 2),
    ('NORTH', 'BIKE', 'WHEEL', '2026-01-13', 21, 10), ('SOUTH', 'FRAME', 'TUBE', '2026-01-12', 0, 1),
    ('SOUTH', 'FRAME', 'TUBE', '2026-02-09', 3, NULL), ('NORTH', 'WHEEL', 'RIM', '2026-02-10', 2, 1)"""
USAGE_ROWS = "usage,NORTH,BIKE,WHEEL,0,206,100,\nusage,NORTH,BIKE,WHEEL,2,21,10,\nusage,SOUTH,FRAME,TUBE,1,0,1,\nusage,SOUTH,FRAME,TUBE,5,3,1,\n"
WRONG_USAGES = "INSERT INTO usages VALUES ('NORTH', 'BIKE', 'RIM', '2026-01-05', 1, 1), ('NORTH', 'WHEEL', 'RIM', '5.1.2026', 1, 3)"
WRONG_USAGE_ROWS = "usage,NORTH,BIKE,RIM,0,1,1,\nusage,NORTH,WHEEL,RIM,,1,3,\n"


def test_usages_end_the_table(room):
    """They stand behind the policies, by the periods of their days, as they were entered."""
    wants("sqlite3")
    table = SQLITE
    added = "tail -n +$(($(wc -l < examples/three_plants.csv) + 1))"
    room.run(f'sqlite3 firm.db < examples/erp/firm.sql; sqlite3 firm.db "{USAGES}; {POLICIES}"; {table} > table.csv')
    assert room.run(f"{added} table.csv") == POLICY_ROWS + USAGE_ROWS
    assert oracle.Oracle(room.run("cat table.csv").encode()).refused is None
    assert room.run(f'sqlite3 firm.db "{WRONG_USAGES}"; {table} | {added}') == POLICY_ROWS + USAGE_ROWS + WRONG_USAGE_ROWS
    for days, period in (("2026-01-04", 0), ("2026-01-06", 1), ("2026-01-11", 1), ("2026-01-12", 1), ("2026-02-03", 5)):
        one = f"DELETE FROM usages; INSERT INTO usages VALUES ('NORTH', 'BIKE', 'WHEEL', '{days}', 1, 1)"
        assert room.run(f'sqlite3 firm.db "{one}"; {table} | grep ^usage') == f"usage,NORTH,BIKE,WHEEL,{period},1,1,\n"


def test_usages_end_the_table_of_postgresql(room):
    """By their names."""
    with postgresql(room):
        room.run(f'createdb firm && psql -qd firm -f examples/erp/firm.sql && psql -qd firm -c "{USAGES}; {POLICIES}; {WRONG_USAGES}"')
        rows = room.run("psql -qd firm -f examples/erp/table.postgresql.sql | grep -v ^end, | grep -vxFf examples/three_plants.csv").splitlines(keepends=True)
        policies, usages = (sorted(it.splitlines(keepends=True)) for it in (POLICY_ROWS, USAGE_ROWS + WRONG_USAGE_ROWS))
        assert rows == policies + usages


# Vendors: one whose figure has started again, and two of which one does so within a period and one behind the last; then such as mrp refuses, of
# what is made, of no item, without a name, and with a day that is none.
VENDORS = """INSERT INTO vendors VALUES ('ALU', 'SOUTH', 'TUBE', 500, 12, '2026-01-01'), ('RIMS', 'NORTH', 'RIM', 80, NULL, '2026-01-20')"""
VENDOR_ROWS = "vendor,ALU,SOUTH,TUBE,500,12,,\nvendor,RIMS,NORTH,RIM,80,0,2,\n"
WRONG_VENDORS = """INSERT INTO vendors VALUES ('ALU', 'NORTH', 'WHEEL', 1, 0, '2026-02-16'), ('V', 'EAST', 'NUT', 2, 0, NULL),
    (NULL, 'SOUTH', 'FRAME', NULL, 3, '16.2.2026')"""
WRONG_VENDOR_ROWS = "vendor,ALU,NORTH,WHEEL,1,0,,\nvendor,V,EAST,NUT,2,0,,\nvendor,,SOUTH,FRAME,0,3,16.2.2026,\n"


def test_vendors_end_the_table(room):
    """They stand behind the usages, as they were entered, with the periods of their days."""
    wants("sqlite3")
    table = SQLITE
    added = "tail -n +$(($(wc -l < examples/three_plants.csv) + 1))"
    room.run(f'sqlite3 firm.db < examples/erp/firm.sql; sqlite3 firm.db "{VENDORS}; {USAGES}"; {table} > table.csv')
    assert room.run(f"{added} table.csv") == USAGE_ROWS + VENDOR_ROWS
    assert oracle.Oracle(room.run("cat table.csv").encode()).refused is None
    assert room.run(f'sqlite3 firm.db "{WRONG_VENDORS}"; {table} | {added}') == USAGE_ROWS + VENDOR_ROWS + WRONG_VENDOR_ROWS
    for day, reset in (("2026-01-04", ""), ("2026-01-05", 0), ("2026-01-11", 0), ("2026-02-15 23:59", 5), ("2026-02-16", "")):
        one = f"DELETE FROM vendors; INSERT INTO vendors VALUES ('RIMS', 'NORTH', 'RIM', 80, 0, '{day}')"
        assert room.run(f'sqlite3 firm.db "{one}"; {table} | grep ^vendor') == f"vendor,RIMS,NORTH,RIM,80,0,{reset},\n"


def test_vendors_end_the_table_of_postgresql(room):
    """By their names."""
    with postgresql(room):
        room.run(f'createdb firm && psql -qd firm -f examples/erp/firm.sql && psql -qd firm -c "{VENDORS}; {USAGES}; {WRONG_VENDORS}"')
        rows = room.run("psql -qd firm -f examples/erp/table.postgresql.sql | grep -v ^end, | grep -vxFf examples/three_plants.csv").splitlines(keepends=True)
        usages, vendors = (sorted(it.splitlines(keepends=True)) for it in (USAGE_ROWS, VENDOR_ROWS + WRONG_VENDOR_ROWS))
        assert rows[: len(usages)] == usages
        assert sorted(rows[len(usages) :]) == vendors


# The weeks from the 12th on are closed, and the second period begins on Monday the 26th; the third is a day shorter than a week, and ends on
# Saturday. The first row is of a period before the plan.
DAYS = "INSERT INTO days VALUES ('2026-02-01'), ('2025-12-29'), ('2026-01-26'), ('2026-01-05')"
DAY_ROWS = "day,1,2026-01-26,,,,,\nday,2,2026-02-01,,,,,\n"
# By hand: periods begin on January 5 and 26, and on February 1, 8, 15 and 22; the plan ends on the 28th.
DATED = {
    "2026-01-04": 0,
    "2026-01-11": 0,
    "2026-01-12": 0,
    "2026-01-25": 0,
    "2026-01-26": 1,
    "2026-01-31": 1,
    "2026-02-01": 2,
    "2026-02-07": 2,
    "2026-02-08": 3,
    "2026-02-22": 5,
    "2026-02-28": 5,
    "2026-03-01": None,
}
# The rows of three_plants.csv whose periods are others then, by hand: the dates of firm.sql.
MOVED = """\
demand,EAST,BIKE,0,9,,,
demand,EAST,BIKE,1,7,,,
demand,EAST,BIKE,3,12,,,
demand,EAST,WHEEL,2,25,,,
demand,NORTH,BIKE,1,10,,,
demand,SOUTH,WHEEL,1,6,,,
receipt,NORTH,RIM,0,20,,,
ship,SOUTH,NORTH,FRAME,0,5,,
ship,NORTH,EAST,BIKE,0,4,,
"""


def test_days_end_the_table(room):
    """They are the last rows, and all dates count by them."""
    wants("sqlite3")
    table = SQLITE
    room.run(f'sqlite3 firm.db < examples/erp/firm.sql; sqlite3 firm.db "{DAYS}; {VENDORS}; {USAGES}"; {table} > table.csv')
    assert room.run("tail -n 4 table.csv") == VENDOR_ROWS.replace(",2,", ",0,") + DAY_ROWS
    assert room.run("grep -E '^(demand|receipt|ship),' table.csv") == MOVED
    # (what begins on January 12 and 13 counts from the 26th on, and what begins on February 9 and 10 from the 15th on)
    usages = USAGE_ROWS.replace("WHEEL,2,", "WHEEL,1,").replace("TUBE,5,", "TUBE,4,") + "usage,NORTH,WHEEL,RIM,4,2,1,\n"
    assert room.run("grep ^usage table.csv") == usages
    assert oracle.Oracle(room.run("cat table.csv").encode()).refused is None
    for day, period in DATED.items():
        one = f"DELETE FROM forecasts; INSERT INTO forecasts VALUES ('EAST', 'BIKE', '{day}', 1)"
        wanted = "" if period is None else f"demand,EAST,BIKE,{period},1,,,\n"
        assert room.run(f'sqlite3 firm.db "{one}"; {table} | grep ^demand || true') == wanted, day
    wrong = "DELETE FROM days; INSERT INTO days VALUES ('12.1.2026'), (NULL), ('2026-01-26')"
    assert room.run(f'sqlite3 firm.db "{wrong}"; {table} | grep ^day') == "day,,12.1.2026,,,,,\nday,,,,,,,\nday,1,2026-01-26,,,,,\n"


def test_days_end_the_table_of_postgresql(room):
    """In their order, of more than ten too."""
    with postgresql(room):
        room.run(f'createdb firm && psql -qd firm -f examples/erp/firm.sql && psql -qd firm -c "{DAYS}; {USAGES}"')
        table = POSTGRESQL
        room.run(f"{table} > table.csv")
        assert room.run("tail -n 2 table.csv") == DAY_ROWS
        assert room.run("grep -E '^(demand|receipt|ship),' table.csv | sort") == "".join(sorted(MOVED.splitlines(keepends=True)))
        usages = USAGE_ROWS.replace("WHEEL,2,", "WHEEL,1,").replace("TUBE,5,", "TUBE,4,") + "usage,NORTH,WHEEL,RIM,4,2,1,\n"
        assert room.run("grep ^usage table.csv | sort") == "".join(sorted(usages.splitlines(keepends=True)))
        days = "', '".join(DATED)
        values = "SELECT 'EAST', 'BIKE', day, row_number() OVER () FROM unnest(ARRAY['{}']) AS day"
        room.run(f'psql -qd firm -c "DELETE FROM forecasts; INSERT INTO forecasts {values.format(days)}"; {table} > table.csv')
        wanted = [f"demand,EAST,BIKE,{period},{row},,,\n" for row, period in enumerate(DATED.values(), 1) if period is not None]
        assert room.run("grep ^demand table.csv | sort") == "".join(sorted(wanted))
        many = "INSERT INTO days SELECT '2026-01-05'::date + it FROM generate_series(1, 11) AS it"
        room.run(f"""psql -qd firm -c "UPDATE calendar SET periods = 13; DELETE FROM days; {many}"; {table} > table.csv""")
        assert room.run("grep ^day table.csv") == "".join(f"day,{it},2026-01-{5 + it:02},,,,,\n" for it in range(1, 12))
        wrong = "DELETE FROM days; INSERT INTO days VALUES ('12.1.2026'), ('2026-01-26')"
        assert room.run(f'psql -qd firm -c "{wrong}"; {table} | grep ^day | sort') == "day,,12.1.2026,,,,,\nday,1,2026-01-26,,,,,\n"


def whole_tables(room):
    """Yields tables of the databases with rows of each kind, as they write them; of PostgreSQL where it is there."""
    own = f"{FIRM}; {POLICIES}; {USAGES}; {VENDORS}; {DAYS}"
    if shutil.which("sqlite3"):
        yield room.run(f'sqlite3 firm.db < examples/erp/firm.sql; sqlite3 firm.db "{own}"; {SQLITE.partition(" |")[0]}')
    with postgresql(room):
        room.run(f'createdb firm && psql -qd firm -f examples/erp/firm.sql && psql -qd firm -c "{own}"')
        yield room.run(POSTGRESQL.partition(" |")[0])


def test_tables_say_where_they_end(room):
    """The last row has the number of rows before it, of an empty database too; a query that fails writes none."""
    for table in whole_tables(room):
        rows = table.splitlines()
        assert rows[-1] == f"end,{len(rows) - 1},,,,,,"
        assert {it.split(",")[0] for it in rows} == {*mrp.TABLE_FORMS} - {"reset"}
        assert oracle.Oracle(table.encode()).answer("check", whole=True).status == 0
    wants("sqlite3")
    empty = "sqlite3 -bail -list -separator , none.db < examples/erp/table.sql"
    assert room.run(f"grep ^CREATE examples/erp/firm.sql | sqlite3 none.db; {empty}") == "end,0,,,,,,\n"
    assert room.run(f"sqlite3 none.db 'DROP TABLE stock'; {empty} 2> said || true") == ""


def test_a_table_of_a_database_is_refused_when_it_is_cut(room, program):
    """Behind each of its bytes. Without its last line feed it is whole."""
    for table in whole_tables(room):
        support.cut_anywhere(program, table.encode())


# A firm order that comes a period too soon, in the reports of a table of five periods: 5 of P are on hand, and 30 and 10
# are wanted in periods 3 and 4. P takes two periods and two pieces of C, which is bought in one. By hand: the plan is that
# of an order of 20 that comes in 2, of which 5 are missing in 3 and 10 in 4; C is asked for by releases 20, 5 and 10.
FIRM_REPORTS = {
    "plan": """\
plan,A,P,0,2026-01-05,0,0,0,20,5
plan,A,P,1,2026-01-12,0,0,0,5,5
plan,A,P,2,2026-01-19,0,20,0,10,25
plan,A,P,3,2026-01-26,30,0,5,0,0
plan,A,P,4,2026-02-02,10,0,10,0,0
plan,A,C,0,2026-01-05,40,0,40,50,0
plan,A,C,1,2026-01-12,10,0,10,20,0
plan,A,C,2,2026-01-19,20,0,20,0,0
plan,A,C,3,2026-01-26,0,0,0,0,0
plan,A,C,4,2026-02-02,0,0,0,0,0
late,A,C,0,40,1
""",
    "cums": "",
    "orders": """\
row,plant,item,supply,quantity,release,release_date,due,due_date,late
firm,A,P,make,20,0,2026-01-05,2,2026-01-19,0
order,A,P,make,5,1,2026-01-12,3,2026-01-26,0
order,A,P,make,10,2,2026-01-19,4,2026-02-02,0
order,A,C,buy,40,0,2026-01-05,0,2026-01-05,1
order,A,C,buy,10,0,2026-01-05,1,2026-01-12,0
order,A,C,buy,20,1,2026-01-12,2,2026-01-19,0
""",
    "schedule": "row,kind,supplier,customer,item,period,date,quantity,cumulative\n",
    "pegs": """\
row,plant,item,period,source,by_plant,by_item,release,per,quantity
pegs,A,P,3,demand,A,P,30,1,30
pegs,A,P,4,demand,A,P,10,1,10
pegs,A,C,0,bill,A,P,20,2,40
pegs,A,C,1,bill,A,P,5,2,10
pegs,A,C,2,bill,A,P,10,200/100,20
""",
    "advice": """\
row,action,kind,plant,item,supplier,period,date,quantity,needed,needed_date
advice,defer,firm,A,P,,2,2026-01-19,20,3,2026-01-26
""",
    "run": """\
first_day,made_at,rows,pairs,orders,late,seconds
2025-12-29,2025-12-29T04:30:09+01:00,9,2,5,0,0.012
2026-01-05,2026-01-05T04:30:08+01:00,9,2,5,1,0.011
""",
}
# (the C that should have been ordered a week ago are missing until period 1)
FIRM_VIEWS = {
    "planned_order": """\
A|P|make|5|1|2026-01-12|3|2026-01-26|0
A|P|make|10|2|2026-01-19|4|2026-02-02|0
A|C|buy|40|0|2026-01-05|0|2026-01-05|1
A|C|buy|10|0|2026-01-05|1|2026-01-12|0
A|C|buy|20|1|2026-01-12|2|2026-01-19|0
""",
    "firm_order": "A|P|make|20|0|2026-01-05|2|2026-01-19\n",
    "to_release": "A|P|make|20|2026-01-19|0|firm\nA|C|buy|40|2026-01-05|1|order\nA|C|buy|10|2026-01-12|0|order\n",
    "late": "A|C|0|2026-01-05|40|1|1\n",
    "exception_message": "defer|firm|A|P||20|2026-01-19|2026-01-26\n",
    "pegging WHERE period < 3": """\
A|C|0|bill|A|P|20|2|40|1
A|C|1|bill|A|P|5|2|10|1
A|C|2|bill|A|P|10|200|20|100
""",
    "record WHERE period < 3": """\
A|P|0|2026-01-05|0|0|5|5|0|20|0
A|P|1|2026-01-12|0|0|5|5|0|5|0
A|P|2|2026-01-19|0|20|25|25|0|10|20
A|C|0|2026-01-05|40|0|0|-40|40|50|0
A|C|1|2026-01-12|10|0|0|0|10|20|0
A|C|2|2026-01-19|20|0|0|0|20|0|0
""",
}


def test_views_tell_firm_orders_from_planned_ones(room):
    wants("sqlite3")
    for name, text in FIRM_REPORTS.items():
        room.write(f"{name}.csv", text)
    room.run("sqlite3 firm.db < examples/erp/report.sql")
    for name, rows in FIRM_VIEWS.items():
        assert room.run(f"sqlite3 firm.db 'SELECT * FROM {name}'") == rows, name
    # (how old the plan is)
    age = "SELECT first_day, made_at, late, seconds FROM run ORDER BY made_at DESC LIMIT 1"
    assert room.run(f"sqlite3 firm.db '{age}'") == "2026-01-05|2026-01-05T04:30:08+01:00|1|0.011\n"


def test_postgresql_tells_firm_orders_too(room):
    """Also in a database that an earlier version made, whose views didn't."""
    read = "psql -qd firm -f examples/erp/report.postgresql.sql 2>&1"
    with postgresql(room):
        room.run("createdb firm && psql -qd firm -f examples/erp/firm.sql")
        wanted = "".join(sorted((FIRM_ROWS + WRONG_FIRM_ROWS).splitlines(keepends=True)))
        table = POSTGRESQL
        room.run(f'psql -qd firm -c "{FIRM}" -c "{WRONG_FIRM}"; {table} > table.csv')
        assert room.run("grep -v ^firm, table.csv | sort | diff - <(sort examples/three_plants.csv)") == ""
        assert room.run("tail -n 6 table.csv | sort") == wanted
        for name, text in FIRM_REPORTS.items():
            room.write(f"{name}.csv", text)
        earlier = "DROP TABLE run; DROP VIEW firm_order, to_release, record; DROP INDEX firm_orders_due; CREATE VIEW to_release AS "
        earlier += "SELECT plant, item, supply, quantity, due_date, periods_late "
        earlier += "FROM planned_order WHERE release_period = 0"
        numbers = "DROP VIEW pegging; TRUNCATE pegs_rows; ALTER TABLE pegs_rows ALTER per TYPE BIGINT USING 1; CREATE VIEW pegging AS "
        numbers += "SELECT plant, item, period, source, by_plant, by_item, release, per, quantity FROM pegs_rows"
        for before in ("SELECT", earlier, numbers, f"{numbers}; {earlier}"):
            assert room.run(f"psql -qd firm -Atc '{before}'; {read}").strip() == ""
            for name, rows in FIRM_VIEWS.items():
                assert room.run(f"psql -d firm -Atc 'SELECT * FROM {name}'") == rows, name
            age = "SELECT first_day, rows, pairs, orders, late, seconds FROM run ORDER BY made_at DESC LIMIT 1"
            assert room.run(f"psql -d firm -Atc '{age}'") == "2026-01-05|9|2|5|1|0.011\n"


def test_no_row_of_the_database_is_lost(room):
    """A row without a date, or with a date that is none, reaches the table without a period, and mrp refuses it; so
    does stock of no item.
    """
    wants("sqlite3")
    table, good = SQLITE, "examples/three_plants.csv"
    room.run("sqlite3 firm.db < examples/erp/firm.sql")
    assert (
        room.run(f"""cp firm.db own.db; sqlite3 firm.db "{FAR}"; {table} | grep -vxFf {good}; mv own.db firm.db""")
        == FAR_ROWS
    )
    room.run(f"""sqlite3 firm.db "BEGIN; {UNKNOWN} COMMIT" && cp firm.db unknown.db""")
    assert room.run(f"{table} | grep -vxFf {good}") == UNKNOWN_ROWS
    for day in ("16.12.2026", "30/12/2026", "46372", "2026-02-30", ""):
        room.run(
            f"""rm firm.db; sqlite3 firm.db < examples/erp/firm.sql; sqlite3 firm.db "INSERT INTO forecasts VALUES ('EAST', 'BIKE', '{day}', 10)" """
        )
        assert room.run(f"{table} | grep -vxFf {good}") == "demand,EAST,BIKE,,10,,,\n"
        if room.program:
            assert room.run(f"{table} | mrp check", status=1) == "mrp: row 24: BadNumber\n"
    room.run(
        """sqlite3 firm.db "DELETE FROM forecasts WHERE quantity = 10; INSERT INTO stock VALUES ('EAST', 'NUT', 'E-02',
        4)"
        """
    )
    if room.program:
        assert ": UnknownPair\n" in room.run(f"{table} | mrp check", status=1)


def test_bad_table_keeps_plan_and_database(room):
    """The recipe for a run at night: a query that fails, a table that is refused, and reports that are missing or have
    no rows.
    """
    wants("sqlite3")
    room.run("sqlite3 firm.db < examples/erp/firm.sql")
    write_from_recipe(room, "night.sh")
    rows = f"sqlite3 firm.db '{'; '.join(f'SELECT * FROM {it}' for it in VIEWS)}'"
    report, files = (
        "sqlite3 firm.db < examples/erp/report.sql",
        "plan.csv cums.csv orders.csv schedule.csv pegs.csv advice.csv",
    )
    good = room.run(f"sh night.sh; cat {files}; {rows}")
    # (so that an old plan can be told from the new one)
    room.run(
        f"sqlite3 firm.db 'UPDATE plan_rows SET available = 777'; mkdir good; mv {files} good; echo last week | tee {files} > /dev/null"
    )
    old = room.run(f"cat {files}; {rows}")
    for spoil, mend, fault in (
        ("ALTER TABLE stock RENAME TO shelf", "ALTER TABLE shelf RENAME TO stock", "no such table"),
        (
            "UPDATE items SET supply = 'made' WHERE item = 'RIM'",
            "UPDATE items SET supply = 'buy' WHERE item = 'RIM'",
            "BadSupply\nrow 8 is pair,NORTH,RIM",
        ),
    ):
        room.run(f'sqlite3 firm.db "{spoil}"')
        assert fault in room.run("sh night.sh", status=1)
        room.run(f'sqlite3 firm.db "{mend}"')
        assert room.run(f"cat {files}; {rows}") == old
    assert "plan.csv has no rows" in room.run(report, status=1)
    for it in files.split():
        fault = "no rows" if it == "plan.csv" else "no names of columns"
        assert it in room.run(f"cp good/* .; rm {it}; {report}", status=1)
        if it != "cums.csv":
            # (who has no lanes has no figures)
            assert f"{it} has {fault}" in room.run(f"touch {it}; {report}", status=1)
    assert "pegs.csv has no names of columns" in room.run(f"cp good/* .; sed -i 1d pegs.csv; {report}", status=1)
    assert "run.csv" in room.run(f"cp good/* .; mv run.csv kept; {report}", status=1)
    assert "run.csv has no names of columns" in room.run(f"sed 1d kept > run.csv; {report}", status=1)
    room.run("mv kept run.csv")
    assert "advice.csv has no names of columns" in room.run(
        f"cp good/* .; cp orders.csv advice.csv; {report}", status=1
    )
    assert room.run(rows) == old.removeprefix("last week\n" * len(files.split()))
    assert room.run(f"sh night.sh; cat {files}; {rows}") == good


VIEWS = (
    "record",
    "planned_order",
    "firm_order",
    "to_release",
    "late",
    "in_transit",
    "delivery_schedule",
    "pegging",
    "exception_message",
)
NIGHT = ("plan", "cums", "orders --header", "schedule --header", "pegs --header", "advice --header")


def test_postgresql_has_the_same_rows(room):
    """As sqlite: the same table but for its order, and the same rows in each view, before and after reports that are
    refused.
    """
    wants("sqlite3")
    ask = f"psql -d firm -Atq -c '{' '.join(f'SELECT * FROM {it};' for it in VIEWS)}' | sort"
    read = "psql -qd firm -f examples/erp/report.postgresql.sql"
    with postgresql(room):
        room.run("createdb firm && psql -qd firm -f examples/erp/firm.sql && sqlite3 firm.db < examples/erp/firm.sql")
        table = room.run("psql -qd firm -f examples/erp/table.postgresql.sql | tee table.csv | grep -v ^end, | sort")
        assert table == room.run("sort examples/three_plants.csv")
        far = room.run(
            f'psql -qd firm -c "BEGIN; {FAR}" -f examples/erp/table.postgresql.sql | grep -v ^end, | grep -vxFf examples/three_plants.csv'
        )
        assert far == FAR_ROWS
        lost = room.run(
            f'psql -qd firm -c "{UNKNOWN}"; psql -qd firm -f examples/erp/table.postgresql.sql | grep -v ^end, | grep -vxFf examples/three_plants.csv | sort'
        )
        assert lost == "".join(sorted(UNKNOWN_ROWS.splitlines(keepends=True)))
        room.run("dropdb firm && createdb firm && psql -qd firm -f examples/erp/firm.sql")
        for day in ("16.12.2026", "05.12.2026", "05.12.26", "26-12-05", "30/12/2026"):
            wrong = f"BEGIN; INSERT INTO forecasts VALUES ('EAST', 'BIKE', '{day}', 10)"
            lost = room.run(
                f'psql -qd firm -c "{wrong}" -f examples/erp/table.postgresql.sql | grep -v ^end, | grep -vxFf examples/three_plants.csv'
            )
            assert lost == "demand,EAST,BIKE,,10,,,\n", day
        wrong = "BEGIN; INSERT INTO forecasts VALUES ('EAST', 'BIKE', '2026-02-30', 10)"
        assert "2026-02-30" in room.run(f'psql -qd firm -c "{wrong}" -f examples/erp/table.postgresql.sql', status=3)
        assert "none" in room.run(
            "psql -qd firm -f examples/erp/table.postgresql.sql -v ON_ERROR_STOP=1 -c 'SELECT * FROM none'", status=1
        )
        room.needs_program()
        for it in NIGHT:
            room.run(f"mrp {it} < table.csv > {it.split()[0]}.csv")
        room.write("run.csv", FIRM_REPORTS["run"])
        assert "advice.csv" in room.run(f"rm advice.csv; {read}", status=3)
        assert "late" in room.run("psql -d firm -c 'SELECT * FROM late'", status=1)
        room.run(f"mrp advice --header < table.csv > advice.csv; {read}; sqlite3 firm.db < examples/erp/report.sql")
        rows = room.run(f"sqlite3 firm.db '{' '.join(f'SELECT * FROM {it};' for it in VIEWS)}' | sort")
        assert room.run(ask) == rows
        assert room.run(f"{read}; {ask}") == rows
        for it in NIGHT:
            name = it.split()[0] + ".csv"
            spoils = (
                ["rm {0}", "sed -i 2s/,/,,/ {0}"]
                + ["true > {0}"] * (name != "cums.csv")
                + ["sed -i 1d {0}", "cp plan.csv {0}"] * ("--header" in it)
            )
            for spoil in spoils:
                room.run(f"cp {name} kept; {spoil.format(name)}; {read}", status=3)
                room.run(f"mv kept {name}")
        assert room.run(ask) == rows


def test_two_runs_at_night_do_not_meet(room):
    wants("sqlite3")
    write_from_recipe(room, "night.sh")
    assert "night.sh: the last run is still at work\n" in room.run("flock night.lock sh night.sh", status=1)
