"""What python/mrp.py says of tables, reports and dates, against the program, its help, the databases, and by hand."""
import ast
import datetime
import io
import os
import re
import shutil
import subprocess
import sys

import mrp
import pytest
from support import TOP

# How each report of the program is asked for, and of which table.
ASKED = {it: (it.split(), "three_plants") for it in mrp.REPORTS if it not in ("peg", "hit")}
ASKED["peg"] = ["peg", "P1", "WHEEL", "2"], "bicycle"
# The tables of the databases, by the word of the report's rows.
SQL = {"plan_rows": "plan", "lane_rows": "lane", "order_rows": "order", "schedule_rows": "schedule"}
SQL |= {"pegs_rows": "pegs", "advice_rows": "advice"}
TYPES = {"report.sql": ("INTEGER", "TEXT"), "report.postgresql.sql": ("BIGINT", "DATE")}


def text_of(path):
    with open(f"{TOP}/{path}", encoding="utf-8") as file:
        return file.read()


@pytest.fixture(name="run")
def run_of_program(program):
    """Returns what runs the program, and returns what it writes."""

    def run(words, table):
        done = subprocess.run([program, *words], input=table, capture_output=True, check=True)
        return done.stdout.decode()

    return run


# The columns, which stand in Rattle, in SQL and here.


@pytest.mark.parametrize("report", ASKED)
def test_columns_are_those_of_the_program(run, report):
    words, table = ASKED[report]
    written = run([*words, "--header"], text_of(f"examples/{table}.csv").encode())
    assert written.splitlines()[0] == mrp.header(mrp.REPORTS[report])


# (a firm order has the columns of an order)
@pytest.mark.parametrize("word", [it for it in mrp.ROWS if it not in ("firm", "hit")])
def test_columns_are_those_of_the_help(word):
    help_text = text_of("crates/mrp_command_line/src/texts.rt")
    found = re.findall(rf"\b{word},([A-Z_,]+)", help_text)
    assert [it.lower().split(",") for it in found] == [list(mrp.ROWS[word]._fields)]


def test_kinds_are_those_of_the_help():
    """In its order, each with as many fields, and empty ones up to eight."""
    help_text = text_of("crates/mrp_command_line/src/texts.rt")
    found = re.findall(r"^([a-z]+)((?:,[A-Z-]*){7})\\n", help_text, re.MULTILINE)
    fields = [(word, len([it for it in row.split(",") if it])) for word, row in found]
    assert fields == [(word, len(form.kind._fields)) for word, form in mrp.TABLE_FORMS.items()]


@pytest.mark.parametrize("path", TYPES)
def test_columns_are_those_of_the_database(path):
    number, day = TYPES[path]
    *found, (name, lines) = re.findall(r"CREATE TABLE (?:IF NOT EXISTS )?(\w+) \(([^)]*)\)", text_of(f"examples/erp/{path}"))
    # (the lines of bin/renew --run)
    columns = re.search(r"^RUN = (.*)$", text_of("bin/renew"), re.MULTILINE)[1]
    assert (name, [it.split()[0].strip('"') for it in lines.split(",")]) == ("run", ast.literal_eval(columns))
    assert [name for name, _ in found] == list(SQL)
    for name, text in found:
        columns = dict(it.strip().rsplit(" ", 1) for it in text.split(","))
        form = mrp.REPORT_FORMS[SQL[name]]
        assert [it.strip('"') for it in columns] == ["row", *form.kind._fields]
        for column, spelling in zip([*columns][1:], form.spellings):
            wanted = {int: (number, "INTEGER"), mrp.day_of: (day,), str: ("TEXT",), mrp.per_of: ("TEXT",)}[spelling.read]
            assert (name, column, columns[column] in wanted) == (name, column, True)


# Tables.

ROWS = """\
run,2026-12-21,7,4,,,,
plant,A,,,,,,
plant,B,,,,,,
pair,A,X,make,lot,1,2,3
pair,A,Y,from:B:600:C:400,min:5:10,0,0,0
bill,A,X,Y,4,,,
demand,A,X,2,30,,,
demand,A,X,3,31,,,
receipt,A,Y,0,6,,,
ship,B,A,Y,1,7,,
cum,B,A,Y,500,,,
reset,B,A,Y,2,,,
firm,A,X,1,3,20,,
firm,A,Y,0,0,5,,
policy,A,Y,3,1,2,40,8
usage,A,X,Y,0,103,100,
usage,A,X,Y,2,0,1,
vendor,V-1,A,Y,500,20,2,
vendor,V-1,A,X,0,0,,
day,1,2027-01-04,,,,,
end,20,,,,,,
"""


def written_otherwise():
    """Returns the same table as other programs write it."""
    yield ROWS
    yield "\ufeff" + ROWS.replace("\n", "\r\n")
    yield ROWS.replace("demand", '"demand"').replace("pair,A", '"pair","A"').replace("\n", "\n\n")


@pytest.mark.parametrize("text", written_otherwise())
def test_table_is_read_by_names(tmp_path, text):
    (tmp_path / "table.csv").write_bytes(text.encode())
    with mrp.open_table(tmp_path / "table.csv") as lines:
        table = mrp.Table.read(lines)
    assert table.run == (datetime.date(2026, 12, 21), 7, 4)
    assert [it.plant for it in table.plants] == ["A", "B"]
    pair = table.pairs[0]
    assert (pair.supply, pair.rule, pair.lead, pair.on_hand, pair.safety) == ("make", "lot", 1, 2, 3)
    assert mrp.sources(table.pairs[1].supply) == [("B", 600), ("C", 400)]
    assert (table.bills[0].parent, table.bills[0].component, table.bills[0].per) == ("X", "Y", 4)
    assert [(it.period, it.quantity) for it in table.demands] == [(2, 30), (3, 31)]
    assert (table.receipts[0].pair, table.ships[0].pair) == (("A", "Y"), ("A", "Y"))
    assert (table.ships[0].sender, table.ships[0].quantity) == ("B", 7)
    assert (table.cums[0].figure, table.resets[0].period) == (500, 2)
    assert table.firms == [("A", "X", 1, 3, 20), ("A", "Y", 0, 0, 5)]
    assert (table.firms[0].pair, table.firms[0].start, table.firms[0].due) == (("A", "X"), 1, 3)
    assert table.policies == [("A", "Y", 3, 1, 2, 40, 8)]
    policy = table.policies[0]
    assert (policy.pair, policy.fence, policy.sooner, policy.cover) == (("A", "Y"), 3, 1, 2)
    assert (policy.least, policy.multiple) == (40, 8)
    assert table.usages == [("A", "X", "Y", 0, 103, 100), ("A", "X", "Y", 2, 0, 1)]
    usage = table.usages[0]
    assert (usage.parent, usage.component, usage.period, usage.per, usage.base) == ("X", "Y", 0, 103, 100)
    assert table.vendors == [("V-1", "A", "Y", 500, 20, 2), ("V-1", "A", "X", 0, 0, None)]
    vendor = table.vendors[0]
    assert (vendor.vendor, vendor.pair, vendor.figure, vendor.transit, vendor.reset) == ("V-1", ("A", "Y"), 500, 20, 2)
    assert [(it.period, str(it.date)) for it in table.days] == [(1, "2027-01-04")]
    assert bytes(table).decode() == ROWS


@pytest.mark.parametrize("text", written_otherwise())
def test_some_kinds_are_read_alone(text):
    rows = [*mrp.table_rows(io.StringIO(text.removeprefix("\ufeff"), newline=""), mrp.Demand, mrp.Ship, mrp.Firm)]
    wanted = [mrp.Demand("A", "X", 2, 30), mrp.Demand("A", "X", 3, 31), mrp.Ship("B", "A", "Y", 1, 7)]
    assert rows == [*wanted, mrp.Firm("A", "X", 1, 3, 20), mrp.Firm("A", "Y", 0, 0, 5)]


def test_rows_of_no_kind_are_refused():
    lines = [*ROWS.splitlines(keepends=True)[:-1], "demands,A,X,2,30,,,\n"]
    with pytest.raises(mrp.Refused, match="row 21: no kind of row is 'demands'"):
        mrp.Table.read(lines)
    with pytest.raises(mrp.Refused, match="no kind of row is 'demands'"):
        list(mrp.table_rows(lines, mrp.Run))
    with pytest.raises(AttributeError):
        _ = mrp.Table.read(lines[:-1]).orders


@pytest.mark.parametrize("text", written_otherwise())
def test_tables_that_have_lost_rows_are_refused(text):
    """Whose end row has another number than that of the rows before it, or isn't the last; with whole also those without one."""
    lines = io.StringIO(text.removeprefix("\ufeff"), newline="").readlines()
    rows = [place for place, it in enumerate(lines) if it.strip()]
    for place in rows[:-1]:
        with pytest.raises(mrp.Refused, match="row 20: the table doesn't end here, or has lost rows"):
            mrp.Table.read(lines[:place] + lines[place + 1 :])
        cut = mrp.Table.read(lines[: rows[-1]][:place]) if place else None
        assert cut is None or len(cut.rows) == rows.index(place)
        with pytest.raises(mrp.Refused, match=f"row {rows.index(place) + 1}: the table has no end row, so it may be cut"):
            mrp.Table.read(lines[:place], whole=True)
    with pytest.raises(mrp.Refused, match="row 21: the table doesn't end here, or has lost rows"):
        mrp.Table.read([*lines, "day,2,2027-01-20,,,,,\n"])
    assert mrp.Table.read(lines, whole=True).rows == mrp.Table.read(lines[: rows[-1]]).rows


def test_tables_are_written_with_their_end():
    """A row that is added counts; an end row that is given stays, be it wrong; a table of no rows has none."""
    table = mrp.Table.read(ROWS.splitlines(keepends=True))
    table.rows.append(("day", 2, "2027-01-20"))
    assert bytes(table).decode() == ROWS.replace("end,20,", "day,2,2027-01-20,,,,,\nend,21,")
    assert (table.ends, table.days[1].date) == ([], datetime.date(2027, 1, 20))
    given = mrp.Table([mrp.Plant("A"), mrp.End(7)])
    assert (given.ends, bytes(given)) == ([(7,)], b"plant,A,,,,,,\nend,7,,,,,,\n")
    assert bytes(mrp.Table([])) == b""


def test_dates_in_a_table_are_periods():
    """Where a period is meant, of rows that are read and of those that are written."""
    day = datetime.date(2027, 1, 10)
    rows = [mrp.Run("2026-12-21", "7", 4), mrp.Demand("A", "X", day, 5), ("reset", "B", "A", "Y", day)]
    rows += [mrp.Firm("A", "X", datetime.date(2026, 12, 31), day, 5), ("firm", "A", "Y", 0, day, 6), ("other", day)]
    table = mrp.Table(rows)
    assert (table.demands, table.resets) == ([("A", "X", 2, 5)], [("B", "A", "Y", 2)])
    assert table.firms == [("A", "X", 1, 2, 5), ("A", "Y", 0, 2, 6)]
    written = "run,2026-12-21,7,4,,,,\ndemand,A,X,2,5,,,\nreset,B,A,Y,2,,,\n"
    written += "firm,A,X,1,2,5,,\nfirm,A,Y,0,2,6,,\nother,2027-01-10,,,,,,\nend,6,,,,,,\n"
    assert bytes(table).decode() == written


def test_dates_in_a_table_count_by_day_rows():
    """Of which a date is none of a period; and a vendor's reset may be a date, or not be there."""
    day = datetime.date(2027, 1, 10)
    rows = [mrp.Run("2026-12-21", "7", 4), mrp.Demand("A", "X", day, 5), mrp.Demand("A", "X", datetime.date(2027, 1, 3), 6)]
    rows += [mrp.Vendor("V", "A", "X", 1, 2), mrp.Vendor("V", "A", "Y", 1, 2, datetime.date(2027, 1, 18)), ("vendor", "V", "A", "Z", 3, 4)]
    rows += [mrp.Day(1, datetime.date(2027, 1, 4)), ("day", 2, "2027-01-09"), mrp.Day(datetime.date(2027, 1, 4), datetime.datetime(2027, 1, 20, 8))]
    table = mrp.Table(rows[:-1])
    assert table.demands == [("A", "X", 2, 5), ("A", "X", 0, 6)]
    assert [it.reset for it in table.vendors] == [None, 3, None]
    assert [str(table.calendar.first_day(it)) for it in range(5)] == ["2026-12-21", "2027-01-04", "2027-01-09", "2027-01-16", "2027-01-23"]
    written = "run,2026-12-21,7,4,,,,\ndemand,A,X,2,5,,,\ndemand,A,X,0,6,,,\nvendor,V,A,X,1,2,,\nvendor,V,A,Y,1,2,3,\nvendor,V,A,Z,3,4,,\n"
    written += "day,1,2027-01-04,,,,,\nday,2,2027-01-09,,,,,\nend,8,,,,,,\n"
    assert bytes(table).decode() == written
    assert bytes(mrp.Table(rows[-1:])).decode() == "day,2027-01-04,2027-01-20,,,,,\nend,1,,,,,,\n"


# Dates.


def days(*texts):
    return [datetime.date.fromisoformat(it) for it in texts]


def test_calendar_of_a_run_row():
    calendar = mrp.calendar_of(mrp.Run(datetime.date(2026, 12, 21), 7, 4), [])
    wanted = days("2026-12-21", "2026-12-28", "2027-01-04", "2027-01-11", "2027-01-18")
    assert [calendar.first_day(it) for it in range(5)] == wanted
    asked = "2026-12-20", "2026-12-21", "2026-12-27", "2026-12-28", "2027-01-17", "2027-01-18"
    assert [calendar.period(it) for it in asked] == [-1, 0, 0, 1, 3, 4]


def test_calendar_in_which_a_period_begins_later():
    """Period 1 begins two weeks after period 0, and later ones follow it by weeks."""
    first, second = days("2026-12-21", "2027-01-04")
    calendar = mrp.Calendar([(0, first), (1, second)], 7)
    assert [calendar.first_day(it) for it in range(4)] == days("2026-12-21", "2027-01-04", "2027-01-11", "2027-01-18")
    asked = "2026-12-21", "2026-12-28", "2027-01-03", "2027-01-04", "2027-01-10", "2027-01-11", "2026-12-20"
    assert [calendar.period(it) for it in asked] == [0, 0, 0, 1, 1, 2, -1]


def test_calendar_of_a_table_with_days():
    """A closed week, a period that is a day shorter, and what is before the first period; and periods of a day without weekends."""
    first, begun = datetime.date(2026, 12, 21), days("2027-01-04", "2027-01-10")
    calendar = mrp.calendar_of(mrp.Run(first, 7, 5), [mrp.Day(1, begun[0]), mrp.Day(2, begun[1])])
    wanted = days("2026-12-14", "2026-12-21", "2027-01-04", "2027-01-10", "2027-01-17", "2027-01-24")
    assert [calendar.first_day(it) for it in range(-1, 5)] == wanted
    asked = "2026-12-20", "2026-12-21", "2027-01-03", "2027-01-04", "2027-01-09", "2027-01-10", "2027-01-16", "2027-01-17", "2027-01-24"
    assert [calendar.period(it) for it in asked] == [-1, 0, 0, 1, 1, 2, 2, 3, 4]
    fridays = mrp.calendar_of(mrp.Run(datetime.date(2026, 1, 1), 1, 9), [mrp.Day(2, datetime.date(2026, 1, 5)), mrp.Day(7, datetime.date(2026, 1, 12))])
    assert [fridays.period(f"2026-01-{it:02}") for it in range(1, 14)] == [0, 1, 1, 1, 2, 3, 4, 5, 6, 6, 6, 7, 8]


def test_calendar_of_a_report_with_a_closed_week():
    """Its last period is as long as most, and not as the closed one before it."""
    calendar = mrp.Calendar.of_report(days("2026-12-07", "2026-12-14", "2026-12-21", "2027-01-04"))
    assert (calendar.days, calendar.first_day(4)) == (7, datetime.date(2027, 1, 11))
    calendar = mrp.Calendar.of_report(days("2026-01-01", "2026-01-02", "2026-01-05", "2026-01-06", "2026-01-07", "2026-01-08", "2026-01-09", "2026-01-12"))
    assert (calendar.days, calendar.first_day(8)) == (1, datetime.date(2026, 1, 13))


def test_calendar_of_a_report():
    """Behind it periods are as long as most, of two as the last; of one period nobody knows, and it is a day."""
    calendar = mrp.Calendar.of_report(days("2026-12-21", "2027-01-04", "2027-01-11"))
    wanted = days("2026-12-21", "2027-01-04", "2027-01-11", "2027-01-18", "2027-01-25")
    assert [calendar.first_day(it) for it in range(5)] == wanted
    assert [calendar.period(it) for it in ("2027-01-03", "2027-01-17", "2027-01-18")] == [0, 2, 3]
    assert mrp.Calendar.of_report(days("2026-12-21")).first_day(1) == datetime.date(2026, 12, 22)


# Reports.

# A row of each kind, and one for each field that may be empty.
LINES = """\
plan,A,X,3,2026-01-26,1,2,3,4,5
late,A,X,0,10,2
order,A,X,from:B:500:C:500,5,0,2026-01-05,1,2026-01-12,0
firm,A,X,make,5,0,2026-01-05,1,2026-01-12,0
schedule,opening,B,A,Y,,,10,510
schedule,call,B,A,Y,0,2026-01-05,30,540
schedule,reset,B,A,Y,2,2026-01-19,,540
code,A,X,0
reach,A,X,3,none
lane,despatch,B,A,Y,1,2,3,4
peg,bill,A,X,1,2,3
pegs,A,Y,3,demand,A,Y,1,2,3
advice,expedite,ship,A,Y,B,1,2026-01-12,7,0,2026-01-05
advice,cancel,receipt,A,Y,,1,2026-01-12,7,,
advice,defer,firm,A,Y,,1,2026-01-12,7,3,2026-01-26
advice,beyond,receipt,A,Y,,1,2026-01-12,7,,
shortage,A,Y,bill,A,X,120,42
hit,A,X,1,2026-01-12,7,2,A,Y
"""


@pytest.mark.parametrize("line", LINES.splitlines())
def test_rows_of_reports_are_read_and_written(line):
    """A line is the same again, and one with a field less, with one more or with another end is none."""
    row = mrp.report_row(f"{line}\r\n", 1)
    assert (type(row), mrp.line_of(row)) == (mrp.ROWS[line.split(",")[0]], line)
    assert [*mrp.rows_of(f"{line}\n".encode())] == [row]
    for wrong in (f"{line},0\n", f"{line.rpartition(',')[0]}\n", f"x{line}\n", line, f"{line.replace(',', ', ', 1)}\n"):
        with pytest.raises(mrp.Refused, match="row 7 is no row of a report"):
            mrp.report_row(wrong, 7)


def test_rows_of_each_kind_are_tried():
    assert {it.split(",")[0] for it in LINES.splitlines()} == {*mrp.ROWS}


def test_fields_of_reports_have_types():
    opening, call = (mrp.report_row(f"{it}\n", 1) for it in LINES.splitlines()[4:6])
    assert opening == ("opening", "B", "A", "Y", None, None, 10, 510)
    assert call == ("call", "B", "A", "Y", 0, datetime.date(2026, 1, 5), 30, 540)
    with pytest.raises(mrp.Refused, match="2026-02-30 is no day"):
        mrp.report_row("plan,A,X,3,2026-02-30,1,2,3,4,5\n", 1)
    with pytest.raises(mrp.Refused, match="row 2 is no row of a report"):
        mrp.report_row("plan,A,X,03,2026-01-26,1,2,3,4,5\n", 2)


def test_columns_are_read_in_the_order_of_their_names():
    read = mrp.columns(mrp.Order, "late", "item", "due_date")
    assert read("order,A,X,make,5,0,2026-01-05,1,2026-01-12,0\n", 1) == ("0", "X", "2026-01-12")
    read_firm = mrp.columns(mrp.FirmOrder, "release", "quantity")
    assert read_firm("firm,A,X,make,5,0,2026-01-05,1,2026-01-12,0\n", 1) == ("0", "5")
    with pytest.raises(mrp.Refused, match="row 3 is no row of a report"):
        read("firm,A,X,make,5,0,2026-01-05,1,2026-01-12,0\n", 3)
    with pytest.raises(mrp.Refused, match="row 3 is no row of a report: 'order,A,X'"):
        read("order,A,X\n", 3)


# Where it stands.


def test_nothing_is_needed_to_read(tmp_path):
    """Neither the program nor the library, nor what calls libraries, where the module is alone in a folder."""
    shutil.copy(f"{TOP}/python/mrp.py", tmp_path)
    (tmp_path / "table.csv").write_text(ROWS, encoding="utf-8")
    (tmp_path / "ask.py").write_text(
        "import sys, mrp\n"
        "table = mrp.Table.read(mrp.open_table('table.csv'))\n"
        "row = mrp.report_row('code,A,X,3\\n', 1)\n"
        "print(table.demands[1].quantity, row.code, table.calendar.first_day(1), 'ctypes' in sys.modules)\n",
        encoding="utf-8",
    )
    how = {"cwd": tmp_path, "env": {"PATH": ""}, "capture_output": True, "text": True, "check": True}
    done = subprocess.run([sys.executable, "ask.py"], **how)
    assert done.stdout == "31 3 2027-01-04 False\n"


def test_tools_read_by_the_installed_module(tmp_path):
    """bin/install puts it beside the modules of bin/, as a file of its own."""
    (tmp_path / "own").write_text("#!/bin/sh\n", encoding="utf-8")
    (tmp_path / "own").chmod(0o755)
    how = {"env": {**os.environ, "MRP": f"{tmp_path}/own"}, "capture_output": True, "check": True}
    subprocess.run([f"{TOP}/bin/install", f"{tmp_path}/here"], **how)
    installed = tmp_path / "here/share/mrp/mrp.py"
    assert not installed.is_symlink() and installed.read_text(encoding="utf-8") == text_of("python/mrp.py")
    ask = "import mrp, reports; print(mrp.__file__, mrp.program().path)"
    how["env"] = {"PATH": "", "PYTHONPATH": str(installed.parent), "PYTHONDONTWRITEBYTECODE": "1"}
    done = subprocess.run([sys.executable, "-c", ask], cwd=tmp_path, text=True, **how)
    assert done.stdout == f"{installed} {installed.parent}/mrp\n"


def test_names_of_sheets_are_read(tmp_path):
    rows = ",".join(mrp.Names.COLUMNS) + "\nplant,HAM,,,,,Hamburg,,\npair,HAM,P1,,,,P 1,Pump,\n"
    rows += "demand,HAM,P1,3,2026-01-26,5,,,for one\ndemand,HAM,P1,3,2026-01-27,6,,,\n"
    (tmp_path / "names.csv").write_text(rows, encoding="utf-8")
    names = mrp.Names(tmp_path / "names.csv")
    assert (names.pair("HAM", "P1"), names.meant("Hamburg", "P 1")) == ("Hamburg P 1 (Pump)", ("HAM", "P1"))
    assert names.of("demand", "HAM", "P1", 3) == ["5 of 2026-01-26: for one", "6 of 2026-01-27"]
    (tmp_path / "names.csv").write_text("row,plant\n", encoding="utf-8")
    with pytest.raises(mrp.Refused, match="is no file that bin/sheets --names has written"):
        mrp.Names(tmp_path / "names.csv")


def test_columns_of_rows_that_follow_each_other_are_read_at_once():
    """As a line at a time; the first line that is no row is refused with its number, also where a row stands within it."""
    def row(period, gross):
        return f"plan,A,X,{period},2026-01-05,{gross},0,3,4,5\n".encode()

    read = mrp.columns_of_rows(mrp.Plan, "period", "gross")
    assert read([row(0, 7), row(1, 8).replace(b"\n", b"\r\n")], 1) == [("0", "1"), ("7", "8")]
    for bad in (row(1, "07"), b"x" + row(1, 8), row(1, 8) * 2, row(1, 8)[:-1] + b"x\n", b"\xff" + row(1, 8)):
        with pytest.raises(mrp.Refused, match="row 6 is no row of a report"):
            read([row(0, 7), bad, row(2, 8)], 5)
