"""What the page says beside a plan: what changed since an earlier Monday, what is short, and the releases to send."""
import datetime
import html
import re

import mrp
import pytest
import reports
import since
from support import listed, Tags

# A firm on two Mondays.
ITEMS = """\
Plant,Item,Supply,Lot rule,Lead (weeks),On hand,Safety stock
A,PUMP,make,lot,1,1,0
A,MOTOR,buy,lot,2,0,0
"""
OLD = {
    "firm.csv": "First day,Days,Periods\n2026-11-30,7,8\n",
    "demands.csv": """\
Order,Customer,Plant,Item,Due,Quantity
11,Dock,A,PUMP,02.12.2026,4
12,Dock,A,PUMP,16.12.2026,5
13,Shore,A,PUMP,23.12.2026,6
14,Shore,A,PUMP,28.12.2026,7
15,Bay,A,PUMP,05.01.2027,8
""",
    "calls.csv": """\
Customer,Plant,Item,Date,Cumulative
Reef,A,PUMP,2026-12-14,110
Reef,A,PUMP,2026-12-21,115
""",
    "receipts.csv": """\
Order,Vendor,Plant,Item,Due,Quantity
P1,Lumen,A,MOTOR,2026-12-14,20
P2,Lumen,A,MOTOR,2026-12-21,5
P3,Lumen,A,MOTOR,2026-12-01,6
""",
    "firm_orders.csv": "Order,Plant,Item,Start,Due,Quantity\nF1,A,PUMP,2026-12-07,2026-12-14,4\n",
}
NEW = {
    "firm.csv": "First day,Days,Periods\n2026-12-07,7,8\n",
    "demands.csv": """\
Order,Customer,Plant,Item,Due,Quantity
12,Dock,A,PUMP,15.12.2026,5
14,Shore,A,PUMP,04.01.2027,9
15,Bay,A,PUMP,2027-01-05,8
16,Bay,A,PUMP,18.12.2026,3
17,Bay,A,PUMP,28.01.2027,2
18,Bay,A,PUMP,08.12.2026,2
""",
    "calls.csv": """\
Customer,Plant,Item,Date,Cumulative
Reef,A,PUMP,2026-12-16,110
Reef,A,PUMP,2026-12-21,117
""",
    "receipts.csv": """\
Order,Vendor,Plant,Item,Due,Quantity
P1,Lumen,A,MOTOR,2026-12-28,20
""",
    "firm_orders.csv": "Order,Plant,Item,Start,Due,Quantity\nF1,A,PUMP,2026-12-14,2026-12-21,4\n",
}
# By hand. 11 and P3 were due before 7 December and are gone: done. 17 is behind 25 January, where the old plan ends. 15 is written
# otherwise. Reef's figures have no numbers: the 10 pieces moved by two days, and 5 became 7 on the same day.
CUSTOMERS = [
    ["Bay", "18", "A", "PUMP", "came", "2", "8 Dec W50", ""],
    ["Bay", "16", "A", "PUMP", "came", "3", "18 Dec W51", ""],
    ["Dock", "12", "A", "PUMP", "moved", "5", "15 Dec W51", "16 Dec W51"],
    ["Reef", "", "A", "PUMP", "moved", "10", "16 Dec W51", "14 Dec W51"],
    ["Reef", "", "A", "PUMP", "grew", "7", "21 Dec W52", "5"],
    ["Shore", "13", "A", "PUMP", "went", "6", "23 Dec W52", ""],
    ["Shore", "14", "A", "PUMP", "moved and grew", "9", "4 Jan W01", "28 Dec W53, 7"],
]
OPEN = [
    ["Lumen", "P2", "A", "MOTOR", "went", "5", "21 Dec W52", ""],
    ["Lumen", "P1", "A", "MOTOR", "moved", "20", "28 Dec W53", "14 Dec W51"],
    ["", "F1", "A", "PUMP", "moved", "4", "21 Dec W52", "14 Dec W51"],
]


@pytest.fixture
def mondays(room, program):
    """A room with the tables and the names of both Mondays."""
    for name, sheets in (("old", OLD), ("new", NEW)):
        room.run(f"mkdir {name}")
        common = {"items.csv": ITEMS, "bills.csv": "Plant,Parent,Component,Per\nA,PUMP,MOTOR,1\n"}
        common["shipped.csv"] = "Customer,Plant,Item,Cumulative\nReef,A,PUMP,100\n"
        for sheet, text in {**common, **sheets}.items():
            room.write(f"{name}/{sheet}", text)
        room.run(f"bin/sheets --names {name}.names --out {name}.csv {name} 2> said")
    return room


PAGE = "bin/page --names new.names --last old.csv --last-names old.names"


def test_what_changed_by_customer_first(mondays):
    """By dates: no order is told because the plan begins a week later."""
    text = mondays.run(f"{PAGE} < new.csv")
    Tags(text)
    rows = listed(text, "changed")
    assert "Changed since 30 November 2026" in text
    assert rows[: len(CUSTOMERS) + len(OPEN)] == CUSTOMERS + OPEN
    assert "<p>2 orders due before this plan begins and gone: taken as done.</p>" in text
    assert "<p>1 order behind the end of that plan, which may have been there already.</p>" in text
    heads = re.findall('<h3>([^<]*)</h3><div class="list stack"><table><thead><tr>(.*?)</tr>', text)[:2]
    assert [html.unescape(it) for it, _ in heads] == ["Customers' orders", "Open orders"]
    assert re.findall('<button type="button">([^<]*)<', heads[1][1]) == ["From", "Order", "Plant", "Item", "Change", "Quantity", "Due", "Was"]
    # (as many days as are said, or fewer, are no move)
    rows = listed(mondays.run(f"{PAGE} --moved 2 < new.csv"), "changed")[: len(CUSTOMERS) + len(OPEN) - 2]
    assert rows == [it for it in CUSTOMERS if it[4] != "moved"] + OPEN
    rows = listed(mondays.run(f"{PAGE} --moved 7 < new.csv"), "changed")
    assert [it[1] for it in rows[:8]] == ["18", "16", "", "13", "14", "P2", "P1", rows[7][1]]
    assert [it[:8] for it in listed(mondays.run(f"{PAGE} --item MOTOR < new.csv"), "changed")[:2]] == OPEN[:2]


def test_planned_orders_are_those_of_compare(mondays):
    """A row for each item, with its changes."""
    text = mondays.run(f"{PAGE} < new.csv")
    mondays.run("for it in old new; do $MRP plan < $it.csv > $it.plan; done")
    said, pair, found = mondays.run("bin/compare old.plan new.plan"), None, {}
    for line in said.splitlines():
        if line.startswith("  "):
            found[pair].append(line[14:])
        elif line in ("A PUMP", "A MOTOR"):
            pair = line.split()[1]
            found[pair] = []
    rows = {it[1]: it[2] for it in listed(text, "changed") if len(it) == 3}
    assert rows.keys() == found.keys() != set()
    for item, lines in found.items():
        assert all(it in rows[item] for it in lines)
    assert f"<summary>Planned orders of {reports.counted(len(found), 'item')}, now or late</summary>" in text


def test_demands_that_are_short_have_numbers_and_customers(mondays):
    """Of the two pumps of order 18 one is there."""
    text = mondays.run(f"{PAGE} < new.csv")
    assert listed(text, "shortages") == [["A", "PUMP", "1", "2", "2 of 08.12.2026: Order 18, Customer Bay"]]
    without = mondays.run("bin/page --names new.names < new.csv")
    assert not re.search('section id="(shortages|changed|sending)"', without)
    # (the rest of the page is as without the option)
    front, end = re.search('<section id="changed">.*?(?=<section id="release">)', text, re.DOTALL).span()
    assert text[:front] + text[end:] == without


def test_tables_without_names_are_compared_by_days(mondays):
    """By the first days of periods: 12 stays in its week, the 9 of 4 January are no 7 of 28 December, which are gone, and of each week
    pieces are told as they are there."""
    text = mondays.run("bin/page --last old.csv < new.csv")
    rows = [it[4:] for it in listed(text, "changed") if len(it) == 8]
    for words in ("--names new.names", "--last-names old.names"):
        assert [it[4:] for it in listed(mondays.run(f"bin/page {words} --last old.csv < new.csv"), "changed") if len(it) == 8] == rows
    assert rows == [
        ["came", "2", "7 Dec W50", ""],
        ["came", "3", "14 Dec W51", ""],
        ["grew", "7", "21 Dec W52", "5"],
        ["went", "6", "21 Dec W52", ""],
        ["went", "7", "28 Dec W53", ""],
        ["came", "9", "4 Jan W01", ""],
        ["went", "5", "21 Dec W52", ""],
        ["moved", "4", "21 Dec W52", "14 Dec W51"],
        ["moved", "20", "28 Dec W53", "14 Dec W51"],
    ]


def test_the_same_monday_has_no_changes(mondays):
    text = mondays.run("bin/page --names new.names --last new.csv --last-names new.names < new.csv 2> told")
    told = "new.csv begins on 2026-12-07 as this plan does: what changed is told since a plan of this Monday\n"
    assert mondays.run("cat told") == told
    assert re.search('<section id="changed">\n<h2>Changed since 7 December 2026</h2>\n<p>Nothing.</p>\n</section>', text)


COLUMNS = "Release,Date,Supplier,Customer,Item,Backlog,Despatch,Quantity,Late"


def test_releases_to_send(mondays):
    """A row for each file: two items, of which one isn't called for, two calls, and a backlog for each item, not for each call."""
    mondays.run("mkdir out")
    rows = ("B1,2026-12-14,20,3", "B1,2026-12-21,20,0", "B2,,,")
    calls = "".join(f"7,2026-12-07,Lumen & Co,A,{item},{4 if item == 'B1' else 1},{rest}\n" for item, _, rest in (it.partition(",") for it in rows))
    mondays.write("out/LUMEN.csv", f"{COLUMNS}\n{calls}")
    text = mondays.run("bin/page --releases out < new.csv")
    Tags(text)
    assert listed(text, "sending") == [["Lumen &amp; Co", "7", "2", "2", "14 Dec W51", "5", "3"]]
    mondays.run("sed -i s/2026-12-07/2026-11-30/ out/LUMEN.csv")
    said = "bin/page: the release of Lumen & Co is of 2026-11-30, and the plan begins on 2026-12-07\n"
    assert mondays.run("bin/page --releases out --out page.html < new.csv", status=1) == said
    for bad in ("", f"{COLUMNS}\n", f"{COLUMNS}\nx,2026-12-07,L,A,B,0,,,\n", "Release,Date\n1,2026-12-07\n"):
        mondays.write("out/LUMEN.csv", bad)
        assert mondays.run("bin/page --releases out < new.csv", status=1) == "bin/page: out/LUMEN.csv is no release of bin/releases\n"
    mondays.run("printf '\\377\\n' > out/LUMEN.csv")
    assert mondays.run("bin/page --releases out < new.csv", status=1) == "bin/page: out/LUMEN.csv is no release of bin/releases\n"
    assert "none" in mondays.run("bin/page --releases none < new.csv", status=1)


def test_bad_words_and_files(mondays):
    mondays.write("empty", "")
    for words, status, said in (
        ("--last new.csv < old.csv", 1, "new.csv begins on 2026-12-07, and this plan on 2026-11-30: --last wants an earlier one"),
        ("--last none.csv < new.csv", 1, "No such file"),
        ("--last old.names < new.csv", 1, "old.names: mrp: row 1: FieldCount"),
        ("--last empty < new.csv", 1, "empty: mrp: row 0: Empty"),
        ("--last old.csv < examples/bicycle.plan.csv", 1, "--last wants a table, and this is a report"),
        ("--last old.csv --moved -1 < new.csv", 2, "'-1' is no number of days"),
        ("--last old.csv --moved x < new.csv", 2, "'x' is no number of days"),
        ("--last old.csv --last-names old.csv < new.csv", 1, "old.csv is no file that bin/sheets --names has written"),
    ):
        found = mondays.run(f"bin/page --out page.html {words}", status=status)
        assert said in found, words
        assert "Traceback" not in found
        assert len(found.splitlines()) == 1, found
    mondays.run("sed '/^pair,A,MOTOR/s/,buy,/,make,/; /^bill/d' old.csv > none.csv; echo 'bill,A,PUMP,PUMP,1,,,' >> none.csv")
    found = mondays.run("bin/page --out page.html --last none.csv < new.csv", status=1)
    assert re.fullmatch(r"none\.csv: mrp: row \d+: .*\n", found), found
    assert "page.html" not in mondays.run("ls")


def test_days_of_sheets():
    """With slashes the reading that lies in the period; where both do not, or no day is said, the period's first day."""
    calendar = mrp.Calendar([(0, datetime.date(2026, 11, 30))], 7)
    for text, period, day in (
        ("2026-12-09", 1, "2026-12-09"),
        ("9.12.2026", 1, "2026-12-09"),
        ("9/12/2026", 1, "2026-12-09"),
        ("12/9/2026", 1, "2026-12-09"),
        ("25/11/2026", 0, "2026-11-25"),
        ("7/7/2027", 0, "2027-07-07"),
        ("2026-11-30 00:00:00", 0, "2026-11-30"),
        ("soon", 2, "2026-12-14"),
        ("1/2/2027", 3, "2026-12-21"),
    ):
        assert str(since.day_in(text, period, calendar)) == day, text


def order(day, quantity, number="", who=""):
    return since.Order(datetime.date(2026, 12, 1) + datetime.timedelta(day), quantity, number, who, "demand", ("A", "X"), ("A", "X"))


class Two(since.Since):
    """Two Mondays of 20 days, from 1 and from 8 December on, with these orders."""

    def __init__(self, old, new, moved=0):
        class Of:
            def __init__(self, orders, first):
                self.orders, self.table, self.first = lambda: iter(orders), self, datetime.date(2026, 12, first)
                self.run, self.end = mrp.Run(self.first, 5, 4), self.first + datetime.timedelta(20)

        super().__init__(Of(old, 1), Of(new, 8), moved)

    def told(self):
        days = [[(it.day - datetime.date(2026, 12, 1)).days if it else None for it in both] for both in ((it.was, it.now) for it in self.changes["demand"])]
        return [(change.word, *both) for change, both in zip(self.changes["demand"], days)]


def test_which_order_is_which():
    """Worked one by one."""
    # (two rows of one number: the first is the first; one more came)
    assert Two([order(8, 1, "7"), order(10, 1, "7")], [order(9, 1, "7"), order(10, 1, "7"), order(12, 1, "7")]).told() == [("moved", 8, 9), ("came", None, 12)]
    # (one of another number is another order, on the same day too)
    assert Two([order(9, 1, "7")], [order(9, 1, "8")]).told() == [("went", 9, None), ("came", None, 9)]
    # (so is one of another customer, where there are no numbers)
    assert Two([order(9, 1, "", "a")], [order(9, 1, "", "b")]).told() == [("went", 9, None), ("came", None, 9)]
    # (without a number: ten days are two periods, eleven are too far)
    assert Two([order(8, 3)], [order(18, 3)]).told() == [("moved", 8, 18)]
    assert Two([order(8, 3)], [order(19, 3)]).told() == [("went", 8, None), ("came", None, 19)]
    # (first those of the day, then those of as many pieces)
    assert Two([order(8, 3), order(9, 4)], [order(8, 4), order(12, 4)]).told() == [("grew", 8, 8), ("moved", 9, 12)]
    # (what was due before this plan is done, or where it's still there it is told only when it moved)
    assert Two([order(2, 3, "1"), order(3, 3, "2")], [order(3, 3, "2")]).told() == []
    assert Two([order(2, 3, "1")], [order(9, 3, "1")]).told() == [("moved", 2, 9)]
    assert Two([order(2, 3, "1")], []).done == 1
    # (what is behind the old plan's end may have been there)
    assert (Two([], [order(20, 1, "1")]).told(), Two([], [order(20, 1, "1")]).behind, Two([], [order(19, 1)]).told()) == ([], 1, [("came", None, 19)])
    assert Two([order(9, 1, "1")], [order(11, 1, "1")], 2).told() == []
    assert Two([order(9, 1, "1")], [order(11, 1, "1")], 1).told() == [("moved", 9, 11)]
    assert Two([order(9, 1, "1")], [order(10, 2, "1")], 2).told() == [("grew", 9, 10)]
