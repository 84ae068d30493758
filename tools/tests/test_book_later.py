"""bin/book: receipts that are due later than they are needed, which the plan counts sooner, and tables that say where they end."""
import random
import re
from collections import Counter

import firms
from support import module_of
from test_book import booked, desk, MOTORS, planned, refused, report, rows  # noqa: F401

AGAIN = "in which it is needed: the plan would order again for the time in between; keep that date"
LATER = MOTORS.replace("2026-12-07", "2026-12-14")


def counts_sooner(room, periods):
    """Gives the items of the sheets a column that says how many periods sooner receipts count."""
    room.run(f"sed -i '1s/$/,Sooner (periods)/; 2,$s/$/,{periods}/' firm/items.csv")


def test_a_receipt_may_come_later_as_far_as_the_plan_counts_it_sooner(desk):  # noqa: F811
    """By hand. The 20 motors are needed in period 1 and can't be there before period 2: with a date of period 2, and receipts that
    count a period sooner, they aren't ordered again.
    """
    counts_sooner(desk, 1)
    before = report(desk)
    rows(desk, LATER)
    said = "receipts.csv: P-1, 20 of WORKS MOTOR, due 2026-12-14; the plan counts it 1 period sooner\n"
    assert desk.run("bin/book --number P- orders.csv firm") == said
    assert desk.run("tail -n 1 firm/receipts.csv") == "WORKS,MOTOR,P-1,,2026-12-14,20\n"
    assert report(desk) == [it for it in before if "MOTOR" not in it]


def test_receipts_that_come_too_late_are_slips(desk):  # noqa: F811
    """Later than the plan counts them, or behind the plan; and firm orders, which count no sooner than they are due."""
    counts_sooner(desk, 1)
    rows(desk, LATER.replace("2026-12-14,1", "2026-12-21,1"))
    more = ", or have the plan count it sooner: Sooner (periods) 2 in items.csv"
    refused(desk, "--number P-", [f"orders.csv row 2, due_date: 2026-12-21 is behind the period of 2026-12-07, {AGAIN}{more}"])
    rows(desk, LATER)
    refused(desk, "--firm", [f"orders.csv row 2, due_date: 2026-12-14 is behind the period of 2026-12-07, {AGAIN}"])
    desk.run("sed -i '2,$s/,1$/,90/' firm/items.csv")
    rows(desk, LATER.replace("2026-12-14,1", "2027-05-31,1"))
    told = desk.run("bin/book --number P- orders.csv firm", status=1).splitlines()
    assert re.fullmatch("orders.csv row 2, due_date: 2027-05-31 is behind the plan, which ends before 2027-0[1-5]-[0-9]{2}", told[0])
    assert told[1:] == ["bin/book: 1 slip; nothing is written"]


def test_receipts_that_come_later_are_not_placed_again():
    """In random firms: no order of what is bought is planned again that is due as much later as its receipts count sooner."""
    tried = 0
    for seed in range(400):
        chance = random.Random(seed)
        table = firms.table(chance, 5, 10).decode().splitlines()
        periods = int(table[0].split(",")[3])
        policies = {(it[1], it[2]): int(it[4]) for it in (row.split(",") for row in table) if it[0] == "policy"}
        orders = planned(table)
        bought = [it for it in orders if (row := it.split(","))[3] == "buy" and int(row[4]) <= 10**12 and policies.get((row[1], row[2]))]
        # (those before it are for what comes first)
        for order in bought:
            row = order.split(",")
            same = [it for it in bought if it.split(",")[1:3] == row[1:3] and int(it.split(",")[7]) <= int(row[7])]
            later = min(policies[row[1], row[2]], periods - 1 - int(row[7]))
            rows_now = [*table, *map(booked, same[:-1]), f"receipt,{row[1]},{row[2]},{int(row[7]) + later},{row[4]},,,"]
            assert Counter(planned(rows_now)) == Counter(orders) - Counter(same), (seed, order)
            tried += later > 0
    assert tried > 20


def test_where_the_table_ends_is_no_order(tmp_path):
    """A row that says how many rows there are changes with each order."""
    (tmp_path / "table.csv").write_text("run,2026-11-30,7,8,,,,\nplant,A,,,,,,\nend,2,,,,,,\n")
    assert sorted(module_of("book", "bin").lines_of(tmp_path / "table.csv")) == ["plant,A,,,,,,", "run,2026-11-30,7,8,,,,"]
