"""bin/why."""
import reports
from support import reports_from_files, TOP
from test_oracle import CHANGED, COVERED
from test_record import FIRM, FIRM_ORDERS, FIRM_PEGS


def test_why_has_each_requirement_once(room, program):
    said = room.run("bin/why SOUTH TUBE 0 < examples/three_plants.csv")
    assert "SOUTH TUBE: 9 released in period 0, due in period 1 (2026-01-12), 1 period late\n" in said
    assert "    12 demand\n" in said
    assert "1 requirement not followed (..)" in room.run("bin/why --depth 2 SOUTH TUBE 0 < examples/three_plants.csv")
    assert "1 requirement not followed (..)" in room.run(
        "bin/why --questions 1 SOUTH TUBE 0 < examples/three_plants.csv"
    )
    assert "no order of EAST BIKE is released in period 0; releases are in 1, 4\n" in room.run(
        "bin/why EAST BIKE 0 < examples/three_plants.csv", status=1
    )
    assert "no order of NORTH RIM is released in period 3; it has none\n" in room.run(
        "bin/why NORTH RIM 3 < examples/three_plants.csv", status=1
    )
    assert "no pair A X" in room.run("bin/why A X 0 < examples/three_plants.csv", status=1)
    assert "mrp: row 1" in room.run("bin/why A X 0 < examples/bicycle.plan.csv", status=1)


def test_why_asks_for_three_reports(room, program):
    """However many requirements it follows, and whether the table's names stand between quotes; what is on hand, and
    comes in now, is the table's.
    """
    room.stand_in("words/asked", "asked", program=program)
    rows = "pair,A,X,buy,lot,0,1,9\npair,A,Y,make,lot,1,0,0\nbill,A,Y,X,2,,,\ndemand,A,Y,1,5,,,\nreceipt,A,X,0,2,,,\nreceipt,A,X,1,3,,,\n"
    # (9 are to be kept of 1 on hand and 2 that come in in period 0: 6 are short, and 5 in period 1 take 10 in period 0)
    wanted = """\
A X: 16 released in period 0, due in period 0 (2026-01-05)
  6 for safety stock
  10 required in period 0
    10 for A Y, 2 each: 5 released in period 0, due in period 1 (2026-01-12)
      5 required in period 1
        5 demand
Open orders
  3 in period 1 (2026-01-12), receipt: expedite to period 0 (2026-01-05)
"""
    for quoted in (rows, rows.replace("pair,A,X", 'pair,"A","X"').replace("receipt", '"receipt"')):
        room.write("table.csv", f"run,2026-01-05,7,2,,,,\nplant,A,,,,,,\n{quoted}")
        assert room.run("rm -f asked; MRP=words/asked bin/why A X 0 < table.csv") == wanted
        assert room.run("cat asked") == "orders\npegs\nadvice --reach\n"


def test_why_tells_late_orders_apart(room, program):
    """Three orders that are released in period 0, and one piece of safety stock that is missing."""
    demands = "".join(f"demand,A,X,{period},{quantity},,,\n" for period, quantity in enumerate((5, 7, 6)))
    room.write("table.csv", f"run,2026-01-05,7,4,,,,\nplant,A,,,,,,\npair,A,X,buy,lot,2,4,5\n{demands}")
    assert (
        room.run("bin/why A X 0 < table.csv")
        == """\
A X: 19 released in period 0
  6, due in period 0 (2026-01-05), 2 periods late
    1 for safety stock
    5 required in period 0
      5 demand
  7, due in period 1 (2026-01-12), 1 period late
    7 required in period 1
      7 demand
  6, due in period 2 (2026-01-19)
    6 required in period 2
      6 demand
"""
    )


def from_files(room, table, orders, pegs, advice=""):
    """Writes a table with firm orders, and its reports by hand for the program words/files."""
    room.stand_in("words/files", "from_files")
    for name, text in (("table", table), ("orders", orders), ("pegs", pegs), ("advice", advice)):
        room.write(f"{name}.csv", text)


def test_why_marks_firm_orders(room):
    """Above what they take, and asked for by the period of their start; each order is for what comes up to the next planned one."""
    from_files(room, FIRM, FIRM_ORDERS, FIRM_PEGS)
    why = "MRP=words/files bin/why"
    wanted = """\
A C: 50 released in period 0
  40, due in period 0 (2026-01-05), 1 period late
    40 required in period 0
      40 for A P, 2 each: 20 released in period 0, due in period 3 (2026-01-26), firm
        30 required in period 3
          30 demand
  10, due in period 1 (2026-01-12)
    10 required in period 1
      10 for A P, 2 each: 5 released in period 1, due in period 3 (2026-01-26)
        30 required in period 3 (above)
"""
    assert room.run(f"{why} A C 0 < table.csv") == wanted
    assert room.run(f"{why} A P 2026-01-11 < table.csv").startswith("A P: 20 released in period 0, due in period 3 (2026-01-26), firm\n")
    said = room.run(f"{why} A P 3 < table.csv", status=1)
    assert said == "bin/why: no order of A P is released in period 3; releases are in 0, 1, 2\n"
    # (5 on hand and a firm 12 and 13 are for all of periods 2 and 3: the next planned order is due in period 4)
    table = FIRM.replace("demand,A,P,3,30", "demand,A,P,2,10,,,\ndemand,A,P,3,20").replace("P,0,3,20", "P,0,2,12") + "firm,A,P,1,3,13,,\n"
    orders = FIRM_ORDERS.replace("20,0,2026-01-05,3,2026-01-26", "12,0,2026-01-05,2,2026-01-19")
    orders = orders.replace("order,A,P,make,5,", "firm,A,P,make,13,")
    pegs = "pegs,A,P,2,demand,A,P,10,1,10\npegs,A,P,3,demand,A,P,20,1,20\npegs,A,P,4,demand,A,P,10,1,10\n"
    from_files(room, table, orders, pegs)
    for period, front, rows in (
        (0, "12 released in period 0, due in period 2 (2026-01-19)", ((10, 2), (20, 3))),
        (1, "13 released in period 1, due in period 3 (2026-01-26)", ((20, 3),)),
    ):
        below = "".join(f"  {quantity} required in period {it}\n    {quantity} demand\n" for quantity, it in rows)
        assert room.run(f"{why} A P {period} < table.csv") == f"A P: {front}, firm\n{below}"


def test_why_shows_messages_for_open_orders(room):
    """By hand, of the pair that is asked for alone; none is called cancelled that is needed beyond the horizon."""
    day = "2026-01-12"
    advice = f"advice,defer,ship,A,P,B,1,{day},9,3,2026-01-26\nadvice,beyond,receipt,A,C,,1,{day},5,,\nadvice,expedite,firm,A,C,,2,2026-01-19,7,1,{day}\n"
    from_files(room, FIRM, FIRM_ORDERS, FIRM_PEGS, advice)
    said = room.run("MRP=words/files bin/why A C 0 < table.csv").partition("Open orders\n")[2]
    assert said == f"""\
  5 in period 1 ({day}), receipt: not known yet: needed beyond the horizon
  7 in period 2 (2026-01-19), firm order: expedite to period 1 ({day})
"""
    said = room.run("MRP=words/files bin/why A P 1 < table.csv").partition("Open orders\n")[2]
    assert said == f"  9 in period 1 ({day}), in transit from B: defer to period 3 (2026-01-26)\n"
    assert [*dict.fromkeys(room.run("cat asked").splitlines())] == ["orders", "pegs", "advice"]


def test_why_has_safety_stock_behind_firm_orders(room):
    """By hand. 5 of 9 are missing in period 0: 3 and 1 are firm there, and 1 is in the planned order, which comes late."""
    head = "run,2026-01-05,7,4,,,,\nplant,A,,,,,,\npair,A,X,buy,lot,2,4,9\n"
    rows = "demand,A,X,0,5,,,\nfirm,A,X,0,0,3,,\nfirm,A,X,0,0,1,,\nfirm,A,X,0,2,4,,\n"
    orders = "firm,A,X,buy,3,0,2026-01-05,0,2026-01-05,0\nfirm,A,X,buy,1,0,2026-01-05,0,2026-01-05,0\n"
    orders += "order,A,X,buy,6,0,2026-01-05,0,2026-01-05,2\nfirm,A,X,buy,4,0,2026-01-05,2,2026-01-19,0\n"
    from_files(room, head + rows, orders, "pegs,A,X,0,demand,A,X,5,1,5\n")
    assert room.run("MRP=words/files bin/why A X 0 < table.csv") == """\
A X: 14 released in period 0
  3, due in period 0 (2026-01-05), firm
    3 for safety stock
    5 required in period 0
      5 demand
  1, due in period 0 (2026-01-05), firm
    1 for safety stock
    5 required in period 0 (above)
  6, due in period 0 (2026-01-05), 2 periods late
    1 for safety stock
    5 required in period 0 (above)
  4, due in period 2 (2026-01-19), firm
"""


def test_why_shows_what_sheets_say_of_firm_orders(room):
    """Of those of the period with as many pieces."""
    from_files(room, FIRM, FIRM_ORDERS, FIRM_PEGS)
    rows = ["firm,A,P,3,2026-01-28,20,,,\"Start 2026-01-05, Order F-1\"", "firm,A,P,3,2026-01-29,4,,,Order F-2"]
    room.write("names.csv", "\n".join([",".join(reports.Names.COLUMNS), *rows, ""]))
    said = room.run("MRP=words/files bin/why --names names.csv A C 0 < table.csv")
    line = "      40 for A P, 2 each: 20 released in period 0, due in period 3 (2026-01-26), firm\n"
    assert f"{line}        20 of 2026-01-28: Start 2026-01-05, Order F-1\n        30 required in period 3\n" in said
    assert "F-2" not in said


def three_plants():
    with open(f"{TOP}/examples/three_plants.csv", encoding="utf-8") as file:
        return file.read()


def test_why_takes_a_day_for_its_period(room):
    """Each day of a week, from the first to the last; one outside the plan is refused, and one in which nothing is
    released is told with its period.
    """
    reports_from_files(room, three_plants(), "orders", "pegs", "advice --reach")
    why = "MRP=words/files bin/why"
    wanted = room.run(f"{why} EAST BIKE 4 < table.csv")
    assert wanted.startswith("EAST BIKE: 12 released in period 4, due in period 5 (2026-02-09)\n")
    for day in ("2026-02-02", "2026-02-08", "8.2.2026"):
        assert room.run(f"{why} EAST BIKE {day} < table.csv") == wanted
    said = "no order of EAST BIKE is released in period 5, which holds 2026-02-09; releases are in 1, 4\n"
    assert said in room.run(f"{why} EAST BIKE 2026-02-09 < table.csv", status=1)
    for day in ("2026-01-04", "2026-02-16"):
        said = room.run(f"{why} EAST BIKE {day} < table.csv", status=1)
        assert said == f"bin/why: {day} is not in the plan, which goes from 2026-01-05 to 2026-02-15\n"
    for word in ("2026-02-30", "2/2/2026", "-1", "1000"):
        assert room.run(f"{why} -- EAST BIKE {word} < table.csv", status=2).startswith("bin/why: argument PERIOD: ")


def test_why_takes_a_day_by_day_rows(room):
    """By hand. With a closed week before period 5 that is in period 4, and the plan ends a week later."""
    reports_from_files(room, three_plants() + "day,5,2026-02-16,,,,,\n", "orders", "pegs", "advice --reach")
    why = "MRP=words/files bin/why EAST BIKE"
    wanted = room.run(f"{why} 4 < table.csv")
    assert wanted.startswith("EAST BIKE: 12 released in period 4, due in period 5 (2026-02-16)\n")
    for day in ("2026-02-02", "2026-02-09", "2026-02-15"):
        assert room.run(f"{why} {day} < table.csv") == wanted
    assert "is released in period 5, which holds 2026-02-22;" in room.run(f"{why} 2026-02-22 < table.csv", status=1)
    said = "bin/why: 2026-02-23 is not in the plan, which goes from 2026-01-05 to 2026-02-22\n"
    assert room.run(f"{why} 2026-02-23 < table.csv", status=1) == said


def test_why_names_the_nearest(room):
    """Plants that keep the item, else items of the plant, else pairs; by the names of the sheets where given."""
    reports_from_files(room, three_plants(), "orders", "pegs", "advice --reach")
    for words, meant in (
        ("SOUTH TUB", " (SOUTH TUBE?)"),
        ("X FRAME", " (NORTH FRAME, SOUTH FRAME?)"),
        ("SOTH TUBS", " (SOUTH TUBE?)"),
        ("Z Q", ""),
    ):
        said = room.run(f"MRP=words/files bin/why {words} 0 < table.csv", status=1)
        assert said == f"bin/why: the table has no pair {words}{meant}\n"
    room.run("bin/sheets --names names.csv --out table.csv examples/sheets 2> said")
    with open(f"{room.folder}/table.csv", encoding="utf-8") as file:
        reports_from_files(room, file.read(), "orders", "pegs", "advice --reach")
    for words, meant in (("WORKS SEAL", "SEAL_25"), ("--names names.csv WORKS SEAL", "SEAL 25")):
        said = room.run(f"MRP=words/files bin/why {words} 0 < table.csv", status=1)
        assert said == f"bin/why: the table has no pair WORKS SEAL (WORKS {meant}?)\n"


def test_why_goes_from_orders_to_what_they_cover(room):
    """By hand. With a period covered the 20 of period 1 are for the demand of period 2, and the 5 of period 2 for that of 3. What is
    ordered for period 0 is for its demands too; safety stock is covered by receipts that count sooner, and then by the order.
    """
    reports_from_files(room, COVERED, "orders", "pegs", "advice --reach")
    assert room.run("MRP=words/files bin/why A X 0 < table.csv") == """\
A X: 20 released in period 0, due in period 1 (2026-01-12)
  20 required in period 2
    20 demand
"""
    assert "5 required in period 3\n" in room.run("MRP=words/files bin/why A X 1 < table.csv")
    # (8 are missing of 9 and of the 5 and 5 of periods 0 and 1, for which 1 and the 10 of period 1 are there; then 20 of period 2)
    table = COVERED.replace("buy,lot,1,10,0", "buy,lot,0,1,9").replace("policy,A,X,0,0", "receipt,A,X,1,10,,,\npolicy,A,X,0,1")
    reports_from_files(room, table, "orders", "pegs", "advice --reach")
    assert room.run("MRP=words/files bin/why A X 0 < table.csv") == """\
A X: 8 released in period 0, due in period 0 (2026-01-05)
  5 required in period 0
    5 demand
  5 required in period 1
    5 demand
Open orders
  10 in period 1 (2026-01-12), receipt: expedite to period 0 (2026-01-05)
"""
    reports_from_files(room, table.replace("1,10,,", "1,3,,"), "orders", "pegs", "advice --reach")
    assert room.run("MRP=words/files bin/why A X 0 < table.csv").splitlines()[:3] == [
        "A X: 15 released in period 0, due in period 0 (2026-01-05)",
        "  5 for safety stock",
        "  5 required in period 0",
    ]


def test_why_says_of_how_many_parents(room):
    """By hand. 10.3 castings are 11; of OLD 2 go into each, and from period 2 on none."""
    reports_from_files(room, CHANGED, "orders", "pegs", "advice --reach")
    assert room.run("MRP=words/files bin/why A CASTING 1 < table.csv") == """\
A CASTING: 11 released in period 1, due in period 1 (2026-01-12)
  11 required in period 1
    11 for A P, 103/100 each: 10 released in period 1, due in period 1 (2026-01-12)
      10 required in period 1
        10 demand
"""
    assert "\n    20 for A P, 2 each: 10 released in period 1" in room.run("MRP=words/files bin/why A OLD 1 < table.csv")
    said = room.run("MRP=words/files bin/why A OLD 2 < table.csv", status=1)
    assert said == "bin/why: no order of A OLD is released in period 2; releases are in 0, 1\n"
