"""What orders lack, as bin/page and bin/orders say it: bin/lacks.py."""
import csv
import io

import hits
import lacks
import mrp
import reports
from support import listed
from test_oracle import policy_of, rows_of, some_firms

# By hand. The 10 pumps and the 5 fans, of which 2 are firm, take 15 sets, of which 3 are there. The 12 others are made at once, of
# 48 rings, of which 20 are there. Of 10 motors 6 are there, and of the 4 that B is to ship one.
LACKING = """\
run,2026-01-05,7,2,,,,
plant,A,,,,,,
plant,B,,,,,,
pair,A,RING,buy,lot,2,20,0
pair,A,MOTOR,from:B,lot,1,6,0
pair,A,PUMP,make,lot,1,0,0
pair,A,FAN,make,lot,1,0,0
pair,A,SET,make,lot,0,3,0
pair,B,MOTOR,buy,lot,1,1,0
bill,A,PUMP,SET,1,,,
bill,A,PUMP,MOTOR,1,,,
bill,A,SET,RING,4,,,
bill,A,FAN,SET,1,,,
demand,A,PUMP,1,10,,,
demand,A,FAN,1,5,,,
firm,A,FAN,0,1,2,,
"""
SHORTAGES = """\
shortage,A,RING,bill,A,SET,48,28
shortage,A,MOTOR,bill,A,PUMP,10,4
shortage,B,MOTOR,plant,A,MOTOR,4,3
"""


def by_definition(table, judge, pair, shortages):
    """Returns the shortages that a pair's orders have, and those of the phantoms that they ask for in period 0, and of these."""
    found = {it for it in shortages if it.source != "demand" and (it.by_plant, it.by_item) == pair}
    for row in table.pairs:
        part, firm = (row.plant, row.item), judge.firm
        asks = any((plant, item) == pair for source, plant, item, *_ in firm.terms(part, 0) if source != "demand")
        due = firm.plans[part].order[0] or any(it.due == 0 for it in firm.firm_orders[part])
        if asks and due and row.supply == "make" and row.lead == policy_of(table, part).fence == 0:
            found |= by_definition(table, judge, part, shortages)
    return found


def test_lacks_of_firms(tmp_path):
    """Of each pair of random firms what the definition says, from the table and the program's reports."""
    passed_up = 0
    for table, judge in some_firms():
        path, shortages, found = tmp_path / "table.csv", rows_of(judge, "shortages"), lacks.Lacks()
        path.write_bytes(bytes(table))
        orders = hits.Orders(io.BytesIO(judge.answer("orders").out), {})
        for it in shortages:
            found.take(it)
        own = {pair: [*rows] for pair, rows in found.of.items()}
        with mrp.open_table(path) as lines:
            policies = reports.Policies(path)
            found.pass_up(hits.Takes(lines, policies.usages), policies, orders.rows)
        for pair in judge.firm.pairs:
            wanted = by_definition(table, judge, pair, shortages)
            assert {*found.of.get(pair, ())} == wanted
            assert len(found.of.get(pair, ())) == len(wanted)
        passed_up += sum(len(it) for it in found.of.values()) - sum(len(it) for it in own.values())
    assert passed_up > 5


def test_phantoms_that_nothing_takes_now_pass_nothing_up():
    """By hand. Of the 60 sets that are made, of which 15 go into a thousand pumps, 50 lack rings: a pump takes one, and no fan does yet."""
    bills = "".join(f"bill,A,{it},SET,1,,,\n" for it in ("PUMP", "FAN"))
    pairs = "".join(f"pair,A,{it},make,lot,{lead},0,0\n" for it, lead in (("PUMP", 1), ("FAN", 1), ("SET", 0)))
    table = f"run,2026-01-05,7,2,,,,\nplant,A,,,,,,\n{pairs}pair,A,RING,buy,lot,1,0,0\n{bills}bill,A,SET,RING,1,,,\n"
    usages = {("A", "PUMP", "SET"): [mrp.Usage("A", "PUMP", "SET", 0, 15, 1000)], ("A", "FAN", "SET"): [mrp.Usage("A", "FAN", "SET", 0, 0, 1)]}
    orders = {("A", "PUMP"): [(1, 1, 0)], ("A", "FAN"): [(1, 5, 0)], ("A", "SET"): [(0, 60, 0)]}
    for more, wanted in (([], ["SET", "PUMP"]), ([mrp.Usage("A", "FAN", "SET", 1, 1, 1)], ["SET", "PUMP"]), (None, ["SET", "PUMP", "FAN"])):
        found, of_fan = lacks.Lacks(), ("A", "FAN", "SET")
        found.take(mrp.Shortage("A", "RING", "bill", "A", "SET", 60, 50))
        known = {**usages, of_fan: usages[of_fan] + more if more is not None else []}
        found.pass_up(hits.Takes(io.StringIO(table), known), reports.Policies(), lambda pair: orders.get(pair, ()))
        assert sorted(found.of) == sorted(("A", it) for it in wanted)


def test_phantoms_without_an_order_that_is_due_pass_nothing_up():
    """By hand. The set that is on hand is there for the pump, and the firm sets that are due later lack rings."""
    table = """\
run,2026-01-05,7,2,,,,
plant,A,,,,,,
pair,A,PUMP,make,lot,1,0,0
pair,A,SET,make,lot,0,1,0
pair,A,RING,buy,lot,1,0,0
bill,A,PUMP,SET,1,,,
bill,A,SET,RING,1,,,
firm,A,PUMP,0,1,1,,
firm,A,SET,0,1,5,,
"""
    takes, found, orders = hits.Takes(io.StringIO(table), {}), lacks.Lacks(), {("A", "PUMP"): [(1, 1, 0)], ("A", "SET"): [(1, 5, 0)]}
    found.take(mrp.Shortage("A", "RING", "bill", "A", "SET", 5, 5))
    found.pass_up(takes, reports.Policies(), lambda pair: orders.get(pair, ()))
    assert [*found.of] == [("A", "SET")]
    # (were one due now, the pump would lack them)
    orders["A", "SET"].append((0, 1, 0))
    found.pass_up(takes, reports.Policies(), lambda pair: orders.get(pair, ()))
    assert [*found.of] == [("A", "SET"), ("A", "PUMP")]
    assert found.lines(("A", "PUMP"), lambda own, plant, item: item) == ["RING 5 of 5 for SET"]


# By hand. Of the 15 sets 3 are there, 2 are due and 10 are made, of 40 rings, of which 20 are there and 40 are due. Of 10 motors 6 are there,
# one is in transit, 2 are due, and one B ships. What is due now comes later.
COMING = """\
receipt,A,RING,0,40,,,
receipt,A,MOTOR,0,2,,,
receipt,A,SET,0,2,,,
ship,B,A,MOTOR,0,1,,
firm,"""
COMES = """\
row,plant,item,period,date,quantity,name,description,note,comes
receipt,A,RING,0,2026-01-05,40,,,,2026-01-12
receipt,A,MOTOR,0,2026-01-05,2,,,,2026-01-12
receipt,A,SET,0,2026-01-05,2,,,,2026-01-12
"""


def test_receipts_that_come_later_are_not_there(room, program):
    """By hand: the 10 pumps find 7 motors, and the 5 fans behind them 3 of 13 sets; 20 of 40 rings are missing for these. On the day on which
    they are due all but a motor is there.
    """
    room.write("table.csv", LACKING.replace("firm,", COMING))
    room.write("names.csv", COMES)

    def lacking(more):
        rows = csv.DictReader(room.run(f"bin/orders {more} < table.csv").splitlines())
        return {it["item"]: it["lacks"] for it in rows if it["lacks"]}

    assert lacking("") == {"PUMP": "MOTOR 1 of 10"}
    rings = "RING 20 of 40"
    wanted = {"PUMP": f"MOTOR 3 of 10; {rings} for SET", "FAN": f"SET 2 of 5; {rings} for SET", "SET": rings}
    assert lacking("--names names.csv") == wanted
    text = room.run("bin/page --names names.csv < table.csv")
    assert {it[0]: it[4] for it in listed(text, "release") if "lacks" in it[4]}.keys() == wanted.keys()
    # (on the day itself, or earlier)
    room.run("sed -i 's/2026-01-12$/2026-01-11/' names.csv")
    assert lacking("--names names.csv") == {"PUMP": "MOTOR 1 of 10"}


def test_many_receipts_that_come_later(room, program, monkeypatch):
    """Of many pairs one report says what asks for them."""
    room.write("table.csv", LACKING.replace("firm,", COMING))
    room.write("names.csv", COMES)
    monkeypatch.setenv("MRP", program)
    policies, names, found = reports.Policies(f"{room.folder}/table.csv"), mrp.Names(f"{room.folder}/names.csv"), []
    late = lacks.late_now(names, policies.calendar)
    for few in (3, 2):
        monkeypatch.setattr(lacks, "FEW", few)
        found.append([*lacks.without_late([], policies, late, lambda pair: [(0, 10, 0)] if pair[1] == "SET" else [])])
    wanted = [("RING", "SET", 40, 20), ("MOTOR", "PUMP", 10, 3), ("SET", "FAN", 5, 2)]
    for rows in found:
        assert sorted((it.item, it.by_item, it.quantity, it.short) for it in rows) == sorted(wanted)


def test_many_shortages_are_cut():
    found = lacks.Lacks()
    for it in range(lacks.MOST + 5):
        found.take(mrp.Shortage("A", f"X{it}", "bill", "A", "P", 2, 1))
        found.take(mrp.Shortage("A", f"X{it}", "demand", "A", f"X{it}", 2, 1))
    assert ([*found.of], len(found.of["A", "P"])) == ([("A", "P")], lacks.MOST)
