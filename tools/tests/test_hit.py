"""bin/hit."""
import array
import datetime
import random
import tempfile

import delays
import firms
import hits
import mrp
import oracle
import reports
from support import DELAYED, reports_from_files, TOP
from test_oracle import COVERED, FENCED, SOONER
from test_record import FIRM, FIRM_ORDERS, FIRM_PEGS, FIRM_PLAN

# By hand, with the orders of DELAYED_PLAN. X has 10 for the 11 of period 1 and the 16 of period 2, until the 3 and the
# 5 come in period 3. Y has 9 for the 5 of period 1, though the order for its safety stock is late, and for the 12 of
# period 4, until the 8 come in period 6.
DELAYED_HITS = "hit,A,X,1,2026-01-12,7,2,A,X\nhit,A,Y,4,2026-02-02,7,2,A,Y\nhit,A,X,2,2026-01-19,5,1,A,X\n"


def test_hit_is_worked_by_hand(room):
    """By two reports, whatever a table's rows look like, and read back by name."""
    for table in (
        DELAYED,
        "\ufeff" + DELAYED.replace("pair,A,X", 'pair,"A","X"').replace("demand", '"demand"').replace("\n", "\r\n"),
    ):
        reports_from_files(room, table, "orders", "plan")
        assert room.run("rm -f asked; MRP=words/files bin/hit < table.csv") == DELAYED_HITS
        assert room.run("cat asked") == "orders\nplan\n"
    assert (
        room.run("MRP=words/files bin/hit --header < table.csv")
        == f"row,plant,item,period,date,quantity,late_at_worst,by_plant,by_item\n{DELAYED_HITS}"
    )
    rows = [*reports.parts(it.encode() for it in DELAYED_HITS.splitlines(keepends=True))]
    assert rows[1] == mrp.Hit("A", "Y", 4, datetime.date(2026, 2, 2), 7, 2, "A", "Y")
    assert (
        room.run("sed -i 's/^demand,A,[XY].*//' table.csv; : > orders.csv; MRP=words/files bin/hit < table.csv") == ""
    )


def test_hit_says_what_the_program_refuses(room, program):
    """In the program's line, with status 1; and what bin/why shows of the late order has the demands."""
    assert room.run("bin/hit < examples/bicycle.plan.csv", status=1) == room.run(
        "mrp pegs < examples/bicycle.plan.csv", status=1
    )
    found = [it.split(",") for it in room.run("bin/hit < examples/pumps.csv").splitlines()]
    assert (len(found), {(it[7], it[8]) for it in found}) == (9, {("FOUNDRY", "CASTING")})
    said = room.run("bin/why FOUNDRY CASTING 0 < examples/pumps.csv")
    for it in found:
        assert f" {it[5]} demand\n" in said


def test_hits_are_what_others_find(room):
    """Of random firms: from each demand down, and by plans that are played, in which no demand waits longer; and
    bin/why leads from the late order to it.
    """
    count, longest, followed, shared = 0, 0, 0, 0
    for seed in range(400):
        table = firms.table(random.Random(seed), 6, 14)
        firm = oracle.Oracle(table).firm
        if not firm or firm.periods > 26:
            continue
        waiting = firm_of_hits(table)
        found = [*waiting.hits()]
        for pair, also in waiting.others(found).items():
            # (what its late orders alone would hit waits for them)
            alone = {it[:3] for it in firm_of_hits(table, pair).hits()} - {it[:3] for it in firm_of_hits(table, ()).hits()}
            assert alone - {it[:3] for it in also} == set(), (seed, pair)
            shared += len(alone)
        waits = {(it.plant, it.item, it.period): it.late_at_worst for it in found}
        assert waits == delays.Waits(firm).demands(), seed
        assert [(it.date, it.quantity) for it in found] == [
            (firm.day(it.period), firm.demand[it.plant, it.item][it.period]) for it in found
        ], seed
        # (where a source of several has no part of a release, its order may come before one that is due before, and so may
        # a planned order, or a firm one, where a firm one isn't given the lead time; and what waits for a receipt that counts
        # sooner may wait for no release)
        is_plain = b"\nfirm," not in table and not any(it.sooner for it in firm.policies.values())
        if all(len(it.sources) < 2 for it in firm.pairs.values()) and is_plain:
            assert [it for it in found if it[:3] not in delays.demands_above(firm, it[-2:])] == [], seed
            followed += len(found)
        played = delays.played(firm, random.Random(seed))
        assert len(played) == sum(1 for demands in firm.demand.values() for it in demands if it), seed
        assert [it for it, met in played.items() if met > it[2] + waits.get(it, 0)] == [], seed
        count, longest = count + len(found), longest + sum(
            played[it] == it[2] + periods for it, periods in waits.items()
        )
    # (nearly all wait as long as they may, in one play)
    assert count > 400
    assert longest > 0.9 * count
    assert followed > 60
    assert shared > 200


def test_hit_goes_up_a_long_chain(room):
    """Of 20,000 pairs, each of which waits for the next: in a second, and not in the room that so many periods would
    take.
    """
    room.stand_in("words/files", "from_files")
    pairs, last = range(20_000), 19_999
    rows = [f"pair,P,I{it},{'make' if it < last else 'buy'},lot,104,0,0" for it in pairs] + [
        f"bill,P,I{it - 1},I{it},1,,," for it in pairs[1:]
    ]
    room.write("table.csv", "\n".join(["run,2026-01-05,7,4,,,,", "plant,P,,,,,,", *rows, "demand,P,I0,3,7,,,"]))
    room.write(
        "orders.csv",
        "".join(
            f"order,P,I{it},make,7,0,2026-01-05,{0 if it else 3},2026-01-05,{104 if it else 101}\n" for it in pairs
        ),
    )
    first, other = [(0, 7), (0, 0), (0, 0), (7, 0)], [(7, 7), (0, 0), (0, 0), (0, 0)]
    room.write("plan.csv", "".join(plan_of("P", f"I{it}", other if it else first) for it in pairs))
    assert (
        room.run("ulimit -v 400000; MRP=words/files bin/hit < table.csv")
        == f"hit,P,I0,3,2026-01-26,7,{104 * 20_000 - 3},P,I{last}\n"
    )


def plan_of(plant, item, figures):
    """Returns the plan rows of a pair in weeks: gross requirements and releases by period, and what comes in where it is given. What is
    planned and available is 0, for bin/hit has the orders."""
    lines = ""
    for period, (gross, release, *incoming) in enumerate(figures):
        day = datetime.date(2026, 1, 5) + datetime.timedelta(days=7 * period)
        lines += f"plan,{plant},{item},{period},{day},{gross},{sum(incoming)},0,{release},0\n"
    return lines


def write_firm(room, table, orders, plan, pegs=""):
    """Writes a table with firm orders, and its reports by hand for the program words/files."""
    room.stand_in("words/files", "from_files")
    for name, text in (("table", table), ("orders", orders), ("plan", plan), ("pegs", pegs), ("advice", "")):
        room.write(f"{name}.csv", text)


def test_firm_orders_wait_for_what_they_take(room):
    """By hand. The 40 C that the firm P take in period 0 come in period 1, so the firm 20 come in period 4 in place of 3:
    the 30 of period 3 wait a period, and bin/why leads from C to them. Of C that is on hand, or that the order takes when
    it is there, nothing is late, however long the order takes.
    """
    write_firm(room, FIRM, FIRM_ORDERS, FIRM_PLAN, FIRM_PEGS)
    assert room.run("MRP=words/files bin/hit < table.csv") == "hit,A,P,3,2026-01-26,30,1,A,C\n"
    said = room.run("MRP=words/files bin/why A C 0 < table.csv")
    assert "20 released in period 0, due in period 3 (2026-01-26), firm\n        30 required in period 3\n" in said
    orders = FIRM_ORDERS.replace("order,A,C,buy,40,0,2026-01-05,0,2026-01-05,1\n", "")
    plan = FIRM_PLAN.replace("40,0,40,50,0", "40,0,0,10,0")
    write_firm(room, FIRM.replace("A,C,buy,lot,1,0", "A,C,buy,lot,1,40"), orders, plan)
    assert room.run("MRP=words/files bin/hit < table.csv") == ""
    # (40 C are late, for a demand of their own, and the firm order starts a period later)
    table = FIRM.replace("firm,A,P,0", "firm,A,P,1").replace("demand,A,P,3", "demand,A,C,0,40,,,\ndemand,A,P,3")
    plan = plan_of("A", "P", [(0, 0), (0, 25), (0, 10), (30, 0, 20), (10, 0)])
    plan += plan_of("A", "C", [(40, 90), (50, 20), (20, 0), (0, 0), (0, 0)])
    orders = FIRM_ORDERS.replace("20,0,2026-01-05,3", "20,1,2026-01-12,3").replace("buy,10,0", "buy,50,0")
    write_firm(room, table, orders, plan)
    assert room.run("MRP=words/files bin/hit < table.csv") == "hit,A,C,0,2026-01-05,40,1,A,C\n"


def test_firm_orders_may_take_longer_than_lead_times(room):
    """By hand. The firm 20 take five periods, three more than the lead time, and C is a period late: so they come in period 6,
    and the demand of period 5 waits. That of period 6 doesn't, for the 9 that are planned for it come in time.
    """
    table = FIRM.replace("7,5,,", "7,8,,").replace("P,3,30", "P,5,25").replace("P,4,10", "P,6,9").replace("0,3,20", "0,5,20")
    orders = "firm,A,P,make,20,0,2026-01-05,5,2026-02-09,0\norder,A,P,make,9,4,2026-02-02,6,2026-02-16,0\n"
    orders += "order,A,C,buy,40,0,2026-01-05,0,2026-01-05,1\norder,A,C,buy,18,3,2026-01-26,4,2026-02-02,0\n"
    plan = plan_of("A", "P", [(0, 20), (0, 0), (0, 0), (0, 0), (0, 9), (25, 0, 20), (9, 0), (0, 0)])
    plan += plan_of("A", "C", [(40, 40), (0, 0), (0, 0), (0, 18), (18, 0), (0, 0), (0, 0), (0, 0)])
    write_firm(room, table, orders, plan)
    assert room.run("MRP=words/files bin/hit < table.csv") == "hit,A,P,5,2026-02-09,25,1,A,C\n"


def test_hit_follows_firm_orders_through_plants(room):
    """By hand. B buys X a week ahead and has none; W calls for a firm 30 in period 0, due in period 1, and for 5 in period 1.
    So the 30 leave B a week late, and the demand of period 1 waits: 10 are under way for its 20.
    """
    table = "run,2026-01-05,7,4,,,,\nplant,W,,,,,,\nplant,B,,,,,,\npair,W,X,from:B,lot,1,0,0\npair,B,X,buy,lot,1,0,0\n"
    table += "demand,W,X,1,20,,,\ndemand,W,X,2,25,,,\nship,B,W,X,1,10,,\ncum,B,W,X,500,,,\nfirm,W,X,0,1,30,,\n"
    orders = "firm,W,X,from:B,30,0,2026-01-05,1,2026-01-12,0\norder,W,X,from:B,5,1,2026-01-12,2,2026-01-19,0\n"
    orders += "order,B,X,buy,30,0,2026-01-05,0,2026-01-05,1\norder,B,X,buy,5,0,2026-01-05,1,2026-01-12,0\n"
    plan = plan_of("W", "X", [(0, 30), (20, 5, 10, 30), (25, 0), (0, 0)])
    plan += plan_of("B", "X", [(30, 35), (5, 0), (0, 0), (0, 0)])
    write_firm(room, table, orders, plan)
    assert room.run("MRP=words/files bin/hit < table.csv") == "hit,W,X,1,2026-01-12,20,1,B,X\n"


def test_receipts_that_count_sooner_are_there_when_they_come(room):
    """By hand. Of the 60 that come in period 3 the plan counts 40 in period 1, and no order is late. 10 - 5 are there for the 40 of
    period 1 until they come, two periods later; with them 70 - 45 are there for the 30 of period 3, and the 10 that are ordered.
    Expedited, nothing waits. A firm P of which the 40 X are taken in period 1 comes two periods later too.
    """
    reports_from_files(room, SOONER, "orders", "plan")
    assert room.run("cat plan.csv | grep late || echo none") == "none\n"
    assert room.run("MRP=words/files bin/hit < table.csv") == "hit,A,X,1,2026-01-12,40,2,A,X\n"
    reports_from_files(room, SOONER.replace("receipt,A,X,3", "receipt,A,X,1"), "orders", "plan")
    assert room.run("MRP=words/files bin/hit < table.csv") == ""
    taken = SOONER.replace("pair,A,X", "pair,A,P,make,lot,1,0,0\npair,A,X").replace("demand,A,X,1,40", "demand,A,P,2,40")
    taken = taken.replace("demand,A,X,0", "bill,A,P,X,1,,,\ndemand,A,X,0")
    for table in (taken, taken.replace("policy", "firm,A,P,1,2,40,,\npolicy")):
        reports_from_files(room, table, "orders", "plan")
        assert room.run("MRP=words/files bin/hit < table.csv") == "hit,A,P,2,2026-01-19,40,2,A,X\n"


def test_orders_behind_a_fence_hit_demands(room):
    """By hand. The 8 of period 2 are released in period 2, behind the fence, and come in period 3: the 2 on hand there aren't the 10.
    The 10 of period 3 are there then. With a period covered the orders are for the demands of the period behind: the 10 on hand
    are not the 5 and the 5, and 20 more, until the 20 that are due in period 1 come in period 2, in time.
    """
    reports_from_files(room, FENCED, "orders", "plan")
    assert room.run("MRP=words/files bin/hit < table.csv") == "hit,A,P,2,2026-01-19,10,1,A,P\n"
    reports_from_files(room, COVERED.replace("X,0,0,1,0,0", "X,2,0,1,0,0"), "orders", "plan")
    assert "late,A,X,1,20,1\n" in room.run("cat plan.csv")
    assert room.run("MRP=words/files bin/hit < table.csv") == ""
    reports_from_files(room, COVERED.replace("X,0,0,1,0,0", "X,3,0,1,0,0"), "orders", "plan")
    assert room.run("MRP=words/files bin/hit < table.csv") == "hit,A,X,2,2026-01-19,20,1,A,X\n"


# A quarter of C goes into each P. Of three that go into each Q none do in period 1.
FRACTION = """\
run,2026-01-05,7,4,,,,
plant,A,,,,,,
pair,A,P,make,lot,1,0,0
pair,A,Q,make,lot,1,0,0
pair,A,C,buy,lot,2,2,0
bill,A,P,C,1,,,
bill,A,Q,C,3,,,
demand,A,P,1,10,,,
demand,A,Q,2,40,,,
demand,A,C,0,1,,,
demand,A,C,1,1,,,
usage,A,P,C,0,1,4,
usage,A,Q,C,2,3,1,
usage,A,Q,C,1,0,1,
"""


def test_hits_take_the_usage_of_the_period(room):
    """By hand. The 10 P of period 0 take 2.5, so 3 C, and one is wanted: 2 are there, and 2 come two periods later, and so do the P. The C that
    is wanted in period 1 comes a period later. The 40 Q of period 1 don't wait, for they take none; by the bill they would.
    """
    reports_from_files(room, FRACTION, "orders", "plan")
    assert room.run("grep ^late plan.csv") == "late,A,C,0,2,2\nlate,A,C,1,1,1\n"
    hit = "hit,A,C,0,2026-01-05,1,2,A,C\nhit,A,P,1,2026-01-12,10,2,A,C\nhit,A,C,1,2026-01-12,1,1,A,C\n"
    assert room.run("MRP=words/files bin/hit < table.csv") == hit
    reports_from_files(room, FRACTION.replace("usage,A,Q,C,1,0,1,\n", ""), "orders", "plan")
    assert room.run("MRP=words/files bin/hit < table.csv") == f"{hit}hit,A,Q,2,2026-01-19,40,1,A,C\n"


def test_hits_have_the_dates_of_day_rows(room):
    """The hits of the table before, of which period 1 begins four weeks after period 0."""
    reports_from_files(room, FRACTION + "vendor,V,A,C,0,0,,\nday,1,2026-02-02,,,,,\n", "orders", "plan")
    hit = "hit,A,C,0,2026-01-05,1,2,A,C\nhit,A,P,1,2026-02-02,10,2,A,C\nhit,A,C,1,2026-02-02,1,1,A,C\n"
    assert room.run("MRP=words/files bin/hit < table.csv") == hit


def late_ones(firm, chance):
    """Returns open orders of a firm that come late, by kind and pair, as `reports.coming_late` gives them."""
    found = {"receipt": {}, "firm": {}}
    for pair, rows in firm.open_orders.items():
        for period, kind, _, quantity in rows:
            if kind in found and chance.random() < 0.5:
                found[kind].setdefault(pair, []).append(mrp.Late(*pair, period, quantity, chance.randrange(1, 2 + firm.periods)))
    return found


def test_open_orders_that_come_late_hit_what_others_find(room):
    """Of random firms, some of whose receipts and firm orders come later than they are due: from each demand down. Each that
    is hit has a pair that something of comes late."""
    count, longer = 0, 0
    for seed in range(500):
        table = firms.table(chance := random.Random(seed), 6, 14)
        firm = oracle.Oracle(table).firm
        if not firm or firm.periods > 26:
            continue
        late = late_ones(firm, chance)
        waiting = firm_of_hits(table, delays=late)
        found = {(it.plant, it.item, it.period): it for it in waiting.worst_first()}
        without = {(it.plant, it.item, it.period): it.late_at_worst for it in firm_of_hits(table).hits()}
        assert {it: hit.late_at_worst for it, hit in found.items()} == delays.Waits(firm, late).demands(), seed
        pairs = {*waiting.orders.late, *late["receipt"], *waiting.policies.comes}
        assert [it for it in found.values() if (it.by_plant, it.by_item) not in pairs] == [], seed
        count, longer = count + len(found), longer + sum(it.late_at_worst > without.get(key, 0) for key, it in found.items())
        waiting.others([*found.values()])
    assert count > 600
    assert longer > 100


def firm_of_hits(table, late=None, delays=()):
    """Returns the firm of a table for its hits, by the reports of tools/oracle.py; with the late orders of one pair
    alone where it is given, or of none; with open orders that come late.
    """
    answers = [oracle.Oracle(table).answer(it).out.splitlines(keepends=True) for it in ("orders", "plan")]
    delays = dict(delays)
    orders = hits.Orders(answers[0], delays.get("firm", {}))
    for pair in orders.late - {late} if late is not None else ():
        orders.of[pair][3::4] = array.array("q", [0] * (len(orders.of[pair]) // 4))
    orders.late = orders.late if late is None else orders.late & {late}
    with tempfile.NamedTemporaryFile() as file:
        file.write(table)
        file.flush()
        firm = hits.Firm(table.decode().splitlines(keepends=True), orders, reports.Policies(file.name), delays.get("receipt", {}))
    firm.take_plan(answers[1])
    return firm


# By hand: of the sheets of the example without motors, on hand or on order. 20 are due in period 0 and come in period
# 2. 14 go into pumps in period 1, and wait a period; so do the 17 pumps that are asked for in period 2, of which 2 go
# to the depot and are asked for there in period 3.
WITHOUT_MOTORS = """\
WORKS 100/250-A (Pump, 2.5 kW): 15 in period 2 (2026-12-14), 1 period late at worst by WORKS MOTOR (Motor 2.5 kW)
  8 of 2026-12-16: Order 4720, Customer Grundmann
  7 of 2026-12-18: Order 4722, Customer Weber
DEPOT 100/250-A (Pump, 2.5 kW): 6 in period 3 (2026-12-21), 1 period late at worst by WORKS MOTOR (Motor 2.5 kW)
  6 of 2026-12-22: Order 4725, Customer Spares
"""


def test_hit_shows_the_demands_of_sheets(room):
    """With --names in lines to read, with order numbers and customers; else in rows, which have the names of the
    table.
    """
    room.run("cp -r examples/sheets firm && rm firm/receipts.csv && sed -i '/MOTOR/s/,8,2$/,0,2/' firm/items.csv")
    room.run("bin/sheets --names names.csv firm > table.csv 2> said")
    said = room.run("bin/hit --header --names names.csv < table.csv", status=2)
    assert said == "bin/hit: argument --names: not allowed with argument --header\n"
    room.needs_program()
    assert room.run("bin/hit --names names.csv < table.csv") == WITHOUT_MOTORS
    rows = "hit,WORKS,100_250-A,2,2026-12-14,15,1,WORKS,MOTOR\nhit,DEPOT,100_250-A,3,2026-12-21,6,1,WORKS,MOTOR\n"
    assert room.run("bin/hit < table.csv") == rows
    # (of what no sheet says anything, the names of the table)
    room.run("sed -i '3,$d' names.csv")
    wanted = "DEPOT 100_250-A: 6 in period 3 (2026-12-21), 1 period late at worst by WORKS MOTOR"
    assert room.run("bin/hit --names names.csv < table.csv").splitlines()[1] == wanted


# By hand. 20 wheels are due on 14 December for the 10 bicycles that start then, and come two weeks later: so do the bicycles, of
# which 10 are wanted on 21 December. 5 more of the week before are firm, and come a week late.
COMING = {
    "firm.csv": "First day,Days,Periods\n2026-11-30,7,6\n",
    "items.csv": "Plant,Item,Supply,Lot rule,Lead (periods),On hand,Safety stock\nP1,BIKE,make,lot,1,0,0\nP1,WHEEL,buy,lot,2,10,0\n",
    "bills.csv": "Plant,Parent,Component,Per\nP1,BIKE,WHEEL,2\n",
    "demands.csv": "Order,Plant,Item,Due,Quantity\n47,P1,BIKE,2026-12-21,10\n46,P1,BIKE,2026-12-14,5\n",
    "receipts.csv": "Order,Plant,Item,Due,Quantity,Comes\nP-7,P1,WHEEL,2026-12-14,20,2026-12-29\nP-8,P1,WHEEL,2026-12-28,1,2026-12-28\n",
    "firm_orders.csv": "Order,Plant,Item,Start,Due,Quantity,Comes\nFA-1,P1,BIKE,2026-12-07,2026-12-16,5,2026-12-21\n",
}
COMING_HITS = """\
P1 BIKE: 10 in period 3 (2026-12-21), 2 periods late at worst by P1 WHEEL
  10 of 2026-12-21: Order 47
P1 BIKE: 5 in period 2 (2026-12-14), 1 period late at worst by P1 BIKE
  5 of 2026-12-14: Order 46
"""


def sheets_of(room, sheets):
    """Makes the table and names.csv of sheets, and asks tools/oracle.py where there is no program."""
    room.run("mkdir -p firm")
    for name, text in sheets.items():
        room.write(f"firm/{name}", text)
    if not room.program:
        room.stand_in("words/planner", "planner", top=TOP)
        room.variables["MRP"] = f"{room.folder}/words/planner"
    room.run("bin/sheets --today 2026-11-30 --names names.csv --out table.csv firm 2> said")


def test_open_orders_that_come_late_hit_demands(room):
    """By the column Comes of the sheets, whatever the form of its dates; without names they come when they are due."""
    sheets_of(room, COMING)
    assert room.run("bin/hit < table.csv") == ""
    assert room.run("bin/hit --names names.csv < table.csv") == COMING_HITS
    assert room.run("head -1 names.csv; grep -E '^(receipt|firm),.*WHEEL|FA-1' names.csv").splitlines() == [
        "row,plant,item,period,date,quantity,name,description,note,comes",
        'receipt,P1,WHEEL,2,2026-12-14,20,,,"Order P-7, Comes 2026-12-29",2026-12-29',
        'receipt,P1,WHEEL,4,2026-12-28,1,,,"Order P-8, Comes 2026-12-28",2026-12-28',
        'firm,P1,BIKE,2,2026-12-16,5,,,"Start 2026-12-07, Order FA-1, Comes 2026-12-21",2026-12-21',
    ]
    german = {**COMING, "receipts.csv": COMING["receipts.csv"].replace("Comes", "Kommt am").replace("2026-12-29", "29.12.2026")}
    sheets_of(room, german)
    assert room.run("bin/hit --names names.csv < table.csv") == COMING_HITS
    # (what comes before it is due, and behind the end: the first 5 have then 5 of the 10)
    sooner = COMING["receipts.csv"].replace("2026-12-29", "2026-12-01")
    sheets_of(room, {**COMING, "receipts.csv": sooner, "firm_orders.csv": COMING["firm_orders.csv"].replace("2026-12-21", "2027-02-22")})
    said = "P1 BIKE: 10 in period 3 (2026-12-21), 9 periods late at worst by P1 BIKE"
    assert room.run("bin/hit --names names.csv < table.csv").splitlines()[0] == said
    room.write("firm/receipts.csv", COMING["receipts.csv"].replace("2026-12-29", "soon"))
    assert room.run("bin/sheets firm", status=1).splitlines()[0] == "receipts.csv row 2, Comes: 'soon' is no date; write it as 2026-12-01"


def test_a_booked_late_order_hits_what_the_planned_one_hit(room):
    """Of the example without motors: planned, booked as a receipt, and as a firm order."""
    room.run("cp -r examples/sheets firm && rm firm/receipts.csv && sed -i '/MOTOR/s/,8,2$/,0,2/' firm/items.csv")
    sheets_of(room, {})
    room.run("bin/orders --names names.csv < table.csv | grep -E '^row|MOTOR' > orders.csv")
    assert room.run("bin/hit --names names.csv < table.csv") == WITHOUT_MOTORS
    for word in ("", "--firm"):
        room.run(f"rm -rf new && cp -r firm new && bin/book {word} --number P- --out new orders.csv firm")
        room.run("bin/sheets --today 2026-11-30 --names names.csv --out table.csv new 2> said")
        assert room.run("bin/hit < table.csv") == ""
        assert room.run("bin/hit --names names.csv < table.csv") == WITHOUT_MOTORS
