"""bin/compare."""
import itertools
import random

import oracle
import plans
from support import plan_rows


def test_compare_says_what_changed(room):
    """An order moved, one grew, one came, and one went; what is due outside the days of both plans is counted, and so
    is what is due in their last third.
    """
    room.write("old.csv", plan_rows("2026-01-01", 1, {"X": (5, 0, 7, 0), "Y": (0, 3, 0, 9), "Z": (0, 0, 8, 0)}))
    room.write("new.csv", plan_rows("2026-01-02", 1, {"X": (7, 0, 0, 4), "Y": (3, 20, 90, 0), "Z": (0, 0, 0, 0)}))
    said = """\
A X
  2026-01-02  moved   7 from 2026-01-03
A Y
  2026-01-03  came    20
{}A Z
  2026-01-03  went    8
{} changes in 3 pairs; late orders: none before, none now.
{} orders in the last periods or outside the days of both plans, not compared.
"""
    assert room.run("bin/compare --all old.csv new.csv") == said.format("  2026-01-04  grew    from 9 to 90\n", 4, 2)
    assert room.run("bin/compare old.csv new.csv") == said.format("", 3, 4)
    assert "2 more pairs that matter less left out." in room.run("bin/compare --pairs 1 old.csv new.csv")
    assert room.run("bin/compare old.csv old.csv") == "0 changes in 0 pairs; late orders: none before, none now.\n"
    # (that both end on the same day isn't taken for chance; so many periods may be left out all the same, and be all)
    room.write("other.csv", plan_rows("2026-01-01", 1, {"X": (5, 0, 7, 6), "Y": (0, 3, 0, 9), "Z": (0, 0, 8, 0)}))
    assert "A X\n  2026-01-04  came    6\n1 change in 1 pair;" in room.run("bin/compare old.csv other.csv")
    said = room.run("bin/compare --last 1 old.csv other.csv")
    assert "0 changes in 0 pairs;" in said
    assert "\n3 orders in the last periods" in said
    said = room.run("bin/compare --last 9 old.csv new.csv")
    assert "0 changes in 0 pairs;" in said
    assert "\n10 orders in the last periods" in said


def test_compare_pairs_the_nearest(room):
    """In order, and at most some periods apart; orders in a row that move by as much are one line, and one that moves
    and grows is one too.
    """
    series = {
        "S": (0, 9, 20, 0, 30, 0, 40, 0, 50, 0),
        "F": (0, 80, 0, 0, 0, 0, 0, 0, 0, 0),
        "N": (0, 0, 70, 0, 0, 0, 0, 0, 70, 0),
    }
    room.write("old.csv", plan_rows("2026-01-05", 7, series))
    series = {
        "S": (0, 9, 0, 20, 0, 30, 0, 40, 0, 60),
        "F": (0, 0, 0, 0, 0, 0, 80, 0, 0, 0),
        "N": (0, 0, 0, 75, 0, 0, 0, 0, 70, 0),
    }
    room.write("new.csv", plan_rows("2026-01-05", 7, series))
    assert (
        room.run("bin/compare old.csv new.csv")
        == """\
A S
  2026-01-26  moved   4 orders, the last to 2026-03-09, each 1 period later, 150 pieces for 140
A F
  2026-01-12  went    80
  2026-02-16  came    80
A N
  2026-01-26  moved   75 from 2026-01-19, 70 before
4 changes in 3 pairs; late orders: none before, none now.
"""
    )
    assert "A F\n  2026-02-16  moved   80 from 2026-01-12\n" in room.run("bin/compare --within 5 old.csv new.csv")


def test_compare_pairs_as_no_other_way_does_better(room):
    """By all ways in which a few orders can be paired; and all of 104 periods at once."""
    chance, both = random.Random(1), plans.Comparison.__new__(plans.Comparison)
    both.reach, both.at, both.first, both.last = 2, int, 2, 8
    for _ in range(300):
        old, new = (
            [
                plans.Order(day, chance.choice((5, 10, 20)), 0)
                for day in sorted(chance.sample(range(10), chance.randint(0, 5)))
            ]
            for _ in "12"
        )
        found = both.partners(old, new)
        assert ([it for it, _ in found if it], [it for _, it in found if it]) == (old, new)
        ways = [
            [*zip(one, other)]
            for count in range(6)
            for one in itertools.combinations(old, count)
            for other in itertools.combinations(new, count)
        ]
        ways = [it for it in ways if all(abs(one.day - other.day) <= 2 for one, other in it)]
        assert weight([it for it in found if None not in it], old, new) == min(weight(it, old, new) for it in ways)
    room.write("old.csv", plan_rows("2026-01-05", 7, {"X": range(1, 105)}))
    room.write("new.csv", plan_rows("2026-01-05", 7, {"X": range(2, 106)}))
    assert "104 changes in 1 pair;" in room.run("bin/compare --within 104 old.csv new.csv")


def test_compare_pairs_all_periods_of_large_plans(room):
    """520 of them: each order is a piece larger than before, and one that comes a week later is its own partner."""
    room.write("old.csv", plan_rows("2026-01-05", 7, {"X": range(1, 521), "Y": [0] * 519 + [5]}))
    room.write("new.csv", plan_rows("2026-01-05", 7, {"X": range(2, 522), "Y": [0] * 518 + [5, 0]}))
    said = room.run("bin/compare old.csv new.csv").splitlines()
    assert said[:2] == ["A X", "  2026-01-05  grew    from 1 to 2"]
    assert said[-3:-1] == ["A Y", "  2035-12-10  moved   5 from 2035-12-17"]
    assert said[-1] == "521 changes in 2 pairs; late orders: none before, none now."


def weight(partners, old, new):
    """Returns the days between partners, with three for each order that has none in the days from 2 to 7, and the
    pieces by which they differ.
    """
    alone = [
        *(it for it in old if it not in [one for one, _ in partners]),
        *(it for it in new if it not in [other for _, other in partners]),
    ]
    alone = [it for it in alone if 2 <= it.day < 8]
    days = sum(abs(one.day - other.day) for one, other in partners) + 3 * len(alone)
    return days, sum(abs(one.quantity - other.quantity) for one, other in partners) + sum(it.quantity for it in alone)


def test_compare_says_first_what_matters(room):
    """Orders that are late by more or fewer periods; this month; by their share of the gross requirements.

    One that is released is no change.
    """
    orders = {
        "E": (0,) * 8 + (90,),
        "M": (0, 10),
        "K": (0, 0, 9),
        "T": (0, 0, 0, 4),
        "L": (0, 5),
        "O": (6,),
        "R": (0, 50),
        "S": (0, 8, 7),
        "A": (3,),
    }
    orders = {item: row + (0,) * (9 - len(row)) for item, row in orders.items()}
    gross = {"E": 100, "M": 1000, "K": 20, "T": 80, "L": 50, "O": 6, "R": 50, "S": 800, "A": 3}
    room.write(
        "old.csv",
        plan_rows("2026-01-05", 7, orders, [("T", 3, 2), ("O", 0, 1), ("S", 1, 5), ("S", 2, 4), ("A", 0, 4)], gross),
    )
    orders |= dict.fromkeys("EMKR", (0,) * 9)
    orders["S"] = (8, 7) + (0,) * 7
    late = [("L", 1, 1), ("O", 0, 5), ("S", 0, 4), ("S", 1, 4), ("A", 0, 4)]
    room.write("new.csv", plan_rows("2026-01-05", 7, orders, late, gross, {"R": [0, 50] + [0] * 7}))
    assert (
        room.run("bin/compare old.csv new.csv")
        == """\
A O
  2026-01-05  later   6, 1 period late before, 5 now
A L
  2026-01-12  late    5, 1 period late now
A T
  2026-01-26  in time 4, 2 periods late before
A S
  2026-01-05  moved   8 from 2026-01-12, 5 periods late before, 4 now
  2026-01-12  moved   7 from 2026-01-19
A K
  2026-01-19  went    9
A M
  2026-01-12  went    10
A E
  2026-03-02  went    90
8 changes in 7 pairs; late orders: 5 by at most 5 periods before, 5 by at most 5 periods now.
"""
    )


def test_compare_takes_firm_orders_as_open_ones(room):
    """A planned order that is a firm one now, when it can come, is no change, and no firm one that is a receipt then; one
    that is firm for another period went. Rows of orders behind a plan are read.
    """
    orders, none = {"P": (0, 0, 9, 0, 0), "Q": (0, 7, 0, 0, 0), "R": (0, 0, 0, 5, 0)}, (0,) * 5
    room.write("old.csv", plan_rows("2026-01-05", 7, orders, [("Q", 1, 2)]))
    comes = {"P": (0, 0, 9, 0, 0), "Q": (0, 0, 0, 7, 0), "R": (0, 0, 5, 0, 0)}
    row = "firm,A,{},buy,{},0,2026-01-05,{},{},0\n".format
    firm = row("P", 9, 2, "2026-01-19") + row("Q", 7, 3, "2026-01-26") + row("R", 5, 2, "2026-01-19")
    plan = plan_rows("2026-01-05", 7, dict.fromkeys("PQR", none), incoming=comes)
    room.write("new.csv", plan + firm)
    said = room.run("bin/compare old.csv new.csv")
    assert said.startswith("A R\n  2026-01-26  went    5\n1 change in 1 pair;")
    # (a week later they are receipts, in the same periods)
    week = {it: figures[1:] + (0,) for it, figures in comes.items()}
    room.write("later.csv", plan_rows("2026-01-12", 7, dict.fromkeys("PQR", none), incoming=week))
    assert room.run("bin/compare --all new.csv later.csv").startswith("0 changes in 0 pairs;")


def test_compare_has_nothing_of_the_end(room):
    """Of firms that did for a week what the first plan said: nothing changed, but for what --all finds at the end."""
    count, at_the_end = 0, 0
    for seed in range(30):
        plans = two_weeks(random.Random(seed))
        if not plans:
            continue
        for name, plan in zip(("old.csv", "new.csv"), plans):
            room.write(name, plan)
        assert (
            room.run("bin/compare old.csv new.csv").splitlines()[0]
            == "0 changes in 0 pairs; late orders: none before, none now."
        ), seed
        count, at_the_end = count + 1, at_the_end + room.run("bin/compare --all old.csv new.csv").count("\n  ")
    assert count > 20
    assert at_the_end > 50


def two_weeks(chance):
    """Returns the plans of a firm of three levels and two plants, of 26 weeks, and of the week after; or nothing where
    it has late orders.
    """
    rules = ("lot", "fixed:20", "fixed:50", "periods:2", "periods:3", "min:10:5", "min:30:10")
    names = [("A", f"X{level}{it}") for level in range(3) for it in range(2)] + [("B", "X00"), ("B", "X01")]
    supply = {it: "from:A" if it[0] == "B" else "buy" if it[1] > "X2" else "make" for it in names}
    rows = [
        (
            *it,
            supply[it],
            chance.choice(rules),
            chance.choice((0, 1, 1, 2)),
            chance.choice((40, 80, 160)),
            chance.choice((0, 20)),
        )
        for it in names
    ]
    goes_into = (("X00", "X10"), ("X01", "X11"), ("X00", "X20"), ("X10", "X20"), ("X11", "X21"), ("X11", "X20"))
    bills = [("bill", "A", *it, chance.choice((1, 2))) for it in goes_into]
    demands = [
        (*it, t, chance.randint(1, 30)) for it in names if it[1] < "X1" for t in range(27) if chance.random() < 0.7
    ]

    def firm_of(first, rows, demands, receipts):
        table = [("run", first, 7, 26), ("plant", "A"), ("plant", "B"), *(("pair", *it) for it in rows), *bills]
        table += [*(("demand", *it) for it in demands if 0 <= it[2] < 26), *(("receipt", *it) for it in receipts)]
        return oracle.Oracle("".join(",".join(map(str, it)) + "," * (8 - len(it)) + "\n" for it in table).encode())

    old = firm_of("2026-01-05", rows, demands, [])
    plans, leads = old.firm.plans, {it[:2]: it[4] for it in rows}
    if any(any(plans[it].order[: leads[it]]) for it in names):
        return None
    released = [
        (*it, leads[it] - 1, plans[it].order[leads[it]]) for it in names if leads[it] and plans[it].order[leads[it]]
    ]
    rows = [(*it[:5], plans[it[:2]].available[0], it[6]) for it in rows]
    new = firm_of("2026-01-12", rows, [(*it[:2], it[2] - 1, it[3]) for it in demands], released)
    return [it.answer("plan").out.decode() for it in (old, new)]


def test_compare_takes_receipts_where_they_are_counted(room):
    """A late order that is on order now, and counted when it is due or when it comes, is no change; in between it is."""
    none, late = (0,) * 5, [(it, 1, 2) for it in "PQR"]
    room.write("old.csv", plan_rows("2026-01-05", 7, {it: (0, 7, 0, 0, 0) for it in "PQR"}, late))
    comes = {"P": (0, 7, 0, 0, 0), "Q": (0, 0, 0, 7, 0), "R": (0, 0, 7, 0, 0)}
    room.write("new.csv", plan_rows("2026-01-05", 7, dict.fromkeys("PQR", none), incoming=comes))
    said = room.run("bin/compare old.csv new.csv")
    assert said.startswith("A R\n  2026-01-12  went    7, 2 periods late before\n1 change in 1 pair;")


def test_compare_counts_periods_where_weekends_have_none(room):
    """By hand. The 1st of January is a Thursday. What moves from each of two Fridays to Monday moves by a period, and so within one of them."""
    days = "day,2,2026-01-05,,,,,\nday,7,2026-01-12,,,,,\n"
    table = "run,2026-01-01,1,10,,,,\nplant,A,,,,,,\npair,A,X,buy,lot,0,0,0\ndemand,A,X,{},5,,,\ndemand,A,X,{},6,,,\n" + days
    for name, periods in (("old", (1, 6)), ("new", (2, 7))):
        room.write(f"{name}.csv", oracle.Oracle(table.format(*periods).encode()).answer("plan").out.decode())
    wanted = "A X\n  2026-01-05  moved   2 orders, the last to 2026-01-12, each 1 period later\n1 change in 1 pair; late orders: none before, none now.\n"
    assert room.run("bin/compare --within 1 old.csv new.csv") == wanted
    assert wanted.replace("05  moved", "02  moved").replace("01-12", "01-09").replace("later", "earlier") == room.run("bin/compare --within 1 new.csv old.csv")


def test_compare_knows_the_end_behind_a_closed_week(room):
    """The last period is a week, though the one before it has two: so both plans end on the same day, and nothing is left out."""
    table = "run,2026-12-07,7,4,,,,\nplant,A,,,,,,\npair,A,X,buy,lot,0,0,0\ndemand,A,X,3,{},,,\nday,3,2027-01-04,,,,,\n"
    for name, quantity in (("old", 5), ("new", 6)):
        room.write(f"{name}.csv", oracle.Oracle(table.format(quantity).encode()).answer("plan").out.decode())
    assert str(plans.date.fromordinal(plans.Plan(f"{room.folder}/old.csv").end())) == "2027-01-11"
    assert "  2027-01-04  grew    from 5 to 6\n" in room.run("bin/compare old.csv new.csv")
