"""bin/record."""
import reports
from support import DELAYED, DELAYED_PLAN, plan_rows, reports_from_files, WITH_DELAYS
from test_oracle import FENCED, SOONER

# P takes two weeks and has 5; 30 are wanted in period 3 and 10 in period 4, and 20 are firm, from period 0 to 3.
# So 5 and 10 are planned. Each takes two C: 40 in period 0, and C takes a week, so these come late. All of it by hand.
FIRM = """\
run,2026-01-05,7,5,,,,
plant,A,,,,,,
pair,A,P,make,lot,2,5,0
pair,A,C,buy,lot,1,0,0
bill,A,P,C,2,,,
demand,A,P,3,30,,,
demand,A,P,4,10,,,
firm,A,P,0,3,20,,
"""
FIRM_PLAN = """\
plan,A,P,0,2026-01-05,0,0,0,20,5
plan,A,P,1,2026-01-12,0,0,0,5,5
plan,A,P,2,2026-01-19,0,0,0,10,5
plan,A,P,3,2026-01-26,30,20,5,0,0
plan,A,P,4,2026-02-02,10,0,10,0,0
plan,A,C,0,2026-01-05,40,0,40,50,0
plan,A,C,1,2026-01-12,10,0,10,20,0
plan,A,C,2,2026-01-19,20,0,20,0,0
plan,A,C,3,2026-01-26,0,0,0,0,0
plan,A,C,4,2026-02-02,0,0,0,0,0
late,A,C,0,40,1
"""
FIRM_ORDERS = """\
firm,A,P,make,20,0,2026-01-05,3,2026-01-26,0
order,A,P,make,5,1,2026-01-12,3,2026-01-26,0
order,A,P,make,10,2,2026-01-19,4,2026-02-02,0
order,A,C,buy,40,0,2026-01-05,0,2026-01-05,1
order,A,C,buy,10,0,2026-01-05,1,2026-01-12,0
order,A,C,buy,20,1,2026-01-12,2,2026-01-19,0
"""
FIRM_PEGS = """\
pegs,A,P,3,demand,A,P,30,1,30
pegs,A,P,4,demand,A,P,10,1,10
pegs,A,C,0,bill,A,P,20,2,40
pegs,A,C,1,bill,A,P,5,2,10
pegs,A,C,2,bill,A,P,10,2,20
"""
FIRM_RECORD = """\
A P: 5 on hand before 2026-01-05

Period                           0           1           2           3           4
First day               2026-01-05  2026-01-12  2026-01-19  2026-01-26  2026-02-02
Gross requirements                                                  30          10
Scheduled receipts                                                  20
  of which firm orders                                              20
Projected available              5           5           5           0           0
Planned order receipts                                               5          10
Planned order releases          20           5          10
  of which firm orders          20
"""


def test_record_is_as_planners_know_it(room):
    said = room.run("bin/record NORTH WHEEL < examples/three_plants.plan.csv")
    assert (
        said
        == """\
NORTH WHEEL: 40 on hand before 2026-01-05

Period                           0           1           2           3           4           5
First day               2026-01-05  2026-01-12  2026-01-19  2026-01-26  2026-02-02  2026-02-09
Gross requirements               8                      28          39
Scheduled receipts
Projected available             32          32          54          15          15          15
Planned order receipts                                  50
Planned order releases                      50
"""
    )
    assert "\nLate orders\n  9 due in period 1 (2026-01-12), 1 period late" in room.run(
        "bin/record SOUTH TUBE < examples/three_plants.plan.csv"
    )


def test_delays_are_worked_by_hand(room, program):
    """The plan from which the tests below begin is that of its table."""
    room.write("table.csv", DELAYED)
    assert room.run("mrp plan < table.csv") == DELAYED_PLAN


def test_record_has_late_orders_when_they_come(room):
    """Below zero with a mark, and only where a pair has late orders."""
    room.write("plan.csv", DELAYED_PLAN)
    for item, figures in WITH_DELAYS.items():
        lines = room.run(f"bin/record A {item} < plan.csv").splitlines()
        place = next(it for it, line in enumerate(lines) if line.startswith("Projected available"))
        assert lines[place + 1].split() == [
            "Available",
            "with",
            "delays",
            *(f"!{it}" if it < 0 else str(it) for it in figures),
        ]
    assert "with delays" not in room.run("bin/record A Z < plan.csv")


def test_record_fits_100_columns(room):
    """Twelve periods, and quantities of 16 digits."""
    said = room.run("bin/record P1 PART < examples/two_periods_of_supply.plan.csv")
    said += room.run("sed 's/,62$/,1000000000000000/' examples/two_periods_of_supply.plan.csv | bin/record P1 PART")
    assert "284" in said
    assert "1000000000000000" in said
    assert [it for it in said.split("\n") if len(it) > 100] == []


def test_record_has_all_periods_of_a_large_plan(room):
    """520 of them, block after block."""
    room.write("plan.csv", plan_rows("2026-01-05", 7, {"X": [0] * 519 + [7]}))
    lines = room.run("bin/record A X < plan.csv").splitlines()
    assert [it for line in lines if line.startswith("Period ") for it in line.split()[1:]] == [*map(str, range(520))]
    assert [it.split()[-1] for it in lines if it.startswith("Planned order receipts") and len(it.split()) > 3] == ["7"]


def test_record_names_the_nearest(room):
    said = room.run("bin/record SOUTH TUB < examples/three_plants.plan.csv", status=1)
    assert said == "bin/record: the report has no pair SOUTH TUB (SOUTH TUBE?)\n"
    said = room.run("bin/record WEST WHEEL < examples/three_plants.plan.csv", status=1)
    assert said == "bin/record: the report has no pair WEST WHEEL (NORTH WHEEL, SOUTH WHEEL, EAST WHEEL?)\n"


def test_firm_orders_are_worked_by_hand(room, program):
    """The reports from which the tests of firm orders begin are those of their table."""
    room.write("table.csv", FIRM)
    for word, wanted in (("plan", FIRM_PLAN), ("orders", FIRM_ORDERS), ("pegs", FIRM_PEGS)):
        assert room.run(f"mrp {word} < table.csv") == wanted


def test_record_tells_firm_orders_apart(room):
    """By the report of orders behind the plan, with names of columns or without; of a pair that has some, alone."""
    room.write("plan.csv", FIRM_PLAN)
    room.write("orders.csv", FIRM_ORDERS)
    assert room.run("cat plan.csv orders.csv | bin/record A P") == FIRM_RECORD
    room.write("headed.csv", "row,plant,item,supply,quantity,release,release_date,due,due_date,late\n" + FIRM_ORDERS)
    assert room.run("cat plan.csv headed.csv | bin/record A P") == FIRM_RECORD
    assert room.run("cat plan.csv orders.csv | bin/record A C") == room.run("bin/record A C < plan.csv")
    without = [it for it in FIRM_RECORD.splitlines() if "firm" not in it]
    assert room.run("bin/record A P < plan.csv").splitlines() == without
    room.run("sed -i 's/^firm,A,P,make,20/firm,A,P,make,x/' orders.csv")
    said = room.run("cat plan.csv orders.csv | bin/record A P", status=1)
    assert said.startswith("bin/record: row 12 is no row of a report: 'firm,A,P,make,x,")


def test_record_has_delays_below_firm_orders(room):
    """A late order of a pair with firm orders: its line stands below projected available."""
    room.write("plan.csv", FIRM_PLAN + "late,A,P,3,5,4\n" + FIRM_ORDERS)
    lines = room.run("bin/record A P < plan.csv").splitlines()
    place = lines.index("  of which firm orders                                              20")
    assert [it.split("  ")[0] for it in lines[place + 1 : place + 3]] == ["Projected available", "Available with delays"]
    assert lines[place + 2].split()[3:] == ["5", "5", "5", "!-5", "!-5"]


def test_record_sums_firm_orders_of_a_period(room):
    """Equal ones all count, and what the sheets say of them stands below."""
    room.write("plan.csv", FIRM_PLAN + FIRM_ORDERS.replace("make,20,0,", "make,12,0,", 1))
    room.run("echo firm,A,P,make,4,1,2026-01-12,3,2026-01-26,0 | tee -a plan.csv >> plan.csv")
    rows = ["firm,A,P,3,2026-01-28,12,,,\"Start 2026-01-05, Order F-1\"", "firm,A,P,3,2026-01-29,4,,,Start 2026-01-12"]
    room.write("names.csv", "\n".join([",".join(reports.Names.COLUMNS), *rows, ""]))
    lines = room.run("bin/record --names names.csv A P < plan.csv").splitlines()
    firm = [it.split()[4:] for it in lines if it.startswith("  of which firm orders")]
    assert firm == [["20"], ["12", "8"]]
    said = ["  period 3: 12 of 2026-01-28: Start 2026-01-05, Order F-1", "  period 3: 4 of 2026-01-29: Start 2026-01-12"]
    assert lines[-4:] == ["", "Firm orders", *said]


# The records of worked figures, whose tables test_oracle.py has.
FENCED_RECORD = """\
A P: 0 on hand before 2026-01-05

Period                           0           1           2           3           4
First day               2026-01-05  2026-01-12  2026-01-19  2026-01-26  2026-02-02
Gross requirements                          10          10          10          10
Scheduled receipts                          12
  of which firm orders                      12
Projected available              0           2           0           0           0
Available with delays            0           2         !-8           0           0
Planned order receipts                                   8          10          10
Planned order releases          12      frozen          18          10
  of which firm orders          12

Policy
  no planned order is released before period 2 (2026-01-19)

Late orders
  8 due in period 2 (2026-01-19), 1 period late: released in period 2, they come in period 3
"""
SOONER_RECORD = """\
A X: 10 on hand before 2026-01-05

Period                           0           1           2           3           4
First day               2026-01-05  2026-01-12  2026-01-19  2026-01-26  2026-02-02
Gross requirements               5          40                      30
Scheduled receipts                          40                      20
Projected available              5           5           5           5           5
Available with delays            5        !-35        !-35           5           5
Planned order receipts                                              10
Planned order releases                                  10

Policy
  receipts count up to 2 periods sooner

Receipts that count sooner than they come
  40 counted in period 1 (2026-01-12) come in period 3: to be expedited
"""


def test_record_says_what_a_policy_says(room):
    """By hand, from the table behind --table: the frozen periods, and receipts when they come. A record without a policy is what it was."""
    reports_from_files(room, FENCED, "plan", "orders")
    assert room.run("cat plan.csv orders.csv | bin/record --table table.csv A P") == FENCED_RECORD
    # (without the table nobody knows when the 8 are released, but that it isn't now)
    said = room.run("cat plan.csv orders.csv | bin/record A P")
    assert said.endswith(", 1 period late: released when they may be, they come in period 3\n")
    assert "frozen" not in said
    reports_from_files(room, SOONER, "plan")
    assert room.run("bin/record --table table.csv A X < plan.csv") == SOONER_RECORD
    assert "delays" not in room.run("bin/record A X < plan.csv")
    said = room.run("bin/record --table table.csv A X < examples/pumps.plan.csv", status=1)
    assert said.startswith("bin/record: the report has no pair A X")
    room.run("sed 's/^receipt,A,X,3,60/receipt,A,X,3,61/' table.csv > other.csv")
    said = room.run("bin/record --table other.csv A X < plan.csv", status=1)
    assert said == "bin/record: other.csv isn't the table of this report\n"
    said = room.run("sed 's/policy,A,X,0/policy,A,X,x/' table.csv > other.csv; bin/record --table other.csv A X < plan.csv", status=1)
    assert said == "bin/record: other.csv is no table of mrp\n"
    assert "none.csv" in room.run("bin/record --table none.csv A X < plan.csv", status=1)
    wheel = "bin/record {} NORTH WHEEL < examples/three_plants.plan.csv"
    assert room.run(wheel.format("--table examples/three_plants.csv")) == room.run(wheel.format(""))
    table = SOONER.replace("A,X,0,2,0,0,0", "A,X,0,0,2,1000,40")
    reports_from_files(room, table, "plan")
    said = room.run("bin/record --table table.csv A X < plan.csv")
    assert "\nPolicy\n  orders cover what is required in 2 periods more\n  orders at least 1,000, in multiples of 40\n\nLate orders\n" in said
