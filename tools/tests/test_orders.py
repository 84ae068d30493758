"""bin/orders and bin/schedule: what leaves the house, in the firm's own names."""
import csv
import re

import named
from support import reports_from_files
from test_lacks import LACKING, SHORTAGES
from test_oracle import COVERED

# The sheets of the example without receipts, with a vendor and the vendor's part number for what is bought or taken.
ITEMS = """\
Plant,Item,Description,Supply,Lot rule,Lead (days),On hand,Safety stock,Vendor,Vendor part no.
WORKS,100/250-A,"Pump, 2.5 kW",make,lot,7,12,4,,
WORKS,MOTOR,Motor 2.5 kW,buy,fixed:20,14,8,2,Lumen,LM 2.5-K
WORKS,SEAL 25,Shaft seal 25 mm,buy,periods:2,5,60,10,Dicht & Co,0815
DEPOT,100/250-A,"Pump, 2.5 kW",from:WORKS,lot,7,3,1,,P-100
"""
SHIPMENTS = "From,To,Item,Arrives,Quantity,Delivery note\nWORKS,DEPOT,100/250-A,2026-12-02,2,LS 77\n"
# By hand. The depot has 3 and gets 2, and 6 are wanted in period 3: 2 are ordered up to its safety stock of 1, a period
# before. The works have 12, 5 are wanted now, and 15 and the depot's 2 in period 2: 14 are wanted up to 4, a period before.
# 10 of them are a firm order, and 4 are ordered. These take 14 motors of 8, of which 2 are kept: a lot of 20, due in period
# 1, with a lead time of 2.
ORDERS = """\
row,plant,item,supply,quantity,release,release_date,due,due_date,late
firm,WORKS,100_250-A,make,10,1,2026-12-07,2,2026-12-14,0
order,WORKS,100_250-A,make,4,1,2026-12-07,2,2026-12-14,0
order,WORKS,MOTOR,buy,20,0,2026-11-30,1,2026-12-07,1
order,DEPOT,100_250-A,from:WORKS,2,2,2026-12-14,3,2026-12-21,0
"""
# The depot has booked 140, and 2 are on their way. Figures start again in period 4.
SCHEDULE = """\
row,kind,supplier,customer,item,period,date,quantity,cumulative
schedule,opening,WORKS,DEPOT,100_250-A,,,2,142
schedule,call,WORKS,DEPOT,100_250-A,2,2026-12-14,2,144
schedule,reset,WORKS,DEPOT,100_250-A,4,2026-12-28,,144
"""
NO_SHORTAGES = "row,plant,item,source,by_plant,by_item,quantity,short\n"
OWN_ORDERS = """\
row,plant,item,supply,quantity,release,release_date,due,due_date,late,description,vendor,vendor_item,notes,lacks
firm,WORKS,100/250-A,make,10,1,2026-12-07,2,2026-12-14,0,"Pump, 2.5 kW",,,"10 of 2026-12-16: Start 2026-12-07, Order \
FA-20; 8 of 2026-12-16: Order 4720, Customer Grundmann; 7 of 2026-12-18: Order 4722, Customer Weber",
order,WORKS,100/250-A,make,4,1,2026-12-07,2,2026-12-14,0,"Pump, 2.5 kW",,,"8 of 2026-12-16: Order 4720, Customer \
Grundmann; 7 of 2026-12-18: Order 4722, Customer Weber",
order,WORKS,MOTOR,buy,20,0,2026-11-30,1,2026-12-07,1,Motor 2.5 kW,Lumen,LM 2.5-K,,
order,DEPOT,100/250-A,from:WORKS,2,2,2026-12-14,3,2026-12-21,0,"Pump, 2.5 kW",WORKS,P-100,"6 of 2026-12-22: Order \
4725, Customer Spares",
"""
OWN_SCHEDULE = """\
row,kind,supplier,customer,item,period,date,quantity,cumulative,description,vendor_item,notes
schedule,opening,WORKS,DEPOT,100/250-A,,,2,142,"Pump, 2.5 kW",P-100,2 of 2026-12-02: Delivery note LS 77
schedule,call,WORKS,DEPOT,100/250-A,2,2026-12-14,2,144,"Pump, 2.5 kW",P-100,
schedule,reset,WORKS,DEPOT,100/250-A,4,2026-12-28,,144,"Pump, 2.5 kW",P-100,
"""


def firm(room):
    """Makes table.csv and names.csv of the sheets, and a program words/files that has their reports."""
    room.run("cp -r examples/sheets firm && rm firm/receipts.csv")
    room.write("firm/items.csv", ITEMS)
    room.write("firm/shipments.csv", SHIPMENTS)
    room.run("bin/sheets --names names.csv --out table.csv firm 2> said")
    room.stand_in("words/files", "from_files")
    room.write("orders.csv", ORDERS)
    room.write("schedule.csv", SCHEDULE)
    room.write("shortages.csv", NO_SHORTAGES)
    room.variables["MRP"] = "words/files"


def test_reports_are_those_of_the_program(room, program):
    """The reports from which the tests below begin are those of their table."""
    firm(room)
    assert room.run(f"{program} orders --header < table.csv") == ORDERS
    assert room.run(f"{program} schedule --header < table.csv") == SCHEDULE
    assert room.run(f"{program} shortages --header < table.csv") == NO_SHORTAGES


def test_orders_have_the_firms_names(room):
    """With descriptions, vendors, their part numbers, and the customers' orders up to the pair's next order; without
    names.csv the columns are there, and the names are the table's.
    """
    firm(room)
    assert room.run("bin/orders --names names.csv < table.csv") == OWN_ORDERS
    wanted = [f"{it},,,,," for it in ORDERS.splitlines()[1:]]
    assert room.run("bin/orders < table.csv").splitlines()[1:] == [*wanted[:3], wanted[3].replace(",,,,,", ",,WORKS,,,")]
    # (a further pump in period 4 is the next order's, and what comes before it this one's)
    room.run("sed -i '/^4731/s/2027-03-01/2026-12-28/' firm/demands.csv")
    room.run("bin/sheets --names names.csv --out table.csv firm 2> said && grep -q 'Order 4731' names.csv")
    later = "order,WORKS,100_250-A,make,9,3,2026-12-21,4,2026-12-28,0\n"
    first = "order,WORKS,100_250-A,make,4,1,2026-12-07,2,2026-12-14,0\n"
    room.write("orders.csv", ORDERS.replace(first, first + later))
    rows = room.run("bin/orders --names names.csv --until 1 < table.csv").splitlines()
    assert rows == OWN_ORDERS.splitlines()[:4]
    # (and a firm order is no end of another's)
    room.write("orders.csv", ORDERS.replace(first, first + later.replace("order,", "firm,")))
    rows = room.run("bin/orders --names names.csv --until 1 < table.csv").splitlines()
    assert [it[:-2].endswith("9 of 2026-12-28: Order 4731, Customer Weber") for it in rows[1:3]] == [True, True]


def test_schedule_has_the_firms_names(room):
    """With the vendor's part number of the customer's item, else of the supplier's, and the shipments in transit."""
    firm(room)
    assert room.run("bin/schedule --names names.csv < table.csv") == OWN_SCHEDULE
    assert room.run("bin/schedule < table.csv").splitlines()[2:] == [f"{it},,," for it in SCHEDULE.splitlines()[2:]]
    room.run("sed -i 's/P-100$//; s/7,12,4,,$/7,12,4,,W-9/' firm/items.csv")
    room.run("bin/sheets --names names.csv --out table.csv firm 2> said")
    assert room.run("bin/schedule --names names.csv < table.csv") == OWN_SCHEDULE.replace("P-100", "W-9")


def test_orders_and_schedules_up_to_a_day(room):
    """A day says its period; one outside the plan is refused, and the file of --out is as it was."""
    firm(room)
    head, firm_pumps, pumps, motors, depot = OWN_ORDERS.splitlines(keepends=True)
    both = firm_pumps + pumps + motors
    for until, rows in (("0", motors), ("2026-12-06", motors), ("2026-12-07", both), ("13.12.2026", both)):
        assert room.run(f"bin/orders --until {until} --names names.csv < table.csv") == head + rows
    assert room.run("bin/orders --until 103 --names names.csv < table.csv") == head + both + depot
    lines = OWN_SCHEDULE.splitlines(keepends=True)
    for until, count in (("0", 2), ("2026-12-13", 2), ("2026-12-14", 3), ("2026-12-28", 4)):
        assert room.run(f"bin/schedule --until {until} --names names.csv < table.csv") == "".join(lines[:count])
    room.run("echo old > out.csv")
    for tool, day in (("orders", "2026-11-29"), ("schedule", "2027-01-11")):
        said = room.run(f"bin/{tool} --until {day} --out out.csv < table.csv", status=1)
        assert said == f"bin/{tool}: {day} is not in the plan, which goes from 2026-11-30 to 2027-01-10\n"
    assert room.run("cat out.csv; bin/orders --names names.csv --out out.csv < table.csv") == "old\n"
    assert room.run("cat out.csv") == OWN_ORDERS


def test_schedules_of_a_plant(room):
    """By its name in the sheets or in the table; another one is refused, and the nearest told."""
    firm(room)
    room.run("sed -i 's/DEPOT/Lager Süd/' firm/*.csv; bin/sheets --names names.csv --out table.csv firm 2> said")
    room.run("sed -i 's/DEPOT/Lager_Sued/' schedule.csv")
    wanted = OWN_SCHEDULE.replace("DEPOT", "Lager Süd")
    asked = "bin/schedule --names names.csv"
    for words in ("--to 'Lager Süd'", "--to Lager_Sued --from WORKS"):
        assert room.run(f"{asked} {words} < table.csv") == wanted
    assert room.run(f"{asked} --from 'Lager Süd' < table.csv") == wanted.splitlines(keepends=True)[0]
    for words, said in (
        ("--from WORK", "WORK (WORKS?)"),
        ("--to 'Lager Sud'", "Lager Sud (Lager Süd?)"),
        ("--to 7", "7"),
    ):
        assert room.run(f"{asked} {words} < table.csv", status=1) == f"bin/schedule: the table has no plant {said}\n"


# A motor that a vendor delivers, and one of another plant; the week of December 28 is closed.
DELIVERED = """\
run,2026-12-21,7,3,,,,
plant,WORKS,,,,,,
plant,DEPOT,,,,,,
pair,WORKS,MOTOR,buy,lot,0,0,0
pair,DEPOT,MOTOR,from:WORKS,lot,0,0,0
demand,DEPOT,MOTOR,0,5,,,
demand,DEPOT,MOTOR,1,7,,,
vendor,LUMEN,WORKS,MOTOR,40,2,,
day,1,2027-01-04,,,,,
"""
# By hand: the 5 and the 7 that the depot calls for are called for from the vendor too.
DELIVERIES = """\
schedule,opening,WORKS,DEPOT,MOTOR,,,0,0
schedule,call,WORKS,DEPOT,MOTOR,0,2026-12-21,5,5
schedule,call,WORKS,DEPOT,MOTOR,1,2027-01-04,7,12
schedule,opening,LUMEN,WORKS,MOTOR,,,2,42
schedule,call,LUMEN,WORKS,MOTOR,0,2026-12-21,5,47
schedule,call,LUMEN,WORKS,MOTOR,1,2027-01-04,7,54
"""


def test_schedules_of_a_vendor(room):
    """It is a supplier and no customer, and a day within the closed week is one of the period before it."""
    reports_from_files(room, DELIVERED, "schedule")
    heads = "row,kind,supplier,customer,item,period,date,quantity,cumulative"
    assert room.run("cat schedule.csv") == DELIVERIES
    room.write("schedule.csv", f"{heads}\n{DELIVERIES}")
    lines = [f"{heads},description,vendor_item,notes\n", *(f"{it},,,\n" for it in DELIVERIES.splitlines())]
    ask = "MRP=words/files bin/schedule {} < table.csv"
    assert room.run(ask.format("")) == "".join(lines)
    for words, places in (("--from LUMEN", (4, 5, 6)), ("--from LUMEN --to WORKS", (4, 5, 6)), ("--from WORKS", (1, 2, 3)), ("--from LUMEN --to DEPOT", ())):
        assert room.run(ask.format(words)) == lines[0] + "".join(lines[it] for it in places), words
    for day, places in (("2027-01-03", (1, 2, 4, 5)), ("2027-01-04", (1, 2, 3, 4, 5, 6))):
        assert room.run(ask.format(f"--until {day}")) == lines[0] + "".join(lines[it] for it in places), day
    assert room.run(ask.format("--until 2027-01-18"), status=1) == "bin/schedule: 2027-01-18 is not in the plan, which goes from 2026-12-21 to 2027-01-17\n"
    assert room.run(ask.format("--to LUMEN"), status=1) == "bin/schedule: the table has no plant LUMEN\n"
    assert room.run(ask.format("--from LUMENS"), status=1) == "bin/schedule: the table has no plant or vendor LUMENS (LUMEN?)\n"
    assert room.run(ask.format("--sums vendor")).splitlines()[-1].startswith("total,WORKS,,,,2,12,2026-12-21")
    assert "sum,LUMEN,MOTOR,,,2,12,2026-12-21" in room.run(ask.format("--sums vendor"))


def test_sums_by_vendor_and_by_customer(room):
    """Of what isn't made; of the stored reports of pumps, in which an item has two sources."""
    firm(room)
    columns = "item,description,vendor_item,{},quantity,first_date"
    motors, pumps = "MOTOR,Motor 2.5 kW,LM 2.5-K,1,20,2026-11-30", '100/250-A,"Pump, 2.5 kW",P-100,1,2,2026-12-14'
    assert room.run("bin/orders --sums vendor --names names.csv < table.csv").splitlines() == [
        f"row,vendor,{columns.format('orders')}",
        f"sum,Lumen,{motors}",
        "total,Lumen,,,,1,20,2026-11-30",
        f"sum,WORKS,{pumps}",
        "total,WORKS,,,,1,2,2026-12-14",
    ]
    assert room.run("bin/orders --sums customer --until 0 --names names.csv < table.csv").splitlines() == [
        f"row,customer,{columns.format('orders')}",
        f"sum,WORKS,{motors}",
        "total,WORKS,,,,1,20,2026-11-30",
    ]
    for who, plant in (("vendor", "WORKS"), ("customer", "DEPOT")):
        assert room.run(f"bin/schedule --sums {who} --names names.csv < table.csv").splitlines() == [
            f"row,{who},{columns.format('calls')}",
            f"sum,{plant},{pumps}",
            f"total,{plant},,,,1,2,2026-12-14",
        ]
    room.variables["MRP"] = room.mrp
    said = room.run("bin/orders --sums vendor < examples/pumps.csv")
    assert 'sum,"WORKS 70%, FOUNDRY 30%",IMPELLER,,,6,27,2026-11-30\n' in said
    assert "sum,FOUNDRY,HOUSING,,,3,83,2026-12-07\nsum,FOUNDRY,IMPELLER,,,5,160,2026-12-07\n" in said
    assert "total,FOUNDRY,,,,8,243,2026-12-07\n" in said
    assert "order,DEPOT,IMPELLER,from:WORKS:700:FOUNDRY:300,1,0," in room.run("bin/orders < examples/pumps.csv")


def test_firm_orders_are_among_the_sums(room):
    """Of what isn't made: a firm order of motors beside the planned one."""
    firm(room)
    motors = "firm,WORKS,MOTOR,buy,6,1,2026-12-07,1,2026-12-07,0\n"
    room.write("orders.csv", ORDERS.replace("order,WORKS,MOTOR", f"{motors}order,WORKS,MOTOR"))
    said = room.run("bin/orders --sums vendor --names names.csv < table.csv").splitlines()
    assert said[1:3] == ["sum,Lumen,MOTOR,Motor 2.5 kW,LM 2.5-K,2,26,2026-11-30", "total,Lumen,,,,2,26,2026-11-30"]
    rows = room.run("bin/orders --until 0 < table.csv").splitlines()
    assert [it.split(",")[:5] for it in rows[1:]] == [["order", "WORKS", "MOTOR", "buy", "20"]]


def test_numbers_of_firm_orders(room):
    """A firm order has what the sheets say of orders of its period with as many pieces."""
    firm(room)
    rows = "FA-21,WORKS,100/250-A,2026-12-08,2026-12-17,3\nFA-22,WORKS,100/250-A,2026-12-08,2026-12-18,3\n"
    room.write("firm/firm_orders.csv", f"Order no.,Plant,Item,Start,Due,Quantity\nFA-20,WORKS,100/250-A,2026-12-07,2026-12-16,10\n{rows}")
    room.run("bin/sheets --names names.csv --out table.csv firm 2> said")
    assert room.run("grep ^firm table.csv") == "".join(f"firm,WORKS,100_250-A,1,2,{it},,\n" for it in (10, 3, 3))
    three = "firm,WORKS,100_250-A,make,3,1,2026-12-07,2,2026-12-14,0\n"
    room.write("orders.csv", ORDERS.replace("order,WORKS,100", f"{three}{three}order,WORKS,100", 1).replace("make,4", "make,1"))
    notes = [it.split('"')[-2] for it in room.run("bin/orders --names names.csv < table.csv").splitlines()[1:4]]
    assert [re.findall("Order no. (FA-[0-9]+)", it) for it in notes] == [["FA-20"], ["FA-21", "FA-22"], ["FA-21", "FA-22"]]


def test_refused_tables_and_programs_that_fail(room):
    """In the program's line, and nothing is written; also where it fails after some rows."""
    for stand_in, said in (("refusing", "mrp: row 6: UnknownPair\n"), ("failing", "mrp: WriteFault\n")):
        room.stand_in("words/other", stand_in)
        for tool in ("orders", "schedule"):
            assert room.run(f"MRP=words/other bin/{tool} --out out.csv < examples/pumps.csv", status=1) == said
            assert room.run("ls out.csv 2>&1 || true") == "ls: cannot access 'out.csv': No such file or directory\n"


def test_vendors_with_commas_are_whole(room):
    """Names and part numbers that have commas and quotes, beside other columns."""
    firm(room)
    motors = ORDERS.splitlines()[3]
    for vendor, number in (("Weber, Sons & Co", "LM 2.5-K"), ('Lumen "Nord", Kiel', "8,5"), ("Lumen", '2"'), ('"A"', ",")):
        cells = ",".join('"' + it.replace('"', '""') + '"' for it in (vendor, number, "Smith, Ann"))
        items = ITEMS.replace("Lumen,LM 2.5-K", cells).replace("Vendor part no.", "Vendor part no.,Buyer")
        room.write("firm/items.csv", items)
        room.run("bin/sheets --names names.csv --out table.csv firm 2> said")
        rows = [*csv.reader(room.run("bin/orders --names names.csv < table.csv").splitlines())]
        assert rows[3] == [*motors.split(","), "Motor 2.5 kW", vendor, number, "", ""]


def test_headings_of_vendors():
    """The longest heading counts, and the first column of two."""
    for text, wanted in (
        ("Vendor Lumen", ("vendor", "Lumen")),
        ("Lieferant Dicht & Co", ("vendor", "Dicht & Co")),
        ("Supplier part number 6ES7 315", ("vendor_item", "6ES7 315")),
        ("Lieferantenmaterialnummer 0815", ("vendor_item", "0815")),
        ("Réf. fournisseur A-1", ("vendor_item", "A-1")),
        ("Buyer Smith", None),
        ("Vendor", None),
        ("", None),
    ):
        assert named.headed_words(text) == wanted, text
    names = named.reports.Names()
    names.take("pair", "A", "X", "", "", "", "x", "", "Buyer Smith, Vendor One, Vendor code 77, Vendor part P 1")
    assert named.Items(names).noted(("A", "X")) == ("One", "P 1")


def test_orders_are_for_what_they_cover(room):
    """By hand. Of the worked figure with a period covered the 20 are for the demand of period 2, and the 5 for that of period 3."""
    reports_from_files(room, COVERED, "orders", "shortages")
    room.run("sed -i '1i row,plant,item,supply,quantity,release,release_date,due,due_date,late' orders.csv")
    heads = "row,plant,item,period,date,quantity,name,description,note\n"
    room.write("names.csv", heads + "".join(f"demand,A,X,{it},,{it + 1},,,Order {it}\n" for it in range(5)))
    found = csv.DictReader(room.run("MRP=words/files bin/orders --names names.csv < table.csv").splitlines())
    assert [it["notes"] for it in found] == ["3 of : Order 2", "4 of : Order 3; 5 of : Order 4"]


def test_orders_say_what_they_lack(room):
    """Of the firm of test_lacks those that are released now, firm and planned ones, in the names of the sheets; what is lacked by a
    demand alone is lacked by no order.
    """
    reports_from_files(room, LACKING.replace("demand,A,FAN", "demand,B,MOTOR,0,9,,,\ndemand,A,FAN,0,4,,,\ndemand,A,FAN"), "orders")
    room.run("sed -i '1i row,plant,item,supply,quantity,release,release_date,due,due_date,late' orders.csv")
    room.write("shortages.csv", NO_SHORTAGES + SHORTAGES + "shortage,B,MOTOR,demand,B,MOTOR,9,8\n")
    heads = "row,plant,item,period,date,quantity,name,description,note\n"
    room.write("names.csv", heads + 'plant,B,,,,,Lager "B",,\npair,A,RING,,,,Ring 8,"Ring, brass",\npair,A,SET,,,,Satz,,\n')
    ask, rings = "MRP=words/files bin/orders {} < table.csv", "Ring 8 28 of 48"
    found = [(it["item"], it["release"], it["lacks"]) for it in csv.DictReader(room.run(ask.format("--names names.csv")).splitlines())]
    assert found == [
        ("Ring 8", "0", ""),
        ("MOTOR", "0", 'Lager "B" MOTOR 3 of 4'),
        ("PUMP", "0", f"MOTOR 4 of 10; {rings} for Satz"),
        ("FAN", "0", f"{rings} for Satz"),
        ("FAN", "0", f"{rings} for Satz"),
        ("FAN", "0", f"{rings} for Satz"),
        ("Satz", "0", rings),
        ("MOTOR", "0", ""),
    ]
    assert room.run("sort asked | uniq -c").split() == ["1", "orders", "1", "shortages"]
    room.run("rm shortages.csv asked")
    assert "total,B," in room.run(ask.format("--sums vendor"))
    assert room.run("cat asked") == "orders\n"


def test_orders_that_are_released_later_lack_nothing(room):
    """Of an item that is released in two periods the first alone."""
    table = "run,2026-01-05,7,4,,,,\nplant,A,,,,,,\npair,A,P,make,lot,1,0,0\npair,A,C,buy,lot,2,3,0\nbill,A,P,C,1,,,\n"
    reports_from_files(room, table + "demand,A,P,1,5,,,\ndemand,A,P,3,5,,,\n", "orders", "shortages")
    room.run("sed -i '1i row' orders.csv shortages.csv")
    rows = csv.DictReader(room.run("MRP=words/files bin/orders < table.csv").splitlines())
    assert [(it["item"], it["release"], it["lacks"]) for it in rows] == [
        ("P", "0", "C 2 of 5"),
        ("P", "2", ""),
        ("C", "0", ""),
        ("C", "0", ""),
    ]
