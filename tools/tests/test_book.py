"""bin/book: planned orders that become firm orders and receipts of the sheets."""
import csv
import datetime
import os
import random
import shutil
from collections import Counter

import firms
import oracle
import pytest
from support import module_of, TOP

# By hand: a lot of 20 motors is due in period 1 and 2 weeks are its lead time, so it is late by one; the works' 4 pumps and
# the depot's 2 are a lead time of 1 each. Of the pumps 10 are firm. `test_orders.py` has how these come.
FIRM = "firm,WORKS,100/250-A,make,10,1,2026-12-07,2,2026-12-14,0"
PUMPS = "order,WORKS,100/250-A,make,4,1,2026-12-07,2,2026-12-14,0"
MOTORS = "order,WORKS,MOTOR,buy,20,0,2026-11-30,1,2026-12-07,1"
DEPOT = "order,DEPOT,100/250-A,from:WORKS,2,2,2026-12-14,3,2026-12-21,0"
HEADS = "row,plant,item,supply,quantity,release,release_date,due,due_date,late"
NO_RECEIPTS = "Plant,Item,Order,Vendor,Due,Quantity\n"
FIRM_ORDERS = "Order,Plant,Item,Start,Due,Quantity\nFA-20,WORKS,100/250-A,2026-12-07,2026-12-16,10\n"


@pytest.fixture
def desk(room):
    """A room with the sheets of the example, of which no motors are on order. Without a program tools/oracle.py plans."""
    if not room.program:
        room.stand_in("words/planner", "planner", top=TOP)
        room.variables["MRP"] = room.mrp = f"{room.folder}/words/planner"
    shutil.copytree(f"{TOP}/examples/sheets", f"{room.folder}/firm")
    room.write("firm/receipts.csv", NO_RECEIPTS)
    return room


def rows(room, *lines):
    """Writes the rows that the planner keeps."""
    room.write("orders.csv", "".join(f"{it}\n" for it in (HEADS, *lines)))


def report(room, command="orders --header"):
    """Returns the lines of a report of the sheets as they are."""
    room.run("bin/sheets --names names.csv --out table.csv firm 2> said")
    return room.run(f"$MRP {command} < table.csv").splitlines()


def read(room, name):
    with open(f"{room.folder}/firm/{name}", "rb") as file:
        return file.read().decode()


def refused(room, words="", said=()):
    """Asserts that a booking is refused with these slips, and that the sheets are as they were."""
    before = {it: read(room, it) for it in os.listdir(f"{room.folder}/firm")}
    end = f"bin/book: {len(said)} slip{'s' * (len(said) > 1)}; nothing is written"
    assert room.run(f"bin/book {words} orders.csv firm", status=1).splitlines() == [*said, end]
    assert {it: read(room, it) for it in os.listdir(f"{room.folder}/firm")} == before


def test_what_is_booked_is_not_placed_again(desk):
    """All rows of the report, of which the motors are late: planned again they are firm or on order, and nothing else moves."""
    before, schedule = report(desk), report(desk, "schedule")
    desk.run("bin/orders --names names.csv --out orders.csv < table.csv")
    assert [it.split(",")[0] for it in before] == ["row", "firm", "order", "order", "order"]
    plan = report(desk, "plan --single" if desk.program else "plan")
    assert desk.run("bin/book --number K-100 orders.csv firm 2> said; cat said").splitlines() == [
        "firm_orders.csv: K-100, 4 of WORKS 100/250-A, due 2026-12-14",
        "receipts.csv: K-101, 20 of WORKS MOTOR, due 2026-12-07; late, it comes 2026-12-14",
        "firm_orders.csv: K-102, 2 of DEPOT 100/250-A, due 2026-12-21",
        "orders.csv: 1 row skipped, firm already",
    ]
    pumps, depot = "K-100,WORKS,100/250-A,2026-12-07,2026-12-14,4\n", "K-102,DEPOT,100/250-A,2026-12-14,2026-12-21,2\n"
    assert read(desk, "firm_orders.csv") == FIRM_ORDERS + pumps + depot
    late = "WORKS,MOTOR,K-101,,2026-12-07,20,2026-12-14\n"
    assert read(desk, "receipts.csv") == NO_RECEIPTS.replace("\n", ",Comes\n") + late
    firm = [it.replace("order,", "firm,") for it in before if it.startswith(("order,WORKS,100", "order,DEPOT"))]
    assert report(desk) == [*before[:2], firm[0], firm[1]]
    # (the works' schedule keeps the depot's call)
    assert report(desk, "schedule") == schedule
    notes = [it["note"] for it in csv.DictReader(desk.run("cat names.csv").splitlines()) if it["row"] in ("receipt", "firm")]
    assert notes[0] == "Order K-101, Comes 2026-12-14"
    assert notes[2:] == ["Start 2026-12-07, Order K-100", "Start 2026-12-14, Order K-102"]
    balances = [[it.split(",")[place] for place in (1, 2, 3, 5, 9)] for it in plan if it.startswith("plan,")]
    now = [it for it in report(desk, "plan --single" if desk.program else "plan") if it.startswith("plan,")]
    assert [[it.split(",")[place] for place in (1, 2, 3, 5, 9)] for it in now] == balances


def test_one_row_leaves_the_others(desk):
    """Booked alone, by the names of the table: the other rows of the report are as they were."""
    before = report(desk)
    rows(desk, PUMPS.replace("/", "_"))
    assert desk.run("bin/book orders.csv firm") == "firm_orders.csv: FA-21, 4 of WORKS 100/250-A, due 2026-12-14\n"
    assert report(desk) == [*before[:2], before[2].replace("order,", "firm,"), *before[3:]]
    # (and once more it is no planned order)
    told = "none is planned; is it booked already? Else plan again"
    refused(desk, said=[f"orders.csv row 2, due: no order of WORKS 100/250-A is due in 2: {told}"])


def test_changed_quantity_and_due_date(desk):
    """Fewer or more; sooner by a period it starts sooner too, and then may be late. Parts of an order are two rows."""
    sooner = DEPOT.replace("2026-12-21", "2026-12-07").replace("WORKS,2", "WORKS,5")
    rows(desk, PUMPS.replace("make,4", "make,3").replace("2026-12-14", "2026-12-19"), sooner)
    desk.run("bin/book orders.csv firm")
    assert read(desk, "firm_orders.csv").splitlines()[2:] == [
        "FA-21,WORKS,100/250-A,2026-12-07,2026-12-19,3",
        "FA-22,DEPOT,100/250-A,2026-11-30,2026-12-07,5",
    ]
    desk.run("cp examples/sheets/firm_orders.csv firm")
    rows(desk, DEPOT.replace("2026-12-21", "2026-12-04"), PUMPS.replace("make,4", "make,1"), PUMPS.replace("make,4", "make,3"))
    desk.run("bin/book orders.csv firm")
    lines = read(desk, "firm_orders.csv").splitlines()
    assert lines[0] == "Order,Plant,Item,Start,Due,Quantity,Comes"
    assert lines[2:] == [
        "FA-21,DEPOT,100/250-A,2026-11-30,2026-12-04,2,2026-12-07",
        "FA-22,WORKS,100/250-A,2026-12-07,2026-12-14,1,",
        "FA-23,WORKS,100/250-A,2026-12-07,2026-12-14,3,",
    ]
    assert not [it for it in report(desk) if it.startswith(("order,WORKS,100", "order,DEPOT"))]


def test_firm_orders_of_what_is_bought_and_receipts_of_what_is_made(desk):
    """By the planner's word. A receipt of pumps takes no parts; what a plant ships is no receipt."""
    rows(desk, PUMPS, MOTORS)
    assert desk.run("bin/book --firm --out one orders.csv firm; cat one/firm_orders.csv; ls one").splitlines()[2:] == [
        "Order,Plant,Item,Start,Due,Quantity,Comes",
        "FA-20,WORKS,100/250-A,2026-12-07,2026-12-16,10",
        "FA-21,WORKS,100/250-A,2026-12-07,2026-12-14,4,",
        "FA-22,WORKS,MOTOR,2026-11-30,2026-12-07,20,2026-12-14",
        "firm_orders.csv",
    ]
    assert read(desk, "firm_orders.csv") == FIRM_ORDERS
    desk.run("bin/book --receipts --number FA- orders.csv firm")
    assert read(desk, "receipts.csv").splitlines()[1:] == ["WORKS,100/250-A,FA-21,,2026-12-14,4,", "WORKS,MOTOR,FA-22,,2026-12-07,20,2026-12-14"]
    assert read(desk, "firm_orders.csv") == FIRM_ORDERS
    rows(desk, DEPOT)
    why = "as a receipt it would leave the schedule of WORKS: book it without --receipts"
    refused(desk, "--receipts", [f"orders.csv row 2, supply: {why}"])


def test_what_a_vendor_with_a_schedule_delivers_is_a_firm_order(desk):
    """So its schedule keeps the call, and its figures go on as before."""
    desk.write("firm/vendors.csv", "Vendor,Plant,Item,Figure received,In transit\nLumen GmbH,WORKS,MOTOR,460,0\n")

    def schedule():
        return [it for it in report(desk, "schedule") if "Lumen" in it]

    before = schedule()
    assert before == ["schedule,opening,Lumen_GmbH,WORKS,MOTOR,,,0,460", "schedule,call,Lumen_GmbH,WORKS,MOTOR,0,2026-11-30,20,480"]
    rows(desk, MOTORS)
    refused(desk, "--receipts", ["orders.csv row 2, supply: as a receipt it would leave the schedule of Lumen GmbH: book it without --receipts"])
    desk.run("bin/book orders.csv firm")
    assert read(desk, "firm_orders.csv").splitlines()[-1] == "FA-21,WORKS,MOTOR,2026-11-30,2026-12-07,20,2026-12-14"
    assert (read(desk, "receipts.csv"), schedule()) == (NO_RECEIPTS, before)


BAD = {
    PUMPS.replace("2026-12-14", "2026-12-21"): "due_date: 2026-12-21 is behind the period of 2026-12-14, in which it is needed: the "
    "plan would order again for the time in between; keep that date",
    MOTORS.replace("2026-12-07", "2026-12-14"): "due_date: 2026-12-14 is behind the period of 2026-12-07, in which it is needed: the "
    "plan would order again for the time in between; keep that date, or have the plan count it sooner: Sooner (periods) 1 in items.csv",
    PUMPS.replace("2026-12-14", "2026-11-29"): "due_date: 2026-11-29 is before 2026-11-30, the first day of the plan",
    PUMPS.replace("2026-12-14", "2026-12-32"): "due_date: '2026-12-32' is on no calendar",
    PUMPS.replace("make,4", "make,0"): "quantity: '0' is not from 1 to 1000000000000",
    PUMPS.replace("make,4", "make,1.5"): "quantity: '1.5' is no whole number; plan the item in a smaller unit (docs/limits.md, fractions)",
    PUMPS.replace("make,4", "make,"): "quantity: nothing stands here",
    PUMPS.replace(",2,2026", ",3,2026"): "due: no order of WORKS 100/250-A is due in 3: those planned are due in 2; is it booked "
    "already? Else plan again",
    PUMPS.replace("2026-12-07", "2026-11-30"): "release_date: 2026-11-30 isn't 2026-12-07, as in the plan of these sheets: leave it, it "
    "moves with due_date; or plan again",
    MOTORS.replace("MOTOR", "MOTR"): "item: the sheets have no WORKS MOTR (WORKS MOTOR?)",
    FIRM.replace("make,10", "make,12"): "row: firm_orders.csv has no such order of WORKS 100/250-A; change it there",
    PUMPS.replace("order", "sum"): "row: 'sum' is neither order nor firm; give rows of bin/orders without --sums",
}


def test_slips_are_told_at_once(desk):
    """All of a file, and the sheets are as they were; also the second half of an order that is planned once."""
    rows(desk, *BAD)
    refused(desk, said=[f"orders.csv row {number}, {it}" for number, it in enumerate(BAD.values(), 2)])
    rows(desk, PUMPS, PUMPS)
    refused(desk, said=["orders.csv row 3, quantity: with row 2 it is 8 of 4 that are planned"])
    desk.write("orders.csv", f"{HEADS.replace('due_date', 'dew_date')}\n{PUMPS}\n")
    refused(desk, said=["orders.csv row 1: it has no column due_date (dew_date?)"])


def test_what_there_is_not_to_book(desk):
    """Firm orders alone, sheets with slips, no number to go on from, and no file."""
    rows(desk, FIRM)
    assert desk.run("bin/book orders.csv firm 2>&1").splitlines() == [
        "orders.csv: 1 row skipped, firm already",
        "orders.csv: no planned order to book; nothing is written",
    ]
    rows(desk, MOTORS)
    why = "bin/book: {}: say how numbers begin, as --number PO-1001; nothing is written\n"
    desk.run("cp -r firm without && rm -f without/receipts.csv")
    assert desk.run("bin/book orders.csv firm", status=1) == why.format("receipts.csv has no number to go on from")
    assert desk.run("bin/book orders.csv without", status=1) == why.format("there is no receipts.csv yet")
    assert "No such file" in desk.run("bin/book none.csv firm", status=1)
    desk.run("sed -i s/MOTOR,1/MOTR,1/ firm/bills.csv")
    assert desk.run("bin/book --number P- orders.csv firm", status=1).splitlines() == [
        "bills.csv row 2, Component: WORKS has no item 'MOTR' (MOTOR?)",
        "bin/sheets: 1 slip; nothing is written",
    ]
    assert (read(desk, "receipts.csv"), read(desk, "firm_orders.csv")) == (NO_RECEIPTS, FIRM_ORDERS)


def test_sheets_keep_their_form(desk):
    """Separators, line ends, encodings, dates and the width of numbers; a row without an end, and a sheet without a number."""
    german = "\ufeffWerk;Artikel;Liefertermin;Menge;Lieferant\r\nWORKS;MOTOR;05.03.2027;1.000;\"Weber; Söhne\"".encode("utf-16-le")
    with open(f"{desk.folder}/firm/receipts.csv", "wb") as file:
        file.write(german)
    desk.write("firm/firm_orders.csv", "Auftragsnr.\tPlant\tItem\tStart\tDue\tQuantity\nA009\tWORKS\t100/250-A\t12/7/2026\t12/16/2026\t10\n\n")
    desk.run("sed -i '1s/$/,Vendor/; s/8,2$/8,2,Lumen/' firm/items.csv")
    lines = (HEADS, PUMPS.replace("2026-12-14", "14.12.2026"), MOTORS)
    desk.write("orders.csv", "".join(it.replace(",", ";") + "\r\n" for it in lines))
    said = desk.run("bin/book --dates m/d/y --numbers 1.234,5 --number A orders.csv firm").splitlines()
    assert [it.split(",")[0] for it in said] == ["firm_orders.csv: A010", "receipts.csv: A011"]
    end = "\nA010\tWORKS\t100/250-A\t12/7/2026\t12/14/2026\t4\n"
    assert read(desk, "firm_orders.csv").endswith(f"12/16/2026\t10\n{end}")
    with open(f"{desk.folder}/firm/receipts.csv", "rb") as file:
        found = file.read().decode("utf-16-le").split("\r\n")
    heads, first = german.decode("utf-16-le").split("\r\n")
    assert found == [f"{heads};Auftrag;Kommt am", first, "WORKS;MOTOR;07.12.2026;20;Lumen;A011;14.12.2026", ""]


def test_columns_that_a_sheet_lacks_are_headed_in_its_language(desk):
    """By how it heads the plant; one that it has in whatever language is filled."""
    lines = report(desk)
    for plant, more, wanted in (
        ("Fabrik", "", ";Auftrag;Kommt am"),
        ("Usine", "", ";Ordre;Vient le"),
        ("Centro", "", ";Orden;Llega el"),
        ("Location", "", ";Order;Comes"),
        ("Werk", ";Kommt am;Bestellnr.", ""),
        ("Plant", ";Vient le;Auftragsnr.", ""),
    ):
        desk.write("firm/receipts.csv", f"{plant};Item;Due;Quantity{more}\n")
        desk.write("orders.csv", f"{lines[0]}\n{MOTORS}\n")
        desk.run("bin/book --number K- --out booked orders.csv firm")
        with open(f"{desk.folder}/booked/receipts.csv", encoding="utf-8") as file:
            heads, row = file.read().splitlines()
        ends = "2026-12-14;K-1" if more else "K-1;2026-12-14"
        assert (heads, row) == (f"{plant};Item;Due;Quantity{more}{wanted}", f"WORKS;MOTOR;2026-12-07;20;{ends}")


def test_sheets_that_are_not_there_yet(desk):
    """They are made, and numbers go on behind those of shipments."""
    desk.run("rm firm/receipts.csv firm/firm_orders.csv && sed -i '1s/$/,Order/; 2s/$/,B41/' firm/shipments.csv")
    lines = report(desk)
    desk.write("orders.csv", "".join(f"{it}\n" for it in lines))
    desk.run("bin/book --number B orders.csv firm")
    assert read(desk, "firm_orders.csv").splitlines()[:2] == ["Order,Plant,Item,Start,Due,Quantity", "B42,WORKS,100/250-A,2026-12-07,2026-12-14,14"]
    assert read(desk, "receipts.csv").splitlines() == ["Order,Plant,Item,Due,Quantity,Comes", "B43,WORKS,MOTOR,2026-12-07,20,2026-12-14"]
    assert not [it for it in report(desk) if it.startswith("order,")]


def test_the_vendor_of_a_row_counts(desk):
    """In a sheet with such a column, before that of items.csv."""
    desk.run("sed -i '1s/$/,Vendor/; s/8,2$/8,2,Lumen/' firm/items.csv")
    for vendor, wanted in (("Kiel", "Kiel"), ("", "Lumen")):
        desk.write("orders.csv", f"{HEADS},vendor\n{MOTORS},{vendor}\n")
        desk.run("bin/book --number P- --out booked orders.csv firm")
        assert desk.run("tail -n 1 booked/receipts.csv") == f"WORKS,MOTOR,P-1,{wanted},2026-12-07,20,2026-12-14\n"


def test_sheets_that_would_say_something_else_are_refused(desk, monkeypatch):
    """By their table, before they are put: here a row is lost on the way."""
    rows(desk, PUMPS)
    book = module_of("book", "bin")
    monkeypatch.setattr(book.Kept, "bytes", lambda it: it.found)
    monkeypatch.setenv("MRP", desk.variables["MRP"])
    monkeypatch.setattr("sys.argv", ["bin/book", f"{desk.folder}/orders.csv", f"{desk.folder}/firm"])
    with pytest.raises(book.reports.Refused, match="the sheets wouldn't say these orders alone; nothing is written"):
        book.main()
    assert read(desk, "firm_orders.csv") == FIRM_ORDERS


def test_both_sheets_or_none(tmp_path, monkeypatch):
    """Where the second one can't be put in its place, the first one is as it was, or gone again."""
    book = module_of("book", "bin")
    (tmp_path / "receipts.csv").write_text(NO_RECEIPTS)
    replace = os.replace

    def failing(source, place):
        if place.endswith("firm_orders.csv"):
            raise OSError("no room")
        replace(source, place)

    monkeypatch.setattr(os, "replace", failing)
    kept = []
    for name in ("receipts.csv", "firm_orders.csv"):
        kept.append(book.Kept(str(tmp_path), name, None))
        kept[-1].added.append({0: "A1"})
    for folder in (tmp_path, tmp_path / "new"):
        with pytest.raises(OSError, match="no room"):
            book.reports.put({it.name: it.bytes() for it in kept}, str(folder))
    assert sorted(it.name for it in tmp_path.rglob("*")) == ["new", "receipts.csv"]
    assert (tmp_path / "receipts.csv").read_text() == NO_RECEIPTS


KINDS = "run", "plant", "pair", "bill", "demand", "receipt", "ship", "cum", "reset", "firm", "policy", "usage", "vendor", "day"


def planned(rows):
    """Returns the planned orders of the rows of a table, which may be refused, by the second planner."""
    # (an order that is booked is a row more: where the table ends isn't said)
    kept = sorted((it for it in rows if not it.startswith("end,")), key=lambda it: KINDS.index(it.split(",")[0]))
    table = "".join(f"{it}\n" for it in kept)
    return [it for it in oracle.Oracle(table.encode()).answer("orders").out.decode().splitlines() if it.startswith("order")]


def booked(order):
    """Returns the row of a table that a planned order becomes."""
    _, plant, item, supply, quantity, release, _, due, *_ = order.split(",")
    return f"receipt,{plant},{item},{due},{quantity},,," if supply == "buy" else f"firm,{plant},{item},{release},{due},{quantity},,"


def with_those_before(chosen, orders, rows):
    """Returns the orders that are chosen; of what is bought and has receipts that count sooner, those that are due before them too."""
    policies = (it.split(",") for it in rows if it.startswith("policy,"))
    sooner = {(plant, item) for _, plant, item, _, periods, *_ in policies if periods != "0"}
    last = {}
    for it in chosen:
        _, plant, item, supply, *_, due, _, _ = it.split(",")
        if supply == "buy" and (plant, item) in sooner:
            last[plant, item] = max(int(due), last.get((plant, item), 0))
    return [it for it in orders if it in chosen or int(it.split(",")[7]) < last.get((*it.split(",")[1:3],), 0)]


def test_no_order_that_is_booked_moves_another():
    """In random firms, of which one order, some, or all are booked as they are, the late ones too: but for those that releases which
    are frozen let start behind their due date only.
    """
    tried, sooner = 0, 0
    for seed in range(240):
        chance = random.Random(seed)
        rows = firms.table(chance, 5, 10).decode().splitlines()
        # (a row has no more than 10**12 pieces)
        orders = [it for it in planned(rows) if int(it.split(",")[4]) <= 10**12 and int(it.split(",")[5]) <= int(it.split(",")[7])]
        for some in ([chance.choice(orders)], [it for it in orders if chance.random() < 0.5], orders) if orders else ():
            chosen = with_those_before(some, orders, rows)
            left = planned([*rows, *map(booked, chosen)])
            assert Counter(left) == Counter(planned(rows)) - Counter(chosen), seed
            tried, sooner = tried + bool(chosen), sooner + (len(chosen) > len(some))
    assert tried > 400
    assert sooner > 2


def test_calls_of_a_plant_stay_by_the_second_planner():
    """A firm order of what a plant ships is a call of its start; as a receipt it is none."""
    day = datetime.date(2026, 11, 30)
    head = f"run,{day},7,4,,,,\nplant,A,,,,,,\nplant,B,,,,,,\npair,A,X,buy,lot,0,0,0\npair,B,X,from:A,lot,1,0,0\ndemand,B,X,2,5,,,\n"
    calls = [oracle.Oracle((head + it).encode()).answer("schedule").out.decode().count(",call,") for it in ("", "firm,B,X,1,2,5,,\n", "receipt,B,X,2,5,,,\n")]
    assert calls == [1, 1, 0]


def test_orders_start_behind_frozen_releases(desk):
    """By hand. Releases of the works' pumps are frozen for two weeks: with a lead time of one the 4 of period 2 are released in period 2
    and come a week late. Booked they start then, and what the plan has of them stays; due sooner they start when they are due, and come
    a lead time later.
    """
    desk.run("sed -i '1s/$/,Frozen releases (weeks)/; 2s/$/,2/; 3,$s/$/,/' firm/items.csv")
    before = report(desk)
    frozen = PUMPS.replace("1,2026-12-07,2,2026-12-14,0", "2,2026-12-14,2,2026-12-14,1")
    assert frozen.replace("/", "_") in before
    rows(desk, frozen)
    said = "firm_orders.csv: FA-21, 4 of WORKS 100/250-A, due 2026-12-14; late, it comes 2026-12-21\n"
    assert desk.run("bin/book orders.csv firm") == said
    assert read(desk, "firm_orders.csv").splitlines()[2] == "FA-21,WORKS,100/250-A,2026-12-14,2026-12-14,4,2026-12-21"
    firm = frozen.replace("/", "_").replace("order,", "firm,")[:-1] + "0"
    assert Counter(report(desk)) == Counter(firm if it == frozen.replace("/", "_") else it for it in before)
    desk.run("cp examples/sheets/firm_orders.csv firm")
    rows(desk, frozen.replace("2,2026-12-14,1", "2,2026-12-09,1"))
    desk.run("bin/book orders.csv firm")
    assert read(desk, "firm_orders.csv").splitlines()[2] == "FA-21,WORKS,100/250-A,2026-12-07,2026-12-09,4,2026-12-14"
