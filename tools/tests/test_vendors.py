"""Vendors that deliver by cumulative figures: from sheets to schedules and the page."""
import re

import pytest
from support import listed, reports_from_files, Tags
from test_closed import rows_of
from test_sheets import write_sheets

ITEMS = """\
Plant,Item,Supply,Lot rule,Lead (weeks),On hand,Safety stock
WORKS,PUMP,make,lot,1,0,0
WORKS,MOTOR,buy,fixed:50,1,30,20
WORKS,SEAL,buy,lot,2,0,0
DEPOT,MOTOR,from:WORKS,lot,1,0,0
DEPOT,SEAL,buy,lot,1,0,0
"""
HEADS = "Vendor,Plant,Item,Figure received,In transit,Starts again,Since"
RECEIPTS = "Plant,Item,Due,Quantity{}\nWORKS,MOTOR,2026-12-28,60{}\nWORKS,MOTOR,2027-06-01,40{}\nWORKS,SEAL,2026-12-21,7{}\n"


def vendors(room, *rows, status=0, receipts=RECEIPTS.format("", "", "", ""), words=(), **sheets):
    """Returns the vendor rows of the table of sheets, and what is told of vendors.csv."""
    text = "".join(f"{it}\n" for it in (HEADS, *rows))
    found, said = rows_of(room, ("vendor",), *words, status=status, items=ITEMS, vendors=text, receipts=receipts, **sheets)
    return found, [it for it in said.splitlines() if it.startswith("vendors.csv")]


def test_vendors_of_sheets(room):
    """With the figures as they stand; what is in transit is else what receipts.csv has under way, what comes beyond the end too."""
    found, said = vendors(room, "Lumen,WORKS,MOTOR,2300,100,2027-01-04,", "Dicht & Co,WORKS,SEAL,90,,2028-01-01,", "Dicht & Co,DEPOT,SEAL,5,0,,")
    assert found == ["vendor,Lumen,WORKS,MOTOR,2300,100,2,", "vendor,Dicht___Co,WORKS,SEAL,90,7,,", "vendor,Dicht___Co,DEPOT,SEAL,5,0,,"]
    assert said == ["vendors.csv: 1 name written otherwise, as Dicht___Co for Dicht & Co"]
    # (of a sheet with despatch advices what has one)
    found, said = vendors(room, "Lumen,WORKS,MOTOR,2300,40,,", "Dicht,WORKS,SEAL,90,,,", receipts=RECEIPTS.format(",Lieferschein", ",", ",88140", ","))
    assert (found, said) == (["vendor,Lumen,WORKS,MOTOR,2300,40,,", "vendor,Dicht,WORKS,SEAL,90,0,,"], [])
    # (headed in German, and no other columns)
    text = "Lieferant;Werk;Teil;Eingangsfortschrittszahl\nLumen;WORKS;MOTOR;2.300\n"
    found, _ = rows_of(room, ("vendor",), "--numbers", "1.234,5", items=ITEMS, vendors=text)
    assert found == ["vendor,Lumen,WORKS,MOTOR,2300,0,,"]


def test_what_is_in_transit_is_under_way(room):
    """Else a warning. What left before figures started again isn't among it, as long as it can be under way: a lead time of a week."""
    said = "vendors.csv row 2: {} of WORKS MOTOR are in transit from Lumen, and receipts.csv has 100; an order that hasn't left belongs in firm_orders.csv"
    for row, told in (
        ("2300,100,,", False),
        ("2300,60,,", True),
        ("2300,120,,", True),
        ("0,60,,2026-12-16", False),
        ("0,60,,2026-12-07", True),
        ("0,120,,2026-12-16", True),
    ):
        found, warned = vendors(room, f"Lumen,WORKS,MOTOR,{row}")
        transit = row.split(",")[1]
        assert warned == [said.format(transit)] * told, row
        assert found == [f"vendor,Lumen,WORKS,MOTOR,{row.split(',')[0]},{transit},,"]
    vendors(room, "Lumen,WORKS,MOTOR,2300,60,,", words=("--strict",), status=1)


def test_figures_of_vendors_start_again(room):
    """In the period that holds the day, or the next one on which somebody works; not where that has passed or lies beyond the plan."""
    for row, period, told in (
        ("2026-12-21,", "0", False),
        ("2027-01-05,", "2", True),
        ("2027-01-17,", "3", True),
        ("2027-01-18,", "", False),
        ("2026-12-01,2026-12-01", "", False),
    ):
        found, said = vendors(room, f"Lumen,WORKS,MOTOR,2300,100,{row}")
        assert found == [f"vendor,Lumen,WORKS,MOTOR,2300,100,{period},"], row
        assert bool(said) == told, row
    found, said = vendors(room, "Lumen,WORKS,MOTOR,2300,100,2027-01-01,", closed="From,To\n2026-12-24,2027-01-03\n")
    assert (found, said) == (["vendor,Lumen,WORKS,MOTOR,2300,100,1,"], [])


@pytest.mark.parametrize(
    "rows, told",
    [
        (("Lumen,WORKS,PUMP,0,0,,",), "row 2, Item: WORKS PUMP isn't bought: its supply is 'make'"),
        (("Lumen,DEPOT,MOTOR,0,0,,",), "row 2, Item: DEPOT MOTOR isn't bought: its supply is 'from:WORKS'"),
        (("DEPOT,WORKS,MOTOR,0,100,,",), "row 2, Vendor: DEPOT is a plant; take the item from:DEPOT, and give the figure in cums.csv"),
        (("Lumen,WORKS,MOTOR,0,100,,", "Kiel,WORKS,MOTOR,0,100,,"), "row 3, Item: WORKS MOTOR stands in row 2 already"),
        (("Lumen,WORKS,MOTR,0,100,,",), "row 2, Item: WORKS has no item 'MOTR' (MOTOR?)"),
        (("Lumen,WORKS,MOTOR,-1,100,,",), "row 2, Figure received: '-1' is not from 0 to 1000000000000000"),
        (("Lumen,WORKS,MOTOR,0,1.5,,",), "row 2, In transit: '1.5' is no whole number; plan the item in a smaller unit (docs/limits.md, fractions)"),
        (
            ("Lumen,WORKS,MOTOR,0,100,2026-12-20,",),
            "row 2, Starts again: it is before 2026-12-21; give the figure since then, with that day in a column Since, and what left before then in "
            "receipts.csv alone",
        ),
        (("A B,WORKS,MOTOR,0,100,,", "A/B,WORKS,SEAL,0,7,,"), "row 3, Vendor: 'A/B' and 'A B' are both A_B in the table; rename one"),
    ],
)
def test_slips_of_vendors(room, rows, told):
    assert vendors(room, *rows, status=1)[1] == [f"vendors.csv {told}"]


def test_names_of_vendors_and_plants_differ(room):
    items = ITEMS.replace("DEPOT", "K-1")
    text = f"{HEADS}\nK/1,WORKS,MOTOR,0,0,,\nKö-1,WORKS,SEAL,0,0,,\n"
    _, said = rows_of(room, ("vendor",), status=1, items=items.replace("K-1", "K_1"), vendors=text)
    assert said == "vendors.csv row 2, Vendor: 'K/1' and the plant 'K_1' are both K_1 in the table; rename one\nbin/sheets: 1 slip; nothing is written\n"


# A firm of three plants and 200 vendors, each of one item: those of the first 66 at SUED, of the next 67 at NORD, and of the last 67 at
# MITTE. SUED makes machines of what the others make: GEAR and BODY.
PLANTS = {"SUED": ("MACHINE", range(66)), "NORD": ("GEAR", range(66, 133)), "MITTE": ("BODY", range(133, 200))}
WINTER = {
    "firm": "First day,Days,Periods,Closed on\n2026-12-14,7,6,Sat Sun\n",
    "closed": "From,To,Remark\n2026-12-24,2027-01-03,Christmas shutdown\n",
    "demands": "Order,Plant,Item,Due,Quantity\n4711,SUED,MACHINE,2027-01-06,10\n4712,SUED,MACHINE,2027-01-20,10\n",
    "shipments": "From,To,Item,Arrives,Quantity\n",
}


def winter():
    """Returns the sheets of the firm. Of each third item 4 pieces are under way, and each fifth figure starts again at New Year."""
    items = ["Plant,Item,Supply,Lot rule,Lead (AT),On hand,Safety stock,Vendor part no."]
    items += ["SUED,GEAR,from:NORD,lot,5,0,0,", "SUED,BODY,from:MITTE,lot,5,0,0,"]
    bills, vendors, receipts = ["SUED,MACHINE,GEAR,1", "SUED,MACHINE,BODY,1"], [], []
    for plant, (made, parts) in PLANTS.items():
        items.append(f"{plant},{made},make,lot,5,{0 if plant == 'SUED' else 10},0,")
        for it in parts:
            items.append(f"{plant},PART {it},buy,lot,3,0,0,V {it}")
            bills.append(f"{plant},{made},PART {it},1")
            vendors.append(f"Vendor {it} & Co,{plant},PART {it},{1000 + it},{0 if it % 3 else 4},{'' if it % 5 else '2027-01-01'}")
            receipts += [] if it % 3 else [f"{plant},PART {it},2026-12-15,4"]
    found = {"items": items, "bills": ["Plant,Parent,Component,Per", *bills], "receipts": ["Plant,Item,Due,Quantity", *receipts]}
    found["vendors"] = ["Vendor,Plant,Item,Figure received,In transit,Starts again", *vendors]
    return WINTER | {name: "".join(f"{it}\n" for it in lines) for name, lines in found.items()}


def wanted_of(vendor):
    """Returns the rows of a vendor's schedule, by hand. Machines are due in the weeks of 4 and 18 January, periods 2 and 4 without the week of
    the shutdown, and take their parts a period before: so SUED calls for 10 parts in period 0, less what is under way, and 10 in period 2. The
    others have made 10 gears and bodies; those for the second machines leave in period 2 and take their parts in 1, which leave in 0.
    """
    plant, way, figure = next(plant for plant, (_, parts) in PLANTS.items() if vendor in parts), 0 if vendor % 3 else 4, 1000 + vendor
    front = f"{{}},Vendor_{vendor}___Co,{plant},PART_{vendor}"
    rows = [f"{front.format('schedule,opening')},,,{way},{figure + way}"]
    rows.append(f"{front.format('schedule,call')},0,2026-12-14,{10 - way},{figure + 10}")
    rows += [] if vendor % 5 else [f"{front.format('schedule,reset')},2,2027-01-04,,{figure + 10}"]
    return rows + [f"{front.format('schedule,call')},2,2027-01-04,10,{figure + 20 if vendor % 5 else 10}"] * (plant == "SUED")


def test_a_firm_of_200_vendors_through_a_shutdown(room):
    """From sheets to schedules, orders and the page."""
    write_sheets(room, "firm", {f"{name}.csv": text for name, text in winter().items()})
    said = room.run("bin/sheets --strict --today 2026-12-14 --names names.csv --out table.csv firm 2>&1").splitlines()
    assert said[-1] == "closed.csv: nobody works from 2026-12-28 to 2027-01-03; no period begins there"
    assert [it for it in said if "isn't" in it or "in transit" in it] == []
    table = room.run("cat table.csv")
    assert table.startswith("run,2026-12-14,7,6,,,,\n") and table.endswith("\nday,2,2027-01-04,,,,,\nend,681,,,,,,\n")
    reports_from_files(room, table, "plan", "orders", "advice --reach", "schedule", "shortages")
    schedule = room.run("cat schedule.csv").splitlines()
    assert [it for it in schedule if ",Vendor_" in it] == [row for it in range(200) for row in wanted_of(it)]
    # (that the rows are below the names of their columns is what the program would do)
    for name in ("schedule", "orders", "shortages"):
        room.write(f"{name}.csv", f"row\n{room.run(f'cat {name}.csv')}")
    room.variables["MRP"] = "words/files"
    own = room.run("bin/schedule --from 'Vendor 15 & Co' --names names.csv < table.csv").splitlines()[1:]
    parts = [f"{it.replace('Vendor_15___Co', 'Vendor 15 & Co').replace('PART_15', 'PART 15')},,V 15," for it in wanted_of(15)]
    # (at the opening stand the receipts that are under way)
    parts[0] += "4 of 2026-12-15"
    assert own == parts
    until = room.run("bin/schedule --from 'Vendor 15 & Co' --until 2027-01-03 --names names.csv < table.csv").splitlines()[1:]
    assert until == parts[:2]
    sums = room.run("bin/orders --sums vendor --until 0 --names names.csv < table.csv").splitlines()
    assert [it for it in sums if it.startswith("total,Vendor 15 ")] == ["total,Vendor 15 & Co,,,,1,6,2026-12-14"]
    assert len([it for it in sums if it.startswith("total,Vendor ")]) == 200
    page(room)
    if room.program:
        assert room.run(f"{room.program} schedule < table.csv").splitlines() == schedule


def page(room):
    """The page of the firm: what is to be bought is under its vendors, and plants are the three."""
    for name in ("schedule", "orders", "shortages"):
        room.run(f"sed -i 1d {name}.csv")
    text = room.run("bin/page --names names.csv < table.csv")
    Tags(text)
    heads = re.findall("<h3>To buy from ([^<]*)</h3>", text)
    assert sorted(heads) == sorted(f"Vendor {it} &amp; Co" for it in range(200))
    rows = listed(text, "release")
    assert [it for it in rows if it[0] == "PART 15"] == [["PART 15", "6", "", "21 Dec W52", "SUED"]]
    assert sorted(it[0] for it in rows if not it[0].startswith("PART")) == ["BODY", "GEAR"]
    assert re.findall("<option>([^<]*)</option>", text) == ["MITTE", "NORD", "SUED"]
    deliveries = listed(text, "deliveries")
    assert ["PART 15", "4 Jan W01", "10", "101,025 closed"] in deliveries
