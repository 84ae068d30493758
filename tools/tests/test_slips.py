"""What leads planners into a wrong act is told: by bin/sheets, bin/counts, bin/renew and the nights of docs/night.md.

The program is the one that MRP names, or the proved one where it is built of the sources; without, the nights are skipped.
"""
import datetime
import fcntl
import hashlib
import os
import re
import shutil
import subprocess

import firms
import pytest
import support
from support import TOP

# The sheets of examples/bicycle.csv, of a firm that has nothing on order; its period 0 holds MONDAY.
MONDAY = "2026-01-05"
BICYCLE = {
    "firm.csv": "First day,Days,Periods\n2026-01-05,7,4\n",
    "items.csv": "Plant,Item,Supply,Lot rule,Lead (periods),On hand,Safety stock\n"
    "P1,BIKE,make,lot,1,0,0\nP1,WHEEL,buy,lot,1,0,0\n",
    "bills.csv": "Plant,Parent,Component,Per\nP1,BIKE,WHEEL,2\n",
    "demands.csv": "Plant,Item,Due,Quantity\nP1,BIKE,2026-01-26,10\n",
    "receipts.csv": "Plant,Item,Due,Quantity\n",
}
TABLE = """\
run,2026-01-05,7,4,,,,
plant,P1,,,,,,
pair,P1,BIKE,make,lot,1,0,0
pair,P1,WHEEL,buy,lot,1,0,0
bill,P1,BIKE,WHEEL,2,,,
demand,P1,BIKE,3,10,,,
"""
SMALLER = "plan the item in a smaller unit (docs/limits.md, fractions)"
REFUSED = "bin/sheets: 1 slip; nothing is written\n"
STRICT = "bin/sheets: by --strict these are slips; nothing is written\n"


def run(folder, *words, given="", **more):
    """Runs a tool, and returns its status, its output and its errors."""
    variables = {**os.environ, "PYTHONDONTWRITEBYTECODE": "1"}
    how = {"input": given, "capture_output": True, "text": True, "timeout": 600, "env": variables, "check": False, **more}
    done = subprocess.run([f"{TOP}/{words[0]}", *words[1:]], cwd=folder, **how)
    return done.returncode, done.stdout, done.stderr


def sheets(folder, found, *words):
    """Runs bin/sheets on some sheets, on the day of their period 0."""
    shutil.rmtree(folder / "firm", ignore_errors=True)
    (folder / "firm").mkdir()
    for name, text in found.items():
        (folder / "firm" / name).write_text(text, encoding="utf-8")
    status, written, said = run(folder, "bin/sheets", "--today", MONDAY, *words, "firm")
    return status, without_end(written), said


def without_end(written):
    """Returns the rows of a table before its end row, which says how many they are."""
    rows = firms.unended(written.encode()).decode()
    assert (rows == written) == (not rows)
    return rows


def test_a_good_folder_is_silent(tmp_path):
    assert sheets(tmp_path, BICYCLE) == (0, TABLE, "")
    assert sheets(tmp_path, BICYCLE, "--strict") == (0, TABLE, "")


@pytest.mark.parametrize(
    "text, told",
    [
        ("0,25", f"is no whole number; {SMALLER}"),
        ("4,2", f"is no whole number; {SMALLER}"),
        ("1.5", f"is no whole number; {SMALLER}"),
        ("-0.5", f"is no whole number; {SMALLER}"),
        ("0,250", f"is no whole number; {SMALLER}"),
        ("1.200,50", f"is no whole number; {SMALLER}"),
        ("1,250", f"is no whole number; write 1250 if that is meant, else {SMALLER}"),
        ("12,000", "is no whole number; write 12000 or 12, whichever is meant"),
        ("12.0", "is no whole number; write it as 12"),
        ("12,00", "is no whole number; write it as 12"),
        ("0,000", "is no whole number; write it as 0"),
        ("1 200", "is no whole number; write it as 1200"),
        ("1'200", "is no whole number; write it as 1200"),
        ("1.200.300", "is no whole number; write it as 1200300"),
        ("1.200,00", "is no whole number; write it as 1200"),
        ("1E+06", "is no whole number; write one as 1200"),
        ("12 Stk", "is no whole number; write one as 1200"),
        ("1.234.5", "is no whole number; write one as 1200"),
        ("025", f"begins with a 0; write 25, or where 0.25 is meant {SMALLER}"),
        ("00", f"begins with a 0; write 0, or where 0.0 is meant {SMALLER}"),
    ],
)
def test_what_to_write_for_what_is_no_whole_number(tmp_path, text, told):
    said = f"items.csv row 3, Safety stock: {text!r} {told}\n{REFUSED}"
    assert sheets(tmp_path, {**BICYCLE, "items.csv": BICYCLE["items.csv"].replace("buy,lot,1,0,0", f'buy,lot,1,0,"{text}"')}) == (1, "", said)


@pytest.mark.parametrize(
    "sheet, old, new, told",
    [
        ("demands.csv", ",10", ",010", f"Quantity: '010' begins with a 0; write 10, or where 0.10 is meant {SMALLER}"),
        ("items.csv", "BIKE,make,lot,1,0", "BIKE,make,lot,1,05", f"On hand: '05' begins with a 0; write 5, or where 0.5 is meant {SMALLER}"),
        ("items.csv", "BIKE,make,lot", "BIKE,make,fixed:025", f"Lot rule: 'fixed:025': '025' begins with a 0; write 25, or where 0.25 is meant {SMALLER}"),
        ("items.csv", "BIKE,make,lot", "BIKE,make,fixed:2.5", f"Lot rule: 'fixed:2.5': '2.5' is no whole number; {SMALLER}"),
        ("items.csv", "BIKE,make,lot", "BIKE,make,periods:02", "Lot rule: 'periods:02': '02' begins with a 0; write 2"),
        ("items.csv", "BIKE,make,lot,1", "BIKE,make,lot,1.5", "Lead (periods): '1.5' is no whole number; round it up, or head the column Lead (days)"),
        ("firm.csv", ",7,", ",07,", "Days: '07' begins with a 0; write 7"),
        ("firm.csv", ",4", ",4.5", "Periods: '4.5' is no whole number"),
    ],
)
def test_each_number_cell_refuses_parts_and_a_0_in_front(tmp_path, sheet, old, new, told):
    said = f"{sheet} row 2, {told}\n{REFUSED}"
    assert sheets(tmp_path, {**BICYCLE, sheet: BICYCLE[sheet].replace(old, new, 1)}) == (1, "", said)


@pytest.mark.parametrize(
    "row, told",
    [
        ("Total,,,,17", "Item and Due are empty"),
        (",,,Total,17", "Plant, Item and Due are empty"),
        ("P1,,2026-01-26,,", "Item and Quantity are empty"),
    ],
)
def test_a_sum_is_one_slip(tmp_path, row, told):
    demands = f"Plant,Item,Due,Order,Quantity\nP1,BIKE,2026-01-26,,10\n{row}\n"
    said = f"demands.csv row 3: {told}; delete the row if it is a sum\n{REFUSED}"
    assert sheets(tmp_path, {**BICYCLE, "demands.csv": demands}) == (1, "", said)


def test_one_empty_cell_is_the_slip_that_it_was(tmp_path):
    said = f"demands.csv row 3, Item: nothing stands here\n{REFUSED}"
    assert sheets(tmp_path, {**BICYCLE, "demands.csv": BICYCLE["demands.csv"] + "P1,,2026-01-26,10\n"}) == (1, "", said)


def test_rows_of_0_are_left_out_and_told_once(tmp_path):
    """Whatever else stands in them, and in no count of overdue rows."""
    demands = BICYCLE["demands.csv"] + "P1,BIKE,2025-01-05,0\nP1,GONE,2026-01-05,0\n"
    ships = "From,To,Item,Arrives,Quantity\nP1,P2,BIKE,2026-01-05,0\n"
    found = {**BICYCLE, "demands.csv": demands, "receipts.csv": "Plant,Item,Due,Quantity\nP1,WHEEL,,0\n", "shipments.csv": ships}
    said = "demands.csv: 2 rows of 0 left out (rows 3, 4)\nreceipts.csv: 1 row of 0 left out (row 2)\n"
    said += "shipments.csv: 1 row of 0 left out (row 2)\n"
    assert sheets(tmp_path, found) == (0, TABLE, said)
    assert sheets(tmp_path, found, "--strict") == (1, "", said + STRICT)
    found["demands.csv"] = BICYCLE["demands.csv"] + "P1,BIKE,2026-01-05,-1\n"
    assert sheets(tmp_path, found) == (1, "", f"demands.csv row 3, Quantity: '-1' is not from 1 to 1000000000000\n{REFUSED}")


def test_stock_below_0_is_a_demand_of_period_0(tmp_path):
    items = BICYCLE["items.csv"].replace("WHEEL,buy,lot,1,0", "WHEEL,buy,lot,1,-4")
    said = "items.csv: stock below 0 (row 3): 0 on hand, and what is missing is a demand of period 0\n"
    table = TABLE.replace("demand,", "demand,P1,WHEEL,0,4,,,\ndemand,", 1)
    assert sheets(tmp_path, {**BICYCLE, "items.csv": items}, "--names", "names.csv") == (0, table, said)
    assert "\ndemand,P1,WHEEL,0,2026-01-05,4,,,On hand -4\n" in (tmp_path / "names.csv").read_text()
    assert sheets(tmp_path, {**BICYCLE, "items.csv": items}, "--strict") == (1, "", said + STRICT)
    found = {it: text for it, text in BICYCLE.items() if it != "demands.csv"}
    assert sheets(tmp_path, {**found, "items.csv": items})[2].startswith(NO_DEMAND)
    items = BICYCLE["items.csv"].replace("WHEEL,buy,lot,1,0,0", "WHEEL,buy,lot,1,0,-4")
    said = f"items.csv row 3, Safety stock: '-4' is not from 0 to 1000000000000\n{REFUSED}"
    assert sheets(tmp_path, {**BICYCLE, "items.csv": items}) == (1, "", said)


@pytest.mark.parametrize(
    "today, first",
    [
        ("2026-01-04", "2025-12-29"),
        ("2026-01-05", None),
        ("11.01.2026", None),
        ("2026-01-12", "2026-01-12"),
        ("2026-03-01", "2026-02-23"),
    ],
)
def test_the_first_period_is_to_hold_today(tmp_path, today, first):
    day = "-".join(reversed(today.split("."))) if "." in today else today
    said = f"firm.csv row 2, First day: the period from 2026-01-05 on doesn't hold today, {day}; the one that does begins on {first}\n"
    assert sheets(tmp_path, BICYCLE, "--today", today) == (0, TABLE, said if first else "")
    assert sheets(tmp_path, BICYCLE, "--today", today, "--strict") == ((1, "", said + STRICT) if first else (0, TABLE, ""))


def test_the_clock_says_which_day_is_today(tmp_path):
    for back in (0, 8):
        first = datetime.date.today() - datetime.timedelta(back)
        firm = f"First day,Days,Periods\n{first},7,4\n"
        sheets(tmp_path, {**BICYCLE, "firm.csv": firm, "demands.csv": f"Plant,Item,Due,Quantity\nP1,BIKE,{first},10\n"})
        status, table, said = run(tmp_path, "bin/sheets", "firm")
        assert (status, without_end(table)) == (0, TABLE.replace(MONDAY, str(first)).replace("BIKE,3,10", "BIKE,0,10"))
        assert ("doesn't hold today" in said) == (back > 0)
    for bad, why in (("soon", "'soon' is no date; write it as 2026-12-01"), ("0001-01-01", "'0001-01-01' is not within the years 1970 to 2199")):
        assert run(tmp_path, "bin/sheets", "--today", bad, "firm") == (2, "", f"bin/sheets: argument --today: {why}\n")


# A firm that makes, buys, and takes from another plant.
BOTH = {
    **BICYCLE,
    "items.csv": BICYCLE["items.csv"] + "P2,BIKE,from:P1,lot,1,0,0\n",
    "demands.csv": "Plant,Item,Due,Quantity\nP2,BIKE,2026-01-26,10\n",
    "shipments.csv": "From,To,Item,Arrives,Quantity\n",
}
NO_DEMAND = "demands.csv: it is missing, and nothing is asked for\n"


@pytest.mark.parametrize(
    "name, said",
    [
        ("demands.csv", NO_DEMAND),
        ("bills.csv", "bills.csv: it is missing, and 1 item is made; nothing is planned of what goes into them\n"),
        ("receipts.csv", "receipts.csv: it is missing, and 1 item is bought; what is on order is planned again\n"),
        ("shipments.csv", "shipments.csv: it is missing, and 1 item is taken from another plant; what is on its way is planned again\n"),
    ],
)
def test_a_sheet_that_is_missing_is_told(tmp_path, name, said):
    """Once, by its name: what follows of it for each item isn't told besides, but for what nothing takes without bills."""
    more = "items.csv row 3: P1 WHEEL has no demand, and nothing takes it\n" * (name == "bills.csv")
    found = {it: text for it, text in BOTH.items() if it != name}
    status, table, errors = sheets(tmp_path, found)
    assert (status, errors) == (0, said + more)
    assert sheets(tmp_path, found, "--strict") == (1, "", said + more + STRICT)
    # (with headings alone a sheet says that there is nothing, but a firm without demands plans nothing)
    found[name] = BOTH[name].split("\n")[0] + "\n"
    told = {"demands.csv": "demands.csv: it has no rows to plan, and nothing is asked for\n"}
    told["bills.csv"] = "items.csv row 2: P1 BIKE is made and has no bill\n" + more
    assert sheets(tmp_path, found) == (0, table, told.get(name, ""))


def test_sheets_that_a_firm_may_lack(tmp_path):
    """Of plants, figures and resets none is told; nor what it has no items for."""
    assert sheets(tmp_path, BOTH)[2] == ""
    only = "Plant,Item,Supply,Lot rule,Lead (periods),On hand,Safety stock\nP1,BIKE,buy,lot,1,0,0\n"
    found = {it: BICYCLE[it] for it in ("firm.csv", "demands.csv", "receipts.csv")}
    table = TABLE.replace("make", "buy").replace("pair,P1,WHEEL,buy,lot,1,0,0\nbill,P1,BIKE,WHEEL,2,,,\n", "")
    assert sheets(tmp_path, {**found, "items.csv": only}) == (0, table, "")


def test_a_sheet_of_another_name_is_told(tmp_path):
    found = {"bom.csv" if name == "bills.csv" else name: text for name, text in BICYCLE.items()}
    said = "not read, for no sheet has this name: bom.csv\n"
    said += "bills.csv: it is missing, and 1 item is made; nothing is planned of what goes into them\n"
    said += "items.csv row 3: P1 WHEEL has no demand, and nothing takes it\n"
    assert sheets(tmp_path, found) == (0, TABLE.replace("bill,P1,BIKE,WHEEL,2,,,\n", ""), said)
    assert sheets(tmp_path, found, "--strict") == (1, "", said + STRICT)
    # (one that is nearly the name of a sheet was a slip before)
    found["bill.csv"] = found.pop("bom.csv")
    assert sheets(tmp_path, found) == (1, "", f"bill.csv: no sheet has this name (bills.csv?)\n{REFUSED}")


def test_a_receipt_of_what_is_made_is_told(tmp_path):
    """But not where something that goes into it is asked for, and not of what is bought."""
    found = {**BICYCLE, "receipts.csv": "Order,Plant,Item,Due,Quantity\nFA-7,P1,BIKE,2026-01-12,4\n,P1,BIKE,2026-01-19,4\nB-2,P1,WHEEL,2026-01-12,4\n"}
    table = TABLE + "receipt,P1,BIKE,1,4,,,\nreceipt,P1,BIKE,2,4,,,\nreceipt,P1,WHEEL,1,4,,,\n"
    cure = "belongs in demands.csv, or the whole order in firm_orders.csv if it has no parts yet\n"
    said = f"receipts.csv row 2: P1 BIKE is made; what the order still takes (Order FA-7) {cure}"
    said += f"receipts.csv row 3: P1 BIKE is made; what the order still takes {cure}"
    assert sheets(tmp_path, found) == (0, table, said)
    assert sheets(tmp_path, found, "--strict") == (1, "", said + STRICT)
    found["demands.csv"] += "P1,WHEEL,2026-01-05,8\n"
    assert sheets(tmp_path, found)[2] == ""
    found = {**BICYCLE, "receipts.csv": "Plant,Item,Due,Quantity\n" + "P1,BIKE,2026-01-12,4\n" * 25}
    lines = sheets(tmp_path, found)[2].splitlines()
    assert (len(lines), lines[-1]) == (21, "receipts.csv: of items that are made: 5 more")


HEADS = "Order,Plant,Item,Start,Due,Quantity\n"
BEYOND = "firm_orders.csv: 1 row beyond 2026-02-01 left out (row 2)\n"


def test_a_firm_order_that_starts_behind_its_due_date_is_a_slip(tmp_path):
    """In the same period too; and what no cell says, or a sum, as in other sheets."""
    for row, told in (
        ("F,P1,BIKE,2026-01-19,2026-01-12,4", "row 2, Start: 2026-01-19 is after 2026-01-12, when the order is due"),
        ("F,P1,BIKE,2026-01-14,2026-01-13,4", "row 2, Start: 2026-01-14 is after 2026-01-13, when the order is due"),
        ("F,P1,BIKE,2026-02-09,2026-02-08,4", "row 2, Start: 2026-02-09 is after 2026-02-08, when the order is due"),
        ("F,P1,BIKE,,2026-01-12,4", "row 2, Start: nothing stands here"),
        ("F,P1,BELL,2026-01-12,2026-01-12,4", "row 2, Item: P1 has no item 'BELL' (BIKE?)"),
        ("F,P1,BIKE,2026-01-12,2026-01-12,1.5", f"row 2, Quantity: '1.5' is no whole number; {SMALLER}"),
        ("Total,,,,,4", "row 2: Plant, Item, Start and Due are empty; delete the row if it is a sum"),
    ):
        found = {**BICYCLE, "firm_orders.csv": f"{HEADS}{row}\n"}
        assert sheets(tmp_path, found) == (1, "", f"firm_orders.csv {told}\n{REFUSED}")


def test_a_firm_order_beyond_the_end_names_what_it_takes(tmp_path):
    """The components of what is made and the part of each plant that it is taken from, on the day when it starts; of what is
    bought nothing, nor of what starts beyond the end too.
    """
    front = "firm_orders.csv row 2: 4 of P1 BIKE, due beyond 2026-02-01, left out; in their place write as demands of"
    for start, said in (
        ("2026-01-26", f"{front} 2026-01-26: 8 of P1 WHEEL\n"),
        ("2025-11-30", f"{front} 2026-01-05: 8 of P1 WHEEL\n"),
        ("2026-02-02", ""),
    ):
        found = {**BICYCLE, "firm_orders.csv": f"{HEADS}F-1,P1,BIKE,{start},2026-02-02,4\n"}
        assert sheets(tmp_path, found) == (0, TABLE, BEYOND + said)
        assert sheets(tmp_path, found, "--strict") == ((1, "", said + STRICT) if said else (0, TABLE, BEYOND))
    found = {**BICYCLE, "firm_orders.csv": f"{HEADS}F-1,P1,WHEEL,2026-01-26,2026-02-02,4\n"}
    assert sheets(tmp_path, found, "--strict") == (0, TABLE, BEYOND)
    # (7 of two plants by 600 and 400, as a release of 7 is cut)
    items = BICYCLE["items.csv"] + "P2,WHEEL,buy,lot,1,0,0\nP3,WHEEL,from:P1:600:P2:400,lot,1,0,0\n"
    found = {**BICYCLE, "items.csv": items, "shipments.csv": BOTH["shipments.csv"], "demands.csv": BICYCLE["demands.csv"] + "P3,WHEEL,2026-01-26,1\n"}
    found["firm_orders.csv"] = f"{HEADS}F-1,P3,WHEEL,2026-01-19,2026-03-02,7\n"
    said = "firm_orders.csv row 2: 7 of P3 WHEEL, due beyond 2026-02-01, left out; in their place write as demands of 2026-01-19: "
    assert sheets(tmp_path, found)[2] == f"{BEYOND}{said}4 of P1 WHEEL, 3 of P2 WHEEL\n"


def test_what_many_components_a_firm_order_takes_is_told_in_lines(tmp_path):
    parts = "ABCDEFG"
    items = BICYCLE["items.csv"] + "".join(f"P1,{it},buy,lot,1,0,0\n" for it in parts)
    bills = BICYCLE["bills.csv"] + "".join(f"P1,BIKE,{it},{place}\n" for place, it in enumerate(parts, 3))
    rows = "F-1,P1,BIKE,2026-01-26,2026-02-02,2\n" * 7
    said = sheets(tmp_path, {**BICYCLE, "items.csv": items, "bills.csv": bills, "firm_orders.csv": HEADS + rows})[2].splitlines()
    assert [it.rpartition(": ")[2] for it in said[1:4]] == [
        "4 of P1 WHEEL, 6 of P1 A, 8 of P1 B",
        "10 of P1 C, 12 of P1 D, 14 of P1 E",
        "16 of P1 F, 18 of P1 G",
    ]
    assert said[2].startswith("firm_orders.csv row 2: 2 of P1 BIKE, and of 2026-01-26: ")
    assert (len(said), said[-1]) == (22, "firm_orders.csv: due beyond the end: 1 more")


def test_what_firm_orders_take_is_asked_for(tmp_path):
    """An item that is firm has no warning for want of a demand, nor what goes into it; it is no demand of a component."""
    items = BICYCLE["items.csv"] + "P1,BELL,make,lot,1,0,0\nP1,SPRING,buy,lot,1,0,0\n"
    found = {**BICYCLE, "items.csv": items, "bills.csv": BICYCLE["bills.csv"] + "P1,BELL,SPRING,1\n"}
    assert "items.csv row 4: P1 BELL has no demand, and nothing takes it\n" in sheets(tmp_path, found)[2]
    found["firm_orders.csv"] = f"{HEADS}F-1,P1,BELL,2026-01-12,2026-01-19,4\n"
    assert sheets(tmp_path, found)[2] == ""
    # (the springs are firm, and a receipt of bells is told all the same)
    found["firm_orders.csv"] = f"{HEADS}F-1,P1,SPRING,2026-01-12,2026-01-19,4\n"
    found["receipts.csv"] = "Plant,Item,Due,Quantity\nP1,BELL,2026-01-12,4\n"
    assert "receipts.csv row 2: P1 BELL is made; " in sheets(tmp_path, found)[2]


def test_a_vendor_that_is_a_plant_has_no_warning(tmp_path):
    """Its lead time of 0 is right; that of an item that no plant takes is told."""
    items = BICYCLE["items.csv"].replace("P1,WHEEL,buy,lot,1", "P1,WHEEL,from:V,lot,1") + "V,WHEEL,buy,lot,0,0,0\n"
    assert sheets(tmp_path, {**BICYCLE, "items.csv": items, "shipments.csv": BOTH["shipments.csv"]})[2] == ""
    items = BICYCLE["items.csv"].replace("P1,WHEEL,buy,lot,1", "P1,WHEEL,buy,lot,0")
    assert sheets(tmp_path, {**BICYCLE, "items.csv": items})[2] == "items.csv row 3: P1 WHEEL has a lead time of 0\n"


def test_what_became_of_rows_is_no_slip_by_strict(tmp_path):
    demands = "Plant,Item,Due,Quantity\nP1,BIKE/28,2026-01-04,1\nP1,BIKE/28,2026-01-26,10\nP1,BIKE/28,2026-02-02,1\n"
    found = {name: text.replace("BIKE", "BIKE/28") for name, text in BICYCLE.items()}
    said = "items.csv: 1 name written otherwise, as BIKE_28 for BIKE/28\n"
    said += "demands.csv: 1 overdue row in period 0, 1 row beyond 2026-02-01 left out (row 4)\n"
    said += "demands.csv row 2: 1 of P1 BIKE/28, 1 day late\n"
    table = TABLE.replace("BIKE", "BIKE_28").replace("demand,", "demand,P1,BIKE_28,0,1,,,\ndemand,")
    assert sheets(tmp_path, {**found, "demands.csv": demands}, "--strict") == (0, table, said)


def test_strict_keeps_the_old_files(tmp_path):
    for name in ("table.csv", "names.csv"):
        (tmp_path / name).write_text("last week\n")
    words = "--strict", "--out", "table.csv", "--names", "names.csv"
    found = {it: text for it, text in BICYCLE.items() if it != "demands.csv"}
    assert sheets(tmp_path, found, *words) == (1, "", NO_DEMAND + STRICT)
    assert [(tmp_path / name).read_text() for name in ("table.csv", "names.csv")] == ["last week\n"] * 2
    assert sheets(tmp_path, BICYCLE, *words) == (0, "", "")
    assert without_end((tmp_path / "table.csv").read_text()) == TABLE
    # (slips are told as they are without, and no warning beside them)
    found["bills.csv"] = "Plant,Parent,Component,Per\nP1,BIKE,WHEEL,x\n"
    said = f"bills.csv row 2, Per: 'x' is no whole number; write one as 1200\n{REFUSED}"
    assert sheets(tmp_path, found, "--strict") == sheets(tmp_path, found) == (1, "", said)


def test_names_and_out_are_two_files(tmp_path):
    (tmp_path / "link.csv").symlink_to("same.csv")
    for out in ("same.csv", "./same.csv", "link.csv"):
        assert sheets(tmp_path, BICYCLE, "--names", "same.csv", "--out", out) == (2, "", "bin/sheets: --names and --out are one file\n")
    assert not (tmp_path / "same.csv").exists()


def test_long_names_that_are_cut_alike(tmp_path):
    """With a file of names each has digits of its own, wherever it stands; without they are a slip."""
    screws = ["SCHRAUBE DIN 933 M8x30", "SCHRAUBE DIN 933 M8x25"]
    codes = [f"SCHRAUBE_DIN_93-{hashlib.sha256(it.encode()).hexdigest()[:4]}" for it in screws]
    head = BICYCLE["items.csv"].split("\n")[0] + "\n"
    demands = BICYCLE["demands.csv"].split("\n")[0] + "\n" + "".join(f"P1,{it},2026-01-05,{place}\n" for place, it in enumerate(screws, 1))
    for order in (screws, screws[::-1]):
        found = {"firm.csv": BICYCLE["firm.csv"], "demands.csv": demands, "receipts.csv": BICYCLE["receipts.csv"]}
        found["items.csv"] = head + "".join(f"P1,{it},buy,lot,1,0,0\n" for it in order)
        status, table, said = sheets(tmp_path, found, "--names", "names.csv")
        first = codes[screws.index(order[0])]
        told = f"items.csv: 2 names written otherwise, as {first} for {order[0]}\n"
        told += f"items.csv: 2 of them end in digits, for cut they are alike, as {first} for {order[0]}\n"
        assert (status, said) == (0, told)
        assert [it for it in table.splitlines() if it.startswith("demand")] == [f"demand,P1,{it},0,{place},,," for place, it in enumerate(codes, 1)]
        names = (tmp_path / "names.csv").read_text()
        assert all(f"\npair,P1,{code},,,,{name},,\n" in names for code, name in zip(codes, screws))
        status, table, said = sheets(tmp_path, found)
        alike = f"{order[1]!r} and {order[0]!r} are both SCHRAUBE_DIN_933_M8x in the table"
        assert (status, table, said) == (1, "", f"items.csv row 3, Item: {alike}; rename one, or give --names FILE\n{REFUSED}")
    # (one that is as long as it may be keeps its name, and a long one that is alone is cut as before)
    for other, code in (("SCHRAUBE_DIN_933_M8x", codes[0]), ("SCHRAUBE", "SCHRAUBE_DIN_933_M8x")):
        found["items.csv"] = f"{head}P1,{screws[0]},buy,lot,1,0,0\nP1,{other},buy,lot,1,0,0\n"
        found["demands.csv"] = BICYCLE["demands.csv"].split("\n")[0] + "\n"
        table = sheets(tmp_path, found, "--names", "names.csv")[1]
        assert [it.split(",")[2] for it in table.splitlines() if it.startswith("pair")] == [code, other]
    # (and short ones that meet are a slip)
    found["items.csv"] = f"{head}P1,A/B,buy,lot,1,0,0\nP1,A_B,buy,lot,1,0,0\n"
    said = f"items.csv row 3, Item: 'A_B' and 'A/B' are both A_B in the table; rename one\n{REFUSED}"
    assert sheets(tmp_path, found, "--names", "names.csv") == (1, "", said)


# The firm of examples/three_plants.csv: how many rows each kind has, by hand.
THREE = {"run": 1, "plant": 3, "pair": 9, "pair with stock": 8, "pair with safety stock": 2, "bill": 4, "demand": 6, "receipt": 1, "ship": 2, "cum": 3}
KEPT = "kind,rows\n" + "".join(f"{kind},{rows}\n" for kind, rows in THREE.items())
NEW = "bin/counts: counts.csv is new, so nothing was compared\n"
AS_IT_WAS = "bin/counts: counts.csv is as it was; if the table is right, --accept takes it\n"


def three_plants():
    with open(f"{TOP}/examples/three_plants.csv", encoding="utf-8") as file:
        return file.read()


def counts(folder, table, *words):
    """Runs bin/counts, and returns its status, its errors and what the file has then."""
    status, out, said = run(folder, "bin/counts", *words, "counts.csv", given=table)
    kept = folder / "counts.csv"
    assert out == "" and not (folder / "counts.csv.new").exists()
    return status, said, kept.read_text() if kept.exists() else None


def test_counts_keeps_the_numbers_of_the_first_table(tmp_path):
    assert counts(tmp_path, three_plants(), "--check") == (0, "", None)
    assert counts(tmp_path, three_plants()) == (0, NEW, KEPT)
    assert counts(tmp_path, three_plants()) == (0, "", KEPT)
    quoted = "\ufeff" + re.sub("(?m)^([a-z]+)", r'"\1"', three_plants()).replace("\n", "\r\n")
    assert counts(tmp_path, quoted) == (0, "", KEPT)


@pytest.mark.parametrize("kind", ["plant", "pair", "bill", "demand", "receipt", "ship", "cum"])
def test_counts_refuses_a_table_without_a_kind(tmp_path, kind):
    counts(tmp_path, three_plants())
    less = re.sub(f"(?m)^{kind},.*\n", "", three_plants())
    said = "".join(
        f"{it}: {rows} row{'s' * (rows > 1)} before, none now\n" for it, rows in THREE.items() if it.split()[0] == kind
    )
    for fall in ((), ("--fall", "100"), ("--check",)):
        assert counts(tmp_path, less, *fall) == (1, said + AS_IT_WAS, KEPT)
    # (nothing is lost on the way back, once it is taken)
    status, told, kept = counts(tmp_path, less, "--accept")
    gone = [f"{it},{rows}" for it, rows in THREE.items() if it.split()[0] == kind]
    assert (status, told, [it for it in KEPT.splitlines() if it not in kept]) == (0, "", gone)
    assert counts(tmp_path, three_plants())[:2] == (0, "")


def test_counts_sees_firm_orders_that_are_gone(tmp_path):
    table = three_plants() + "firm,NORTH,BIKE,1,2,4,,\n"
    counts(tmp_path, table)
    assert (tmp_path / "counts.csv").read_text() == f"{KEPT}firm,1\n"
    assert counts(tmp_path, three_plants())[:2] == (1, f"firm: 1 row before, none now\n{AS_IT_WAS}")


def test_counts_sees_stock_and_safety_stock_that_are_gone(tmp_path):
    counts(tmp_path, three_plants())
    less = re.sub("(?m)^(pair,.*,)[0-9]+(,[0-9]+)$", r"\g<1>0\2", three_plants())
    assert counts(tmp_path, less) == (1, f"pair with stock: 8 rows before, none now\n{AS_IT_WAS}", KEPT)
    less = re.sub("(?m)^(pair,.*,)[0-9]+$", r"\g<1>0", three_plants())
    assert counts(tmp_path, less) == (1, f"pair with safety stock: 2 rows before, none now\n{AS_IT_WAS}", KEPT)


def test_counts_refuses_what_fell_by_more_than_the_share(tmp_path):
    """Ten demands: seven are 30 in a hundred less, six are 40."""
    head, demand = "run,2026-01-05,7,4,,,,\nplant,P1,,,,,,\n", "demand,P1,BIKE,1,5,,,\n"
    for fall, left, is_refused in (
        ((), 7, False),
        ((), 6, True),
        (("--fall", "40"), 6, False),
        (("--fall", "39"), 6, True),
        (("--fall", "0"), 9, True),
        (("--fall", "0"), 10, False),
        (("--fall", "100"), 1, False),
        ((), 11, False),
    ):
        (tmp_path / "counts.csv").write_text("kind,rows\nrun,1\nplant,1\ndemand,10\n")
        said = f"demand: 10 rows before, {left} now\n{AS_IT_WAS}" if is_refused else ""
        kept = f"kind,rows\nrun,1\nplant,1\ndemand,{10 if is_refused else left}\n"
        assert counts(tmp_path, head + demand * left, *fall) == (int(is_refused), said, kept)


def test_counts_refuses_what_is_no_table(tmp_path):
    said = "bin/counts: this is no table: its first row is 'plant' in place of run\n"
    headless = three_plants().partition("\n")[2]
    assert counts(tmp_path, "") == (1, "bin/counts: the table is empty\n", None)
    assert counts(tmp_path, headless) == counts(tmp_path, headless, "--accept") == (1, said, None)
    counts(tmp_path, three_plants())
    assert counts(tmp_path, headless) == (1, f"run: 1 row before, none now\n{AS_IT_WAS}", KEPT)
    assert counts(tmp_path, "", "--accept") == (1, "bin/counts: the table is empty\n", KEPT)
    for text in ("", "kind,rows\nrun\n", "kind,rows\nrun,-1\n", "row,plant\n", three_plants()):
        (tmp_path / "counts.csv").write_text(text)
        assert counts(tmp_path, three_plants()) == (1, "bin/counts: counts.csv is no file that bin/counts has written; it is as it was\n", text)


WHOLE = f"{three_plants()}end,29,,,,,,\n"


def test_counts_refuses_a_table_that_is_cut(tmp_path):
    """With the rows of each kind, and what the last table had: behind each row, and within the last one."""
    kept = f"{KEPT}end,1\n"
    cut, as_it_was = "bin/counts: the table is cut, for it doesn't say where it ends: ", "; counts.csv is as it was\n"
    assert counts(tmp_path, three_plants(), "--whole") == (1, f"{cut}{', '.join(f'{it} {rows}' for it, rows in THREE.items())}{as_it_was}", None)
    assert counts(tmp_path, WHOLE, "--whole") == (0, NEW, kept)
    assert counts(tmp_path, WHOLE.rstrip("\n").replace("\n", "\r\n"), "--whole") == (0, "", kept)
    lines = WHOLE.splitlines(keepends=True)
    ends = [sum(map(len, lines[:it])) for it in range(1, len(lines))] + [len(WHOLE) - it for it in range(2, len(lines[-1]))]
    for end in ends:
        words = [it.partition(",")[0] for it in WHOLE[:end].splitlines()]
        now = {it: f"{it} {words.count(it)} of 1" if it == "end" else f"{it} {words.count(it)} of {THREE[it]}" for it in THREE if " " not in it}
        status, said, found = counts(tmp_path, WHOLE[:end], "--whole", "--check")
        assert (status, said.startswith(f"{cut}run 1 of 1, "), said.endswith(as_it_was), found) == (1, True, True, kept)
        told = said.removeprefix(cut).removesuffix(as_it_was).split(", ")
        assert [it for it in told if not it.startswith(("pair with", "end", "en ", "e "))] == [*now.values()]
    # (without the option it is one kind less)
    assert counts(tmp_path, three_plants()) == (1, f"end: 1 row before, none now\n{AS_IT_WAS}", kept)
    # (rows that are lost from the middle)
    less = WHOLE.replace(lines[15], "")
    assert counts(tmp_path, less, "--whole")[1].startswith(cut)
    assert counts(tmp_path, less) == (0, "", kept.replace("bill,4", "bill,3"))


def test_a_table_of_sheets_is_refused_when_it_is_cut(tmp_path):
    """Behind each of its bytes, as it is and as other programs end lines."""
    program = support.program() or support.skip("the program")
    sheets(tmp_path, BICYCLE, "--out", "table.csv")
    table = (tmp_path / "table.csv").read_bytes()
    assert table == f"{TABLE}end,6,,,,,,\n".encode()
    for end in (b"\n", b"\r\n"):
        support.cut_anywhere(program, table.replace(b"\n", end), end)


def test_renew_asks_for_whole_tables(tmp_path):
    """The report stays where mrp refuses one that is cut."""
    variables = {**os.environ, "MRP": support.program() or support.skip("the program")}
    for words in (("plan",), ("orders", "--header"), ("peg", "--", "NORTH", "BIKE", "3")):
        assert run(tmp_path, "bin/renew", "--whole", "report.csv", *words, given=WHOLE, env=variables) == (0, "", "")
        old = (tmp_path / "report.csv").read_text()
        said = "mrp: row 30: Cut\nbin/renew: report.csv is as it was\n"
        assert run(tmp_path, "bin/renew", "--whole", "report.csv", *words, given=three_plants(), env=variables) == (1, "", said)
        assert (tmp_path / "report.csv").read_text() == old
        assert run(tmp_path, "bin/renew", "report.csv", *words, given=three_plants(), env=variables) == (0, "", "")


def test_counts_refuses_bad_words(tmp_path):
    for words, why in (
        ((), "the following arguments are required: KEPT"),
        (("--fall", "101", "counts.csv"), "argument --fall: '101' is not from 0 to 100"),
        (("--fall", "03", "counts.csv"), "argument --fall: '03' is not from 0 to 100"),
        (("--check", "--accept", "counts.csv"), "argument --accept: not allowed with argument --check"),
        (("--none", "counts.csv"), "unrecognized arguments: --none"),
    ):
        assert run(tmp_path, "bin/counts", *words, given=three_plants()) == (2, "", f"bin/counts: {why}\n")
    assert os.listdir(tmp_path) == []
    assert run(tmp_path, "bin/counts", "--help")[1].startswith("usage: bin/counts [OPTION..] KEPT < table\n")
    status, _, said = run(tmp_path, "bin/counts", "none/counts.csv", given=three_plants())
    assert (status, said.count("\n"), said.startswith("bin/counts: ")) == (1, 1, True)


def night(folder, section):
    """Writes night.sh as a section of docs/night.md has it into a folder that looks like the repository, and returns what runs it."""
    with open(f"{TOP}/docs/night.md", encoding="utf-8") as file:
        part = file.read().split(f"\n## {section}\n")[1].split("\n## ")[0]
    (folder / "night.sh").write_text(re.search("(?ms)^cat > night.sh <<'END'\n(.*?)^END\n", part)[1])
    for it in ("bin", "examples"):
        (folder / it).symlink_to(f"{TOP}/{it}")
    variables = {**os.environ, "MRP": support.program() or support.skip("the program")}

    def runs():
        done = subprocess.run(["sh", "night.sh"], cwd=folder, capture_output=True, text=True, timeout=600, env=variables, check=False)
        return done.returncode, done.stdout, done.stderr

    return runs


def files(folder):
    """Returns what the files of a night have that are to stay where the table is refused."""
    names = "table counts plan cums orders schedule advice".split() + ["names", "pegs"]
    return {it: (folder / f"{it}.csv").read_text() for it in names if (folder / f"{it}.csv").exists()}


@pytest.mark.parametrize(
    "sheet, said",
    [
        ("firm.csv", "firm.csv: it has 0 rows below the headings in place of 1\n" + REFUSED),
        ("items.csv", "items.csv: it has no items\n" + REFUSED),
        ("bills.csv", f"bill: 2 rows before, none now\n{AS_IT_WAS}"),
        ("demands.csv", f"demand: 4 rows before, none now\n{AS_IT_WAS}"),
        ("receipts.csv", f"receipt: 1 row before, none now\n{AS_IT_WAS}"),
        ("shipments.csv", f"ship: 1 row before, none now\n{AS_IT_WAS}"),
        ("cums.csv", f"cum: 1 row before, none now\n{AS_IT_WAS}"),
        ("resets.csv", f"reset: 1 row before, none now\n{AS_IT_WAS}"),
        ("firm_orders.csv", f"firm: 1 row before, none now\n{AS_IT_WAS}"),
    ],
)
def test_a_night_from_sheets_refuses_an_empty_sheet(tmp_path, sheet, said):
    """Of headings alone or no sheet at all: it is told, and all files stay. Without plants.csv the plants are those of items.csv."""
    runs = night(tmp_path, "From sheets")
    shutil.copytree(f"{TOP}/examples/sheets", tmp_path / "sheets")
    (tmp_path / "sheets" / "plants.csv").write_text("Plant\nDEPOT\nWORKS\n")
    assert runs() == (0, "", NEW)
    old = files(tmp_path)
    assert len(old) == 8
    path = tmp_path / "sheets" / sheet
    good = path.read_text()
    path.write_text(good.split("\n")[0] + "\n")
    assert (runs(), files(tmp_path)) == ((1, "", said), old)
    path.unlink()
    if sheet in ("firm.csv", "items.csv"):
        said = f"{sheet}: it is missing\n{REFUSED}"
    assert (runs(), files(tmp_path)) == ((1, "", said), old)
    path.write_text(good)
    (tmp_path / "sheets" / "plants.csv").write_text("Plant\n")
    assert runs() == (0, "", "")
    # (but for the order in which names.csv has them)
    now = files(tmp_path)
    assert sorted(now.pop("names").splitlines()) == sorted(old.pop("names").splitlines())
    assert now == old


@pytest.mark.parametrize(
    "table, lost",
    [
        ("calendar", "run demand receipt ship"),
        ("plants", "plant"),
        ("items", "pair,pair with stock,pair with safety stock"),
        ("bills", "bill"),
        ("stock", "pair with stock"),
        ("forecasts", "demand"),
        ("open_orders", "receipt"),
        ("shipments", "ship cum"),
    ],
)
@pytest.mark.skipif(not shutil.which("sqlite3"), reason="no sqlite3")
def test_a_night_from_a_database_refuses_an_empty_table(tmp_path, table, lost):
    runs, base = night(tmp_path, "From a database"), "sqlite3 firm.db"
    ask = "SELECT * FROM record; SELECT * FROM planned_order; SELECT * FROM exception_message"
    shell = {"cwd": tmp_path, "shell": True, "text": True, "check": True}
    subprocess.run(f"{base} < examples/erp/firm.sql", **shell)
    assert runs() == (0, "", NEW)
    old, plan = files(tmp_path), subprocess.check_output(f"{base} '{ask}'", cwd=tmp_path, shell=True)
    assert len(old) == 8 and plan.count(b"\n") > 54
    subprocess.run(f"cp firm.db good.db && {base} 'DELETE FROM {table}'", **shell)
    kinds = lost.split("," if "," in lost else None)
    if table == "stock":
        kinds = [lost]
    said = "".join(f"{it}: {THREE[it]} row{'s' * (THREE[it] > 1)} before, none now\n" for it in kinds)
    assert (runs(), files(tmp_path)) == ((1, "", said + AS_IT_WAS), old)
    assert subprocess.check_output(f"{base} '{ask}'", cwd=tmp_path, shell=True) == plan
    subprocess.run("mv good.db firm.db", **shell)
    assert (runs(), files(tmp_path)) == ((0, "", ""), old)


@pytest.mark.skipif(not shutil.which("sqlite3"), reason="no sqlite3")
def test_a_night_goes_by_the_last_good_one(tmp_path):
    """A third of the demands less is refused, a sixth isn't; a table that mrp refuses is no measure; what is accepted is."""
    runs = night(tmp_path, "From a database")
    shell = {"cwd": tmp_path, "shell": True, "text": True, "check": True}
    subprocess.run("sqlite3 firm.db < examples/erp/firm.sql", **shell)
    assert runs() == (0, "", NEW)
    old = files(tmp_path)
    subprocess.run("""sqlite3 firm.db "INSERT INTO forecasts VALUES ('NORTH', 'BI KE', '2026-01-30', 10)" """, **shell)
    said = "mrp: row 24: BadName\nrow 24 is demand,NORTH,BI KE,3,10,,,\nbin/renew: plan.csv is as it was\n"
    assert (runs(), files(tmp_path)) == ((1, "", said), old)
    subprocess.run("sqlite3 firm.db \"DELETE FROM forecasts WHERE item = 'BI KE' OR plant = 'NORTH' OR plant = 'SOUTH'\"", **shell)
    assert (runs(), files(tmp_path)) == ((1, "", f"demand: 6 rows before, 4 now\n{AS_IT_WAS}"), old)
    subprocess.run("""sqlite3 firm.db "INSERT INTO forecasts VALUES ('NORTH', 'BIKE', '2026-01-30', 10)" """, **shell)
    assert runs() == (0, "", "")
    assert (tmp_path / "counts.csv").read_text() == KEPT.replace("demand,6", "demand,5") + "end,1\n"
    subprocess.run("sqlite3 firm.db 'DELETE FROM open_orders'", **shell)
    assert runs() == (1, "", f"receipt: 1 row before, none now\n{AS_IT_WAS}")
    subprocess.run("bin/counts --accept counts.csv < table.new", **shell)
    assert runs() == (0, "", "")


def test_a_night_leaves_reports_behind_the_step_that_fails(tmp_path):
    """As the page has it: nothing changes while the last night is at work; a report that can't be written and those behind it stay,
    those before it are new; run again, all are.
    """
    runs = night(tmp_path, "From sheets")
    shutil.copytree(f"{TOP}/examples/sheets", tmp_path / "sheets")
    assert runs() == (0, "", NEW)
    old = files(tmp_path)
    demands = tmp_path / "sheets" / "demands.csv"
    demands.write_text(re.sub(r",(\d+)$", r",9\1", demands.read_text(), flags=re.MULTILINE))
    with open(tmp_path / "night.lock", "w", encoding="utf-8") as lock:
        fcntl.flock(lock, fcntl.LOCK_EX)
        assert (runs(), files(tmp_path)) == ((1, "", "night.sh: the last run is still at work\n"), old)
    kept = (tmp_path / "schedule.csv").rename(tmp_path / "kept.csv")
    (tmp_path / "schedule.csv").mkdir()
    status, _, said = runs()
    assert (status, said.count("\n"), said.startswith("bin/renew: ")) == (1, 1, True)
    (tmp_path / "schedule.csv").rmdir()
    kept.rename(tmp_path / "schedule.csv")
    now = files(tmp_path)
    assert {it for it in old if now[it] != old[it]} == {"plan", "cums", "orders"}
    assert runs() == (0, "", "")
    now = files(tmp_path)
    assert {it for it in old if now[it] != old[it]} >= {"table", "plan", "orders", "schedule", "names"}


def test_renew_says_in_a_line_that_it_has_no_table(tmp_path):
    (tmp_path / "plan.csv").write_text("last week\n")
    said = "bin/renew: standard input is a directory, or closed; plan.csv is as it was\n"
    for end in ("< .", "<&-"):
        done = subprocess.run(f"{TOP}/bin/renew plan.csv plan {end}", cwd=tmp_path, shell=True, capture_output=True, text=True, check=False)
        assert (done.returncode, done.stdout, done.stderr) == (1, "", said)
    assert ((tmp_path / "plan.csv").read_text(), os.listdir(tmp_path)) == ("last week\n", ["plan.csv"])


def test_hit_says_what_it_does_not_know(tmp_path):
    status, out, _ = run(tmp_path, "bin/hit", "--help")
    assert status == 0
    assert "A firm order written as a receipt, with demands for what it takes, breaks the chain:" in " ".join(out.split())


# What sheets say of policies.


def with_policies(items):
    """Returns the sheets of the bicycle in six weeks with these rows of items."""
    return {**BICYCLE, "firm.csv": BICYCLE["firm.csv"].replace("7,4", "7,6"), "items.csv": items}


ITEM_HEADS = "Plant,Item,Supply,Lot rule,Lead (days),On hand,Safety stock"
ITEM_ROWS = "P1,BIKE,make,lot,8,0,0{}\nP1,WHEEL,buy,lot,1,0,0{}\n"


@pytest.mark.parametrize(
    "heads, bike, wheel, said",
    [
        ("Fence (periods),Sooner (periods),Cover (periods),Least,Multiple", "5,104,104,20,6", "0,0,0,0,0", ["BIKE,5,104,104,20,6"]),
        # (8 days are a week and a day: two weeks, but receipts count one sooner; and 6 days none)
        ("Fence (days),Sooner (days),Cover (days)", "8,8,8", "6,6,6", ["BIKE,2,1,2,0,0", "WHEEL,1,0,1,0,0"]),
        ("Planning time fence (weeks),Receipts sooner in weeks,Safety time (Wochen)", "2,2,2", ",3,", ["BIKE,2,2,2,0,0", "WHEEL,0,3,0,0,0"]),
        # (with lead times of two weeks and of one)
        ("Frozen releases (periods)", "3", "", ["BIKE,5,0,0,0,0"]),
        ("Frozen releases (days)", "8", "7", ["BIKE,4,0,0,0,0", "WHEEL,2,0,0,0,0"]),
        ("Frozen zone (weeks),MOQ", "0,100", "1,", ["BIKE,0,0,0,100,0", "WHEEL,2,0,0,0,0"]),
        ("Minimum order qty,Rounding value", "1000000000000,", ",12", ["BIKE,0,0,0,1000000000000,0", "WHEEL,0,0,0,0,12"]),
        ("Cover (weeks),Remark", ",red", ",", []),
    ],
)
def test_policies_are_columns_of_items(tmp_path, heads, bike, wheel, said):
    """Each column or none. Lead time, fence and cover count a part of a period as one, and what counts sooner as none; what is frozen is
    counted behind the lead time.
    """
    rows = ITEM_ROWS.format(*(f",{it}" for it in (bike, wheel)))
    status, table, errors = sheets(tmp_path, with_policies(f"{ITEM_HEADS},{heads}\n{rows}"), "--names", "names.csv")
    policies = "".join(f"policy,P1,{it}\n" for it in said)
    assert (status, errors, table[table.index("demand,") :]) == (0, "", f"demand,P1,BIKE,3,10,,,\n{policies}")
    notes = (tmp_path / "names.csv").read_text(encoding="utf-8")
    assert [it for it in notes.splitlines() if it.endswith(("20", "8", "12"))] == []
    assert ("Remark red" in notes) == ("Remark" in heads)


LEAD_OF_2 = "behind a lead time of 2 periods are beyond the plan of 6"


@pytest.mark.parametrize(
    "heads, bike, place, told",
    [
        ("Fence (periods),Frozen releases (periods)", "2,1", "1", "Fence (periods) and Frozen releases (periods) both say the fence; delete one of the columns"),
        ("Fence (periods)", "6", "2, Fence (periods)", "'6' is not from 0 to 5"),
        ("Fence (days)", "36", "2, Fence (days)", "'36' is not from 0 to 35"),
        ("Fence (weeks)", "1.5", "2, Fence (weeks)", "'1.5' is no whole number; round it up, or head the column Fence (days)"),
        ("Sooner (weeks)", "1.5", "2, Sooner (weeks)", "'1.5' is no whole number; round it down, or head the column Sooner (days)"),
        ("Cover (periods)", "105", "2, Cover (periods)", "'105' is not from 0 to 104; with --large up to 520"),
        ("Cover (periods)", "521", "2, Cover (periods)", "'521' is not from 0 to 104"),
        ("Sooner (days)", "729", "2, Sooner (days)", "'729' is not from 0 to 728; with --large up to 3640"),
        ("Least", "1000000000001", "2, Least", "'1000000000001' is not from 0 to 1000000000000"),
        ("Multiple", "-1", "2, Multiple", "'-1' is not from 0 to 1000000000000"),
        ("Multiple", "2.5", "2, Multiple", f"'2.5' is no whole number; {SMALLER}"),
        ("Frozen releases (weeks)", "4", "2, Frozen releases (weeks)", f"4 periods {LEAD_OF_2}; at most 3 can be frozen"),
        *((it, "1", f"1, {it}", f"in which unit? Head it {it} (periods), {it} (weeks) or {it} (days)") for it in ("Fence", "Sooner", "Cover")),
        ("Frozen", "1", "", ""),
        ("MOQ,Least", "1,1", "1", "Least stands twice, as MOQ and Least"),
        ("Mulitple", "1", "1", "it has no column Multiple (Mulitple?)"),
    ],
)
def test_slips_of_policies(tmp_path, heads, bike, place, told):
    """Each in a line; a heading that is none of these is another column."""
    rows = ITEM_ROWS.format(f",{bike}", "," * (heads.count(",") + 1))
    status, _, said = sheets(tmp_path, with_policies(f"{ITEM_HEADS},{heads}\n{rows}"))
    assert (status, said) == ((1, f"items.csv row {place}: {told}\n{REFUSED}") if told else (0, ""))


# What --large takes.


def test_limits_of_sheets_are_those_of_tables():
    """As docs/tables.md has them, in its order."""
    tool, mrp = support.module_of("sheets", "bin"), support.module_of("mrp.py", "python")
    with open(f"{TOP}/docs/tables.md", encoding="utf-8") as file:
        found = re.findall(r"^\|.*\| ([0-9,]+) \| ([0-9,]+) \|$", file.read().partition("## Limits")[2], re.MULTILINE)
    kinds = ("plant",), ("pair",), ("bill", "usage"), ("demand",), ("receipt", "ship", "firm"), ("cum", "reset")
    for limits, (*rows, periods), last in zip((tool.USUAL, tool.LARGE), zip(*found), (mrp.LAST_PERIOD, mrp.LAST_OF_LARGE)):
        numbers = (int(it.replace(",", "")) for it in rows)
        assert limits.rows == {kind: most for same, most in zip(kinds, numbers) for kind in same}
        assert limits.periods == int(periods) == last + 1


LARGE_ITEMS = "Plant,Item,Supply,Lot rule,Lead (weeks),On hand,Safety stock,Fence (periods),Sooner (days),Cover (periods)\n"
LARGE_FIRM = "First day,Days,Periods,Backward consumption (periods),Forward consumption (periods)\n2026-01-05,7,{0},{1},{1}\n"


def large_sheets(periods, most):
    """Returns sheets of so many periods, whose item has the greatest number wherever periods are counted."""
    items = f"P1,BIKE,buy,periods:{most},{most},0,0,{periods - 1},{7 * most},{most}\n"
    day = datetime.date.fromisoformat(MONDAY) + datetime.timedelta(7 * (periods - 1))
    found = {"firm.csv": LARGE_FIRM.format(periods, most), "items.csv": LARGE_ITEMS + items, "receipts.csv": BICYCLE["receipts.csv"]}
    return {**found, "demands.csv": f"Plant,Item,Due,Quantity\nP1,BIKE,{day},10\n", "forecasts.csv": "Plant,Item,Due,Quantity\n"}


def test_large_sheets_have_more_periods(tmp_path):
    """With --large 520 wherever there are 104 without it."""
    table = "run,2026-01-05,7,520,,,,\nplant,P1,,,,,,\npair,P1,BIKE,buy,periods:520,520,0,0\ndemand,P1,BIKE,519,10,,,\npolicy,P1,BIKE,519,520,520,0,0\n"
    assert sheets(tmp_path, large_sheets(520, 520), "--large") == (0, table, "")
    cells = "Backward consumption (periods)", "Forward consumption (periods)"
    firm, item = [f"firm.csv row 2, {it}: " for it in cells], "items.csv row 2, "
    for words, most, cell, cure in (((), 104, 105, "; with --large up to {}"), ((), 104, 521, ""), (("--large",), 520, 521, "")):
        last = 520 if cure else 0
        told = [f"{it}'{cell}' is not from 0 to {most}{cure.format(last)}" for it in firm]
        told += [f"{item}Lot rule: 'periods:{cell}': '{cell}' is not from 1 to {most}{cure.format(last)}"]
        told += [f"{item}Lead (weeks): '{cell}' is not from 0 to {most}{cure.format(last)}"]
        told += [f"{item}Sooner (days): '{7 * cell}' is not from 0 to {7 * most}{cure.format(7 * last)}"]
        told += [f"{item}Cover (periods): '{cell}' is not from 0 to {most}{cure.format(last)}"]
        assert sheets(tmp_path, large_sheets(most, cell), *words) == (1, "", "\n".join([*told, REFUSED.replace("1 slip", "6 slips")]))
        said = sheets(tmp_path, large_sheets(cell, most), *words)[2].splitlines()
        assert said[0] == f"firm.csv row 2, Periods: '{cell}' is not from 1 to {most}{cure.format(last)}"


def test_large_sheets_have_more_rows(tmp_path):
    """Of plants as many as there may be, and one more; and of items one more than without --large."""
    plants, said = "Plant\nP1\n" + "".join(f"Q{it}\n" for it in range(999)), "mrp takes {} rows of {}, and these are {}"
    assert sheets(tmp_path, {**BICYCLE, "plants.csv": plants}, "--large")[1].count("\nplant,") == 1000
    assert said.format(64, "plant", "1,000; with --large 1,000\n") in sheets(tmp_path, {**BICYCLE, "plants.csv": plants})[2]
    for words, most in (((), 64), (("--large",), "1,000")):
        told = said.format(most, "plant", f"1,001\n{REFUSED}")
        assert sheets(tmp_path, {**BICYCLE, "plants.csv": f"{plants}R\n"}, *words) == (1, "", told)
    items = BICYCLE["items.csv"] + "".join(f"P1,I{it},buy,lot,1,0,1\n" for it in range(19_999))
    told = said.format("20,000", "pair", f"20,001; with --large 1,000,000\n{REFUSED}")
    assert sheets(tmp_path, {**BICYCLE, "items.csv": items}) == (1, "", told)
    assert sheets(tmp_path, {**BICYCLE, "items.csv": items}, "--large")[1].count("\npair,") == 20_001


# What sheets say of scrap, fractions, and bills that change. A plan has four weeks, from 2026-01-05 on: they begin on the 5th, 12th, 19th and 26th.


def with_bills(text):
    """Returns the sheets of the bicycle with these bills."""
    return {**BICYCLE, "bills.csv": text}


def rows_of_bills(table):
    """Returns the bill rows and the usage rows of a table, without their words, plants and empty fields."""
    return [re.sub(",+$", "", it.split(",", 2)[2]) for it in table.splitlines() if it.startswith(("bill,", "usage,"))]


@pytest.mark.parametrize(
    "mark, form, text, rows",
    [
        (",", None, "0.25", ["1", "0,1,4"]),
        (",", None, "1.5", ["2", "0,3,2"]),
        (",", None, "2.0", ["2"]),
        (",", None, "1.125", ["2", "0,9,8"]),
        (",", None, "0.000001", ["1", "0,1,1000000"]),
        (",", None, "999999.5", None),
        (",", None, "499999.5", ["500000", "0,999999,2"]),
        (",", None, "1000000", ["1000000"]),
        (";", None, "0,25", ["1", "0,1,4"]),
        ("\t", None, "0,25", ["1", "0,1,4"]),
        (";", None, "0.25", ["1", "0,1,4"]),
        (";", None, "0.125", ["1", "0,1,8"]),
        (";", None, "1,1250", ["2", "0,9,8"]),
        (";", None, "12,00", ["12"]),
        (",", "1.234,5", "1.234,5", ["1235", "0,2469,2"]),
        (",", "1.234,5", "1,125", ["2", "0,9,8"]),
        (",", "1.234,5", "1.125", ["1125"]),
        (";", "1,234.5", "1,125", ["1125"]),
        (";", "1,234.5", "1.125", ["2", "0,9,8"]),
    ],
)
def test_per_takes_fractions(tmp_path, mark, form, text, rows):
    """The bill has them rounded up, and a usage exactly, in the lowest terms."""
    cells = mark.join(("P1", "BIKE", "WHEEL", f'"{text}"'))
    words = ("--numbers", form) if form else ()
    status, table, said = sheets(tmp_path, with_bills(f"{mark.join(('Plant', 'Parent', 'Component', 'Per'))}\n{cells}\n"), *words)
    if rows:
        assert (status, said, rows_of_bills(table)) == (0, "", [f"BIKE,WHEEL,{it}" for it in rows])
        assert table.startswith(TABLE.partition("bill")[0])
    else:
        assert (status, said) == (1, f"bills.csv row 2, Per: '999999.5' is 1999999/2, and no number in it may be above 1000000; round it\n{REFUSED}")


@pytest.mark.parametrize(
    "mark, text, told",
    [
        (",", "0,25", "'0,25': write it as 0.25"),
        (",", "1,250", "'1,250': write 1250 or 1.25, whichever is meant"),
        (",", "1,125", "'1,125': write 1125 or 1.125, whichever is meant"),
        (",", "12,00", "'12,00': write it as 12"),
        (";", "1,125", "'1,125': write 1125 or 1.1250, whichever is meant"),
        (";", "1,250", "'1,250': write 1250 or 1.25, whichever is meant"),
        ("\t", "0,125", "'0,125': write it as 0.125"),
        (";", "1.125", "'1.125': write 1125 or 1.1250, whichever is meant"),
        (";", "12.000", "'12.000': write 12000 or 12, whichever is meant"),
        (",", "1.200,50", "'1.200,50' is no whole number; write it as 1200.50"),
        (",", "1 200", "'1 200' is no whole number; write it as 1200"),
        (",", "12 Stk", "'12 Stk' is no whole number; write one as 1200"),
        (",", "025", "'025' begins with a 0; write 25, or where 0.25 is meant write that"),
        (",", "0", "'0' is not from 1 to 1000000"),
        (",", "0.0", "'0.0': '0' is not from 1 to 1000000"),
        (",", "-0.5", "'-0.5' is not above 0"),
        (",", "-1", "'-1' is not from 1 to 1000000"),
        (",", "1000001", "'1000001' is not from 1 to 1000000"),
        (",", "0.0000001", "'0.0000001' is 1/10000000, and no number in it may be above 1000000; round it"),
        (",", "0.3333333", "'0.3333333' is 3333333/10000000, and no number in it may be above 1000000; round it"),
        (",", "1000000.5", "'1000000.5' is 2000001/2, and no number in it may be above 1000000; round it"),
    ],
)
def test_slips_of_fractions(tmp_path, mark, text, told):
    """What may be a thousand times as much is asked, and what no usage can say is refused."""
    cells = mark.join(("P1", "BIKE", "WHEEL", f'"{text}"'))
    said = sheets(tmp_path, with_bills(f"{mark.join(('Plant', 'Parent', 'Component', 'Per'))}\n{cells}\n"))
    assert said == (1, "", f"bills.csv row 2, Per: {told}\n{REFUSED}")


@pytest.mark.parametrize(
    "per, scrap, rows",
    [
        ("1", "3", ["2", "0,103,100"]),
        ("2", "5", ["3", "0,21,10"]),
        ("4", "25", ["5"]),
        ("0.25", "2.5", ["1", "0,41,160"]),
        ("3", "3%", ["4", "0,309,100"]),
        ("3", "3 %", ["4", "0,309,100"]),
        ("2", "", ["2"]),
        ("2", "0", ["2"]),
        ("2", "150", ["5"]),
        ("500000", "100", ["1000000"]),
        ("2", "-1", "Scrap %: '-1' is below 0"),
        ("2", "x", "Scrap %: 'x' is no whole number; write one as 1200"),
        ("1000000", "1", "Scrap %: '1': with it 1000000 for one parent is 1010000, and no number in it may be above 1000000; round it"),
        ("0.99999", "0.5", "Scrap %: '0.5': with it 0.99999 for one parent is 20099799/20000000, and no number in it may be above 1000000; round it"),
    ],
)
def test_scrap_is_taken_exactly(tmp_path, per, scrap, rows):
    status, table, said = sheets(tmp_path, with_bills(f"Plant,Parent,Component,Per,Scrap %\nP1,BIKE,WHEEL,{per},{scrap}\n"))
    if isinstance(rows, list):
        assert (status, said, rows_of_bills(table)) == (0, "", [f"BIKE,WHEEL,{it}" for it in rows])
    else:
        assert (status, said) == (1, f"bills.csv row 2, {rows}\n{REFUSED}")


@pytest.mark.parametrize(
    "bills, rows",
    [
        # (another component from a period on: until the 18th, a Sunday, and from the 19th on)
        (["WHEEL,2,,2026-01-18", "DISC,2,2026-01-19,"], ["WHEEL,2", "DISC,2", "WHEEL,2,0,1", "DISC,0,0,1", "DISC,2,2,1"]),
        # (a day within a period counts from the next one on, the day behind the last one too)
        (["WHEEL,2,,2026-01-14", "DISC,2,2026-01-15,"], ["WHEEL,2", "DISC,2", "WHEEL,2,0,1", "DISC,0,0,1", "DISC,2,2,1"]),
        (["WHEEL,2,2026-01-06,2026-01-11"], ["left out"]),
        (["WHEEL,2,2026-01-06,2026-01-12"], ["WHEEL,2", "WHEEL,0,0,1", "WHEEL,1,2,1", "WHEEL,2,0,1"]),
        # (what holds from the first period on to the last is what the bill says)
        (["WHEEL,2,2025-06-01,9999-12-31"], ["WHEEL,2"]),
        (["WHEEL,2,2026-01-05,2026-01-26"], ["WHEEL,2"]),
        (["WHEEL,2,2026-01-05,2026-01-25"], ["WHEEL,2", "WHEEL,3,0,1"]),
        # (more from a period on, less again, and the same; the bill has the most)
        (["WHEEL,2,,2026-01-11", "WHEEL,3,2026-01-12,2026-01-18", "WHEEL,2,2026-01-19,"], ["WHEEL,3", "WHEEL,0,2,1", "WHEEL,1,3,1", "WHEEL,2,2,1"]),
        (["WHEEL,3,,2026-01-11", "WHEEL,2,2026-01-12,2026-01-18", "WHEEL,3,2026-01-19,"], ["WHEEL,3", "WHEEL,1,2,1", "WHEEL,2,3,1"]),
        (["WHEEL,2,,2026-01-11", "WHEEL,2,2026-01-12,"], ["WHEEL,2"]),
        # (a gap and a return, in any order of rows)
        (["WHEEL,1.5,2026-01-26,", "WHEEL,1,,2026-01-11"], ["WHEEL,2", "WHEEL,0,1,1", "WHEEL,1,0,1", "WHEEL,3,3,2"]),
        # (a row that holds within a week alone leaves no gap where others meet it)
        (["WHEEL,2,,2026-01-12", "WHEEL,9,2026-01-13,2026-01-14", "WHEEL,4,2026-01-15,"], ["left out", "WHEEL,4", "WHEEL,0,2,1", "WHEEL,2,4,1"]),
        # (what holds before the plan alone, or behind it)
        (["WHEEL,2,,2026-01-04", "WHEEL,3,2026-01-05,", "DISC,7,,2025-12-31"], ["left out", "WHEEL,3"]),
        (["WHEEL,2,,2026-01-26", "WHEEL,3,2026-01-27,", "DISC,7,2026-02-02,"], ["left out", "WHEEL,2"]),
        (["WHEEL,2,,2026-01-05"], ["WHEEL,2", "WHEEL,1,0,1"]),
    ],
)
def test_days_of_bills_are_usages(tmp_path, bills, rows):
    """A bill row for each parent and component, with the most pieces, and usages by the first day of a period."""
    text = "Plant,Parent,Component,Per,Valid from,Valid to\n" + "".join(f"P1,BIKE,{it}\n" for it in bills)
    items = BICYCLE["items.csv"] + "P1,DISC,buy,lot,1,0,0\n"
    status, table, said = sheets(tmp_path, {**with_bills(text), "items.csv": items})
    assert (status, "left out" in said) == (0, rows[0] == "left out")
    assert rows_of_bills(table) == [f"BIKE,{it}" for it in rows if it != "left out"]


def test_bills_that_are_left_out_are_told(tmp_path):
    """And with scrap and a fraction the days are what they are."""
    bills = "Plant,Parent,Component,Per,Valid from,Valid to,Scrap %\nP1,BIKE,WHEEL,0.5,,11.1.2026,4\nP1,BIKE,WHEEL,2,12.1.2026,31.12.9999,\n"
    bills += "P1,BIKE,WHEEL,5,1.1.2025,1.1.2025,\nP1,BIKE,BELL,5,2.2.2026,,\n"
    bills = bills.replace("WHEEL,0.5,,", "WHEEL,0.5,2.1.2025,")
    items = BICYCLE["items.csv"] + "P1,BELL,buy,lot,1,0,0\n"
    status, table, said = sheets(tmp_path, {**with_bills(bills), "items.csv": items})
    assert (status, rows_of_bills(table)) == (0, ["BIKE,WHEEL,2", "BIKE,WHEEL,0,13,25", "BIKE,WHEEL,1,2,1"])
    assert said.splitlines() == [
        "bills.csv: 2 rows not in force in any period left out (rows 4, 5)",
        "items.csv row 4: P1 BELL has no demand, and nothing takes it",
    ]


@pytest.mark.parametrize(
    "bills, told",
    [
        (["2,,", "3,,"], "Component: P1 BIKE WHEEL stands in row 2 already"),
        (["2,,2026-01-19", "3,2026-01-19,"], "Component: P1 BIKE WHEEL stands in row 2, which holds on 2026-01-19 too"),
        (["2,2026-01-19,", "3,,2026-01-25"], "Component: P1 BIKE WHEEL stands in row 2, which holds on 2026-01-19 too"),
        (["2,,2026-01-18", "3,,2026-01-25"], "Component: P1 BIKE WHEEL stands in row 2, which holds on 2026-01-18 too"),
        (["2,,", "3,2027-01-01,"], "Component: P1 BIKE WHEEL stands in row 2, which holds on 2027-01-01 too"),
        (["2,,", "3,2025-01-01,2025-02-01"], "Component: P1 BIKE WHEEL stands in row 2, which holds on 2025-01-01 too"),
        (["2,,2026-01-18", "3,2026-01-19,2026-01-12"], "Valid to: 2026-01-12 is before 2026-01-19"),
        (["2,,2026-01-18", "3,2026-01-32,"], "Valid from: '2026-01-32' is on no calendar"),
        (["2,,2026-01-18", "3,2026-01-19,never"], "Valid to: 'never' is no date; write it as 2026-12-01"),
    ],
)
def test_slips_of_days_of_bills(tmp_path, bills, told):
    """Two rows hold on no day together, not even within a period or outside the plan."""
    text = "Plant,Parent,Component,Per,Valid from,Valid to\n" + "".join(f"P1,BIKE,WHEEL,{it}\n" for it in bills)
    assert sheets(tmp_path, with_bills(text)) == (1, "", f"bills.csv row 3, {told}\n{REFUSED}")


@pytest.mark.parametrize(
    "heads",
    [
        "Plant,Parent,Component,Per,Scrap %,Valid from,Valid to",
        "Site,Assembly,Child,Qty per,Component scrap (%),Effective date,Expiry date",
        "Werk,Baugruppe,Komponente,Menge je,Komponentenausschuss in %,Gültig ab,Gültig bis",
        "Werk,Oberteil,Unterteil,Menge,Ausschuß (Prozent),Gueltigkeitsbeginn,Gueltigkeitsende",
        "Usine,Ensemble,Composant,Quantité,Taux de rebut %,Valable du,Valable jusqu'au",
        "Planta,Conjunto,Componente,Cantidad,% merma,Válido desde,Válido hasta",
    ],
)
def test_columns_of_bills_have_other_headings(tmp_path, heads):
    text = f"{heads}\nP1,BIKE,WHEEL,1,3,2026-01-12,2026-01-18\n"
    status, table, said = sheets(tmp_path, with_bills(text))
    assert (status, said, rows_of_bills(table)) == (0, "", [f"BIKE,WHEEL,{it}" for it in ("2", "0,0,1", "1,103,100", "2,0,1")])


def test_scrap_wants_its_unit(tmp_path):
    """Be it in another language; other columns are other columns."""
    for head in ("Scrap", "Ausschuss", "Taux de rebut"):
        said = f"bills.csv row 1, {head}: in which unit? Head it Scrap %, with 3 where 103 are taken for 100\n{REFUSED}"
        assert sheets(tmp_path, with_bills(f"Plant,Parent,Component,Per,{head}\nP1,BIKE,WHEEL,2,3\n")) == (1, "", said)
    bills = "Plant,Parent,Component,Per,Position,Changed on,Unit,Text\nP1,BIKE,WHEEL,2,10,2026-01-12,pc,28 inch\n"
    assert sheets(tmp_path, with_bills(bills)) == (0, TABLE, "")
    both = "Plant,Parent,Component,Per,Valid from,Effective date\nP1,BIKE,WHEEL,2,,\n"
    said = f"bills.csv row 1: Valid from stands twice, as Valid from and Effective date\n{REFUSED}"
    assert sheets(tmp_path, with_bills(both)) == (1, "", said)


def test_firm_orders_beyond_the_end_take_what_is_in_force_then(tmp_path):
    """By hand. 10 that start in the week of the 19th take 2.5 wheels, so 3, and no disc any more; a week before they take 20 discs."""
    items = BICYCLE["items.csv"] + "P1,DISC,buy,lot,1,0,0\n"
    bills = "Plant,Parent,Component,Per,Valid from,Valid to\nP1,BIKE,WHEEL,0.25,2026-01-19,\nP1,BIKE,DISC,2,,2026-01-18\n"
    heads, said = "Plant,Item,Start,Due,Quantity\n", {}
    for start in ("2026-01-18", "2026-01-19"):
        found = {**with_bills(bills), "items.csv": items, "firm_orders.csv": f"{heads}P1,BIKE,{start},2026-02-09,10\n"}
        said[start] = sheets(tmp_path, found)[2].splitlines()[-1]
    assert said["2026-01-18"].endswith("left out; in their place write as demands of 2026-01-18: 20 of P1 DISC")
    assert said["2026-01-19"].endswith("left out; in their place write as demands of 2026-01-19: 3 of P1 WHEEL")
