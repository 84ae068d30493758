"""What comes in from customers, by bin/sheets: numbers as they are exported, what is past due, call-offs and forecasts."""
import datetime
import random
import re

import firms
import pytest
from support import module_of
from test_slips import BICYCLE, REFUSED, sheets, SMALLER, STRICT, TABLE

POINTS, COMMAS = "1.234,5", "1,234.5"


def in_points(text):
    """Returns a number with a comma for thousands and a point for decimals with these two exchanged."""
    return text.translate(str.maketrans(",.", ".,"))


@pytest.mark.parametrize(
    "text, number",
    [
        ("10", 10),
        ("10.0", 10),
        ("10.000", 10),
        ("1,234", 1234),
        ("1,234.00", 1234),
        ("1,234,567", 1234567),
        ("1234.0", 1234),
        ("12,000", 12000),
    ],
)
def test_numbers_are_read_as_they_are_exported(tmp_path, text, number):
    for form, cell in ((COMMAS, text), (POINTS, in_points(text))):
        found = {**BICYCLE, "demands.csv": f'Plant,Item,Due,Quantity\nP1,BIKE,2026-01-26,"{cell}"\n'}
        told = (0, TABLE.replace("3,10,", f"3,{number},"), "")
        assert sheets(tmp_path, found, "--numbers", form) == told
        assert sheets(tmp_path, found) == told if cell.isdigit() else sheets(tmp_path, found)[0] == 1


@pytest.mark.parametrize(
    "text, told",
    [
        ("0.25", f"is no whole number; {SMALLER}"),
        ("1.250", f"is no whole number; {SMALLER}"),
        ("1,200.50", f"is no whole number; {SMALLER}"),
        ("1.234,5", "isn't written as --numbers 1,234.5 says"),
        ("1.234.5", "isn't written as --numbers 1,234.5 says"),
        ("12,5", "isn't written as --numbers 1,234.5 says"),
        ("1234,567", "isn't written as --numbers 1,234.5 says"),
        ("0,250", "isn't written as --numbers 1,234.5 says"),
        ("1,234.", "isn't written as --numbers 1,234.5 says"),
        ("1 200", "is no whole number; write it as 1200"),
        ("025", f"begins with a 0; write 25, or where 0.25 is meant {SMALLER}"),
        ("2,000,000,000,000", ": '2000000000000' is not from 0 to 1000000000000"),
    ],
)
def test_numbers_of_another_form_are_slips(tmp_path, text, told):
    for form, cell in ((COMMAS, text), (POINTS, in_points(text))):
        found = {**BICYCLE, "items.csv": BICYCLE["items.csv"].replace("buy,lot,1,0,0", f'buy,lot,1,0,"{cell}"')}
        between = "" if told[0] == ":" else " "
        said = f"items.csv row 3, Safety stock: {cell!r}{between}{told.replace(COMMAS, form)}\n{REFUSED}"
        assert sheets(tmp_path, found, "--numbers", form) == (1, "", said)


def test_all_numbers_are_read_in_the_form_that_is_said(tmp_path):
    """In lot rules and shares too; rows of 0 are left out."""
    found = {
        "firm.csv": "First day;Days;Periods\n2026-01-05;7,0;4,00\n",
        "items.csv": "Plant;Item;Supply;Lot rule;Lead (days);On hand;Safety stock\n"
        "P1;BIKE;from:P2:600,0:P3:400;fixed:1.000;7,0;-1.200,0;0,000\n"
        "P2;BIKE;buy;min:1.000,0:2;14;11.300;1.000\nP3;BIKE;buy;periods:2,0;14;0;0\n",
        "demands.csv": "Plant;Item;Due;Quantity\nP1;BIKE;2026-01-26;1.000,000\nP1;BIKE;2026-01-26;0,000\nP1;BIKE;2026-01-26;0\n",
        "shipments.csv": "From;To;Item;Arrives;Quantity\n",
        "receipts.csv": "Plant;Item;Due;Quantity\n",
        "cums.csv": "From;To;Item;Cum received\nP2;P1;BIKE;11.300\n",
    }
    table = """\
run,2026-01-05,7,4,,,,
plant,P1,,,,,,
plant,P2,,,,,,
plant,P3,,,,,,
pair,P1,BIKE,from:P2:600:P3:400,fixed:1000,1,0,0
pair,P2,BIKE,buy,min:1000:2,2,11300,1000
pair,P3,BIKE,buy,periods:2,2,0,0
demand,P1,BIKE,0,1200,,,
demand,P1,BIKE,3,1000,,,
cum,P2,P1,BIKE,11300,,,
"""
    said = "items.csv: stock below 0 (row 2): 0 on hand, and what is missing is a demand of period 0\n"
    said += "demands.csv: 2 rows of 0 left out (rows 3, 4)\n"
    assert sheets(tmp_path, found, "--numbers", POINTS) == (0, table, said)
    other = {name: text if name == "firm.csv" else in_points(text) for name, text in found.items()}
    other["firm.csv"] = in_points(found["firm.csv"])
    assert sheets(tmp_path, other, "--numbers", COMMAS) == (0, table, said)
    assert sheets(tmp_path, found, "--numbers", "1234")[:2] == (2, "")


def test_headings_of_erp_systems(tmp_path):
    found = {
        **BICYCLE,
        "items.csv": BICYCLE["items.csv"].replace("Supply", "Procurement Type").replace("On hand", "Unrestricted"),
        "demands.csv": BICYCLE["demands.csv"].replace("Due,Quantity", "Ship date,Open Qty"),
    }
    assert sheets(tmp_path, found) == (0, TABLE, "")
    for heading in ("Bestand frei", "Frei verwendbar"):
        found["items.csv"] = BICYCLE["items.csv"].replace("On hand", heading)
        assert sheets(tmp_path, found) == (0, TABLE, "")
    # (the day on which a shipment leaves isn't that on which it arrives)
    found["shipments.csv"] = "From,To,Item,Ship date,Quantity\n"
    assert sheets(tmp_path, found) == (1, "", f"shipments.csv row 1: it has no column Arrives\n{REFUSED}")


def test_what_is_overdue_is_listed_with_number_and_days(tmp_path):
    """The latest first, by strict too, and whatever is planned; of many a hundred of each sheet."""
    found = {
        "firm.csv": BICYCLE["firm.csv"],
        "items.csv": "Plant,Item,Supply,Lot rule,Lead (periods),On hand,Safety stock\n"
        "P1,BIKE/28,from:P2,lot,1,500,0\nP2,BIKE/28,buy,lot,1,900,0\n",
        "demands.csv": "Order,Customer,Plant,Item,Due,Quantity\n7001,Ann,P1,BIKE/28,2026-01-04,3\n7002,,P1,BIKE/28,2025-12-24,4\n"
        "7003,Bob,P1,BIKE/28,2026-01-05,5\n,,P1,BIKE/28,04.01.2026,6\n7004,Bob,P1,BIKE/28,2025-12-24,0\n",
        "receipts.csv": "PO,Plant,Item,Due,Quantity,Vendor\n4500171,P2,BIKE/28,2025-01-05,50,Lumen\n4500172,P2,BIKE/28,2026-01-12,50,Lumen\n",
        "shipments.csv": "From,To,Item,Arrives,Quantity,Note\nP2,P1,BIKE/28,2026-01-01,7,L-88\n",
    }
    status, table, said = sheets(tmp_path, found, "--strict")
    assert (status, table.count("BIKE_28,0,")) == (1, 0)
    assert "demands.csv: 1 row of 0 left out (row 6)\n" in said
    found["demands.csv"] = found["demands.csv"].rpartition("7004")[0]
    told = """\
items.csv: 1 name written otherwise, as BIKE_28 for BIKE/28
demands.csv: 3 overdue rows in period 0
demands.csv row 3: 4 of P1 BIKE/28, 12 days late (Order 7002)
demands.csv row 2: 3 of P1 BIKE/28, 1 day late (Order 7001, Customer Ann)
demands.csv row 5: 6 of P1 BIKE/28, 1 day late
receipts.csv: 1 overdue row in period 0
receipts.csv row 2: 50 of P2 BIKE/28, 365 days late (PO 4500171, Vendor Lumen)
shipments.csv: 1 overdue row in period 0
shipments.csv row 2: 7 of P1 BIKE/28, 4 days late (from P2, Note L-88)
"""
    status, table, said = sheets(tmp_path, found, "--strict")
    assert (status, table.count("BIKE_28,0,"), said) == (0, 6, told)
    rows = "".join(f"P1,BIKE,2026-01-04,{it}\n" for it in range(1, 108))
    lines = sheets(tmp_path, {**BICYCLE, "demands.csv": f"Plant,Item,Due,Quantity\n{rows}"})[2].splitlines()
    assert (len(lines), lines[1], lines[-1]) == (102, "demands.csv row 2: 1 of P1 BIKE, 1 day late", "demands.csv: overdue: 7 more")


# A firm whose first day is 2026-01-05, with call-offs from before then to after its last day, 2026-02-01.
CALLS = {
    **BICYCLE,
    "demands.csv": "Plant,Item,Due,Quantity\n",
    "calls.csv": """\
Customer,Plant,Item,Date,Cumulative,Starts again,Release
Ann,P1,BIKE,2026-01-12,130,,R7
Ann,P1,BIKE,2025-12-29,100,,R7
Ann,P1,BIKE,2025-12-22,95,no,R7
Ann,P1,BIKE,2026-01-26,20,x,R7
Ann,P1,BIKE,2026-01-19,130,,R7
Ann,P1,BIKE,2026-02-02,50,,R7
Bob,P1,BIKE,2026-01-12,7,,
""",
    "shipped.csv": "Customer,Plant,Item,Cumulative\nAnn,P1,BIKE,90\nBob,P1,BIKE,0\n",
}


def demands_of(table):
    """Returns the demands of a table: pairs of a period and a quantity."""
    return [(int(period), int(quantity)) for period, quantity in re.findall("^demand,P1,BIKE,(.*),(.*),,,$", table, re.MULTILINE)]


def call_offs(rows, shipped):
    """Returns the sheets with these call-offs of Ann, and what was shipped to her."""
    head = CALLS["calls.csv"].partition("\n")[0].removesuffix(",Release")
    more = {"shipped.csv": f"Customer,Plant,Item,Cumulative\nAnn,P1,BIKE,{shipped}\n"}
    return {**CALLS, **more, "calls.csv": "\n".join([head, *(f"Ann,P1,BIKE,{it}" for it in rows), ""])}


def test_call_offs_become_demands(tmp_path):
    """Of each figure what was neither called for before nor shipped; what is behind is told."""
    status, table, said = sheets(tmp_path, CALLS, "--strict", "--names", "names.csv")
    told = """\
calls.csv: 2 overdue rows in period 0, 1 row beyond 2026-02-01 left out (row 7)
calls.csv row 4: backlog of 10 of P1 BIKE, 14 days late (Customer Ann)
"""
    assert (status, demands_of(table), said) == (0, [(0, 5), (0, 5), (1, 30), (3, 20), (1, 7)], told)
    assert "\ndemand,P1,BIKE,1,2026-01-12,30,,,\"Customer Ann, Cumulative 130, Release R7\"\n" in (tmp_path / "names.csv").read_text()


@pytest.mark.parametrize(
    "shipped, demands",
    [
        (0, [(0, 100), (1, 30), (3, 20)]),
        (100, [(1, 30), (3, 20)]),
        (110, [(1, 20), (3, 20)]),
        (130, [(3, 20)]),
        # (what was shipped ahead is less in the year after)
        (135, [(3, 15)]),
        (155, []),
    ],
)
def test_what_was_shipped_of_call_offs(tmp_path, shipped, demands):
    found = call_offs(["2025-12-29,100,", "2026-01-12,130,", "2026-01-26,20,yes"], shipped)
    status, table, said = sheets(tmp_path, found)
    above = f"shipped.csv row 2: {shipped} of Ann P1 BIKE is above its last figure, 130 of 2026-01-12 (calls.csv row 3)"
    assert (status, demands_of(table), above in said) == (0, demands, shipped > 130)


def test_call_offs_are_pieces_in_the_order_of_dates():
    """Of which those that were shipped are the first, over all years."""
    demand = module_of("demand.py", "bin")
    for seed in range(300):
        chance, figure, calls, pieces = random.Random(seed), 0, [], []
        for place in range(chance.randrange(1, 8)):
            again, before = chance.random() < 0.2, figure
            figure = chance.randrange(9) if again else figure + chance.randrange(9)
            pieces += [place] * (figure - (0 if again else before))
            calls.append(demand.Call(datetime.date(2026, 1, 5) + datetime.timedelta(place), figure, again, place))
        shipped = 0 if calls[0].starts_again else chance.randrange(30)
        found = [(it.row, quantity) for it, quantity in demand.asked(calls, shipped)]
        assert found == [(it.row, pieces[shipped:].count(it.row)) for it in calls], seed


@pytest.mark.parametrize(
    "rows, shipped, told",
    [
        (
            ["2026-01-12,130,", "2026-01-19,129,"],
            90,
            "row 3, Cumulative: 129 is below 130, that of 2026-01-12 (row 2); mark it in Starts again if figures start again there",
        ),
        (
            ["2026-01-19,129,", "2026-01-26,5,x", "2026-01-12,130,", "2026-02-09,4,"],
            90,
            "row 2, Cumulative: 129 is below 130, that of 2026-01-12 (row 4); mark it in Starts again if figures start again there\n"
            "calls.csv row 5, Cumulative: 4 is below 5, that of 2026-01-26 (row 3); mark it in Starts again if figures start again there",
        ),
        (["2026-01-12,130,", "12.1.2026,140,"], 90, "row 3, Date: Ann P1 BIKE 2026-01-12 stands in row 2 already"),
        (
            ["2025-12-22,130,", "2026-01-02,5,x", "2026-01-12,9,"],
            0,
            "row 3, Starts again: it is before 2026-01-05; delete the rows before it, and give in shipped.csv what was shipped since then",
        ),
        (
            ["2026-01-12,9,x"],
            142,
            "row 2, Starts again: no figure before it says how many of 142 were shipped ahead; give the row of that figure, or no mark where shipped.csv counts since then",
        ),
        (["2026-01-12,9,maybe"], 0, "row 2, Starts again: 'maybe' is neither yes nor no; write x, or nothing"),
        (["2026-01-12,,"], 0, "row 2, Cumulative: nothing stands here"),
        (["2026-01-12,-1,"], 0, "row 2, Cumulative: '-1' is not from 0 to 1000000000000000"),
        (
            ["2026-01-12,1000000000001,"],
            0,
            "row 2, Cumulative: it asks for 1000000000001, which is not from 1 to 1000000000000",
        ),
        ([",130,"], 0, "row 2, Date: nothing stands here"),
    ],
)
def test_call_offs_that_are_slips(tmp_path, rows, shipped, told):
    said = sheets(tmp_path, call_offs(rows, shipped))
    count = told.count("\n") + 1
    assert said == (1, "", f"calls.csv {told}\n{REFUSED.replace('1 slip', f'{count} slips') if count > 1 else REFUSED}")


def test_figures_that_started_again_already(tmp_path):
    """Without the rows before, what was shipped counts since then; so it does where nothing was."""
    for rows, shipped, demands in (
        (["2026-01-01,5,x", "2026-01-12,9,"], 2, [(0, 3), (1, 4)]),
        (["2026-01-05,5,x", "2026-01-12,9,"], 0, [(0, 5), (1, 4)]),
    ):
        assert demands_of(sheets(tmp_path, call_offs(rows, shipped))[1]) == demands


def test_figures_that_start_again_on_the_first_day(tmp_path):
    """What was shipped counts as the rows before it, and what is due on the first day is no backlog."""
    _, table, said = sheets(tmp_path, call_offs(["2025-12-29,100,", "2026-01-05,5,x"], 90))
    told = "calls.csv row 2: backlog of 10 of P1 BIKE, 7 days late (Customer Ann)\n"
    assert (demands_of(table), said) == ([(0, 10), (0, 5)], "calls.csv: 1 overdue row in period 0\n" + told)


def test_what_was_shipped_above_the_last_figure(tmp_path):
    for shipped, said in (
        (140, ""),
        (141, "shipped.csv row 2: 141 of Ann P1 BIKE is above its last figure, 140 of 2026-01-19 (calls.csv row 3)\n"),
    ):
        found = {**call_offs(["2026-01-12,130,", "2026-01-19,140,"], shipped), "demands.csv": BICYCLE["demands.csv"]}
        assert sheets(tmp_path, found) == (0, TABLE, said)
        assert sheets(tmp_path, found, "--strict") == ((1, "", said + STRICT) if said else (0, TABLE, ""))


@pytest.mark.parametrize(
    "row, told",
    [
        ("Ann,P1,BIKE,91", "row 4, Item: Ann P1 BIKE stands in row 2 already"),
        ("Ann,P1,BELL,9", "row 4, Item: P1 has no item 'BELL' (BIKE?)"),
        ("Ann,P9,BIKE,9", "row 4, Plant: there is no plant 'P9' (P1?)"),
        (",P1,BIKE,9", "row 4, Customer: nothing stands here"),
        (",,,181", "row 4: Customer, Plant and Item are empty; delete the row if it is a sum"),
        ("Cleo,P1,BIKE,1.5", f"row 4, Cumulative: '1.5' is no whole number; {SMALLER}"),
    ],
)
def test_what_was_shipped_has_slips_too(tmp_path, row, told):
    found = {**CALLS, "shipped.csv": CALLS["shipped.csv"] + row + "\n"}
    assert sheets(tmp_path, found) == (1, "", f"shipped.csv {told}\n{REFUSED}")


@pytest.mark.parametrize(
    "change, told",
    [
        ({"shipped.csv": None}, "shipped.csv: it is missing, and 1 item is called for; what was shipped is planned again\n"),
        (
            {"calls.csv": None, "demands.csv": BICYCLE["demands.csv"]},
            "calls.csv: it is missing, and shipped.csv has figures; what customers call for isn't planned\n",
        ),
        ({"demands.csv": None}, "demands.csv: it is missing, and nothing is asked for but in calls.csv\n"),
        (
            {"shipped.csv": CALLS["shipped.csv"].replace("Bob", "Bobb")},
            "calls.csv row 8: shipped.csv has no figure of Bob P1 BIKE (Bobb?); 0 is taken\n",
        ),
    ],
)
def test_what_may_not_be_meant_of_call_offs(tmp_path, change, told):
    found = {name: text for name, text in {**CALLS, **change}.items() if text is not None}
    assert sheets(tmp_path, found)[2].startswith(told)
    assert sheets(tmp_path, found, "--strict") == (1, "", told + STRICT)


@pytest.mark.parametrize(
    "demands, told",
    [
        ("Plant,Item,Due,Quantity\nP1,BIKE,2026-01-26,10\nP1,BIKE,2026-01-26,10\n", []),
        ("Plant,Item,Due,Quantity,Customer\nP1,BIKE,2026-01-26,10,Cy\nP1,BIKE,2026-01-26,10,BOB\nP1,BIKE,2026-01-26,1,Bob\n", ["3 Bob 8"]),
        ("Plant,Item,Due,Quantity,Kunde\nP1,BIKE,2026-01-26,10,Ann\nP1,BIKE,2026-01-26,10,\nP1,BIKE,2026-01-26,1,Bob\n", ["2 Ann 4", "4 Bob 8"]),
        ("Plant,Item,Due,Quantity,Customer\nP1,BIKE,2026-01-26,10,Cy\nP1,BIKE,2026-01-26,0,Ann\nP1,WHEEL,2026-01-26,1,Ann\n", []),
    ],
)
def test_what_is_called_for_and_wanted_too(tmp_path, demands, told):
    """Of one item by one customer who is named: it counts twice, and is told once for each."""
    found = {**CALLS, "demands.csv": demands}
    lines = [it for it in sheets(tmp_path, found)[2].splitlines() if "twice" in it]
    places = (it.split() for it in told)
    text = "demands.csv row {}: P1 BIKE is called for by {} too (calls.csv row {}); what stands in both counts twice"
    assert lines == [text.format(*it) for it in places]
    assert ("twice" in sheets(tmp_path, found, "--strict")[2]) == bool(told)
    found["calls.csv"] = None
    assert "twice" not in sheets(tmp_path, {name: it for name, it in found.items() if it})[2]


@pytest.mark.parametrize(
    "receipts, firm, told",
    [
        ("Order,Plant,Item,Due,Quantity\n7,P1,BIKE,2026-01-12,3\n", "Order", 2),
        ("Plant,Item,Due,Quantity,Bestellnr.\nP1,BIKE,2026-01-12,3,6\nP1,BIKE,2026-01-12,3,7\n", "Auftrag", 3),
        ("Order,Plant,Item,Due,Quantity\n7,P1,WHEEL,2026-01-12,3\n8,P1,BIKE,2026-01-12,3\n", "Order", None),
        ("Order,Plant,Item,Due,Quantity,Advice\n7,P1,BIKE,2026-01-12,3,L4\n", "Order", None),
        ("Order,Plant,Item,Due,Quantity,Advice\n7,P1,BIKE,2026-01-12,3,\n", "Order", 2),
        ("Remark,Plant,Item,Due,Quantity\n7,P1,BIKE,2026-01-12,3\n", "Order", None),
        ("Order,Plant,Item,Due,Quantity\n7,P1,BIKE,2026-01-12,3\n", "Remark", None),
        ("Order,Plant,Item,Due,Quantity\n,P1,BIKE,2026-01-12,3\n", "Order", None),
    ],
)
def test_one_number_in_two_sheets(tmp_path, receipts, firm, told):
    """Of one item, and not under way."""
    found = {**BICYCLE, "receipts.csv": receipts, "firm_orders.csv": f"{firm},Plant,Item,Start,Due,Quantity\n7,P1,BIKE,2026-01-05,2026-01-12,3\n"}
    lines = [it for it in sheets(tmp_path, found)[2].splitlines() if "twice" in it]
    line = f"firm_orders.csv row 2: order 7 of P1 BIKE stands in receipts.csv row {told} too, and counts twice"
    assert lines == ([f"{line}; it belongs here as long as its parts aren't issued"] if told else [])
    assert ("twice" in sheets(tmp_path, found, "--strict")[2]) == bool(told)


def test_sheets_of_call_offs_have_other_headings(tmp_path):
    """The column of where figures start again may be missing; one that is like it may not."""
    wanted = sheets(tmp_path, CALLS, "--names", "names.csv")
    for calls, shipped in (
        ("Kunde,Werk,Material,Termin,Fortschrittszahl,Nullstellung,Release", "Kundennummer,Werk,Teil,Lieferfortschrittszahl"),
        ("Customer no.,Plant,Article,Due date,Cum Qty,Start again,Release", "Sold-to,Site,SKU,Cum shipped"),
        ("Client,Usine,Article,Date de livraison,Cumul,Remise à zéro,Release", "Client,Usine,Article,Cumul expédié"),
        ("Cliente,Planta,Artículo,Fecha,Acumulado,Reinicio,Release", "Cliente,Centro,Producto,Acumulado"),
    ):
        found = {
            **CALLS,
            "calls.csv": "\n".join([calls, *CALLS["calls.csv"].splitlines()[1:]]),
            "shipped.csv": "\n".join([shipped, *CALLS["shipped.csv"].splitlines()[1:]]),
        }
        assert sheets(tmp_path, found)[:2] == wanted[:2]
    found["calls.csv"] = CALLS["calls.csv"].replace("Starts again", "Starts agaim")
    assert sheets(tmp_path, found)[2].startswith("calls.csv row 1: it has no column Starts again (Starts agaim?)\n")
    found["calls.csv"] = "Customer,Plant,Item,Date,Cumulative,Remark\nAnn,P1,BIKE,2026-01-12,130,x\n"
    assert demands_of(sheets(tmp_path, found)[1]) == [(1, 40)]


# A firm whose first day is 2026-01-05, with forecasts from before then to after its last day, 2026-02-01.
FORECASTS = {
    **BICYCLE,
    "firm.csv": "First day,Days,Periods,Backward consumption (periods),Forward consumption (periods)\n2026-01-05,7,4,1,1\n",
    "demands.csv": "Plant,Item,Due,Quantity\n",
    "forecasts.csv": "Plant,Item,Due,Quantity\n",
}


def forecast(window, forecasts, orders):
    """Returns the sheets with a window, and with forecasts and orders of pieces by their dates."""
    head = "Plant,Item,Due,Quantity\n"
    rows = (head + "".join(f"P1,BIKE,{day},{quantity}\n" for day, quantity in it) for it in (forecasts, orders))
    return {**FORECASTS, "firm.csv": FORECASTS["firm.csv"].replace("4,1,1", f"4,{window}"), **dict(zip(("forecasts.csv", "demands.csv"), rows))}


WEEKS = "2026-01-05", "2026-01-12", "2026-01-19", "2026-01-26"


@pytest.mark.parametrize(
    "window, forecasts, orders, demands",
    [
        # (an order that comes a period before its forecast, and one that comes a period after it)
        ("1,1", [100, 100], [150, 20], [150, 50]),
        ("1,1", [100, 100], [40, 160], [40, 160]),
        # (the other way they aren't found)
        ("1,0", [100, 100], [150, 20], [150, 100]),
        ("0,1", [100, 100], [40, 160], [100, 160]),
        ("0,0", [100, 100], [150, 20], [150, 100]),
        # (backward first, the nearest first, then forward)
        ("2,1", [10, 10, 10, 10], [0, 0, 25, 0], [5, 0, 25, 10]),
        ("2,1", [10, 10, 10, 10], [0, 0, 35, 0], [0, 0, 35, 5]),
        ("1,2", [10, 10, 10, 10], [0, 35, 0, 0], [0, 35, 0, 5]),
        ("104,104", [10, 10, 10, 10], [0, 45, 0, 0], [0, 45, 0, 0]),
        # (each in the order of its date: the first takes what the second has then to leave)
        ("1,1", [0, 10, 10], [15, 0, 15], [15, 0, 15]),
        ("1,1", [0, 10, 0, 10], [4, 0, 15], [4, 0, 15, 1]),
    ],
)
def test_orders_consume_forecasts(tmp_path, window, forecasts, orders, demands):
    found = forecast(window, zip(WEEKS, forecasts), zip(WEEKS, orders))
    _, table, said = sheets(tmp_path, found)
    sums = [0] * len(WEEKS)
    for period, quantity in demands_of(table):
        sums[period] += quantity
    assert (sums[: len(demands)], sum(sums)) == (demands, sum(demands))
    assert [it for it in said.splitlines() if " of 0 left out " not in it and "nothing is asked for" not in it] == []


def test_forecasts_of_periods_that_have_passed(tmp_path):
    """Overdue orders consume them by their own dates, and orders of period 0 by the window; what is left of them is dropped."""
    forecasts = [("2025-12-24", 50), ("2026-01-01", 30), ("2026-01-06", 20), ("2026-01-10", 25)]
    orders = [("2025-12-30", 8), ("2026-01-05", 52)]
    status, table, said = sheets(tmp_path, forecast("1,1", forecasts, orders), "--strict")
    told = """\
demands.csv: 1 overdue row in period 0
demands.csv row 2: 8 of P1 BIKE, 6 days late
forecasts.csv: 65 left of periods before 2026-01-05 dropped (rows 2, 3)
"""
    assert (status, demands_of(table), said) == (0, [(0, 8), (0, 52)], told)
    # (an overdue order whose forecast is gone takes from those after it)
    _, table, said = sheets(tmp_path, forecast("1,1", forecasts[2:], orders[:1]))
    assert (demands_of(table), "dropped" in said) == ([(0, 8), (0, 12), (0, 25)], False)


def test_orders_and_forecasts_beyond_the_end(tmp_path):
    """Orders beyond the end consume what is within; of forecasts beyond it those with pieces left are told."""
    forecasts = [("2026-01-26", 10), ("2026-02-02", 10), ("2026-02-09", 10), ("2026-02-16", 10)]
    _, table, said = sheets(tmp_path, forecast("1,0", forecasts, [("2026-02-03", 14), ("2026-02-10", 10), ("2026-01-05", 1)]))
    assert (demands_of(table), said.splitlines()) == (
        [(0, 1), (3, 6)],
        [
            "demands.csv: 2 rows beyond 2026-02-01 left out (rows 2, 3)",
            "forecasts.csv: 1 row beyond 2026-02-01 left out (row 5)",
        ],
    )


def test_forecasts_of_an_item_at_a_plant_alone(tmp_path):
    """Those of one period add up, the earliest are consumed first, and call-offs consume too; what is left keeps its row."""
    found = forecast("0,0", [("2026-01-18", 10), ("2026-01-12", 20)], [("2026-01-14", 3)])
    found["items.csv"] += "P2,BIKE,buy,lot,1,0,0\n"
    found["forecasts.csv"] = found["forecasts.csv"].replace("Quantity", "Quantity,Region").replace("12,20", "12,20,North")
    found["forecasts.csv"] += "P2,BIKE,2026-01-12,7,\nP1,WHEEL,2026-01-12,9,\n"
    found["calls.csv"] = "Customer,Plant,Item,Date,Cumulative\nAnn,P1,BIKE,2026-01-15,104\n"
    found["shipped.csv"] = "Customer,Plant,Item,Cumulative\nAnn,P1,BIKE,100\n"
    status, table, said = sheets(tmp_path, found, "--names", "names.csv", "--strict")
    assert (status, table.partition("demand")[2], said) == (
        0,
        ",P1,BIKE,1,3,,,\ndemand,P1,BIKE,1,4,,,\ndemand,P1,BIKE,1,13,,,\ndemand,P1,BIKE,1,10,,,\n"
        "demand,P2,BIKE,1,7,,,\ndemand,P1,WHEEL,1,9,,,\n",
        "",
    )
    names = (tmp_path / "names.csv").read_text()
    assert '\ndemand,P1,BIKE,1,2026-01-12,13,,,"forecast, 13 of 20, Region North"\n' in names
    assert "\ndemand,P1,BIKE,1,2026-01-18,10,,,forecast\n" in names


def test_large_sheets_consume_further_back(tmp_path):
    """By working days: 50 weeks before the first day are 250 of them. With --large alone orders consume so far back."""
    firm = "First day,Days,Periods,Backward consumption (periods),Forward consumption (periods),Closed on\n2026-01-05,1,4,{},0,Sat Sun\n"
    for back, left in ((250, 13), (249, 20)):
        found = {**forecast("", (("2025-01-20", 20),), (("2026-01-05", 7),)), "firm.csv": firm.format(back)}
        said = f"forecasts.csv: {left} left of periods before 2026-01-05 dropped (row 2)\n"
        status, table, told = sheets(tmp_path, found, "--large")
        assert (status, "demand,P1,BIKE,0,7,,,\n" in table, told) == (0, True, said)
    assert "'249' is not from 0 to 104; with --large up to 520\n" in sheets(tmp_path, found)[2]


def test_a_piece_consumes_the_first_forecast_that_is_left():
    """Piece by piece: of its own period, else of the nearest before, else of the nearest after."""
    demand = module_of("demand.py", "bin")
    for seed in range(500):
        chance = random.Random(seed)
        back, forward = chance.randrange(4), chance.randrange(4)
        left, orders = ({chance.randrange(-3, 8): chance.randrange(9) for _ in range(chance.randrange(7))} for _ in range(2))
        taken = demand.consumed({**left}, orders, back, forward)
        before = {**left}
        for period in sorted(orders):
            for _ in range(orders[period]):
                near = [it for it in left if left[it] and period - back <= it <= period + forward]
                if near:
                    left[min(near, key=lambda it: (it > period, abs(it - period)))] -= 1
        assert taken == {it: before[it] - left[it] for it in before}, seed


@pytest.mark.parametrize(
    "change, told",
    [
        (
            {"firm.csv": BICYCLE["firm.csv"]},
            "firm.csv row 1: it has no column Backward consumption (periods), for forecasts.csv\n"
            "firm.csv row 1: it has no column Forward consumption (periods), for forecasts.csv",
        ),
        (
            {"firm.csv": FORECASTS["firm.csv"].replace("Forward consumption (periods)", "Forward consumption")},
            "firm.csv row 1, Forward consumption: in which unit? Head it Forward consumption (periods)",
        ),
        (
            {"firm.csv": FORECASTS["firm.csv"].replace("Backward consumption (periods)", "Backward consumption (days)")},
            "firm.csv row 1: it has no column Backward consumption (Backward consumption (days)?)",
        ),
        ({"firm.csv": FORECASTS["firm.csv"].replace("4,1,1", "4,,1")}, "firm.csv row 2, Backward consumption (periods): nothing stands here"),
        ({"firm.csv": FORECASTS["firm.csv"].replace("4,1,1", "4,1,105")}, "firm.csv row 2, Forward consumption (periods): '105' is not from 0 to 104; with --large up to 520"),
        ({"forecasts.csv": FORECASTS["forecasts.csv"] + "P1,BIKE,2026-01-12,-1\n"}, "forecasts.csv row 2, Quantity: '-1' is not from 1 to 1000000000000"),
        ({"forecasts.csv": FORECASTS["forecasts.csv"] + "P1,BIKE,W3,1\n"}, "forecasts.csv row 2, Due: 'W3' is no date; write it as 2026-12-01"),
        ({"forecasts.csv": FORECASTS["forecasts.csv"] + "P1,BIK,2026-01-12,1\n"}, "forecasts.csv row 2, Item: P1 has no item 'BIK' (BIKE?)"),
        ({"forecasts.csv": "Plant,Item,Due\n"}, "forecasts.csv row 1: it has no column Quantity"),
    ],
)
def test_forecasts_that_are_slips(tmp_path, change, told):
    count = told.count("\n") + 1
    said = f"{told}\n{REFUSED.replace('1 slip', f'{count} slips') if count > 1 else REFUSED}"
    assert sheets(tmp_path, {**FORECASTS, "demands.csv": BICYCLE["demands.csv"], **change}) == (1, "", said)


def test_what_may_not_be_meant_of_forecasts(tmp_path):
    found = {**FORECASTS, "demands.csv": BICYCLE["demands.csv"]}
    assert sheets(tmp_path, found) == (0, TABLE, "")
    said = "forecasts.csv: it is missing, and firm.csv says how orders consume forecasts; none is planned\n"
    assert sheets(tmp_path, {name: text for name, text in found.items() if name != "forecasts.csv"}) == (0, TABLE, said)
    found["forecasts.csv"] += "P1,BIKE,2026-01-12,0\n"
    assert sheets(tmp_path, found) == (0, TABLE, "forecasts.csv: 1 row of 0 left out (row 2)\n")
    del found["demands.csv"]
    found["forecasts.csv"] = FORECASTS["forecasts.csv"] + "P1,BIKE,2026-01-26,10\n"
    assert sheets(tmp_path, found) == (0, TABLE, "demands.csv: it is missing, and nothing is asked for but in forecasts.csv\n")


def test_the_window_has_other_headings(tmp_path):
    wanted = sheets(tmp_path, found := forecast("1,0", zip(WEEKS, [10, 10]), [("2026-01-12", 15)]))
    assert demands_of(wanted[1]) == [(1, 15), (0, 5)]
    for firm, heads in (
        ("Erster Tag,Tage,Perioden,Rückwärtsverrechnung (Perioden),Vorwärtsverrechnung (Perioden)", "Werk,Material,Termin,Prognose"),
        ("Start,Days,Periods,Consume back (periods),Consume forward (periods)", "Site,Part,Date,Forecast qty"),
        ("Début,Jours,Périodes,Consommation en arrière (périodes),Consommation en avant (périodes)", "Usine,Article,Échéance,Quantité prévue"),
        ("Inicio,Días,Periodos,Consumo hacia atrás (periodos),Consumo hacia adelante (periodos)", "Planta,Artículo,Fecha,Pronóstico"),
    ):
        other = {"firm.csv": firm, "forecasts.csv": heads}
        assert sheets(tmp_path, {**found, **{name: "\n".join([head, *found[name].splitlines()[1:]]) for name, head in other.items()}}) == wanted


def test_damaged_sheets_are_refused_or_read(tmp_path):
    """With slips that are counted, or a table; never otherwise."""
    found = {**FORECASTS, **{name: CALLS[name] for name in ("calls.csv", "shipped.csv")}, "demands.csv": BICYCLE["demands.csv"]}
    found["forecasts.csv"] += "P1,BIKE,2026-01-12,7\nP1,WHEEL,2026-02-12,9\nP1,BIKE,2026-01-01,7\n"
    assert sheets(tmp_path, found)[0] == 0
    for seed in range(60):
        chance = random.Random(seed)
        name = chance.choice(("firm.csv", "calls.csv", "shipped.csv", "forecasts.csv"))
        text = firms.damaged(chance, found[name].encode()).decode("utf-8", "ignore")
        form = chance.choice(((), ("--numbers", POINTS), ("--numbers", COMMAS)))
        status, table, said = sheets(tmp_path, {**found, name: text}, *form)
        assert status == (0 if table else 1), (seed, said)
        assert not status or re.search(r"\nbin/sheets: \d+ slips?; nothing is written\n$", said), (seed, said)
