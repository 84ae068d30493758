"""What is overdue in the sheets, on the page: with numbers and days, whatever the plan makes of it."""
import csv

import mrp
import named
from support import listed, Tags
from test_hit import COMING, sheets_of

# By hand, of a plan from Monday, 30 November 2026. Of Bob's 10 of a week before 7 are shipped.
LATE = {
    **COMING,
    "demands.csv": "Order,Customer,Plant,Item,Due,Quantity\n46,,P1,BIKE,29.11.2026,5\n47,Ann,P1,BIKE,2026-12-21,10\n"
    '48,"Weber, ""Nord""",P1,BIKE,20.11.2026,2\n',
    "receipts.csv": "PO,Plant,Item,Due,Quantity\n4500171,P1,WHEEL,2026-11-18,20\n4500172,P1,WHEEL,2026-11-30,1\n",
    "firm_orders.csv": "Order,Plant,Item,Start,Due,Quantity\nFA-1,P1,BIKE,2026-11-27,2026-12-16,5\nFA-2,P1,BIKE,2026-11-20,2026-11-27,1\n",
    "calls.csv": "Customer,Plant,Item,Date,Cumulative\nBob,P1,BIKE,2026-11-23,10\nBob,P1,BIKE,2026-12-07,12\n",
    "shipped.csv": "Customer,Plant,Item,Cumulative\nBob,P1,BIKE,7\n",
}
ROWS = [
    ["P1", "WHEEL", "20", "12 days late", "18 Nov W47", "receiptPO 4500171"],
    ["P1", "BIKE", "2", "10 days late", "20 Nov W47", "demandOrder 48, Customer Weber, &quot;Nord&quot;"],
    ["P1", "BIKE", "3", "7 days late", "23 Nov W48", "demandbacklog, Customer Bob"],
    ["P1", "BIKE", "5", "its start 3 days late", "27 Nov W48", "firm orderOrder FA-1"],
    ["P1", "BIKE", "1", "3 days late", "27 Nov W48", "firm orderOrder FA-2"],
    ["P1", "BIKE", "5", "1 day late", "29 Nov W48", "demandOrder 46"],
]


def test_the_page_lists_what_is_overdue(room):
    """The latest first, of all sheets; as many as standard error tells. Without names the table doesn't say."""
    sheets_of(room, LATE)
    text = room.run("bin/page --names names.csv < table.csv")
    Tags(text)
    assert listed(text, "overdue") == ROWS
    assert room.run("grep -c ' late' said").strip() == str(len(ROWS))
    assert '<section id="overdue">' not in room.run("bin/page < table.csv")
    assert [it[1] for it in listed(room.run("bin/page --item WHEEL --names names.csv < table.csv"), "overdue")] == ["WHEEL"]


def test_what_names_say_is_overdue(tmp_path):
    """Of each kind, also a thousand days late, with a note of two lines or none."""
    rows = (
        'overdue ship,B,X,-143,2023-11-30,7,,,"1,096 days late, from A, Note ""first\nsecond"""',
        "overdue demand,B,X,-1,2026-11-29,5,,,1 day late",
        'overdue firm,B,X,-1,2026-11-27,4,,,"its start 3 days late, Order 7"',
        "demand,B,X,0,29.11.2026,5,,,Order 46",
    )
    (tmp_path / "names.csv").write_text("\n".join([",".join(mrp.Names.COLUMNS), *rows, ""]), encoding="utf-8")
    found = named.overdue(mrp.Names(tmp_path / "names.csv"))
    assert [(it.kind, it.quantity, it.days, it.late, str(it.date), it.note) for it in found] == [
        ("ship", 7, 1096, "1,096 days late", "2023-11-30", 'from A, Note "first\nsecond"'),
        ("firm", 4, 3, "its start 3 days late", "2026-11-27", "Order 7"),
        ("demand", 5, 1, "1 day late", "2026-11-29", ""),
    ]


def test_a_plan_without_overdue_rows_has_no_list(room):
    sheets_of(room, COMING)
    assert '<section id="overdue">' not in room.run("bin/page --names names.csv < table.csv")
    assert named.overdue(mrp.Names(f"{room.folder}/names.csv")) == []


def test_names_have_what_is_overdue_by_its_own_date(room):
    """In whatever form the sheet has it, and in the names of the table."""
    sheets_of(room, {**LATE, "items.csv": LATE["items.csv"].replace("BIKE", "BIKE/28"), **{
        it: LATE[it].replace("BIKE", "BIKE/28") for it in ("bills.csv", "demands.csv", "firm_orders.csv", "calls.csv", "shipped.csv")
    }})
    rows = [it for it in csv.reader(room.run("cat names.csv").splitlines()) if it[0].startswith("overdue")]
    assert rows[0][:6] == ["overdue demand", "P1", "BIKE_28", "-1", "2026-11-29", "5"]
    assert {it[0] for it in rows} == {"overdue demand", "overdue receipt", "overdue firm"}
    # (the row itself counts in period 0)
    assert "demand,P1,BIKE_28,0,29.11.2026,5,,,Order 46" in room.run("cat names.csv").splitlines()
