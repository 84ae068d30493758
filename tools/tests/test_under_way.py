"""bin/schedule: at a vendor's opening what the sheets say of its receipts that are under way."""
import csv

import pytest
from support import reports_from_files
from test_orders import DELIVERED

NAMES = "row,plant,item,period,date,quantity,name,description,note\nplant,LUMEN,,,,,Lumen GmbH,,\npair,WORKS,MOTOR,,,,MOTOR,,\n"
# What is in transit from the vendor are 2 pieces.
BOTH = 'receipt,WORKS,MOTOR,0,2026-12-22,1,,,"Order 71, Advice 88140"\nreceipt,WORKS,MOTOR,1,2027-01-05,1,,,"Order 72, Lieferschein-Nr. 88141"\n'
ORDERED = 'receipt,WORKS,MOTOR,1,2027-01-05,9,,,Order 73\n'


@pytest.mark.parametrize(
    "rows, notes",
    [
        (BOTH + ORDERED, "1 of 2026-12-22: Order 71, Advice 88140; 1 of 2027-01-05: Order 72, Lieferschein-Nr. 88141"),
        # (a sheet without advices has nothing but what is under way)
        (ORDERED.replace(",9,", ",2,"), "2 of 2027-01-05: Order 73"),
        # (what isn't what the opening counts isn't told, as what left before figures started again)
        (ORDERED, ""),
        (BOTH.replace(",1,,,\"Order 71", ",5,,,\"Order 71"), ""),
        # (a note of that word, and none of that column)
        ('receipt,WORKS,MOTOR,0,2026-12-22,2,,,"Order 74, Note ""Advice, 5"""\n', '2 of 2026-12-22: Order 74, Note "Advice, 5"'),
        ("", ""),
    ],
)
def test_receipts_under_way_stand_at_the_opening(room, rows, notes):
    reports_from_files(room, DELIVERED, "schedule")
    heads = "row,kind,supplier,customer,item,period,date,quantity,cumulative\n"
    room.write("schedule.csv", heads + room.run("cat schedule.csv"))
    room.write("names.csv", NAMES + rows)
    found = [*csv.DictReader(room.run("MRP=words/files bin/schedule --from 'Lumen GmbH' --names names.csv < table.csv").splitlines())]
    assert [(it["kind"], it["quantity"]) for it in found][:1] == [("opening", "2")]
    assert [it["notes"] for it in found] == [notes, *[""] * (len(found) - 1)]
