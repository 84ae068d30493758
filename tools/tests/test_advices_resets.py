"""bin/advices at the turn of a year: items without an advice, what left before and is counted otherwise, and other columns of figures."""
import pytest
from test_advices import advices, BOOK, EXAMPLE, HEAD, HEADS, rows

NOTHING = {"advices": rows(HEAD), "booked": rows(BOOK), "receipts": None, "cums": None, "vendors": None}
SINCE = "Vendor,Plant,Item,Figure received,In transit,Starts again,Since"


def week(first):
    """Returns a sheet with the first day of a plan."""
    return rows(HEADS["firm"], f"{first},7,4")


@pytest.mark.parametrize("transit", ["0", "20", ""])
@pytest.mark.parametrize("first", ["2027-01-01", "2027-01-04", "2027-01-18"])
def test_a_vendor_without_an_advice_starts_again(tmp_path, first, transit):
    """From that day on; what was on its way then is a receipt alone. The next time its figure is what it was."""
    changes = {**NOTHING, "firm": week(first), "vendors": rows(HEADS["vendors"], f"Lumen,WORKS,MOTOR,480,{transit},2027-01-01")}
    status, said, files = advices(tmp_path, **changes)
    assert (status, said) == (0, "Lumen WORKS MOTOR: the figure started again on 2027-01-01, after 480 received\n")
    assert files["vendors.csv"] == rows(SINCE, "Lumen,WORKS,MOTOR,0,0,,2027-01-01")
    again = advices(tmp_path, **{**changes, "vendors": files["vendors.csv"]})
    assert again == (0, "", files)


def test_before_that_day_it_stays(tmp_path):
    vendors = rows(HEADS["vendors"], "Lumen,WORKS,MOTOR,480,20,2027-01-01")
    lane = "FOUNDRY,WORKS,CASTING,2027-01-01"
    changes = {**NOTHING, "firm": week("2026-12-31"), "vendors": vendors, "resets": rows(HEADS["resets"], lane)}
    status, said, files = advices(tmp_path, **changes)
    assert (status, said, files["vendors.csv"], files["resets.csv"]) == (0, "", vendors, changes["resets"])


@pytest.mark.parametrize("last", [480, None])
def test_a_plant_without_an_advice_starts_again(tmp_path, last):
    """With and without a last figure; shipments that are kept by hand are receipts. Once it has passed a row of resets.csv goes."""
    changes = {
        **NOTHING,
        "firm": week("2027-01-04"),
        "cums": rows(HEADS["cums"], *[f"FOUNDRY,WORKS,CASTING,{last}"] * bool(last)),
        "resets": rows(HEADS["resets"], "FOUNDRY,WORKS,CASTING,2027-01-01"),
        "shipments": rows(HEADS["shipments"], "FOUNDRY,WORKS,CASTING,2027-01-05,3"),
    }
    status, said, files = advices(tmp_path, **changes)
    assert (status, said) == (0, f"FOUNDRY WORKS CASTING: the figure started again on 2027-01-01, after {last or 0} received\n")
    assert files == {
        "cums.csv": "From,To,Item,Cum received,In transit,Since\nFOUNDRY,WORKS,CASTING,0,0,2027-01-01\n",
        "receipts.csv": "Plant,Item,Due,Quantity,Advice,Vendor\nWORKS,CASTING,2027-01-05,3,,FOUNDRY\n",
        "shipments.csv": rows(HEADS["shipments"]),
        "resets.csv": rows(HEADS["resets"]),
    }
    kept = {"cums": files["cums.csv"], "shipments": None, "receipts": files["receipts.csv"]}
    status, said, again = advices(tmp_path, **{**changes, **kept})
    assert (status, said, again["cums.csv"], again["resets.csv"]) == (0, "", files["cums.csv"], files["resets.csv"])


def test_sheets_take_items_without_an_advice(room):
    """At the turn of a year, whose figures start again before the first day of the plan."""
    room.run("cp -r examples/advices last && echo 'From,To,Item,Date' > last/resets.csv && echo 'FOUNDRY,WORKS,CASTING,2027-01-01' >> last/resets.csv")
    room.run("for it in advices booked; do head -1 examples/advices/$it.csv > last/$it.csv; done; sed -i s/2026-11-30/2027-01-04/ last/firm.csv")
    room.run("rm last/receipts.csv && cp -r last week && rm week/advices.csv week/booked.csv && bin/advices --out week last")
    room.run("bin/sheets --today 2027-01-04 --names names.csv --out table.csv week")
    found = [it for it in room.run("cat table.csv").splitlines() if it.startswith(("cum", "vendor", "reset"))]
    assert found == ["cum,FOUNDRY,WORKS,CASTING,0,,,", "vendor,Lumen,WORKS,MOTOR,0,0,,"]


MISCOUNTED = {
    **NOTHING,
    "firm": week("2027-01-18"),
    "vendors": rows("Vendor,Plant,Item,Figure received,In transit,Starts again,Since", "Lumen,WORKS,MOTOR,0,0,,2027-01-04"),
    "advices": rows(HEAD, "L-9,Lumen,WORKS,MOTOR,10,510,2026-12-29,2027-01-05"),
}


@pytest.mark.parametrize("booked, difference", [((7,), "7 received, 3 too few"), ((4, 9), "13 received, 3 too many")])
def test_what_left_before_and_is_counted_otherwise(tmp_path, booked, difference):
    """By its pieces, since its figure counts no more. Accepted, what was booked came, and nothing more is to come."""
    changes = {**MISCOUNTED, "booked": rows(BOOK, *(f"L-9,Lumen,WORKS,MOTOR,{it},2027-01-12" for it in booked))}
    told = f"advices.csv row 2: Lumen WORKS MOTOR: 10 shipped by L-9 before 2027-01-04, but {difference}"
    end = "bin/advices: the figures of 1 item differ; nothing is written. Clear it with the supplier, or give --accept ITEM"
    status, said, files = advices(tmp_path, **changes)
    assert (status, said.splitlines(), files) == (1, [told, end], {})
    status, said, files = advices(tmp_path, "--accept", "MOTOR", **changes)
    assert (status, said, files["vendors.csv"]) == (0, told + "; accepted\n", changes["vendors"])
    assert "L-9" not in files["receipts.csv"]


def test_what_left_before_and_is_counted_as_shipped(tmp_path):
    """In two bookings, taken back, or of two rows of one advice: nothing is told."""
    book, advice = "L-9,Lumen,WORKS,MOTOR,{},2027-01-12", MISCOUNTED["advices"]
    two = advice + "L-9,Lumen,WORKS,MOTOR,5,515,2026-12-29,2027-01-05\n"
    for found, advised in (((4, 6), advice), ((10, -10), advice), ((15,), two), ((10,), advice + advice.partition("\n")[2])):
        changes = {**MISCOUNTED, "advices": advised, "booked": rows(BOOK, *map(book.format, found))}
        assert advices(tmp_path, **changes)[:2] == (0, "")


def test_what_left_before_and_stands_twice(tmp_path):
    """It is one receipt, and told; of two rows of one advice each is one."""
    advice = MISCOUNTED["advices"].partition("\n")[2]
    changes = {**MISCOUNTED, "advices": MISCOUNTED["advices"] + advice.replace("L-9", "L-8") + advice}
    status, said, files = advices(tmp_path, **changes)
    assert (status, said) == (0, "advices.csv row 4: Lumen WORKS MOTOR: L-9 stands twice, in rows 2 and 4; it is counted once\n")
    assert files["receipts.csv"] == rows(
        "Plant,Item,Due,Quantity,Advice,Vendor", "WORKS,MOTOR,2027-01-05,10,L-9,Lumen", "WORKS,MOTOR,2027-01-05,10,L-8,Lumen"
    )
    two = MISCOUNTED["advices"] + "L-9,Lumen,WORKS,MOTOR,5,515,2026-12-29,2027-01-05\n"
    status, said, files = advices(tmp_path, **{**MISCOUNTED, "advices": two})
    assert (status, said, files["receipts.csv"].count("L-9")) == (0, "", 2)


def test_other_columns_of_figures_stay(tmp_path):
    """Behind those that are set, row by row: horizons and notes of an item, wherever they stand. A row that is new has nothing there."""
    changes = {
        "items": EXAMPLE["items.csv"] + "WORKS,BOLT,,buy,lot,7,0,0\nWORKS,NUT,,buy,lot,7,0,0\n",
        "cums": "From;Closed;To;Item;Cum received\nFOUNDRY; 4.000 ;WORKS;CASTING;1040\n",
        "vendors": "Firm (weeks),Vendor,Plant,Item,Figure received,Note,Starts again\n"
        '2,Kiel,WORKS,BOLT,90,"by road, Tuesdays",\n,Lumen,WORKS,MOTOR,460,,2026-11-30\n',
        "advices": EXAMPLE["advices.csv"] + "K-1,Kiel,WORKS,NUT,5,5,2026-11-27,2026-12-01\n",
    }
    status, _, files = advices(tmp_path, **changes)
    assert status == 0
    assert files["cums.csv"] == "From,To,Item,Cum received,In transit,Closed\nFOUNDRY,WORKS,CASTING,1070,25,4.000\n"
    written = rows(
        "Vendor,Plant,Item,Figure received,In transit,Starts again,Since,Firm (weeks),Note",
        'Kiel,WORKS,BOLT,90,,,,2,"by road, Tuesdays"',
        "Lumen,WORKS,MOTOR,0,0,,2026-11-30,,",
        "Kiel,WORKS,NUT,0,5,,,,",
    )
    assert files["vendors.csv"] == written
    # (and the next time)
    rest = {**changes, "advices": rows(HEAD), "booked": rows(BOOK), "vendors": written, "cums": files["cums.csv"]}
    again = advices(tmp_path, **rest)
    assert (again[0], again[2]["vendors.csv"], again[2]["cums.csv"]) == (0, written, files["cums.csv"])
