"""bin/advices: despatch advices and what goods-in has booked, into shipments, receipts and figures."""
import csv
import datetime
import random
import shutil
from collections import defaultdict

import firms
import pytest
from support import module_of, TOP
from test_slips import run

EXAMPLE = {}
for NAME in ("firm", "items", "cums", "vendors", "receipts", "advices", "booked"):
    with open(f"{TOP}/examples/advices/{NAME}.csv", encoding="utf-8") as FILE:
        EXAMPLE[f"{NAME}.csv"] = FILE.read()
# By hand. The works had 1040 castings and 460 motors; 30 castings (F-81) and 20 motors (88123) were booked since. Of castings 25
# (F-84) are on their way, and 1070 + 25 are the 1095 of F-84; of motors 40, and 480 + 40 are the 520 of 88140.
WRITTEN = {
    "shipments.csv": "From,To,Item,Arrives,Quantity,Advice\nFOUNDRY,WORKS,CASTING,2026-12-01,25,F-84\n",
    "receipts.csv": "Plant,Item,Order,Due,Quantity,Advice,Vendor\nFOUNDRY,IRON,P-12,2026-12-09,300,,\n"
    "WORKS,MOTOR,,2026-12-03,40,88140,Lumen\n",
    "cums.csv": "From,To,Item,Cum received,In transit\nFOUNDRY,WORKS,CASTING,1070,25\n",
    "vendors.csv": "Vendor,Plant,Item,Figure received,In transit,Starts again\nLumen,WORKS,MOTOR,480,40,2027-01-01\n",
}
CASTINGS = "FOUNDRY WORKS CASTING"
END = "nothing is written. Clear it with the supplier, or give --accept ITEM\n"


def write(folder, found):
    """Writes sheets into a folder, and no others."""
    shutil.rmtree(folder, ignore_errors=True)
    folder.mkdir()
    for name, text in found.items():
        if text is not None:
            (folder / name).write_text(text, encoding="utf-8")


def advices(folder, *words, **changes):
    """Runs bin/advices on the sheets of the example, of which some are others. Returns status, what is said and what is written."""
    write(folder / "in", {**EXAMPLE, **{f"{name}.csv": text for name, text in changes.items()}})
    shutil.rmtree(folder / "out", ignore_errors=True)
    status, printed, said = run(folder, "bin/advices", *words, "--out", "out", "in")
    assert printed == ""
    return status, said, {it.name: it.read_text(encoding="utf-8") for it in folder.glob("out/*")}


def test_what_is_booked_and_what_is_on_its_way(tmp_path):
    assert advices(tmp_path) == (0, "", WRITTEN)
    assert {it.name: it.read_text() for it in tmp_path.glob("in/*")} == EXAMPLE


def test_sheets_take_what_it_writes(room):
    """Beside the other sheets. What is on its way from the vendor is what its figures have in transit."""
    room.run("cp -r examples/advices week && rm week/advices.csv week/booked.csv && bin/advices --out week examples/advices")
    said = room.run("bin/sheets --today 2026-11-30 --names names.csv --out table.csv week 2>&1").splitlines()
    assert said[1] == "vendors.csv row 2: 2027-01-01 isn't the first day of a period; figures start again on 2026-12-28"
    assert len(said) == 2
    rows = [it for it in room.run("cat table.csv").splitlines() if it.startswith(("receipt", "ship", "cum", "vendor"))]
    assert rows == [
        "receipt,FOUNDRY,IRON,1,300,,,",
        "receipt,WORKS,MOTOR,0,40,,,",
        "ship,FOUNDRY,WORKS,CASTING,0,25,,",
        "cum,FOUNDRY,WORKS,CASTING,1070,,,",
        "vendor,Lumen,WORKS,MOTOR,480,40,4,",
    ]
    notes = [it["note"] for it in csv.DictReader(room.run("cat names.csv").splitlines()) if it["row"] in ("receipt", "ship")]
    assert notes == ["Order P-12", "Advice 88140, Vendor Lumen", "from FOUNDRY, Advice F-84"]
    # (the works' call for castings goes on from what is on its way)
    room.needs_program()
    schedules = room.run("$MRP schedule < table.csv")
    assert "schedule,opening,FOUNDRY,WORKS,CASTING,,,25,1095" in schedules
    assert "schedule,opening,Lumen,WORKS,MOTOR,,,40,520" in schedules


F_81, F_84 = EXAMPLE["advices.csv"].splitlines(keepends=True)[1:3]
BOOKED = EXAMPLE["booked.csv"]


@pytest.mark.parametrize(
    "changes, counted, reasons",
    [
        # (F-84 came by none: the newest is that of F-87)
        (
            {"advices": EXAMPLE["advices.csv"].replace(F_84, "F-87,FOUNDRY,WORKS,CASTING,10,1105,2026-11-28,2026-12-02\n")},
            "row 3: {}: 1105 shipped by F-87, but 1070 received and 10 on the way are 1080, 25 too few",
            ["an advice of 25 is missing between F-81 (1070) and F-87 (1105 with its 10)"],
        ),
        (
            {"advices": EXAMPLE["advices.csv"] + F_84},
            "row 6: {}: 1095 shipped by F-84, but 1070 received and 50 on the way are 1120, 25 too many",
            ["F-84 stands twice, in rows 3 and 6"],
        ),
        (
            {"booked": BOOKED.replace("CASTING,30", "CASTING,28")},
            "row 3: {}: 1095 shipped by F-84, but 1068 received and 25 on the way are 1093, 2 too few",
            ["booked.csv row 2: 28 are booked of the 30 of F-81"],
        ),
        (
            {"booked": BOOKED + "F-81,FOUNDRY,WORKS,CASTING,30,2026-11-28\n"},
            "row 3: {}: 1095 shipped by F-84, but 1100 received and 25 on the way are 1125, 30 too many",
            ["booked.csv row 2, 4: 60 are booked of the 30 of F-81"],
        ),
        (
            {"booked": BOOKED.replace("F-81", "F-18")},
            "row 3: {}: 1095 shipped by F-84, but 1070 received and 55 on the way are 1125, 30 too many",
            ["booked.csv row 2: 30 of F-18 are booked, which advices.csv hasn't"],
        ),
        # (the last figure has F-81 already)
        (
            {"cums": EXAMPLE["cums.csv"].replace("1040", "1070")},
            "row 3: {}: 1095 shipped by F-84, but 1100 received and 25 on the way are 1125, 30 too many",
            ["F-81 (1070 with its 30) has 30 that the last figure (1070) has too"],
        ),
        (
            {"cums": None},
            "row 3: {}: 1095 shipped by F-84, but 30 received and 25 on the way are 55, 1040 too few",
            ["cums.csv has no last figure of it: 0 is taken", "an advice of 1040 is missing between the last figure (0) and F-81 (1070 with its 30)"],
        ),
    ],
)
def test_figures_that_differ(tmp_path, changes, counted, reasons):
    """Both figures, the difference and where it may come from; accepted, the figure that was booked is written."""
    told = ["advices.csv " + counted.format(CASTINGS), *(f"  {it}" for it in reasons)]
    status, said, files = advices(tmp_path, **changes)
    assert (status, said.splitlines(), files) == (1, [*told, f"bin/advices: the figures of 1 item differ; {END[:-1]}"], {})
    assert advices(tmp_path, "--accept", "MOTOR", **changes) == (1, said, {})
    status, said, files = advices(tmp_path, "--accept", "MOTOR", "--accept", "CASTING", **changes)
    assert (status, said.splitlines()) == (0, [told[0] + "; accepted", *told[1:]])
    received, way = (int(counted.split(word)[0].split()[-1]) for word in (" received", " on the way"))
    assert files["cums.csv"] == f"From,To,Item,Cum received,In transit\nFOUNDRY,WORKS,CASTING,{received},{way}\n"
    assert files["vendors.csv"] == WRITTEN["vendors.csv"]


def test_an_accepted_item_is_one_that_there_is(tmp_path):
    why = "bin/advices: --accept CASTNG: no advice and no booking has this item (CASTING?)\n"
    assert advices(tmp_path, "--accept", "CASTNG") == (1, why, {})
    assert advices(tmp_path, "--accept", "CASTING") == (0, "", WRITTEN)


HEAD, BOOK = EXAMPLE["advices.csv"].partition("\n")[0], BOOKED.partition("\n")[0]


def rows(head, *lines):
    """Returns a sheet of some lines."""
    return "\n".join((head, *lines, ""))


HEADS = {
    "advices": HEAD,
    "booked": BOOK,
    "cums": "From,To,Item,Cum received",
    "vendors": "Vendor,Plant,Item,Figure received,In transit,Starts again",
    "shipments": "From,To,Item,Arrives,Quantity",
    "resets": "From,To,Item,Date",
    "firm": "First day,Days,Periods",
}
BAD = {
    ("advices", ",FOUNDRY,WORKS,CASTING,1,1,2026-11-23,2026-11-27"): ", Advice: nothing stands here",
    ("advices", "F-1,FUNDRY,WORKS,CASTING,1,1,2026-11-23,2026-11-27"): ", From: WORKS CASTING doesn't come from FUNDRY: "
    "its supply is 'from:FOUNDRY' (FOUNDRY?)",
    ("advices", "F-1,FOUNDRY,WORKS,MOTOR,1,1,2026-11-23,2026-11-27"): ", From: WORKS MOTOR doesn't come from FOUNDRY: its supply is 'buy'",
    ("advices", "F-1,Lumen,WORKS,PUMP 2.5,1,1,2026-11-23,2026-11-27"): ", From: WORKS PUMP 2.5 doesn't come from Lumen: its supply is 'make'",
    ("advices", "F-1,Lumen,WORK,MOTOR,1,1,2026-11-23,2026-11-27"): ", To: there is no plant 'WORK' (WORKS?)",
    ("advices", "F-1,Lumen,WORKS,MOTR,1,1,2026-11-23,2026-11-27"): ", Item: WORKS has no item 'MOTR' (MOTOR?)",
    ("advices", "F-1,Lumen,WORKS,MOTOR,1.5,2,2026-11-23,2026-11-27"): ", Quantity: '1.5' is no whole number; plan the item in a "
    "smaller unit (docs/limits.md, fractions)",
    ("advices", "F-1,Lumen,WORKS,MOTOR,-1,2,2026-11-23,2026-11-27"): ", Quantity: '-1' is not from 0 to 1000000000000",
    ("advices", "F-1,Lumen,WORKS,MOTOR,20,19,2026-11-23,2026-11-27"): ", Cumulative: 19 is below its quantity, 20; the figure counts that too",
    ("advices", "F-1,Lumen,WORKS,MOTOR,20,20,2026-11-27,2026-11-23"): ", Arrives: 2026-11-23 is before 2026-11-27, when it left",
    ("advices", "F-1,Lumen,WORKS,MOTOR,20,20,23/11/2026,2026-11-23"): ", Despatched: '23/11/2026' may have day or month first; --dates says which",
    ("booked", "F-1,Lumen,WORKS,MOTR,1,2026-11-27"): ", Item: WORKS has no item 'MOTR' (MOTOR?)",
    ("booked", "88123,Lumen,WORKS,MOTOR,x,2026-11-27"): ", Quantity: 'x' is no whole number; write one as 1200",
    ("booked", "88123,Lumen,WORKS,MOTOR,-500,2026-11-27"): ", Quantity: by the last figure and what is booked -40 of Lumen WORKS MOTOR are received",
    ("cums", "FOUNDRY,WORKS,CASTING,-1"): ", Cum received: '-1' is not from 0 to 1000000000000000",
    ("cums", "Lumen,WORKS,MOTOR,460"): ", From: Lumen is no plant; its figure belongs in vendors.csv",
    ("vendors", "FOUNDRY,WORKS,CASTING,1040,0,"): ", Vendor: FOUNDRY is a plant; its figure belongs in cums.csv",
    ("vendors", "Lumen,WORKS,MOTOR,460,20,January"): ", Starts again: 'January' is no date; write it as 2026-12-01",
    ("shipments", "FOUNDRY,WORKS,CASTING,2026-12-01,25"): f", Item: advices say what is on its way of {CASTINGS}; delete the row",
    ("resets", "Lumen,WORKS,MOTOR,2027-01-01"): ", From: Lumen is no plant; vendors.csv says when its figure starts again",
    ("firm", ""): ": it has no row below the headings",
}


@pytest.mark.parametrize("sheet, row", BAD)
def test_slips(tmp_path, sheet, row):
    place = " row 2" * bool(row)
    told = f"{sheet}.csv{place}{BAD[sheet, row]}\nbin/advices: 1 slip; nothing is written\n"
    assert advices(tmp_path, **{sheet: rows(HEADS[sheet], *[row] * bool(row))}) == (1, told, {})


def test_slips_are_told_at_once(tmp_path):
    """In the order of sheets and rows; so are sheets that are missing, and rows that stand twice."""
    twice = {name: EXAMPLE[f"{name}.csv"] + EXAMPLE[f"{name}.csv"].splitlines(keepends=True)[1] for name in ("cums", "vendors")}
    status, said, _ = advices(tmp_path, advices=EXAMPLE["advices.csv"].replace("CASTING,30", "CASTING,x"), booked=None, **twice)
    assert (status, said.splitlines()) == (
        1,
        [
            f"cums.csv row 3, Item: {CASTINGS} stands in row 2 already",
            "vendors.csv row 3, Item: Lumen WORKS MOTOR stands in row 2 already",
            "advices.csv row 2, Quantity: 'x' is no whole number; write one as 1200",
            "booked.csv: it is missing",
            "bin/advices: 4 slips; nothing is written",
        ],
    )
    assert advices(tmp_path, items=None)[:2] == (1, "items.csv: it is missing\nbin/advices: 1 slip; nothing is written\n")
    told = "receipts.csv row 3, Advice: advices.csv has 88140; delete the row\nbin/advices: 1 slip; nothing is written\n"
    assert advices(tmp_path, receipts=WRITTEN["receipts.csv"]) == (1, told, {})


def test_words(tmp_path):
    write(tmp_path / "in", EXAMPLE)
    told = "bin/advices: --out and SHEETS are one folder: what is booked would be booked again\n"
    assert run(tmp_path, "bin/advices", "--out", "in/../in", "in") == (2, "", told)
    assert run(tmp_path, "bin/advices", "in")[0] == 2
    assert run(tmp_path, "bin/advices", "--out", "out", "none")[0] == 1
    assert not (tmp_path / "out").exists()


def test_headings_and_numbers_of_an_erp(tmp_path):
    """German ones with signs for thousands, points in dates and semicolons; what stands in receipts.csv stays."""
    sheets = {name: [";".join(it) for it in csv.reader(EXAMPLE[f"{name}.csv"].splitlines()[1:])] for name in ("advices", "booked")}
    advised = rows("Lieferschein-Nr.;Lieferant;Empfänger;Material;Liefermenge;Fortschrittszahl;Warenausgang;Ankunft", *sheets["advices"])
    booked = rows("Lieferschein;Lieferant;Kunde;Material;Wareneingangsmenge;Buchungsdatum", *sheets["booked"])
    receipts = rows("Werk;Material;Bestellung;Lieferant;Liefertermin;Menge;Text", "FOUNDRY;IRON;P-12;Weber, Hans;09.12.2026;1.300;eilt")
    german = {"advices": advised.replace(";1095;", ";1.095;"), "booked": booked.replace("2026-11-27", "27.11.2026"), "receipts": receipts}
    status, said, files = advices(tmp_path, "--numbers", "1.234,5", **german)
    assert (status, said) == (0, "")
    assert files["receipts.csv"].splitlines() == [
        "Werk,Material,Bestellung,Lieferant,Liefertermin,Menge,Text,Advice",
        'FOUNDRY,IRON,P-12,"Weber, Hans",09.12.2026,1.300,eilt,',
        "WORKS,MOTOR,,Lumen,2026-12-03,40,,88140",
    ]
    assert {**files, "receipts.csv": WRITTEN["receipts.csv"]} == WRITTEN


def test_no_heading_is_of_two_columns():
    headed = module_of("headed.py", "bin")
    for name, columns in (*headed.ADVICE_SHEETS.items(), ("firm.csv", headed.SHEETS["firm.csv"]), ("closed.csv", headed.SHEETS["closed.csv"])):
        every = [it for column in columns.items() for it in headed.keys(*column)]
        assert len(every) == len({*every}), name


def test_what_has_no_advice_stays(tmp_path):
    """Figures, shipments and a vendor's transit that are kept by hand; a booking that was taken back; a correction of 0 pieces."""
    changes = {
        "items": EXAMPLE["items.csv"] + "WORKS,LID,,from:FOUNDRY,lot,7,0,0\nFOUNDRY,LID,,buy,lot,7,0,0\nWORKS,BOLT,,buy,lot,7,0,0\n",
        "cums": rows(HEADS["cums"], "FOUNDRY,WORKS,LID,7", "FOUNDRY,WORKS,CASTING,1040"),
        "vendors": rows(HEADS["vendors"], "Kiel,WORKS,BOLT,90,10,2027-01-04", "Lumen,WORKS,MOTOR,460,20,2027-01-01"),
        "shipments": rows(HEADS["shipments"], "FOUNDRY,WORKS,LID,2026-12-02,3"),
        "booked": BOOKED + "F-84,FOUNDRY,WORKS,CASTING,25,2026-11-28\nF-84,FOUNDRY,WORKS,CASTING,-25,2026-11-28\n",
        "advices": EXAMPLE["advices.csv"] + "K-2,FOUNDRY,WORKS,CASTING,0,1095,2026-11-28,2026-11-28\n",
        "resets": rows(HEADS["resets"], "FOUNDRY,WORKS,LID,2027-01-05", "FOUNDRY,WORKS,CASTING,2027-01-04"),
    }
    status, said, files = advices(tmp_path, **changes)
    assert (status, said) == (0, "")
    assert files == {
        **WRITTEN,
        "cums.csv": "From,To,Item,Cum received,In transit\nFOUNDRY,WORKS,LID,7,\nFOUNDRY,WORKS,CASTING,1070,25\n",
        "vendors.csv": WRITTEN["vendors.csv"].replace("Lumen", "Kiel,WORKS,BOLT,90,10,2027-01-04\nLumen"),
        "shipments.csv": "From,To,Item,Arrives,Quantity,Advice\nFOUNDRY,WORKS,LID,2026-12-02,3,\nFOUNDRY,WORKS,CASTING,2026-12-01,25,F-84\n",
        "resets.csv": changes["resets"],
    }


def test_an_open_order_that_is_also_on_its_way_is_told(tmp_path):
    receipts = EXAMPLE["receipts.csv"] + "WORKS,MOTOR,P-13,2026-12-03,40\n"
    said = "receipts.csv row 3: WORKS MOTOR is also on its way by 88140; it comes twice if that is this order\n"
    status, told, files = advices(tmp_path, receipts=receipts)
    assert (status, told, files["receipts.csv"].count("WORKS,MOTOR")) == (0, said, 2)


# By hand: F-84 left with 1095 in the old year and F-2 with 20 in the new one, both are on their way; F-1 came. The figure that
# counts is of the new year, 8 received and 12 on their way. F-84 is a receipt, as are both motors under way, of which 44 count.
JANUARY = {
    "firm": "First day,Days,Periods\n2027-01-04,7,8\n",
    "advices": EXAMPLE["advices.csv"]
    + "F-1,FOUNDRY,WORKS,CASTING,8,8,2027-01-01,2027-01-04\nF-2,FOUNDRY,WORKS,CASTING,12,20,2027-01-05,2027-01-08\n"
    + "88200,Lumen,WORKS,MOTOR,44,44,2027-01-03,2027-01-09\n",
    "booked": BOOKED + "F-1,FOUNDRY,WORKS,CASTING,8,2027-01-04\n",
    "resets": "From,To,Item,Date\nFOUNDRY,WORKS,CASTING,2027-01-01\n",
}


def test_figures_start_again(tmp_path):
    status, said, files = advices(tmp_path, **JANUARY)
    assert (status, said.splitlines()) == (
        0,
        [
            f"{CASTINGS}: the figure started again on 2027-01-01, after 1070 received",
            "Lumen WORKS MOTOR: the figure started again on 2027-01-01, after 480 received",
        ],
    )
    assert files == {
        "shipments.csv": "From,To,Item,Arrives,Quantity,Advice\nFOUNDRY,WORKS,CASTING,2027-01-08,12,F-2\n",
        "receipts.csv": "Plant,Item,Order,Due,Quantity,Advice,Vendor\nFOUNDRY,IRON,P-12,2026-12-09,300,,\n"
        "WORKS,CASTING,,2026-12-01,25,F-84,FOUNDRY\nWORKS,MOTOR,,2027-01-09,44,88200,Lumen\nWORKS,MOTOR,,2026-12-03,40,88140,Lumen\n",
        "cums.csv": "From,To,Item,Cum received,In transit,Since\nFOUNDRY,WORKS,CASTING,8,12,2027-01-01\n",
        "vendors.csv": "Vendor,Plant,Item,Figure received,In transit,Starts again,Since\nLumen,WORKS,MOTOR,0,44,,2027-01-01\n",
        "resets.csv": "From,To,Item,Date\n",
    }
    # (carried on, with the resets as they were; F-84 is booked at last and counts in no figure)
    booked = rows(BOOK, "F-84,FOUNDRY,WORKS,CASTING,25,2027-01-05", "F-2,FOUNDRY,WORKS,CASTING,12,2027-01-08")
    left = "".join(it for it in JANUARY["advices"].splitlines(keepends=True) if not it.startswith(("F-81", "F-1,", "88123")))
    carried = {**JANUARY, "advices": left, "booked": booked, "cums": files["cums.csv"], "vendors": files["vendors.csv"]}
    status, said, files = advices(tmp_path, **carried)
    assert (status, said) == (0, "")
    assert files["cums.csv"] == "From,To,Item,Cum received,In transit,Since\nFOUNDRY,WORKS,CASTING,20,0,2027-01-01\n"
    assert (files["shipments.csv"].count("\n"), files["receipts.csv"].count("CASTING"), files["resets.csv"]) == (1, 0, "From,To,Item,Date\n")


def test_the_year_that_is_closed_is_looked_at_too(tmp_path):
    """Once: with the last figure of it. The new year may be right by then."""
    changes = {**JANUARY, "booked": JANUARY["booked"].replace("CASTING,30", "CASTING,29")}
    status, said, _ = advices(tmp_path, **changes)
    told = f"advices.csv row 3: {CASTINGS}: 1095 shipped by F-84, but 1069 received and 25 on the way are 1094, 1 too few"
    assert (status, said.splitlines()[:2]) == (1, [told, "  booked.csv row 2: 29 are booked of the 30 of F-81"])


def test_a_reset_is_over_by_an_advice(tmp_path):
    """Of the day or later, in the week that holds it; without one the row stays, and the old figure counts."""
    week = {**JANUARY, "firm": "First day,Days,Periods\n2026-12-28,7,8\n"}
    assert advices(tmp_path, **week)[2] == advices(tmp_path, **JANUARY)[2]
    old = {**week, "advices": EXAMPLE["advices.csv"], "booked": BOOKED}
    assert advices(tmp_path, **old) == (0, "", {**WRITTEN, "resets.csv": JANUARY["resets"]})


class Winter:
    """Suppliers that ship, and goods-in that books, from a seed: what is true of each item, week by week, through a January."""

    ITEMS = [("A", "P", "X"), ("A", "P", "Y"), ("V", "P", "Z")]
    RESET = datetime.date(2027, 1, 6)

    def __init__(self, chance):
        self.chance, self.sent, self.shipped = chance, [], defaultdict(int)

    def week(self, monday):
        """Ships in a week what is booked some days later, or a month."""
        for day in (monday + datetime.timedelta(days=it) for it in range(7)):
            for lane in self.ITEMS:
                if day == self.RESET:
                    self.shipped[lane] = 0
                if self.chance.random() < 0.3:
                    quantity = self.chance.randrange(1, 50)
                    self.shipped[lane] += quantity
                    booked = day + datetime.timedelta(days=self.chance.choice((1, 2, 5, 9, 30)))
                    self.sent.append((f"N{len(self.sent):03}", lane, quantity, self.shipped[lane], day, booked))

    def sheets(self, monday, since):
        """Returns the advices that weren't booked before a day, and the bookings since then, as they are on a Monday."""
        here = [it for it in self.sent if it[4] < monday and (since is None or it[5] >= since)]
        self.chance.shuffle(here)
        lines = [(number, *lane, quantity, figure, day, booked) for number, lane, quantity, figure, day, booked in here]
        booked = [(number, *lane, quantity, booked) for number, lane, quantity, _, _, booked in here if booked < monday]
        return [rows(head, *(",".join(map(str, it)) for it in found)) for head, found in ((HEAD, lines), (BOOK, booked))]

    def truth(self, monday):
        """Returns of each item the figure received, and what is on the way within it and from before it."""
        found = {}
        for lane in self.ITEMS:
            mine = [it for it in self.sent if it[1] == lane and it[4] < monday]
            over = monday > self.RESET or any(it[4] >= self.RESET for it in mine)
            now = [it for it in mine if not over or it[4] >= self.RESET]
            ways = [[it for it in part if it[5] >= monday] for part in (now, [it for it in mine if it not in now])]
            found[lane] = sum(it[2] for it in now if it[5] < monday), *ways
        return found


SEEDED = {
    "items.csv": "Plant,Item,Supply\nP,X,from:A\nP,Y,from:A\nA,X,make\nA,Y,make\nP,Z,buy\n",
    "resets.csv": "From,To,Item,Date\nA,P,X,2027-01-06\nA,P,Y,2027-01-06\n",
    "vendors.csv": "Vendor,Plant,Item,Figure received,Starts again\nV,P,Z,0,2027-01-06\n",
}


def said_of(files):
    """Returns what is written of each item: the figure received, the numbers of shipments and of receipts, and what is in transit."""
    tables = {name: [*csv.DictReader(text.splitlines())] for name, text in files.items()}
    found = {("A", "P", it["Item"]): (int(it["Cum received"]), None) for it in tables["cums.csv"]}
    found |= {("V", "P", it["Item"]): (int(it["Figure received"]), int(it["In transit"])) for it in tables["vendors.csv"]}
    said = {}
    for lane, (figure, transit) in found.items():
        numbers = (sorted(it["Advice"] for it in tables[name] if it["Item"] == lane[2]) for name in ("shipments.csv", "receipts.csv"))
        said[lane] = figure, *numbers, transit
    return said


def in_process(folder, monkeypatch, capsys, found):
    """Runs bin/advices in this process, and returns what it writes, or nothing where it refuses."""
    write(folder / "in", found)
    shutil.rmtree(folder / "out", ignore_errors=True)
    monkeypatch.setattr("sys.argv", ["bin/advices", "--out", f"{folder}/out", f"{folder}/in"])
    tool = module_of("advices", "bin")
    try:
        tool.main()
    except tool.reports.Refused:
        assert not (folder / "out").exists()
        return None
    finally:
        capsys.readouterr()
    return {it.name: it.read_text() for it in folder.glob("out/*")}


@pytest.mark.parametrize("is_carried", [True, False])
def test_a_winter_of_mondays(tmp_path, monkeypatch, capsys, is_carried):
    """With figures that are carried on, and with those of the first day and all advices since: each week they are the true ones."""
    for seed in range(8):
        winter, monday, last, kept = Winter(random.Random(seed)), datetime.date(2026, 11, 30), None, SEEDED
        for _ in range(11):
            winter.week(monday)
            monday += datetime.timedelta(days=7)
            advised, booked = winter.sheets(monday, last if is_carried else None)
            found = {**kept, "firm.csv": f"First day,Days,Periods\n{monday},7,8\n", "advices.csv": advised, "booked.csv": booked}
            files = in_process(tmp_path, monkeypatch, capsys, found)
            assert files, (seed, monday)
            said = said_of(files)
            for lane, (figure, now, before) in winter.truth(monday).items():
                is_vendor = lane[0] == "V"
                ships, receipts = ([], now + before) if is_vendor else (now, before)
                wanted = figure, *(sorted(it[0] for it in part) for part in (ships, receipts)), sum(it[2] for it in now) if is_vendor else None
                assert said.get(lane, (0, [], [], None)) == wanted, (seed, monday, lane)
            if is_carried:
                last, kept = monday, {**SEEDED, "cums.csv": files["cums.csv"], "vendors.csv": files["vendors.csv"]}


def test_a_lost_or_doubled_advice_is_not_let_through(tmp_path, monkeypatch, capsys):
    """Of those on the way, but for the newest of an item: without it figures are as if it hadn't left. Damaged sheets are refused or read."""
    tried = 0
    for seed in range(40):
        winter, monday = Winter(chance := random.Random(seed)), datetime.date(2026, 12, 14)
        for days in (14, 7):
            winter.week(monday - datetime.timedelta(days=days))
        advised, booked = winter.sheets(monday, None)
        found = {**SEEDED, "firm.csv": f"First day,Days,Periods\n{monday},7,8\n", "booked.csv": booked, "advices.csv": advised}
        assert in_process(tmp_path, monkeypatch, capsys, found)
        newest = {it[1]: it[0] for it in winter.sent}
        way, lines = [it[0] for it in winter.sent if it[5] >= monday and it[0] not in newest.values()], advised.splitlines()
        for line in [it for it in lines if it.split(",")[0] in way][:1]:
            tried += 1
            for others in ([it for it in lines if it != line], [*lines, line]):
                assert in_process(tmp_path, monkeypatch, capsys, {**found, "advices.csv": rows(*others)}) is None
        name = chance.choice(("advices.csv", "booked.csv"))
        damaged = firms.damaged(chance, found[name].encode()).decode("utf-8", "ignore")
        in_process(tmp_path, monkeypatch, capsys, {**found, name: damaged})
    assert tried > 10


def test_what_is_booked_since_stays(tmp_path):
    """By hand: of three orders in the folder one is in the sheet, and one without a number; what is on its way may be written again."""
    status, _, _ = advices(tmp_path)
    again = "bin/advices", "--out", "out", "in"
    assert (status, run(tmp_path, *again)) == (0, (0, "", ""))
    receipts = tmp_path / "out/receipts.csv"
    more = "FOUNDRY,IRON,P-13,2026-12-16,200,,\nFOUNDRY,SAND,,2026-12-16,5,,\n"
    receipts.write_text(WRITTEN["receipts.csv"] + more)
    (tmp_path / "out/cums.csv").write_text("")
    said = "bin/advices: out/receipts.csv has 2 orders that would be gone, as P-13; nothing is written. "
    assert run(tmp_path, *again) == (1, "", said + "Copy them into the sheet that is read, or give --again\n")
    assert (receipts.read_text(), (tmp_path / "out/cums.csv").read_text()) == (WRITTEN["receipts.csv"] + more, "")
    # (another day, and a column more, are the same order; a sheet with semicolons is read too)
    heads, *rows = WRITTEN["receipts.csv"].replace("2026-12-09", "2026-12-14").splitlines()
    receipts.write_text("\n".join([f"{heads},Comes", *(f"{it}," for it in rows), ""]).replace(",", ";"))
    assert run(tmp_path, *again) == (0, "", "")
    receipts.write_text(WRITTEN["receipts.csv"] + more)
    assert run(tmp_path, *again, "--again") == (0, "", "")
    assert {it.name: it.read_text() for it in tmp_path.glob("out/*")} == WRITTEN
