"""bin/releases: the material release of each supplier, how it goes on from the last one, and what is refused."""
import csv
import os
import re

import pytest
from support import TOP

FIRST = """\
run,2026-12-21,7,5,,,,
plant,WORKS,,,,,,
pair,WORKS,MOTOR,buy,lot,1,10,0
pair,WORKS,SEAL,buy,lot,1,5,0
demand,WORKS,MOTOR,0,30,,,
demand,WORKS,MOTOR,2,50,,,
demand,WORKS,MOTOR,3,20,,,
demand,WORKS,MOTOR,4,10,,,
receipt,WORKS,MOTOR,1,40,,,
firm,WORKS,MOTOR,0,2,15,,
vendor,Lumen,WORKS,MOTOR,480,40,2,
vendor,Lumen,WORKS,SEAL,7,0,,
"""
# Three weeks later. Of the 35 that were called for now 30 had left before figures started again (L-3), and 12 have left since (L-4).
NEXT = """\
run,2027-01-11,7,5,,,,
plant,WORKS,,,,,,
pair,WORKS,MOTOR,buy,lot,1,0,0
pair,WORKS,SEAL,buy,lot,1,5,0
demand,WORKS,MOTOR,0,12,,,
demand,WORKS,MOTOR,1,10,,,
receipt,WORKS,MOTOR,0,12,,,
vendor,Lumen,WORKS,MOTOR,0,12,,
vendor,Lumen,WORKS,SEAL,7,0,,
"""
FIRM = "First day,Days,Periods,Firm (weeks),Fab (weeks),Raw (weeks)\n{},7,5,1,3,4\n"
SHEETS = {
    "firm.csv": FIRM.format("2026-12-21"),
    "vendors.csv": "Vendor,Plant,Item,Figure received,In transit,Starts again,Started,Closed\n"
    "Lumen,WORKS,MOTOR,480,40,2027-01-04,2026-01-05,1900\nLumen,WORKS,SEAL,7,,,,\n",
    "booked.csv": "Advice,From,To,Item,Quantity,Date\nL-1,Lumen,WORKS,MOTOR,20,2026-12-15\n",
}
LATER = {
    "firm.csv": FIRM.format("2027-01-11"),
    "vendors.csv": "Vendor,Plant,Item,Figure received,In transit,Starts again,Since\nLumen,WORKS,MOTOR,0,12,,2027-01-04\nLumen,WORKS,SEAL,7,,,\n",
    "advices.csv": "Advice,From,To,Item,Quantity,Cumulative,Despatched,Arrives\n"
    "L-2,Lumen,WORKS,MOTOR,40,520,2026-12-17,2026-12-28\nL-3,Lumen,WORKS,MOTOR,30,550,2026-12-22,2027-01-04\n"
    "L-4,Lumen,WORKS,MOTOR,12,12,2027-01-06,2027-01-12\n",
    "booked.csv": "Advice,From,To,Item,Quantity,Date\nL-2,Lumen,WORKS,MOTOR,40,2026-12-28\nL-3,Lumen,WORKS,MOTOR,30,2027-01-05\n",
}
HEADS = "Release,Date,Supplier,Customer,Item,Supplier item,Description,Last advice,Advice quantity,Advice date,Received,In transit,Started,Closed,\
Closed in transit,Starts again,Backlog,Firm figure,Fab figure,Raw figure,Whole until,Despatch,Delivery,Quantity,Cumulative,Counts since,With closed years,Late,\
Authorisation\n"
# By hand. 10 less 30: 20 are wanted now and come in a week. With the 40 and the 15 that are firm there are 55 for the 50, so 15 are wanted
# for the 20 in period 3, and 10 in period 4. So 35 leave now, 15 in period 2, where figures start again at 555, and 10 in period 3.
# Orders of period 3 are the last ones that nothing behind the plan changes.
MOTOR = "1,2026-12-21,Lumen,WORKS,MOTOR,,,L-1,20,2026-12-15,480,40,2026-01-05,1900,0,2027-01-04,0,2455,2470,2480,2027-01-17,"
SEAL = "Lumen,WORKS,SEAL,,,,,,7,0,,0,0,,0,7,7,7,"
WRITTEN = HEADS + "".join(
    (
        f"{MOTOR}2026-12-21,2026-12-28,20,540,2026-01-05,2440,20,firm\n",
        f"{MOTOR}2026-12-21,2027-01-04,15,555,2026-01-05,2455,0,firm\n",
        f"{MOTOR}2027-01-04,2027-01-11,15,15,2027-01-04,2470,0,fab\n",
        f"{MOTOR}2027-01-11,2027-01-18,10,25,2027-01-04,2480,0,raw\n",
        f"1,2026-12-21,{SEAL}2027-01-17,,,,,,,,\n",
    )
)
# The year ended with 480 + 40 + 30 = 550, so 2450 are closed, and 2462 are shipped: 8 fewer than were called for by 4 January. The 10 are
# 2472 then. Material may be bought for 2480, as it was.
WRITTEN_LATER = HEADS + "".join(
    (
        "2,2027-01-11,Lumen,WORKS,MOTOR,,,L-3,30,2027-01-05,0,12,2027-01-04,2450,0,,8,2472,2472,2480,2027-02-07,"
        "2027-01-11,2027-01-18,10,22,2027-01-04,2472,0,firm\n",
        f"2,2027-01-11,{SEAL}2027-02-07,,,,,,,,\n",
    )
)


def write(room, folder, found):
    """Writes sheets into a folder, and no others."""
    room.run(f"rm -rf {folder} && mkdir {folder}")
    for name, text in found.items():
        if text is not None:
            room.write(f"{folder}/{name}", text)


def releases(room, words, table=FIRST, status=0, **changes):
    """Runs bin/releases on a table and sheets, of which some are others. Returns what it says, and the files of out, if there are some."""
    if not os.path.exists(f"{room.folder}/words/judged"):
        room.stand_in("words/judged", "judged", top=TOP)
    write(room, "sheets", {**(SHEETS if table.startswith(FIRST[:14]) else LATER), **{f"{name}.csv": text for name, text in changes.items()}})
    room.write("table.csv", table)
    said = room.run(f"MRP=words/judged bin/releases --sheets sheets {words} 2>&1 < table.csv", status)
    if status == 0 and "--last" not in words:
        first, said = said.split("\n", 1)
        assert re.fullmatch("no --last: release [1-9][0-9]* is the first of each supplier", first)
    return said, {it: room.run(f"cat out/{it}") for it in room.run("ls out 2> /dev/null || true").split()}


def rows(room, words="--out out", table=FIRST, **changes):
    """Returns the rows of the release of Lumen by their columns."""
    said, found = releases(room, words, table, **changes)
    assert said == ""
    return [*csv.DictReader(found["Lumen.csv"].splitlines())]


def test_two_releases(room):
    """By hand, with figures that start again between them."""
    assert releases(room, "--out out") == ("", {"Lumen.csv": WRITTEN})
    room.run("mv out first")
    for _ in "12":
        assert releases(room, "--last first --out out", NEXT) == ("", {"Lumen.csv": WRITTEN_LATER})


def test_out_has_these_or_nothing(room):
    releases(room, "--out out")
    refused = "bin/releases: out isn't empty, and hasn't these releases; nothing is written\n"
    assert releases(room, "--out out", FIRST.replace("MOTOR,3,20", "MOTOR,3,21"), 1)[0] == refused
    room.run("touch out/Lumen2.csv")
    assert releases(room, "--out out", status=1) == (refused, {"Lumen.csv": WRITTEN, "Lumen2.csv": ""})
    room.run("rm -r out && mkdir out && touch out/Lumen.csv")
    assert releases(room, "--out out", status=1) == (refused, {"Lumen.csv": ""})
    room.run("rm -r out && mkdir out")
    assert releases(room, "--out out") == ("", {"Lumen.csv": WRITTEN})


def test_names_of_sheets(room):
    """Those of the firm, in the release and in the sheets; its file has the name of the table."""
    names = "row,plant,item,period,date,quantity,name,description,note\nplant,Lumen,,,,,Lumen & Co,,\nplant,WORKS,,,,,Werk 1,,\n"
    room.write("names.csv", names + 'pair,WORKS,MOTOR,,,,"Motor, 2.5",With brake,Vendor part LM-1\n')
    vendors = SHEETS["vendors.csv"].replace("Lumen,WORKS,MOTOR", 'Lumen & Co,Werk 1,"Motor, 2.5"').replace("Lumen,WORKS", "Lumen & Co,Werk 1")
    booked = 'Advice,From,To,Item,Quantity,Date\nL-1,Lumen & Co,Werk 1,"Motor, 2.5",20,2026-12-15\n'
    said, found = releases(room, "--names names.csv --out out", vendors=vendors, booked=booked)
    motor = MOTOR.replace("Lumen,WORKS,MOTOR,,", 'Lumen & Co,Werk 1,"Motor, 2.5",LM-1,With brake')
    assert said == ""
    assert found == {"Lumen.csv": WRITTEN.replace(MOTOR, motor).replace("Lumen,WORKS", "Lumen & Co,Werk 1")}
    said, _ = releases(room, "--out other", vendors=vendors, booked=booked)
    assert said.splitlines() == [
        f"Lumen & Co Werk 1 {it}: the sheets have its figure, and no schedule is made of it; --names has the names of the sheets"
        for it in ("Motor, 2.5", "SEAL")
    ]


def test_firm_orders_that_come_late(room):
    """By the sheets, as bin/book keeps them: the 15 that are due in period 2 come in period 3."""
    names = "row,plant,item,period,date,quantity,name,description,note,comes\nfirm,WORKS,MOTOR,2,2027-01-04,15,,,,2027-01-13\n"
    room.write("names.csv", names)
    firm = "2026-12-21,2027-01-04,15,555,2026-01-05,2455,0,firm\n"
    late = "2026-12-21,2027-01-11,15,555,2026-01-05,2455,15,firm\n"
    assert firm in WRITTEN
    assert releases(room, "--names names.csv --out out") == ("", {"Lumen.csv": WRITTEN.replace(firm, late)})


def test_horizons(room):
    """Of the firm, or of a vendor's item; in periods, weeks and days; one that there isn't is the one before."""
    for firm, vendor, found in (
        ("Firm (periods),Fab (days),Raw (weeks)\n2026-12-21,7,5,1,15,4", ",,", "firm firm fab raw"),
        ("Firm (periods),Fab (days),Raw (weeks)\n2026-12-21,7,5,1,14,4", ",,", "firm firm raw raw"),
        ("Firm (periods),Fab (days),Raw (weeks)\n2026-12-21,7,5,1,15,4", ",4,", "firm firm fab fab"),
        ("Firm (periods),Fab (days),Raw (weeks)\n2026-12-21,7,5,1,15,4", "0,0,0", "forecast forecast forecast forecast"),
        ("Fab (weeks)\n2026-12-21,7,5,3", ",,", "fab fab fab forecast"),
        ("Firm horizon (weeks),Raw\n2026-12-21,7,5,3,", "", "firm firm firm forecast"),
    ):
        heads, *items = SHEETS["vendors.csv"].splitlines()
        text = "\n".join([f"{heads},Firm (weeks),Fab (weeks),Raw (weeks)", f"{items[0]},{vendor}", f"{items[1]},,,", ""])
        got = rows(room, firm=f"First day,Days,Periods,{firm}\n", vendors=text)
        assert " ".join(it["Authorisation"] for it in got[:-1]) == found
        room.run("rm -r out")
    said, _ = releases(room, "--out out", firm="First day,Days,Periods\n2026-12-21,7,5\n")
    assert said == "firm.csv has no Firm, Fab or Raw, as Firm (weeks): all calls are forecasts\n"


def test_several_sources(room):
    """Each has its share of a call and of what is late, a lead time later; behind the plan there is no day."""
    table = """\
run,2026-12-21,7,3,,,,
plant,A,,,,,,
plant,B,,,,,,
plant,W,,,,,,
pair,A,X,buy,lot,1,100,0
pair,B,X,buy,lot,1,100,0
pair,W,X,from:A:600:B:400,lot,3,0,0
demand,W,X,0,10,,,
demand,W,X,2,5,,,
cum,A,W,X,70,,,
"""
    said, found = releases(room, "--out out", table, vendors="Vendor,Plant,Item,Figure received\n", cums="From,To,Item,Cum received,Started,Closed\n"
                           "A,W,X,70,2026-01-01,500\n", booked=None)
    assert (said, [*found]) == ("", ["A.csv", "B.csv"])
    # (all 15 are late, and leave now)
    columns = "Supplier", "Received", "Started", "Closed", "Despatch", "Delivery", "Quantity", "Cumulative", "With closed years", "Late"
    got = [[it[column] for column in columns] for text in found.values() for it in csv.DictReader(text.splitlines())]
    assert got == [
        ["A", "70", "2026-01-01", "500", "2026-12-21", "", "9", "79", "579", "9"],
        ["B", "0", "", "0", "2026-12-21", "", "6", "6", "6", "6"],
    ]


def test_how_releases_go_on(room):
    """The number, the last advice and the go-aheads are those of the last release, where nothing is above them."""
    releases(room, "--number 41 --out out")
    room.run("mv out first")
    got = rows(room, "--last first --out out", NEXT, booked=None)[0]
    # (without what is booked nothing says that it came: it is on its way)
    assert [got[it] for it in ("Release", "Last advice", "Advice quantity", "Closed")] == ["42", "L-1", "20", "2450"]
    room.run("rm -r out")
    # (by neither 520 had left)
    got = rows(room, "--last first --out out", NEXT, booked=None, advices=None)[0]
    assert [got[it] for it in ("Closed", "Backlog", "With closed years")] == ["2420", "38", "2442"]
    room.run("rm -r out")
    # (as the last release said when they would)
    vendors = LATER["vendors.csv"].replace("2027-01-04", "")
    assert rows(room, "--last first --out out", NEXT, vendors=vendors)[0]["Closed"] == "2450"


# A week later: L-4 is booked, and L-5 is heard of, which left with 5 before figures started again.
AFTER = NEXT.replace("2027-01-11", "2027-01-18").replace("receipt,WORKS,MOTOR,0,12,,,\n", "").replace("Lumen,WORKS,MOTOR,0,12", "Lumen,WORKS,MOTOR,12,0")
AFTER_SHEETS = {
    "firm": FIRM.format("2027-01-18"),
    "vendors": LATER["vendors.csv"].replace("MOTOR,0,12", "MOTOR,12,0"),
    "booked": "Advice,From,To,Item,Quantity,Date\nL-4,Lumen,WORKS,MOTOR,12,2027-01-12\n",
}
HEARD, TOLD = "L-5,Lumen,WORKS,MOTOR,5,555,2026-12-30,2027-01-20\n", "L-4,Lumen,WORKS,MOTOR,12,12,2027-01-06,2027-01-12\n"


def closed(room, words, table, **changes):
    """Returns what is closed by the release of motors, of that on its way, and the backlog; and has it be the last one."""
    got = rows(room, f"{words} --out out", table, **changes)[0]
    room.run("rm -rf last && mv out last")
    return [int(got[it]) for it in ("Closed", "Closed in transit", "Backlog")]


def test_advices_of_a_closed_year_that_are_heard_of_later(room):
    """Their pieces are closed too, once; and so is what was booked of them. By hand: 2472 were called for by then, and 12 have left since."""
    closed(room, "", FIRST)
    assert closed(room, "--last last", NEXT) == [2450, 0, 8]
    head = LATER["advices.csv"].partition("\n")[0] + "\n"
    assert closed(room, "--last last", AFTER, **AFTER_SHEETS, advices=head + HEARD + TOLD + HEARD) == [2455, 5, 5]
    table, week = AFTER.replace("2027-01-18", "2027-01-25"), {**AFTER_SHEETS, "firm": FIRM.format("2027-01-25")}
    room.run("cp -r last third")
    for pieces, found in ((5, 2455), (4, 2454), (6, 2456)):
        booked = f"Advice,From,To,Item,Quantity,Date\nL-5,Lumen,WORKS,MOTOR,{pieces},2027-01-20\n"
        assert closed(room, "--last third", table, **{**week, "booked": booked}, advices=head + HEARD)[:2] == [found, 0]


def test_what_is_on_its_way_when_a_year_is_closed(room):
    """It is closed once, be it booked later or not."""
    closed(room, "", FIRST)
    booked = LATER["booked.csv"].rpartition("L-3")[0]
    assert closed(room, "--last last", NEXT, booked=booked) == [2450, 30, 8]
    room.run("cp -r last second")
    advices = LATER["advices.csv"].replace("L-2,Lumen,WORKS,MOTOR,40,520,2026-12-17,2026-12-28\n", "")
    assert closed(room, "--last second", AFTER, **AFTER_SHEETS, advices=advices)[:2] == [2450, 30]
    booked = AFTER_SHEETS["booked"] + "L-3,Lumen,WORKS,MOTOR,30,2027-01-12\n"
    assert closed(room, "--last second", AFTER, **{**AFTER_SHEETS, "booked": booked}, advices=advices)[:2] == [2450, 0]


def test_what_is_shipped_ahead_is_told(room):
    """2470 were called for by then, and 2450 and 30 have left."""
    releases(room, "--out out")
    room.run("mv out first")
    advices = LATER["advices.csv"].replace("L-4,Lumen,WORKS,MOTOR,12,12", "L-4,Lumen,WORKS,MOTOR,30,30")
    said, found = releases(room, "--last first --out out", NEXT.replace("12,,", "30,,"), advices=advices)
    assert said == "Lumen WORKS MOTOR: 10 more are shipped than was called for before 2027-01-11\n"
    assert ",2450,0,,0," in found["Lumen.csv"]


def test_what_may_not_be_meant(room):
    """Figures that fall, and what is in no release any more."""
    releases(room, "--out out", FIRST.replace("480,40,2,", "480,40,,"))
    room.run("mv out first")
    said, _ = releases(room, "--last first --out out", NEXT, vendors=LATER["vendors.csv"].replace("2027-01-04", ""))
    assert said == (
        "Lumen WORKS MOTOR: 1912 are shipped with closed years, and by the last release 2420 were; where figures have started again the sheets "
        "want that day in a column Since\n"
    )
    room.run("rm -r out && cp first/Lumen.csv first/Dicht.csv && sed -i s/Lumen/Dicht/ first/Dicht.csv")
    table, vendors = (it.replace("vendor,Lumen,WORKS,SEAL,7,0,,\n", "").replace("Lumen,WORKS,SEAL,7,,,\n", "") for it in (NEXT, LATER["vendors.csv"]))
    said, found = releases(room, "--last first --out out", table, vendors=vendors)
    assert said == (
        "Dicht: nothing is taken from there any more; its last release was number 1 of 2026-12-21\n"
        "Lumen WORKS SEAL: it isn't taken from there any more, as in the last release\n"
    )
    assert [*found] == ["Lumen.csv"]


SLIP = "bin/releases: 1 slip; nothing is written\n"
LAST = "first/Lumen.csv is no release of bin/releases\n"


@pytest.mark.parametrize(
    "changes, told",
    [
        ({"firm": None}, f"firm.csv: it is missing\n{SLIP}"),
        ({"firm": FIRM.replace("1,3", "1,x")}, f"firm.csv row 2, Fab (weeks): 'x' is no whole number; write one as 1200\n{SLIP}"),
        (
            {"firm": FIRM.replace("Fab (weeks)", "Fab")},
            f"firm.csv row 1, Fab: in which unit? Head it Fab (periods), Fab (weeks) or Fab (days)\n{SLIP}",
        ),
        (
            {"firm": FIRM.replace("Fab (weeks)", "Fab (AT)")},
            f"firm.csv row 1, Fab (AT): in which unit? Head it Fab (periods), Fab (weeks) or Fab (days)\n{SLIP}",
        ),
        ({"firm": FIRM.replace("1,3", "4,3")}, "firm.csv: Firm, Fab and Raw end 28, 21, 28 days from now, and none may end before the one before"),
        ({"vendors": SHEETS["vendors.csv"].replace("2026-01-05", "5/1/26")}, "vendors.csv row 2, Started: '5/1/26' is no date; write it as 2026-12-01"),
        ({"vendors": SHEETS["vendors.csv"].replace("1900", "-1")}, "vendors.csv row 2, Closed: '-1' is not from 0 to 1000000000000000"),
        ({"booked": SHEETS["booked.csv"].replace("2026-12-15", "")}, "booked.csv row 2, Date: nothing stands here"),
        ({"booked": "Advice,From\n"}, "booked.csv row 1: it has no column To"),
    ],
)
def test_slips(room, changes, told):
    changes = {name: text and text.replace("{}", "2026-12-21") for name, text in changes.items()}
    said, found = releases(room, "--out out", status=1, **changes)
    assert said.startswith(told)
    assert said.endswith("nothing is written\n")
    assert found == {}


def test_closed_years_that_lack_one(room):
    """Where figures have started again behind Started, the first release can't know what was closed then."""
    vendors = LATER["vendors.csv"].replace("Since\n", "Since,Started,Closed\n").replace("2027-01-04\n", "2027-01-04,2026-01-05,1900\n")
    said, found = releases(room, "--out out", NEXT, status=1, **{name[:-4]: text for name, text in LATER.items()} | {"vendors": vendors})
    assert said == (
        "bin/releases: Lumen WORKS MOTOR: figures have started again on 2027-01-04, behind Started; write that day there, and in Closed all that"
        " was closed by then\n"
    )
    assert found == {}


@pytest.mark.parametrize(
    "edit, told",
    [
        ("sed -i s/Release,/Number,/", LAST),
        ("sed -i '2s/^1,/2,/'", LAST),
        ("sed -i '3s/,WORKS//'", LAST),
        ("sed -i 's/,1900,/,x,/'", LAST),
        ("sed -i '2,$d'", LAST),
        ("truncate -s 0", LAST),
        ("sed -i 's/,2026-12-21,L/,2027-01-11,L/'", "first/Lumen.csv is of 2027-01-11, and the plan begins on 2027-01-11: --last wants earlier releases\n"),
        ("rm", "first has no releases; without --last they are the first ones\n"),
        ("rm -r first #", "[Errno 2] No such file or directory: 'first'\n"),
    ],
)
def test_last_releases_that_are_none(room, edit, told):
    releases(room, "--out out")
    room.run(f"mv out first && {edit} first/Lumen.csv")
    assert releases(room, "--last first --out out", NEXT, 1) == (f"bin/releases: {told}", {})


def test_refused_tables(room):
    assert releases(room, "--out out", "run\n", 1) == ("mrp: row 1: FieldCount\n", {})
    table = "".join(f"{it}\n" for it in NEXT.splitlines() if not it.startswith("vendor"))
    said, _ = releases(room, "--out out", table, 1, vendors=None)
    assert said == "bin/releases: nothing is taken from another plant or by a vendor row: there is no release\n"
