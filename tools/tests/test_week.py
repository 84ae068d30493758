"""A week with mrp, docs/week.md: its commands one after another, twice, and the firm of examples/conveyors in the table."""
import csv
import glob
import os
import re
from collections import Counter

import mrp
import pytest
from support import listed, Tags, TOP

FORM = "--numbers 1.234,5 --today 2026-11-30"


@pytest.fixture
def desk(room):
    """A room. Without a program tools/oracle.py plans."""
    if not room.program:
        room.stand_in("words/planner", "planner", top=TOP)
        room.variables["MRP"] = room.mrp = f"{room.folder}/words/planner"
    return room


def steps():
    """Returns the commands of the page and what they print."""
    with open(f"{TOP}/docs/week.md", encoding="utf-8") as file:
        return re.findall(r"^```sh\n(.*?)^```\n(?:\n?```\n(.*?)^```$)?", file.read(), re.MULTILINE | re.DOTALL)


def first_monday(room):
    """Makes the table of the first Monday, before any booking."""
    room.run(steps()[0][0] + f"bin/sheets {FORM} --names names.csv --out table.csv kw49/sheets 2> said")


def rows(room, word):
    """Returns the rows of a kind in the table, without their empty fields."""
    return [it.rstrip(",") for it in room.run("cat table.csv").splitlines() if it.startswith(f"{word},")]


def files(room):
    """Returns the files of both weeks, but for what is told, which knows the day of today."""
    found = {}
    for path in glob.glob(f"{room.folder}/kw??/**", recursive=True):
        if os.path.isfile(path) and os.path.basename(path) != "said":
            with open(path, "rb") as file:
                found[os.path.relpath(path, room.folder)] = file.read()
    return found


def release(room, week, supplier):
    """Returns the rows of a release, by their item."""
    found = {}
    with open(f"{room.folder}/{week}/releases/{supplier}.csv", encoding="utf-8") as file:
        for it in csv.DictReader(file):
            found.setdefault((it["Customer"], it["Item"]), []).append(it)
    return found


def test_two_mondays_from_export_to_releases(desk):
    for command, printed in steps():
        assert desk.run(command) == printed
    assert len(steps()) == 6
    # (overdue: of demands 3 and 3, a backlog on the first Monday, of receipts 2 and 14, of firm orders none and 3)
    for week, overdue in (("kw49", 3 + 1 + 2), ("kw50", 3 + 14 + 3)):
        text = desk.run(f"cat {week}/page.html")
        Tags(text)
        assert len(listed(text, "overdue")) == overdue
        assert {it[0] for it in listed(text, "sending")} == {"1000", "2000", "L-KLG", "L-SEM"}
    # (one order more of each of two customers, and one that has grown; those that were due and are gone have left)
    changed = re.search('<section id="changed">(.*?)</section>', text, re.DOTALL)[1]
    assert {*re.findall(r"\b5\d{4}\b", changed)} == {"50740", "51880", "51890"}
    found = files(desk)
    desk.run("rm -r kw49 kw50")
    for command, _ in steps():
        desk.run(command)
    assert files(desk) == found


def test_the_second_monday_goes_on_from_the_first(desk):
    """By hand, from the sheets: figures, what is on its way and booked, numbers of orders and releases, backlog and go-aheads."""
    for command, _ in steps():
        desk.run(command)
    # (of the 20 gearboxes of the last week's advice 6 are booked, 8 left since; L-KLG's lost advice of 100 stands before that of 100)
    assert desk.run("cat kw50/sheets/cums.csv").splitlines()[1:6] == [
        "L-KLG,2000,LAGER 6204,11300,1100,01.01.2026",
        "L-KLG,2000,LAGER 6205,6400,200,01.01.2026",
        "L-KLG,1000,WELLE-25,720,16,01.01.2026",
        "2000,1000,GETRIEBE-20,616,8,",
        "2000,3000,ROLLE-89,330,0,",
    ]
    assert desk.run("cat kw50/sheets/vendors.csv").splitlines()[1:] == [
        'L-SEM,1000,"MOTOR-0,75",1480,0,2027-01-01,01.01.2026',
        'L-SEM,1000,"MOTOR-1,5",980,20,2027-01-01,01.01.2026',
    ]
    # (what is booked isn't planned again: of what is bought now L-SEM's motors are left, which its release calls for)
    for week in ("kw49", "kw50"):
        bought = [it for it in desk.run(f"cat {week}/orders.csv").splitlines() if re.match("order,[12]000,.*,buy,", it)]
        assert all(",L-SEM," in it for it in bought), week
    first, second = (release(desk, week, "L-KLG") for week in ("kw49", "kw50"))
    bearings = "2000", "LAGER 6204"
    assert {it["Release"] for rows in first.values() for it in rows} == {"1"}
    assert {it["Release"] for rows in second.values() for it in rows} == {"2"}
    # (11300 and 100 on their way, and 1500 called for the first week)
    assert [(it["Despatch"], it["Cumulative"]) for it in first[bearings]][:1] == [("2026-11-30", "12900")]
    # (11300 and 1100 on their way are 12400)
    assert {it["Backlog"] for it in second[bearings]} == {str(12900 - 12400)}
    for pair, found in second.items():
        for zone in ("Firm", "Fab", "Raw"):
            assert int(found[0][f"{zone} figure"]) >= int(first[pair][0][f"{zone} figure"]), (pair, zone)
    # (a second run of a Monday's releases changes nothing)
    again = next(it for it in steps()[-1][0].splitlines() if it.startswith("bin/releases"))
    kept = files(desk)
    desk.run(again)
    assert files(desk) == kept


def test_what_is_bought_is_not_there_once_it_is_booked(desk):
    """What orders lack is the same before purchases are booked and after, for these come later."""
    desk.needs_program()
    done = [it for command, _ in steps()[:3] for it in command.splitlines()]
    last = max(place for place, it in enumerate(done) if it.startswith("sh book.sh"))
    assert "buy" in done[last]

    def lacking():
        rows = csv.DictReader(desk.run("cat kw49/orders.csv").splitlines())
        return {(it["plant"], it["item"]): it["lacks"] for it in rows if it["lacks"]}

    desk.run("\n".join(done[:last]))
    before = lacking()
    desk.run("\n".join(done[last:]))
    assert before["2000", "GEH-40"] == "GUSS-40 28 of 40"
    assert lacking() == before


def test_what_the_planner_writes_is_in_the_table(desk):
    """By hand: a closed fortnight, a share of a litre with scrap, a bill that changes, frozen releases, a firm order, figures of a
    vendor and of a customer.
    """
    first_monday(desk)
    assert rows(desk, "run") == ["run,2026-11-30,7,26"]
    # (period 2 is that of 14 December, and holds the two weeks that are closed)
    assert rows(desk, "day") == ["day,3,2027-01-04"]
    # (4.2 metres and 3% are 4.326, 250 millilitres and 3% are 257.5)
    belts = [it for it in rows(desk, "usage") if "GURT" in it or "RAHMEN-2" in it]
    assert belts == [
        "usage,1000,FB-100_2,GURT-100,0,2163,500",
        "usage,1000,FB-200_2,GURT-200,0,2163,500",
        "usage,1000,FB-200_4,GURT-200,0,4223,500",
        "usage,1000,KB-30_li,GURT-200,0,103,20",
        "usage,1000,RAHMEN-2,LACK_RAL5010,0,515,2",
    ]
    # (11 January is the first day of period 4)
    changed = [it for it in rows(desk, "usage") if "GETRIEBE-40,LAGER" in it]
    assert changed == ["usage,2000,GETRIEBE-40,LAGER_6205,4,0,1", "usage,2000,GETRIEBE-40,LAGER_6205-C3,0,0,1", "usage,2000,GETRIEBE-40,LAGER_6205-C3,4,4,1"]
    # (two weeks behind a lead time of one)
    assert {it.split(",", 3)[3] for it in rows(desk, "policy")} == {"3,0,0,0,0"}
    assert len(rows(desk, "policy")) == 6
    assert rows(desk, "firm") == ["firm,1000,FB-200_4,1,2,4"]
    assert rows(desk, "vendor") == ["vendor,L-SEM,1000,MOTOR-0_75,1460,20,3", "vendor,L-SEM,1000,MOTOR-1_5,980,0,3"]
    # (300 of 25 November, of which 294 were shipped, and 12 every second week; those of 23 December count from the 14th)
    called = [it.split(",")[3:] for it in rows(desk, "demand") if it.startswith("demand,3000,ROLLE-89,")]
    assert called == [[str(it), "6" if it == 0 else "12"] for it in (0, 1, 2, 3, 5, 7, 9, 11, 13, 15, 17, 19, 21)]


def test_the_export_alone_is_planned_too(desk):
    """As it comes: vendors are plants, and what is ordered at them is asked of them."""
    desk.run(f"bin/sheets {FORM} --names names.csv --out table.csv examples/conveyors/export")
    assert Counter(it.split(",")[0] for it in desk.run("cat table.csv").splitlines())["pair"] == 65
    lanes = desk.run("bin/schedule --from L-SEM --names names.csv < table.csv").splitlines()
    assert lanes[1].startswith('schedule,opening,L-SEM,1000,"MOTOR-0,75",,,20,1480,')
    text = desk.run("bin/page --names names.csv < table.csv")
    Tags(text)
    assert len(listed(text, "overdue")) == 5
    # (without the form each number with a sign is a slip)
    assert "'95.000'" in desk.run("bin/sheets examples/conveyors/export", status=1)


def test_the_files_are_small_and_known(desk):
    """Each sheet is read, and names come back as the firm has them."""
    sizes = {os.path.relpath(it, TOP): os.path.getsize(it) for it in glob.glob(f"{TOP}/examples/conveyors/*/*")}
    assert sum(sizes.values()) < 50_000
    first_monday(desk)
    # (advices.csv and booked.csv are there, which bin/advices and bin/releases read)
    assert "not read" not in desk.run("ls kw49/sheets/advices.csv kw49/sheets/booked.csv && cat said")
    assert mrp.Names(f"{desk.folder}/names.csv").own("1000", "MOTOR-0_75") == ("1000", "MOTOR-0,75")
