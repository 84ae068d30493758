"""bin/renew."""

import re


def test_renew_keeps_the_old_report(room):
    """Where the table is refused, with its row and without one, and where the program fails after it has written
    something.
    """
    room.write("plan.csv", "last week\n")
    room.stand_in("words/failing", "failing")
    kept = "bin/renew: plan.csv is as it was\n"
    assert (
        room.run("MRP=words/failing bin/renew plan.csv plan < examples/bicycle.csv", status=3)
        == f"mrp: WriteFault\n{kept}"
    )
    room.stand_in("words/refusing", "refusing")
    # (a blank line is no row, and the line feed within quotes ends none)
    room.run("sed 's/demand,P1,BIKE/demand,P1,BIEK/; 1s/^/\\n/; s/P1,,/\"P\\n1\",,/' examples/bicycle.csv > slip.csv")
    refused = f"mrp: row 6: UnknownPair\nrow 6 is demand,P1,BIEK,3,10,,,\n{kept}"
    assert room.run("MRP=words/refusing bin/renew plan.csv plan < slip.csv", status=1) == refused
    assert room.run("cat slip.csv | MRP=words/refusing bin/renew plan.csv plan 2>&1 || true") == refused
    # (a table without pairs has a plan without rows)
    room.stand_in("words/silent", "silent")
    assert (
        room.run("MRP=words/silent bin/renew plan.csv plan < slip.csv", status=1)
        == "bin/renew: the plan has no rows; plan.csv is as it was\n"
    )
    assert room.run("cat plan.csv; ls plan.csv*") == "last week\nplan.csv\n"
    assert room.run("MRP=words/silent bin/renew cums.csv cums < slip.csv; cat cums.csv") == ""
    assert (
        room.run("bin/renew plan.csv plan < examples/bicycle.csv; cmp plan.csv examples/bicycle.plan.csv; ls plan.csv*")
        == "plan.csv\n"
    )
    room.needs_program()
    room.run("sed 's/demand,P1,BIKE/demand,P1,BIEK/' examples/bicycle.csv > slip.csv")
    assert room.run("bin/renew plan.csv plan --single < slip.csv", status=1) == refused
    assert room.run("bin/renew plan.csv plan < /dev/null", status=1) == f"mrp: row 0: Empty\n{kept}"
    assert room.run("cmp plan.csv examples/bicycle.plan.csv; ls plan.csv*") == "plan.csv\n"
    said = room.run("bin/renew plan.csv plam < slip.csv", status=2)
    assert "error: unrecognized subcommand 'plam'" in said
    assert kept in said


def test_renew_tells_of_each_run(room):
    """With --run a line for each plan that took the place of the old one, and none where the table or the file is refused."""
    room.stand_in("words/planning", "planning")
    room.write("report.csv", "plan,A,X,0,2026-01-05,5,0,5,5,0\nplan,A,X,1,2026-01-12,0,0,0,0,0\nlate,A,X,0,5,1\n")
    room.write("table.csv", '"run",2026-01-05,7,2,,,,\n\nplant,A,,,,,,\npair,A,X,buy,lot,1,0,0\ndemand,A,X,0,5,,,\n')
    renew = "MRP=words/planning bin/renew --run run.csv plan.csv plan < table.csv"
    line = r"2026-01-05,20[0-9-]{8}T[0-9:]{8}[+-][0-9:]{5},4,1,1,1,[0-9]+\.[0-9]{3}\n"
    names = "first_day,made_at,rows,pairs,orders,late,seconds\n"
    for times in (1, 2):
        assert room.run(f"{renew}; cmp plan.csv report.csv; ls *.new 2>&1 || true") == "ls: cannot access '*.new': No such file or directory\n"
        assert re.fullmatch(names + line * times, room.run("cat run.csv"))
    room.stand_in("words/failing", "failing")
    kept = room.run("cp run.csv kept; MRP=words/failing bin/renew --run run.csv plan.csv plan < table.csv; cat kept", status=3)
    assert "plan.csv is as it was" in kept
    assert room.run("cmp run.csv kept; cmp plan.csv report.csv") == ""
    room.run("echo last week | tee plan.csv > run.csv")
    said = "bin/renew: run.csv is no file that --run has written; it and plan.csv are as they were\n"
    assert room.run(renew, status=1) == said
    assert room.run("cat plan.csv run.csv") == "last week\nlast week\n"
    assert room.run("bin/renew --run run.csv cums.csv cums < table.csv", status=2) == "bin/renew: --run is of mrp plan alone\n"
