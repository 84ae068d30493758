"""bin/install."""
import os
import re

from support import Tags, TOP

# What isn't put there: the program is the proved one, and these two are for who has the sources.
NOT_INSTALLED = "mrp", "install", "release", "shell.sh"


def test_each_file_is_installed_and_in_the_man_page(room):
    """Every file of bin/ is put there, and each tool has its part of the man page, with the words that its help begins with."""
    room.stand_in("own", "own")
    room.run("MRP=own bin/install here")
    names = {it for it in os.listdir(f"{TOP}/bin") if os.path.isfile(f"{TOP}/bin/{it}")} - {*NOT_INSTALLED}
    assert names <= {*os.listdir(f"{room.folder}/here/share/mrp")}
    tools = {it for it in names if os.access(f"{TOP}/bin/{it}", os.X_OK)}
    assert {f"mrp-{it}" for it in tools} == {*os.listdir(f"{room.folder}/here/bin")} - {"mrp"}
    page = room.run("cat here/share/man/man1/mrp.1")
    part = page.partition(".SH TOOLS\n")[2].partition("\n.SH ")[0].replace("\\-", "-")
    usages = dict(re.findall(r"^\.TP\n\\fBmrp-(\w+)\\fR (.+)\n(?=[A-Z])", part, re.MULTILINE))
    assert {*usages} == tools
    for tool, usage in usages.items():
        assert room.run(f"here/bin/mrp-{tool} --help").startswith(f"usage: mrp-{tool} {usage}\n")
        assert room.run(f"cat here/share/man/man1/mrp-{tool}.1") == page


def test_install_puts_and_removes(room):
    room.stand_in("own", "own")
    *paths, last = room.run("MRP=own bin/install here").splitlines()
    assert last == "here/bin is not on the path"
    assert len(paths) > 50
    assert sorted(paths) == sorted(room.run("find here -type f -o -type l").split())
    assert room.run("here/bin/mrp") == "own\n"
    assert ".TH MRP 1" in room.run("cat here/share/man/man1/mrp.1")
    said = room.run("bin/install --remove here")
    for it in paths:
        assert f"{it} removed" in said
    assert [it for it in paths if os.path.lexists(f"{room.folder}/{it}")] == []
    assert room.run("bin/install --remove here") == ""


def test_installed_tools_need_no_checkout(room):
    """By a checkout that is gone, and a program that is beside the tools and not on the path."""
    room.run(
        f"mkdir tree && cp -r {TOP}/bin {TOP}/python {TOP}/docs {TOP}/completions tree && cp -L words/mrp own && MRP=own tree/bin/install here && rm -r tree"
    )
    room.run("mkdir only && ln -s $(command -v python3) only")
    assert (
        room.run("here/bin/mrp-record P1 BIKE < examples/bicycle.plan.csv").splitlines()[0]
        == "P1 BIKE: 0 on hand before 2026-01-05"
    )
    assert len(Tags(room.run("here/bin/mrp-page < examples/bicycle.plan.csv")).articles) == 2
    plans = "examples/bicycle.plan.csv examples/bicycle.plan.csv"
    assert room.run(f"here/bin/mrp-compare {plans}") == "0 changes in 0 pairs; late orders: none before, none now.\n"
    assert (
        room.run(
            "MRP= PATH=only here/bin/mrp-renew plan.csv plan < examples/bicycle.csv; cmp plan.csv examples/bicycle.plan.csv"
        )
        == ""
    )
    for tool in ("record", "page", "why", "hit", "compare", "renew", "sheets", "counts", "orders", "schedule", "book", "advices", "releases"):
        assert f"usage: mrp-{tool} " in room.run(f"here/bin/mrp-{tool} --help")
        assert room.run(f"here/bin/mrp-{tool} --none", status=2).startswith(f"mrp-{tool}: ")
    room.needs_program()
    said = room.run("MRP= PATH=only here/bin/mrp-why P1 WHEEL 1 < examples/bicycle.csv")
    assert "P1 WHEEL: 20 released in period 1" in said
    assert "10 demand" in said
    assert (
        room.run("MRP= PATH=only here/bin/mrp-hit < examples/three_plants.csv")
        == "hit,EAST,BIKE,5,2026-02-09,12,1,SOUTH,TUBE\n"
    )
