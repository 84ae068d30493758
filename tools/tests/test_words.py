"""What all tools have in common: help, bad words, bad input, and the program that they find."""
import os

import pytest
from support import TOP

# (bin/mrp has the words of the program, and the other files of both folders are read by the tools)
TOOLS = [
    "bin/record",
    "bin/page",
    "bin/why",
    "bin/hit",
    "bin/compare",
    "bin/renew",
    "bin/sheets",
    "bin/counts",
    "bin/orders",
    "bin/schedule",
    "bin/book",
    "bin/advices",
    "bin/releases",
    "bin/install",
    "bin/release",
]
TOOLS += [
    "tools/try",
    "tools/prove",
    "tools/library",
    "tools/staticlib",
    "tools/edits",
    "tools/costs",
    "tools/torture",
    "tools/year",
    "tools/oracle.py",
    "tools/pairs",
    "tools/theorem",
    "tools/completions",
    "tools/test-tools",
]


def test_words_of_tools(room):
    """Each tool has a help, and refuses bad words in a line with status 2."""
    files = (f"{folder}/{it}" for folder in ("bin", "tools") for it in os.listdir(f"{TOP}/{folder}"))
    assert {it for it in files if os.access(f"{TOP}/{it}", os.X_OK) and os.path.isfile(f"{TOP}/{it}")} == {
        *TOOLS,
        "bin/mrp",
    }
    for tool in TOOLS:
        assert tool in room.run(f"{tool} --help")
    bad = [
        "bin/record",
        "bin/record A",
        "bin/page --pairs 0",
        "bin/page x",
        "bin/why A X",
        "bin/why A X y",
        "bin/hit A",
    ]
    bad += ["bin/compare one", "bin/compare --within 0 one two", "bin/compare --last x one two"]
    bad += ["bin/sheets", "bin/sheets --dates y/m/d examples/sheets", "bin/sheets --numbers 1234 examples/sheets"]
    bad += ["bin/counts", "bin/counts --fall 101 counts.csv"]
    bad += [
        "bin/install a b",
        "bin/install --all",
        "bin/release",
        "bin/release a b",
        "bin/release --all",
        "bin/release named",
    ]
    bad += ["bin/orders A", "bin/orders --until x", "bin/orders --until 2026-02-30", "bin/orders --sums plant"]
    bad += ["bin/schedule A", "bin/schedule --until -1", "bin/schedule --from", "bin/schedule --sums item"]
    bad += ["bin/advices", "bin/advices firm", "bin/advices --out a", "bin/advices --out a b c", "bin/advices --accept"]
    bad += ["bin/releases", "bin/releases --sheets a", "bin/releases --out a", "bin/releases --sheets a --out b --number 0"]
    bad += ["bin/book", "bin/book orders.csv", "bin/book --firm --receipts a b", "bin/book --number '' a b"]
    bad += ["bin/renew", "bin/renew plan.csv", "tools/try", "tools/torture x", "tools/torture --seed 0"]
    bad += [
        "tools/edits none",
        "tools/edits --jobs 0",
        "tools/edits --none",
        "tools/prove none",
        "tools/prove --none",
        "tools/test-tools x",
    ]
    bad += ["tools/library", "tools/library a b", "tools/library --none", "tools/staticlib x", "tools/staticlib --none"]
    bad += [
        "tools/prove --ask",
        "tools/prove --ask mrp",
        "tools/prove --ask none mrp",
        "tools/prove --ask --none mrp mrp",
        "tools/try --test none",
    ]
    bad += ["tools/torture --trials 0", "tools/torture --kind none", "tools/completions x", "tools/completions --none"]
    bad += ["tools/oracle.py", "tools/oracle.py --seed 1", "tools/oracle.py --cases 0", "tools/oracle.py --cases 1 x"]
    bad += ["tools/year x", "tools/year --seeds 0", "tools/year --firm none", "tools/year --trouble x"]
    bad += ["tools/pairs x", "tools/pairs --cases 0", "tools/pairs --seed x", "tools/pairs --none"]
    bad += [
        "tools/costs",
        "tools/costs none",
        "tools/costs --most 0 mrp_qty",
        "tools/theorem x",
        "tools/theorem --none",
        "tools/theorem --check x",
    ]
    for words in bad:
        said = room.run(words, status=2)
        assert (said.count("\n"), said.startswith(f"{words.split()[0]}: ")) == (1, True), f"{words} said\n{said}"


def test_bad_input(room):
    """Each tool refuses a report or table that is none in a line with status 1."""
    plan = "examples/bicycle.plan.csv"
    commands = (
        "record P1 BIKE < /dev/null",
        "record P1 BIKE < examples/bicycle.csv",
        f"record P1 CAR < {plan}",
        f"record P1 BIKE < <(head -c 60 {plan})",
        f"record P1 BIKE < <(tail -n 7 {plan})",
        f"record P1 BIKE < <(cat {plan}; echo late,P1,BIKE,4,1,1)",
        f"page < <(cat {plan}; echo late,P1,BIKE,4,1,1)",
        f"page < <(sed 's/BIKE/<b>/' {plan})",
        "page < examples/firm_of_two.cums.csv",
        "page < examples/pumps.orders.csv",
        "record WORKS PUMP < examples/pumps.pegs.csv",
        "record WORKS PUMP < <(sed 's/,call,/,calls,/' examples/pumps.schedule.csv)",
        f"page --plant P2 < {plan}",
        f"page --cums none < {plan}",
        f"compare {plan} none",
        f"compare {plan} examples/bicycle.csv",
        "renew none/plan.csv plan < examples/bicycle.csv",
        "sheets none",
        "sheets --names none/names.csv examples/sheets 2> >(tail -n 1 >&2)",
        "orders --names none < examples/pumps.csv",
        "orders --until 2026-11-29 < examples/pumps.csv",
        "orders --out none/orders.csv < examples/pumps.csv",
        "schedule --from WORK < examples/pumps.csv",
        "schedule --to WORK < examples/pumps.csv",
        "book examples/pumps.orders.csv none",
        "install /proc/none",
    )
    for command in (*(f"bin/{it}" for it in commands), "tools/torture --program none"):
        said = room.run(command, status=1)
        assert said.count("\n") == 1, f"{command} said\n{said}"


# A firm with 110 periods, whose bicycles are wanted in the 109th and whose wheels are on order from a vendor, as far as 20 of them.
LONG = {
    "firm.csv": "First day,Days,Periods\n2026-01-05,7,110\n",
    "items.csv": "Plant,Item,Supply,Lot rule,Lead (periods),On hand,Safety stock\nP1,BIKE,make,lot,1,0,0\nP1,WHEEL,buy,lot,1,0,0\n",
    "bills.csv": "Plant,Parent,Component,Per\nP1,BIKE,WHEEL,4\n",
    "demands.csv": "Plant,Item,Due,Quantity,Order\nP1,BIKE,2028-01-31,10,4711\n",
    "receipts.csv": "Plant,Item,Due,Quantity,Advice\nP1,WHEEL,2028-01-17,20,L-1\n",
    "vendors.csv": "Vendor,Plant,Item,Figure received,In transit\nLumen,P1,WHEEL,40,20\n",
}


@pytest.fixture
def long(room):
    """A room with the sheets of that firm, its table and names; tools/oracle.py plans."""
    room.stand_in("words/planner", "planner", top=TOP)
    room.variables["MRP"] = f"{room.folder}/words/planner"
    os.mkdir(f"{room.folder}/firm")
    for name, text in LONG.items():
        room.write(f"firm/{name}", text)
    room.run("bin/sheets --large --names names.csv --out table.csv firm")
    return room


def test_tools_ask_for_large_tables(long):
    """With --large each tool that asks the program hands the word on; without it the program refuses the table."""
    for tool in ("why P1 WHEEL 106", "hit", "orders", "schedule", "page", "renew plan.csv plan", "releases --sheets firm --out out"):
        word, _, more = tool.partition(" ")
        assert "mrp: row 1: " in long.run(f"bin/{tool} < table.csv", status=1), tool
        long.run(f"bin/{word} --large {more} < table.csv > {word}.said")
    assert "20 released in period 106, due in period 107 " in long.run("cat why.said")
    assert "plan,P1,BIKE,109," in long.run("cat plan.csv")
    assert "2028-01-24" in long.run("cat page.said")
    assert ",2028-01-17,2028-01-24,20," in long.run("cat out/Lumen.csv")


def test_large_page_has_what_changed(long):
    """The table of the earlier Monday is asked for with --large too."""
    long.run("sed s/BIKE,108,10/BIKE,108,11/ table.csv > last.csv")
    said = long.run("bin/page --large --last last.csv < table.csv 2>&1 > page.html")
    assert said == "last.csv begins on 2026-01-05 as this plan does: what changed is told since a plan of this Monday\n"
    page = long.run("cat page.html")
    assert "2 pairs, 110 weeks, 0 late orders" in page
    assert "<b>shrank</b></td><td>10</td>" in page


def test_large_tables_are_booked(long):
    """With what the sheets say of orders beyond the 104th period; the table is made with --large too."""
    long.run("bin/orders --large --names names.csv --out orders.csv < table.csv")
    orders = long.run("cat orders.csv").splitlines()
    assert orders[1].startswith("order,P1,BIKE,make,10,107,2028-01-24,108,2028-01-31,0,")
    assert "10 of 2028-01-31: Order 4711" in orders[1]
    schedule = long.run("bin/schedule --large --names names.csv < table.csv").splitlines()
    assert schedule[1].startswith("schedule,opening,Lumen,P1,WHEEL,,,20,60,")
    assert schedule[1].endswith(",20 of 2028-01-17: Advice L-1")
    assert "'110' is not from 1 to 104; with --large up to 520" in long.run("bin/book --number K-1 orders.csv firm", status=1)
    booked = "firm_orders.csv: K-1, 10 of P1 BIKE, due 2028-01-31\nfirm_orders.csv: K-2, 20 of P1 WHEEL, due 2028-01-24\n"
    assert long.run("bin/book --large --number K-1 orders.csv firm") == booked


def test_tools_find_the_program(room):
    """The one that MRP names, else the one on the path, else bin/mrp: by programs that say which they are."""
    room.run(f"mkdir tree path only && cp -r {TOP}/bin {TOP}/python tree && ln -s $(command -v python3) only")
    for name in ("tree/bin/mrp", "path/mrp", "named"):
        room.stand_in(name, "says_its_name", name=name)
    for tool in ("why P1 WHEEL 1", "hit", "renew plan.csv plan", "orders", "schedule"):
        for variables, wanted in (
            ("MRP=./named PATH=path:only", "named"),
            ("MRP= PATH=path:only", "path/mrp"),
            ("MRP= PATH=only", "tree/bin/mrp"),
        ):
            said = room.run(f"{variables} tree/bin/{tool} < examples/bicycle.csv 2>&1 || true")
            assert said.splitlines()[:1] == [wanted], tool
