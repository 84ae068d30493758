"""The program, as its users run it."""
import itertools
import os
import pty
import re
import shutil
import subprocess

import cases
import reports
from support import answered, COMMANDS, read_terminal, skip, TOP, wants


def test_examples_are_what_the_program_writes(room, program):
    for path, (report, words) in itertools.product(cases.examples(), cases.STORED.items()):
        stored = f"{path[:-4]}.{report}.csv"
        if os.path.exists(stored):
            with open(stored, encoding="utf-8") as file:
                assert room.run(f"mrp {words} < {path}") == file.read()


def test_program_answers_where_an_end_fails(room, program):
    """Each command with a reader that leaves, an output and an input that fail, and an empty table."""
    pairs = "".join(f"pair,A,X{it},buy,lot,1,0,0\n" for it in range(200))
    room.write("table.csv", f"run,2026-01-05,7,104,,,,\nplant,A,,,,,,\n{pairs}")
    for command in ("plan", "plan --single"):
        said = room.run(f"{{ mrp {command} < table.csv || echo ended with $? >&2; }} 2> said | head -n 1; cat said")
        assert said.splitlines()[1:] == ["mrp: WriteFault", "ended with 3"]
    of_three = ("cums", "schedule --from NORTH", "schedule --to NORTH --header", "advice", "advice --header", "advice --reach")
    of_one = (
        "plan",
        "plan --single",
        "check",
        "check --reach",
        "peg P1 WHEEL 2",
        "orders",
        "orders --until 0 --header",
        "pegs",
        "pegs --header",
    )
    for command in (*of_one, *of_three):
        table = "examples/three_plants.csv" if command in of_three else "examples/bicycle.csv"
        for to in (">&-", "> /dev/full"):
            assert room.run(f"mrp {command} < {table} {to}", status=3) == "mrp: WriteFault\n"
        for source in ("<&-", "< /"):
            assert room.run(f"mrp {command} {source}", status=3) == "mrp: row 1: ReadFault\n"
        assert room.run(f"mrp {command} < /dev/null", status=1) == "mrp: row 0: Empty\n"


def test_program_reads_the_whole_table(room, program):
    """As many demand rows as a table may have, in eighteen megabytes."""
    rows = "demand,A,X,0,1,,,\n" * 1_000_000
    room.write("table.csv", f"run,2026-01-05,7,1,,,,\nplant,A,,,,,,\npair,A,X,buy,lot,0,0,0\n{rows}")
    for words in ("plan", "plan --single"):
        assert room.run(f"mrp {words} < table.csv") == "plan,A,X,0,2026-01-05,1000000,0,1000000,1000000,0\n"


def firm_of_64():
    """A firm whose plants take an item from the last, which buys it, and buy three others."""
    plants = "".join(f"plant,P{it},,,,,,\n" for it in range(64))
    taken = "".join(f"pair,P{it},X,from:P63,lot,0,0,0\n" for it in range(63))
    bought = "".join(f"pair,P{it},{item},buy,lot,0,0,0\n" for it in range(64) for item in "ABC")
    demands = "".join(f"demand,P{it},X,0,5,,,\n" for it in range(63))
    return f"run,2026-01-05,7,1,,,,\n{plants}pair,P63,X,buy,lot,0,0,0\n{taken}{bought}{demands}"


def test_program_plans_each_plant_in_a_thread(room, program):
    """Where there is no room for the stacks of 64 threads, and enough for all else on one thread."""
    room.write("table.csv", firm_of_64())
    assert room.run("mrp plan --single < table.csv") == room.run("mrp plan < table.csv")
    chosen = [
        "",
        "--workers 2",
        "--workers 3",
        "--workers 4",
        "--capacity 1",
        "--capacity 256",
        "--workers 3 --capacity 2",
    ]
    for limit in (30_000, 50_000, 100_000):
        room.run(f"ulimit -v {limit}; mrp plan --single < table.csv")
        for words in chosen:
            # (stacks of threads that make plants may take the room that one of the plants needs)
            said = room.run(f"ulimit -v {limit}; mrp plan {words} < table.csv", status=3)
            assert said in ("mrp: ThreadRefused\n", "mrp: Memory\n"), (words, limit)


def test_program_ends_where_threads_are_refused(room, program):
    """Whichever thread is refused, and though the plants before the last wait for it."""
    room.write("table.csv", firm_of_64())
    # (where 64 stacks of 8 MB have room and a 65th has none, the threads of all plants begin, and none of a worker of
    # the last)
    limits = [*range(10_000, 500_000, 50_000), *range(500_000, 600_000, 4_000), 2_000_000]
    run = "export MALLOC_ARENA_MAX=1; ulimit -s 8192; ulimit -v {}; timeout 60 mrp plan --workers {} < table.csv 2>&1 | head -n 1"
    said = {room.run(f"({run.format(limit, workers)}) || true") for limit in limits for workers in (1, 4)}
    assert said - {"mrp: Memory\n"} == {"mrp: ThreadRefused\n", "plan,P63,X,0,2026-01-05,315,0,315,315,0\n"}


def test_program_says_that_a_thread_was_refused(room, program):
    """A thread of a plant, or of a worker: so many are asked for at least and at most, as all four pairs of a plant may be ready at once or three.

    Where one is refused that makes plants side by side, another makes them.
    """
    room.run(f"{wants('cc')} -O2 -shared -fPIC tools/refuse.c -o refuse.so -ldl")
    table = firm_of_64().encode()
    right = answered(room, "plan --single", table, {})
    making = 63
    for workers, least, most in ((1, 64, 64), (2, 128, 192), (3, 192, 192), (4, 192, 256)):
        for place in (*range(1, making + least, 9), making + least, making + most + 1):
            refused = {"LD_PRELOAD": f"{room.folder}/refuse.so", "REFUSE": f"thread {place} {place} fail 0"}
            wanted = right if place <= making or place > making + most else (3, b"", b"mrp: ThreadRefused\n")
            assert answered(room, f"plan --workers {workers}", table, refused) == wanted, (workers, place)


def test_program_answers_memory_where_it_is_refused(room, program):
    """Each allocation refused in turn, and some of them with all behind: what is right, or that memory is missing."""
    room.run(f"{wants('cc')} -O2 -shared -fPIC tools/refuse.c -o refuse.so -ldl")
    loop = b"run,2026-01-05,7,1,,,,\nplant,A,,,,,,\npair,A,X,make,lot,0,0,0\npair,A,Y,make,lot,0,0,0\nbill,A,X,Y,1,,,\nbill,A,Y,X,1,,,\n"
    with open(f"{TOP}/examples/bicycle.csv", "rb") as file:
        bicycle = file.read()
    with open(f"{TOP}/examples/three_plants.csv", "rb") as file:
        firm = file.read()
    asked = [("check", loop), ("plan --single", bicycle), ("peg P1 WHEEL 2", bicycle), ("pegs --header", bicycle)]
    for words, table in (
        *asked,
        ("schedule --from NORTH --to EAST", firm),
        ("schedule --to none", firm),
        ("advice", firm),
    ):
        right, place = answered(room, words, table, {}), 0
        while True:
            place += 1
            refused = {
                "LD_PRELOAD": f"{room.folder}/refuse.so",
                "REFUSE": f"memory {place} {place if place % 9 else 10**9} fail 0",
            }
            said = answered(room, words, table, refused)
            if said == right and place % 9 == 0:
                break
            if said != right:
                assert (said[0], said[2]) == (3, b"mrp: Memory\n")
                assert right[1].startswith(said[1])
        if place == 9:
            skip("a program that asks the C library for memory")


def test_program_runs_under_any_name(room, program):
    """In a folder and under a name that are no text."""
    codes = "code,P1,BIKE,0\ncode,P1,WHEEL,1\n"
    room.run(f"mkdir $'d\\xfc' && cp {program} $'d\\xfc/mr\\xfcp'")
    assert room.run("$'d\\xfc/mr\\xfcp' check < examples/bicycle.csv") == codes
    assert room.run("exec -a $'mr\\xfcp' mrp check < examples/bicycle.csv") == codes


def test_program_says_why_words_are_refused(room, program):
    """Once, and on standard error."""
    more = "\nFor more information, try '--help'.\n"
    assert (
        room.run("mrp plan --workers 0", status=2)
        == f"error: invalid value '0' for '--workers <W>': 0 is not in 1..=64\n{more}"
    )
    assert (
        room.run("mrp plam", status=2)
        == f"error: unrecognized subcommand 'plam'\n\n  tip: a similar subcommand exists: 'plan'\n\nUsage: mrp <COMMAND>\n{more}"
    )
    assert "error: unexpected argument 'seventh' found\n" in room.run(
        "mrp plan --workers 1 --capacity 2 --single seventh", status=2
    )
    refused = (
        "make",
        "plan --workers 65",
        "plan --capacity 0",
        "plan --capacity 65537",
        "plan --worker 2",
        "plan --workers",
        "plan --single=1",
    )
    refused += (
        "plan --single --single",
        "peg P1 WHEEL",
        "peg P1 WHEEL 520",
        "peg P1 WHEEL 01 2",
        "check now",
        "cums A",
    )
    refused += (
        "orders --until 520",
        "orders --until -1",
        "orders --until",
        "orders 3",
        "plan --header",
        "check --until 1",
        "cums --header=1",
    )
    refused += (
        "schedule P1",
        "schedule --from",
        "schedule --to",
        "schedule --from P1 --from P1",
        "schedule --until 1",
        "cums --from P1",
        "plan --to P1",
    )
    refused += (
        "pegs P1 WHEEL 2",
        "pegs --to P1",
        "pegs --header=1",
        "advice P1",
        "advice --until",
        "advice --until 520",
        "advice --until -1",
        "advice --from P1",
    )
    refused += (
        "check --reach=1",
        "check --reach --reach",
        "check --reach --until 1",
        "advice --reach --reach",
        "plan --reach",
        "orders --reach",
        "shortages --reach",
        "plan --whole --whole",
        "cums --whole=1",
        "check --wholes",
        "--whole plan",
        "plan --large --large",
        "cums --large=1",
        "check --larges",
        "--large plan",
    )
    for words in refused:
        said = room.run(f"mrp {words} < examples/bicycle.csv", status=2)
        assert "error: " in said
        assert "\nFor more information, try '--help'.\n" in said
    taken = (
        "plan --single --workers 64 --capacity=65536",
        "plan --capacity 1",
        "peg P1 WHEEL 3",
        "cums",
        "orders --until 103 --header",
    )
    taken += ("schedule --from P1 --to=P1 --header", "pegs --header", "advice --header", "advice --until 0 --header")
    taken += ("check --reach", "check --header --reach", "advice --until 0 --reach --header")
    for words in taken:
        room.run(f"mrp {words} < examples/bicycle.csv")
    assert room.run("mrp peg P1 WHEEL 103 < examples/bicycle.csv", status=1) == "mrp: no period\n"
    for words in ("peg P1 WHEEL 104", "orders --until 104", "advice --header --until=519"):
        assert room.run(f"mrp {words} < examples/bicycle.csv", status=2) == "mrp: a period above 103 wants --large\n"
    assert room.run("mrp peg --large P1 WHEEL 519 < examples/bicycle.csv", status=1) == "mrp: no period\n"
    for words in ("orders --until 519 --large", "advice --large --until 104", "plan --large --whole"):
        room.run(f"(cat examples/bicycle.csv; echo end,6,,,,,,) | mrp {words}")
    for words in ("--from P2", "--to P2", "--from P2 --to=P3 --header", "--from=-P1"):
        assert room.run(f"mrp schedule {words} < examples/bicycle.csv", status=1) == "mrp: no plant\n"
    assert room.run("mrp plan $'\\xff'", status=2) == "mrp: a word of the command is not UTF-8\n"
    assert room.run("mrp schedule --from=$'\\xff'", status=2) == "mrp: a word of the command is not UTF-8\n"
    assert room.run("(mrp plan $'\\xff' || mrp plan --workers 0) 2> /dev/null", status=2) == ""
    said = room.run("mrp", status=2)
    assert "error: 'mrp' requires a subcommand but one was not provided\n" in said
    assert "\nUsage: mrp <COMMAND>\n" in said


def test_program_asks_for_whole_tables(room, program):
    """Each command, wherever the word stands: with an end row it answers as without the word, and else says where the table is cut."""
    room.run("(cat examples/bicycle.csv; echo end,6,,,,,,) > whole.csv; (cat examples/bicycle.csv; printf '\\r\\nend,6,,,,,,') > other.csv")
    for command in COMMANDS:
        words = "peg P1 WHEEL 2" if command == "peg" else command
        report = room.run(f"mrp {words} < examples/bicycle.csv")
        name, _, rest = words.partition(" ")
        for asked in (f"{name} --whole {rest}", f"{words} --whole"):
            assert room.run(f"mrp {asked} < whole.csv") == room.run(f"mrp {asked} < other.csv") == report
            assert room.run(f"mrp {asked} < examples/bicycle.csv", status=1) == "mrp: row 7: Cut\n"
            assert room.run(f"head -c -3 whole.csv | mrp {asked}", status=1) == "mrp: row 7: FieldCount\n"
            assert room.run(f"mrp {asked} < /dev/null", status=1) == "mrp: row 0: Empty\n"
        assert room.run(f"mrp {words} < whole.csv") == report
        assert "--whole" in room.run(f"mrp {command} --help")


def test_program_helps(room, program):
    """In the three ways that are asked for help, with each command."""
    said = room.run("mrp --help")
    assert [it for it in COMMANDS if it not in said] == []
    assert said.count("Usage: mrp <COMMAND>") == 1
    assert room.run("mrp help") == said
    assert "error: unrecognized subcommand 'plam'\n" in room.run("mrp help plam", status=2)
    assert room.run("mrp -h").count("Usage: mrp <COMMAND>") == 1
    assert room.run("mrp -V") == room.run("mrp --version")
    for command in COMMANDS:
        assert room.run(f"mrp help {command}") == room.run(f"mrp {command} --help")
        assert room.run(f"mrp {command} -h").count(f"Usage: mrp {command}") == 1
    assert room.run("(mrp --help && mrp help && mrp plan --help && mrp -V) 2>&1 > /dev/null") == ""


def test_program_says_that_it_awaits_a_table(room, program):
    """With each command, on a terminal alone; control-D ends the table."""
    plan = b"plan,A,X,0,2026-01-05,0,0,0,0,0\n"
    reports = {
        "check": b"code,A,X,0\n",
        "plan": plan,
        "plan --single": plan,
        "peg A X 0": b"",
        **dict.fromkeys(COMMANDS[3:], b""),
    }
    both = {"stdout": subprocess.PIPE, "stderr": subprocess.PIPE, "env": room.variables}
    for command, report in reports.items():
        end, own = pty.openpty()
        with subprocess.Popen([room.mrp, *command.split()], stdin=own, **both) as child:
            os.close(own)
            assert child.stderr.readline() == b"mrp: a table is awaited on standard input\n"
            os.write(end, b"run,2026-01-05,7,1,,,,\nplant,A,,,,,,\npair,A,X,buy,lot,0,0,0\n\x04")
            assert child.communicate(timeout=60) == (report, b"")
        os.close(end)
        assert room.run(f"mrp {command} < /dev/null", status=1) == "mrp: row 0: Empty\n"
        words = ["peg", "P1", "WHEEL", "2"] if "peg" in command else command.split()
        assert said_where_it_shows(room, words, "stdout") == b""
        assert said_where_it_shows(room, words, "stderr") == b""
    end, own = pty.openpty()
    for words in ("--help", "--version", "plam"):
        said = subprocess.run(
            [room.mrp, words], stdin=own, env=room.variables, capture_output=True, timeout=60, check=False
        ).stderr
        assert b"awaited" not in said, words
    os.close(own)
    os.close(end)


def said_where_it_shows(room, words, stream):
    """Returns what is said on standard error where one stream, and not standard input, is a terminal."""
    end, own = pty.openpty()
    streams = {"stdout": subprocess.DEVNULL, "stderr": subprocess.PIPE} | {stream: own}
    with open(f"{TOP}/examples/bicycle.csv", "rb") as file:
        said = subprocess.run([room.mrp, *words], stdin=file, env=room.variables, check=True, **streams).stderr
    os.close(own)
    said = said if stream == "stdout" else read_terminal(end)
    os.close(end)
    return said


def test_program_names_what_is_wrong_in_whole_lines(room, program):
    """Rows of many digits, and names that begin with one or are as long as names may be."""
    head = "run,2026-01-05,7,1,,,,\nplant,40017-B,,,,,,\n"
    pairs = "".join(f"pair,40017-B,{number},buy,lot,0,0,0\n" for number in range(1231))
    assert answered(room, "check", f"{head}{pairs}pair,40017-B,X,sell,lot,0,0,0\n".encode(), {}) == (
        1,
        b"",
        b"mrp: row 1234: BadSupply\n",
    )
    long, most = "A-NAME-OF-20-LETTERS", "1000000000000"
    both = f"pair,40017-B,{long},make,lot,0,0,0\npair,40017-B,7734,make,lot,0,0,0\n"
    bills = f"bill,40017-B,{long},7734,1000000,,,\n"
    loop = f"{head}{both}{bills}bill,40017-B,7734,{long},1,,,\n"
    assert answered(room, "check", loop.encode(), {}) == (1, b"", f"mrp: loop 40017-B/{long} 40017-B/7734\n".encode())
    need = f"{head}{both}{bills}demand,40017-B,{long},0,{most},,,\n"
    assert answered(room, "check", need.encode(), {}) == (1, b"", b"mrp: NeedTooLarge 40017-B/7734\n")
    supply = f"{head}{both}" + f"receipt,40017-B,7734,0,{most},,,\n" * 1001
    assert answered(room, "check", supply.encode(), {}) == (1, b"", b"mrp: SupplyTooLarge 40017-B/7734\n")


def test_program_reads_nothing_behind_a_fault(room, program):
    """Each command ends while more of its table may come."""
    first = "plant,A,,,,,,\nrun,"
    third = "run,2026-01-05,7,1,,,,\nplant,A,,,,,,\npair,A,X,sell,lot,0,0,0\npair,"
    for rows, words in itertools.product(
        (first, third), ("check", "plan", "plan --single", "peg A X 0", *COMMANDS[3:], "schedule --to none")
    ):
        with subprocess.Popen(
            [room.mrp, *words.split()], stdin=subprocess.PIPE, stderr=subprocess.PIPE, env=room.variables
        ) as child:
            child.stdin.write(rows.encode())
            child.stdin.flush()
            assert child.wait(timeout=60) == 1
            assert f"mrp: row {rows.count(chr(10))}: " in child.stderr.read().decode()


def test_version_names_the_logic(room, program):
    """The program names the logic that the README names, and that the kit here has."""
    with open(f"{TOP}/README.md", encoding="utf-8") as file:
        logic = re.search(r"^Proved with the kit `\S+`, logic `(\S+)`", file.read(), re.MULTILINE)[1]
    for words in ("--version", "-V"):
        assert room.run(f"mrp {words}") == f"mrp 0.1.0, Rattle logic {logic}\n"
    room.run("mrp plan --version", status=2)
    assert room.run("mrp --version > /dev/full", status=3) == "mrp: WriteFault\n"
    if shutil.which("rt"):
        assert room.run("rt version").partition(" ")[2] == f"logic {logic}\n"
