"""Long tables, which threads read by blocks, beside what one thread says of them."""
import contextlib
import itertools
import os
import struct
import subprocess

from support import wants

# About so many bytes are read first, and then blocks of about so many, cut into a piece for each processor.
FIRST, BLOCK = 4096, 4_194_304


def long_table():
    """A table above 5 MiB: a third of it bills, then demands, receipts, shipments, and each kind of row behind them."""
    parents, parts = [f"PARENT-{it:03}" for it in range(600)], [f"COMPONENT-{it:03}" for it in range(100)]
    rows = ["run,2026-01-05,7,4,,,,", "plant,A,,,,,,", "plant,B,,,,,,"]
    rows += [f"pair,A,{it},make,lot,1,20,0" for it in parents]
    rows += [f"pair,A,{it},from:B,fixed:50,1,0,5" for it in parts] + [f"pair,B,{it},buy,lot,1,0,0" for it in parts]
    rows += [f"bill,A,{parent},{part},2,,," for parent, part in itertools.product(parents, parts)]
    rows += [f"demand,A,{parents[it * 7 % 600]},{it % 4},{it % 90 + 10},,," for it in range(60_000)]
    rows += [f"receipt,A,{parents[it * 11 % 600]},{it % 4},{it % 90 + 10},,," for it in range(40_000)]
    rows += [f"ship,B,A,{parts[it % 100]},{it // 10_000},{it % 90 + 10},," for it in range(40_000)]
    rows += [f"cum,B,A,{it},1000,,," for it in parts] + [f"reset,B,A,{it},2,,," for it in parts]
    rows += [f"firm,A,{it},0,2,30,," for it in parents] + [f"policy,A,{it},1,0,0,10,5" for it in parents]
    rows += [f"usage,A,{parents[0]},{it},1,103,100," for it in parts] + [f"vendor,V,B,{it},40,10,," for it in parts]
    rows += ["day,2,2026-01-20,,,,,", f"end,{len(rows) + 1},,,,,,"]
    return "".join(f"{it}\n" for it in rows).encode()


def borders(table):
    """Returns where pieces of the table begin, where it is read from a file."""
    size = BLOCK // max(2, min(8, len(os.sched_getaffinity(0))))
    found = [table.rfind(b"\n", 0, FIRST) + 1]
    while found[-1] + size < len(table):
        found.append(table.rfind(b"\n", 0, found[-1] + size) + 1)
    return found


def damaged(table, at, kind):
    """Returns the table with a damage of the row that begins there, and its fault, or nothing where it stays good."""
    before, row = table[:at], table[at : table.find(b"\n", at) + 1]
    behind, number = table[at + len(row) :], before.count(b"\n") + 1
    bill = table[table.find(b"\nbill,") + 1 :].partition(b"\n")[0] + b"\n"
    made, fault = {
        "number": (row.replace(b",,", b"x,,", 1), "BadNumber"),
        "order": (b"plant,Z,,,,,,\n" + row, "KindOrder"),
        "repeated": (bill + row, "Repeated" if row.startswith(b"bill,") else "KindOrder"),
        "quotes": (b'"' + row.replace(b",", b'",', 1), None),
        "quote": (row.replace(b",", b',"', 1), "FieldCount"),
        "cut": (row[:8], "FieldCount"),
    }[kind]
    return before + made + (b"" if kind == "cut" else behind), fault and f"mrp: row {number}: {fault}\n".encode()


def damages(table):
    """Yields tables that are damaged where a piece ends, where the next begins and within it, each with its fault.

    One has shipments that are not in the order of their arrival, which a reset behind them wants.
    """
    kinds = itertools.cycle(("number", "repeated", "quotes", "order", "quote", "cut", "repeated"))
    bulk = table[: table.find(b"\ncum,") + 1]
    for border in borders(bulk)[1:]:
        within = bulk.rfind(b"\n", 0, min(border + 100_000, len(bulk) - 1)) + 1
        for at in (bulk.rfind(b"\n", 0, border - 1) + 1, border, within):
            yield damaged(table, at, next(kinds))
    row = table[: table.find(b"\nreset,") + 1].count(b"\n") + 1
    late = table.replace(b"\nship,B,A,COMPONENT-000,0,", b"\nship,B,A,COMPONENT-000,3,", 1)
    yield late, f"mrp: row {row}: ResetOrder\n".encode()


def from_file(program, words, table, room, variables=(), processors=None):
    """Returns status, output and errors of the program, which reads a file, on these processors where they are named."""
    with open(f"{room.folder}/table.csv", "wb") as file:
        file.write(table)
    with open(file.name, "rb") as file:
        done = subprocess.run(
            [program, *words],
            stdin=file,
            capture_output=True,
            timeout=60,
            check=False,
            env={**os.environ, **dict(variables)},
            preexec_fn=processors and (lambda: os.sched_setaffinity(0, processors)),
        )
    return done.returncode, done.stdout, done.stderr


def through_pipe(program, words, table, size):
    """Returns the same of a program that reads a pipe, which gives the table in parts of so many bytes."""
    with subprocess.Popen(
        [program, *words], bufsize=0, stdin=subprocess.PIPE, stdout=subprocess.PIPE, stderr=subprocess.PIPE
    ) as run:
        # (a program that met a fault leaves)
        with contextlib.suppress(BrokenPipeError):
            for at in range(0, len(table), size):
                run.stdin.write(table[at : at + size])
        said = run.communicate(timeout=60)
    return run.returncode, *said


def test_threads_tell_the_fault_that_one_thread_tells(room, program):
    """Of long tables with a damage, from a file and through a pipe by parts which end within rows."""
    table, ways = long_table(), itertools.cycle((("plan", "check", 50_021), ("check", "plan", 3001)))
    assert len(table) > 5 << 20
    right = {it: from_file(program, it.split(), table, room) for it in ("plan --single", "check")}
    right["plan"] = right["plan --single"]
    assert (right["plan"][1].count(b"plan,"), right["check"][1].count(b"\n")) == (3200, 800)
    for text, fault in [(table, None), *damages(table)]:
        by_file, by_pipe, size = next(ways)
        said = {
            "plan --single": from_file(program, ["plan", "--single"], text, room),
            by_file: from_file(program, [by_file], text, room),
            by_pipe: through_pipe(program, [by_pipe], text, size),
        }
        assert said == {it: (1, b"", fault) if fault else right[it] for it in said}, fault


def test_bad_row_is_told_while_more_may_come(program):
    """Through a pipe that stays open behind the bad row, among bills and among shipments."""
    table = long_table()
    for kind in (b"\nbill,", b"\nship,"):
        at = table.rfind(kind) + 1
        text, fault = damaged(table, at, "number")
        with subprocess.Popen([program, "check"], stdin=subprocess.PIPE, stderr=subprocess.PIPE) as run:
            run.stdin.write(text[: text.find(b"\n", at) + 1])
            run.stdin.flush()
            assert (run.wait(timeout=60), run.stderr.read()) == (1, fault)


def threads_asked(program, words, table, room, refused="", processors=None):
    """Returns the answer of the program, which is refused those threads, and how many it asked for."""
    counts = f"{room.folder}/counts"
    with open(counts, "wb") as file:
        file.write(bytes(32))
    variables = {"LD_PRELOAD": f"{room.folder}/refuse.so", "COUNTS": counts, "REFUSE": refused}
    answer = from_file(program, words, table, room, variables, processors)
    with open(counts, "rb") as file:
        return answer, struct.unpack("4q", file.read())[3]


def test_threads_that_are_refused_are_done_without(room, program):
    """Each in turn, alone and with all behind it: those that read a piece of a block, and the one that makes the edges,
    which is the only one where there is one processor."""
    room.run(f"{wants('cc')} -O2 -shared -fPIC tools/refuse.c -o refuse.so -ldl")
    table, words, all_of_them = long_table(), ["orders", "--until", "3"], os.sched_getaffinity(0)
    right = from_file(program, words, table, room)
    assert right[0] == 0 and right[1].count(b"\norder,") > 600
    for processors in ({min(all_of_them)}, all_of_them):
        said, asked = threads_asked(program, words, table, room, processors=processors)
        assert said == right and (asked == 1 if len(processors) == 1 else asked > 1)
        for place, last in ((it, end) for it in range(1, asked + 1) for end in (it, 10**9)):
            said, tried = threads_asked(program, words, table, room, f"thread {place} {last} fail 0", processors)
            assert said == right and tried >= place, (place, last)
