"""python/mrp.py."""
import csv
import datetime
import itertools

import cases
import pytest
from support import COMMANDS, module_of, reads_each_report, some_tables, TOP, wants


def test_python_reads_each_report(program):
    """By the program: what is read of a report is the report, and what is refused is a fault with the program's line
    and row.
    """
    mrp = module_of("mrp.py", "python")
    reads_each_report(program, mrp, mrp.Program(program), [it for it in COMMANDS if it != "peg"])


def test_python_writes_tables(room):
    """From rows that were read, the same bytes; dates count into periods; a row may be a named tuple."""
    mrp = module_of("mrp.py", "python")
    ended = 0
    for seed, text in enumerate(some_tables()):
        if (seed - len(cases.examples())) % 3:
            written = bytes(mrp.Table(csv.reader(text.decode().splitlines())))
            assert written.decode() in (text.decode(), f"{text.decode()}end,{text.count(bytes([10]))},,,,,,\n")
            ended += written == text
    assert ended > 10
    first, one = datetime.date(2026, 1, 5), ("A", "X")
    rows = [
        mrp.Run(first, 7, 4),
        mrp.Plant("A"),
        mrp.Pair(*one, "from:B", "lot", 1, 0, 0),
        ("pair", "B", "X", "buy", "fixed:7", 0, 0, 0),
    ]
    rows += [
        mrp.Demand(*one, it, 5)
        for it in (0, first, datetime.date(2026, 1, 11), datetime.datetime(2026, 1, 12, 8), datetime.date(2026, 1, 4))
    ]
    rows += [mrp.Bill("A", "X", "Y", 2), mrp.Receipt(*one, 1, 2), mrp.Ship("B", *one, first, 8), mrp.Cum("B", *one, 9)]
    rows += [mrp.Reset("B", *one, datetime.date(2026, 2, 1)), mrp.Firm(*one, first, datetime.date(2026, 1, 20), 12)]
    # (how many periods a policy says is none of them)
    rows += [mrp.Policy(*one, 2, 1, 0, 30, 12), mrp.Policy("B", "X", first, 0, 0, 0, 0)]
    rows += [mrp.Usage("A", "X", "Y", datetime.date(2026, 1, 26), 103, 100), mrp.Usage("A", "X", "Y", 1, first, 1)]
    rows += [mrp.Vendor("V", "B", "X", 500, 12, datetime.date(2026, 1, 20)), mrp.Vendor("V", *one, 0, 0), mrp.Day(3, datetime.date(2026, 1, 26))]
    assert bytes(mrp.Table(rows)).decode() == WRITTEN
    assert (
        bytes(
            mrp.Table(
                [
                    ("run", "2026-01-05", "7", 4),
                    (),
                    ("plant", 'a,"b'),
                    ("demand", "A", "X", datetime.date(2026, 1, 19), 1),
                ]
            )
        ).decode()
        == RUN_AS_TEXT
    )


# By hand.
WRITTEN = """\
run,2026-01-05,7,4,,,,
plant,A,,,,,,
pair,A,X,from:B,lot,1,0,0
pair,B,X,buy,fixed:7,0,0,0
demand,A,X,0,5,,,
demand,A,X,0,5,,,
demand,A,X,0,5,,,
demand,A,X,1,5,,,
demand,A,X,-1,5,,,
bill,A,X,Y,2,,,
receipt,A,X,1,2,,,
ship,B,A,X,0,8,,
cum,B,A,X,9,,,
reset,B,A,X,3,,,
firm,A,X,0,2,12,,
policy,A,X,2,1,0,30,12
policy,B,X,2026-01-05,0,0,0,0
usage,A,X,Y,3,103,100,
usage,A,X,Y,1,2026-01-05,1,
vendor,V,B,X,500,12,2,
vendor,V,A,X,0,0,,
day,3,2026-01-26,,,,,
end,22,,,,,,
"""
RUN_AS_TEXT = """\
run,2026-01-05,7,4,,,,
plant,"a,""b",,,,,,
demand,A,X,2,1,,,
end,3,,,,,,
"""


def test_python_asks_for_what_comes_up_to_a_period(room):
    """By a program that says its words: up to the last period that there can be."""
    room.write("says", '#!/bin/sh\necho "$*" >&2\nexit 1\n')
    mrp = module_of("mrp.py", "python")
    for name, (large, last) in itertools.product(("orders", "advice"), (("", 103), (" --large", 519))):
        by = mrp.Program(f"{room.folder}/says", bool(large))
        for until, words in ((None, ""), (0, " --until=0"), (last, f" --until={last}"), (10**6, f" --until={last}")):
            assert by.ask(name, b"", until=until) == (1, f"{name}{large}{words}\n".encode())


def test_python_asks_for_large_tables(room, monkeypatch):
    """For each report, of the program where there is no library and for pegs: by a program that says its words, and a library that is
    not there.
    """
    room.write("says", '#!/bin/sh\necho "$*" >&2\nexit 1\n')
    monkeypatch.setenv("MRP", f"{room.folder}/says")
    mrp = module_of("mrp.py", "python")
    table = mrp.Table([])
    for call, more, words in (
        (mrp.plan, {}, "plan --large"),
        (mrp.orders, {"until": 600}, "orders --large --until=519"),
        (mrp.schedule, {"supplier": "A", "customer": "B"}, "schedule --large --from=A --to=B"),
        (mrp.check, {}, "check --large"),
        (mrp.reach, {}, "check --reach --large"),
        (mrp.cums, {}, "cums --large"),
        (mrp.pegs, {}, "pegs --large"),
        (mrp.advice, {"until": 110, "reach": True}, "advice --reach --large --until=110"),
        (mrp.shortages, {}, "shortages --large"),
    ):
        mrp.library.cache_clear()
        monkeypatch.delenv("MRP_LIBRARY", raising=False)
        with pytest.raises(mrp.Fault) as fault:
            call(table, large=True, **more)
        assert str(fault.value) == words
        mrp.library.cache_clear()
        monkeypatch.setenv("MRP_LIBRARY", f"{room.folder}/none.so")
        for large in (False, True):
            with pytest.raises(mrp.Fault if call is mrp.pegs else OSError) as fault:
                call(table, large=large, **more)
            assert call is not mrp.pegs or str(fault.value) == "pegs" + " --large" * large


def test_python_asks_how_far_a_plan_is_whole(room):
    """And for messages within that, and whole tables: by a program that says its words."""
    room.write("says", '#!/bin/sh\necho "$*" >&2\nexit 1\n')
    room.variables |= {"MRP": f"{room.folder}/says", "MRP_LIBRARY": "", "PYTHONPATH": "python"}
    for call, words in (("reach(t)", "check --reach"), ("advice(t, 3, reach=True)", "advice --reach --until=3")):
        room.write("ask", f"import mrp\nt = mrp.Table([])\ntry:\n    mrp.{call}\nexcept mrp.Fault as fault:\n    print(fault)\n")
        assert room.run("python3 ask") == f"{words}\n"
    by = module_of("mrp.py", "python").Program(f"{room.folder}/says")
    assert by.ask("cums", b"", whole=True) == (1, b"cums --whole\n")


def test_python_asks_the_library_for_messages(room):
    """By a library that says its options: all of them up to the last period that there can be."""
    wants("cc")
    room.stand_in("one.c", "library/cums.c")
    room.run("cc -Iinclude -shared -fPIC one.c -o one.so")
    by = module_of("mrp.py", "python").Library(f"{room.folder}/one.so")
    for until, limited in ((None, "0 0"), (0, "1 0"), (7, "1 7"), (10**6, "1 1000000")):
        for reach, whole in ((False, False), (True, False), (False, True)):
            said = f"mrp: until {limited}, 0, reach {reach:d}, whole {whole:d}\n".encode()
            assert by.ask("advice", b"", until=until, reach=reach, whole=whole) == (1, said)
    assert by.ask("check", b"", reach=True, whole=True) == (1, b"mrp: reach 0, whole 1\n")
    assert by.ask("check", b"")[0] == 0


def test_python_has_orders_and_messages(program, monkeypatch):
    """Of the example with firm orders, up to a period and all, as its stored reports have them."""
    mrp = module_of("mrp.py", "python")
    monkeypatch.setenv("MRP", program)
    monkeypatch.delenv("MRP_LIBRARY", raising=False)
    with mrp.open_table(f"{TOP}/examples/firm_orders.csv") as lines:
        table = mrp.Table.read(lines)
    assert [(it.pair, it.start, it.due) for it in table.firms] == [(("WORKS", "PUMP"), 1, 3), (("DEPOT", "PUMP"), 0, 1)]
    orders = [(type(it), it.item, it.quantity) for it in mrp.orders(table, until=0)]
    assert orders == [(mrp.Order, "HOUSING", 50), (mrp.FirmOrder, "PUMP", 30)]
    assert [type(it) for it in mrp.orders(table)].count(mrp.FirmOrder) == 2
    messages = [(it.action, it.kind, it.supplier, it.period, it.needed) for it in mrp.advice(table)]
    assert messages == [("defer", "firm", None, 3, 4), ("expedite", "receipt", None, 2, 1)]
    assert mrp.advice(table, until=2) == mrp.advice(table)[1:]
    assert mrp.advice(table, until=1) == []


def test_python_finds_who_answers(room):
    """The library that MRP_LIBRARY names or that lies beside; else the program that MRP names, or the one on the path,
    or bin/mrp.
    """
    room.run(
        "mkdir -p tree/python tree/bin path only && cp python/mrp.py tree/python && ln -s $(command -v python3) only"
    )
    for name in ("tree/bin/mrp", "path/mrp", "named"):
        room.stand_in(name, "says_its_name", name=f"mrp: {name}")
    room.stand_in("ask.py", "ask.py")
    for variables, wanted in (
        ("MRP=./named PATH=path:only", "named"),
        ("MRP= PATH=path:only", "path/mrp"),
        ("MRP= PATH=only", "tree/bin/mrp"),
    ):
        assert room.run(f"{variables} python3 ask.py") == f"Fault(None, '{wanted}', 'mrp: {wanted}')\n"
    wants("cc")
    room.stand_in("one.c", "library/cums.c")
    room.run("cc -Iinclude -shared -fPIC one.c -o tree/python/libmrp.so && cp tree/python/libmrp.so other.so")
    assert room.run("MRP=./named python3 ask.py") == "Fault(None, 'one', 'mrp: one')\n"
    assert (
        room.run("rm tree/python/libmrp.so; MRP_LIBRARY=./other.so python3 ask.py")
        == "Fault(None, 'one', 'mrp: one')\n"
    )
