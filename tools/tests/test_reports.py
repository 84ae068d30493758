"""bin/reports.py, by which the tools read reports."""
import datetime
import itertools
import os
import random
import unittest.mock

import cases
import mrp
import pytest
import reports
from test_record import FIRM_ORDERS


def test_stored_reports_are_read_by_name(room):
    """Each row of each report beside the examples, and the names of the columns above it."""
    columns = {}
    for path, report in itertools.product(cases.examples(), cases.STORED):
        if os.path.exists(stored := f"{path[:-4]}.{report}.csv"):
            with open(stored, "rb") as file:
                rows = [it for it in reports.parts(file) if not isinstance(it, reports.Record)]
            with open(stored, encoding="utf-8") as file:
                lines = [it for it in file.read().splitlines() if not it.startswith("plan,")]
            headed = lines and lines[0].startswith("row,")
            columns.setdefault(report, set()).update([lines.pop(0)] if headed else [])
            assert ["".join(f",{'' if it is None else it}" for it in row) for row in rows] == [
                it[it.index(",") :] for it in lines
            ], stored
    assert {report: len(names) for report, names in columns.items()} == {
        it: int("--header" in words) for it, words in cases.STORED.items()
    }


def test_rows_are_found_in_large_reports(room):
    """Of each pair and from a period on, where rows are long and short, missing and many."""
    places = {("A", it): place for place, it in enumerate("XYZ")} | {("B", "X" * 20): 3, ("A", "W"): 4}
    asked = [
        (pair, period, it)
        for pair in places
        for period in range(0, 104, 7)
        for it in range((period * 5 + places[pair]) % 4)
    ]
    rows = [
        f"pegs,{pair[0]},{pair[1]},{period},demand,A,X,{10 ** (period % 13)},1,{it + 1}\n"
        for pair, period, it in asked
        if pair != ("A", "Z")
    ]
    room.write("pegs.csv", "".join(rows))
    found = reports.Sorted(f"{room.folder}/pegs.csv", "period", places)
    for pair, first, end in itertools.product(places, range(0, 106, 5), (1, 50, 104)):
        wanted = [(period, it + 1) for of, period, it in asked if of == pair != ("A", "Z") and first <= period < end]
        assert [(it.period, it.quantity) for it in found.rows(pair, first, end)] == wanted, (pair, first, end)
    room.write("pegs.csv", "")
    assert [*reports.Sorted(f"{room.folder}/pegs.csv", "period", places).rows(("A", "X"))] == []


def test_firm_orders_have_a_row_of_their_own():
    """With the columns of planned orders, and apart from them."""
    rows = [*reports.parts(it.encode() for it in FIRM_ORDERS.splitlines(keepends=True))]
    assert [type(it) for it in rows] == [reports.FirmOrder, *[mrp.Order] * 5]
    assert reports.FirmOrder._fields == mrp.Order._fields
    days = datetime.date(2026, 1, 5), datetime.date(2026, 1, 26)
    assert rows[0] == ("A", "P", "make", 20, 0, days[0], 3, days[1], 0)
    assert mrp.line_of(rows[0]) == FIRM_ORDERS.splitlines()[0]


def test_firm_orders_are_summed_by_period():
    """By what is due, and by what is released; a pair without any has no figures."""
    found = reports.FirmOrders()
    line = "firm,A,{},buy,{},{},2026-01-05,{},2026-01-12,0\n".format
    for number, it in enumerate((("X", 5, 0, 3), ("Y", 1, 2, 2), ("X", 10**12, 0, 1), ("X", 7, 1, 3)), 1):
        assert found.take(line(*it), number) == (("A", it[0]), it[2])
    assert found.figures(("A", "X"), 4) == [[0, 10**12, 0, 12], [10**12 + 5, 7, 0, 0]]
    assert found.figures(("A", "Y"), 4) == [[0, 0, 1, 0], [0, 0, 1, 0]]
    assert found.figures(("B", "X"), 4) == []
    with pytest.raises(reports.Refused, match="row 9 is no row of a report"):
        found.take(line("X", "05", 0, 3), 9)


def runs_of(lines, alike):
    """Returns the runs of lines, found a line at a time."""
    found = []
    for number, line in enumerate(lines, 1):
        size = alike.get(line[:5], 0)
        front = b",".join(line.split(b",")[:size]) if size and line.count(b",") >= size else None
        if found and front and found[-1][0] == front:
            found[-1][1].append(line)
        else:
            found.append((front, [line], number))
    return [(rows, number) for _, rows, number in found]


def test_rows_that_begin_alike_are_taken_at_once():
    """As many as the pair before had, where the pair has so many; also where pairs have some more or less, rows of others between
    them, no end of a line, or names that begin as others do."""
    for seed in range(400):
        chance, lines = random.Random(seed), []
        periods, is_even = chance.randrange(1, 6), chance.random() < 0.5
        for _ in range(chance.randrange(1, 12)):
            pair = f"{chance.choice('AB')},{chance.choice(('X', 'XX', 'Y'))}"
            count = periods if is_even else chance.randrange(1, 7)
            kind = chance.choice(("plan", "plan", "plan", "advice,defer,ship", "late", "plan,A,X", "advice,defer"))
            lines += [f"{kind},{pair},{it},7\n".encode() for it in range(count)]
        if not is_even and chance.random() < 0.5:
            chance.shuffle(lines)
        if chance.random() < 0.2:
            lines[-1] = lines[-1][:-1]
        for more in ({}, reports.ADVICE_ROWS):
            found = [(it.lines, it.number) for it in reports.runs(lines, more)]
            assert found == runs_of(lines, {**reports.PLAN_ROWS, **more}), seed
            assert sum(it.count for it in reports.runs(lines, more)) == len(lines)
    lines = [b"advice,defer,ship,A,X,0\n"] * (reports.MOST_ALIKE + 5) + [b"late,A,X,0,1,1\n"]
    first, last = reports.runs(lines, reports.ADVICE_ROWS)
    assert (len(first.lines), first.count, last.number) == (reports.MOST_ALIKE, reports.MOST_ALIKE + 5, reports.MOST_ALIKE + 6)


def test_records_are_found_where_they_stand(tmp_path):
    """In any order, as they are read from the first line on: behind rows of other kinds, of which not all are kept, and where pairs have more or less rows."""
    plan = "plan,A,{},{},2026-01-{:02},{},0,3,4,5\n".format
    pairs = [("X", 2), ("XX", 2), ("Y", 3), ("Z", 1)]
    rows = [[plan(name, period, 5 + 7 * period, period) for period in range(count)] for name, count in pairs]
    between = [["advice,defer,receipt,A,X,,0,2026-01-05,1,1,2026-01-12\n"] * (reports.MOST_ALIKE + 7), ["late,A,X,0,3,1\n"], [], []]
    (tmp_path / "report").write_text("".join(itertools.chain(*itertools.chain(*zip(between, rows)))), encoding="utf-8")
    places, names = {}, [("A", it) for it in ("Z", "X", "Y", "XX")]
    with open(tmp_path / "report", "rb") as file:
        found = [it for it in reports.parts(file, alike=reports.ADVICE_ROWS, places=places) if isinstance(it, reports.Record)]
        assert [it.item for it in found] == ["X", "XX", "Y", "Z"]
        wanted = {(it.plant, it.item): it for it in found}
        assert [*reports.records(file, places, names)] == [wanted[it] for it in names]


def test_reports_are_made_side_by_side(room, capfd):
    """Each into a file of its own, as often as there are processors at once; what the program says where it refuses is told once."""
    room.write("table.csv", "the table\n")
    room.write("words/made", '#!/bin/sh\nread -r line\necho "$* of $line"\n[ "$1" != no ] || { echo "mrp: refused" >&2; exit 1; }\n')
    asked, made = ("plan", "advice --reach", "no", "schedule"), {"MRP": f"{room.folder}/words/made"}
    with unittest.mock.patch.dict(os.environ, made), reports.Answers(asked, f"{room.folder}/table.csv", room.folder) as answers:
        for it in ("schedule", "plan", "advice --reach"):
            with answers.open(it) as file:
                assert file.read().decode() == f"{it} of the table\n"
        with pytest.raises(SystemExit) as end:
            answers.open("no")
    assert (end.value.code, capfd.readouterr().err) == (1, "mrp: refused\n")
