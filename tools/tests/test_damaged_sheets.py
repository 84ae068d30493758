"""Damaged sheets: bin/advices, bin/book and bin/sheets refuse them by slips that are counted, or read them; never otherwise."""
import glob
import os
import random
import re
import shutil

import firms
from support import TOP
from test_advices import EXAMPLE, write
from test_book import desk, FIRM, HEADS, MOTORS, PUMPS  # noqa: F401
from test_slips import run

SEEDS = 40
ENDED = r"(?:.*\n)*bin/{}: (?:\d+ slips?(?:, the first 100 of them above)?; nothing is written|{})\n"
DIFFER = r"the figures of \d+ items? differ; nothing is written\. Clear it with the supplier, or give --accept ITEM"


def test_damaged_advices_are_refused_or_written_whole(tmp_path):
    """Slips, figures that differ, or all sheets; the folder is as it was."""
    told = [0, 0]
    for seed in range(SEEDS):
        chance = random.Random(seed)
        name = chance.choice(sorted(EXAMPLE))
        write(tmp_path / "in", {**EXAMPLE, name: firms.damaged(chance, EXAMPLE[name].encode()).decode("utf-8", "ignore")})
        found = {it.name: it.read_bytes() for it in tmp_path.glob("in/*")}
        shutil.rmtree(tmp_path / "out", ignore_errors=True)
        status, printed, said = run(tmp_path, "bin/advices", "--out", "out", "in")
        written = sorted(it.name for it in tmp_path.glob("out/*"))
        assert (printed, {it.name: it.read_bytes() for it in tmp_path.glob("in/*")}) == ("", found), seed
        if status:
            assert status == 1
            assert re.fullmatch(ENDED.format("advices", DIFFER), said), (seed, said)
        assert written == ([] if status else ["cums.csv", "receipts.csv", "shipments.csv", "vendors.csv"]), (seed, said)
        told[status] += 1
    assert min(told) > 4


def test_damaged_sheets_of_the_week(tmp_path):
    """A table, or none and slips."""
    sheets = {}
    for folder in ("export", "written"):
        for path in glob.glob(f"{TOP}/examples/conveyors/{folder}/*"):
            with open(path, encoding="utf-8") as file:
                sheets[os.path.basename(path)] = file.read()
    # (advices have what is on its way)
    del sheets["shipments.csv"]
    told = [0, 0]
    for seed in range(SEEDS // 2):
        chance = random.Random(seed)
        name = chance.choice(sorted(sheets))
        found = {**sheets, name: firms.damaged(chance, sheets[name].encode()).decode("utf-8", "ignore")}
        write(tmp_path / "week", found)
        status, table, said = run(tmp_path, "bin/sheets", "--numbers", "1.234,5", "--today", "2026-11-30", "week")
        assert status == (0 if table else 1), (seed, name, said)
        assert not status or re.fullmatch(ENDED.format("sheets", "none"), said), (seed, name, said)
        told[status] += 1
    assert min(told) > 2


def test_damaged_orders_are_refused_or_booked(desk):  # noqa: F811
    """Slips and no sheet, or bookings."""
    told = [0, 0]
    report = f"{HEADS}\n{FIRM}\n{PUMPS}\n{MOTORS}\n".encode()
    for seed in range(SEEDS // 4):
        with open(f"{desk.folder}/orders.csv", "wb") as file:
            file.write(firms.damaged(random.Random(seed), report))
        said = desk.run("rm -rf new; bin/book --number K-1 --out new orders.csv firm 2>&1 || { echo refused; ls new 2> none || true; }")
        assert "Traceback" not in said, (seed, said)
        lines, word, written = said.partition("refused\n")
        if word:
            assert (bool(re.fullmatch(ENDED.format("book", "none"), lines)), written) == (True, ""), (seed, said)
        told[bool(word)] += 1
    assert min(told) > 1
