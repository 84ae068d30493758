"""What tests of several tools use: rooms, stand-ins, tables and reports that were worked by hand."""
import contextlib
import datetime
import functools
import glob
import html.parser
import importlib.machinery
import importlib.util
import itertools
import os
import random
import re
import shutil
import subprocess
import sys
import tempfile

import cases
import firms
import oracle
import pytest

TOP = os.path.dirname(os.path.dirname(os.path.dirname(os.path.realpath(__file__))))
STAND_INS = f"{TOP}/tools/tests/stand_ins"


def skip(want):
    """Skips the test, which wants what isn't here."""
    pytest.skip(f"for want of {want}")


def wants(*words):
    """Skips the test where none of the commands is there, and returns the first that is."""
    return next((it for it in words if shutil.which(it)), None) or skip(words[0])


def program():
    """Returns the path of the program, or nothing where there is none."""
    return os.path.abspath(os.environ["MRP"]) if os.environ.get("MRP") else proved("mrp", "mrp")


@functools.cache
def proved(crate, name):
    """Returns the path of what a crate makes, or nothing where it isn't built of the sources."""
    done = subprocess.run([f"{TOP}/tools/prove", "--ask", crate, name], check=False)
    return None if done.returncode else f"{TOP}/crates/{crate}/out/{name}"


class Room:
    """A folder for a test, which looks like the top of the repository, with mrp on the path.

    Where there is no program, `mrp` answers from the reports that are stored beside the examples, and a test that asks for
    more is skipped.
    """

    def __init__(self, folder):
        self.folder, self.program, self.mrp = folder, program(), f"{folder}/words/mrp"
        for name in ("bin", "completions", "crates", "docs", "examples", "include", "python", "tools"):
            os.symlink(f"{TOP}/{name}", f"{folder}/{name}")
        os.mkdir(f"{folder}/words")
        # (the tools run by the Python that runs the tests)
        os.symlink(sys.executable, f"{folder}/words/python3")
        if self.program:
            os.symlink(self.program, self.mrp)
        else:
            self.stand_in("words/mrp", "mrp", examples=f"{TOP}/examples")
        self.variables = {
            **os.environ,
            "MRP": self.mrp,
            "PATH": f"{folder}/words:{os.environ['PATH']}",
            "PYTHONDONTWRITEBYTECODE": "1",
        }

    def write(self, name, text):
        """Writes a file that can be run."""
        with open(f"{self.folder}/{name}", "w", encoding="utf-8") as file:
            file.write(text)
        os.chmod(file.name, 0o755)

    def stand_in(self, path, of, **words):
        """Puts a program of stand_ins/ into a place, with words in the place of their names between @."""
        with open(f"{STAND_INS}/{of}", encoding="utf-8") as file:
            text = file.read()
        for word, value in words.items():
            text = text.replace(f"@{word}@", value)
        self.write(path, text)

    def run(self, command, status=0):
        """Runs a command by bash, and returns what it wrote; on standard error too where another status is wanted."""
        how = {"cwd": self.folder, "env": self.variables, "stdin": subprocess.DEVNULL, "text": True, "check": False}
        done = subprocess.run(["bash", "-euo", "pipefail", "-c", command], capture_output=True, timeout=300, **how)
        if os.path.exists(f"{self.mrp}.asked"):
            skip("the program")
        said = f"{command}\nended with {done.returncode} in place of {status}\n{done.stdout}{done.stderr}"
        assert done.returncode == status, said
        return done.stdout if status == 0 else done.stdout + done.stderr

    def needs_program(self):
        """Skips what is left of the test where there is no program."""
        if not self.program:
            skip("the program")


def reports_from_files(room, table, *words):
    """Writes a table, and reports of it that tools/oracle.py makes, for the program words/files."""
    room.write("table.csv", table)
    room.stand_in("words/files", "from_files")
    for it in words:
        room.write(f"{it.split()[0]}.csv", oracle.Oracle(table.encode()).answer(it).out.decode())


def cut_anywhere(program, table, end=b"\n"):
    """Has the program refuse a whole table that is cut behind each of its bytes; without the end of its last line it is whole."""
    assert table.endswith(end)
    words = [program, "check", "--whole"]
    whole = subprocess.run(words, input=table, capture_output=True, check=True)
    for count in range(len(table)):
        done = subprocess.run(words, input=table[:count], capture_output=True, check=False)
        if count >= len(table) - len(end):
            assert (done.returncode, done.stdout) == (0, whole.stdout)
        else:
            line = rb"mrp: row [0-9]+: (Cut|Empty|FieldCount|UnknownKind|UnknownPair|Bad[A-Z][a-z]+|CalendarFault [A-Za-z]+)\n"
            assert (done.returncode, done.stdout, bool(re.fullmatch(line, done.stderr))) == (1, b"", True), (table[:count], done)


COMMANDS = ("plan", "check", "peg", "cums", "orders", "schedule", "pegs", "advice", "shortages")
# Two items that are bought, and whose first orders come late.
DELAYED = """\
run,2026-01-05,7,5,,,,
plant,A,,,,,,
pair,A,X,buy,lot,3,10,2
pair,A,Y,buy,fixed:8,6,9,5
pair,A,Z,buy,lot,1,3,0
demand,A,X,0,4,,,
demand,A,X,1,7,,,
demand,A,X,2,5,,,
demand,A,X,4,6,,,
demand,A,Y,1,5,,,
demand,A,Y,4,7,,,
"""
# By hand. X: 10 - 4 = 6; 6 - 7 = -1, so 3 are ordered up to its safety stock of 2; 2 - 5 = -3, so 5; 2; 2 - 6 = -4, so
# 6, which are released in period 1, a lead time of 3 before. The 3 and the 5 should have been released before period 0.
# Y: 9; 9 - 5 = 4, below its safety stock of 5, so a lot of 8: 12; 12; 12; 12 - 7 = 5. The 8 are due in period 1, and a
# lead time is 6.
DELAYED_PLAN = """\
plan,A,X,0,2026-01-05,4,0,0,8,6
plan,A,X,1,2026-01-12,7,0,3,6,2
plan,A,X,2,2026-01-19,5,0,5,0,2
plan,A,X,3,2026-01-26,0,0,0,0,2
plan,A,X,4,2026-02-02,6,0,6,0,2
plan,A,Y,0,2026-01-05,0,0,0,8,9
plan,A,Y,1,2026-01-12,5,0,8,0,12
plan,A,Y,2,2026-01-19,0,0,0,0,12
plan,A,Y,3,2026-01-26,0,0,0,0,12
plan,A,Y,4,2026-02-02,7,0,0,0,5
plan,A,Z,0,2026-01-05,0,0,0,0,3
plan,A,Z,1,2026-01-12,0,0,0,0,3
plan,A,Z,2,2026-01-19,0,0,0,0,3
plan,A,Z,3,2026-01-26,0,0,0,0,3
plan,A,Z,4,2026-02-02,0,0,0,0,3
late,A,X,1,3,2
late,A,X,2,5,1
late,A,Y,1,8,5
"""
# With delays, by hand. X: 6; 6 - 7 = -1; -1 - 5 = -6; in period 3, a lead time from now, the 3 and the 5 come: -6 + 3 +
# 5 = 2; 2 + 6 - 6 = 2. Y: the 8 would come in period 6, after the last: 9; 9 - 5 = 4; 4; 4; 4 - 7 = -3.
WITH_DELAYS = {"X": (6, -1, -6, 2, 2), "Y": (9, 4, 4, 4, -3)}


def plan_rows(first, days, orders, late=(), gross=None, incoming=None):
    """Returns a report in which plant A has these orders of some items, by period, and if given a gross requirement in
    period 0, and what comes in.
    """
    start, rows = datetime.date.fromisoformat(first), []
    for item, row in orders.items():
        wanted, comes = (gross or {}).get(item, 0), (incoming or {}).get(item, [0] * len(row))
        for t, it in enumerate(row):
            rows.append(
                f"plan,A,{item},{t},{start + datetime.timedelta(days=days * t)},{0 if t else wanted},{comes[t]},{it},0,0\n"
            )
    return "".join(rows + [f"late,A,{item},{t},{orders[item][t]},{by}\n" for item, t, by in late])


class Tags(html.parser.HTMLParser):
    """The articles of a page, and whether each tag is ended by its own."""

    EMPTY = ("meta", "br", "input", "path")

    def __init__(self, text):
        super().__init__()
        self.open, self.articles = [], []
        self.feed(text)
        assert self.open == []

    def handle_starttag(self, tag, attrs):
        if tag not in self.EMPTY:
            self.open.append(tag)
        if tag == "article":
            self.articles.append((dict(attrs)["data-plant"], dict(attrs)["data-item"]))

    def handle_startendtag(self, tag, attrs):
        pass

    def handle_endtag(self, tag):
        assert tag == self.open.pop()


def listed(text, name):
    """Returns the cells of a list of the page, by rows, as they are read."""
    section = re.search(f'<section id="{name}">(.*?)</section>', text, re.DOTALL)[1]
    return [
        [re.sub("<[^>]*>", "", it) for it in re.findall("<td[^>]*>(.*?)</td>", row)]
        for row in re.findall("<tr>(<td.*?)</tr>", section)
    ]


def module_of(name, folder="tools"):
    """Returns the module of a tool, which isn't run."""
    loader = importlib.machinery.SourceFileLoader(name, f"{TOP}/{folder}/{name}")
    tool = importlib.util.module_from_spec(importlib.util.spec_from_loader(name, loader))
    loader.exec_module(tool)
    return tool


def read_terminal(end):
    """Returns what a terminal was given, and nothing once its other end is closed."""
    try:
        return os.read(end, 4096)
    except OSError:
        return b""


def answered(room, words, table, variables, path=None):
    """Returns status, output and errors of the program, or of another."""
    how = {"env": {**room.variables, **variables}, "capture_output": True, "timeout": 300, "check": False}
    done = subprocess.run([path or room.mrp, *words.split()], input=table, **how)
    return done.returncode, done.stdout, done.stderr


def some_tables():
    """Yields the tables of the examples, and random ones, of which some are damaged."""
    for path in cases.examples():
        with open(path, "rb") as file:
            yield file.read()
    for seed in range(40):
        chance = random.Random(seed)
        table = firms.table(chance, 6, 14)
        yield firms.damaged(chance, table) if seed % 3 == 0 else table


def reads_each_report(program, mrp, by, names):
    """Has python/mrp.py read these reports of many tables by a program or a library: the report, or a fault with the
    program's line and row.
    """
    words = {kind: word for word, kind in mrp.ROWS.items()}
    counts = [0, 0]
    for text, name in itertools.product(some_tables(), names):
        wanted = subprocess.run([program, name], input=text, capture_output=True, check=False)
        try:
            rows = mrp.report(by, name, text)
            got = "".join(
                ",".join((words[type(it)], *("" if field is None else str(field) for field in it))) + "\n"
                for it in rows
            )
            assert (wanted.returncode, got) == (0, wanted.stdout.decode())
        except mrp.Fault as fault:
            named = re.search(r"row (\d+)", fault.text)
            assert (f"{fault}\n", fault.row) == (wanted.stderr.decode(), int(named[1]) if named else None)
            assert fault.name and fault.name in fault.text.removeprefix("mrp: ")
        counts[wanted.returncode] += 1
    assert counts[0] > 100
    assert counts[1] > 30


@contextlib.contextmanager
def postgresql(room):
    """Runs a server of PostgreSQL for a test, which psql finds by the room's variables. It may not be of root."""
    found = next((it for it in ("initdb", *glob.glob("/usr/lib/postgresql/*/bin/initdb")) if shutil.which(it)), None)
    if not found or int(re.search(r"\) (\d+)", room.run(f"{found} --version"))[1]) < 15:
        skip("PostgreSQL 15")
    with tempfile.TemporaryDirectory(dir="/tmp") as folder:
        own = ""
        if os.getuid() == 0:
            own = "setpriv --reuid=nobody --regid=nogroup --clear-groups"
            shutil.chown(folder, "nobody")
        control = (
            f"cd {folder} && {own} {os.path.dirname(os.path.realpath(shutil.which(found)))}/pg_ctl -s -D {folder}/data"
        )
        room.run(f"{control} init -o '-A trust -U postgres -E UTF8 --locale=C -N'")
        room.run(f"""{control} start -w -l {folder}/log -o "-k {folder} -c listen_addresses=''" """)
        kept, room.variables = room.variables, {**room.variables, "PGHOST": folder, "PGUSER": "postgres"}
        try:
            yield
        finally:
            room.variables = kept
            room.run(f"{control} stop -m immediate")


def sections():
    """Returns the sections of the pages with recipes, by page and head: the commands of each, and what they print."""
    found = {}
    for page in ("cookbook", "cumulative", "integrate", "limits", "night", "sheets"):
        with open(f"{TOP}/docs/{page}.md", encoding="utf-8") as file:
            parts = file.read().split("\n## ")[1:]
        for it in parts:
            steps = re.findall(r"^```sh\n(.*?)^```\n(?:```\n(.*?)^```$)?", it, re.MULTILINE | re.DOTALL)
            found[f"{page}: {it.partition(chr(10))[0]}"] = steps
    return found


def write_from_recipe(room, name):
    """Writes a file as a recipe has it."""
    commands = "\n".join(command for steps in sections().values() for command, _ in steps)
    room.run(re.search(f"^cat > {name} <<'END'\n.*?^END\n", commands, re.MULTILINE | re.DOTALL)[0])
