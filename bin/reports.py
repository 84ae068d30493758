"""The reports of mrp as the tools for planners read them, and how all tools speak. What a row is python/mrp.py says."""
import argparse
import concurrent.futures
import contextlib
import csv
import difflib
import functools
import heapq
import itertools
import mmap
import os
import re
import subprocess
import sys
from bisect import bisect_left
from datetime import timedelta
from itertools import accumulate
from typing import NamedTuple

HERE = os.path.dirname(os.path.realpath(__file__))
TOP = os.path.dirname(HERE)
# (mrp.py stands in python/, or beside this file where bin/install put both: so this module is imported before it)
sys.path.append(f"{TOP}/python")
import headed  # noqa: E402
import mrp  # noqa: E402
from mrp import Names, Refused  # noqa: E402

# (bin/install puts the tools for planners elsewhere, and links to them)
FOLDER = os.path.basename(os.path.dirname(os.path.realpath(sys.argv[0])))
TOOL = (f"{FOLDER}/" if FOLDER in ("bin", "tools") else "") + os.path.basename(sys.argv[0])
LABELS = ("Gross requirements", "Scheduled receipts", "Projected available")
LABELS += ("Planned order receipts", "Planned order releases")
WITH_DELAYS = "Available with delays"
# How the line of what is firm is labelled, below scheduled receipts and below planned order releases.
OF_WHICH_FIRM = "of which firm orders"
# How many names that are like one are told, and how much of a line.
MOST_NEAREST, WIDTH = 3, 240


class Record(NamedTuple):
    """The plan rows of a pair: a list for each figure, with an entry for each period."""

    plant: str
    item: str
    dates: list
    gross: list
    incoming: list
    order: list
    release: list
    available: list

    def on_hand(self):
        """Returns the stock before period 0: what is left of it in the balance of period 0."""
        return self.available[0] + self.gross[0] - self.incoming[0] - self.order[0]

    def with_delays(self, late):
        """Returns available with delays: projected available without the pair's late orders, each from where it is due
        until it comes, and so without receipts that count sooner."""
        left = list(self.available)
        for it in late:
            for period in range(it.period, min(it.period + it.by, len(left))):
                left[period] -= it.quantity
        return left


# A firm order among the planned orders of `mrp orders`: a row of the same columns, with its own word.
FirmOrder = mrp.ROWS["firm"]


class FirmOrders:
    """The firm orders of each pair, from the rows of `mrp orders`: how many pieces are due and released, by period."""

    READ = staticmethod(mrp.columns(FirmOrder, "plant", "item", "quantity", "release", "due"))

    def __init__(self):
        self.of = {}

    def take(self, line, number):
        """Takes a row over, and returns its pair and the period in which it is released."""
        plant, item, *figures = self.READ(line, number)
        quantity, release, due = map(int, figures)
        for sums, period in zip(self.of.setdefault((plant, item), ({}, {})), (due, release)):
            sums[period] = sums.get(period, 0) + quantity
        return (plant, item), release

    def figures(self, pair, periods):
        """Returns what is due of a pair's firm orders and what is released, each by period; or nothing where it has none."""
        return [[sums.get(period, 0) for period in range(periods)] for sums in self.of.get(pair, ())]


class Comes(NamedTuple):
    """What open orders and firm orders of a pair bring by their rows, a list of each kind with an entry for each period."""

    receipts: list
    ships: list
    firm: list


class Table:
    """The table at a path, of which rows are read when they are asked for. Without a path it has none."""

    def __init__(self, path=None):
        self.path = path

    def may_have(self, word):
        """Tells whether the table may have rows with a word, so that one without isn't read for them."""
        if not self.path:
            return False
        with open(self.path, "rb") as file:
            if os.fstat(file.fileno()).st_size == 0:
                return False
            with mmap.mmap(file.fileno(), 0, access=mmap.ACCESS_READ) as text:
                # (in quotes words may be spelled otherwise)
                return text.find(word) >= 0 or text.find(b'"') >= 0

    def rows(self, *kinds):
        """Yields the rows of some kinds in the table."""
        try:
            with mrp.open_table(self.path) as lines:
                yield from mrp.table_rows(lines, *kinds)
        except (IndexError, TypeError, ValueError, csv.Error) as fault:
            raise Refused(f"{self.path} is no table of mrp") from fault

    @functools.cached_property
    def run(self):
        """The run row."""
        return next(self.rows(mrp.Run))

    @functools.cached_property
    def calendar(self):
        """The days of the periods, by the run row and the day rows."""
        return mrp.calendar_of(self.run, [*(self.rows(mrp.Day) if self.may_have(b"day,") else ())])


class Policies(Table):
    """How a table says that pairs are planned beyond their own rows and bills. Without a table it says nothing."""

    NONE = mrp.Policy("", "", 0, 0, 0, 0, 0)
    LISTS = {mrp.Receipt: "receipts", mrp.Ship: "ships", mrp.Firm: "firm"}

    def __init__(self, path=None):
        super().__init__(path)
        self.of, self.periods = {}, 0
        for row in self.rows(mrp.Run, mrp.Policy) if self.may_have(b"policy,") else ():
            if isinstance(row, mrp.Run):
                self.periods = row.periods
            else:
                self.of[row.pair] = row

    @functools.cached_property
    def usages(self):
        """The usage rows of each plant, parent and component, by their periods."""
        found = {}
        for row in self.rows(mrp.Usage) if self.may_have(b"usage,") else ():
            found.setdefault(row[:3], []).append(row)
        return {names: sorted(rows, key=lambda it: it.period) for names, rows in found.items()}

    def policy(self, pair):
        """Returns the policy of a pair."""
        return self.of.get(pair, self.NONE)

    def earliest(self, row):
        """Returns the first period in which a planned order can be due that isn't late, of a pair's row."""
        return max(row.lead, self.policy((row.plant, row.item)).fence)

    def frozen(self, row):
        """Returns in how many periods no planned order is released, from the first on, of a pair's row."""
        return self.earliest(row) - row.lead

    @functools.cached_property
    def comes(self):
        """What comes in by rows, of each pair whose receipts may count sooner."""
        found = {pair: Comes(*([0] * self.periods for _ in "123")) for pair, it in self.of.items() if it.sooner}
        for row in self.rows(*self.LISTS) if found else ():
            if row.pair in found:
                period = row.due if isinstance(row, mrp.Firm) else row.period
                getattr(found[row.pair], self.LISTS[type(row)])[period] += row.quantity
        return found

    def sooner(self, pair, incoming):
        """Returns what a pair's plan counts of receipts before they come, from what comes in by the plan, as late orders are: the period
        in which it is counted, the pieces, and by how many periods later they come.
        """
        comes = self.comes.get(pair)
        if not comes:
            return []
        had = [*accumulate(it - ship - firm for it, ship, firm in zip(incoming, comes.ships, comes.firm))]
        due = [*accumulate(comes.receipts)]
        if had[-1:] != due[-1:]:
            raise Refused(f"{self.path} isn't the table of this report")
        ends = sorted({*had, *due} - {0})
        # (of receipts the pieces that come first are counted first)
        parts = ((bisect_left(had, end), end - before, bisect_left(due, end)) for before, end in zip([0, *ends], ends))
        return [mrp.Late(*pair, counted, pieces, period - counted) for counted, pieces, period in parts if counted < period]


def policy_words(policy, unit):
    """Yields what a policy says besides its fence, in words."""
    if policy.sooner:
        yield f"receipts count up to {counted(policy.sooner, unit)} sooner"
    if policy.cover:
        yield f"orders cover what is required in {counted(policy.cover, unit)} more"
    if policy.least or policy.multiple:
        least = [f"at least {policy.least:,}"] if policy.least else []
        yield "orders " + ", ".join([*least, *([f"in multiples of {policy.multiple:,}"] if policy.multiple else [])])


# What open orders are called that aren't in transit.
OPEN_ORDERS = {"receipt": "receipt", "firm": "firm order"}
# What is said of an open order of which requirements within the horizon don't tell when it is needed.
BEYOND = "not known yet: needed beyond the horizon"


def notes_of_firm(names, row):
    """Returns what the sheets say of a firm order: of those of its pair that are due in its period and have its quantity."""
    return [it for it in names.of("firm", row.plant, row.item, row.due) if it.startswith(f"{row.quantity} of ")]


def coming_late(names, calendar):
    """Returns the open orders of each pair, by kind, that really come later than they are due, by the names of sheets: as late orders."""
    found = {}
    for (kind, *pair), rows in names.comes.items():
        late = [mrp.Late(*pair, period, quantity, calendar.period(day) - period) for period, quantity, day in rows]
        if late := [it for it in late if it.by > 0]:
            found.setdefault(kind, {})[(*pair,)] = late
    return found


# What is said of an open order that is to be left as it is, because what the plan counts before it comes later.
LEAVE = "an open order that is due by then comes late"


def coming_late_of(names, calendar):
    """Returns the open orders of each pair that really come later than they are due, of all kinds together."""
    found = {}
    for rows in coming_late(names, calendar).values():
        for pair, late in rows.items():
            found.setdefault(pair, []).extend(late)
    return found


def advised(message, late):
    """Returns what to do with an open order by its message and the orders of its pair that come late: one to defer or to cancel is to
    be left where another one that is due by then isn't there yet when it comes, or where it comes late itself and no sooner than it is needed.
    """
    if message.action not in ("defer", "cancel"):
        return message.action
    own = next((it for it in late if (it.period, it.quantity) == (message.period, message.quantity)), None)
    comes = message.period + (own.by if own else 0)
    if own and message.needed is not None and message.needed <= comes:
        return "leave"
    is_ahead = any(it.period <= message.period and comes < it.period + it.by for it in late if it is not own)
    return "leave" if is_ahead else message.action


# The names of columns, as --header writes them above a report.
HEADERS = {mrp.header(it).encode() for it in mrp.REPORTS.values()}
PLAN = mrp.REPORT_FORMS["plan"]
names_of_pair = mrp.columns(mrp.Plan, "plant", "item")


def record_of(lines, number):
    """Returns the record of a pair from its rows, the last of which has that number in the report."""
    first = number - len(lines) + 1
    rows = [PLAN.texts(it.decode(errors="replace"), place) for place, it in enumerate(lines, first)]
    plan = mrp.Plan._make([*map(read, column)] for read, column in zip(PLAN.reads, zip(*rows)))
    if plan.period != list(range(len(rows))):
        raise Refused(f"row {number}: the periods of a pair don't count from 0")
    figures = plan.gross, plan.incoming, plan.order, plan.release, plan.available
    return Record(plan.plant[0], plan.item[0], plan.date, *figures)


def records(file, places, pairs):
    """Yields the records of some pairs, whose rows are found in a file by where they stand."""
    for plant, item in pairs:
        at, number = places[f"plan,{plant},{item},".encode()]
        file.seek(at)
        run = next(runs(file))
        yield record_of(run.lines, number + run.count - 1)


def day(dates, period):
    """Returns the first day of a period, of the days of a record."""
    if period >= len(dates):
        raise Refused(f"the report has an order in period {period}, and plan rows for {counted(len(dates), 'period')}")
    return dates[period]


class Line(NamedTuple):
    """A row of a report that isn't read yet, and its number."""

    text: str
    number: int


class Run(NamedTuple):
    """Rows of a report that begin alike and aren't read yet: the first of them, the number of the first, and how many they are."""

    lines: list
    number: int
    count: int


# How many fields are alike in the rows of a pair, by the first letters of a row, and how many rows of a run are kept.
PLAN_ROWS, ORDER_ROWS, ADVICE_ROWS, SCHEDULE_ROWS = {b"plan,": 3}, {b"order": 3}, {b"advic": 5}, {b"sched": 5}
MOST_ALIKE = 1000


def front_of(line, alike):
    """Returns how rows begin that are in a run with one, or nothing where it stands alone."""
    size = alike.get(line[:5], 0)
    fields = line.split(b",", size)
    return b",".join(fields[:size]) + b"," if 0 < size < len(fields) else b""


def runs(file, more=(), places=None):
    """Yields the lines of a report as a Run each: those of a pair's plan, of some other kinds those that begin alike, and each other line.

    The file gives bytes and is read once. Most pairs have as many rows as the first one: so many are taken at once. `places` gets of
    each pair, by how its rows begin, at which byte of the lines they stand, and the number of the first.
    """
    alike, lines, number, periods, at = {**PLAN_ROWS, **dict(more)}, iter(file), 1, 0, 0
    line = next(lines, b"")
    while line:
        front, rows = front_of(line, alike), [line]
        is_plan = front.startswith(b"plan,")
        if is_plan and periods > 1:
            taken = [*itertools.islice(lines, periods - 1)]
            if (b"\n" + b"".join(taken)).count(b"\n" + front) == periods - 1:
                rows += taken
            else:
                lines, periods = itertools.chain(taken, lines), -1
        count, passed, line = rest_of_run(lines, front, rows)
        periods = count if is_plan and not periods else periods
        if places is not None:
            places.update({front: (at, number)} if is_plan else ())
            at += sum(map(len, rows)) + passed
        yield Run(rows, number, count)
        number += count


def rest_of_run(lines, front, rows):
    """Adds to the rows of a run the lines that begin like it, as far as they are kept. Returns how many it has, the bytes of those that
    aren't kept, and the next line.
    """
    count, passed = len(rows), 0
    for line in lines:
        if not front or not line.startswith(front):
            return count, passed, line
        count += 1
        if count <= MOST_ALIKE:
            rows.append(line)
        else:
            passed += len(line)
    return count, passed, b""


def parts(file, wanted=lambda plant, item: True, unread=(), alike=(), places=None, runs_of_plan=False):
    """Yields the parts of a report in its order: a Record for each pair that is wanted, a pair of names for each other
    one, and each other row, as a Line where it begins with words of which many rows may stand unread, and as a part of
    a Run where its kind is one of those in which rows may begin alike.

    The file gives bytes and is read once; plan rows of pairs that aren't wanted, and rows of names, are passed over. `places` gets
    where plan rows stand, as runs has it; where runs of the plan are asked for there is one in the place of each Record.
    """
    run = None
    for run in runs(file, alike, places):
        line, number = run.lines[0], run.number
        if line.startswith(b"plan,") and runs_of_plan:
            yield run
        elif line.startswith(b"plan,"):
            pair = names_of_pair(line.decode(errors="replace"), number)
            yield record_of(run.lines, number + len(run.lines) - 1) if wanted(*pair) else pair
        elif line[:5] in alike:
            yield run
        elif line.startswith(unread):
            yield Line(line.decode(errors="replace"), number)
        elif line.rstrip() not in HEADERS:
            yield mrp.report_row(line.decode(errors="replace"), number)
    if not run:
        raise Refused("the report is empty")


class Sorted:
    """A report in a file, without names of columns, in which pairs stand in table order and a pair's rows by a rising number.

    Rows are found by halving, so that a large report isn't read.
    """

    def __init__(self, path, number, places):
        """Takes the name of the rising number, and the place of each pair in the table."""
        self.number, self.places = number, places
        with open(path, "rb") as file:
            is_empty = os.fstat(file.fileno()).st_size == 0
            self.bytes = b"" if is_empty else mmap.mmap(file.fileno(), 0, access=mmap.ACCESS_READ)

    def row(self, place):
        """Returns the row that begins at a byte, and where the next one begins."""
        end = self.bytes.find(b"\n", place) + 1 or len(self.bytes)
        return mrp.report_row(self.bytes[place:end].decode(errors="replace"), f"at byte {place}"), end

    def key(self, row):
        return self.places[row.plant, row.item], getattr(row, self.number)

    def first(self, key):
        """Returns where the first row stands whose key isn't below another."""
        low, high = 0, len(self.bytes)
        while low < high:
            middle = self.bytes.rfind(b"\n", low, (low + high) // 2) + 1 or low
            row, end = self.row(middle)
            low, high = (end, high) if self.key(row) < key else (low, middle)
        return low

    def rows(self, pair, number=0, end=10**16):
        """Yields the rows of a pair with that number up to another, which isn't among them."""
        at, last = self.first((self.places[pair], number)), (self.places[pair], end)
        while at < len(self.bytes):
            row, at = self.row(at)
            if self.key(row) >= last:
                return
            yield row


class Words(argparse.ArgumentParser):
    """The words of a tool. Its docstring is the help, and wrong words are refused in a line, with status 2."""

    def __init__(self, usage, text):
        name = usage.split()[0]
        usage, text = usage.replace(name, TOOL), text.replace(name, TOOL)
        super().__init__(prog=TOOL, usage=usage, description=text, formatter_class=argparse.RawDescriptionHelpFormatter)

    def error(self, message):
        print(f"{self.prog}: {message}", file=sys.stderr)
        sys.exit(2)


def names(path):
    """Returns the names of a file of bin/sheets --names, which may have letters that the terminal's encoding hasn't."""
    sys.stdout.reconfigure(encoding="utf-8")
    return Names(path)


def add_names(parser):
    """Adds the option of a tool that shows the names of sheets."""
    text = "show the names, descriptions and notes that bin/sheets --names has kept"
    parser.add_argument("--names", metavar="FILE", type=names, default=Names(), help=text)


def add_forms(parser):
    """Adds the options of a tool that reads sheets: how their dates and numbers are written."""
    parser.add_argument("--dates", choices=("d/m/y", "m/d/y"), help="what stands first in a date with slashes")
    text = "how numbers are written, with signs for thousands and decimals: 1.234,5 or 1,234.5"
    parser.add_argument("--numbers", metavar="FORM", choices=headed.FORMS, help=text)


# Behind the word of each report that a tool asks for: --large, where the tool was given it.
LIMITS = []


class Large(argparse.Action):
    """Has all reports that a tool asks for be within the limits of --large."""

    def __call__(self, *_):
        LIMITS[:] = ["--large"]


def add_large(parser):
    """Adds the option of a tool that asks the program."""
    parser.add_argument("--large", action=Large, nargs=0, help="ask mrp with --large, which takes greater tables")


def add_out(parser):
    """Adds the option of a tool that writes one file."""
    text = "write this file, in whose place it comes once all went well, and not standard output"
    parser.add_argument("--out", metavar="FILE", help=text)


@contextlib.contextmanager
def output(path):
    """Gives standard output, or where a path is given a file beside it, which takes its place at the end and is gone
    where anything fails."""
    if path is None:
        yield sys.stdout
        return
    beside = f"{path}.new"
    try:
        with open(beside, "w", encoding="utf-8", newline="") as file:
            yield file
        os.replace(beside, path)
    finally:
        with contextlib.suppress(OSError):
            os.remove(beside)


def put(files, folder):
    """Puts files into a folder, their bytes by their names: all of them, or none."""
    os.makedirs(folder, exist_ok=True)
    paths = {f"{folder}/{name}": found for name, found in files.items()}
    before, done = {it: kept_bytes(it) for it in paths}, []
    try:
        for path, found in paths.items():
            with open(f"{path}.new", "wb") as file:
                file.write(found)
        for path in paths:
            os.replace(f"{path}.new", path)
            done.append(path)
    except OSError:
        for path in done:
            restore(path, before[path])
        raise
    finally:
        for path in paths:
            with contextlib.suppress(OSError):
                os.remove(f"{path}.new")


def kept_bytes(path):
    """Returns what a file has, or nothing where there is none."""
    with contextlib.suppress(FileNotFoundError), open(path, "rb") as file:
        return file.read()
    return None


def restore(path, found):
    """Gives a file back what it had, or takes it away."""
    if found is None:
        os.remove(path)
    else:
        with open(path, "wb") as file:
            file.write(found)


def counted(number, word):
    """Returns a number with its word, as 1 period and 2 periods."""
    return f"{number:,} {word}" if number == 1 else f"{number:,} {word}s"


def say(lines):
    """Writes lines to standard error, without what a terminal can't show."""
    for it in lines:
        print("".join(letter if letter.isprintable() else "?" for letter in it[:WIDTH]), file=sys.stderr)


def no_slips(slips):
    """Refuses sheets that have slips, and tells the first of these."""
    lines = slips.lines()
    say(lines[: headed.MOST_SLIPS])
    if lines:
        more = f", the first {headed.MOST_SLIPS} of them above" if len(lines) > headed.MOST_SLIPS else ""
        raise Refused(f"{counted(len(lines), 'slip')}{more}; nothing is written")


def count(text):
    """Returns a number of at least 1 that a word says."""
    if not re.fullmatch("[1-9][0-9]{0,8}", text):
        raise argparse.ArgumentTypeError(f"{text!r} is no number from 1 on")
    return int(text)


def moment(text):
    """Returns the period that a word says, or the day."""
    if re.fullmatch("0|[1-9][0-9]{0,2}", text):
        return int(text)
    try:
        return headed.day(text, None)
    except headed.Slip:
        said = f"{text!r} is no period and no day; write it as 3 or as 2026-12-07"
        raise argparse.ArgumentTypeError(said) from None


def period_of(when, table):
    """Returns the period that a word says, of a day the one that holds it. A day outside the plan of a Table is refused."""
    if isinstance(when, int):
        return when
    period, run = table.calendar.period(when), table.run
    if not 0 <= period < run.periods:
        last = table.calendar.first_day(run.periods) - timedelta(days=1)
        raise Refused(f"{when} is not in the plan, which goes from {run.first} to {last}")
    return period


def nearest(text, names):
    """Returns the names that are most like a text, three at most, as a question in brackets, or nothing.

    Of each name it takes what is compared and what is told.
    """
    plain, wanted = {it.casefold(): told for it, told in names}, text.casefold()
    # (of many names those that share the most pairs of letters, for matching takes long)
    likely = heapq.nlargest(30, plain, key=lambda it: len({*zip(it, it[1:])} & {*zip(wanted, wanted[1:])}))
    found = difflib.get_close_matches(wanted, likely, MOST_NEAREST)
    return f" ({', '.join(plain[it] for it in found)}?)" if found else ""


def no_pair(where, plant, item, pairs, names):
    """Refuses a pair that isn't among those of a table or report.

    It names the plants that keep the item, else the nearest items of the plant, else the nearest pairs.
    """
    known = [(pair, names.own(*pair)) for pair in pairs]
    same = [" ".join(own) for pair, own in known if item in (pair[1], own[1])][:MOST_NEAREST]
    here = [(own[1], " ".join(own)) for pair, own in known if plant in (pair[0], own[0])]
    if same:
        meant = f" ({', '.join(same)}?)"
    elif here:
        meant = nearest(item, here)
    else:
        meant = nearest(f"{plant} {item}", [2 * (" ".join(own),) for _, own in known])
    raise Refused(f"{where} has no pair {plant} {item}{meant}")


def asking(word, *more):
    """Returns the command that has the program answer: the one that MRP names, else the one on the path, else bin/mrp."""
    return [mrp.program().path, word, *LIMITS, *more]


def ask(words, table, file):
    """Has the program write a report of a table into a file. Where it refuses, it has said why, and the tool ends."""
    file.flush()
    with open(table, "rb") as rows:
        if subprocess.run(asking(*words.split()), stdin=rows, stdout=file, check=False).returncode:
            sys.exit(1)


class Answers:
    """Reports of the table at a path, that the program makes side by side, as many at once as there are processors, each in a file of a folder.

    It is a context, that ends once the program does.
    """

    # (each takes as much memory as the program)
    MOST = 4

    def __init__(self, asked, table, folder):
        self.pool = concurrent.futures.ThreadPoolExecutor(min(self.MOST, len(os.sched_getaffinity(0))))
        self.path, self.table = f"{folder}/{{}}.csv".format, table
        self.found = {words: self.pool.submit(self.ask, words) for words in asked}

    def __enter__(self):
        return self

    def __exit__(self, *_):
        self.pool.shutdown(cancel_futures=True)

    def ask(self, words):
        """Has the program write a report, and returns what it says and its status."""
        with open(self.table, "rb") as rows, open(self.path(words), "wb") as file:
            done = subprocess.run(asking(*words.split()), stdin=rows, stdout=file, stderr=subprocess.PIPE, check=False)
        return done.stderr, done.returncode

    def open(self, words, name=""):
        """Returns a report, once it is there, as a file to be closed. Where it is refused the tool says what the program said, behind the
        name of the table where it isn't the one that was handed in, and ends.
        """
        said, status = self.found[words].result()
        sys.stderr.write(f"{name}: " * bool(name and said) + said.decode(errors="replace"))
        if status:
            sys.exit(1)
        return open(self.path(words), "rb")


def run(main):
    """Runs a tool and ends with its status: 0, or 1 with a line on standard error where the input is refused."""
    try:
        main()
        sys.stdout.flush()
    except (Refused, OSError) as fault:
        if isinstance(fault, BrokenPipeError):
            # (who reads the output wants no more of it)
            os.dup2(os.open(os.devnull, os.O_WRONLY), sys.stdout.fileno())
            sys.exit(0)
        print(f"{TOOL}: {fault}", file=sys.stderr)
        sys.exit(1)
    except KeyboardInterrupt:
        sys.exit(130)
