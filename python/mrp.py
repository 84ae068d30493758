"""Plans by mrp from Python: the rows of a table in, the rows of a report out.

    import datetime, mrp

    table = mrp.Table([mrp.Run(datetime.date(2026, 1, 5), 7, 4), mrp.Plant("P1"),
                       mrp.Pair("P1", "BIKE", "make", "lot", 1, 0, 0),
                       mrp.Demand("P1", "BIKE", datetime.date(2026, 1, 26), 10)])
    for order in mrp.orders(table, until=0):
        print(order.item, order.quantity, order.due_date)

It needs this file and either the library or the program. The library is the shared object that MRP_LIBRARY names, or
libmrp.so beside this file; the program is the one that MRP names, else the mrp on the path, else the one beside this
file or in bin/ of the sources. Both answer with the same bytes. What is refused raises Fault. With large=True a report is of
a table up to the limits of --large.

Tables, reports and dates are read without either. The tools for planners read by this module: here stand the columns
of each row of a table and of a report, once, with how each is spelled and what it is read as.
"""
import csv
import functools
import io
import os
import re
import shutil
import subprocess
from bisect import bisect_right
from collections import Counter
from datetime import date, datetime, timedelta
from typing import NamedTuple

HERE = os.path.dirname(os.path.abspath(__file__))
# (the last period of a table, usually and with --large)
LAST_PERIOD, LAST_OF_LARGE, FIELDS = 103, 519, 8


class Refused(Exception):
    """The input is refused. The text says why, in a line."""


# How fields are spelled.


@functools.lru_cache(4096)
def day_of(text):
    """Returns the day that a text spells, as 2026-01-05."""
    try:
        return date.fromisoformat(text)
    except ValueError:
        raise Refused(f"{text} is no day") from None


class Spelling:
    """How a field is spelled, as a pattern, and what its text is read as. One that may be empty is then None, and so is a word for none."""

    def __init__(self, pattern, read=str, is_period=False, may_be_empty=False, none=""):
        self.pattern, self.read, self.is_period, self.may_be_empty, self.none = pattern, read, is_period, may_be_empty, none

    def __call__(self, text):
        """Returns what a text is read as."""
        return self.read(text) if text else None

    def or_empty(self):
        return Spelling(self.pattern, self.read, self.is_period, True)

    def group(self, is_read=True):
        """Returns the pattern of the field in that of a row, as a group where it is read."""
        return f"({'' if is_read else '?:'}{self.pattern}){'?' if self.may_be_empty else ''}"


def one_of(*words):
    return Spelling("|".join(words))


class Per(NamedTuple):
    """So many pieces of a component go into so many parents, as a usage row says where these aren't 1. It is spelled 103/100."""

    per: int
    base: int
    # (it is no number)
    __mul__ = __rmul__ = None

    def __str__(self):
        return f"{self.per}/{self.base}"

    def pieces(self, parents):
        """Returns the pieces for some parents, rounded up."""
        return -(-self.per * parents // self.base)


def per_of(text):
    """Returns how many pieces go into one parent, or a Per."""
    per, mark, base = text.partition("/")
    return Per(int(per), int(base)) if mark else int(per)


NAME = Spelling("[A-Za-z0-9._-]{1,20}")
NUMBER = Spelling("0|[1-9][0-9]{0,15}", int)
# (in a table a date may stand in the place of a period)
PERIOD = Spelling(NUMBER.pattern, int, is_period=True)
# The last of some periods, if there is one.
LAST = Spelling(f"{NUMBER.pattern}|none", lambda text: None if text == "none" else int(text), none="none")
# Pieces of a component in a parent: in reports a number, or a Per.
PER = Spelling(f"(?:{NUMBER.pattern})(?:/[1-9][0-9]{{0,15}})?", per_of)
DATE = Spelling("[0-9]{4}-[0-9]{2}-[0-9]{2}", day_of)
SUPPLY = Spelling("make|buy|from:[A-Za-z0-9._:-]{1,99}")
RULE = Spelling("lot|(?:fixed|periods|min):[0-9:]{1,27}")


# The rows of a table, in the order of their kinds. The word of a kind is the name of its class in small letters.


class Run(NamedTuple):
    """The first day of the plan, the days of a period, and how many periods there are."""

    first: DATE
    days: NUMBER
    periods: NUMBER


class Plant(NamedTuple):
    """A plant."""

    plant: NAME


class Pair(NamedTuple):
    """An item at a plant: how it is supplied, in which lots, how many periods that takes, and what is there of it."""

    plant: NAME
    item: NAME
    supply: SUPPLY
    rule: RULE
    lead: NUMBER
    on_hand: NUMBER
    safety: NUMBER


class Bill(NamedTuple):
    """So many pieces of a component go into each parent."""

    plant: NAME
    parent: NAME
    component: NAME
    per: NUMBER


class Demand(NamedTuple):
    """Pieces that customers want in a period."""

    plant: NAME
    item: NAME
    period: PERIOD
    quantity: NUMBER


class Receipt(NamedTuple):
    """An open order, which comes in a period."""

    plant: NAME
    item: NAME
    period: PERIOD
    quantity: NUMBER

    @property
    def pair(self):
        """The pair that it comes in for."""
        return self.plant, self.item


class Ship(NamedTuple):
    """Pieces that are under way between two plants, and come in a period."""

    sender: NAME
    receiver: NAME
    item: NAME
    period: PERIOD
    quantity: NUMBER

    @property
    def pair(self):
        """The pair that it comes in for."""
        return self.receiver, self.item


class Cum(NamedTuple):
    """The cumulative figure that a receiver has booked of an item from a sender."""

    sender: NAME
    receiver: NAME
    item: NAME
    figure: NUMBER


class Reset(NamedTuple):
    """The period in which the cumulative figures of an item between two plants start anew."""

    sender: NAME
    receiver: NAME
    item: NAME
    period: PERIOD


class Firm(NamedTuple):
    """A firm planned order, which is released in one period and comes in another. No plan moves it."""

    plant: NAME
    item: NAME
    start: PERIOD
    due: PERIOD
    quantity: NUMBER

    @property
    def pair(self):
        """The pair that it comes in for."""
        return self.plant, self.item


class Policy(NamedTuple):
    """How a pair is planned beyond its own row. Each is 0 where there is none of it.

    No planned order is released in periods below `fence` less the lead time. Receipts count where requirements lack them, up
    to `sooner` periods before they come. Orders cover what is required in their period and in `cover` more. They have at least
    `least` pieces, and are multiples of `multiple`.
    """

    plant: NAME
    item: NAME
    # (so many periods, and not one of them)
    fence: NUMBER
    sooner: NUMBER
    cover: NUMBER
    least: NUMBER
    multiple: NUMBER

    @property
    def pair(self):
        """The pair that is planned so."""
        return self.plant, self.item


class Usage(NamedTuple):
    """Of parents that are released in a period and later, so many pieces of a component go into so many, and not what the bill says."""

    plant: NAME
    parent: NAME
    component: NAME
    period: PERIOD
    per: NUMBER
    base: NUMBER


class Vendor(NamedTuple):
    """Who delivers a bought pair by cumulative schedules: the figure that is booked from the vendor, the pieces that are under way, and
    the period in which figures start anew, or None."""

    vendor: NAME
    plant: NAME
    item: NAME
    figure: NUMBER
    transit: NUMBER
    reset: PERIOD.or_empty() = None

    @property
    def pair(self):
        """The pair that is delivered."""
        return self.plant, self.item


class Day(NamedTuple):
    """The first day of a period. Those behind it follow by the days of the run row."""

    # (so a date can't stand in its place)
    period: NUMBER
    date: DATE


class End(NamedTuple):
    """The end of a table, with the number of rows before it: a table without it may be cut."""

    rows: NUMBER


# The kinds of rows, by the names of their lists in a table.
LISTS = {"runs": Run, "plants": Plant, "pairs": Pair, "bills": Bill, "demands": Demand}
LISTS |= {"receipts": Receipt, "ships": Ship, "cums": Cum, "resets": Reset, "firms": Firm, "policies": Policy, "usages": Usage}
LISTS |= {"vendors": Vendor, "days": Day, "ends": End}
KINDS = tuple(LISTS.values())


# The rows of reports. Dates are dates, and what a row hasn't is None.


class Plan(NamedTuple):
    """The plan of a pair in a period."""

    plant: NAME
    item: NAME
    period: NUMBER
    date: DATE
    gross: NUMBER
    incoming: NUMBER
    order: NUMBER
    release: NUMBER
    available: NUMBER


class Late(NamedTuple):
    """A late order: due in `period`, which is `by` periods before it can come."""

    plant: NAME
    item: NAME
    period: NUMBER
    quantity: NUMBER
    by: NUMBER


class Order(NamedTuple):
    """A planned order: the periods of its release and due date, and their first days; `late` periods are missing."""

    plant: NAME
    item: NAME
    supply: SUPPLY
    quantity: NUMBER
    release: NUMBER
    release_date: DATE
    due: NUMBER
    due_date: DATE
    late: NUMBER


# (in the place of `order` its rows have the word `firm`)
FirmOrder = NamedTuple("FirmOrder", Order.__annotations__.items())
FirmOrder.__doc__ = "A firm planned order, with the columns of a planned one. It is never late."


class Schedule(NamedTuple):
    """A row of a delivery schedule: its opening, without period and date, a call, or a reset, without a quantity."""

    kind: one_of("opening", "call", "reset")
    supplier: NAME
    customer: NAME
    item: NAME
    period: NUMBER.or_empty()
    date: DATE.or_empty()
    quantity: NUMBER.or_empty()
    cumulative: NUMBER


class Code(NamedTuple):
    """The low-level code of a pair."""

    plant: NAME
    item: NAME
    code: NUMBER


class Reach(NamedTuple):
    """How far a pair's plan is whole: the last period whose gross requirements, and whose releases, stay what they are whatever is
    wanted behind the horizon. Each is None where there is no such period."""

    plant: NAME
    item: NAME
    period: LAST
    release: LAST


class Lane(NamedTuple):
    """The cumulative figures of an item on a lane between two plants."""

    kind: one_of("despatch", "schedule")
    sender: NAME
    receiver: NAME
    item: NAME
    opening: NUMBER
    shipped: NUMBER
    received: NUMBER
    transit: NUMBER


class Term(NamedTuple):
    """A term of the gross requirement that `mrp peg` was asked for, and the pair that asks for it."""

    source: one_of("demand", "bill", "plant")
    plant: NAME
    item: NAME
    release: NUMBER
    per: PER
    quantity: NUMBER


class Peg(NamedTuple):
    """A term of the gross requirement of a pair in a period, and the pair that asks for it."""

    plant: NAME
    item: NAME
    period: NUMBER
    source: one_of("demand", "bill", "plant")
    by_plant: NAME
    by_item: NAME
    release: NUMBER
    per: PER
    quantity: NUMBER


class Advice(NamedTuple):
    """A message for an open order that comes in `period`. One to cancel isn't needed before the horizon ends, and of one beyond it
    isn't known yet when it is needed; only a shipment has a supplier."""

    action: one_of("expedite", "defer", "cancel", "beyond")
    kind: one_of("receipt", "ship", "firm")
    plant: NAME
    item: NAME
    supplier: NAME.or_empty()
    period: NUMBER
    date: DATE
    quantity: NUMBER
    needed: NUMBER.or_empty()
    needed_date: DATE.or_empty()


class Shortage(NamedTuple):
    """A requirement of this period of which `short` pieces aren't there: a term of it, and the pair that asks for it."""

    plant: NAME
    item: NAME
    source: one_of("demand", "bill", "plant")
    by_plant: NAME
    by_item: NAME
    quantity: NUMBER
    short: NUMBER


class Hit(NamedTuple):
    """A row of bin/hit: a demand that late orders delay, by how many periods at worst, and the pair that does it."""

    plant: NAME
    item: NAME
    period: NUMBER
    date: DATE
    quantity: NUMBER
    late_at_worst: NUMBER
    by_plant: NAME
    by_item: NAME


# The rows of reports by their words; and of each report whose columns --header names, the kind of its rows.
ROWS = {"plan": Plan, "late": Late, "order": Order, "firm": FirmOrder, "schedule": Schedule, "code": Code, "reach": Reach, "lane": Lane}
ROWS |= {"peg": Term, "pegs": Peg, "advice": Advice, "shortage": Shortage, "hit": Hit}
REPORTS = {"check": Code, "check --reach": Reach, "peg": Term, "cums": Lane, "orders": Order, "schedule": Schedule}
REPORTS |= {"pegs": Peg, "advice": Advice, "shortages": Shortage, "hit": Hit}


class Form:
    """What the description of a kind says: the word of its rows, and the spellings of its fields."""

    def __init__(self, word, kind):
        self.word, self.kind, self.spellings = word, kind, [*kind.__annotations__.values()]
        self.reads, self.size = [it.read for it in self.spellings], len(self.spellings)
        # (a text that is never empty stays what it is)
        self.read = [(place, it) for place, it in enumerate(self.spellings) if it.read is not str or it.may_be_empty]
        self.read = [(place, it.read) for place, it in self.read]

    @functools.cached_property
    def match(self):
        """Finds all fields in a line of a report."""
        return self.matcher(self.kind._fields)

    def pattern(self, names):
        """Returns the pattern of a line of a report, with a group for each of these fields."""
        spelled = (it.group(name in names) for name, it in zip(self.kind._fields, self.spellings))
        return ",".join([self.word, *spelled]) + "\r?\n"

    def matcher(self, names):
        """Returns the function that finds these fields in a line of a report, each as a group, or finds no row."""
        return re.compile(self.pattern(names)).fullmatch

    def is_period(self, place):
        """Says whether a field is a period."""
        return any(it.is_period for it in self.spellings[place : place + 1])

    def texts(self, line, number):
        """Returns the texts of a row's fields from its line in a report, or None for one that is empty."""
        return (self.match(line) or refuse(line, number)).groups()

    def row(self, texts):
        """Returns a row from the texts of its fields, and what may stand behind them."""
        fields = [*texts[: self.size]]
        for place, read in self.read:
            fields[place] = read(fields[place]) if fields[place] else None
        return self.kind._make(fields)


END = End.__name__.lower()
TABLE_FORMS = {it.__name__.lower(): Form(it.__name__.lower(), it) for it in KINDS}
REPORT_FORMS = {word: Form(word, kind) for word, kind in ROWS.items()}
WORDS = {kind: word for word, kind in ROWS.items()}


# Dates.


def day(value):
    """Returns a day, which may be given with a time, or as 2026-01-05."""
    if isinstance(value, str):
        return day_of(value)
    return value.date() if isinstance(value, datetime) else value


class Calendar:
    """The days of a plan's periods.

    It takes some periods with their first days, from period 0 on, and how many days a period lasts. One whose first day
    isn't among these follows the period before it by as many days.
    """

    def __init__(self, starts, days):
        self.periods, self.starts = map(list, zip(*starts))
        self.days = days

    @classmethod
    def of_report(cls, dates):
        """Returns the calendar of a pair's plan rows. The last period is taken to be as long as most are, of two lengths as the later one."""
        lengths = Counter((it - before).days for before, it in zip(dates[-2::-1], dates[:0:-1]))
        return cls(enumerate(dates), max(1, lengths.most_common(1)[0][0]) if lengths else 1)

    def first_day(self, period):
        """Returns the first day of a period, which may lie behind the plan or before it."""
        known = max(0, bisect_right(self.periods, period) - 1)
        return self.starts[known] + timedelta(days=self.days * (period - self.periods[known]))

    def period(self, value):
        """Returns the period that a day is in; before the plan it is below 0, and behind it above the last one."""
        value = day(value)
        known = max(0, bisect_right(self.starts, value) - 1)
        found = self.periods[known] + (value - self.starts[known]).days // self.days
        return min([found, *(it - 1 for it in self.periods[known + 1 : known + 2])])


# Tables.


class Fault(Exception):
    """The table or the question is refused, or memory was. `text` is the line of mrp and `name` the fault's name in it;
    `row` is the number of the row that it names, from 1 as in `table.rows[row - 1]`, or None."""

    def __init__(self, row, name, text):
        super().__init__(row, name, text)
        self.row, self.name, self.text = row, name, text

    def __str__(self):
        return self.text


class Table:
    """The table of a firm, from its rows in the order of their kinds, the run row first.

    A row is one of the named tuples above, or a plain one that begins with the word of its kind, as ("plant", "P1").
    A date in the place of a period counts as the period that it is in; one outside the plan is refused by mrp, as
    BadNumber. What is no kind is refused by mrp too.

    The rows of a kind are read by name: `table.demands[0].quantity`, `table.run.days`.

    As bytes it ends with an end row, which says how many rows are before it. One that is given stays as it is.
    """

    def __init__(self, rows):
        self.rows = [(type(it).__name__.lower(), *it) if isinstance(it, KINDS) else tuple(it) for it in rows if it]

    @classmethod
    def read(cls, lines, whole=False):
        """Returns the table of some lines, as of a file that `open_table` opens. A row of no kind is refused, and an end row that
        isn't the last or has another number than that of the rows before it; with `whole` a table without one.

        The end row isn't among the rows: who adds some needs no other one.
        """
        table = cls(fields_of(lines))
        for number, (word, *fields) in enumerate(table.rows, 1):
            if word not in TABLE_FORMS:
                raise Refused(f"row {number}: no kind of row is {word!r}")
            if word == END and (number < len(table.rows) or fields[:1] != [str(number - 1)]):
                raise Refused(f"row {number}: the table doesn't end here, or has lost rows")
        if table.is_ended():
            table.rows.pop()
        elif whole:
            raise Refused(f"row {len(table.rows) + 1}: the table has no end row, so it may be cut")
        return table

    def is_ended(self):
        """Tells whether the last row is an end row."""
        return bool(self.rows) and self.rows[-1][0] == END

    def __getattr__(self, name):
        if name not in LISTS:
            raise AttributeError(name)
        return self.of(LISTS[name])

    def of(self, kind):
        """Returns the rows of a kind by name."""
        form = TABLE_FORMS[kind.__name__.lower()]
        rows = (self.fields(it) for it in self.rows if it[0] == form.word)
        # (as they are written, what isn't given is empty)
        return [form.row([*("" if it is None else str(it) for it in fields), *[""] * FIELDS]) for fields in rows]

    @property
    def run(self):
        """The run row."""
        return self.runs[0]

    def __bytes__(self):
        """Returns the table as mrp reads it."""
        text = io.StringIO()
        writer = csv.writer(text, lineterminator="\n")
        ends = [] if self.is_ended() or not self.rows else [(END, len(self.rows))]
        for row in (*self.rows, *ends):
            writer.writerow([row[0], *self.fields(row), *[""] * (FIELDS - len(row))])
        return text.getvalue().encode(errors="surrogateescape")

    def fields(self, row):
        """Returns the fields of a row, in which a date in the place of a period is that period."""
        word, *fields = row
        for place, it in enumerate(fields):
            if isinstance(it, date):
                is_period = word in TABLE_FORMS and TABLE_FORMS[word].is_period(place)
                fields[place] = self.calendar.period(it) if is_period else day(it)
        return fields

    @functools.cached_property
    def calendar(self):
        """The days of the periods."""
        return calendar_of(self.run, self.days)


def calendar_of(run, days):
    """Returns the calendar that a run row says, and the day rows of its table."""
    return Calendar([(0, run.first), *days], run.days)


def open_table(path):
    """Opens a table, which may have been saved by a spreadsheet, for `table_rows`."""
    return open(path, encoding="utf-8-sig", newline="")


def fields_of(lines):
    """Yields the fields of each row that isn't empty, as csv spells them."""
    return (it for it in csv.reader(lines) if it)


def table_rows(lines, *kinds):
    """Yields the rows of some kinds, by name, from the lines of a table. A row of no kind is refused.

    Rows of other kinds are passed over by their first bytes, so that many of them take little.
    """
    reads = {word: form.row for word, form in TABLE_FORMS.items() if form.kind in kinds}
    passed = tuple(f"{word}," for word in TABLE_FORMS if word not in reads)
    for fields in fields_of(it for it in lines if not it.startswith(passed)):
        word = fields[0]
        if word in reads:
            yield reads[word](fields[1:])
        elif word not in TABLE_FORMS:
            raise Refused(f"no kind of row is {word!r}")


def sources(supply):
    """Returns the plants that a supply names, each with its share in thousandths."""
    _, *parts = supply.split(":")
    return [(plant, int(share)) for plant, share in zip(parts[::2], parts[1::2] or [1000])]


# Reports.


def line_of(row):
    """Returns a row of a report as a line, without its end."""
    form = REPORT_FORMS[WORDS[type(row)]]
    return ",".join((form.word, *(spelling.none if it is None else str(it) for spelling, it in zip(form.spellings, row))))


def header(kind):
    """Returns the names of the columns of a kind of rows, as --header writes them above a report."""
    return ",".join(("row", *kind._fields))


def refuse(line, number):
    """Refuses a line that is no row of a report."""
    raise Refused(f"row {number} is no row of a report: {line[:60].rstrip()!r}")


def report_row(line, number):
    """Returns a row of a report, by the names of its columns, from its line, which has that number and its end."""
    form = REPORT_FORMS.get(line.partition(",")[0], REPORT_FORMS["late"])
    return form.row(form.texts(line, number))


def columns(kind, *names):
    """Returns a function that reads some columns of a report's rows, as texts in the order of their names, from a line
    and its number. Of millions of rows this takes much less than `report_row`."""
    match = REPORT_FORMS[WORDS[kind]].matcher(names)
    order = sorted(names, key=kind._fields.index)
    places = [order.index(it) + 1 for it in names]
    return lambda line, number: (match(line) or refuse(line, number)).group(*places)


def columns_of_rows(kind, *names):
    """Returns a function that reads some columns, at least two, of a report's rows that follow each other: of these lines, as bytes, and
    the number of the first, a list of texts for each column, in the order of the kind's. This takes less than a line at a time."""
    form = REPORT_FORMS[WORDS[kind]]
    match, find = form.matcher(names), re.compile(f"^{form.pattern(names)}", re.MULTILINE).findall

    def read(lines, number):
        found = find(b"".join(lines).decode(errors="replace"))
        for place, line in enumerate(lines if len(found) != len(lines) else ()):
            text = line.decode(errors="replace")
            match(text) or refuse(text, number + place)
        return [*zip(*found)]

    return read


def rows_of(text):
    """Yields the rows of a report that mrp has written."""
    for line in text.decode().splitlines():
        word, *fields = line.split(",")
        yield REPORT_FORMS[word].row(fields)


# Names.


class Names:
    """What a file of bin/sheets --names says: the names of plants and items in the sheets, descriptions, and notes.
    Without a file names are the table's.

    `comes` has of open orders, by kind and pair, those of which the sheets say when they really come: the period in which
    they are due, the pieces, and that day.
    """

    COLUMNS = ["row", "plant", "item", "period", "date", "quantity", "name", "description", "note"]
    # (the last column of a file in which an order has it)
    COMES = "comes"

    def __init__(self, path=None):
        self.plants, self.pairs, self.notes, self.rows, self.is_given = {}, {}, {}, {}, path is not None
        self.comes = {}
        if self.is_given:
            try:
                with open(path, encoding="utf-8", newline="") as file:
                    rows = csv.reader(file)
                    if next(rows, None) not in (self.COLUMNS, [*self.COLUMNS, self.COMES]):
                        raise ValueError
                    for it in rows:
                        self.take(*it)
            except (TypeError, ValueError, csv.Error):
                raise Refused(f"{path} is no file that bin/sheets --names has written") from None

    def take(self, kind, plant, item, period, date, quantity, name, description, note, comes=""):
        """Takes a row over."""
        if kind == "plant":
            self.plants[plant] = name
        elif kind == "pair":
            self.pairs[plant, item], self.notes[plant, item] = (name, description), note
        else:
            said = f"{quantity} of {date}" + (f": {note}" if note else "")
            self.rows.setdefault((kind, plant, item, int(period)), []).append(said)
            if comes:
                self.comes.setdefault((kind, plant, item), []).append((int(period), int(quantity), day_of(comes)))

    def plant(self, plant):
        return self.plants.get(plant, plant)

    def item(self, plant, item):
        """Returns the name of an item at a plant, with its description in brackets."""
        name, description = self.pairs.get((plant, item), (item, ""))
        return f"{name} ({description})" if description else name

    def pair(self, plant, item):
        return f"{self.plant(plant)} {self.item(plant, item)}"

    def own(self, plant, item):
        """Returns the names of a plant and of an item there, without its description."""
        return self.plant(plant), self.pairs.get((plant, item), (item,))[0]

    def meant(self, plant, item):
        """Returns the names in the table of a plant and an item, which may be those of the sheets."""
        plants = {name: it for it, name in self.plants.items()}
        items = {name: it for (_, it), (name, _) in self.pairs.items()}
        return plants.get(plant, plant), items.get(item, item)

    def of(self, kind, plant, item, period):
        """Returns what stood beside the rows of a kind, of a pair in a period: demand, receipt, ship or firm."""
        return self.rows.get((kind, plant, item, period), [])


# Who answers.


class Library:
    """The planner in this process, by a shared object (include/mrp.h), within the usual limits or those of --large."""

    def __init__(self, path, large=False):
        # (who reads reports alone needs none of it)
        import ctypes

        self.ctypes, self.calls, library = ctypes, {}, ctypes.CDLL(path)
        name, flag, size = [ctypes.c_char_p, ctypes.c_size_t], ctypes.c_bool, ctypes.c_size_t
        limited = [flag, ctypes.c_uint64]
        options = {"plan": [], "orders": [*limited, flag], "advice": [*limited, flag, flag], "schedule": [*name, *name, flag]}
        options |= {it: [flag] for it in ("check", "reach", "cums", "shortages")}
        for it, types in options.items():
            call = self.calls[it] = library[f"mrp_{it}{'_large' * large}"]
            # (how a table is to be read is a struct of a flag)
            call.argtypes = [*name, ctypes.POINTER(flag), *types, ctypes.c_char_p, size, ctypes.POINTER(size)]
            call.restype = ctypes.c_uint32

    def ask(self, name, table, until=None, supplier=None, customer=None, reach=False, whole=False):
        """Returns the status and the text of a call."""
        plants = [(it or "").encode() for it in (supplier, customer)]
        names = [it for plant in plants for it in (plant, len(plant))]
        limited = [until is not None, until or 0]
        options = {"plan": [], "orders": [*limited, False], "advice": [*limited, reach, False], "schedule": [*names, False]}
        options, ctypes = options.get(name, [False]), self.ctypes
        call = self.calls["reach" if reach and name == "check" else name]
        size, reading = ctypes.c_size_t(4 * len(table) + 4096), ctypes.c_bool(whole)
        while True:
            room = size.value
            buffer = ctypes.create_string_buffer(room)
            status = call(table, len(table), ctypes.byref(reading), *options, buffer, room, ctypes.byref(size))
            if size.value <= room:
                return status, ctypes.string_at(buffer, size.value)


class Program:
    """The planner in a process of its own for each report, within the usual limits or those of --large."""

    def __init__(self, path, large=False):
        self.path, self.large = path, large

    def ask(self, name, table, until=None, supplier=None, customer=None, reach=False, whole=False):
        """Returns the status and what the program writes."""
        options = {"--until": until if until is None else min(until, LAST_OF_LARGE if self.large else LAST_PERIOD)}
        options |= {"--from": supplier or None, "--to": customer or None}
        words = [name, *["--reach"] * reach, *["--whole"] * whole, *["--large"] * self.large]
        words += [f"{word}={it}" for word, it in options.items() if it is not None]
        done = subprocess.run([self.path, *words], input=table, capture_output=True, check=False)
        return done.returncode, done.stderr if done.returncode else done.stdout


@functools.lru_cache(None)
def library(large=False):
    """Returns the library, or nothing where there is none."""
    path = os.environ.get("MRP_LIBRARY") or f"{HERE}/libmrp.so"
    return Library(path, large) if os.environ.get("MRP_LIBRARY") or os.path.exists(path) else None


def program(large=False):
    """Returns the program."""
    beside = f"{HERE}/mrp"
    here = beside if os.path.isfile(beside) else f"{os.path.dirname(HERE)}/bin/mrp"
    return Program(os.environ.get("MRP") or shutil.which("mrp") or here, large)


def answering(large):
    """Returns who answers: the library, or the program where there is none."""
    return library(large) or program(large)


def report(by, name, table, **options):
    """Returns the rows of a report of a table, by the library or the program. Raises Fault where it is refused, with `whole` also
    where the bytes of a table have no end row."""
    status, text = by.ask(name, bytes(table), **options)
    if status == 0:
        return [*rows_of(text)]
    line = text.decode(errors="replace").rstrip("\n")
    row, fault = re.fullmatch(r"(?:mrp: )?(?:row (\d+): )?(.*?)(?: \S+/\S+)*", line, re.DOTALL).groups()
    raise Fault(row and int(row), fault, line)


def plan(table, large=False):
    """Returns the plan: the Plan of each pair and period, and the late orders."""
    rows = report(answering(large), "plan", table)
    return [it for it in rows if isinstance(it, Plan)], [it for it in rows if isinstance(it, Late)]


def orders(table, until=None, large=False):
    """Returns the planned orders, each as an Order, and the firm ones, each as a FirmOrder: with `until` those that are
    released up to that period.
    """
    return report(answering(large), "orders", table, until=until)


def schedule(table, supplier=None, customer=None, large=False):
    """Returns the delivery schedules, row by row: those from one plant or vendor and to one plant, where these are named."""
    return report(answering(large), "schedule", table, supplier=supplier, customer=customer)


def check(table, large=False):
    """Returns the low-level code of each pair, as a Code."""
    return report(answering(large), "check", table)


def reach(table, large=False):
    """Returns how far the plan of each pair is whole, as a Reach."""
    return report(answering(large), "check", table, reach=True)


def cums(table, large=False):
    """Returns the cumulative figures of the lanes between plants, each as a Lane."""
    return report(answering(large), "cums", table)


def pegs(table, large=False):
    """Returns what each gross requirement consists of, each term as a Peg. The program answers."""
    return report(program(large), "pegs", table)


def advice(table, until=None, reach=False, large=False):
    """Returns which open orders to expedite, to defer and to cancel, each as an Advice: with `until` those that come up to
    that period. With `reach` no message follows from where the horizon ends: of an order whose action is `beyond` it isn't known
    yet when it is needed.
    """
    return report(answering(large), "advice", table, until=until, reach=reach)


def shortages(table, large=False):
    """Returns which of this period's requirements lack parts, each term that does as a Shortage."""
    return report(answering(large), "shortages", table)
