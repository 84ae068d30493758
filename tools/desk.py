"""A planner's Monday, for tools/year: sheets are written, despatch advices booked, the plan made, obeyed and booked, and releases sent."""
import contextlib
import csv
import datetime
import functools
import importlib.machinery
import importlib.util
import io
import os
import shutil
import sys
from collections import Counter

import crates
import headed
import hits
import mrp
import reports
from world import WEEK, Order

# The rows of a table, but for its end.
ROWS = mrp.KINDS[:-1]
PERIODS = 16
HORIZONS = 2, 6, 12
ITEM_HEADS = "Plant,Item,Supply,Lot rule,Lead (weeks),Safety stock,Fence (periods),Sooner (periods),Cover (periods),Least,Multiple,On hand"


def script(name):
    """Returns the module of a script of bin/, which isn't run."""
    loader = importlib.machinery.SourceFileLoader(name, f"{crates.TOP}/bin/{name}")
    module = importlib.util.module_from_spec(importlib.util.spec_from_loader(name, loader))
    loader.exec_module(module)
    return module


SCRIPTS = {name: script(name) for name in ("sheets", "advices", "book", "releases")}


class Ended(Exception):
    """A script ended with another status than 0, and said why."""


def run(name, *words, table=os.devnull):
    """Runs a script in this process, with a table on standard input, and returns what it says."""
    said, before = io.StringIO(), (sys.argv, sys.stdin)
    sys.argv = [f"bin/{name}", *map(str, words)]
    out = io.TextIOWrapper(io.BytesIO(), encoding="utf-8")
    try:
        with contextlib.redirect_stderr(said), contextlib.redirect_stdout(out), open(table, encoding="utf-8") as sys.stdin:
            SCRIPTS[name].main()
    except (reports.Refused, OSError, SystemExit) as why:
        raise Ended(f"bin/{name}: {said.getvalue()}{why}") from None
    finally:
        sys.argv, sys.stdin = before
    return said.getvalue()


def table_of(folder, room, chosen):
    """Returns the table of some sheets, and puts it and their names into a folder, as bin/book has it, in this process."""
    words = ["--numbers", chosen.numbers] if chosen.numbers else []
    run("sheets", *words, "--names", f"{room}/names.csv", "--out", f"{room}/table.csv", folder)
    return f"{room}/table.csv"


@functools.lru_cache(64)
def answer(word, rows):
    """Returns a report as it is written, by the library where there is one: of the rows of one table each report is asked for once."""
    name, *options = word.split()
    status, text = (mrp.library() or mrp.program()).ask(name, rows, reach=bool(options))
    if status:
        raise Ended(f"mrp {word}: {text.decode()}")
    return text


def report(words, rows):
    """Returns a report of the rows of a table, with the names of columns above it where they are asked for."""
    word = words.removesuffix(" --header")
    front = "" if word == words else f"{mrp.header(mrp.REPORTS[word])}\n"
    return front.encode() + answer(word, rows)


def ask(words, table, file):
    """Writes a report into a file, as bin/reports.py has the program do it."""
    file.write(report(words, reports.kept_bytes(table)))


SCRIPTS["book"].table_of = table_of
# (of the same headings this is asked again and again)
headed.key = functools.lru_cache(None)(headed.key)
# (what asks for one pair is asked of the program)
of_program = hits.report


def lines(words, table):
    """Returns the lines of a report, as bin/hits.py has the program write them."""
    if words.startswith("peg "):
        return of_program(words, table)
    return report(words, reports.kept_bytes(table)).splitlines(keepends=True)


reports.ask, hits.report = ask, lines


def write(path, rows):
    """Writes a table of rows, each kind in its place, and returns its path."""
    with open(path, "wb") as file:
        file.write(bytes(mrp.Table(sorted(rows, key=lambda it: ROWS.index(type(it))))))
    return path


class Reports:
    """The reports of a table as it is now, each read when it is wanted first."""

    def __init__(self, table):
        self.rows, self.read = reports.kept_bytes(table), {}

    def __getitem__(self, words):
        if words not in self.read:
            self.read[words] = [*mrp.rows_of(report(words, self.rows))]
        return self.read[words]

    def table(self, *kinds):
        """Returns the rows of some kinds in the table."""
        return mrp.table_rows(self.rows.decode().splitlines(), *kinds)

    def figures(self, column):
        """Returns a column of the plan of each pair."""
        found = {}
        for it in self["plan"]:
            if isinstance(it, mrp.Plan):
                found.setdefault((it.plant, it.item), []).append(getattr(it, column))
        return found


class Desk:
    """The planner's folder of each Monday, in a folder for all."""

    def __init__(self, folder, firm):
        self.folder, self.firm, self.table, self.week, self.last = folder, firm, None, None, []
        self.figures, self.said, self.received, self.orders_made = {}, [], [], 0

    def path(self, name):
        return f"{self.week}/{name}"

    def write(self, name, heads, rows):
        """Writes a sheet of the Monday."""
        with open(self.path(name), "w", encoding="utf-8", newline="") as file:
            csv.writer(file, lineterminator="\n").writerows([heads.split(","), *rows])

    def open(self):
        """Writes the sheets of a Monday, as the firm is."""
        firm, self.said = self.firm, []
        self.week = f"{self.folder}/{firm.monday}"
        os.mkdir(self.week)
        self.write_firm()
        self.write("items.csv", ITEM_HEADS, [(*it[:11], firm.stock[it.key]) for it in firm.pairs.values()])
        bills = [(*pair, *it) for pair, parts in firm.bills.items() for it in parts.items()]
        self.write("bills.csv", "Plant,Parent,Component,Per", bills)
        self.write_demands()
        self.write_starts()
        orders = [(it.number, *it.pair, it.due, it.quantity, it.comes) for it in self.orders()]
        self.write("receipts.csv", "Order,Plant,Item,Due,Quantity,Comes", orders)
        self.write("resets.csv", "From,To,Item,Date", [(*names, day) for names, day in firm.resets.items() if self.is_plant(names)])
        self.write_figures()

    def write_firm(self):
        """Writes the calendar, and when nobody works."""
        heads, row, spans = "First day,Days,Periods,Firm (weeks),Fab (weeks),Raw (weeks)", [self.firm.monday, 7, PERIODS, *HORIZONS], self.firm.closed
        if spans:
            heads, row = f"{heads},Closed on", [*row, "Sat Sun"]
            self.write("closed.csv", "Date,Until", spans)
        if self.firm.window:
            heads, row = f"{heads},Backward consumption (periods),Forward consumption (periods)", [*row, *self.firm.window]
            first = self.firm.monday - 4 * WEEK
            forecasts = [(*self.firm.forecast, day, pieces) for day, pieces in self.firm.forecasts.items() if day >= first]
            self.write("forecasts.csv", "Plant,Item,Due,Quantity", forecasts)
        self.write("firm.csv", heads, [row])

    def write_demands(self):
        """Writes what customers want: orders, and figures. What is left of calls of closed years is an order."""
        customers = self.firm.customers
        orders = (it for it in self.firm.demands if it.pair not in customers or it.due < customers[it.pair].started)
        self.write("demands.csv", "Order,Plant,Item,Due,Quantity", [(it.number, *it.pair, it.due, it.quantity) for it in orders])
        if customers:
            calls = [(it.name, *it.pair, *row) for it in customers.values() for row in it.rows()]
            self.write("calls.csv", "Customer,Plant,Item,Date,Cumulative,Starts again", calls)
            self.write("shipped.csv", "Customer,Plant,Item,Cumulative", [(it.name, *it.pair, it.shipped()) for it in customers.values()])

    def write_starts(self):
        """Writes the orders that aren't started yet."""
        starts = [(it.number, *it.pair, it.start, it.due, it.quantity, it.comes) for it in self.firm.starts.values()]
        self.write("firm_orders.csv", "Order,Plant,Item,Start,Due,Quantity,Comes", starts)

    def orders(self):
        return [*self.firm.purchases.values(), *self.firm.production.values()]

    def is_plant(self, names):
        return (names[0], names[2]) in self.firm.pairs

    def write_figures(self):
        """Writes the figures as they were booked last; the first time with what was closed then."""
        for name, heads in (("cums.csv", "From,To,Item,Cum received"), ("vendors.csv", "Vendor,Plant,Item,Figure received")):
            if name in self.figures:
                with open(self.path(name), "wb") as file:
                    file.write(self.figures[name])
                continue
            rows = [it for it in self.firm.lanes.values() if self.is_plant(it.names) == (name == "cums.csv")]
            more = "" if name == "cums.csv" else ",Starts again"
            found = [(*it.names, it.figure(), it.started, it.closed, *[self.firm.resets.get(it.names, "")] * bool(more)) for it in rows]
            self.write(name, f"{heads},Started,Closed{more}", found)

    def book(self, trouble, *accepted):
        """Books what came in, and what is on its way, into the sheets."""
        known = [*self.received, *self.firm.under_way]
        advices = trouble.advised(known)
        rows = [(it.number, *it.names, it.quantity, it.figure, it.despatched, it.arrives) for it in advices]
        self.write("advices.csv", "Advice,From,To,Item,Quantity,Cumulative,Despatched,Arrives", rows)
        self.write("booked.csv", "Advice,From,To,Item,Quantity,Date", [(it.number, *it.names, it.quantity, it.day) for it in self.firm.booked])
        if self.figures:
            shutil.rmtree(f"{self.week}.in", ignore_errors=True)
            shutil.copytree(self.week, f"{self.week}.in")
            words = [word for item in accepted for word in ("--accept", item)]
            self.said += run("advices", *words, "--out", self.week, f"{self.week}.in").splitlines()
        self.received = []
        self.figures = {name: reports.kept_bytes(self.path(name)) for name in ("cums.csv", "vendors.csv")}

    def plan(self):
        """Makes the table. Its reports are made when they are read."""
        self.table = self.path("table.csv")
        words = "--today", self.firm.monday, "--names", self.path("names.csv"), "--out", self.table, self.week
        self.told, self.reports = run("sheets", *words).splitlines(), Reports(self.table)
        self.calendar, self.names = reports.Table(self.table).calendar, mrp.Names(self.path("names.csv"))
        self.late = reports.coming_late(self.names, self.calendar)

    def hits(self):
        """Returns the demands that late orders hit."""
        return hits.hits(self.table, self.names)

    def is_hit_beside(self, monday, demand, other):
        """Tells whether late orders hit a demand by the table of a Monday, with another row of demand beside its own."""
        room = f"{self.folder}/{monday}"
        found = [*Reports(f"{room}/table.csv").table(*ROWS), other]
        table, names = write(f"{room}/beside.csv", found), mrp.Names(f"{room}/names.csv")
        period = max(0, reports.Table(table).calendar.period(demand.due))
        return any((it.plant, it.item, it.period) == (*demand.pair, period) for it in hits.hits(table, names))

    def obey(self):
        """Moves orders as messages within reach say."""
        if any([self.move(it) for it in self.reports["advice --reach"] if it.action in ("expedite", "defer")]):
            self.write_starts()
            self.rewrite([(it.number, *it.pair, it.due, it.quantity, it.comes) for it in self.orders()])
            self.plan()

    def move(self, message):
        """Moves an order that is bought, or that is made and isn't started, and returns whether it moves. It can't come before next week, nor
        a lead time after it starts.
        """
        firm, it, first_day = self.firm, message, self.calendar.first_day
        pair = firm.pairs[it.plant, it.item]
        orders = {"receipt": firm.purchases, "firm": firm.starts if pair.supply == "make" else {}}.get(it.kind, {})
        same = (o for o in orders.values() if o.pair == pair.key and o.quantity == it.quantity and o.comes == o.due)
        order = next((o for o in same if max(0, self.calendar.period(o.due)) == it.period and (not o.start or o.start >= firm.monday)), None)
        period = max(it.needed, pair.lead if it.kind == "firm" else 1)
        if not order or it.action == "expedite" and period >= it.period:
            return False
        order.due = order.comes = first_day(period)
        order.start = order.start and first_day(period - pair.lead)
        return True

    def rewrite(self, rows):
        """Writes the orders of the planner again, and keeps what is on its way by advices."""
        with open(self.path("receipts.csv"), encoding="utf-8", newline="") as file:
            heads, *found = csv.reader(file)
        advised = [it for it in found if "Advice" in heads and it[heads.index("Advice")]]
        wide = len(heads)
        self.write("receipts.csv", ",".join(heads), [[*map(str, it), *[""] * (wide - len(it))] for it in rows] + advised)

    def kept(self):
        """Returns the orders that are to be booked now: bought ones that are released, and where releases are frozen those that fall into that time."""
        found = []
        for it in self.reports["orders"]:
            pair = self.firm.pairs[it.plant, it.item]
            is_own = pair.supply == "make" or pair.supply == "buy" and (not pair.vendor or pair.frozen)
            if isinstance(it, mrp.Order) and is_own and it.release <= pair.frozen:
                found.append(it)
        return found

    def order(self):
        """Books orders, and returns them. The firm has them by their numbers then, which go on from the last ones."""
        kept = self.kept()
        if not kept:
            return []
        with open(self.path("kept.txt"), "w", encoding="utf-8") as file:
            file.writelines(f"{it}\n" for it in (mrp.header(mrp.Order), *map(mrp.line_of, kept)))
        run("book", "--number", f"FA-{self.orders_made + 1}", self.path("kept.txt"), self.week)
        for name, found in (("firm_orders.csv", self.firm.starts), ("receipts.csv", self.firm.purchases)):
            with open(self.path(name), encoding="utf-8", newline="") as file:
                for row in csv.DictReader(file):
                    self.take(row, found)
        self.orders_made += len(kept)
        return kept

    def take(self, row, orders):
        """Takes a row that is new as an order."""
        front, _, number = row["Order"].partition("-")
        if front == "FA" and int(number) > self.orders_made:
            days = [datetime.date.fromisoformat(it) if it else None for it in (row.get("Start"), row["Due"], row.get("Comes"))]
            start, due, comes = days
            pair, quantity = (row["Plant"], row["Item"]), int(row["Quantity"])
            orders[row["Order"]] = Order(row["Order"], pair, quantity, start, due, comes or due)
            self.firm.moved[pair, "placed"] += quantity

    def release(self):
        """Sends the releases, and returns up to which figure each supplier is to ship before next Monday."""
        words = "--sheets", self.week, *self.last, "--names", self.path("names.csv"), "--out", f"{self.week}.out"
        self.said += run("releases", *words, table=self.table).splitlines()
        self.released, self.last = {}, ["--last", f"{self.week}.out"]
        for name in sorted(os.listdir(f"{self.week}.out")):
            with open(f"{self.week}.out/{name}", encoding="utf-8", newline="") as file:
                for row in csv.DictReader(file):
                    self.released.setdefault((row["Supplier"], row["Customer"], row["Item"]), []).append(row)
        return {names: self.called(rows, str(self.firm.end)) for names, rows in self.released.items()}

    def called(self, rows, end):
        """Returns up to which figure a release calls for an item before a day: at least what is shipped by it."""
        opening = sum(int(rows[0][it]) for it in ("Closed", "Received", "In transit"))
        return max([opening, *(int(it["With closed years"]) for it in rows if it["Despatch"] and it["Despatch"] < end)])

    def sums(self, *kinds):
        """Returns the pieces of each pair in rows of the table."""
        found = Counter()
        for it in self.reports.table(*kinds):
            found[it.pair] += it.quantity
        return found
