"""What changed since an earlier Monday, for bin/page: the orders of two tables beside each other, by their numbers and dates.

An order is a demand, or an open order: a receipt, a firm order or a shipment. Where the sheets have its number it is the order of
that number for the same item at the same plant; of several such rows the first is the first. One without a number is an order of the
same day, else one of as many pieces that is at most two periods away, of the same customer or supplier. What is left came or went.
"""
import csv
import functools
import itertools
from collections import Counter
from datetime import date
from typing import NamedTuple

import headed
import mrp
import named
import plans
import reports

# How else the number of a customer's order is headed.
SALES = "customerorder salesorder kundenauftrag kundenauftrags verkaufsauftrag commandeclient pedidodecliente pedidocliente ordendeventa"
HEADINGS = dict.fromkeys(headed.keys("Order", f"{headed.ORDER} {SALES}") | headed.keys("Advice", headed.ADVICE), "number")
HEADINGS |= dict.fromkeys(headed.keys("Customer", headed.CUSTOMER), "who")
HEADINGS |= {word: "who" for word, meant in named.HEADINGS.items() if meant == "vendor"}
KINDS = {"demand": mrp.Demand, "receipt": mrp.Receipt, "firm": mrp.Firm, "ship": mrp.Ship}


class Order(NamedTuple):
    """An order of a Monday: when it is due, its pieces, its number and who wants or brings it where the sheets say so, its kind, and its
    pair, by the names of the table and by those of the sheets.
    """

    day: date
    quantity: int
    number: str
    who: str
    kind: str
    pair: tuple
    own: tuple


class Change(NamedTuple):
    """What became of an order: a word, the order as it is and as it was, each or nothing."""

    word: str
    now: Order
    was: Order

    @property
    def order(self):
        return self.now or self.was


def day_in(text, period, calendar):
    """Returns the day that a text of the sheets says, which is in a period: of one that can be read in two ways the one that is in it."""
    found = set()
    for slashes in ("d/m/y", "m/d/y"):
        try:
            found.add(headed.day(text, slashes))
        except headed.Slip:
            continue
    if len(found) > 1:
        found = {it for it in found if max(0, calendar.period(it)) == period}
    return found.pop() if len(found) == 1 else calendar.first_day(period)


class Monday:
    """The orders of the table at a path, with what its names say of them; without names they have neither numbers nor customers."""

    def __init__(self, path, names):
        self.table, self.names, self.pairs = reports.Table(path), names, {}
        self.calendar, run = self.table.calendar, self.table.run
        self.first, self.end = run.first, self.calendar.first_day(run.periods)

    def orders(self):
        """Yields its orders."""
        return self.noted() if self.names.is_given else self.unnoted()

    def noted(self):
        """Yields the orders that the names have."""
        for (kind, plant, item, period), rows in self.names.rows.items():
            for text in rows if kind in KINDS else ():
                front, _, note = text.partition(": ")
                quantity, _, day = front.partition(" of ")
                found = {}
                for part in note.split(", "):
                    if said := named.headed_words(part, HEADINGS):
                        found.setdefault(*said)
                said = found.get("number", ""), found.get("who", "")
                yield Order(day_in(day, period, self.calendar), int(quantity), *said, kind, *self.both((plant, item)))

    def unnoted(self):
        """Yields the orders of the table's rows, each on the first day of its period."""
        words = {kind: word for word, kind in KINDS.items()}
        first_day = functools.cache(self.calendar.first_day)
        for row in self.table.rows(*words):
            period = row.due if isinstance(row, mrp.Firm) else row.period
            pair = (row.plant, row.item) if isinstance(row, mrp.Demand) else row.pair
            yield Order(first_day(period), row.quantity, "", "", words[type(row)], *self.both(pair))

    def both(self, pair):
        """Returns the names of a pair in the table and in the sheets."""
        if pair not in self.pairs:
            self.pairs[pair] = pair, self.names.own(*pair)
        return self.pairs[pair]


class Since:
    """What changed from an earlier Monday to this one: orders that moved by more than some days, and how many aren't told, since they were
    due before this plan begins and are done, or behind the end of the earlier one.
    """

    def __init__(self, last, now, days):
        self.last, self.now, self.days, self.done, self.behind = last, now, days, 0, 0
        # (partners without a number are at most so many days apart)
        self.reach = plans.WITHIN * now.table.run.days
        self.changes = {"demand": [], "open": []}
        found = {}
        for place, monday in enumerate((last, now)):
            for it in monday.orders():
                kind = "demand" if it.kind == "demand" else "open"
                found.setdefault((kind, it.own), ([], []))[place].append(it)
        while found:
            (kind, _), both = found.popitem()
            left = without_same(*both, slice(4))
            self.changes[kind] += filter(None, itertools.starmap(self.change, self.partners(*left)))
        for it in self.changes.values():
            it.sort(key=lambda it: (it.order.who.casefold() or "\uffff", it.order.day, it.order.own, it.order.number, it.word))

    def partners(self, old, new):
        """Yields the orders of an item two by two, or one beside None."""
        old, new = ({number: [*rows] for number, rows in grouped(it, lambda it: it.number)} for it in (old, new))
        unnumbered = [it.pop("", []) for it in (old, new)]
        for number in dict.fromkeys([*old, *new]):
            yield from itertools.zip_longest(*without_same(old.get(number, []), new.get(number, [])))
        old, new = ({who: [*rows] for who, rows in grouped(it, lambda it: it.who)} for it in unnumbered)
        for who in dict.fromkeys([*old, *new]):
            yield from self.nearest(*without_same(old.get(who, []), new.get(who, [])))

    def nearest(self, old, new):
        """Yields orders without numbers two by two: those of one day, and of the rest those of as many pieces that aren't far apart."""
        for key in (lambda it: it.day, lambda it: it.quantity):
            first, second = (dict((value, [*rows]) for value, rows in grouped(it, key)) for it in (old, new))
            taken = [both for value in first for both in zip(first[value], second.get(value, ())) if self.is_near(*both)]
            yield from taken
            old, new = (subtracted(it, part) for it, part in zip((old, new), zip(*taken) if taken else ((), ())))
        yield from ((it, None) for it in old)
        yield from ((None, it) for it in new)

    def is_near(self, old, new):
        return abs((new.day - old.day).days) <= self.reach

    def change(self, was, now):
        """Returns what became of an order, or nothing where that isn't told."""
        if not now:
            self.done += was.day < self.now.first
            return Change("went", None, was) if self.now.first <= was.day < self.now.end else None
        if not was:
            self.behind += now.day >= self.last.end
            return Change("came", now, None) if now.day < self.last.end else None
        words = ["moved"] if abs((now.day - was.day).days) > self.days else []
        words += [] if now.quantity == was.quantity else ["grew" if now.quantity > was.quantity else "shrank"]
        return Change(" and ".join(words), now, was) if words else None


def grouped(orders, key):
    """Returns the orders by a key, each group in the order of days and pieces."""
    return itertools.groupby(sorted(orders, key=lambda it: (key(it), it[:2])), key)


def without_same(old, new, fields=slice(2)):
    """Returns what is left of two lists without orders that are in both, by their first fields: day and pieces, or number and customer too."""
    same = Counter(it[fields] for it in old) & Counter(it[fields] for it in new)
    return [[*without(it, Counter(same), fields)] for it in (old, new)]


def without(orders, counts, fields):
    """Yields the orders, but for as many as are counted by their first fields."""
    for it in orders:
        if counts[it[fields]]:
            counts[it[fields]] -= 1
        else:
            yield it


def subtracted(orders, taken):
    """Returns the orders without those that are taken."""
    ids = {*map(id, taken)}
    return [it for it in orders if id(it) not in ids]


class Release(NamedTuple):
    """A release of bin/releases: its supplier, number and date, how many items and calls it has, its next despatch, what was called for and
    isn't shipped, and how many pieces come late.
    """

    supplier: str
    number: int
    date: date
    items: int
    calls: int
    despatch: object
    backlog: int
    late: int


def release(path):
    """Returns a release from its file."""
    try:
        with open(path, encoding="utf-8", newline="") as file:
            rows = [*csv.DictReader(file)]
        calls = [it for it in rows if it["Despatch"]]
        heads = {(it["Customer"], it["Item"]): int(it["Backlog"]) for it in rows}
        days = [mrp.day_of(it["Despatch"]) for it in calls]
        number, day = int(rows[0]["Release"]), mrp.day_of(rows[0]["Date"])
        sums = sum(heads.values()), sum(int(it["Late"]) for it in calls)
        return Release(rows[0]["Supplier"], number, day, len(heads), len(calls), min(days, default=None), *sums)
    except (KeyError, IndexError, TypeError, ValueError, csv.Error, reports.Refused) as fault:
        raise reports.Refused(f"{path} is no release of bin/releases") from fault
