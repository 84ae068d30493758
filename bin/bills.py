"""What goes into what by scrap, fractions and days, for bin/sheets."""
import math
from fractions import Fraction
from typing import NamedTuple

import headed
from headed import Slip

# The most pieces of a component, and of the parents that they go into; and a day behind all others, as an ordinal number.
MOST_PER, ENDLESS = 10**6, 10**7


class Use(NamedTuple):
    """A row of bills.csv: the day from which on it holds, as an ordinal number, the first day on which it doesn't, and the pieces for one parent."""

    first: int
    end: int
    each: Fraction
    row: headed.Row


def per(form, parting):
    """Returns what reads pieces that go into one parent, in the form that --numbers says or a sheet in which this sign parts cells."""
    read = headed.ratio(form, parting)

    def per_of(text):
        found = read(text)
        if found.denominator == 1 and not 1 <= found <= MOST_PER:
            raise Slip(f"{str(found)!r} is not from 1 to {MOST_PER}")
        if found <= 0:
            raise Slip(f"{text!r} is not above 0")
        if found.denominator != 1 and (over := too_fine(found)):
            raise Slip(f"{text!r} is {over}")
        return found

    return per_of


def scrap(form, parting):
    """Returns what reads how many per cent more are taken than go in."""
    read = headed.ratio(form, parting)

    def scrap_of(text):
        if (found := read(text.removesuffix("%").rstrip())) < 0:
            raise Slip(f"{text!r} is below 0")
        return found

    return scrap_of


def too_fine(each):
    """Returns what is told of a number of pieces for one parent that no row of usage can say, or nothing."""
    return f"{each}, and no number in it may be above {MOST_PER}; round it" if max(each.as_integer_ratio()) > MOST_PER else ""


def with_scrap(row, each, read):
    """Returns the pieces for one parent with what is lost of them, exactly, or nothing where that is a slip."""
    if not each or not row.text("Scrap %"):
        return each
    more = row.read("Scrap %", read)
    whole = Fraction(each) * (100 + more) / 100 if more is not None else None
    if whole and (over := too_fine(whole)):
        row.slip("Scrap %", f"{row.text('Scrap %')!r}: with it {row.text('Per')} for one parent is {over}")
        return None
    return whole


def days_of(row, day):
    """Returns the first day on which a row holds and the first on which it doesn't any more, as ordinal numbers, or nothing where that is a
    slip. It takes what reads a day.
    """

    def said(column, empty):
        if column not in row.sheet.places or not row.text(column):
            return empty
        date = day(row, column)
        return date and date.toordinal()

    first, last = said("Valid from", 0), said("Valid to", ENDLESS - 1)
    if first is None or last is None:
        return None
    if last < first:
        row.slip("Valid to", f"{row.text('Valid to')} is before {row.text('Valid from')}")
        return None
    return first, last + 1


def overlaps(uses):
    """Yields the rows of one parent and component that hold on one day: the lower row, the upper one, and that day, or 0 where any is one."""
    before, *others = sorted(uses, key=lambda it: it[:2])
    for it in others:
        if it.first < before.end:
            upper, lower = sorted((before.row, it.row), key=lambda row: row.place)
            last = min(before.end, it.end) - 1
            yield lower, upper, it.first or (last if last < ENDLESS - 1 else 0)
        before = max(before, it, key=lambda it: it.end)


def steps(uses, calendar):
    """Returns the pieces for one parent by the period from which on they hold, 0 where no row does, and the rows that hold in none; without a
    row that does, no pieces.
    """
    found, outside, periods = {}, [], calendar.count
    for it in sorted(uses, key=lambda it: it[:2]):
        # (a day within a period counts from the next one on)
        begin, end = map(calendar.from_day, it[:2])
        if begin < end:
            found[begin], found[end] = it.each, 0
        else:
            outside.append(it.row.place)
    return {period: each for period, each in sorted({0: 0, **found}.items()) if period < periods} if found else {}, outside


def most(each_by_period):
    """Returns the most pieces that go into one parent, rounded up."""
    return max(map(math.ceil, each_by_period.values()))


def taken(quantity, period, each_by_period):
    """Returns the pieces that so many parents take which are released in a period."""
    return math.ceil(quantity * each_by_period[max(begun for begun in each_by_period if begun <= period)])
