"""The days on which a firm works, and the periods of its plan by them, for bin/sheets."""
import re
from bisect import bisect_left, bisect_right

import headed
from headed import Slip

# How the days of the week are called, in English, German, French and Spanish, from Monday on; what could be two days isn't among them.
WEEK = (
    "monday mon mo montag lundi lun lu lunes",
    "tuesday tues tue tu dienstag die mardi mar ma martes",
    "wednesday wed we mittwoch mit mi mercredi mer me miercoles mie",
    "thursday thurs thur thu th donnerstag don jeudi jeu je jueves jue ju",
    "friday fri fr freitag fre vendredi ven ve viernes vie vi",
    "saturday sat sa samstag sam sonnabend samedi sabado sab",
    "sunday sun su sonntag so dimanche dim domingo dom",
)
WEEKDAYS = {word: place for place, words in enumerate(WEEK) for word in words.split()}
AND = {"and", "und", "et", "y"}
# So many periods before the first one of a plan and behind the last one are known too: as far as orders consume forecasts.
AROUND = 2 * 520


def weekdays(text):
    """Returns the days of the week that a cell names, 0 for Monday."""
    found = set()
    for it in re.split(r"[\s,;/+&.]+", text):
        if (word := headed.plain(it).casefold()) in WEEKDAYS:
            found.add(WEEKDAYS[word])
        elif word and word not in AND:
            raise Slip(f"{it!r} is no day of the week, or may be two; write Sat Sun")
    if len(found) == 7:
        raise Slip(f"{text!r} leaves no day on which anyone works")
    return found


class Shop:
    """On which days nobody works: days of the week, and spans of days, each with its first and its last one. Days are numbers."""

    def __init__(self, closed=(), spans=()):
        self.closed, self.spans = frozenset(closed), []
        for first, last in sorted(spans):
            if self.spans and first <= self.spans[-1][1] + 1:
                first, before = self.spans.pop()
                last = max(last, before)
            self.spans.append((first, last))

    def span(self, day):
        """Returns the span that has a day, or nothing."""
        place = bisect_right(self.spans, day, key=lambda it: it[0]) - 1
        return self.spans[place] if place >= 0 and day <= self.spans[place][1] else None

    def opens(self, day):
        """Returns a day, or the first one behind it on which somebody works."""
        while (span := self.span(day)) or (day - 1) % 7 in self.closed:
            day = span[1] + 1 if span else day + 1
        return day

    def opened(self, day):
        """Returns a day, or the last one before it on which somebody works."""
        while (span := self.span(day)) or (day - 1) % 7 in self.closed:
            day = span[0] - 1 if span else day - 1
        return day

    def working(self, days):
        """Returns how many days somebody works in some periods of so many days, and in how many of them, without spans: of seven in a row."""
        found = [sum(it % 7 not in self.closed for it in range(place * days, (place + 1) * days)) for place in range(7)]
        return sum(found), sum(it > 0 for it in found)


class Periods:
    """The periods of a plan: its first day, the days of a period, how many there are, and on which days nobody works. Days are numbers.

    From the first day on as many days as a period has stand together. A period begins on the first of them on which somebody works; where
    there is none, none begins. The first one of the plan has also the days before it from the first day on.
    """

    def __init__(self, first, days, count, shop):
        self.first, self.days, self.count, self.shop = first.toordinal(), days, count, shop
        before, begins, day = [], [], self.first
        while len(begins) <= count + AROUND:
            begins.append(shop.opens(day))
            day = self.together(begins[-1]) + days
        day = self.first
        while len(before) < AROUND:
            before.append(shop.opens(self.together(shop.opened(day - 1))))
            day = before[-1]
        self.begins = [*reversed(before), *begins]

    def together(self, day):
        """Returns the first of the days that stand together with one."""
        return day - (day - self.first) % self.days

    def first_day(self, period):
        """Returns the first day of a period."""
        place = period + AROUND
        known = min(max(place, 0), len(self.begins) - 1)
        return self.begins[known] + self.days * (place - known)

    def number(self, date):
        """Returns the number of the period that holds a date: below 0 before the first one, and on beyond the last."""
        day = date.toordinal()
        if self.first <= day < self.begins[AROUND]:
            return 0
        place = max(0, bisect_right(self.begins, day) - 1)
        if place == len(self.begins) - 1 or day < self.begins[0]:
            place += (day - self.begins[place]) // self.days
        return place - AROUND

    def from_day(self, day):
        """Returns the number of the first period that doesn't begin before a day: at least 0, and at most how many there are."""
        return min(max(bisect_left(self.begins, day) - AROUND, 0), self.count)

    @property
    def last(self):
        """The last day of the plan."""
        return self.first_day(self.count) - 1

    def rows(self):
        """Yields the periods that don't follow by as many days as a period has, each with its first day."""
        for period in range(1, self.count):
            if self.first_day(period) != self.first_day(period - 1) + self.days:
                yield period, self.first_day(period)

    def ends(self):
        """Returns the latest day on which the plan ends, by some of its rows, with as many days for all other periods."""
        return max(day + self.days * (self.count - period) - 1 for period, day in ((0, self.first_day(0)), *self.rows()))

    def joined(self):
        """Yields the first day and the last one of days that are as many as a period has, or several times as many, and in which none begins."""
        for period in range(1, self.count):
            first, end = self.together(self.first_day(period - 1)) + self.days, self.together(self.first_day(period))
            if first < end:
                yield first, end - 1
