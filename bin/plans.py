"""Two plans beside each other, order by order, for bin/compare and bin/page."""
import functools
import itertools
import sys
from array import array
from collections import namedtuple
from datetime import date

import reports
import mrp

# (the orders of two plans are taken one by one, each a call deeper, and in a large plan 520 of a pair)
sys.setrecursionlimit(5_000)
MONTH = 31
# What a day between partners weighs, beside the pieces by which they differ.
DAY = 10**18
# Partners are at most so many periods apart.
WITHIN = 2

# A planned order: the day on which it is due, as a number, its pieces, and how many periods it is late.
Order = namedtuple("Order", "day quantity late")
# What became of an order or a series: its first day, the pieces concerned, whether it is late by more or fewer periods, and a text.
Change = namedtuple("Change", "day quantity late text")


class Plan:
    """A report. For each pair: its planned orders and what comes in, a figure for each period, and the sum of its gross
    requirements. Days are numbers."""

    def __init__(self, path):
        self.dates, self.orders, self.incoming, self.usage, self.late = [], {}, {}, {}, {}
        with open(path, "rb") as file:
            for part in reports.parts(file, runs_of_plan=True):
                if isinstance(part, reports.Run):
                    self.take(part)
                elif isinstance(part, mrp.Late):
                    self.late[part.plant, part.item, part.period] = part.by
        if not self.dates:
            raise reports.Refused(f"{path} has no plan rows")
        self.calendar = mrp.Calendar.of_report(self.dates)
        self.days = [it.toordinal() for it in self.dates]
        self.places, self.length = {day: place for place, day in enumerate(self.days)}, self.calendar.days

    READ = staticmethod(mrp.columns_of_rows(mrp.Plan, "period", "gross", "incoming", "order"))

    def take(self, run):
        """Takes over the plan rows of a pair."""
        pair = reports.names_of_pair(run.lines[0].decode(errors="replace"), run.number)
        self.dates = self.dates or reports.record_of(run.lines, run.number + run.count - 1).dates
        periods, gross, *others = self.READ(run.lines, run.number)
        if [*periods] != [*map(str, range(run.count))]:
            reports.record_of(run.lines, run.number + run.count - 1)
        self.usage[pair] = sum(map(int, gross))
        self.incoming[pair], self.orders[pair] = (array("q", map(int, it)) for it in others)

    def lateness(self):
        """Returns how many orders are late, and the most periods that one is."""
        return f"{len(self.late):,} by at most {reports.counted(max(self.late.values()), 'period')}" if self.late else "none"

    def end(self, left_out=0):
        """Returns the first day behind the plan, or of as many periods at its end."""
        return self.calendar.first_day(max(0, len(self.days) - left_out)).toordinal()

    def at(self, day):
        """Returns where a day stands among the periods, as a number in which each has as many days: what is longer is one day at its end."""
        period = self.calendar.period(date.fromordinal(day))
        return period * self.length + min(day - self.calendar.first_day(period).toordinal(), self.length - 1)

    def comes(self, order):
        """Returns the first day of the period in which an order of this plan can come."""
        return self.calendar.first_day(self.places[order.day] + order.late).toordinal()

    def comes_in(self, pair, day):
        """Returns what comes in of a pair's open orders in the period that begins on a day."""
        return self.incoming[pair][self.places[day]] if pair in self.incoming and day in self.places else 0

    def due(self, pair):
        """Returns the planned orders of a pair, by day."""
        orders = enumerate(zip(self.days, self.orders.get(pair, ())))
        return [Order(day, quantity, self.late.get((*pair, period), 0)) for period, (day, quantity) in orders if quantity]


class Comparison:
    """Two plans, the days that both have (`first`, `last`), the `end` up to which they are compared, and how many orders are left out.

    How far partners may be apart (`reach`), and how far they are, is counted in days of the new plan's periods (`at`).
    """

    def __init__(self, old, new, within=WITHIN, last=None, is_all=False):
        """Takes the paths of two reports, how many periods partners are apart at most, and how many periods at the end are left out, which may
        be none.
        """
        self.old, self.new, self.left_out = Plan(old), Plan(new), 0
        plans = self.old, self.new
        self.first, self.last = max(it.days[0] for it in plans), min(it.end() for it in plans)
        same = self.old.end() == self.new.end()
        self.end = min(it.end(0 if is_all else last or (0 if same else len(it.days) // 3)) for it in plans)
        self.reach, self.at = within * self.new.length, self.new.at

    def is_within(self, order):
        """Says whether there is an order and it is compared."""
        return order is not None and self.first <= order.day < self.end

    def partners(self, old, new):
        """Returns the orders of both plans two by two, or one beside None: in order, with the fewest days between them, then the fewest pieces."""
        places = [[self.at(it.day) for it in orders] for orders in (old, new)]

        def alone(order):
            return (self.reach + 1) * DAY + order.quantity if self.first <= order.day < self.last else 0

        @functools.cache
        def best(one, other):
            """Returns what the orders from two places on weigh at least, and how many of each the first step takes."""
            both = one < len(old) and other < len(new)
            days, ways = places[1][other] - places[0][one] if both else 0, []
            if both and abs(days) <= self.reach:
                ways.append((best(one + 1, other + 1)[0] + abs(days) * DAY + abs(new[other].quantity - old[one].quantity), 1, 1))
            if one < len(old) and days >= -self.reach:
                ways.append((best(one + 1, other)[0] + alone(old[one]), 1, 0))
            if other < len(new) and days <= self.reach:
                ways.append((best(one, other + 1)[0] + alone(new[other]), 0, 1))
            return min(ways, key=lambda it: it[0], default=(0, 0, 0))

        found, one, other = [], 0, 0
        while (one, other) != (len(old), len(new)):
            _, of_old, of_new = best(one, other)
            found.append((old[one] if of_old else None, new[other] if of_new else None))
            one, other = one + of_old, other + of_new
        return found

    def changes(self, pair):
        """Returns how the orders of a pair changed, by day, and counts those that are left out."""
        old, new = [it for it in self.old.due(pair) if not self.is_released(pair, it)], self.new.due(pair)
        before, after = ([it for it in orders if self.is_within(it)] for orders in (old, new))
        left_out, found = len(old) + len(new) - len(before) - len(after), []
        if before != after:
            found = [it for it in self.partners(old, new) if any(map(self.is_within, it))]
            left_out -= sum(it is not None and not self.is_within(it) for both in found for it in both)
        self.left_out += left_out
        alone = [change(*it) for it in found if None in it]
        return sorted(alone + self.together([it for it in found if None not in it]))

    def is_released(self, pair, order):
        """Says whether an order of the old plan is among the open orders of the new one, when it can come, or counted when it is due."""
        days = self.old.comes(order), order.day
        return any(self.new.comes_in(pair, day) - self.old.comes_in(pair, day) >= order.quantity for day in days)

    def together(self, partners):
        """Returns what became of orders that have partners. Those in a row that move by as much, and are as late as before, are one."""
        found = []
        for (days, same), group in itertools.groupby(partners, lambda it: (self.at(it[1].day) - self.at(it[0].day), it[0].late == it[1].late)):
            group = [*group]
            if days and same and len(group) > 1:
                was, now = (sum(it.quantity for it in orders) for orders in zip(*group))
                by, rest = divmod(abs(days), self.new.length)
                by = reports.counted(abs(days), "day") if rest else reports.counted(by, "period")
                last, pieces = date.fromordinal(group[-1][1].day), f", {now} pieces for {was}" if was != now else ""
                text = f"moved   {len(group)} orders, the last to {last}, each {by} {'later' if days > 0 else 'earlier'}{pieces}"
                found.append(Change(group[0][1].day, now, False, text))
            else:
                found += filter(None, (change(*it) for it in group))
        return found

    def found(self):
        """Returns the changes of each pair that has some, those first that matter most."""
        pairs = dict.fromkeys([*self.old.orders, *self.new.orders])
        found = {pair: changed for pair in pairs if (changed := self.changes(pair))}
        return dict(sorted(found.items(), key=lambda it: self.rank(*it)))

    def is_near(self, pair, changed):
        """Says whether the changes of a pair are of what is late or within this month."""
        return not all(self.rank(pair, changed)[:2])

    def rank(self, pair, changed):
        """Returns by what pairs are sorted: lateness, this month, and the share of the usage."""
        usage = max(it.usage.get(pair, 0) for it in (self.old, self.new))
        share = sum(it.quantity for it in changed) / usage if usage else 1
        return not any(it.late for it in changed), changed[0].day >= self.new.days[0] + MONTH, -share


def change(old, new):
    """Returns what became of an order, or nothing where it is as it was."""
    was, now = (it.late if it else 0 for it in (old, new))
    late = f", {reports.counted(was or now, 'period')} late {'before' if was else 'now'}{f', {now} now' if was and now else ''}" if was != now else ""
    if not old:
        return Change(new.day, new.quantity, now > 0, f"came    {new.quantity}{late}")
    if not new:
        return Change(old.day, old.quantity, was > 0, f"went    {old.quantity}{late}")
    if old.day != new.day:
        before = f", {old.quantity} before" if old.quantity != new.quantity else ""
        return Change(new.day, new.quantity, was != now, f"moved   {new.quantity} from {date.fromordinal(old.day)}{before}{late}")
    if old.quantity != new.quantity:
        text = f"{'grew  ' if new.quantity > old.quantity else 'shrank'}  from {old.quantity} to {new.quantity}{late}"
        return Change(new.day, abs(new.quantity - old.quantity), was != now, text)
    word = "in time" if not now else "late   " if not was else "later  " if now > was else "sooner "
    return Change(new.day, new.quantity, True, f"{word} {new.quantity}{late}") if late else None
