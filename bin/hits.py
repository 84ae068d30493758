"""Which demands late orders hit: what waits for what, from each late order up to the demands. For bin/hit and bin/page.

What waits for what is what the table says: a receipt waits for nothing, be it of an order whose components stand among the demands.
A firm order waits for what it takes in the period of its start, as a release does. A receipt that the plan counts sooner is there
when it comes, so that what it covers waits for it as for a late order; so do open orders of which names.csv says that they come later.
"""
import functools
import graphlib
import operator
import subprocess
import sys
from array import array
from bisect import bisect_left
from itertools import accumulate, takewhile
from typing import NamedTuple

import reports
import mrp

# Of so many late pairs that stand in no hit it is found what waits for them too: a word has a bit for each.
MOST_OTHERS = 60


def report(words, table):
    """Yields the rows of a report that the program makes of the table at a path. Where it refuses, it has said why, and the tool ends."""
    with open(table, "rb") as file, subprocess.Popen(reports.asking(*words.split()), stdin=file, stdout=subprocess.PIPE) as child:
        yield from child.stdout
    if child.returncode:
        sys.exit(1)


def hits(table, names):
    """Returns the demands that late orders of the table at a path hit, each an mrp.Hit: the worst first, then by period,
    then in table order."""
    return firm_of(table, report("plan", table), names).worst_first()


def firm_of(table, plan, names, orders=None, places=None):
    """Returns the Firm of the table at a path, and of the lines of its plan; `places` is for reports.runs. For the lines of its orders the
    program is asked where they aren't given.
    """
    policies, delays = reports.Policies(table), {}
    if names.comes:
        delays = reports.coming_late(names, policies.calendar)
    orders = Orders(orders or report("orders", table), delays.get("firm", {}))
    with mrp.open_table(table) as lines:
        firm = Firm(lines, orders, policies, delays.get("receipt", {}))
    firm.late = firm.take_plan(plan, places)
    return firm


class Orders:
    """The planned orders and the firm orders of each pair, four figures each: due, quantity, release, and periods late. A firm
    order is late where it comes later than it is due. And the pairs that have late ones, the figures of the firm orders of each
    pair alone, and the lines of firm orders and of planned ones that are released now."""

    # (in the order of the columns)
    READ = staticmethod(mrp.columns_of_rows(mrp.Order, "plant", "item", "quantity", "release", "due", "late"))
    READ_FIRM = staticmethod(mrp.columns(reports.FirmOrder, "plant", "item", "due", "quantity", "release"))

    def __init__(self, lines, delays):
        """Takes the lines of the report, and the firm orders of each pair that come late."""
        self.of, self.late, self.firm, self.shown = {}, set(), {}, []
        self.delays = {pair: {} for pair in delays}
        for pair, rows in delays.items():
            for it in rows:
                self.delays[pair].setdefault((it.period, it.quantity), []).append(it.by)
        for run in reports.runs(lines, reports.ORDER_ROWS):
            if run.lines[0].startswith(b"firm,"):
                self.take_firm(run.lines[0], run.number)
            else:
                self.take(run)

    def take(self, run):
        """Takes over the planned orders of a pair."""
        plants, items, quantities, releases, dues, lates = self.READ(run.lines, run.number)
        pair, figures = (plants[0], items[0]), array("q", bytes(32 * len(run.lines)))
        for place, texts in enumerate((dues, quantities, releases, lates)):
            figures[place::4] = array("q", map(int, texts))
        self.of.setdefault(pair, array("q")).extend(figures)
        self.shown += [line for line, it in zip(run.lines, releases) if it == "0"]
        if any(figures[3::4]):
            self.late.add(pair)

    def take_firm(self, line, number):
        """Takes over a firm order."""
        *pair, due, quantity, release = self.READ_FIRM(line.decode(), number)
        pair, due, quantity, release = (*pair,), int(due), int(quantity), int(release)
        late = (self.delays.get(pair, {}).get((due, quantity)) or [0]).pop()
        self.firm.setdefault(pair, []).append((due, quantity, release, late))
        self.of.setdefault(pair, array("q")).extend((due, quantity, release, late))
        self.shown.append(line)
        if late:
            self.late.add(pair)

    def rows(self, pair):
        figures = iter(self.of.get(pair, ()))
        return zip(figures, figures, figures, figures)


class Taken(NamedTuple):
    """What goes into a pair: how many pieces into one by the bill, and between which thousandths of a release its part lies. Of
    usage rows, by rising periods, the last one that begins by then holds in the place of the bill.
    """

    per: int
    low: int
    high: int
    usages: list = ()

    def asks(self, period, release):
        """Returns the pieces that a release of a period asks for."""
        part = release * self.high // 1000 - release * self.low // 1000
        if not self.usages or self.usages[0].period > period:
            return self.per * part
        found = next(it for it in reversed(self.usages) if it.period <= period)
        return mrp.Per(found.per, found.base).pieces(part)


class Takes:
    """What a table says of its pairs: their rows, and what goes into what.

    `takes` has of each pair what goes into it, the components and the suppliers' pairs, each with what it asks of a release.
    """

    # What stands behind the pairs and the bills of a table.
    BEHIND = tuple(f"{it.__name__.lower()}," for it in mrp.KINDS[mrp.KINDS.index(mrp.Demand) :])

    def __init__(self, lines, usages):
        """Takes the lines of the table, and its usage rows by plant, parent and component."""
        self.rows, self.takes, self.usages = {}, {}, usages
        front = takewhile(lambda it: not it.startswith(self.BEHIND), lines)
        for row in mrp.table_rows(front, mrp.Run, mrp.Pair, mrp.Bill):
            self.take(row)

    def take(self, row):
        """Takes over a row of the table."""
        if isinstance(row, mrp.Bill):
            usages = self.usages.get(row[:3], ())
            self.takes[row.plant, row.parent][row.plant, row.component] = Taken(row.per, 0, 1000, usages)
        elif isinstance(row, mrp.Pair):
            self.rows[pair := (row.plant, row.item)], self.takes[pair], low = row, {}, 0
            for plant, share in mrp.sources(row.supply):
                self.takes[pair][plant, row.item] = Taken(1, low, low + share)
                low += share
        else:
            self.periods = row.periods

    @functools.cached_property
    def order(self):
        """The pairs, what goes into another before it."""
        return [*graphlib.TopologicalSorter(self.takes).static_order()]


class Firm(Takes):
    """What a table says of its pairs, their orders, and their plan as far as their requirements can wait for a late order.

    `taken` has of what goes into a pair what can wait, each with the periods, as bits, in which a release takes of it. `late` has the
    rows of late orders as the plan has them.
    """

    def __init__(self, lines, orders, policies, delays):
        """Takes the lines of the table, its Orders, its policies, and the receipts of each pair that come later than they are due."""
        super().__init__(lines, policies.usages)
        self.orders, self.policies, self.delays, self.ends, self.calendar = orders, policies, delays, {}, policies.calendar
        self.settle()
        lists = ({pair: array("q", [0]) * min(end, self.periods) for pair, end in self.ends.items() if end} for _ in "123")
        self.gross, self.incoming, self.demand = lists

    def settle(self):
        """Finds which pairs can wait, and for how many periods."""
        self.pairs = [*self.rows]
        self.places = {pair: place for place, pair in enumerate(self.pairs)}
        self.taken = {pair: {} for pair in self.pairs}
        for pair in self.order:
            # (nothing waits longer than until the last late order and the last receipt of what is below, and then the lead time, and
            # the times of firm orders)
            self.taken[pair] = {it: 0 for it in self.takes[pair] if self.ends[it]}
            below = max((self.ends[it] for it in self.taken[pair]), default=0)
            firm = [due + late - start for due, _, start, late in self.orders.firm.get(pair, ())] if below else []
            longest = max(self.rows[pair].lead, *firm, 0) + below if below else 0
            self.ends[pair] = max(longest, self.own_end(pair))

    def own_end(self, pair):
        """Returns the first period from which on nothing waits for a pair's own late orders, or for receipts that count sooner or come late."""
        end = self.policies.earliest(self.rows[pair]) if pair in self.orders.late else 0
        end = max(end, *(due + late for due, _, _, late in self.orders.firm.get(pair, ()) if late), 0)
        end = max(end, *(it.period + it.by for it in self.delays.get(pair, ())), 0)
        comes = self.policies.comes.get(pair)
        return max(end, *(period for period, it in enumerate(comes.receipts, 1) if it), 0) if comes else end

    PLAN = staticmethod(mrp.columns_of_rows(mrp.Plan, "period", "gross", "incoming", "release"))

    def take_plan(self, lines, places=None):
        """Takes over the plan rows, and passes over what can't wait. Returns the rows of late orders; `places` is for reports.runs."""
        late = []
        for run in reports.runs(lines, places=places):
            if run.lines[0].startswith(b"late,"):
                late.append(reports.Line(run.lines[0].decode(), run.number))
            else:
                self.take_run(run)
        return late

    def take_run(self, run):
        """Takes over the plan rows of a pair, up to the period from which on nothing waits."""
        pair = reports.names_of_pair(run.lines[0].decode(), run.number)
        if not self.ends[pair]:
            return
        found = self.PLAN(run.lines[: self.ends[pair]], run.number)
        periods, gross, incoming, releases = (array("q", map(int, it)) for it in found)
        if [*periods] != [*range(len(self.gross[pair]))]:
            raise reports.Refused(f"row {run.number}: the periods of a pair aren't those of the table")
        self.gross[pair], self.incoming[pair] = gross, incoming
        self.demand[pair] = array("q", map(operator.add, self.demand[pair], gross))
        parts = [(it, self.ends[it], self.takes[pair][it], self.demand[it]) for it in self.taken[pair]]
        for period, release in enumerate(releases if parts else ()):
            if release:
                self.take_release(self.taken[pair], parts, period, release)

    @staticmethod
    def take_release(taken, parts, period, release):
        """Takes over what a release takes of what can wait, which is no demand of customers there."""
        for it, end, takes, demand in parts:
            if period < end and (asks := takes.asks(period, release)):
                taken[it] |= 1 << period
                demand[period] -= asks

    def worst_first(self):
        """Returns the demands that wait, the worst first, then by period, then in table order."""
        return sorted(self.hits(), key=lambda it: (-it.late_at_worst, it.period, self.places[it.plant, it.item]))

    def hits(self):
        """Yields the demands that wait, from components and suppliers up."""
        waits = self.waiting = {}
        for pair in self.order:
            if not self.ends[pair]:
                continue
            waits[pair] = self.waits(pair, waits)
            for period, (quantity, periods, place) in enumerate(zip(self.demand[pair], *waits[pair])):
                if quantity and periods:
                    day = self.calendar.first_day(period)
                    yield mrp.Hit(*pair, period, day, quantity, periods, *self.pairs[place])

    def waits(self, pair, waits):
        """Returns how many periods the requirements of a pair wait at worst, by period, and the place of the pair whose late order makes it so.

        A requirement waits until as many pieces have come as it and those before it ask for. It waits for the order that bin/why has below it: the last
        one due by then, or as much sooner as COVER says; where a split source, a firm order's dates or a receipt that counts sooner let that one come
        before, for the last one that comes later.
        """
        came, cover = self.came_in(pair), self.policies.policy(pair).cover
        sooner = self.policies.sooner(pair, self.incoming[pair])
        coming = [(it.period, it.period + it.by, self.places[pair]) for it in sooner]
        # (the plan may count it as much sooner)
        earlier = self.policies.policy(pair).sooner
        coming += [(max(0, it.period - earlier), it.period + it.by, self.places[pair]) for it in self.delays.get(pair, ())]
        for due, quantity, release, late in self.orders.rows(pair):
            if due < self.ends[pair]:
                held, place = self.held(pair, release, waits)
                comes = due + late + held
                coming.append((due, comes, place if held else self.places[pair]))
                came[comes] = came.get(comes, 0) + quantity
        coming.sort(key=lambda it: it[0])
        times = sorted(came)
        supply, found = [*accumulate(map(came.get, times))], [array("q", [0]) * len(self.gross[pair]) for _ in "12"]
        for period, required in enumerate(accumulate(self.gross[pair])):
            until = times[bisect_left(supply, required)] if self.gross[pair][period] else 0
            if until > period:
                found[0][period] = until - period
                due_by_then = coming[: bisect_left(coming, (max(0, period - cover) + 1,))]
                found[1][period] = next(place for _, comes, place in reversed(due_by_then) if comes >= until)
        return found

    def came_in(self, pair):
        """Returns what is there of a pair, and what open orders bring that aren't firm, by the period in which it comes."""
        comes = self.policies.comes.get(pair)
        incoming = map(sum, zip(*comes)) if comes else self.incoming[pair]
        came = {period: it for period, it in enumerate(incoming) if it}
        came[0] = came.get(0, 0) + self.rows[pair].on_hand
        for due, quantity, *_ in self.orders.firm.get(pair, ()):
            if due < self.ends[pair]:
                came[due] -= quantity
        for it in self.delays.get(pair, ()):
            came[it.period], came[it.period + it.by] = came[it.period] - it.quantity, came.get(it.period + it.by, 0) + it.quantity
        return came

    def others(self, hits):
        """Returns of each pair with late orders that stands in no hit the hits whose demands wait for it too; of the first pairs, where many are late."""
        late = sorted(self.orders.late - {(it.by_plant, it.by_item) for it in hits}, key=self.places.get)[:MOST_OTHERS]
        behind, found = self.behind({pair: 1 << place for place, pair in enumerate(late)}), {}
        for it in hits if late else ():
            if (it.plant, it.item) in behind:
                found.setdefault(behind[it.plant, it.item][it.period], []).append(it)
        others = {it: [] for it in late}
        for bits, same in found.items():
            while bits:
                others[late[bits.bit_length() - 1]] += same
                bits ^= 1 << bits.bit_length() - 1
        return others

    def behind(self, late):
        """Returns which of the late pairs, as bits, the requirements of each pair wait for, by period; of those that wait for none nothing."""
        behind = {}
        for pair in self.order if late else ():
            if self.ends[pair] and (pair in late or not behind.keys().isdisjoint(self.taken[pair])):
                behind[pair] = self.behind_pair(pair, late, behind)
        return behind

    def behind_pair(self, pair, late, behind):
        """Returns which late pairs the requirements of a pair wait for. What waits between when an order is due and when it comes waits for it."""
        found, waits = [0] * len(self.gross[pair]), self.waiting[pair][0]
        # (an order covers what stock before it doesn't; where receipts come late it may cover more)
        cover = 0 if pair in self.policies.comes else self.policies.policy(pair).cover
        for due, _, release, by in self.orders.rows(pair):
            if due < self.ends[pair]:
                bits = late.get(pair, 0) if by else 0
                for it, periods in self.taken[pair].items():
                    bits |= behind[it][release] if periods >> release & 1 and it in behind else 0
                comes = due + by + self.held(pair, release, self.waiting)[0]
                for period in range(due + cover if due else 0, min(comes, len(found))):
                    found[period] |= bits if waits[period] else 0
        return found

    def held(self, pair, release, waits):
        """Returns how long a release of a pair waits at worst for what it takes, and the place of the pair whose late order makes it so."""
        longest, first = 0, 0
        for it, taken in self.taken[pair].items():
            if taken >> release & 1:
                periods, places = waits[it]
                if periods[release] > longest or periods[release] == longest and places[release] < first:
                    longest, first = periods[release], places[release]
        return longest, first
