"""What is called for of each item from a supplier, by the reports of mrp, for bin/releases."""
from datetime import timedelta
from typing import NamedTuple

import mrp
import named
import reports


class Call(NamedTuple):
    """Pieces that are to leave in a period and to be delivered on a day, if that is within the plan: the figure that is in force with
    them, whether that has started again, and how many of them come too late.
    """

    period: int
    despatch: object
    delivery: object
    quantity: int
    figure: int
    is_anew: bool
    late: int


class Lane:
    """An item that a customer takes from a supplier: the opening figures, when figures start again, with which figure, and the calls."""

    def __init__(self, opening):
        self.names, self.transit = (opening.supplier, opening.customer, opening.item), opening.quantity
        self.received, self.reset, self.closes, self.calls = opening.cumulative - opening.quantity, None, 0, []

    @property
    def shipped(self):
        """The opening figure."""
        return self.received + self.transit

    def add(self, row, parts):
        """Takes a call in parts, each a delivery day, its pieces, and those of them that come too late."""
        figure = row.cumulative - row.quantity
        for delivery, quantity, late in parts:
            figure += quantity
            self.calls.append(Call(row.period, row.date, delivery, quantity, figure, self.reset is not None, late))


class Calls:
    """The lanes of a table on standard input, and until when each is whole. Firm orders come when the names of sheets say so."""

    def __init__(self, folder, names):
        self.schedule = named.Report(folder, "schedule")
        self.table = reports.Table(self.schedule.table)
        self.pairs = {(it.plant, it.item): it for it in self.table.rows(mrp.Pair)}
        self.coming = reports.coming_late(names, self.table.calendar).get("firm", {})
        self.released, self.wholes = {}, {}
        for it in named.Report(folder, "orders", self.table.path).rows():
            self.released.setdefault((it.plant, it.item, it.release), []).append(it)
        for it in named.Report(folder, "check --reach", self.table.path).rows():
            self.wholes[it.plant, it.item] = it.release

    @property
    def first(self):
        """The first day of the plan."""
        return self.table.run.first

    def day(self, period):
        """Returns the first day of a period, or nothing behind the last one."""
        return self.table.calendar.first_day(period) if period < self.table.run.periods else None

    def whole_until(self, lane):
        """Returns the last day until which a schedule is whole, or nothing where it is in no period."""
        last = self.wholes[lane.names[1:]]
        return None if last is None else self.table.calendar.first_day(last + 1) - timedelta(days=1)

    def lanes(self):
        """Returns the lanes in the order of the schedule."""
        found = {}
        for row in self.schedule.rows():
            names = row.supplier, row.customer, row.item
            if row.kind == "opening":
                found[names] = Lane(row)
            elif row.kind == "reset":
                found[names].reset, found[names].closes = row.date, row.cumulative
            else:
                found[names].add(row, self.parts(row))
        return [*found.values()]

    def parts(self, row):
        """Returns a call by the days of delivery."""
        pair, orders = self.pairs[row.customer, row.item], self.released.get((row.customer, row.item, row.period), [])
        shares = mrp.sources(pair.supply)
        parts = self.share(row, pair, orders, shares) if len(shares) > 1 else self.deliveries(orders)
        if sum(quantity for _, quantity, _ in parts) != row.quantity:
            raise reports.Refused(f"{' '.join(row[1:4])}: the orders released in {row.period} aren't the call of {row.quantity}")
        return parts

    def deliveries(self, orders):
        """Returns what is released together by the days on which it comes."""
        found = {}
        for it in orders:
            by = self.late(it)
            pieces, late = found.get(it.due + by, (0, 0))
            found[it.due + by] = pieces + it.quantity, late + it.quantity * (by > 0)
        return [(self.day(period), *figures) for period, figures in sorted(found.items())]

    def late(self, order):
        """Returns how many periods after it is due an order comes, of a firm one by the sheets."""
        coming = self.coming.get((order.plant, order.item), ()) if isinstance(order, reports.FirmOrder) else ()
        return next((it.by for it in coming if (it.period, it.quantity) == (order.due, order.quantity)), order.late)

    def share(self, row, pair, orders, shares):
        """Returns the part of a source in what is released together. It comes a lead time later."""
        low = sum(share for _, share in shares[: [plant for plant, _ in shares].index(row.supplier)])
        high = low + dict(shares)[row.supplier]
        part, late = (
            sum(sums) * high // 1000 - sum(sums) * low // 1000
            for sums in ([it.quantity for it in orders], [it.quantity for it in orders if self.late(it)])
        )
        return [(self.day(row.period + pair.lead), part, min(part, late))]
