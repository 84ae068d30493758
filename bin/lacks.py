"""What the orders to release in this period lack, for bin/page and bin/orders: the rows of `mrp shortages` by the pair that asks.

What is made without lead time and fence, as a phantom, is there by its orders that are due now. What these lack is lacked by those
that take it.

A receipt that is due in this period and of which names.csv says that it comes later (Comes) isn't there.
"""
import hits
import reports
import mrp

# Of a pair so many shortages are kept, and of so many pairs the program is asked for each what asks for it.
MOST, FEW = 100, 10


def late_now(names, calendar):
    """Returns how many pieces of each pair are due in this period by receipts that come later."""
    late = reports.coming_late(names, calendar).get("receipt", {})
    found = {pair: sum(it.quantity for it in rows if it.period == 0) for pair, rows in late.items()}
    return {pair: quantity for pair, quantity in found.items() if quantity}


def without_late(shortages, policies, late, orders):
    """Yields the rows of `mrp shortages`, for the pairs of late_now as they are without the pieces that come later. It takes the policies
    of the table, and what has the orders of a pair as pass_up does.
    """
    if not late:
        yield from shortages
        return
    there, places = {pair: -quantity for pair, quantity in late.items()}, {}
    for row in policies.rows(mrp.Pair, mrp.Receipt, mrp.Ship):
        if isinstance(row, mrp.Pair):
            places[pair := row[:2]] = len(places)
            is_phantom = pair in there and row.supply == "make" and policies.earliest(row) == 0
            made = sum(quantity for due, quantity, *_ in orders(pair) if due == 0) if is_phantom else 0
            there[pair] = there.get(pair, 0) + row.on_hand + made
        elif row.period == 0:
            there[row.pair] += row.quantity
    found = [it for it in shortages if it[:2] not in late]
    for pair, row in terms(policies.path, late):
        if row.quantity > there[pair]:
            found.append(mrp.Shortage(*pair, row.source, *row[-5:-3], row.quantity, row.quantity - max(0, there[pair])))
        there[pair] -= row.quantity
    # (in table order, as the report has them)
    yield from sorted(found, key=lambda it: places[it[:2]])


def terms(table, pairs):
    """Yields what asks for some pairs in this period by the table at a path, each with its pair."""
    if len(pairs) <= FEW:
        found = ((pair, line) for pair in pairs for line in hits.report(f"peg {' '.join(pair)} 0", table))
    else:
        asked = {",".join((*pair, "0")).encode(): pair for pair in pairs}
        lines = ((asked.get(line.split(b",", 1)[1].rsplit(b",", 6)[0]), line) for line in hits.report("pegs", table))
        found = (it for it in lines if it[0])
    yield from ((pair, mrp.report_row(line.decode(), number)) for number, (pair, line) in enumerate(found, 1))


class Lacks:
    """The shortages of each pair's orders that are released in this period, of all of them together, and those of demands."""

    def __init__(self):
        self.of, self.demands = {}, []

    def take(self, row):
        """Takes over a row of `mrp shortages`. A demand is no order."""
        if row.source != "demand":
            self.add((row.by_plant, row.by_item), [row])
        else:
            self.demands.append(row)

    def add(self, pair, rows):
        found = dict.fromkeys([*self.of.get(pair, ()), *rows])
        self.of[pair] = [*found][:MOST]

    def pass_up(self, takes, policies, orders):
        """Gives what phantoms lack to those that take them. It takes what goes into what (hits.Takes), the policies, and what has
        the orders of a pair, of each the period in which it is due, its quantity, and the period of its release.
        """

        def is_phantom(pair):
            row = takes.rows[pair]
            return row.supply == "make" and policies.earliest(row) == 0 and any(due == 0 for due, *_ in orders(pair))

        if not any(map(is_phantom, self.of)):
            return
        for pair in takes.order:
            parts = [(part, taken) for part, taken in takes.takes[pair].items() if part in self.of]
            released = sum(quantity for _, quantity, release, *_ in orders(pair) if release == 0) if parts else 0
            for part, taken in parts:
                if taken.asks(0, released) and is_phantom(part):
                    self.add(pair, self.of[part])

    def lines(self, pair, item, number=str):
        """Returns what the orders of a pair lack, each as an item and how many of how many, with the item that it goes into where
        that isn't the pair's own. What has items gives their texts, of those of another plant with the plant.
        """
        lines = []
        for it in self.of.get(pair, ()):
            into = f" for {item(pair, it.by_plant, it.by_item)}" if (it.by_plant, it.by_item) != pair else ""
            lines.append(f"{item(pair, it.plant, it.item)} {number(it.short)} of {number(it.quantity)}{into}")
        return lines
