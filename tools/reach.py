"""Tables that go on where another one ends, and what their reports have to keep: for tools/torture.

A longer table has the first day and days of the shorter one, its plants, pairs, bills, policies and opening figures, and of its
periods the same rows, in order. What it has besides belongs to later periods.
"""
from datetime import timedelta

import crates  # noqa: F401  (which lets the modules of bin/ be found)
import firms
import mrp

MOST_PERIODS = 104
# The reports that are compared.
REPORTS = "plan", "check --reach", "advice", "advice --reach", "schedule"


# The pairs of a narrow firm, and the bills among them.
NARROW = (("A", "P", "make"), ("A", "C", "make"), ("A", "D", "buy"), ("B", "P", "from:A"), ("B", "D", "from:A:600:C:400"), ("C", "D", "buy"))
BILLS = ("P", "C"), ("P", "D"), ("C", "D")
RULES = "lot", "lot", "fixed:3", "periods:2", "periods:3", "min:4:2"


def narrow(chance):
    """Returns the table of a firm of few periods and small figures, in which much is decided where the horizon ends."""
    periods = chance.randint(3, 8)
    rows = [mrp.Run("2026-01-05", 7, periods), *map(mrp.Plant, "ABC")]
    for *pair, supply in NARROW:
        rows.append(mrp.Pair(*pair, supply, chance.choice(RULES), chance.randint(0, 2), chance.randint(0, 6), chance.choice((0, 0, 2))))
    rows += [mrp.Bill("A", *it, chance.randint(1, 2)) for it in BILLS if chance.random() < 0.8]
    pairs = [it[:2] for it in NARROW]
    for kind, often in (mrp.Demand, 0.4), (mrp.Receipt, 0.3):
        rows += [kind(*it, t, chance.randint(1, 5)) for it in pairs for t in range(periods) if chance.random() < often]
    dates = [sorted(chance.randrange(periods) for _ in "12") for _ in pairs]
    rows += [mrp.Firm(*it, *dated, chance.randint(1, 5)) for it, dated in zip(pairs, dates) if chance.random() < 0.3]
    for it in pairs:
        if chance.random() < 0.7:
            figures = chance.randrange(periods) * chance.randint(0, 1), *(chance.choice((0, 1, 2, 3)) for _ in "12"), *(chance.choice((0, 0, 2)) for _ in "12")
            rows.append(mrp.Policy(*it, *figures))
    return bytes(mrp.Table(rows))


def lengthened(chance, text):
    """Returns a table that goes on where a good one ends."""
    table = mrp.Table.read(text.decode().splitlines(keepends=True))
    later = Later(chance, table)
    rows = {kind: table.of(kind) for kind in mrp.KINDS}
    rows[mrp.Run] = [table.run._replace(periods=later.periods)]
    rows[mrp.Vendor] = [later.vendor(it) for it in rows[mrp.Vendor]]
    if later.periods > later.end:
        for kind in (mrp.Demand, mrp.Receipt, mrp.Firm, mrp.Usage):
            rows[kind] = mixed(chance, rows[kind], [*later.rows(kind)])
        # (shipments stand in the order of their arrival where figures start anew)
        rows[mrp.Ship] += sorted(later.rows(mrp.Ship), key=lambda it: it.period)
        rows[mrp.Reset] += later.resets()
        rows[mrp.Day] += later.days()
    found = bytes(mrp.Table(it for kind in mrp.KINDS for it in rows[kind]))
    return found if chance.random() < 0.5 else firms.unended(found)


def mixed(chance, rows, more):
    """Returns rows with more of their kind among them, each in its own order."""
    ways = chance.sample([True] * len(rows) + [False] * len(more), len(rows) + len(more))
    first, second = iter(rows), iter(more)
    return [next(first if it else second) for it in ways]


class Later:
    """The periods behind the end of a table, and rows that may stand there."""

    def __init__(self, chance, table):
        self.chance, self.table, self.end = chance, table, table.run.periods
        self.periods = min(MOST_PERIODS, self.end + chance.choice((0, 1, 1, 2, 3, 12, MOST_PERIODS)))
        self.pairs = [it[:2] for it in table.pairs]
        self.lanes = [(plant, *it[:2]) for it in table.pairs for plant, _ in mrp.sources(it.supply)]
        self.sooner = {it.pair: it.sooner for it in table.policies}
        self.used = {it[:4] for it in table.usages}

    def period(self, first=0):
        """Returns a later period, so many at least behind the first of them."""
        return self.chance.randrange(self.end + first, self.periods)

    def some(self, rows):
        """Returns some of these, several times or never."""
        return self.chance.choices(rows, k=self.chance.choice((0, 1, len(rows), 3 * len(rows)))) if rows else []

    def rows(self, kind):
        """Yields rows of a kind."""
        for names in self.some({mrp.Ship: self.lanes, mrp.Usage: [it[:3] for it in self.table.bills]}.get(kind, self.pairs)):
            quantity, first = self.chance.choice(firms.QUANTITIES), self.sooner.get(names, 0) if kind is mrp.Receipt else 0
            if self.end + first >= self.periods:
                continue
            period = self.period(first)
            if kind is mrp.Firm:
                yield kind(*names, period, self.chance.randrange(period, self.periods), quantity)
            elif kind is not mrp.Usage:
                yield kind(*names, period, quantity)
            elif (*names, period) not in self.used:
                self.used.add((*names, period))
                yield kind(*names, period, self.chance.choice((0, 1, 3, 103)), self.chance.choice((1, 4, 100)))

    def resets(self):
        """Returns resets of some lanes that have none, of those whose shipments stand in the order of their arrival."""
        known, arrivals = {it[:3] for it in self.table.resets}, {}
        for it in self.table.ships:
            arrivals.setdefault(it[:3], []).append(it.period)
        free = [it for it in self.lanes if it not in known and arrivals.get(it, []) == sorted(arrivals.get(it, []))]
        return [mrp.Reset(*it, self.period()) for it in free if self.chance.random() < 0.3]

    def vendor(self, row):
        """Returns a vendor, whose figures may start anew later."""
        is_anew = row.reset is None and self.periods > self.end and self.chance.random() < 0.3
        return row._replace(reset=self.period()) if is_anew else row

    def days(self):
        """Yields first days of some periods."""
        often, days = self.chance.choice((0, 0, 0.3, 1)), self.table.run.days
        first = self.table.calendar.first_day(self.end - 1)
        for period in range(self.end, self.periods):
            is_own = self.chance.random() < often
            first += timedelta(self.chance.choice((1, days, 2 * days)) if is_own else days)
            if is_own:
                yield mrp.Day(period, first)


def broken(text, before, after):
    """Yields what doesn't hold of the reports of a table and of a longer one. What is whole stays, and what is said of open orders is
    said again.
    """
    table = mrp.Table.read(text.decode().splitlines(keepends=True))
    reaches, longer = ({it[:2]: it for it in mrp.rows_of(found["check --reach"])} for found in (before, after))
    plans, later = (plans_of(found["plan"]) for found in (before, after))
    policies = {it.pair: it for it in table.policies}
    knows = {}
    for row in table.pairs:
        pair = row.plant, row.item
        policy = policies.get(pair, mrp.Policy(*pair, 0, 0, 0, 0, 0))
        whole, released = (0 if it is None else it + 1 for it in reaches[pair][2:])
        knows[pair] = max(0, whole - policy.cover)
        joined = int(row.rule.partition(":")[2]) - 1 if row.rule.startswith("periods") else 0
        ordered = max(0, whole - policy.cover - joined)
        counted = knows[pair] if policy.sooner else table.run.periods
        spans = {"gross": whole, "incoming": counted, "order": ordered, "available": ordered, "release": released}
        yield from (f"{it} of {pair}" for it, span in spans.items() if plans[pair][it][:span] != later[pair][it][:span])
        yield from (f"{it} of {pair} falls" for it in ("period", "release") if fell(reaches[pair], longer[pair], it))
    yield from broken_messages(knows, before, after)
    first, second = (calls_of(found["schedule"]) for found in (before, after))
    for lane in first.keys() | second.keys():
        released = reaches[lane[1:]].release
        if released is not None and up_to(released, first, lane) != up_to(released, second, lane):
            yield f"calls of {lane}"


def calls_of(report):
    """Returns the calls of each delivery schedule, by supplier, customer and item: period, first day and quantity."""
    found = {}
    for it in mrp.rows_of(report):
        if it.kind == "call":
            found.setdefault((it.supplier, it.customer, it.item), []).append((it.period, it.date, it.quantity))
    return found


def up_to(period, calls, lane):
    """Returns the calls of a lane up to a period."""
    return [it for it in calls.get(lane, []) if it[0] <= period]


def plans_of(report):
    """Returns the figures of each pair's plan, by their names."""
    found = {}
    for it in mrp.rows_of(report):
        if isinstance(it, mrp.Plan):
            own = found.setdefault((it.plant, it.item), {name: [] for name in mrp.Plan._fields[4:]})
            for name, figures in own.items():
                figures.append(getattr(it, name))
    return found


def fell(before, after, name):
    """Tells whether a longer table knows less."""
    first, second = (-1 if (it := getattr(row, name)) is None else it for row in (before, after))
    return second < first


def broken_messages(knows, before, after):
    """Yields the messages that don't stay as they are, and those of orders that are beyond and come to be needed sooner."""
    said, again = [*mrp.rows_of(before["advice --reach"])], {*mrp.rows_of(after["advice"])} & {*mrp.rows_of(after["advice --reach"])}
    yield from (f"{it}" for it in said if it.action != "beyond" and it not in again)
    kept = {it[1:8] for it in said if it.action != "beyond"}
    orders = {it[1:8] for it in mrp.rows_of(before["advice"])} - kept
    for it in mrp.rows_of(after["advice"]):
        if it[1:8] in orders and it.needed is not None and it.needed < knows[it.plant, it.item]:
            yield f"{it} was beyond"
