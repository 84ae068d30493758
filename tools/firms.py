"""Firms made from a source of chance, and damage to their tables: for tools/torture."""
import datetime

import crates  # noqa: F401  (which lets the modules of bin/ be found)
import mrp
from pair_cases import TERMS

# The columns of a policy that may say something: in turn each alone, all, or some.
POLICIES = TERMS[1:]

NAMES = ("A", "B", "S", "NORTH", "south", "P-1", "-", "--help", ".", "_x", "007", "1E5", "plan", "a.b-c_d", "X" * 20, "Q2", "Y", "z9", "W", "from")
QUANTITIES = (1, 2, 5, 7, 30, 99, 1000, 10**6)
# What is put in the place of a field or of a byte.
FIELDS = ("", "0", "1", "31", "32", "104", "105", "02", "+1", "1.5", "1000000000000", "1000000000001", "9999999999999999")
FIELDS += ("A", "B", "X" * 21, "a b", "make", "buy", "lot", "fixed:0", "fixed:7", "periods:105", "min:3:2", "min:1")
FIELDS += ("from:A", "from:A:500:B:500", "from:B:600:A:300", "2026-02-30", "2199-12-31", '"A"', '"', "103", "policy", "usage", "1000000", "1000001")
FIELDS += ("520", "521", "vendor", "day", "end", "V-1", "1000000000000000", "1000000000000001", "2026-01-12", "2199-12-01", "9999-12-31", "1969-12-31")
BYTES = b',,,"\r\n\n019ABXx:-._ \x00\x7f\xc3\xff'


def table(chance, plants=12, pairs=30, longest=104):
    """Returns the table of a firm, as bytes. Nearly all have no loop and stay within the bound, and at most so many periods."""
    size = chance.randint(1, plants)
    names, items = chance.sample(NAMES, size), chance.sample(NAMES, chance.randint(1, 8))
    kept = chance.sample([(plant, item) for plant in names for item in items], min(chance.randint(1, pairs), size * len(items)))
    periods = chance.choice((1, 2, 3, 4, 6, 12, 12, 26, longest))
    quantities = QUANTITIES if chance.random() < 0.9 else (10**12, 1, 10**11)
    firm = Draft(chance, kept, periods, quantities, longest)
    run = mrp.Run(chance.choice(("2026-01-05", "1970-01-01", "2028-02-28")), chance.randint(1, 31), periods)
    rows = [run, *map(mrp.Plant, names), *firm.pair_rows(), *firm.bill_rows()]
    rows += [*firm.period_rows(mrp.Demand, kept), *firm.period_rows(mrp.Receipt, kept), *firm.lane_rows()]
    rows += [*firm.firm_rows([(it.receiver, it.item) for it in rows if isinstance(it, mrp.Reset)])]
    rows += [*firm.policy_rows([it for it in rows if isinstance(it, mrp.Pair)], [it.pair for it in rows if isinstance(it, mrp.Receipt)])]
    rows += [*firm.usage_rows([it for it in rows if isinstance(it, mrp.Bill)])]
    rows += [*firm.vendor_rows(names), *firm.day_rows(run)]
    whole = bytes(mrp.Table(rows))
    return whole if chance.random() < 0.5 else unended(whole)


def unended(text):
    """Returns a table without its end row, where it has one with the number of rows before it."""
    front = text[: text.rfind(b"\nend,") + 1]
    return front if text == front + b"end,%d,,,,,,\n" % front.count(b"\n") else text


class Draft:
    """A firm in the making. A pair takes from pairs of a higher rank alone, but now and then from any."""

    def __init__(self, chance, kept, periods, quantities, longest):
        self.chance, self.kept, self.periods, self.quantities, self.longest = chance, kept, periods, quantities, longest
        self.rank = dict(zip(chance.sample(kept, len(kept)), range(len(kept))))
        self.any_rank = chance.random() < 0.05
        self.sources = {it: self.some_sources(it) for it in kept}
        self.made = {it for it in kept if not self.sources[it] and chance.random() < 0.7}

    def above(self, pair, of_item):
        """Returns the pairs of the same item elsewhere, or the other pairs of the same plant, from which a pair may take."""
        same = [it for it in self.kept if it[of_item] == pair[of_item] and it[1 - of_item] != pair[1 - of_item]]
        return [it for it in same if self.any_rank or self.rank[it] > self.rank[pair]]

    def some_sources(self, pair):
        """Returns the plants that a pair is taken from, at most four."""
        plants = [plant for plant, _ in self.above(pair, 1)]
        few = self.chance.choice((0, 1, 1, 2, 3, 4))
        return self.chance.sample(plants, min(few, len(plants)))

    def supply(self, pair):
        plants = self.sources[pair]
        if len(plants) < 2:
            return f"from:{plants[0]}" if plants else "make" if pair in self.made else "buy"
        cuts = [0, *sorted(self.chance.sample(range(1, 1000), len(plants) - 1)), 1000]
        return "from:" + ":".join(f"{plant}:{high - low}" for plant, low, high in zip(plants, cuts, cuts[1:]))

    def rule(self):
        least, most = self.chance.choice(self.quantities), self.chance.choice(self.quantities)
        rules = ("lot", f"fixed:{most}", f"periods:{self.chance.choice((1, 2, 3, self.longest))}", f"min:{most}:{least}", f"min:{least}:{most}")
        return self.chance.choice(rules)

    def pair_rows(self):
        for pair in self.kept:
            stock = [self.chance.choice((0, 0, *self.quantities)) for _ in "12"]
            yield mrp.Pair(*pair, self.supply(pair), self.rule(), self.chance.choice((0, 0, 1, 1, 2, 3, self.longest)), *stock)

    def bill_rows(self):
        for pair in self.kept:
            parts = self.above(pair, 0) if pair in self.made else []
            for _, component in self.chance.sample(parts, min(self.chance.randint(0, 3), len(parts))):
                yield mrp.Bill(*pair, component, self.chance.choice((1, 1, 2, 3, 12, self.quantities[0] // 10**6 or 1)))

    def period_rows(self, kind, pairs):
        """Yields rows of demand or receipts, some of them twice."""
        for _ in range(self.chance.randint(0, 2 * len(pairs))):
            row = kind(*self.chance.choice(pairs), self.chance.randrange(self.periods), self.chance.choice(self.quantities))
            yield from [row] * self.chance.choice((1, 1, 1, 2))

    def lane_rows(self):
        """Returns ship, cum and reset rows. Where figures start anew, shipments stand in the order of their arrival."""
        lanes = [(source, *pair) for pair in self.kept for source in self.sources[pair]]
        anew = {it for it in lanes if self.chance.random() < 0.3}
        ships = [
            mrp.Ship(*it, self.chance.randrange(self.periods), self.chance.choice(self.quantities))
            for it in lanes
            for _ in range(self.chance.choice((0, 0, 1, 2, 5)))
        ]
        self.chance.shuffle(ships)
        ships.sort(key=lambda it: it.period if (it.sender, it.receiver, it.item) in anew else 0)
        figures = 0, 8, 100, 999 * self.quantities[0]
        cums = [mrp.Cum(*it, self.chance.choice(figures)) for it in lanes if self.chance.random() < 0.4]
        return [*ships, *cums, *(mrp.Reset(*it, self.chance.randrange(self.periods)) for it in lanes if it in anew)]

    def firm_rows(self, anew):
        """Yields firm orders, but in some firms none: some up to the end of the horizon or in its last period alone, several
        of one pair and period, and equal ones. Pairs of several sources, and those whose figures start anew, have more.
        """
        often, last = [*anew, *(it for it in self.kept if len(self.sources[it]) > 1)], self.periods - 1
        for _ in range(self.chance.choice((0, 0, 1, 2, len(self.kept)))):
            pair = self.chance.choice(self.chance.choice((self.kept, often or self.kept)))
            start, due = sorted(self.chance.randrange(self.periods) for _ in "12")
            start, due = self.chance.choice(((start, due), (start, due), (0, due), (start, last), (last, last)))
            row = mrp.Firm(*pair, start, due, self.chance.choice(self.quantities))
            yield from [row] * self.chance.choice((1, 1, 2))
            if self.chance.random() < 0.3:
                yield row._replace(start=self.chance.randint(0, due), quantity=self.chance.choice(self.quantities))

    def policy_rows(self, pairs, received):
        """Yields policies, but in some firms none: of each pair one column alone, all, some, or none; more of those with receipts."""
        often = self.chance.choice((0, 0, 0.3, 0.9))
        for row in self.chance.sample(pairs, len(pairs)):
            pair = row.plant, row.item
            if self.chance.random() < often or often and pair in received:
                some = [it for it in POLICIES if self.chance.random() < 0.5]
                columns = self.chance.choice((*((it,) for it in POLICIES), POLICIES, some))
                yield mrp.Policy(*pair, *(self.policy(it, row.lead) if it in columns else 0 for it in POLICIES))

    def policy(self, column, lead):
        """Returns a figure of a policy: a fence about the lead time or anywhere, periods, or pieces."""
        if column == "fence":
            last = self.periods - 1
            near = min(max(0, lead + self.chance.randint(-1, 3)), last)
            return self.chance.choice((near, near, self.chance.randint(0, last)))
        if column in ("sooner", "cover"):
            return self.chance.choice((1, 1, 2, 3, self.periods - 1, self.periods, self.longest))
        return self.chance.choice(self.quantities)

    def usage_rows(self, bills):
        """Yields usage rows, but in some firms none: of a bill row one or several, in any order, and of many none."""
        often = self.chance.choice((0, 0.5, 0.9))
        for it in self.chance.sample(bills, len(bills)):
            usages = self.usages(it.per) if self.chance.random() < often else {}
            for period in self.chance.sample([*usages], len(usages)):
                yield mrp.Usage(*it[:3], period, *usages[period])

    def usages(self, per):
        """Returns pieces and their parents by the period from which on they hold: scrap, a fraction, an end, a beginning, a gap with a
        return to the bill or to more, or anything.
        """
        some, later, end = sorted(self.chance.randrange(self.periods) for _ in "123")
        scrap = min(per * (100 + self.chance.choice((1, 3, 50, 150))), 10**6), 100
        fraction = self.chance.choice(((1, 4), (2, 8), (1, 1000), (5, 2), (10**6, 10**6), (1, 10**6), (999_983, 1), (0, 10**6)))
        ways = {0: scrap}, {some: fraction}, {some: (0, 1)}, {0: (0, 1), later: (per, 1)}, {some: (0, 1), later: (per, 1), end: scrap}
        anything = {self.chance.randrange(self.periods): (self.chance.choice((0, 1, 2, 7, 100)), self.chance.choice((1, 1, 2, 3, 100))) for _ in "1234"}
        return self.chance.choice((*ways, {0: scrap, some: fraction}, anything))

    def vendor_rows(self, plants):
        """Yields vendors of pairs that are bought, but in some firms none: one of several pairs, and one with a name of items too."""
        often = self.chance.choice((0, 0.5, 1))
        vendors = ["V-1", "V_2", "9", *(it for it in NAMES if it not in plants)]
        bought = [it for it in self.kept if not self.sources[it] and it not in self.made]
        for pair in self.chance.sample(bought, len(bought)):
            if self.chance.random() < often:
                figures = self.chance.choice((0, 8, 100, 999 * self.quantities[0])), self.chance.choice((0, 0, 8, 100))
                reset = self.chance.choice((None, None, 0, self.periods - 1, self.chance.randrange(self.periods)))
                yield mrp.Vendor(self.chance.choice(vendors[: self.chance.choice((1, 3, len(vendors)))]), *pair, *figures, reset)

    def day_rows(self, run):
        """Yields day rows, but in many firms none: of periods that end sooner or later than others, of some or of each; closed weeks; and
        a day for each period, but no weekends."""
        first, days = datetime.date.fromisoformat(run.first), run.days
        often, most = self.chance.choice((0, 0, 0.05, 0.3, 1)), self.chance.choice((1, days, 3 * days, 60))
        is_weekday = often == 1 and self.chance.random() < 0.5
        for period in range(1, self.periods):
            day = first + datetime.timedelta(days)
            if is_weekday:
                day = first + datetime.timedelta(3 if first.weekday() == 4 else 1)
                yield mrp.Day(period, day)
            elif self.chance.random() < often:
                day = first + datetime.timedelta(self.chance.choice((1, days, self.chance.randint(1, most), days + 14)))
                yield mrp.Day(period, day)
            first = day


def damaged(chance, text):
    """Returns a table with one or two damages."""
    for _ in range(chance.choice((1, 1, 1, 2))):
        text = chance.choice(DAMAGES)(chance, text)
    return text


def cut(chance, text):
    return text[: chance.randrange(len(text) + 1)]


def changed_byte(chance, text):
    place = chance.randrange(len(text) + 1)
    byte = bytes([chance.choice(BYTES) if chance.random() < 0.8 else chance.randrange(256)])
    return text[:place] + (byte if chance.random() < 0.7 else b"") + text[place + chance.choice((0, 1)) :]


def changed_rows(chance, text):
    """Drops a row, has it twice, or puts it elsewhere."""
    rows = text.splitlines(keepends=True) or [b""]
    place = chance.randrange(len(rows))
    row = rows.pop(place)
    for it in chance.choice(([], [place, place], [chance.randrange(len(rows) + 1)])):
        rows.insert(it, row)
    return b"".join(rows)


def swapped_rows(chance, text):
    rows = text.splitlines(keepends=True) or [b""]
    place = chance.randrange(len(rows))
    return b"".join([*rows[:place], *rows[place : place + 2][::-1], *rows[place + 2 :]])


def changed_field(chance, text):
    """Puts another word, or that of some row in the same place or another, in the place of a field."""
    rows = [it.split(b",") for it in text.split(b"\n")]
    row, other = chance.choice(rows), chance.choice(rows)
    place = chance.randrange(len(row))
    row[place] = chance.choice((chance.choice(FIELDS).encode(), chance.choice(other), *other[place : place + 1]))
    return b"\n".join(b",".join(it) for it in rows)


def other_ends(chance, text):
    return chance.choice((b"", b"\xef\xbb\xbf", b"\n")) + text.replace(b"\n", chance.choice((b"\r\n", b"\n\n", b"\r")))


def more_usage(chance, text):
    """Adds usage rows: once or twice one of a bill or usage row, of two pairs, or with any word in a field, at the end or anywhere."""
    rows = text.splitlines(keepends=True)
    found = [it.rstrip(b"\r\n").split(b",") for it in rows]
    pairs = [it[1:3] for it in found if it[0] == b"pair" and len(it) > 2] or [[b"A", b"X"]]
    names = [*chance.choice(pairs), chance.choice(pairs)[-1]]
    joined = [it[1:4] for it in found if it[0] in (b"bill", b"usage") and len(it) > 3]
    row = [b"usage", *chance.choice([names, *joined]), b"0", *chance.choice(((b"0", b"1"), (b"103", b"100"), (b"1", b"4"))), b""]
    if chance.random() < 0.6:
        row[chance.randrange(len(row))] = chance.choice(FIELDS).encode()
    place = chance.choice((len(rows), len(rows), chance.randrange(len(rows) + 1)))
    rows[place:place] = [b",".join(row) + b"\n"] * chance.choice((1, 1, 2))
    return b"".join(rows)


def more_vendors(chance, text):
    """Adds a vendor of a pair, or of one that has one, once or twice, or with any word in a field, at the end, before day rows or anywhere."""
    rows = text.splitlines(keepends=True)
    found = [it.rstrip(b"\r\n").split(b",") for it in rows]
    pairs = [it[1:3] for it in found if it[0] == b"pair" and len(it) > 2] or [[b"A", b"X"]]
    pairs += [it[1:3] for it in found if it[0] == b"pair" and it[3:4] == [b"buy"]] + [it[2:4] for it in found if it[0] == b"vendor" and len(it) > 3]
    names = [b"V-1", *(it[1] for it in found if it[0] in (b"plant", b"vendor") and len(it) > 1)]
    row = [b"vendor", chance.choice(names), *chance.choice(pairs), chance.choice((b"0", b"500")), b"7", chance.choice((b"", b"0", b"2")), b""]
    return put_rows(chance, rows, row, b"day,")


def more_days(chance, text):
    """Adds a day row, once or twice, or with any word in a field, at the end or anywhere; of any period, and on any day or near another's."""
    rows = text.splitlines(keepends=True)
    found = [it.rstrip(b"\r\n").split(b",") for it in rows]
    texts = [it[2] for it in found if it[0] == b"day" and len(it) > 2] + [it[1] for it in found if it[0] == b"run" and len(it) > 1]
    days = [b"2026-03-02", b"2100-01-01", b"2199-12-31", b"2199-10-01", *texts]
    for it in texts:
        try:
            start = datetime.date.fromisoformat(it.decode())
            days += [str(start + datetime.timedelta(chance.choice((-1, 1, 7, 8, 400, 1500)))).encode() for _ in "12"]
        except (ValueError, OverflowError):
            days.append(it)
    row = [b"day", str(chance.choice((0, 1, 1, 2, 3, 5, 11, 12, 103))).encode(), chance.choice(days), b"", b"", b"", b"", b""]
    return put_rows(chance, rows, row, b"")


def more_ends(chance, text):
    """Adds an end row with the number of rows before it or another, once or twice, or with any word in a field, at the end or anywhere; or
    drops a row of a table that has one.
    """
    rows = text.splitlines(keepends=True)
    if chance.random() < 0.3:
        return b"".join(it for place, it in enumerate(rows) if place != chance.randrange(len(rows) + 1))
    count = chance.choice((len(rows), len(rows), len(rows) + chance.choice((-1, 1)), chance.choice((0, 9, 5_540_170))))
    return put_rows(chance, rows, [b"end", str(count).encode(), *[b""] * 6], b"end,")


def put_rows(chance, rows, row, behind):
    """Returns the table of rows with one more, once or twice, at times with any word in a field: at the end, before the kind behind, or anywhere."""
    if chance.random() < 0.4:
        row[chance.randrange(len(row))] = chance.choice(FIELDS).encode()
    before = next((place for place, it in enumerate(rows) if behind and it.startswith(behind)), len(rows))
    place = chance.choice((len(rows), before, before, before, chance.randrange(len(rows) + 1)))
    rows[place:place] = [b",".join(row) + b"\n"] * chance.choice((1, 1, 2))
    return b"".join(rows)


DAMAGES = (cut, changed_byte, changed_byte, changed_rows, swapped_rows, changed_field, changed_field, changed_field, other_ends, more_usage)
DAMAGES += (more_vendors, more_days, more_ends, more_ends)
