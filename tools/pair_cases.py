"""The planning data of single pairs, made from a seed: for tools/oracle.py, which plans them, and tools/pairs."""
import random
from typing import NamedTuple

# The most pieces that all quantities together may be.
LIMIT = 10**15


class PairData(NamedTuple):
    """What the plan of one pair is made from. A row has the pieces of periods 0, 1, ..; gross has all periods, and a
    shorter row has nothing in those that it doesn't reach.
    """

    rule: tuple
    lead: int
    on_hand: int
    safety: int
    fence: int
    sooner: int
    cover: int
    least: int
    multiple: int
    receipts: list
    arrivals: list
    firm_start: list
    firm_due: list
    gross: list


def data_text(given):
    """Returns the lines of a pair's planning data."""
    rule, *numbers = given[:9]
    rows = zip(PairData._fields[9:], given[9:])
    return csv_text([("pair", ":".join(map(str, rule)), *numbers), *((name, *row) for name, row in rows)])


def csv_text(lines):
    return "".join(",".join(map(str, it)) + "\n" for it in lines)


# What planning data has beside the rows of a plain pair: in turn each case has nothing of it, one of these alone, all
# of it, or some.
TERMS = ("firm", "fence", "sooner", "cover", "least", "multiple")
TURNS = ((), *((it,) for it in TERMS), TERMS, TERMS, None)


class PairDraft:
    """Planning data of a pair in the making, with some of the terms."""

    def __init__(self, chance, terms):
        self.chance, self.terms = chance, terms
        others = 1, 2, chance.randint(13, 103), 104
        self.periods = chance.randint(3, 12) if chance.random() < 0.9 else chance.choice(others)
        self.most = chance.choice((1, 3, 10, 10, 40, 40, 1000, 10**12))

    def quantity(self):
        some = self.chance.randint(1, self.most)
        return self.chance.choice((some, some, self.most))

    def stock(self):
        return self.chance.choice((0, 0, self.quantity(), min(3 * self.quantity(), 10**12)))

    def row(self, *shares):
        """Returns a row that has something in one of these shares of its periods."""
        share = self.chance.choice(shares)
        return [self.quantity() if self.chance.random() < share else 0 for _ in range(self.periods)]

    def firm_rows(self):
        """Returns the rows of firm orders by start and by due."""
        start, due = [0] * self.periods, [0] * self.periods
        for _ in range(self.chance.randint(1, 6) if "firm" in self.terms else 0):
            first, last = sorted(self.chance.randrange(self.periods) for _ in "12")
            quantity = self.quantity()
            start[first] += quantity
            due[last] += quantity
        return start, due

    def rule(self):
        one, other = self.quantity(), self.quantity()
        ahead = "periods", self.chance.choice((1, 2, 3, self.periods, 104))
        return self.chance.choice((("lot",), ("fixed", one), ahead, ahead, ("min", one, other)))

    def ahead(self, term):
        """Returns a number of periods, which may go beyond the horizon."""
        return self.chance.choice((1, 1, 2, 3, self.periods - 1, self.periods, 104)) if term in self.terms else 0

    def fence(self, lead):
        """Returns a fence in the horizon, about the lead time or anywhere."""
        near = max(0, min(lead + self.chance.randint(-1, 3), self.periods - 1))
        return self.chance.choice((near, near, self.chance.randrange(self.periods))) if "fence" in self.terms else 0

    def policy(self, lead):
        """Returns fence, sooner, cover, least and multiple."""
        most = [min(self.quantity() * self.chance.choice((1, 1, 3)), 10**12) for _ in "12"]
        lots = [quantity if it in self.terms else 0 for it, quantity in zip(TERMS[4:], most)]
        return self.fence(lead), self.ahead("sooner"), self.ahead("cover"), *lots

    def data(self):
        """Returns the planning data. All quantities together are at most the limit, and in some cases of large ones
        they are just that.
        """
        lead = self.chance.choice((0, 0, 1, 1, 2, 3, self.periods - 1, self.periods, 104))
        rule, stocks, policy = self.rule(), [self.stock(), self.stock()], self.policy(lead)
        rows = [self.row(0, 0.2, 0.3, 0.6, 1), self.row(0, 0.2, 0.3, 1), *self.firm_rows()]
        gross = self.row(0, 0.2, 0.5, 0.5, 1, 1)
        quantities = sum(rule[1:]) if rule[0] != "periods" else 0
        left = LIMIT - sum((quantities, *stocks, *policy[3:], *rows[0], *rows[1], *rows[3], *gross))
        if self.most == 10**12 and self.chance.random() < 0.3:
            self.chance.choice((gross, gross, rows[0], rows[1]))[self.chance.randrange(self.periods)] += left
        shown = [it if self.chance.random() < 0.7 else without_last_zeros(it) for it in rows]
        return PairData(rule, lead, *stocks, *policy, *shown, gross)


def without_last_zeros(row):
    """Returns a row up to its last quantity."""
    return row[: max((t + 1 for t, quantity in enumerate(row) if quantity), default=0)]


def pair_cases(count, seed):
    """Yields so many pairs' planning data, the same from the same seed."""
    chance = random.Random(seed)
    for number in range(count):
        some = tuple(it for it in TERMS if chance.random() < 0.5)
        terms = TURNS[number % len(TURNS)]
        yield PairDraft(chance, some if terms is None else terms).data()
