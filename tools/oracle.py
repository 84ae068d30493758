#!/usr/bin/env python3
"""What mrp has to answer of a table, by a second planner: for tools/torture, which compares.

It is written for shortness from the manual (docs/tables.md, docs/reports.md, docs/faults.md) and the definitions
(docs/definitions.md): it plans the whole network at once, on one thread, and drives no lanes or records.

tools/oracle.py --cases N [--seed S] prints N cases of one pair's planning data and plan, for tools/pairs. They are made
from a seed, and planned by the definitions alone: no sum is kept from period to period.
"""
import re
import sys
from bisect import bisect_right
from datetime import date, timedelta
from itertools import accumulate, islice
from typing import NamedTuple

sys.dont_write_bytecode = True
import crates  # noqa: E402,F401  (which lets the modules of bin/ be found)
import reports  # noqa: E402
from pair_cases import LIMIT, PairData, csv_text, data_text, pair_cases  # noqa: E402,F401

COLUMNS = {
    "run": ("date", "days", "periods"),
    "plant": ("name",),
    "pair": ("name", "name", "supply", "rule", "lead", "stock", "stock"),
    "bill": ("name", "name", "name", "per"),
    "demand": ("name", "name", "period", "quantity"),
    "receipt": ("name", "name", "period", "quantity"),
    "ship": ("name", "name", "name", "period", "quantity"),
    "cum": ("name", "name", "name", "figure"),
    "reset": ("name", "name", "name", "period"),
    "firm": ("name", "name", "period", "period", "quantity"),
    "policy": ("name", "name", "period", "ahead", "ahead", "stock", "stock"),
    "usage": ("name", "name", "name", "period", "any per", "per"),
    "vendor": ("name", "name", "name", "figure", "figure", "any period"),
    "day": ("later period", "date"),
    "end": ("rows before",),
}
KINDS = list(COLUMNS)
RANGES = {
    "days": (0, 10**16 - 1),
    "stock": (0, 10**12),
    "per": (1, 10**6),
    "any per": (0, 10**6),
    "quantity": (1, 10**12),
    "figure": (0, 10**15),
}
# The last day that a plan may have.
LAST_DAY = date(2199, 12, 31)
# How many rows of a kind a table may have, and how many periods, without --large and with it.
MOST_IN = {"plant": 64, "pair": 20_000, "bill": 200_000, "usage": 200_000, **dict.fromkeys(("demand", "receipt", "ship", "cum", "firm"), 10**6)}
MOST_IN_LARGE = {"plant": 1000, "pair": 10**6, "bill": 10**7, "usage": 10**7, "demand": 18 * 10**6}
MOST_IN_LARGE |= dict.fromkeys(("receipt", "ship", "cum", "firm"), 9 * 10**6)
LONGEST, LONGEST_LARGE = 104, 520
# The names of the columns, as --header writes them above a report.
HEADERS = {
    "check": "row,plant,item,code",
    "check --reach": "row,plant,item,period,release",
    "peg": "row,source,plant,item,release,per,quantity",
    "cums": "row,kind,sender,receiver,item,opening,shipped,received,transit",
    "orders": "row,plant,item,supply,quantity,release,release_date,due,due_date,late",
    "schedule": "row,kind,supplier,customer,item,period,date,quantity,cumulative",
    "pegs": "row,plant,item,period,source,by_plant,by_item,release,per,quantity",
    "advice": "row,action,kind,plant,item,supplier,period,date,quantity,needed,needed_date",
    "shortages": "row,plant,item,source,by_plant,by_item,quantity,short",
}
HEADERS["advice --reach"] = HEADERS["advice"]
NAME = re.compile(r"[A-Za-z0-9._-]{1,20}")
NUMBER = re.compile(r"0|[1-9][0-9]{0,15}")
RULE = re.compile(r"lot|fixed:([^:]*)|periods:([^:]*)|min:([^:]*):([^:]*)")


class Refused(Exception):
    """The table or the question is refused. The text is the line that mrp has to write."""


class Answer(NamedTuple):
    """What a run of the program answers."""

    status: int
    out: bytes
    err: bytes


class Pair(NamedTuple):
    """A pair's row. A source is a plant with the running shares, in thousandths, between which its part lies."""

    row: int
    supply: str
    sources: list
    rule: tuple
    lead: int
    on_hand: int
    safety: int


class Usage(NamedTuple):
    """How many pieces of a component go into so many parents, of those that are released in a period and later."""

    period: int
    per: int
    base: int

    def pieces(self, parents):
        """Returns the pieces for some parents, rounded up."""
        return -(-self.per * parents // self.base)


class Edge(NamedTuple):
    """A demander of a pair, and what it asks of a release: the usage of the bill, and those of usage rows by period."""

    pair: tuple
    usages: list
    low: int
    high: int

    def part(self, release):
        return release * self.high // 1000 - release * self.low // 1000

    def usage(self, t):
        """Returns the usage of what is released in a period: the last that begins by then."""
        return next(it for it in reversed(self.usages) if it.period <= t)

    def asks(self, t, release):
        """Returns the pieces that a release of a period asks for."""
        return self.usage(t).pieces(self.part(release))

    def most(self):
        """Returns the greatest number of pieces that one parent may ask for."""
        return max(it.pieces(1) for it in self.usages)


class Vendor(NamedTuple):
    """Who delivers a pair: the cumulative figure that is booked, the pieces that are under way, and the period of a reset, or None."""

    name: str
    figure: int
    transit: int
    reset: int


# What a plant asks of another.
PART = [Usage(0, 1, 1)]


class FirmOrder(NamedTuple):
    """A firm planned order."""

    start: int
    due: int
    quantity: int


class Policy(NamedTuple):
    """How a pair is planned beyond its own row."""

    fence: int
    sooner: int
    cover: int
    least: int
    multiple: int


NO_POLICY = Policy(0, 0, 0, 0, 0)


class Plan(NamedTuple):
    """The rows of a pair's plan, a list of figures each."""

    gross: list
    incoming: list
    order: list
    release: list
    available: list


def rows(table):
    """Yields the rows of a table, each a list of fields, as `csv` reads them."""
    table = table.removeprefix(b"\xef\xbb\xbf")
    if b'"' not in table:
        yield from (it.split(b",") for it in re.split(rb"[\r\n]+", table) if it)
        return
    fields, field, state = [], b"", "row"
    for byte in (table[it : it + 1] for it in range(len(table))):
        if state == "quoted":
            state, field = ("closed", field) if byte == b'"' else (state, field + byte)
        elif byte == b'"' and state in ("row", "start"):
            state = "quoted"
        elif byte == b'"' and state == "closed":
            state, field = "quoted", field + byte
        elif byte == b",":
            fields, field, state = [*fields, field], b"", "start"
        elif byte not in b"\r\n":
            state, field = "text", field + byte
        elif state != "row":
            yield [*fields, field]
            fields, field, state = [], b"", "row"
    if state != "row":
        yield [*fields, field]


def number(text, least, most):
    """Returns the number that a text spells, or nothing where it spells none or one out of range."""
    return int(text) if NUMBER.fullmatch(text) and least <= int(text) <= most else None


def rule_of(text, longest):
    """Returns the word of a lot rule and its numbers, or nothing. It covers at most so many periods."""
    found = RULE.fullmatch(text)
    word = text.partition(":")[0]
    given = [number(it, 1, longest if word == "periods" else 10**12) for it in found.groups() if it is not None] if found else [None]
    return None if None in given else (word, *given)


def sources_of(text):
    """Returns the sources that a supply names, with their running shares, or nothing where it is misspelt."""
    if text in ("make", "buy"):
        return []
    word, *parts = text.split(":")
    plants, shares = parts[::2], [number(it, 1, 999) for it in parts[1::2]] if len(parts) != 1 else [1000]
    spelled = word == "from" and all(NAME.fullmatch(it) for it in plants) and len(set(plants)) == len(plants) == len(shares) <= 4
    if not spelled or None in shares or sum(shares) != 1000:
        return None
    return [(plant, sum(shares[:it]), sum(shares[: it + 1])) for it, plant in enumerate(plants)]


def day_of(text):
    """Returns the day from 1970 on that a text spells, or nothing."""
    try:
        found = date.fromisoformat(text) if re.fullmatch("[0-9]{4}-[0-9]{2}-[0-9]{2}", text) else None
    except ValueError:
        return None
    return found if found and found.year >= 1970 else None


def is_past_end(start, days, periods):
    """Says whether so many periods from a day on end after the last day."""
    return days * periods - 1 > (LAST_DAY - start).days


def calendar_fault(first, days, periods):
    """Returns the fault of a calendar, or nothing."""
    start = day_of(first)
    if not start:
        return "BadDate"
    if not 1 <= days <= 31:
        return "DaysOutOfRange"
    return "PastEnd" if is_past_end(start, days, periods) else None


class Firm:
    """The firm of a table, and its reports."""

    def __init__(self, table, large=False):
        self.longest, self.most = (LONGEST_LARGE, MOST_IN_LARGE) if large else (LONGEST, MOST_IN)
        self.rows, self.periods, self.kind, self.counts, self.said = 0, 0, None, {}, set()
        self.plants, self.pairs, self.bills, self.cums, self.ships, self.resets = [], {}, {}, {}, [], {}
        self.demand, self.incoming, self.receipts, self.open_orders, self.firm_orders, self.policies = {}, {}, {}, {}, {}, {}
        self.usages, self.vendors, self.begun, self.wholes = {}, {}, {}, {}
        for self.rows, fields in enumerate(rows(table), 1):
            fault = self.spelling_fault(fields) or self.fault([it.decode() for it in fields])
            if fault:
                raise Refused(f"mrp: row {self.rows}: {fault}")
            self.add(self.rows, *(it.decode() for it in fields))
        if not self.rows:
            raise Refused("mrp: row 0: Empty")
        for (_, item), pair in self.pairs.items():
            if any((plant, item) not in self.pairs for plant, _, _ in pair.sources):
                raise Refused(f"mrp: row {pair.row}: UnknownPair")

    def cut(self):
        """Returns the line that refuses a table whose end is wanted and is missing, or nothing where it is there."""
        return None if "end" in self.counts else f"mrp: row {self.rows + 1}: Cut"

    def plan(self):
        """Plans all pairs, or refuses the firm."""
        self.find_edges()
        self.find_codes()
        self.find_needs()
        plans = self.find_plans()
        self.plans = {it: plans[it] for it in self.pairs}
        self.find_wholes()

    def spelling_fault(self, fields):
        """Returns the first fault of a row that is looked at by itself, but for where it stands."""
        try:
            texts = [it.decode() for it in fields]
        except UnicodeDecodeError:
            return "NotUtf8"
        if len(texts) != 8:
            return "FieldCount"
        if texts[0] not in COLUMNS:
            return "UnknownKind"
        columns = COLUMNS[texts[0]]
        if any(texts[1 + len(columns) :]):
            return "FieldCount"
        place = KINDS.index(texts[0])
        if (self.kind is None) != (place == 0) or place < (self.kind or 0) or "end" in self.counts:
            return "KindOrder"
        values = list(zip(columns, texts[1:]))
        if not all(NAME.fullmatch(it) for column, it in values if column == "name"):
            return "BadName"
        ranges = {**RANGES, "periods": (1, self.longest), **dict.fromkeys(("lead", "ahead"), (0, self.longest))}
        ranges |= dict.fromkeys(("period", "any period"), (0, self.periods - 1))
        ranges["later period"] = max(self.begun, default=0) + 1, self.periods - 1
        ranges["rows before"] = 2 * (self.rows - 1,)
        # (a vendor may have no reset)
        values = [it for it in values if it != ("any period", "")]
        if any(number(it, *ranges[column]) is None for column, it in values if column in ranges):
            return "BadNumber"
        if texts[0] == "firm" and int(texts[4]) < int(texts[3]):
            return "BadNumber"
        if texts[0] == "pair" and not rule_of(texts[4], self.longest):
            return "BadRule"
        return "BadSupply" if texts[0] == "pair" and sources_of(texts[3]) is None else None

    def fault(self, texts):
        """Returns the first fault of a well spelled row beside those above it."""
        kind, plant, item = texts[:3]
        if kind == "run":
            found = calendar_fault(plant, int(item), int(texts[3]))
            return found and f"CalendarFault {found}"
        if kind == "day":
            found = self.day_fault(int(plant), day_of(item))
            return found and f"CalendarFault {found}"
        if kind == "end":
            return None
        if self.key(texts) in self.said:
            return "Repeated"
        # (a vendor's name stands before those of its pair, and is that of no plant)
        vendor = plant if kind == "vendor" else None
        plant, item = texts[2:4] if vendor else (plant, item)
        moves = kind in ("ship", "cum", "reset")
        sources = [it for it, _, _ in sources_of(texts[3])] if kind == "pair" else []
        named = [] if kind == "plant" else [plant, item] if moves else [plant, *sources]
        if not set(named) <= set(self.plants):
            return "UnknownPlant"
        pair = (item, texts[3]) if moves else (plant, item)
        of_bill = kind in ("bill", "usage")
        if kind not in ("plant", "pair") and pair not in self.pairs or of_bill and (plant, texts[3]) not in self.pairs:
            return "UnknownPair"
        if kind == "bill" and self.pairs[pair].supply != "make" or kind == "usage" and tuple(texts[1:4]) not in self.bills:
            return "NotMade"
        if moves and plant not in [it for it, _, _ in self.pairs[pair].sources] or vendor and self.pairs[pair].supply != "buy":
            return "NotSourced"
        if plant in sources or vendor in self.plants:
            return "SelfSource"
        if self.counts.get(kind, 0) == self.most.get(kind):
            return "TooMany"
        # (of a million rows none but these looks at all shipments)
        arrivals = [it[1] for it in self.ships if it[0] == tuple(texts[1:4])] if kind == "reset" else []
        return None if arrivals == sorted(arrivals) else "ResetOrder"

    def day_fault(self, period, start):
        """Returns the fault of a period that begins on a day, or on none."""
        if not start or start <= self.day(period - 1):
            return "BadDate"
        return "PastEnd" if is_past_end(start, self.days, self.periods - period) else None

    @staticmethod
    def key(texts):
        """Returns what no second row says again, or nothing where rows may."""
        if texts[0] == "vendor":
            return "vendor", *texts[2:4]
        sizes = {"plant": 2, "pair": 3, "bill": 4, "cum": 4, "reset": 4, "policy": 3, "usage": 5}
        return tuple(texts[: sizes[texts[0]]]) if texts[0] in sizes else None

    def add(self, count, *texts):
        """Keeps a row that has no fault."""
        kind, first, second, third, *more = texts
        self.kind = KINDS.index(kind)
        self.counts[kind] = self.counts.get(kind, 0) + 1
        self.said |= {self.key(texts)} - {None}
        if kind == "run":
            self.first, self.days, self.periods = date.fromisoformat(first), int(second), int(third)
        elif kind == "plant":
            self.plants.append(first)
        elif kind == "pair":
            self.pairs[first, second] = Pair(count, third, sources_of(third), rule_of(more[0], self.longest), *map(int, more[1:4]))
            self.demand[first, second], self.incoming[first, second] = [0] * self.periods, [0] * self.periods
            self.receipts[first, second] = [0] * self.periods
            self.open_orders[first, second], self.firm_orders[first, second] = [], []
        elif kind == "bill":
            self.bills[first, second, third] = int(more[0])
        elif kind == "demand":
            self.demand[first, second][int(third)] += int(more[0])
        elif kind == "receipt":
            self.incoming[first, second][int(third)] += int(more[0])
            self.receipts[first, second][int(third)] += int(more[0])
            self.open_orders[first, second].append((int(third), kind, "", int(more[0])))
        elif kind == "ship":
            self.ships.append(((first, second, third), int(more[0]), int(more[1])))
            self.incoming[second, third][int(more[0])] += int(more[1])
            self.open_orders[second, third].append((int(more[0]), kind, first, int(more[1])))
        elif kind == "cum":
            self.cums[first, second, third] = int(more[0])
        elif kind == "reset":
            self.resets[first, second, third] = int(more[0])
        elif kind == "firm":
            order = FirmOrder(int(third), int(more[0]), int(more[1]))
            self.firm_orders[first, second].append(order)
            self.incoming[first, second][order.due] += order.quantity
            self.open_orders[first, second].append((order.due, kind, "", order.quantity))
        elif kind == "policy":
            self.policies[first, second] = Policy(int(third), *map(int, more[:4]))
        elif kind == "usage":
            self.usages.setdefault((first, second, third), []).append(Usage(*map(int, more[:3])))
        elif kind == "vendor":
            self.vendors[second, third] = Vendor(first, int(more[0]), int(more[1]), int(more[2]) if more[2] else None)
        elif kind == "day":
            self.begun[int(first)] = date.fromisoformat(second)

    def policy(self, pair):
        """Returns the policy of a pair."""
        return self.policies.get(pair, NO_POLICY)

    def earliest(self, pair):
        """Returns the first period in which a planned order can be due that isn't late."""
        return max(self.pairs[pair].lead, self.policy(pair).fence)

    def find_edges(self):
        """Finds the demanders of each pair, in table order."""
        self.demanders = {it: [] for it in self.pairs}
        parents = {}
        for (plant, parent, component), per in self.bills.items():
            # (where a usage row begins in period 0 it stands behind the bill's)
            usages = [Usage(0, per, 1), *sorted(self.usages.get((plant, parent, component), ()))]
            parents.setdefault((plant, parent), []).append(((plant, component), usages))
        for pair, row in self.pairs.items():
            for component, usages in parents.get(pair, ()):
                self.demanders[component].append(Edge(pair, usages, 0, 1000))
            for plant, low, high in row.sources:
                self.demanders[plant, pair[1]].append(Edge(pair, PART, low, high))

    def find_codes(self):
        """Finds the low-level codes, or refuses the loop that a walk from demander to demander comes to."""
        self.codes, left = {}, list(self.pairs)
        while free := [it for it in left if all(edge.pair in self.codes for edge in self.demanders[it])]:
            for pair in free:
                self.codes[pair] = max((self.codes[it.pair] + 1 for it in self.demanders[pair]), default=0)
            left = [it for it in left if it not in self.codes]
        if not left:
            return
        walk = left[:1]
        while walk[-1] not in walk[:-1]:
            walk.append(next(it.pair for it in self.demanders[walk[-1]] if it.pair not in self.codes))
        loop = walk[walk.index(walk[-1]) : -1][::-1]
        start = loop.index(min(loop, key=list(self.pairs).index))
        raise Refused("mrp: loop" + "".join(f" {plant}/{item}" for plant, item in loop[start:] + loop[:start]))

    def find_needs(self):
        """Refuses a firm in which a quantity could pass the limit."""
        supply, need = {}, {}
        for pair, row in self.pairs.items():
            opening = sum(self.cums.get((plant, *pair), 0) for plant, _, _ in row.sources)
            delivered = self.vendors[pair].figure + self.vendors[pair].transit if pair in self.vendors else 0
            supply[pair] = row.on_hand + sum(self.incoming[pair]) + opening + delivered
            if supply[pair] > LIMIT:
                raise Refused("mrp: SupplyTooLarge " + "/".join(pair))
        for pair in sorted(self.pairs, key=self.codes.get):
            row = self.pairs[pair]
            asked = sum(it.most() * need[it.pair] for it in self.demanders[pair])
            firm = sum(it.quantity for it in self.firm_orders[pair])
            lots = sum(self.policy(pair)[3:]) + (0 if row.rule[0] == "periods" else sum(row.rule[1:]))
            need[pair] = sum(self.demand[pair]) + asked + row.safety + firm + lots
            if supply[pair] + need[pair] > LIMIT:
                raise Refused("mrp: NeedTooLarge " + "/".join(pair))

    def find_plans(self):
        """Plans each pair after its demanders."""
        plans = {}
        for pair in sorted(self.pairs, key=self.codes.get):
            edges = [(it, plans[it.pair].release) for it in self.demanders[pair]]
            gross = [self.demand[pair][t] + sum(it.asks(t, release[t]) for it, release in edges) for t in range(self.periods)]
            plans[pair] = self.plan_of(pair, gross)
        return plans

    def plan_of(self, pair, gross):
        """Plans one pair."""
        row, policy, earliest = self.pairs[pair], self.policy(pair), self.earliest(pair)
        order, release, available, before, incoming = [], [0] * self.periods, [], row.on_hand, self.counted(pair, gross)
        for it in self.firm_orders[pair]:
            release[it.start] += it.quantity
        for t in range(self.periods):
            net = row.safety + sum(gross[t : t + policy.cover + 1]) - before - incoming[t]
            order.append(self.lot(row.rule, policy, t, net, gross, incoming) if net > 0 else 0)
            before += incoming[t] + order[t] - gross[t]
            available.append(before)
            if order[t]:
                release[max(t, earliest) - row.lead] += order[t]
        return Plan(gross, incoming, order, release, available)

    def lot(self, rule, policy, t, net, gross, incoming):
        """Returns the planned order that covers a net requirement: by the lot rule, and then by the policy's least and multiple."""
        word, *given = rule
        found = net
        if word == "periods":
            more = (gross[it + policy.cover] if it + policy.cover < self.periods else 0 for it in range(t + 1, self.periods))
            needs = accumulate(map(int.__sub__, more, incoming[t + 1 :]), initial=net)
            found = max(islice(needs, given[0]))
        elif word != "lot":
            found = -(-max(net, *given[:-1], 0) // given[-1]) * given[-1]
        multiple = policy.multiple or 1
        return -(-max(found, policy.least) // multiple) * multiple

    def short(self, pair, gross):
        """Returns by period how many pieces requirements have lacked at most up to it, without receipts and planned orders."""
        row, cover, required = self.pairs[pair], self.policy(pair).cover, [*accumulate(gross)]
        surely = accumulate(map(int.__sub__, self.incoming[pair], self.receipts[pair]))
        ends = (required[min(t + cover, self.periods - 1)] for t in range(self.periods))
        lacks = (row.safety + end - row.on_hand - came for end, came in zip(ends, surely))
        return [*accumulate(lacks, max, initial=0)][1:]

    def near(self, pair):
        """Returns by period the receipts that may be counted by then."""
        due, sooner = [*accumulate(self.receipts[pair])], self.policy(pair).sooner
        return [due[min(t + sooner, self.periods - 1)] for t in range(self.periods)]

    def counted(self, pair, gross):
        """Returns what comes in of a pair by period, where receipts count up to SOONER periods before they come, as far as
        requirements lack them.
        """
        due, found, before = 0, [], 0
        for t, (short, near) in enumerate(zip(self.short(pair, gross), self.near(pair))):
            due += self.receipts[pair][t]
            had = max(due, min(near, short))
            found.append(self.incoming[pair][t] - self.receipts[pair][t] + had - before)
            before = had
        return found

    def day(self, period):
        """Returns the first day of a period: that of its day row, or so many days after the last period before it that has one."""
        since = max((it for it in self.begun if it <= period), default=0)
        return self.begun.get(since, self.first) + timedelta(days=self.days * (period - since))

    def plan_report(self):
        """Yields the fields of the plan rows and late rows."""
        for pair, plan in self.plans.items():
            for t, figures in enumerate(zip(*plan)):
                yield "plan", *pair, t, self.day(t), *figures
        for pair, plan in self.plans.items():
            for t, quantity in enumerate(plan.order[: self.earliest(pair)]):
                if quantity:
                    yield "late", *pair, t, quantity, self.earliest(pair) - t

    def order_report(self, until=LONGEST_LARGE):
        """Yields the fields of the firm and the order rows: of each order that is released in that period or before it."""
        for pair, plan in self.plans.items():
            row, earliest = self.pairs[pair], self.earliest(pair)
            for due, quantity in enumerate(plan.order):
                found = [("firm", it.quantity, it.start, 0) for it in self.firm_orders[pair] if it.due == due]
                found += [("order", quantity, max(due, earliest) - row.lead, max(0, earliest - due))] if quantity else []
                for word, ordered, release, late in found:
                    if release <= int(until):
                        yield word, *pair, row.supply, ordered, release, self.day(release), due, self.day(due), late

    def code_report(self):
        for pair in self.pairs:
            yield "code", *pair, self.codes[pair]

    def reach_report(self):
        """Yields the fields of the reach rows: the last period of a pair whose requirements, and whose releases, are whole."""
        for pair in self.pairs:
            yield "reach", *pair, *(it - 1 if it else "none" for it in (self.wholes[pair], self.out(pair)))

    def find_wholes(self):
        """Finds in how many periods requirements of each pair stay what they are, whatever is wanted behind the horizon."""
        for pair in sorted(self.pairs, key=self.codes.get):
            self.wholes[pair] = min([self.periods, *(self.out(it.pair) for it in self.demanders[pair])])

    def held(self, pair):
        """Returns in how many periods orders of a pair stay what they are."""
        word, *given = self.pairs[pair].rule
        joined = given[0] if word == "periods" else 1
        return max(0, self.wholes[pair] - (self.policy(pair).cover + joined - 1))

    def out(self, pair):
        """Returns in how many periods releases of a pair stay what they are."""
        return max(0, max(self.earliest(pair), self.held(pair)) - self.pairs[pair].lead)

    def known(self, pair):
        """Returns the first period of which requirements that open orders are held against aren't whole."""
        return max(0, self.wholes[pair] - self.policy(pair).cover)

    def peg_report(self, plant, item, period):
        pair, t = (plant, item), int(period)
        if pair not in self.pairs:
            raise Refused("mrp: no pair")
        if t >= self.periods:
            raise Refused("mrp: no period")
        yield from (("peg", *it) for it in self.terms(pair, t))

    def terms(self, pair, t):
        """Returns what a gross requirement consists of, but for what is 0: the pair's own demand, and what its demanders ask."""
        own = self.demand[pair][t]
        terms = [("demand", *pair, own, 1, own)]
        for edge in self.demanders[pair]:
            release, usage = self.plans[edge.pair].release[t], edge.usage(t)
            per = usage.per if usage.base == 1 else f"{usage.per}/{usage.base}"
            terms.append(("bill" if edge.pair[0] == pair[0] else "plant", *edge.pair, edge.part(release), per, edge.asks(t, release)))
        return [it for it in terms if it[-1]]

    def pegs_report(self):
        """Yields the fields of the pegs rows: what each gross requirement of the plan consists of."""
        for pair in self.pairs:
            for t in range(self.periods):
                yield from (("pegs", *pair, t, *it) for it in self.terms(pair, t))

    def there(self, pair):
        """Returns what is there of a pair for its requirements of period 0: on hand, the receipts and shipments of that period by their
        rows, and of what is made without lead time and fence its firm and planned orders that are due then.
        """
        firm = sum(it.quantity for it in self.firm_orders[pair] if it.due == 0)
        found = self.pairs[pair].on_hand + self.incoming[pair][0] - firm
        is_phantom = self.pairs[pair].supply == "make" and self.earliest(pair) == 0
        return found + firm + self.plans[pair].order[0] if is_phantom else found

    def shortage_report(self):
        """Yields the fields of the shortage rows: of each requirement of period 0 that is there in part or not at all."""
        for pair in self.pairs:
            left = self.there(pair)
            for source, plant, item, _, _, quantity in self.terms(pair, 0):
                if quantity > left:
                    yield "shortage", *pair, source, plant, item, quantity, quantity - left
                left = max(0, left - quantity)

    def lanes(self):
        """Yields supplier, customer, and the items of each lane with what the lane has of each: a customer's suppliers in table order."""
        for customer in self.plants:
            taken = {item: row.sources for (plant, item), row in self.pairs.items() if plant == customer and row.sources}
            for supplier in self.plants:
                found = ((item, low, high) for item, sources in taken.items() for plant, low, high in sources if plant == supplier)
                yield supplier, customer, {item: Edge((customer, item), PART, low, high) for item, low, high in found}

    def figures(self, lane, edge):
        """Returns the cumulative figure of a lane's item, what is in transit, and what is called for in each period."""
        transit = sum(quantity for ship, _, quantity in self.ships if ship == lane)
        return self.cums.get(lane, 0), transit, [edge.part(it) for it in self.plans[edge.pair].release]

    def lane_report(self):
        """Yields the fields of the lane rows: despatch before schedule."""
        for supplier, customer, items in self.lanes():
            for kind in ("despatch", "schedule"):
                for item, edge in items.items():
                    opening, transit, calls = self.figures((supplier, customer, item), edge)
                    shipped, called = opening + transit, opening + transit + sum(calls)
                    if kind == "despatch":
                        yield "lane", kind, supplier, customer, item, opening, shipped, shipped, 0
                    else:
                        yield "lane", kind, customer, supplier, item, shipped, called, called, 0

    def schedule_report(self, supplier=None, customer=None):
        """Yields the fields of the schedule rows, of all plants and vendors or of a supplier, a customer or both: vendors stand behind plants."""
        suppliers = {None, *self.plants, *(it.name for it in self.vendors.values())}
        if supplier not in suppliers or customer not in {None, *self.plants}:
            raise Refused("mrp: no plant")
        for lane_supplier, lane_customer, items in self.lanes():
            if supplier in (None, lane_supplier) and customer in (None, lane_customer):
                for item, edge in items.items():
                    lane = (lane_supplier, lane_customer, item)
                    yield from (("schedule", kind, *lane, *it) for kind, *it in self.schedule_of(*self.figures(lane, edge), self.resets.get(lane)))
        for (plant, item), it in self.vendors.items():
            if supplier in (None, it.name) and customer in (None, plant):
                rows = self.schedule_of(it.figure, it.transit, self.plans[plant, item].release, it.reset)
                yield from (("schedule", kind, it.name, plant, item, *row) for kind, *row in rows)

    def schedule_of(self, opening, transit, calls, reset):
        """Returns a schedule: each row's kind, period, day, quantity and cumulative figure."""
        opening += transit
        anew = self.periods if reset is None else reset
        closed = opening + sum(calls[:anew])
        # (by period; where figures start anew, this stands before the call of its period)
        found = [] if reset is None else [(anew, 0, "reset", "", closed)]
        for t, quantity in enumerate(calls):
            if quantity:
                found.append((t, 1, "call", quantity, opening + sum(calls[: t + 1]) - closed * (t >= anew)))
        return [("opening", "", "", transit, opening), *((kind, t, self.day(t), *it) for t, _, kind, *it in sorted(found))]

    def advice_report(self, until=LONGEST_LARGE):
        """Yields the fields of the advice rows, of open orders that come in that period or before it: one is needed where what is
        had before it no longer covers requirements and safety stock.
        """
        for pair in self.plans:
            for period, kind, supplier, quantity, needed in self.needed(pair):
                if needed != period and period <= int(until):
                    action = "cancel" if needed == self.periods else "expedite" if needed < period else "defer"
                    when = ("", "") if action == "cancel" else (needed, self.day(needed))
                    yield "advice", action, kind, *pair, supplier, period, self.day(period), quantity, *when

    def advice_within_reach(self, until=LONGEST_LARGE):
        """Yields the fields of the advice rows, where no message speaks of periods whose requirements aren't whole. An order that comes in
        one that is, and is to be moved out of it, or is never needed, is needed beyond those periods.
        """
        for word, action, kind, plant, item, supplier, period, day, quantity, needed, date_needed in self.advice_report(until):
            known = self.known((plant, item))
            if needed != "" and needed < known:
                yield word, action, kind, plant, item, supplier, period, day, quantity, needed, date_needed
            elif period < known:
                yield word, "beyond", kind, plant, item, supplier, period, day, quantity, "", ""

    def needed(self, pair):
        """Yields the open orders of a pair, by period, each with the period in which it is needed, or the end of the plan."""
        lacks, is_one, before = self.lacked(pair), self.policy(pair).sooner == 0, {True: 0, False: 0}
        # (receipts stand before shipments in the table, and these before firm orders)
        for period, kind, supplier, quantity in sorted(self.open_orders[pair], key=lambda it: it[0]):
            own = is_one or kind == "receipt"
            yield period, kind, supplier, quantity, bisect_right(lacks[own], before[own])
            before[own] += quantity

    def lacked(self, pair):
        """Returns what is lacked at most up to each period: without open orders; where receipts may count sooner, without receipts
        (True), and with those that may be counted and without the others (False).
        """
        row, policy, gross = self.pairs[pair], self.policy(pair), self.plans[pair].gross
        required = [row.safety + sum(gross[: t + policy.cover + 1]) - row.on_hand for t in range(self.periods)]
        if not policy.sooner:
            return {True: required}
        others = accumulate(map(int.__sub__, self.incoming[pair], self.receipts[pair]))
        beside = {True: others, False: map(min, self.near(pair), self.short(pair, gross))}
        return {it: [*accumulate(map(int.__sub__, required, came), max)] for it, came in beside.items()}


REPORTS = {"plan": Firm.plan_report, "check": Firm.code_report, "peg": Firm.peg_report, "cums": Firm.lane_report, "orders": Firm.order_report}
REPORTS |= {"schedule": Firm.schedule_report, "pegs": Firm.pegs_report, "advice": Firm.advice_report}
REPORTS |= {"shortages": Firm.shortage_report, "check --reach": Firm.reach_report, "advice --reach": Firm.advice_within_reach}


class Oracle:
    """What mrp has to answer of a table, with --large or without."""

    def __init__(self, table, large=False):
        self.firm, self.refused, self.cut, self.large = None, None, None, large
        try:
            firm = Firm(table, large)
            self.cut = firm.cut()
            firm.plan()
            self.firm = firm
        except Refused as line:
            self.refused = str(line)

    def answer(self, command, *asked, header=False, whole=False):
        """Returns the answer to a command; peg is asked with a pair and a period, orders and advice with a period or none, schedule
        with a supplier and a customer or none. With whole a table without an end row is cut.
        """
        if whole and self.cut:
            return refusal(self.cut)
        if self.refused:
            return refusal(self.refused)
        try:
            fields = list(REPORTS[command](self.firm, *asked))
        except Refused as line:
            return refusal(str(line))
        lines = [*([HEADERS[command]] if header else []), *(",".join(map(str, it)) for it in fields)]
        return Answer(0, "".join(f"{it}\n" for it in lines).encode(), b"")


def refusal(line):
    return Answer(1, b"", f"{line}\n".encode())


class PairPlan:
    """The plan of one pair. Each term is a sum of the rows of the planning data, taken where it is used."""

    def __init__(self, given):
        self.given, self.periods = given, range(len(given.gross))
        # (the first period in which a planned order is due that is not late)
        self.earliest = max(given.lead, given.fence)
        self.incoming = [self.coming(t) for t in self.periods]
        self.order, self.available = [], []
        for t in self.periods:
            self.order.append(self.order_in(t))
            self.available.append(self.before(t) + self.incoming[t] + self.order[t] - given.gross[t])
        self.release = [at(given.firm_start, u) + self.released(u) for u in self.periods]
        self.late = [(t, it, self.earliest - t) for t, it in enumerate(self.order) if it and t < self.earliest]

    def due(self, t):
        """Returns the scheduled receipts of periods 0 to t."""
        return pieces(self.given.receipts, 0, t)

    def short(self, t):
        """Returns the most that requirements lack up to a period, with no receipt and no planned order."""
        given, lacks = self.given, [0]
        for s in range(t + 1):
            wanted = given.safety + pieces(given.gross, 0, s + given.cover)
            lacks.append(wanted - given.on_hand - pieces(given.arrivals, 0, s) - pieces(given.firm_due, 0, s))
        return max(lacks)

    def had(self, t):
        """Returns the receipts that are counted by a period, no piece more than SOONER periods before it comes."""
        return max(self.due(t), min(self.due(t + self.given.sooner), self.short(t))) if t >= 0 else 0

    def coming(self, t):
        """Returns what comes in a period without planned orders."""
        counted = self.had(t) - self.had(t - 1)
        return counted + at(self.given.arrivals, t) + at(self.given.firm_due, t)

    def before(self, t):
        """Returns the stock before a period."""
        return self.available[t - 1] if t else self.given.on_hand

    def need(self, t, last):
        """Returns what stock and receipts lack of the requirements from a period to the last one that is bought for,
        of those that COVER adds, and of safety stock; below 0 where they lack nothing.
        """
        required = self.given.safety + pieces(self.given.gross, t, last + self.given.cover)
        return required - self.before(t) - pieces(self.incoming, t, last)

    def lot(self, t):
        """Returns what the lot rule orders for a period with a net requirement."""
        word, *numbers = self.given.rule
        if word == "lot":
            return self.need(t, t)
        if word == "fixed":
            return multiple_of(numbers[0], self.need(t, t))
        if word == "min":
            return multiple_of(numbers[1], max(numbers[0], self.need(t, t)))
        return max(self.need(t, last) for last in range(t, t + numbers[0]))

    def order_in(self, t):
        """Returns the planned order that is due in a period."""
        if self.need(t, t) <= 0:
            return 0
        return multiple_of(max(self.given.multiple, 1), max(self.given.least, self.lot(t)))

    def released(self, u):
        """Returns the planned orders that are released in a period."""
        return sum(self.order[t] for t in self.periods if max(t, self.earliest) - self.given.lead == u)


def at(row, t):
    """Returns the pieces of a period."""
    return pieces(row, t, t)


def pieces(row, first, last):
    """Returns the pieces from a period to another, both included, as far as the row goes."""
    return sum(row[first : last + 1])


def multiple_of(lot, quantity):
    """Returns the least multiple of a lot that is not below a quantity."""
    return -(-quantity // lot) * lot


def plan_text(plan):
    """Returns the lines of a pair's plan."""
    rows = ((name, *getattr(plan, name)) for name in ("incoming", "order", "release", "available"))
    return csv_text([*rows, *(("late", *it) for it in plan.late), ("end",)])


def main():
    parser = reports.Words("tools/oracle.py --cases N [--seed S]", __doc__)
    parser.add_argument("--cases", type=reports.count, required=True, metavar="N", help="print N cases")
    parser.add_argument("--seed", type=reports.count, default=1, metavar="S", help="make them from this number (1)")
    asked = parser.parse_args()
    for given in pair_cases(asked.cases, asked.seed):
        sys.stdout.write(data_text(given) + plan_text(PairPlan(given)))


if __name__ == "__main__":
    reports.run(main)
