"""A firm as it is from week to week, for tools/year: its stock, what is made, ordered and under way, what suppliers have shipped, and who wants what."""
import datetime
from collections import Counter
from dataclasses import dataclass, field
from typing import NamedTuple

DAY, WEEK = datetime.timedelta(days=1), datetime.timedelta(days=7)


class Pair(NamedTuple):
    """An item at a plant as the firm plans it, with the vendor that delivers it by cumulative figures."""

    plant: str
    item: str
    supply: str
    rule: str
    lead: int
    safety: int = 0
    fence: int = 0
    sooner: int = 0
    cover: int = 0
    least: int = 0
    multiple: int = 0
    vendor: str = ""

    @property
    def key(self):
        return self.plant, self.item

    @property
    def frozen(self):
        """In how many weeks from now the planner alone starts orders."""
        return max(0, self.fence - self.lead)


@dataclass
class Lane:
    """What a supplier has shipped of an item to a plant: with closed years, and what was closed when its figure started last."""

    names: tuple
    total: int
    closed: int
    started: datetime.date

    def figure(self):
        """Returns the figure in force."""
        return self.total - self.closed


@dataclass
class Consignment:
    """What left a supplier at once, with the supplier's figure then: when it is said to arrive, and when it does."""

    number: str
    names: tuple
    quantity: int
    figure: int
    despatched: datetime.date
    arrives: datetime.date
    comes: datetime.date


class Booking(NamedTuple):
    """What goods-in has booked of a consignment."""

    number: str
    names: tuple
    quantity: int
    day: datetime.date


@dataclass
class Order:
    """An order of the firm, by its number: bought or made. One that is made has no parts before it starts."""

    number: str
    pair: tuple
    quantity: int
    start: object
    due: datetime.date
    comes: datetime.date


@dataclass
class Demand:
    """What a customer wants on a day: the pieces, and those that aren't shipped yet."""

    number: str
    pair: tuple
    due: datetime.date
    wanted: int
    quantity: int


@dataclass
class Customer:
    """A customer who calls for an item by figures: since when they count, what was called for and shipped then, and when they start again."""

    name: str
    pair: tuple
    started: datetime.date
    opening: int
    reset: object
    calls: list = field(default_factory=list)

    def restart(self, day):
        """Has figures start again once it is time."""
        if self.reset and self.reset <= day:
            self.started, self.opening, self.reset = self.reset, 0, None

    def figures(self, first, end, figure):
        """Returns the figures by their days from one on to another: that of the first one is given."""
        found = {first: figure}
        for it in sorted(self.calls, key=lambda it: it.due):
            if first <= it.due < end:
                figure += it.wanted
                found[it.due] = figure
        return found.items()

    def rows(self):
        """Yields each day with its figure, and a mark where figures start again."""
        end = self.reset or datetime.date.max
        yield from ((day, figure, "") for day, figure in self.figures(self.started, end, self.opening))
        if self.reset:
            yield from ((day, figure, "x" * (day == end)) for day, figure in self.figures(end, datetime.date.max, 0))

    def shipped(self):
        """Returns the figure of what was shipped."""
        return self.opening + sum(it.wanted - it.quantity for it in self.calls if it.due >= self.started)


@dataclass
class Firm:
    """The firm, its suppliers and its customers on a day."""

    pairs: dict
    bills: dict
    stock: Counter
    lanes: dict
    monday: datetime.date
    resets: dict = field(default_factory=dict)
    # (the spans in which nobody works, the customers who call by figures, by pair; the pair that is forecast, and how many pieces by day; and
    # how many periods back and forward orders consume them)
    closed: tuple = ()
    customers: dict = field(default_factory=dict)
    forecast: tuple = ()
    forecasts: dict = field(default_factory=dict)
    window: tuple = ()
    demands: list = field(default_factory=list)
    purchases: dict = field(default_factory=dict)
    starts: dict = field(default_factory=dict)
    production: dict = field(default_factory=dict)
    under_way: list = field(default_factory=list)
    booked: list = field(default_factory=list)
    lacked: set = field(default_factory=set)
    moved: Counter = field(default_factory=Counter)
    numbers: int = 0

    @property
    def end(self):
        """The next Monday on which somebody works."""
        return self.after(self.monday, 1)

    def is_shut(self, day):
        """Tells whether nobody works in the week of a day."""
        days = (day + (it - day.weekday()) * DAY for it in range(5))
        return all(any(first <= it <= last for first, last in self.closed) for it in days)

    def after(self, day, weeks):
        """Returns the day so many weeks later, of those in which somebody works."""
        for _ in range(weeks):
            day += WEEK
            while self.is_shut(day):
                day += WEEK
        return day

    def number(self, front):
        """Returns the next number."""
        self.numbers += 1
        return f"{front}{self.numbers}"

    def want(self, pair, day, pieces):
        """Has a customer want pieces on a day, and returns what is wanted."""
        found = Demand(self.number("A-"), pair, day, pieces, pieces)
        self.demands.append(found)
        if pair in self.customers:
            self.customers[pair].calls.append(found)
        return found

    def move(self, pair, quantity, why):
        """Moves stock, and keeps why."""
        self.stock[pair] += quantity
        self.moved[pair, why] += quantity

    def live(self, calls, trouble):
        """Lets a week pass: what comes, what is issued and shipped, by what suppliers are called for."""
        end = self.end
        self.booked, self.lacked = [], set()
        self.take_in(end, trouble)
        for it in sorted(self.demands, key=lambda it: (it.due, it.number)):
            if it.due < end:
                self.serve(it)
        self.demands = [it for it in self.demands if it.quantity]
        for names in self.lanes:
            self.ship(names, calls.get(names), trouble)
        for it in sorted(self.starts.values(), key=lambda it: (it.start, it.number)):
            if it.start < end:
                self.start(it)
        trouble.count_stock(self)
        self.monday = end
        for it in self.customers.values():
            it.restart(end)

    def take_in(self, end, trouble):
        """Books what comes before a day."""
        for it in [it for it in self.under_way if it.comes < end]:
            self.under_way.remove(it)
            quantity = trouble.counted(it)
            self.booked.append(Booking(it.number, it.names, quantity, it.comes))
            self.move(it.names[1:], quantity, "received")
            self.moved[it.names[1:], "lost"] += it.quantity - quantity
        for orders in (self.purchases, self.production):
            for it in [it for it in orders.values() if it.comes < end]:
                del orders[it.number]
                scrap = trouble.scrapped(it) if orders is self.production else 0
                self.move(it.pair, it.quantity - scrap, "received")
                self.moved[it.pair, "lost"] += scrap

    def serve(self, demand):
        """Sends a customer what is there."""
        quantity = min(demand.quantity, self.stock[demand.pair])
        demand.quantity -= quantity
        self.move(demand.pair, -quantity, "issued")

    def ship(self, names, figure, trouble):
        """Has a supplier ship what was called for up to a figure with closed years, a plant as much of it as is there."""
        lane, is_plant = self.lanes[names], (names[0], names[2]) in self.pairs
        called = max(0, (figure or 0) - lane.total)
        if is_plant and called > self.stock[names[0], names[2]]:
            self.lacked.add((names[0], names[2]))
            called = self.stock[names[0], names[2]]
        quantity, day = trouble.shipped(self, names, called), self.monday + DAY
        if (reset := self.resets.get(names)) and day >= reset > lane.started:
            lane.closed, lane.started = lane.total, reset
        if quantity:
            lane.total += quantity
            self.moved[names[1:], "placed"] += min(called, quantity)
            self.moved[names[1:], "over"] += max(0, quantity - called)
            if is_plant:
                self.move((names[0], names[2]), -quantity, "issued")
            comes = self.after(day, self.pairs[names[1:]].lead)
            found = Consignment(self.number("L-"), names, quantity, lane.figure(), day, comes, comes)
            self.under_way.append(trouble.under_way(found))

    def start(self, order):
        """Starts an order that is made where all its parts are there. It takes its lead time. One that a vendor was to ship is what that ships."""
        if self.pairs[order.pair].vendor:
            self.cancel(order, self.starts)
            return
        needs = {(order.pair[0], part): per * order.quantity for part, per in self.bills.get(order.pair, {}).items()}
        lead = self.pairs[order.pair].lead
        if lacking := [it for it, pieces in needs.items() if self.stock[it] < pieces]:
            self.lacked.update(lacking)
            # (it can't start before next week, and the sheets say when it comes then)
            order.comes = max(order.comes, self.after(self.end, lead))
            return
        for it, pieces in needs.items():
            self.move(it, -pieces, "issued")
        order.comes = max(order.comes, self.after(self.monday, lead))
        self.production[order.number] = self.starts.pop(order.number)

    def cancel(self, order, orders):
        """Cancels an order."""
        self.moved[order.pair, "cancelled"] += orders.pop(order.number).quantity

    def open(self, pair):
        """Returns the pieces of a pair that are ordered, made or under way."""
        orders = (*self.purchases.values(), *self.production.values(), *self.starts.values())
        found = sum(it.quantity for it in orders if it.pair == pair)
        return found + sum(it.quantity for it in self.under_way if it.names[1:] == pair)

    def below(self, pair):
        """Returns a pair and all that goes into it, directly or not."""
        found, left = {pair}, [pair]
        while left:
            plant, item = parent = left.pop()
            takes = {(plant, part) for part in self.bills.get(parent, ())}
            takes |= {(source, item) for source in self.pairs[parent].supply.split(":")[1::2]}
            left += takes - found
            found |= takes
        return found


class NoTrouble:
    """A firm in which all goes as it is planned."""

    def __init__(self):
        self.events = []

    def begin(self, firm):
        """Begins a week."""

    def rush(self, firm):
        """Has a customer want something soon."""

    def counted(self, consignment):
        """Returns how many pieces goods-in books."""
        return consignment.quantity

    def scrapped(self, order):
        """Returns how many pieces of an order are lost."""
        return 0

    def shipped(self, firm, names, quantity):
        """Returns how many pieces a supplier ships of what was called for."""
        return quantity

    def under_way(self, consignment):
        """Returns a consignment as it leaves."""
        return consignment

    def count_stock(self, firm):
        """Counts stock at the end of a week."""

    def missing(self, names):
        """Returns the pieces of a lane of which the planner hasn't heard."""
        return 0

    def advised(self, consignments):
        """Returns the advices of which the planner hears, by consignments that aren't booked in figures."""
        return consignments
