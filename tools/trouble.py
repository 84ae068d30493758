"""What goes wrong in a year of tools/year: from a source of chance, what happens, to whom, and who has to name it."""
import datetime
from dataclasses import dataclass

import world
from world import WEEK

# What can go wrong in a week. Each comes to pass with the first thing that it can happen to.
KINDS = "little", "much", "late", "twice", "lost", "tardy", "miscounted", "scrap", "count", "cancelled", "rush"
# What has to be named for itself, and not only where something is short by it.
TOLD = "little", "much", "late", "twice", "lost", "tardy", "miscounted"
# What doesn't make pieces come later, or be fewer, nor look so.
HARMLESS = "much", "twice"


@dataclass
class Event:
    """Something that went wrong: its kind, the Monday before, the item, the number of an advice or order, the pieces, the lane, when these left,
    and on which Monday it can be seen first."""

    kind: str
    monday: datetime.date
    pair: tuple
    number: str
    quantity: int
    names: tuple = ()
    left: object = None
    seen: object = None
    is_named: bool = False

    @property
    def is_told(self):
        return self.kind in TOLD


class Trouble(world.NoTrouble):
    """A firm in which some weeks go wrong, up to a last Monday.

    In the weeks before figures start again no advice is lost: nothing tells the difference of figures that count no more.
    """

    def __init__(self, chance, often, last, reset):
        self.chance, self.often, self.last, self.reset = chance, often, last, reset
        self.firm, self.kind, self.events, self.lost, self.unheard, self.twice, self.tardy = None, None, [], {}, set(), set(), set()

    def begin(self, firm):
        """Begins a week, and says what may go wrong in it."""
        self.firm = firm
        for number in self.tardy:
            self.hear(number)
        self.tardy = set()
        may = firm.monday <= self.last and self.chance.random() < self.often
        self.kind = self.chance.choice(KINDS) if may else None
        order = next((it for it in firm.purchases.values() if it.comes >= firm.end), None)
        if order and self.is_now("cancelled"):
            self.happens(order.pair, order.number, order.quantity)
            firm.cancel(order, firm.purchases)

    def is_now(self, kind):
        """Tells whether something goes wrong now."""
        return self.kind == kind and self.chance.random() < 0.5

    def happens(self, pair, number, quantity, names=(), left=None, seen=None):
        """Keeps what went wrong. Nothing else does in that week."""
        self.events.append(Event(self.kind, self.firm.monday, pair, number, quantity, names, left, seen or self.firm.end))
        self.kind = None

    def rush(self, firm):
        wanted = [it for it in firm.pairs if it[0] == "DEPOT"]
        if self.is_now("rush"):
            pair, pieces = self.chance.choice(wanted), self.chance.randint(1, 20)
            self.happens(pair, firm.want(pair, firm.after(firm.monday, 2), pieces).number, pieces, seen=firm.monday)

    def shipped(self, firm, names, quantity):
        if quantity > 1 and self.is_now("little"):
            self.happens(names[1:], "", quantity - quantity // 2, names)
            return quantity // 2
        is_vendor = (names[0], names[2]) not in firm.pairs
        if quantity and is_vendor and self.is_now("much"):
            self.happens(names[1:], "", 10, names)
            return quantity + 10
        return quantity

    def under_way(self, consignment):
        it = consignment
        what = it.names[1:], it.number, it.quantity, it.names, it.despatched
        if self.is_now("late"):
            it.comes = self.firm.after(it.arrives, 1)
            monday = it.arrives - datetime.timedelta(days=it.arrives.weekday())
            self.happens(*what, self.firm.after(monday, 1))
        elif self.is_now("twice"):
            self.twice.add(it.number)
            self.happens(*what)
        elif self.firm.pairs[it.names[1:]].lead > 1 and self.is_now("tardy"):
            self.tardy.add(it.number)
            self.lose(it)
            self.happens(*what)
        elif not self.reset - 5 * WEEK <= self.firm.monday < self.reset and self.is_now("lost"):
            self.lose(it)
            self.happens(*what)
        return it

    def lose(self, consignment):
        """Has the planner not hear of an advice."""
        self.lost[consignment.number] = consignment
        self.unheard.add(consignment.number)

    def counted(self, consignment):
        it = consignment
        # (what is booked is known, with its advice or without)
        self.lost.pop(it.number, None)
        if it.quantity > 1 and it.number not in self.unheard and self.is_now("miscounted"):
            self.happens(it.names[1:], it.number, 1, it.names, it.despatched)
            return it.quantity - 1
        return it.quantity

    def scrapped(self, order):
        if order.quantity > 2 and self.is_now("scrap"):
            self.happens(order.pair, order.number, order.quantity // 3)
            return order.quantity // 3
        return 0

    def count_stock(self, firm):
        for pair, pieces in firm.stock.items():
            if pieces > 5 and self.is_now("count"):
                self.happens(pair, "", 5)
                firm.move(pair, self.chance.choice((-5, 5)), "counted")

    def advised(self, consignments):
        """Returns the advices of which the planner hears: without lost ones, and with those that come twice."""
        found = [it for it in consignments if it.number not in self.unheard]
        return found + [it for it in found if it.number in self.twice]

    def hear(self, number):
        """Has the planner get an advice that was lost."""
        self.lost.pop(number, None)
        self.unheard.discard(number)

    def missing(self, names):
        """Returns the pieces of lost advices of a lane."""
        return sum(it.quantity for it in self.lost.values() if it.names == names)
