"""The firm of tools/year, from a source of chance: three plants that supply each other, and twenty vendors."""
import datetime
from collections import Counter

from world import Customer, Firm, Lane, Order, Pair, WEEK

BEGAN = datetime.date(2026, 1, 5)
# How nobody works over the turn of a year and at Easter, and when customers' figures may start again.
EASTER = (datetime.date(2027, 3, 26), datetime.date(2027, 3, 29))
SHUTDOWNS = (), ((datetime.date(2026, 12, 24), datetime.date(2027, 1, 1)), EASTER), ((datetime.date(2026, 12, 19), datetime.date(2027, 1, 3)),)
RESTARTS = datetime.date(2027, 1, 1), datetime.date(2027, 1, 4), datetime.date(2027, 1, 6)
# How many periods back and forward orders consume forecasts.
WINDOWS = (0, 0), (1, 0), (2, 1)
# The products, from where the depot takes each, and the castings; vendors deliver all other parts.
PRODUCTS = {"P-1": ("WORKS",), "P-2": ("WORKS",), "P-3": ("WORKS",), "P-4": ("WORKS", "FOUNDRY")}
CASTINGS = "C-1", "C-2"
VENDORS = 20


def small(chance, first, reset):
    """Returns the smallest firm: a works, a depot that takes from it, and two vendors."""
    pairs = [
        Pair("DEPOT", "PUMP", "from:WORKS", "lot", 1, safety=5),
        Pair("WORKS", "PUMP", "make", "lot", 1),
        Pair("WORKS", "MOTOR", "buy", "fixed:20", 2, safety=4, vendor="V-MOTORS"),
        Pair("WORKS", "SEAL", "buy", "lot", 3, vendor="V-SEALS"),
    ]
    return firm_of(chance, pairs, {("WORKS", "PUMP"): {"MOTOR": 1, "SEAL": 2}}, first, reset)


def sold(chance, firm):
    """Adds that nobody works at times, that a customer calls for an item by figures, and that another item is forecast."""
    firm.closed = chance.choice(SHUTDOWNS)
    items = chance.sample([it for it in firm.pairs if it[0] == "DEPOT"], 2)
    firm.customers = {items[0]: Customer("ACME", items[0], BEGAN, chance.randint(0, 9000), chance.choice(RESTARTS))}
    firm.window, firm.forecast = chance.choice(WINDOWS), items[1]
    return firm


def large(chance, first, reset):
    """Returns a firm of three plants and twenty vendors."""
    parts = [f"X-{it}" for it in range(1, VENDORS + 1)]
    pairs, bills = [], {}
    for item, sources in PRODUCTS.items():
        supply = "from:WORKS" if len(sources) == 1 else "from:WORKS:600:FOUNDRY:400"
        pairs.append(Pair("DEPOT", item, supply, rule(chance), 1, chance.choice((0, 5)), multiple=chance.choice((0, 0, 5))))
        for plant in sources:
            lead = chance.randint(1, 2)
            pairs.append(Pair(plant, item, "make", rule(chance), lead, 0, chance.choice((0, lead, lead + 2)), cover=chance.choice((0, 0, 1))))
            bills[plant, item] = dict.fromkeys(chance.sample(parts[:12], 3) if plant == "WORKS" else chance.sample(parts[12:], 3), 1)
    for item in CASTINGS:
        pairs.append(Pair("FOUNDRY", item, "make", rule(chance), 1))
        pairs.append(Pair("WORKS", item, "from:FOUNDRY", rule(chance), 1, chance.choice((0, 4))))
        bills["FOUNDRY", item] = {chance.choice(parts[12:]): chance.randint(1, 2), "IRON": 2}
        bills["WORKS", chance.choice([*PRODUCTS])][item] = 1
    pairs += [Pair("FOUNDRY", "IRON", "buy", rule(chance), 2, 10, sooner=2), Pair("WORKS", "PAINT", "buy", rule(chance), 1, 5, sooner=1)]
    bills["WORKS", "P-1"]["PAINT"] = 3
    for place, item in enumerate(parts):
        plant = "WORKS" if place < 12 else "FOUNDRY"
        if not any(item in takes and parent[0] == plant for parent, takes in bills.items()):
            made = chance.choice([it for it in bills if it[0] == plant])
            bills[made][item] = chance.randint(1, 2)
        lead = chance.randint(1, 3)
        fence = lead + 1 if chance.random() < 0.2 else 0
        pairs.append(Pair(plant, item, "buy", rule(chance), lead, chance.choice((0, 5)), fence, cover=chance.choice((0, 0, 1)), vendor=f"V-{place + 1}"))
    return sold(chance, firm_of(chance, pairs, bills, first, reset))


def rule(chance):
    """Returns a lot rule."""
    return chance.choice(("lot", "lot", "fixed:20", "periods:2", "min:10:5"))


def firm_of(chance, pairs, bills, first, reset):
    """Returns a firm with stock, and with a figure for each item that a plant or a vendor delivers."""
    names = [(plant, *it.key) for it in pairs for plant in it.supply.split(":")[1::2]]
    names += [(it.vendor, *it.key) for it in pairs if it.vendor]
    lanes = {}
    for it in names:
        closed = chance.randint(0, 9000)
        lanes[it] = Lane(it, closed + chance.randint(0, 900), closed, BEGAN)
    stock = Counter({it.key: chance.randint(60, 120) for it in pairs})
    firm = Firm({it.key: it for it in pairs}, bills, stock, lanes, first, dict.fromkeys(names, reset))
    for it in pairs:
        if it.sooner:
            number = firm.number("P-")
            firm.purchases[number] = Order(number, it.key, chance.randint(10, 60), None, first + WEEK, first + WEEK)
    return firm
