"""When the demands of a firm are met, by other ways than bin/hits.py: for tools/test-tools, which compares.

A firm is tools/oracle.py's, with its plans.
"""
import crates  # noqa: F401  (which lets the modules of bin/ be found)
import mrp


class Waits:
    """How many periods requirements wait at worst, found from a demand down: by questions that are asked again and again.

    Open orders may come later than they are due: `late` has their rows by kind and pair, as `reports.coming_late` gives them.
    """

    def __init__(self, firm, late=None):
        self.firm, self.known, self.late = firm, {}, late or {}

    def demands(self):
        """Returns how many periods each demand waits that does."""
        asked = ((*pair, t) for pair, demands in self.firm.demand.items() for t, quantity in enumerate(demands) if quantity)
        waits = {it: self.until(it[:2], it[2]) - it[2] for it in asked}
        return {it: periods for it, periods in waits.items() if periods}

    def orders(self, pair):
        """Yields when each order of a pair comes, and its pieces: after all that its release takes is there, a planned one
        a lead time, a firm one as long as it is from its start until it is due.
        """
        lead = self.firm.pairs[pair].lead
        for due, quantity in enumerate(self.firm.plans[pair].order):
            if quantity:
                yield lead + self.taken(pair, release_of(self.firm, pair, due)), quantity
        late = [*self.late.get("firm", {}).get(pair, ())]
        for it in self.firm.firm_orders[pair]:
            own = next((row for row in late if (row.period, row.quantity) == (it.due, it.quantity)), None)
            if own:
                late.remove(own)
            yield it.due - it.start + self.taken(pair, it.start) + (own.by if own else 0), it.quantity

    def taken(self, pair, release):
        """Returns when all that a release takes is there."""
        edges = ((it, edge) for it, edges in self.firm.demanders.items() for edge in edges if edge.pair == pair)
        return max([release, *(self.until(it, release) for it, edge in edges if edge.asks(release, self.firm.plans[pair].release[release]))])

    def until(self, pair, period):
        """Returns when all that is required up to a period is there."""
        if (pair, period) not in self.known:
            plan, until = self.firm.plans[pair], period
            orders = [*self.orders(pair)]
            while self.there(pair, orders, until) < sum(plan.gross[: period + 1]):
                until += 1
            self.known[pair, period] = until
        return self.known[pair, period]

    def there(self, pair, orders, period):
        """Returns how many pieces have been there up to a period."""
        came = sum(open_orders(self.firm, pair)[: period + 1])
        late = self.late.get("receipt", {}).get(pair, ())
        came -= sum(it.quantity for it in late if it.period <= period < it.period + it.by)
        return self.firm.pairs[pair].on_hand + came + sum(it for comes, it in orders if comes <= period)


def release_of(firm, pair, due):
    """Returns when a planned order of a pair is released: none is in frozen periods."""
    return max(due, firm.earliest(pair)) - firm.pairs[pair].lead


def open_orders(firm, pair):
    """Returns what comes in of a pair in each period without its firm orders, whenever the plan counts it."""
    found = [*firm.incoming[pair]]
    for it in firm.firm_orders[pair]:
        found[it.due] -= it.quantity
    return found


def lots(firm, pair, release):
    """Yields how many periods what is released in a period takes, and its pieces."""
    firmly = [it for it in firm.firm_orders[pair] if it.start == release]
    yield firm.pairs[pair].lead, firm.plans[pair].release[release] - sum(it.quantity for it in firmly)
    yield from ((it.due - it.start, it.quantity) for it in firmly)


def played(firm, chance):
    """Plays a plan period by period, and returns when each demand is met. Of a period's requirements chance says which is served first.

    A release waits for all that it takes, and keeps what it has got of it.
    """
    pairs = sorted(firm.pairs, key=lambda it: -firm.codes[it])
    stock, coming, waiting = {it: firm.pairs[it].on_hand for it in pairs}, {}, {it: [] for it in pairs}
    missing, met, arrives = {}, {}, {it: open_orders(firm, it) for it in pairs}
    longest = (max([row.lead, *(it.due - it.start for it in firm.firm_orders[pair])]) for pair, row in firm.pairs.items())
    for now in range(firm.periods + sum(longest) + 1):
        for pair in pairs if now < firm.periods else ():
            stock[pair] += arrives[pair][now]
            asked = [(None, firm.demand[pair][now])] + [(it.pair, it.asks(now, firm.plans[it.pair].release[now])) for it in firm.demanders[pair]]
            waiting[pair] += [[now, chance.random(), *it] for it in asked if it[1]]
            for by, quantity in asked:
                missing[by, now] = missing.get((by, now), 0) + quantity
        for pair in pairs:
            if now < firm.periods and not missing.get((pair, now)):
                for periods, pieces in lots(firm, pair, now):
                    coming.setdefault((pair, now + periods), []).append(pieces)
            stock[pair] += sum(coming.get((pair, now), ()))
            for it in sorted(waiting[pair], key=lambda it: it[:2]):
                asked, _, by, quantity = it
                served = min(stock[pair], quantity)
                stock[pair], it[3], missing[by, asked] = stock[pair] - served, quantity - served, missing[by, asked] - served
                if by and served and not missing[by, asked]:
                    for periods, pieces in lots(firm, by, asked):
                        coming.setdefault((by, now + periods), []).append(pieces)
                elif not by and it[3] == 0:
                    met[*pair, asked] = now
            waiting[pair] = [it for it in waiting[pair] if it[3]]
    return met


def demands_above(firm, pair):
    """Returns the demands that are found from what a pair releases first up: an order is for the requirements up to the next one, or
    for those that are as much later as the periods that a policy covers.
    """
    found, seen, left = set(), set(), [(pair, release_of(firm, pair, 0))]
    while left:
        pair, release = left.pop()
        if (pair, release) in seen:
            continue
        seen.add((pair, release))
        due, cover = [t for t, quantity in enumerate(firm.plans[pair].order) if quantity], firm.policy(pair).cover
        for first, end in zip(due, [*due[1:], firm.periods]):
            if release_of(firm, pair, first) == release:
                periods = range(first + cover if first else 0, min(end + cover, firm.periods))
                terms = [(t, mrp.Term(*it)) for t in periods for it in firm.terms(pair, t)]
                found.update((*pair, t) for t, it in terms if it.source == "demand")
                left += [((it.plant, it.item), t) for t, it in terms if it.source != "demand"]
    return found
