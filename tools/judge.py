"""What has to hold of a year of Mondays, for tools/year: each Monday by the reports of that day, and each week by what came to pass."""
import datetime
from collections import Counter

import mrp
from desk import ROWS, Reports, write
from trouble import HARMLESS

# How a year moves the pieces of a pair: what comes to be there or on order, and what goes.
COMES, GOES = ("placed", "counted", "over"), ("cancelled", "issued", "lost")
# The sheets whose overdue rows are orders, and not demands.
ORDERS = "receipts.csv", "shipments.csv", "firm_orders.csv"


class Judge:
    """Judges a firm by its planner's desk, and keeps what is found to be wrong."""

    def __init__(self, seed, firm, desk, trouble):
        self.seed, self.firm, self.desk, self.trouble, self.found, self.mondays = seed, firm, desk, trouble, [], 0
        self.begin = {it: (firm.stock[it], firm.open(it)) for it in firm.pairs}
        # (the demands that are named as late, with the Mondays since which and until which they are; those whose week is whole, with the first
        # Monday; those that were missed; what lacks and isn't named yet; what mrp shortages names)
        self.named, self.known, self.missed, self.lacked, self.short = {}, {}, set(), set(), set()
        # (up to which figure suppliers were called for, the pieces of calls by pair, the last go-aheads, and the last plan)
        self.called, self.asked, self.marks, self.before, self.now = {}, Counter(), {}, None, None
        # (what goes into each pair, what lacked in the week before a Monday, and what was forecast for that week and not ordered)
        self.below, self.lacking, self.unordered = {it: firm.below(it) for it in firm.pairs}, {}, {}

    @property
    def events(self):
        """What went wrong."""
        return self.trouble.events

    def tell(self, what):
        self.found.append(f"seed {self.seed}, {self.firm.monday}: {what}")

    def monday(self, placed, before):
        """Judges what a Monday brought: what was booked, by the reports before, and all else."""
        self.mondays += 1
        planned = {(*it[:2], it.due) for it in self.desk.reports["orders"] if isinstance(it, mrp.Order)}
        again = [it for it in placed if (*it[:2], it.due) in planned]
        now, gross = [it.figures("gross") for it in (self.desk.reports, before)] if again else [{}, {}]
        for it in again:
            # (a late order whose releases are frozen is booked with a sooner start, and then what goes into it is wanted sooner)
            if now[it[:2]] == gross[it[:2]]:
                self.tell(f"{it} was booked, and is planned again")
        self.figures()
        self.releases()
        self.orders()
        self.sooner(before)
        self.sooner(self.desk.reports)
        self.frozen()

    def figures(self):
        """Figures with closed years are those that suppliers count, and in force where nothing from before is under way."""
        lanes = {(it.sender, it.receiver, it.item): it for it in self.desk.reports["cums"] if it.kind == "despatch"}
        for names, lane in self.firm.lanes.items():
            row = self.desk.released[names][0]
            closed, received, way, older = (int(row[it]) for it in ("Closed", "Received", "In transit", "Closed in transit"))
            missing = self.trouble.missing(names)
            if closed + received + way + missing != lane.total:
                self.tell(f"{names}: {closed} + {received} + {way} by the release, and {lane.total} were shipped")
            left = [it for it in self.firm.under_way if it.names == names and str(it.despatched) < row["Started"]]
            if sum(it.quantity for it in {id(it): it for it in self.trouble.advised(left)}.values()) != older:
                self.tell(f"{names}: {older} are under way from before by the release, and by the supplier {left}")
            is_reset = self.firm.resets.get(names) in (None, lane.started) or self.firm.monday < self.firm.resets[names]
            if not left and is_reset and received + way + missing != lane.figure():
                self.tell(f"{names}: {received} + {way} are in force by the release, and {lane.figure()} by the supplier")
            if names in lanes and lanes[names].shipped != received + way:
                self.tell(f"{names}: {lanes[names].shipped} by mrp cums, {received} + {way} by the release")
            behind = max(0, self.called.get(names, 0) - closed - received - way)
            if int(row["Backlog"]) != behind:
                self.tell(f"{names}: a backlog of {row['Backlog']}, and of what was called for {behind} aren't shipped")
            if int(row["Release"]) != self.mondays:
                self.tell(f"{names}: release {row['Release']}")

    def releases(self):
        """Calls are those of the plan, one after the other, and go-aheads never fall."""
        calendar = self.desk.calendar
        reach = {(it.plant, it.item): it.release for it in self.desk.reports["check --reach"]}
        firm = {it.pair for it in self.firm.starts.values()}
        for names, rows in self.desk.released.items():
            figure = sum(int(rows[0][it]) for it in ("Closed", "Received", "In transit"))
            for it in rows[: len(rows) * bool(rows[0]["Despatch"])]:
                figure += int(it["Quantity"])
                due = calendar.first_day(calendar.period(it["Despatch"]) + self.firm.pairs[names[1:]].lead)
                # (a firm order comes when the sheets say so)
                if int(it["With closed years"]) != figure or it["Delivery"] not in (str(due), "") and names[1:] not in firm:
                    self.tell(f"{names}: the call {', '.join(it.values())}")
            self.asked[names[1:]] += figure - sum(int(rows[0][it]) for it in ("Closed", "Received", "In transit"))
            marks = [int(rows[0][f"{it} figure"]) for it in ("Firm", "Fab", "Raw")]
            if marks != sorted(marks) or any(it < before for it, before in zip(marks, self.marks.get(names, marks))):
                self.tell(f"{names}: go-aheads are {marks}, after {self.marks.get(names)}")
            self.marks[names] = marks
            whole = reach[names[1:]]
            if rows[0]["Whole until"] != ("" if whole is None else str(calendar.first_day(whole + 1) - datetime.timedelta(days=1))):
                self.tell(f"{names}: whole until {rows[0]['Whole until']}, and by mrp check --reach in {whole}")
        self.same_calls()

    def same_calls(self):
        """What is called for of a pair is what its plan releases."""
        released = Counter()
        for it in self.desk.reports["plan"]:
            if isinstance(it, mrp.Plan) and (it.plant, it.item) in self.asked:
                released[it.plant, it.item] += it.release
        if +released != +self.asked:
            self.tell(f"called for are {self.asked - released} beside the plan, and not {released - self.asked}")
        self.asked.clear()

    def orders(self):
        """Open orders of the table are those that there are."""
        sums = self.desk.sums(mrp.Receipt, mrp.Ship, mrp.Firm)
        for pair in self.firm.pairs:
            lost = sum(self.trouble.missing(names) for names in self.firm.lanes if names[1:] == pair)
            if sums[pair] + lost != self.firm.open(pair):
                self.tell(f"{pair}: {sums[pair]} are open in the table, and {self.firm.open(pair)} in the firm")

    def sooner(self, found):
        """An order is planned, and so placed, only where no receipt is left that may count sooner."""
        receipts, others, had = {}, {}, Counter()
        for it in found.table(mrp.Receipt, mrp.Ship, mrp.Firm):
            rows, period = (receipts, it.period) if isinstance(it, mrp.Receipt) else (others, it.due if isinstance(it, mrp.Firm) else it.period)
            rows.setdefault(it.pair, Counter())[period] += it.quantity
        for it in found["plan"]:
            if isinstance(it, mrp.Plan):
                pair = it.plant, it.item
                had[pair] += it.incoming - others.get(pair, Counter())[it.period]
                due = sum(pieces for period, pieces in receipts.get(pair, {}).items() if period <= it.period + self.firm.pairs[pair].sooner)
                if it.order and had[pair] != due:
                    self.tell(f"{pair}: an order in {it.period}, and of {due} receipts {had[pair]} are counted")

    def frozen(self):
        """In the weeks in which the planner alone starts orders releases are the firm ones."""
        starts = Counter()
        for it in self.desk.reports.table(mrp.Firm):
            starts[(*it.pair, it.start)] += it.quantity
        for it in self.desk.reports["plan"]:
            if isinstance(it, mrp.Plan) and it.period < self.firm.pairs[it.plant, it.item].frozen:
                if it.release != starts[it.plant, it.item, it.period]:
                    self.tell(f"{it.plant} {it.item}: {it.release} released in {it.period}, where releases are frozen")

    def whole(self):
        """What was whole last Monday stays as it was when later rows alone are added: requirements, and releases."""
        if not self.before:
            return
        rows, wholes, figures = self.before
        end = rows[0].periods
        later = [it._replace(period=end) for it in self.desk.reports.table(mrp.Demand) if it.period == end - 1]
        longer = [rows[0]._replace(periods=end + 1), *rows[1:], *later]
        found = Reports(write(f"{self.desk.week}/longer.csv", longer))
        for place, column in enumerate(("gross", "release")):
            for pair, now in found.figures(column).items():
                whole, was = wholes[pair][place], figures[place][pair]
                if now[:whole] != was[:whole]:
                    self.tell(f"{pair}: {column} was {was}, whole up to {whole}, and is {now} with later demands")

    def keep(self):
        """Keeps the plan and how far it is whole for the next Monday, and of which demands it is known by when they have to be named."""
        wholes, calendar = {}, self.desk.calendar
        for it in self.desk.reports["check --reach"]:
            wholes[it.plant, it.item] = [0 if last is None else last + 1 for last in (it.period, it.release)]
        named = {(it.plant, it.item, it.period) for it in self.desk.hits()}
        for it in self.firm.demands:
            period = max(0, calendar.period(it.due))
            if period < wholes[it.pair][0]:
                self.known.setdefault(it.number, self.firm.monday)
            if (*it.pair, period) in named:
                since, until = self.named.get(it.number, (None, None))
                self.named[it.number] = since if until and until == self.now else self.firm.monday, self.firm.monday
        plan, self.now = self.desk.reports, self.firm.monday
        self.unordered[self.firm.end] = self.left_of_forecast()
        self.before = [*plan.table(*ROWS)], wholes, [plan.figures(it) for it in ("gross", "release")]

    def left_of_forecast(self):
        """Returns how many pieces are forecast for this week and not ordered: next Monday they are wanted no more."""
        pair, firm = self.firm.forecast, self.firm
        ordered = sum(it.quantity for it in firm.demands if it.pair == pair and it.due < firm.end)
        return self.desk.reports.figures("gross")[pair][0] - ordered if pair else 0

    def name(self):
        """Judges whether what lacked last week is named, and keeps what this Monday's reports name."""
        self.keep()
        self.short = {(it.plant, it.item) for it in self.desk.reports["shortages"]}
        late = {(it.plant, it.item) for it in self.desk.reports["plan"] if isinstance(it, mrp.Late)}
        sooner = {(it.plant, it.item) for it in self.desk.reports["advice --reach"] if it.action == "expedite"}
        behind = {(names[0], names[2]) for names, rows in self.desk.released.items() if int(rows[0]["Backlog"])}
        named = self.short | late | sooner | behind
        for pair in self.lacked:
            if not self.below[pair] & named and not any(map(self.is_overdue, self.below[pair])) and not self.is_explained(pair):
                self.tell(f"{pair} lacked last week, and nothing names it")
        for it in self.events:
            it.is_named |= self.is_named(it) or not it.is_told and it.seen <= self.firm.monday <= self.firm.after(it.seen, 1) and it.pair in named
            if it.is_told and not it.is_named and self.firm.monday >= self.firm.after(it.seen, 1):
                self.tell(f"{it} was named by nothing")
                it.is_named = True

    def is_named(self, event):
        """Tells whether a release, bin/sheets or bin/advices names what went wrong. What figures tell is named as it is cleared."""
        it, names = event, " ".join(event.names)
        if it.seen > self.firm.monday:
            return False
        if it.kind in ("little", "lost", "tardy"):
            return int(self.desk.released[it.names][0]["Backlog"]) > 0
        if it.kind == "late":
            return any(it.number in line and " late" in line for line in self.desk.told)
        text = {"much": f"{names}: {it.quantity} more are shipped", "twice": f"{it.number} stands twice"}.get(it.kind)
        return bool(text) and any(text in line for line in self.desk.said)

    def is_overdue(self, pair):
        """Tells whether bin/sheets lists an open order of a pair that is overdue, or has kept that one comes later than it is due."""
        if any(pair in found for found in self.desk.late.values()):
            return True
        return any(line.startswith(ORDERS) and f" of {' '.join(pair)}, " in line and " late" in line for line in self.desk.told)

    def is_explained(self, pair):
        """Tells whether a pair lacked by what went wrong last week: what was counted otherwise is named itself; of what was scrapped, or missing in
        stock, bin/sheets lists what waits for it.
        """
        found = [it for it in self.events if it.seen == self.firm.monday and it.pair in self.below[pair]]
        late = any(f" of {' '.join(it)}, " in line and " late" in line for it in self.below if pair in self.below[it] for line in self.desk.told)
        return any(it.is_named if it.is_told else late for it in found)

    def is_felt(self, pair, monday, lacking=()):
        """Tells whether something could first be seen on a Monday that may make a pair lack: what went wrong, or lacked, of what goes into it or
        into what it shares parts with.
        """
        found = [it.pair for it in self.events if it.kind not in HARMLESS and it.seen == monday]
        return any(self.below[it] & self.below[pair] for it in (*found, *lacking))

    def is_by_forecast(self, demand, monday):
        """Tells whether a demand was first named on a Monday because what was forecast for the week before wasn't ordered: by a lot rule that counts
        periods other orders then begin later, and are larger. Were those pieces wanted still, nothing would name it on that Monday.
        """
        pieces = self.unordered.get(monday, 0)
        return pieces > 0 and not self.desk.is_hit_beside(monday, demand, mrp.Demand(*self.firm.forecast, 0, pieces))

    def week(self):
        """Judges a week: nothing lacks and no demand is missed that nothing names, and stock is what was there, came and went."""
        self.lacked = {it for it in self.firm.lacked if it not in self.short and not self.is_overdue(it)}
        self.lacking[self.firm.monday] = {*self.firm.lacked} - self.lacked
        for pair in self.lacked:
            if not self.is_felt(pair, self.firm.monday):
                self.tell(f"{pair} lacked, and mrp shortages didn't say so")
        for it in self.firm.demands:
            if it.due < self.firm.monday and it.number not in self.missed:
                self.missed.add(it.number)
                self.miss(it)
        for pair in self.firm.pairs:
            self.conserved(pair)

    def miss(self, demand):
        """Judges a demand that was missed: it was named on the Monday on which it could be known, or on which what went wrong could be seen, or
        what was forecast and not ordered. What goes wrong in that very week is named on the next Monday.
        """
        it, (named, until), known = demand, self.named.get(demand.number, (None, None)), self.known.get(demand.number)
        named = named if until == self.now else None
        if not named and self.is_felt(it.pair, self.firm.monday):
            self.lacked.add(it.pair)
        elif not named or known and known < named and not self.is_explained_on(named, it):
            self.tell(f"{it.pair}: {it.quantity} of {it.number} for {it.due} are missed, known on {known}, and named on {named}")

    def is_explained_on(self, monday, demand):
        """Tells whether it could be seen on a Monday, and not before, that a demand is missed."""
        return self.is_felt(demand.pair, monday, self.lacking.get(monday, ())) or self.is_by_forecast(demand, monday)

    def conserved(self, pair):
        """What was there and on order, and came to be, is what went, is there and is on order; and so of stock alone."""
        stock, orders = self.begin[pair]
        why = {it: self.firm.moved[pair, it] for it in (*COMES, *GOES, "received")}
        came = stock + orders + sum(why[it] for it in COMES) + why["issued"] - why["cancelled"] - why["lost"]
        if came != self.firm.stock[pair] + self.firm.open(pair):
            self.tell(f"{pair}: {stock} and {orders} on order, by {why}, don't leave {self.firm.stock[pair]} and {self.firm.open(pair)} on order")
        if stock + why["received"] + why["issued"] + why["counted"] != self.firm.stock[pair] or self.firm.stock[pair] < 0:
            self.tell(f"{pair}: {stock}, by {why}, aren't {self.firm.stock[pair]}")

    def end(self):
        """Judges whether all that went wrong was named."""
        for it in self.events:
            if it.is_told and not it.is_named:
                self.tell(f"{it} was named by nothing")
