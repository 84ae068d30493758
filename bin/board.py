"""The parts of the page that bin/page writes: lists of what is to be done, and records, as HTML."""
import functools
import html
from datetime import date, timedelta

import lacks
import named
import reports
import mrp

# At most so many rows of a list, of which so many are seen at once, so many orders of a pair in it, and lines that open.
MOST_ROWS, MOST_SEEN, MOST_ORDERS, MOST_LINES = 1000, 100, 4, 20
# The days of a month: what is released in it is unfolded, and what is late by as much is marked most.
MONTH = 31
# When those are needed that aren't within the horizon, by their messages.
NEVER = {"cancel": "never", "leave": reports.LEAVE, "beyond": reports.BEYOND}
RULES = {"lot": "lot for lot", "fixed": "lots of {}", "periods": "for {} {}s", "min": "at least {}, by {}"}
IN_TIME = (
    f'<p id="delays">{reports.LABELS[2]} counts late orders as if they came when they are due{{}}; '
    f"{reports.WITH_DELAYS.lower()} counts each one from when it comes, and is red where it is below zero. "
    "Late orders are marked where they are due, and requirements by how late a demand in them is at worst.</p>"
)
SOONER = ", and receipts sooner than they come where a policy says so"
# What stands behind late orders of items that have open orders that come late, and of those that have none.
COMES = "<p>Open orders that the sheets say come later than they are due (Comes) stand here too.</p>"
EXPEDITE = "<p>An item that has no late order here has receipts that the plan counts sooner than they come: they are to be expedited.</p>"
# What is overdue in the sheets.
OVERDUE = {"demand": "demand", "receipt": "receipt", "firm": "firm order", "ship": "in transit"}

# The orders of which the page says how they changed, with the head of the list and of the column that says whose they are.
CHANGED = ("demand", "Customers' orders", "Customer"), ("open", "Open orders", "From")


def is_firm(order):
    """Tells whether an order to release is a firm one."""
    return isinstance(order, reports.FirmOrder)


def grouped(rows, *columns):
    """Returns the rows by the values of some columns."""
    found = {}
    for it in rows:
        found.setdefault(tuple(getattr(it, column) for column in columns), []).append(it)
    return found


@functools.lru_cache(4096)
def day_of(day, with_year):
    """Returns a day with its week, and with its year where that is asked for."""
    year = f" {day.year}" * with_year
    return f'<time datetime="{day}">{day.day} {day:%b}{year} <small>W{day.isocalendar().week:02}</small></time>'


def sortable(heads, rows, kind="", count=0):
    """Returns a table that can be sorted, of texts, of figures, and of texts with what they are sorted by.

    One of many rows scrolls, and says how many it has, and of how many, where the rows are the first of so many.
    """

    def cell(it):
        shown, by = it if isinstance(it, tuple) else (it, None)
        style = "" if isinstance(shown if by is None else by, int) else ' class="name"'
        value = "" if by is None else f' data-by="{by}"'
        return f"<td{style}{value}>{f'{shown:,}' if isinstance(shown, int) else shown}</td>"

    styles = [' class="name"' if cell(it).startswith('<td class="name"') else "" for it in rows[0]]
    head = "".join(f'<th{style}><button type="button">{it}</button></th>' for style, it in zip(styles, heads))
    body = "\n".join(f"<tr>{''.join(map(cell, row))}</tr>" for row in rows[:MOST_ROWS])
    count = max(count, len(rows))
    of = f"The first {MOST_ROWS:,} of {count:,} rows" if count > MOST_ROWS else f"{count:,} rows"
    kind, said = (f"{kind} long", f"<p>{of}; the list scrolls.</p>") if count > MOST_SEEN else (kind, "")
    return f'<div class="list{kind}"><table><thead><tr>{head}</tr></thead><tbody>\n{body}\n</tbody></table></div>{said}'


def folded(lines):
    """Returns lines of which the first is seen, and the others when they are asked for."""
    if len(lines) < 2:
        return "".join(lines)
    more = [f"and {len(lines) - MOST_LINES:,} more"] if len(lines) > MOST_LINES else []
    return f"<details><summary>{lines[0]}</summary>{'<br>'.join(lines[1:MOST_LINES] + more)}</details>"


class Board:
    """What the page says of an outline, with the days of its plan."""

    def __init__(self, outline, dates):
        self.outline, self.names, self.dates = outline, outline.names, dates
        # (of a plan of one period nobody knows how long that is)
        calendar = mrp.Calendar.of_report(dates) if len(dates) > 1 else None
        self.unit = {1: "day", 7: "week"}.get(calendar.days, "period") if calendar else "period"
        self.month = calendar.period(dates[0] + timedelta(days=MONTH - 1)) + 1 if calendar else 1
        self.delays = outline.delays
        kinds = mrp.Late, mrp.Order, mrp.Hit
        self.late, self.released, self.hit = (grouped(outline.rows[it], "plant", "item") for it in kinds)
        self.messages, self.items = outline.messages, named.Items(outline.names)
        # (a pair that is bought has the schedule of its vendor)
        self.suppliers = {(customer, item): supplier for supplier, customer, item in outline.calls}
        self.hits = grouped(outline.rows[mrp.Hit], "by_plant", "by_item")

    # What parts are made of.

    def first(self):
        """Returns the first day in full."""
        day = self.dates[0]
        return f"{day.day} {day:%B} {day.year}, W{day.isocalendar().week:02}"

    def day(self, day):
        """Returns a day with its week, and with its year where the same day of the plan's first year could be meant."""
        return day_of(day, (day - self.dates[0]).days > 330)

    def dated(self, day):
        """Returns a cell with a day, that is sorted by it."""
        return self.day(day), str(day)

    def lateness(self, periods):
        """Returns a cell that says by how much something is late, marked, and from a month on with the strongest mark."""
        mark = "late worst" if periods >= self.month else "late"
        return f'<b class="{mark}">{reports.counted(periods, self.unit)}</b>' if periods else "", periods

    def plant(self, plant):
        return html.escape(self.names.plant(plant))

    def item(self, plant, item):
        """Returns the item as a link to its record, where the page has it."""
        place, name = self.outline.places.get((plant, item)), html.escape(self.names.item(plant, item))
        return name if place is None else f'<a href="#r{place}">{name}</a>'

    def notes(self, kind, plant, item, period):
        """Returns what the sheets say of a demand or of an open order."""
        return "".join(f"<br><small>{html.escape(it)}</small>" for it in self.names.of(kind, plant, item, period))

    def firm_mark(self, order):
        """Returns the mark of a firm order, which isn't to be placed again, with what the sheets say of it."""
        notes = reports.notes_of_firm(self.names, order) if is_firm(order) else ()
        return ", <b>firm</b>" * is_firm(order) + "".join(f"<br><small>{html.escape(it)}</small>" for it in notes)

    def supply(self, text):
        """Returns how an item is supplied: make, buy, or from which plants."""
        sources = mrp.sources(text)
        if len(sources) < 2:
            return " ".join([text.partition(":")[0], *(self.plant(plant) for plant, _ in sources)])
        return "from " + ", ".join(f"{self.plant(plant)} {share / 10:g}%" for plant, share in sources)

    def section(self, name, title, content, empty):
        """Returns a section. One without content says so, where the reports would have had it."""
        if not content and self.outline.facts is None and name != "late":
            return ""
        return f'<section id="{name}">\n<h2>{title}</h2>\n{content or f"<p>{empty}</p>"}\n</section>'

    # What is beside this plan.

    def changed(self, desk):
        """Returns what changed since an earlier Monday: customers' orders first, then open orders, then what is planned; or nothing."""
        if not desk.since:
            return ""
        lists = [self.orders_changed(kind, *heads, desk.since.changes[kind]) for kind, *heads in CHANGED]
        if planned := [it for it in desk.planned.items() if self.outline.asked(*it[0])]:
            rows = [[self.plant(plant), self.item(plant, item), folded(self.changes(found))] for (plant, item), found in planned]
            head = f"<summary>Planned orders of {reports.counted(len(rows), 'item')}, now or late</summary>"
            lists.append(f'<details>{head}{sortable(["Plant", "Item", "Change"], rows, " stack")}</details>')
        content = f'<div class="lists">{"".join(lists)}</div>' if any(lists) else "<p>Nothing.</p>"
        more = [(desk.later, "pair", "planned later on otherwise: <code>bin/compare</code> has them")]
        more += [(desk.since.done, "order", "due before this plan begins and gone: taken as done")]
        more += [(desk.since.behind, "order", "behind the end of that plan, which may have been there already")]
        content += "".join(f"<p>{reports.counted(count, word)} {said}.</p>" for count, word, said in more if count)
        first = desk.since.last.first
        return self.section("changed", f"Changed since {first.day} {first:%B} {first.year}", content, "")

    def orders_changed(self, kind, title, who, found):
        """Returns a list of orders that came, went or changed, or nothing."""
        known = {it: self.names.own(*it) for it in self.outline.pairs}
        codes, rows = dict(zip(known.values(), known)), []
        for it in found:
            order, was = it.order, it.was if it.now else None
            plant, item = order.pair if it.now else codes.get(order.own, order.own)
            if self.outline.asked(plant, item):
                before = [self.day(was.day)] if was and was.day != order.day else []
                before += [f"{was.quantity:,}"] if was and was.quantity != order.quantity else []
                texts = [html.escape(order.who), html.escape(order.number), self.plant(plant), self.item(plant, item), f"<b>{it.word}</b>"]
                rows.append([*texts, order.quantity, self.dated(order.day), (", ".join(before), str(was.day) if was else "")])
        heads = [who, "Order", "Plant", "Item", "Change", "Quantity", "Due", "Was"]
        return f"<div><h3>{title}</h3>{sortable(heads, rows, ' stack')}</div>" if rows else ""

    def changes(self, found):
        """Returns the changes of a pair's planned orders as lines."""
        lines = [f"{self.day(date.fromordinal(it.day))} {html.escape(it.text)}" for it in found]
        return [f"{len(lines)} changes, the first {lines[0]}", *lines] if len(lines) > 1 else lines

    def short(self, desk):
        """Returns the demands of this period that aren't there, where a desk asks for changes; or nothing."""
        found = [it for it in self.outline.lacking.demands if self.outline.asked(it.plant, it.item)] if desk.since else []
        rows = [[self.plant(it.plant), self.item(it.plant, it.item), it.short, it.quantity, self.notes("demand", it.plant, it.item, 0)[4:]] for it in found]
        heads = ["Plant", "Item", "Short", "Of", "Wanted by"]
        return self.section("shortages", "Short now", sortable(heads, rows, " stack"), "") if rows else ""

    def sending(self, desk):
        """Returns the releases to send, or nothing."""
        rows = []
        for it in desk.releases:
            if it.date != self.dates[0]:
                raise reports.Refused(f"the release of {it.supplier} is of {it.date}, and the plan begins on {self.dates[0]}")
            first = self.dated(it.despatch) if it.despatch else ("", "")
            rows.append([html.escape(it.supplier), it.number, it.items, it.calls, first, it.backlog, it.late])
        heads = ["Supplier", "Release", "Items", "Calls", "First despatch", "Backlog", "Late"]
        return self.section("sending", "Releases to send", sortable(heads, rows, " stack"), "") if rows else ""

    # The lists.

    def in_time(self):
        """Returns what is said of late orders above the records."""
        sooner = SOONER * any(it.sooner for it in self.outline.policies.of.values())
        return IN_TIME.format(sooner) if self.outline.rows[mrp.Late] or sooner or self.delays else ""

    def lacks(self, pair):
        """Returns what the orders of a pair that are released now lack of their parts, in lines."""

        def item(own, plant, name):
            return (f"{self.plant(plant)} " if plant != own[0] else "") + self.item(plant, name)

        return [f'<b class="late">lacks</b> {it}' for it in self.outline.lacking.lines(pair, item, "{:,}".format)]

    def lacking(self, pair):
        """Returns a cell that says what the orders of a pair lack, and is sorted by how many parts that is. Many open."""
        lines = self.lacks(pair)
        many = f'<b class="late">lacks</b> {len(lines)} parts' + " or more" * (len(lines) == lacks.MOST)
        shown = folded([many, *lines]) if len(lines) > MOST_ORDERS else "<br>".join(lines)
        return shown, f"{len(lines):03}"

    def summary(self):
        """Returns how many there are of what the page is about."""
        rows = self.outline.rows
        counts = [(len(self.outline.pairs), "pair"), (len(self.dates), self.unit), (len(rows[mrp.Late]), "late order")]
        counts.append((sum(len(late) for pair, late in self.delays.items() if self.outline.asked(*pair)), "open order"))
        counts += [(len(rows[mrp.Hit]), "demand"), (len(rows[mrp.Order]), "order")]
        counts += [(self.messages.moved(), "open order"), (self.messages.count("beyond"), "open order")]
        firm, lacking = sum(map(is_firm, rows[mrp.Order])), sum((it.plant, it.item) in self.outline.lacking.of for it in rows[mrp.Order])
        of_these = f", {firm:,} of them firm" * bool(firm) + f", {lacking:,} of them lacking parts" * bool(lacking)
        ends = ["", "", "", " late", " hit", f" to release{of_these}", " to be moved", " needed beyond the horizon"]
        return ", ".join(reports.counted(*it) + end for it, end in zip(counts, ends) if it[0] or not end)

    def vendor(self, order):
        """Returns who delivers an order that is bought: whose schedule has it, or else whom items.csv names; or nothing."""
        pair = order.plant, order.item
        if order.supply != "buy":
            return ""
        return self.names.plant(self.suppliers[pair]) if pair in self.suppliers else self.items.noted(pair)[0]

    def releases(self):
        """Returns the orders to release now, the late ones first: a list for each plant, and behind them one for each vendor."""
        lists, vendors = [], {}
        for it in self.outline.rows[mrp.Order]:
            vendors.setdefault(self.vendor(it), []).append(it)
        for (plant,), orders in grouped(vendors.pop("", []), "plant").items():
            orders.sort(key=lambda it: -it.late)
            rows = [self.release(plant, it) for it in grouped(orders, "item").values()]
            heads = ["Item", "Quantity", "Late", "Due", "Supply"]
            lacking = [self.lacking((plant, item)) for item, in grouped(orders, "item")]
            if any(shown for shown, _ in lacking):
                heads.insert(4, "Lacks")
                rows = [[*row[:4], it, *row[4:]] for row, it in zip(rows, lacking)]
            lists.append(f'<div><h3>{self.plant(plant)}</h3>{sortable(heads, rows, " stack")}</div>')
        for vendor in sorted(vendors, key=str.casefold):
            bought = grouped(sorted(vendors[vendor], key=lambda it: -it.late), "plant", "item")
            rows = [[*self.release(plant, it)[:4], self.plant(plant)] for (plant, _), it in bought.items()]
            heads = ["Item", "Quantity", "Late", "Due", "Plant"]
            lists.append(f'<div><h3>To buy from {html.escape(vendor)}</h3>{sortable(heads, rows, " stack")}</div>')
        when = {"week": "this week", "day": "today"}.get(self.unit, "now")
        return self.section("release", f"To release {when}", f'<div class="lists">{"".join(lists)}</div>' if lists else "", "Nothing.")

    def release(self, plant, orders):
        """Returns the row of an item that is released, the latest first of several orders: they open below their sum."""
        first, due = orders[0], [f"{it.quantity:,} due {self.day(it.due_date)}{self.firm_mark(it)}" for it in orders]
        lines = [line + (f", {self.lateness(it.late)[0]}" if it.late else "") for line, it in zip(due, orders)]
        firm = sum(map(is_firm, orders))
        several = f"{self.day(first.due_date)}, {len(orders):,} orders" + f", {firm:,} of them <b>firm</b>" * bool(firm)
        dated = folded([several, *lines]) if len(orders) > 1 else self.day(first.due_date) + self.firm_mark(first), str(first.due_date)
        whole = sum(it.quantity for it in orders)
        return [self.item(plant, first.item), whole, self.lateness(first.late), dated, self.supply(first.supply)]

    def late_orders(self):
        """Returns the pairs with late orders, and with each the demands that wait for it."""
        rows, hits_known = [], self.outline.facts is not None or bool(self.hits)
        expedited = self.expedited()
        pairs = [*self.late, *expedited]
        # (so many are shown)
        for pair in pairs[:MOST_ROWS]:
            hits, orders = self.hits.get(pair, []), self.late.get(pair, [])
            ends = [len(hits), folded([self.demand(it) for it in hits])] if hits_known else []
            if orders and (others := self.outline.others.get(pair)):
                ends = [("", 0), self.others(others)]
            late = orders[0].by if orders else hits[0].late_at_worst if hits else max(it.by for it in self.delays[pair])
            rows.append([self.plant(pair[0]), self.item(*pair), self.lateness(late), self.due(pair, orders), *ends])
        if not rows:
            return self.section("late", "Late orders", "", "No order is late.")
        title, heads = ("Late orders, and the demands that they hit", ["Demands", "Worst by this order"]) if hits_known else ("Late orders", [])
        note = "A demand stands by the late order that delays it most, with how late it is at worst; <em>also</em> counts those that wait for this one too."
        note = f"<p>{note}</p>" + EXPEDITE * any(it not in self.delays for it in expedited) if hits_known else ""
        note += COMES * any(map(self.outline.asked, *zip(*self.delays))) if self.delays else ""
        return self.section("late", title, sortable(["Plant", "Item", "Late", "Orders", *heads], rows, " stack", len(pairs)) + note, "")

    def overdue(self):
        """Returns the demands and open orders of the sheets whose date was before the plan, whatever it makes of them."""
        found = [it for it in named.overdue(self.names) if self.outline.asked(it.plant, it.item)]
        rows = []
        for it in found:
            kind = OVERDUE[it.kind] + f"<br><small>{html.escape(it.note)}</small>" * bool(it.note)
            late = f'<b class="late">{it.late}</b>', it.days
            rows.append([self.plant(it.plant), self.item(it.plant, it.item), it.quantity, late, self.dated(it.date), kind])
        heads = ["Plant", "Item", "Quantity", "Late", "Due", "Kind"]
        return self.section("overdue", "Overdue in the sheets", sortable(heads, rows, " stack"), "") if rows else ""

    def expedited(self):
        """Returns the pairs without late orders for which demands wait, for receipts that the plan counts sooner than they come, and
        those with open orders that come late."""
        comes = self.outline.policies.comes
        found = dict.fromkeys([*(it for it in self.hits if it in comes or it in self.delays), *self.delays])
        return [it for it in found if it not in self.late and self.outline.asked(*it)]

    def due(self, pair, orders):
        """Returns the late orders of a pair, and which open orders could come in their place; many open below their sum."""
        days = [self.day(reports.day(self.dates, it.period)) for it in orders]
        lines = [f"{it.quantity:,} due {day}" for it, day in zip(orders, days)]
        if len(orders) > 1:
            lines = [f"{line}, {reports.counted(it.by, self.unit)}" for line, it in zip(lines, orders)]
        if len(orders) > MOST_ORDERS:
            whole = f"{sum(it.quantity for it in orders):,} in {len(orders):,} orders, the first due {days[0]}"
            lines = [folded([whole, *lines])]
        for it in self.delays.get(pair, []):
            day = self.day(reports.day(self.dates, it.period))
            lines.append(f"open order of {it.quantity:,} due {day}, {reports.counted(it.by, self.unit)}")
        found = [it for it in self.messages.rows(pair) if it.action == "expedite"]
        instead = [f"{'or ' * bool(orders)}expedite {self.open_order(it)}" for it in found]
        return "<br>".join([*lines, *instead]) if len(instead) <= MOST_ORDERS else "<br>".join([*lines, folded(instead)])

    def open_order(self, message):
        """Returns the open order that a message is for."""
        return f"{message.quantity:,}{' firm' * (message.kind == 'firm')} of {self.day(message.date)}"

    def others(self, hits):
        """Returns how many demands wait for a pair, and for which other ones they wait longer."""
        by = [*dict.fromkeys((it.by_plant, it.by_item) for it in hits)]
        return f"also {len(hits):,}, worse by {', '.join(self.item(*it) for it in by[:MOST_ORDERS])}{', ..' if len(by) > MOST_ORDERS else ''}"

    def demand(self, it):
        """Returns a demand that is hit, and how late it is at worst."""
        text = f"{it.quantity:,} {self.plant(it.plant)} {self.item(it.plant, it.item)} of {self.day(it.date)}, {self.lateness(it.late_at_worst)[0]}"
        return text + self.notes("demand", it.plant, it.item, it.period)

    def moves(self):
        """Returns the open orders that are to be moved."""
        rows = []
        for it in self.messages.rows():
            comes = self.day(it.date) + self.notes(it.kind, it.plant, it.item, it.period)
            needed = 2 * (NEVER[it.action],) if it.action in NEVER else self.dated(it.needed_date)
            kind = f"in transit from {self.plant(it.supplier)}" if it.supplier else reports.OPEN_ORDERS[it.kind]
            rows.append([f"<b>{it.action}</b>", self.plant(it.plant), self.item(it.plant, it.item), it.quantity, (comes, str(it.date)), needed, kind])
        heads = ["Message", "Plant", "Item", "Quantity", "Comes", "Needed", "Kind"]
        table = sortable(heads, rows, " stack", self.messages.count()) if rows else ""
        return self.section("moves", "Open orders to expedite, defer, cancel", table, "Each comes when it is needed.")

    def deliveries(self):
        """Returns the next deliveries, a list for each lane, by when they leave."""
        lanes = {}
        for (supplier, customer, item), rows in self.outline.calls.items():
            closed = ""
            for it in rows:
                cumulative = f"{it.cumulative:,}{closed}", it.cumulative
                if it.kind == "reset":
                    closed = f"<br><small>{it.cumulative:,} closed</small>"
                elif it.quantity:
                    leaves = self.dated(it.date) if it.date else ("in transit", "")
                    lanes.setdefault((supplier, customer), []).append([self.item(customer, item), leaves, it.quantity, cumulative])
                    closed = "" if it.date else closed
        lists = []
        for plants, rows in lanes.items():
            rows.sort(key=lambda it: it[1][1])
            head = " to ".join(map(self.plant, plants))
            lists.append(f'<div><h3>{head}</h3>{sortable(["Item", "Leaves", "Quantity", "Cumulative"], rows)}</div>')
        return self.section("deliveries", "Next deliveries", f'<div class="lists">{"".join(lists)}</div>' if lists else "", "There are none.")

    def lanes(self):
        """Returns the figures between plants: what the despatch lane and the schedule lane of a supplier and a customer say of an item."""
        lanes = self.outline.rows[mrp.Lane]
        schedule = {(it.receiver, it.sender, it.item): it for it in lanes if it.kind == "schedule"}
        rows = []
        for out in lanes:
            call = schedule.get((out.sender, out.receiver, out.item)) if out.kind == "despatch" else None
            if call:
                figures = [out.opening, out.shipped - out.opening, call.shipped - out.shipped, call.shipped]
                rows.append([self.plant(out.sender), self.plant(out.receiver), self.item(out.receiver, out.item), *figures])
        heads = ["Supplier", "Customer", "Item", "Received", "In transit", "Still to be shipped", "Called for in all"]
        return self.section("lanes", "Between plants", sortable(heads, rows, " stack"), "") if rows else ""

    # The records.

    def delayed(self, record):
        """Returns the late orders of a record, and as such what the plan counts of its receipts sooner than they come, and open orders
        that come late."""
        pair = record.plant, record.item
        return [*self.late.get(pair, []), *self.outline.policies.sooner(pair, record.incoming), *self.delays.get(pair, [])]

    def picture(self, record, late):
        """Returns what is available over the periods as a drawing: with delays, projected, safety stock, and a line where a late order is due."""
        delayed, periods, safety = record.with_delays(late), len(record.dates), self.safety(record)
        most, least = max(*record.available, safety), min(0, *delayed)

        def height(quantity):
            return round(100 * (most - quantity) / (most - least), 2) if most > least else 100

        def steps(quantities):
            return "".join(f"V{height(it)}H{period}" for period, it in enumerate(quantities, 1))

        def path(kind, way):
            return f'<path class="{kind}" d="M0 {way}"/>'

        zero, words = height(0), f"Projected available, at most {max(record.available):,}" + (f"; safety stock {safety:,}" if safety else "")
        drawn = path("area", f"{zero}{steps([max(it, 0) for it in delayed])}V{zero}Z") + path("edge", f"{height(record.available[0])}{steps(record.available)}")
        drawn += path("zero", f"{zero}H{periods}") + (path("safety", f"{height(safety)}H{periods}") if safety else "")
        if late:
            words += f"; {reports.WITH_DELAYS.lower()}, at least {min(delayed):,}"
            drawn += path("delayed", f"{height(delayed[0])}{steps(delayed)}") + path("short", f"{zero}{steps([min(it, 0) for it in delayed])}V{zero}Z")
            drawn += "".join(f'<path class="due" d="M{it.period + 0.5} 0V100"/>' for it in late)
        figures = f"at most<br>{max(record.available):,}" + (f'<br><span class="late">at least<br>{least:,}</span>' if least < 0 else "")
        return (
            f'<figure><figcaption>{figures}</figcaption><svg viewBox="0 0 {periods} 100" preserveAspectRatio="none" role="img">'
            f"<title>{words}</title>{drawn}</svg></figure>"
        )

    def safety(self, record):
        """Returns the safety stock of a pair, or 0 where it isn't known."""
        found = (self.outline.facts or {}).get((record.plant, record.item))
        return found.safety if found else 0

    def facts(self, record):
        """Returns what is known of a pair, in a line."""
        found, stock = (self.outline.facts or {}).get((record.plant, record.item)), f"{record.on_hand():,} on hand"
        if not found:
            return stock
        kind, *sizes = found.rule.split(":")
        rule = RULES[kind].format(*(f"{int(it):,}" for it in sizes), self.unit)
        ends = [f"safety stock {found.safety:,}"] if found.safety else []
        lead = f"lead time {reports.counted(found.lead, self.unit)}"
        policies = self.outline.policies
        if frozen := policies.frozen(found):
            ends.append(f"releases frozen: none is planned before {self.day(self.dates[frozen])}")
        ends += reports.policy_words(policies.policy((record.plant, record.item)), self.unit)
        return ", ".join([self.supply(found.supply), rule, lead, stock, *ends])

    def to_do(self, record):
        """Returns what is to be done about a pair: its orders to release, else its late orders, and its messages."""
        pair = record.plant, record.item
        orders = [(f"{it.quantity:,}{' firm' * is_firm(it)} to release,", it.due_date, it.late) for it in self.released.get(pair, [])]
        orders = orders or [(f"{it.quantity:,}", reports.day(record.dates, it.period), it.by) for it in self.late.get(pair, [])]
        lines = [f"{what} due {self.day(day)}" + (f", {self.lateness(late)[0]} late" if late else "") for what, day, late in orders]
        lines += [self.lacking(pair)[0]] if pair in self.released and self.lacks(pair) else []
        messages = self.messages.rows(pair)
        for it in messages:
            needed = f", needed {self.day(it.needed_date)}" if it.needed_date else ""
            order = self.open_order(it)
            left = {"beyond": f"{order}, {reports.BEYOND}", "leave": f"leave {order}, {reports.LEAVE}"}
            lines.append(left.get(it.action, f"{it.action} {order}{needed}"))
        more, stay = self.messages.count(pair=pair) - len(messages), self.messages.count("leave", "beyond", pair=pair)
        lines += [f"and {reports.counted(more, 'open order')} more{' to be moved' * (not stay)}"] if more else []
        return "<br>".join(lines)

    def heads(self):
        """Returns the heads of the periods: the year where it is another one, the week and the day."""
        heads, year = [], None
        for period, day in enumerate(self.dates):
            week = f"{day.year}<br>" * (day.year != year) + f"W{day.isocalendar().week:02}"
            heads.append(f'<th title="period {period}, {day}">{week}<br>{day.day} {day:%b}</th>')
            year = day.year
        return "".join(heads)

    def lines(self, record, late):
        """Returns the rows of a record. Late orders are marked where they are due, demands that are hit, and what is below zero."""

        def line(label, figures, kind="", late=None, frozen=0):
            cells = [f'<td class="frozen" title="frozen: no planned order is released">{f"{it:,}" if it else ""}</td>' for it in figures[:frozen]]
            for period, it in enumerate(figures[frozen:], frozen):
                mark = f"<small>{reports.counted(late[period], self.unit).replace(' ', '&nbsp;')} late</small>" if late and period in late else ""
                style = ' class="late"' if mark or it < 0 else ""
                cells.append(f"<td{style}>{f'{it:,}' if it or kind else ''}{mark}</td>")
            return f'<tr{kind}><th class="name">{label}</th>{"".join(cells)}</tr>'

        stock = ' class="stock"'
        pair = record.plant, record.item
        hit = {it.period: it.late_at_worst for it in self.hit.get(pair, [])}
        firm = [line(f"<small>{reports.OF_WHICH_FIRM}</small>", it) for it in self.outline.firm.figures(pair, len(record.dates))]
        # (what is due of firm orders stands below scheduled receipts, and what is released of them below releases)
        comes = {it.period: it.by for it in sorted(self.delays.get(pair, []), key=lambda it: it.by)}
        lines = [line(reports.LABELS[0], record.gross, late=hit), line(reports.LABELS[1], record.incoming, late=comes), *firm[:1]]
        lines.append(line(reports.LABELS[2], record.available, stock))
        if delayed := self.delayed(record):
            # (below projected available)
            lines.append(line(reports.WITH_DELAYS, record.with_delays(delayed), stock))
        due, row = {it.period: it.by for it in late}, (self.outline.facts or {}).get(pair)
        release = line(reports.LABELS[4], record.release, frozen=self.outline.policies.frozen(row) if row else 0)
        return "\n".join([*lines, line(reports.LABELS[3], record.order, late=due), release, *firm[1:]])

    def article(self, record):
        """Returns the record of a pair as a part of the page."""
        pair = record.plant, record.item
        late, plant, item = self.late.get(pair, []), self.plant(pair[0]), html.escape(self.names.item(*pair))
        released = next((day for day, it in zip(self.dates, record.release) if it), None)
        facts, unfolded = self.facts(record), " open"
        if not any(record.release[: self.month]):
            facts, unfolded = facts + (f", next release {self.day(released)}" if released else ", no order"), ""
        return (
            f'<article id="r{self.outline.places[pair]}" data-plant="{plant}" data-item="{item}"{" data-late" if late else ""}><details{unfolded}>\n'
            f"<summary><h3>{plant} {item}</h3><span>{facts}</span></summary>\n"
            f'<div class="top"><p>{self.to_do(record)}</p>{self.picture(record, self.delayed(record))}</div>\n'
            f'<div class="scroll"><table><thead><tr><th class="name">{self.unit.capitalize()}</th>{self.heads()}</tr></thead><tbody>\n'
            f"{self.lines(record, late)}\n</tbody></table></div>\n</details></article>"
        )
