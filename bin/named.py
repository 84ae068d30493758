"""Reports in the firm's own names, for bin/orders and bin/schedule: what names.csv says of items, rows, and sums."""
import csv
import re
import shutil
import sys
from typing import NamedTuple

import headed
import reports
import mrp

# How columns of items.csv are headed that name who delivers an item, and under which number.
VENDOR = "vendor vendorname supplier suppliername lieferant lieferantenname kreditor fournisseur proveedor"
VENDOR_ITEM = "vendorpart vendorspart vendoritem vendorsitem vendormaterial"
VENDOR_ITEM += " supplierpart supplierspart supplieritem suppliersitem suppliermaterial"
VENDOR_ITEM += " lieferantenteil lieferantenteile lieferantenartikel lieferantenmaterial"
VENDOR_ITEM += " referencefournisseur reffournisseur articlefournisseur"
VENDOR_ITEM += " referenciaproveedor referenciadelproveedor articuloproveedor"
HEADINGS = {**dict.fromkeys(VENDOR.split(), "vendor"), **dict.fromkeys(VENDOR_ITEM.split(), "vendor_item")}
ADVICE = dict.fromkeys(headed.keys("Advice", headed.ADVICE), "advice")


def headed_words(part, headings=HEADINGS):
    """Returns what a part of a note says, as vendor or vendor_item, and the words behind that heading; or None."""
    words = part.split(" ")
    # (the longest heading: that of a vendor's part number begins as that of a vendor)
    for place in range(len(words) - 1, 0, -1):
        if found := headings.get(headed.key(" ".join(words[:place]))):
            return found, " ".join(words[place:])
    return None


class Overdue(NamedTuple):
    """A demand or an open order of the sheets whose date is before the plan: its kind, pair, pieces, days late and what says so, its
    date, and what its row says besides.
    """

    kind: str
    plant: str
    item: str
    quantity: int
    days: int
    late: str
    date: object
    note: str


def overdue(names):
    """Returns what names.csv says is overdue, the latest first."""
    found = []
    for (word, plant, item, _), texts in names.rows.items():
        front, _, kind = word.partition(" ")
        for text in texts if front == "overdue" else ():
            quantity, date, late, days, note = re.fullmatch(r"(\d+) of (\S+): ((?:its start )?([\d,]+) days? late)(?:, (.*))?", text, re.DOTALL).groups("")
            found.append(Overdue(kind, plant, item, int(quantity), int(days.replace(",", "")), late, mrp.day_of(date), note))
    return sorted(found, key=lambda it: -it.days)


class Items:
    """What names.csv says of the items of a firm."""

    def __init__(self, names):
        self.names, self.found = names, {}

    def noted(self, pair):
        """Returns the vendor of an item, and the vendor's part number, as far as its row in items.csv names them."""
        if pair not in self.found:
            # (of two such columns the first counts)
            parts = reversed(headed.parts_of(self.names.notes.get(pair, "")))
            found = dict(filter(None, map(headed_words, parts)))
            self.found[pair] = found.get("vendor", ""), found.get("vendor_item", "")
        return self.found[pair]

    def about(self, item, plant, *suppliers):
        """Returns an item's name at a plant, its description, and the vendor's part number there, else at a supplier."""
        numbers = (self.noted((it, item))[1] for it in (plant, *suppliers))
        return *self.names.pairs.get((plant, item), (item, "")), next(filter(None, numbers), "")


class Report:
    """A report of a table, or of the one on standard input: its rows, and what the table says of plants and periods."""

    def __init__(self, folder, command, table=None):
        self.table, self.path = table or f"{folder}/table.csv", f"{folder}/{command}.csv"
        if not table:
            with open(self.table, "wb") as copy:
                shutil.copyfileobj(sys.stdin.buffer, copy)
        with open(self.path, "wb") as file:
            reports.ask(f"{command} --header", self.table, file)

    def of_table(self, kind):
        """Returns the rows of a kind in the table."""
        with mrp.open_table(self.table) as lines:
            return [*mrp.table_rows(lines, kind)]

    def until(self, when):
        """Returns the period that a word says, or one past all where none is asked for."""
        return 10**16 if when is None else reports.period_of(when, reports.Table(self.table))

    def rows(self):
        """Yields the rows of the report."""
        with open(self.path, encoding="utf-8") as lines:
            next(lines, None)
            yield from (mrp.report_row(line, number) for number, line in enumerate(lines, 2))


class Sums:
    """How often and how many of each item come from whom, or go to whom, and the first day of it."""

    def __init__(self, who, what):
        self.columns = "row", who, "item", "description", "vendor_item", what, "quantity", "first_date"
        self.found = {}

    def add(self, who, item, about, quantity, day):
        """Takes so many of an item, by its name in the table."""
        sums = self.found.setdefault(who, {}).setdefault(item, [about, 0, 0, day])
        sums[1:] = sums[1] + 1, sums[2] + quantity, min(sums[3], day)

    def rows(self):
        """Yields a row for each item, and below those of one firm its total, without an item."""
        for who, items in sorted(self.found.items()):
            yield from (("sum", who, *about, *figures) for about, *figures in items.values())
            _, times, quantities, days = zip(*items.values())
            yield "total", who, "", "", "", sum(times), sum(quantities), min(days)


def words(usage, text, until):
    """Returns the words that both tools have."""
    parser = reports.Words(usage, text)
    parser.add_argument("--until", metavar="PERIOD", type=reports.moment, help=until)
    sums = "sums by item of each vendor, or of each customer, in place of the rows"
    parser.add_argument("--sums", choices=("vendor", "customer"), help=sums)
    reports.add_names(parser)
    reports.add_large(parser)
    reports.add_out(parser)
    return parser


def write(out, columns, rows):
    """Writes rows below the names of their columns, to a file or to standard output."""
    sys.stdout.reconfigure(encoding="utf-8")
    with reports.output(out) as file:
        writer = csv.writer(file, lineterminator="\n")
        writer.writerow(columns)
        writer.writerows(rows)
