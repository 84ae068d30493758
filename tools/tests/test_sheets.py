"""bin/sheets, and the names of its sheets in other tools."""
import csv
import datetime
import io
import itertools
import math
import os
import random
import re
import shutil
import subprocess
import unicodedata
from fractions import Fraction

import firms
import headed
import reports
from support import answered, module_of, Tags, TOP

# The sheets of bin/sheets: of each kind of row the name of its sheet, and headings for each of its fields.
SHEETS = {
    "run": ("firm", ("First day", "Start date"), ("Days", "Days per period"), ("Periods", "No. of periods")),
    "plant": ("plants", ("Plant", "Site no.")),
    "pair": (
        "items",
        *(("Plant", "LOCATION"), ("Item", "Part No.", "sku"), ("Supply", "Make or buy"), ("Lot rule", "Lot_size")),
        *(
            ("Lead (periods)", "Lead time in days"),
            ("On hand", "Stock on hand", "Qty on hand"),
            ("Safety stock", "Safety Stock Qty"),
        ),
        # (what policies say)
        *(("Fence (periods)", "Planning time fence in days"), ("Sooner (periods)", "Sooner in days"), ("Cover (Perioden)", "Safety time (days)")),
        *(("Least", "Minimum order quantity"), ("Multiple", "Rounding value")),
    ),
    "bill": (
        *("bills", ("Plant", "Works"), ("Parent", "Parent item"), ("Component", "Component no"), ("Per", "Qty per")),
        # (what usages say)
        *(("Scrap %", "Ausschuss in %"), ("Valid from", "Gültig ab"), ("Valid to", "Gültig bis")),
    ),
    "demand": ("demands", ("Plant", "Site"), ("Item", "Material"), ("Due", "Need date"), ("Quantity", "Order qty")),
    "receipt": (
        "receipts",
        ("Plant", "Site"),
        ("Item", "Article number"),
        ("Due", "ETA", "Delivery date"),
        ("Quantity", "Open qty"),
    ),
    "ship": (
        "shipments",
        ("From", "Supplier"),
        ("To", "Customer"),
        ("Item", "Product code"),
        ("Arrives", "Date"),
        ("Quantity", "Pieces"),
    ),
    "cum": ("cums", ("From", "Sender"), ("To", "Receiver"), ("Item", "Part"), ("Cum received", "Figure")),
    "reset": ("resets", ("From", "From plant"), ("To", "To plant"), ("Item", "Part"), ("Date", "Reset date")),
    "firm": (
        "firm_orders",
        *(("Plant", "Site"), ("Item", "Material"), ("Start", "Start date", "Basic start date")),
        *(("Due", "Finish date", "End date"), ("Quantity", "Order quantity")),
    ),
}


def sheets_of(chance, table):
    """Returns the sheets of a table by name, as bytes.

    Headings, other columns, separators, line ends and days are drawn.
    """
    rows = [it.split(",") for it in table.decode().splitlines()]
    found, first, days = {}, datetime.date.fromisoformat(rows[0][1]), int(rows[0][2])
    policies = {(*it[1:3],): it[3:] for it in rows if it[0] == "policy"}
    rows = [it + policies.get((*it[1:3],), ["0"] * 5) if it[0] == "pair" else it for it in rows]
    rows = [*itertools.chain(*(bill_rows(chance, rows, it) if it[0] == "bill" else [it] for it in rows))]
    for kind, (name, *columns) in SHEETS.items():
        heads = [chance.choice(it) for it in columns] + ["Remark", "Customer name"]
        cells = [
            [cell_of(chance, kind, head, text, first, days) for head, text in zip(heads, row[1:])]
            for row in rows
            if row[0] == kind
        ]
        if cells or chance.random() < 0.5 or name in ("firm", "items"):
            order = chance.sample(range(len(heads)), len(heads))
            texts = [
                heads,
                *(
                    it[: len(columns)] + [chance.choice(("", "Smith; Sons, Ltd", 'the "red"\none')), "Żółw"]
                    for it in cells
                ),
            ]
            file, mark = io.StringIO(), chance.choice(",;\t")
            if kind == "bill" and mark != "," and chance.random() < 0.5:
                texts[1:] = [[*it[:3], *(text.replace(".", ",") for text in it[3:5]), *it[5:]] for it in texts[1:]]
            writer = csv.writer(file, delimiter=mark, lineterminator=chance.choice(("\n", "\r\n")))
            writer.writerows([it[place] for place in order] for it in texts)
            found[f"{name}.csv"] = file.getvalue().encode(chance.choice(("utf-8", "utf-8-sig", "utf-8-sig", "utf-16")))
    if [it[1] for it in rows if it[0] == "plant"] == sorted(
        {it[1] for it in rows if it[0] == "pair"}
    ) and chance.random() < 0.5:
        del found["plants.csv"]
    return found


def steps_of(rows, bill):
    """Returns the pieces that go into one parent by the period from which on they do, of the rows of a table and a bill row."""
    usages = {int(it[4]): Fraction(int(it[5]), int(it[6])) for it in rows if it[0] == "usage" and it[1:4] == bill[1:4]}
    steps = sorted(({0: Fraction(bill[4])} | usages).items())
    return dict(steps[:1] + [it for before, it in itertools.pairwise(steps) if it[1] != before[1]])


def bill_rows(chance, rows, bill):
    """Yields the rows of a sheet for a bill row and its usages: each with pieces, scrap, the day from which on they hold, and the last one."""
    first, days, periods = datetime.date.fromisoformat(rows[0][1]), int(rows[0][2]), int(rows[0][3])
    steps = [*steps_of(rows, bill).items()]
    # (a day within a period counts from the next one on)
    bounds = [sorted(first + datetime.timedelta(days=period * days - chance.randrange(days)) for _ in "12") for period, _ in steps]
    for place, (period, each) in enumerate(steps):
        scrap = chance.choice([it for it in (0, 3, 25, Fraction(5, 2)) if is_decimal(each / (100 + it) * 100)])
        ends = place + 1 < len(steps)
        begin = bounds[place][1] if period or chance.random() < 0.3 else ""
        end = bounds[place + 1][0] - datetime.timedelta(days=1) if ends else first + datetime.timedelta(days=periods * days + 40)
        if each:
            until = end if ends or chance.random() < 0.3 else ""
            yield [*bill[:4], decimal(each / (100 + scrap) * 100), decimal(scrap) if scrap else "", str(begin), str(until)]


def is_decimal(number):
    """Returns whether a number has few decimals, and can be a usage."""
    return 10**6 % number.denominator == 0 and max(number.as_integer_ratio()) <= 10**6


def decimal(number):
    """Returns the text of a number, with a point before decimals, of which there are never three: then a point may part thousands."""
    text = f"{number.numerator * 10**6 // number.denominator:07d}"
    whole, decimals = text[:-6], text[-6:].rstrip("0")
    return f"{whole}.{decimals + '0' * (len(decimals) == 3)}" if decimals else whole


def cell_of(chance, kind, head, text, first, days):
    """Returns what a sheet has for a field of a table: a day of its period, before the first one too, and days of a
    lead time.
    """
    if head == "Sooner in days":
        return str(int(text) * days + chance.randrange(days)) if text != "104" else str(104 * days)
    if head in ("Lead time in days", "Planning time fence in days", "Safety time (days)") and text != "0":
        return str(int(text) * days - chance.randrange(days))
    if any(head in it for it in SHEETS["pair"][-5:]) and text == "0":
        return chance.choice(("", " ", "0"))
    if kind == "firm" and head in ("Start", "Start date", "Basic start date", "Due", "Finish date", "End date"):
        # (no order starts behind the day on which it is due: so on the first day of a period or before, and is due on the last)
        day = -chance.choice((0, 1, 400)) if "tart" in head and text == "0" else 0 if "tart" in head else days - 1
        text = str(first + datetime.timedelta(int(text) * days + day))
    elif head in ("Due", "Need date", "ETA", "Delivery date", "Arrives", "Date", "Reset date"):
        overdue = chance.randrange(400) if text == "0" and kind != "reset" else 0
        text = str(first + datetime.timedelta(int(text) * days + chance.randrange(days) - overdue))
    if text[4:5] == "-" and text[7:8] == "-" and text[:4].isdigit():
        year, month, day = text.split("-")
        return chance.choice(
            (
                text,
                text,
                f"{text} 00:00:00",
                f"{day}.{month}.{year}",
                f"{int(day)}.{int(month)}.{year}",
                f"{int(month)}/{int(day)}/{year}",
            )
        )
    return chance.choice((text, text, f" {text} ", text.upper() if text in ("make", "buy", "lot") else text))


def write_sheets(room, folder, found):
    """Writes sheets into a folder, and takes away others."""
    shutil.rmtree(f"{room.folder}/{folder}", ignore_errors=True)
    os.mkdir(f"{room.folder}/{folder}")
    for name, text in found.items():
        with open(f"{room.folder}/{folder}/{name}", "wb") as file:
            file.write(text if isinstance(text, bytes) else text.encode())


def table_of_sheets(room, *words):
    """Returns status, the rows before the end row, which says how many they are, and errors of bin/sheets."""
    done = subprocess.run([f"{TOP}/bin/sheets", *words], cwd=room.folder, capture_output=True, timeout=300, check=False)
    rows = firms.unended(done.stdout)
    assert (rows == done.stdout) == (not rows)
    # (all but one warning, which goes by the clock)
    return done.returncode, rows, re.sub("firm.csv row 2, .* doesn't hold today, .*\n", "", done.stderr.decode())


def test_sheets_give_the_table_back(room, firms_tried=40):
    """Random firms, turned into sheets and back."""
    for seed in range(firms_tried):
        chance = random.Random(seed)
        table = in_order_of_sheets(with_firm_orders(chance, firms.table(chance)))
        write_sheets(room, "firm", sheets_of(chance, table))
        status, written, said = table_of_sheets(room, "--dates", "m/d/y", "firm")
        assert (status, written.decode(), said if status else "") == (0, table.decode(), ""), seed


def with_firm_orders(chance, table):
    """Returns a table with some firm orders more."""
    table = firms.unended(table)
    rows = [it.split(",") for it in table.decode().splitlines()]
    pairs, periods = [it[1:3] for it in rows if it[0] == "pair"], int(rows[0][3])
    for _ in range(chance.choice((0, 1, 5))):
        start, due = sorted(chance.randrange(periods) for _ in "12")
        table += f"firm,{','.join(chance.choice(pairs))},{start},{due},{chance.choice((1, 30, 10**12))},,\n".encode()
    return table


def in_order_of_sheets(table):
    """Returns a table with its policies behind all other rows, in the order of its pairs, without those that say nothing; and then its
    usages in the order of its bills, with fractions that have few decimals, none that says what is said already, and bills of the most pieces.

    Vendors and first days, which have tests of their own, are left out.
    """
    rows = [it.split(",") for it in table.decode().splitlines()]
    pairs = [it[1:3] for it in rows if it[0] == "pair"]
    policies = [it for it in rows if it[0] == "policy" and {*it[3:]} != {"0"}]
    bills, usages, decimals = [], [], [it[:6] + [it[6] if is_decimal(Fraction(int(it[5]), int(it[6]))) else "1", ""] for it in rows if it[0] == "usage"]
    for it in (it for it in rows if it[0] == "bill"):
        steps = steps_of(decimals, it)
        if most := max(map(math.ceil, steps.values())):
            bills.append([*it[:4], str(most), *it[5:]])
            begun = {period: each for period, each in steps.items() if period or each != most}
            usages += (["usage", *it[1:4], str(period), *map(str, each.as_integer_ratio()), ""] for period, each in begun.items())
    front, others = (it for it in rows if it[0] in ("run", "plant", "pair")), ("run", "plant", "pair", "bill", "policy", "usage", "vendor", "day")
    behind = (it for it in rows if it[0] not in others)
    rows = [*front, *bills, *behind, *sorted(policies, key=lambda it: pairs.index(it[1:3])), *usages]
    return "".join(",".join(it) + "\n" for it in rows).encode()


def test_sheets_are_refused_whole(room, program, trials=60):
    """Sheets with a damage or two: slips and no table, or a table that mrp refuses for loops and bounds alone."""
    for seed in range(trials):
        chance = random.Random(seed)
        found = sheets_of(chance, in_order_of_sheets(firms.table(chance)))
        name = chance.choice([*found])
        write_sheets(room, "firm", {**found, name: firms.damaged(chance, found[name])})
        status, written, said = table_of_sheets(room, "--dates", "m/d/y", "firm")
        assert status == (0 if written else 1), seed
        if status:
            assert bool(
                re.search(r"\nbin/sheets: \d+ slips?(, the first 100 of them above)?; nothing is written\n$", said)
            ), seed
            continue
        refused = answered(room, "check", written, {})[2].decode()
        assert re.sub("(loop|SupplyTooLarge|NeedTooLarge) .*", "", refused) == ("mrp: \n" if refused else ""), seed


# Sheets with 29 slips, and what is told of them.
SLIPS = {
    "firm.csv": "First day;Days;Periods\n2026-11-30;7;6\n",
    "items.csv": """\
Plant,Item,Supply,Lot rule,Lead (weeks),On hand,Safety stock,Buyer
WORKS,PUMP,make,lot,1,1 200,4,Ann
WORKS,MOTOR,buy,fixed:0,1.5,-3,2,Ann
WORKS,SEAL,purchase,lots,2,12.0,"1,000",Ann
WORKS,PUMP,make,lot,1,0,0,Ann
DEPOT,PUMP,from:WROKS,lot,1,3,1,Ann
DEPOT,MOTOR,from:WORKS:600:DEPOT:400,lot,1,,1,Ann
DEPOT,SEAL 25/40,buy,lot,105,3,1,Ann,Bob
WORKS,BOLT/8,buy,lot,1,1,1,Ann
WORKS,BOLT_8,buy,lot,1,1,1,Ann
DEPOT,SEAL,from:WORKS:600:PLANT:300,lot,1,1,1,Ann
""",
    "bills.csv": "Plant\tParent\tComponent\tPer\nWORKS\tPUMP\tMOTOR\t0\nWORKS\tMOTOR\tSEAL\t1\nWORKS\tPUMP\tMOTOR\t2\n",
    "demands.csv": """\
Plant,Item,Due,Quantity
WORKS,PUMQ,2026-12-01,5
WORKS,PUMP,2026-02-30,5
WORKS,PUMP,12/1/2026,5
WROKS,PUMP,46357,5
DEPOT,bolt/8,1.12.26,5
""",
    "cums.csv": "From,To,Item,Cum shipped\nWORKS,DEPOT,PUMP,140\n",
    "reset.csv": "From,To,Item,Date\nWORKS,DEPOT,PUMP,2027-01-01\n",
    "shipments.csv": "From,To,Item,Quantity,Arives\nWORKS,DEPOT,PUMP,5,2026-12-02\n",
    "receipts.csv": "Plant,Item,Part no.,Due,Quantity\nWORKS,MOTOR,MOTOR,2026-12-02,5\n",
}
SLIPS_TOLD = """\
reset.csv: no sheet has this name (resets.csv?)
items.csv row 2, On hand: '1 200' is no whole number; write it as 1200
items.csv row 3, Lot rule: 'fixed:0': '0' is not from 1 to 1000000000000
items.csv row 3, Lead (weeks): '1.5' is no whole number; round it up, or head the column Lead (days)
items.csv row 4, Lot rule: 'lots' is no lot rule; write lot, fixed:50, periods:2 or min:100:20
items.csv row 4, On hand: '12.0' is no whole number; write it as 12
items.csv row 4, Safety stock: '1,000' is no whole number; write 1000 or 1, whichever is meant
items.csv row 4, Supply: 'purchase' is no supply; write make, buy, from:PLANT or from:A:600:B:400
items.csv row 5, Item: WORKS PUMP stands in row 2 already
items.csv row 6, Supply: there is no plant 'WROKS' (WORKS?)
items.csv row 7, On hand: nothing stands here
items.csv row 7, Supply: 'from:WORKS:600:DEPOT:400' names DEPOT itself
items.csv row 8: it has more cells than headings, as 'Bob'; a separator within a cell wants quotes
items.csv row 8, Lead (weeks): '105' is not from 0 to 104; with --large up to 520
items.csv row 10, Item: 'BOLT_8' and 'BOLT/8' are both BOLT_8 in the table; rename one
items.csv row 11, Supply: the shares of 'from:WORKS:600:PLANT:300' don't sum to 1000
bills.csv row 2, Per: '0' is not from 1 to 1000000
bills.csv row 3, Parent: WORKS MOTOR isn't made: its supply is 'buy'
bills.csv row 4, Component: WORKS PUMP MOTOR stands in row 2 already
demands.csv row 2, Item: WORKS has no item 'PUMQ' (PUMP?)
demands.csv row 3, Due: '2026-02-30' is on no calendar
demands.csv row 4, Due: '12/1/2026' may have day or month first; --dates says which
demands.csv row 5, Plant: there is no plant 'WROKS' (WORKS?)
demands.csv row 5, Due: '46357' is no date; write it as 2026-12-01
demands.csv row 6, Item: DEPOT has no item 'bolt/8'
demands.csv row 6, Due: '1.12.26' is no date; write it as 2026-12-01
receipts.csv row 1: Item stands twice, as Item and Part no.
shipments.csv row 1: it has no column Arrives (Arives?)
cums.csv row 1, Cum shipped: with what is on its way? Give the figure without it, headed Cum received
bin/sheets: 29 slips; nothing is written
"""


def test_sheets_tell_all_slips_at_once(room):
    """With sheet, row, column and text, and nothing is written; of many the first hundred."""
    write_sheets(room, "firm", SLIPS)
    assert table_of_sheets(room, "--names", "names.csv", "firm") == (1, b"", SLIPS_TOLD)
    assert not os.path.exists(f"{room.folder}/names.csv")
    write_sheets(
        room, "firm", {**BICYCLE, "demands.csv": "Plant,Item,Due,Quantity\n" + "P1,BIKE,2026-01-27,1.5\n" * 134}
    )
    status, written, said = table_of_sheets(room, "firm")
    lines = said.splitlines()
    assert (status, written, len(lines), lines[-1]) == (
        1,
        b"",
        101,
        "bin/sheets: 134 slips, the first 100 of them above; nothing is written",
    )
    assert lines[99] == "demands.csv row 101, Quantity: '1.5' is no whole number; plan the item in a smaller unit (docs/limits.md, fractions)"
    for sheet, text, told in (
        (
            "items.csv",
            "Plant,Item\nP1,B\xe4r\n".encode("latin-1"),
            "items.csv row 2: its text isn't UTF-8; save the sheet as CSV UTF-8",
        ),
        (
            "bills.csv",
            'Plant,Parent,Component,Per\nP1,BIKE,"WHEEL,2\n',
            "bills.csv row 2: its quotes are wrong (unexpected end of data)",
        ),
        (
            "firm.csv",
            "First day,Days,Periods\n2199-12-05,7,4\n",
            "row 2, First day: a plan from 2199-12-05 on, of 4 times 7 days, isn't within",
        ),
        (
            "firm.csv",
            "First day,Days,Periods\n9999-12-31,31,104\n",
            "firm.csv row 2, First day: a plan from 9999-12-31 on, of 104 times 31 days",
        ),
        (
            "firm.csv",
            "First day,Days,Periods\n2026-01-05,7,4\n2026-01-12,7,4\n",
            "firm.csv: it has 2 rows below the headings in place of 1",
        ),
        ("plants.csv", "Plant\nP2\n", "items.csv row 2, Plant: there is no plant 'P1' (P2?)"),
        (
            "resets.csv",
            "From,To,Item,Date\nP1,P1,BIKE,2025-01-01\n",
            "resets.csv row 2, Date: it is before 2026-01-05; delete the row",
        ),
        (
            "plants.csv",
            "Plant\nP1\n" + "".join(f"P{it}\n" for it in range(2, 66)),
            "mrp takes 64 rows of plant, and these are 65; with --large 1,000\nbin/sheets: 1 slip",
        ),
    ):
        write_sheets(room, "firm", {**BICYCLE, sheet: text})
        status, written, said = table_of_sheets(room, "firm")
        assert (status, written) == (1, b"")
        assert told in said
    # (what rests on a sheet that can't be read isn't told)
    for text, told in (
        (
            f"{BICYCLE['items.csv']}P1,\"BELL\"S,buy,lot,1,0,0\n",
            "row 4: its quotes are wrong (',' expected after '\"')",
        ),
        (BICYCLE["items.csv"].replace("Lot rule", "Lots rule"), "row 1: it has no column Lot rule (Lots rule?)"),
        (
            BICYCLE["items.csv"].replace("Lead (periods)", "Lead time"),
            "row 1, Lead time: in which unit? Head it Lead (periods), Lead (weeks) or Lead (days)",
        ),
        ("", ": it has no headings"),
        ("Plant,Item,Supply,Lot rule,Lead (days),On hand,Safety stock\n", ": it has no items"),
    ):
        write_sheets(
            room, "firm", {**BICYCLE, "items.csv": text, "demands.csv": BICYCLE["demands.csv"].replace("BIKE", "BELL")}
        )
        said = f"items.csv{'' if told[0] == ':' else ' '}{told}\nbin/sheets: 1 slip; nothing is written\n"
        assert table_of_sheets(room, "firm") == (1, b"", said)
    write_sheets(room, "firm", {**BICYCLE, "firm.csv": f"First day,Days,Periods\n2026-01-05,7,{'4' * 1000}\n"})
    assert [len(it) < 300 for it in table_of_sheets(room, "firm")[2].splitlines()] == [True, True]
    for missing in ("firm.csv", "items.csv"):
        write_sheets(room, "firm", {name: text for name, text in BICYCLE.items() if name != missing})
        assert table_of_sheets(room, "firm")[2].splitlines()[0] == f"{missing}: it is missing"


# The sheets of examples/bicycle.csv.
BICYCLE = {
    "firm.csv": "First day,Days,Periods\n2026-01-05,7,4\n",
    "items.csv": "Plant,Item,Supply,Lot rule,Lead (periods),On hand,Safety stock\nP1,BIKE,make,lot,1,0,0\nP1,WHEEL,buy,lot,1,0,0\n",
    "bills.csv": "Plant,Parent,Component,Per\nP1,BIKE,WHEEL,2\n",
    "demands.csv": "Plant,Item,Due,Quantity\nP1,BIKE,2026-01-26,10\n",
    "receipts.csv": "Plant,Item,Due,Quantity\n",
}


def test_sheets_are_read_as_spreadsheets_save_them(room):
    """With semicolons, marks, line ends and dates of another country, blank rows, and quotes around texts."""
    with open(f"{TOP}/examples/bicycle.csv", "rb") as file:
        table = file.read()
    demands = '\ufeff"Remark";"Qty";"Due date";"Site";"Item no."\r\n;;;;\r\n"x; y";10;1.2.2026;P1;BIKE\r\n;"";"";;\r\n'
    for more in (
        {"demands.csv": demands},
        {"demands.csv": demands.replace("\r\n", "\r").encode("utf-16")},
        {"demands.csv": demands.replace(";", "\t").replace("1.2.2026", "2026-02-01T00:00:00")},
        {"firm.csv": "Periods;Start;Days per period\n4;5.1.2026;7\n", "plants.csv": "Plant\nP1\n"},
    ):
        write_sheets(room, "firm", {**BICYCLE, **more})
        assert table_of_sheets(room, "firm") == (0, table, "")
    write_sheets(room, "firm", {**BICYCLE, "demands.csv": demands.replace("1.2.2026", "1/2/2026")})
    assert table_of_sheets(room, "--dates", "d/m/y", "firm") == (0, table, "")
    # (2 January 2026 is before the first day)
    told = "demands.csv: 1 overdue row in period 0\ndemands.csv row 3: 10 of P1 BIKE, 3 days late (Remark x; y)\n"
    early = table.replace(b"BIKE,3,10", b"BIKE,0,10"), told
    assert table_of_sheets(room, "--dates", "m/d/y", "firm") == (0, *early)
    for days, weeks in (("1", 1), ("7", 1), ("8", 2), ("728", 104)):
        write_sheets(
            room,
            "firm",
            {
                **BICYCLE,
                "items.csv": BICYCLE["items.csv"].replace("(periods)", "(days)").replace("lot,1", f"lot,{days}"),
            },
        )
        assert table_of_sheets(room, "firm")[1] == table.replace(b"lot,1", f"lot,{weeks}".encode())


# The headings of some sheets in other languages, in the order of those above and of the sheets behind them.
IN_OTHER_WORDS = (
    "Erster Tag,Tage,Anzahl Perioden",
    "Werk,Artikel-Nr.,Beschaffung,Losgröße,Wiederbeschaffungszeit (Tage),Bestand,Sicherheitsbestand",
    "Werk,Baugruppe,Komponente,Menge je",
    "Standort,Artikelnummer,Fällig,Stück",
    "Werk,Teil,Liefertermin,Menge",
    "Von,Nach,Material,Ankunft,Stückzahl",
    "Lieferwerk,Empfänger,Teilenummer,Eingangsfortschrittszahl",
    "Werk,Material,Eckstarttermin,Eckendtermin,Menge",
    "Premier jour,Jours,Périodes",
    "Usine,Code article,Approvisionnement,Taille de lot,Délai (jours),En stock,Stock de sécurité",
    "Usine,Ensemble,Composant,Quantité",
    "Établissement,Article,Échéance,Qté",
    "Usine,Produit,Date de livraison,Quantité",
    "De,Vers,Article,Arrivée,Quantité",
    "Fournisseur,Client,Article,Reçu",
    "Usine,Article,Date de début,Date de fin,Quantité",
    "Primer día,Días,Periodos",
    "Planta,Artículo,Aprovisionamiento,Tamaño de lote,Plazo de entrega en días,Existencias,Stock de seguridad",
    "Centro,Conjunto,Componente,Cantidad",
    "Fábrica,Código de artículo,Fecha de necesidad,Cantidad",
    "Planta,Producto,Llegada,Cantidad",
    "Desde,Destino,Artículo,Fecha de llegada,Cantidad",
    "Origen,Destinatario,Producto,Recibido",
    "Planta,Artículo,Fecha de inicio,Fecha de fin,Cantidad",
)


def test_sheets_are_headed_in_other_languages(room):
    """With letters, with their marks beside them, and as they are written without; what could mean two things is asked.

    No heading means two columns.
    """
    sheets = {
        **BICYCLE,
        "items.csv": "Plant,Item,Supply,Lot rule,Lead (days),On hand,Safety stock\nP1,BIKE,make,lot,7,0,0\nP1,WHEEL,buy,lot,7,0,0\nP2,BIKE,from:P1,lot,0,3,0\n",
        "receipts.csv": "Plant,Item,Due,Quantity\nP1,WHEEL,2026-01-12,5\n",
        "shipments.csv": "From,To,Item,Arrives,Quantity\nP1,P2,BIKE,2026-01-13,2\n",
        "cums.csv": "From,To,Item,Cum received\nP1,P2,BIKE,40\n",
        "firm_orders.csv": "Plant,Item,Start,Due,Quantity\nP1,BIKE,2026-01-05,2026-01-13,3\n",
    }
    write_sheets(room, "firm", sheets)
    table = table_of_sheets(room, "firm")
    assert (table[0], table[1].count(b"\n")) == (0, 12)
    for first in range(0, len(IN_OTHER_WORDS), len(sheets)):
        heads = dict(zip(("firm.csv", "items.csv", *[*sheets][2:]), IN_OTHER_WORDS[first:]))
        for form in (str, lambda it: unicodedata.normalize("NFD", it), module_of("headed.py", "bin").plain, str.upper):
            write_sheets(
                room,
                "firm",
                {name: form(heads[name]) + "\n" + text.partition("\n")[2] for name, text in sheets.items()},
            )
            assert table_of_sheets(room, "firm") == table, heads["items.csv"]
    write_sheets(room, "firm", {**sheets, "items.csv": sheets["items.csv"].replace("Lead (days)", "Délai")})
    assert "items.csv row 1, Délai: in which unit?" in table_of_sheets(room, "firm")[2]
    sap = "Werk;Material;Materialkurztext;Beschaffung;Losgroesse;Planlieferzeit in Tagen;Lagerbestand;Sicherheitsbestand;Disponent"
    rows = (
        ";".join((*cells[:2], f"das {cells[1]}", *cells[2:], "Ann"))
        for cells in csv.reader(sheets["items.csv"].splitlines()[1:])
    )
    write_sheets(room, "firm", {**sheets, "items.csv": "\n".join([sap, *rows, ""])})
    assert table_of_sheets(room, "--names", "names.csv", "firm") == table
    assert "\npair,P1,WHEEL,,,,WHEEL,das WHEEL,Disponent Ann\n" in room.run("cat names.csv")
    for figure in ("Fortschrittszahl empfangen", "Empfangene Fortschrittszahl"):
        write_sheets(room, "firm", {**sheets, "cums.csv": sheets["cums.csv"].replace("Cum received", figure)})
        assert table_of_sheets(room, "firm") == table
    # (a column that is like one, and none that is another)
    for heads, told in (
        ("Werk,Artikel,Wunschtermin,Menge,Kunde", " (Wunschtermin?)"),
        ("Werk,Artikel,Tag,Menge,Kunde", ""),
    ):
        write_sheets(room, "firm", {**sheets, "demands.csv": f"{heads}\nP1,BIKE,2026-01-26,10,Due\n"})
        assert (
            table_of_sheets(room, "firm")[2]
            == f"demands.csv row 1: it has no column Due{told}\nbin/sheets: 1 slip; nothing is written\n"
        )
    headed = module_of("headed.py", "bin")
    for name, columns in headed.SHEETS.items():
        every = [it for column in columns.items() for it in headed.keys(*column)]
        assert len(every) == len({*every}), name


def test_sheets_write_letters_without_marks(room):
    """In the names of the table, where two that meet are refused; bin/record finds them as they were."""
    items = BICYCLE["items.csv"].partition("\n")[0]
    names = {
        "Köln": "Koeln",
        "Straße": "Strasse",
        "Łódź": "Lodz",
        "Æble": "Aeble",
        "São/1": "Sao_1",
        "Ørn": "Orn",
        "ÜBER": "UEBER",
        "Đà": "Da",
    }
    names |= {"Œuf": "Oeuf", "東": "_"}
    rows = "".join(f"Üb,{it},buy,lot,1,7,0\n" for it in names)
    demands = "Plant,Item,Due,Quantity\n" + "".join(
        f"Üb,{unicodedata.normalize('NFD', it)},2026-01-26,1\n" for it in names
    )
    kept = {it: BICYCLE[it] for it in ("firm.csv", "receipts.csv")}
    write_sheets(room, "firm", {**kept, "items.csv": f"{items}\n{rows}", "demands.csv": demands})
    status, written, said = table_of_sheets(room, "--names", "names.csv", "firm")
    assert (status, said) == (0, "items.csv: 11 names written otherwise, as Ueb for Üb\n")
    assert re.findall("^demand,Ueb,(.*),3,1,,,$", written.decode(), re.MULTILINE) == [*names.values()]
    room.write("plan.csv", "".join(f"plan,Ueb,{it},0,2026-01-05,0,0,0,0,7\n" for it in names.values()))
    for it in names:
        assert (
            room.run(f"bin/record --names names.csv Üb {it} < plan.csv").splitlines()[0]
            == f"Üb {it}: 7 on hand before 2026-01-05"
        )
    write_sheets(room, "firm", {**BICYCLE, "items.csv": f"{items}\n{rows}Üb,Koeln,buy,lot,1,0,0\n"})
    assert (
        "items.csv row 12, Item: 'Koeln' and 'Köln' are both Koeln in the table; rename one\n"
        in table_of_sheets(room, "firm")[2]
    )


def test_sheets_say_what_became_of_rows(room):
    """Overdue, beyond the end, names that mrp refuses, files that aren't read, and warnings."""
    items = (
        BICYCLE["items.csv"].replace("WHEEL,buy,lot,1", "WHEEL/26,buy,lot,0")
        + "P1,FORK,make,lot,1,0,0\nP1,BELL,make,lot,1,0,0\nP1,SPRING,buy,lot,1,0,0\n"
    )
    bills = "Plant,Parent,Component,Per\nP1,BIKE,WHEEL/26,2\nP1,BELL,SPRING,1\n"
    days = ("2026-01-04", "2025-12-01", "2026-02-01", "2026-02-02", "2027-01-01")
    demands = "Plant,Item,Due,Quantity\n" + "".join(f"P1,BIKE,{day},{place}\n" for place, day in enumerate(days, 1))
    write_sheets(
        room,
        "firm",
        {
            **BICYCLE,
            "items.csv": items,
            "bills.csv": bills,
            "demands.csv": demands,
            "stock list.csv": "",
            "notes.txt": "",
        },
    )
    status, written, said = table_of_sheets(room, "firm")
    told = """\
not read, for no sheet has this name: stock list.csv
items.csv: 1 name written otherwise, as WHEEL_26 for WHEEL/26
demands.csv: 2 overdue rows in period 0, 2 rows beyond 2026-02-01 left out (rows 5, 6)
demands.csv row 3: 2 of P1 BIKE, 35 days late
demands.csv row 2: 1 of P1 BIKE, 1 day late
items.csv row 4: P1 FORK is made and has no bill
items.csv row 4: P1 FORK has no demand, and nothing takes it
items.csv row 5: P1 BELL has no demand, and nothing takes it
items.csv row 6: P1 SPRING is taken by items alone that nobody asks for
items.csv row 3: P1 WHEEL/26 has a lead time of 0
"""
    assert (status, said) == (0, told)
    assert [it for it in written.decode().splitlines() if it.startswith("demand")] == [
        f"demand,P1,BIKE,{it},,," for it in ("0,1", "0,2", "3,3")
    ]
    write_sheets(room, "firm", {**BICYCLE, "demands.csv": demands + "P1,BIKE,2027-01-01,9\n" * 4})
    assert ", 6 rows beyond 2026-02-01 left out (rows 5, 6, 7, 8, 9, ..)\n" in table_of_sheets(room, "firm")[2]
    rows = "".join(f"P1,X{it},buy,lot,0,0,0\n" for it in range(25))
    write_sheets(room, "firm", {**BICYCLE, "items.csv": BICYCLE["items.csv"] + rows})
    lines = table_of_sheets(room, "firm")[2].splitlines()
    assert (len(lines), lines[20], lines[41]) == (
        42,
        "items.csv: has no demand, and nothing takes it: 5 more",
        "items.csv: has a lead time of 0: 5 more",
    )


def test_sheets_count_shipments_beyond_the_end(room):
    """In the figure of their lane, which is new where cums.csv has none."""
    rows = "".join(
        f"{plant},{item},{'buy' if plant == 'B' else 'from:B'},lot,1,0,0\n" for plant in "AB" for item in "XY"
    )
    ships = "".join(f"B,A,{it}\n" for it in ("X,2026-01-12,8", "X,2026-02-02,20", "X,2027-03-02,1", "Y,2026-02-02,5"))
    more = {
        "shipments.csv": f"From,To,Item,Arrives,Quantity\n{ships}",
        "cums.csv": "From,To,Item,Cum received\nB,A,X,100\n",
    }
    items = BICYCLE["items.csv"].split("\n")[0] + "\n" + rows
    write_sheets(room, "firm", {"firm.csv": BICYCLE["firm.csv"], "items.csv": items, **more})
    status, written, said = table_of_sheets(room, "firm")
    assert (status, written.decode().partition("ship,")[2]) == (0, "B,A,X,1,8,,\ncum,B,A,X,121,,,\ncum,B,A,Y,5,,,\n")
    assert "shipments.csv: 3 rows beyond 2026-02-01 left out (rows 3, 4, 5), but for cumulative figures\n" in said


def test_sheets_take_firm_orders(room):
    """From start to due, in the order of the sheet, behind all other rows. What starts or is due before the first day does so
    in period 0, and is told with how late it is; what is due beyond the end is left out.
    """
    days = ("2026-01-12,2026-01-27,5", "2026-01-05,2026-01-11,1", "2025-12-31,2026-01-12,2", "2025-12-20,2026-01-03,3")
    days += ("2026-02-02,2026-02-02,4", "2026-01-12,2026-01-27,5", "2026-01-12,2026-01-27,0")
    rows = "".join(f"FA-{place},P1,BIKE,{it}\n" for place, it in enumerate(days))
    write_sheets(room, "firm", {**BICYCLE, "firm_orders.csv": f"Order,Plant,Item,Start,Due,Quantity\n{rows}"})
    status, written, said = table_of_sheets(room, "--names", "names.csv", "firm")
    with open(f"{TOP}/examples/bicycle.csv", encoding="utf-8") as file:
        wanted = file.read() + "".join(f"firm,P1,BIKE,{it},,\n" for it in ("1,3,5", "0,0,1", "0,1,2", "0,0,3", "1,3,5"))
    assert (status, written.decode()) == (0, wanted)
    told = """\
firm_orders.csv: 1 row of 0 left out (row 8)
firm_orders.csv: 2 overdue rows in period 0, 1 row beyond 2026-02-01 left out (row 6)
firm_orders.csv row 4: 2 of P1 BIKE, its start 5 days late (Order FA-2)
firm_orders.csv row 5: 3 of P1 BIKE, 2 days late (Order FA-3)
"""
    assert said == told
    names = room.run("grep ^firm names.csv").splitlines()
    assert names[2] == 'firm,P1,BIKE,1,2026-01-12,2,,,"Start 2025-12-31, Order FA-2"'
    assert [it.rpartition(" ")[2] for it in names] == [f'FA-{it}"' for it in (0, 1, 2, 3, 5)]


def test_files_of_tools_are_kept_where_they_fail(room):
    """By --out a file is written beside, and takes its place at the end."""
    room.run(
        "echo last week | tee table.csv > page.html; cp -r examples/sheets slips; sed -i 's/MOTOR,1/MOTR,1/' slips/bills.csv"
    )
    assert "bin/sheets: 1 slip; nothing is written\n" in room.run("bin/sheets --out table.csv slips", status=1)
    assert "bin/page: " in room.run("bin/page --out page.html < /dev/null", status=1)
    assert (
        room.run("cat table.csv page.html; ls table.csv* page.html*") == "last week\nlast week\npage.html\ntable.csv\n"
    )
    room.run("bin/sheets --out table.csv examples/sheets 2> said; bin/sheets examples/sheets 2> said | cmp - table.csv")
    room.run("bin/page --out page.html < examples/pumps.plan.csv; bin/page < examples/pumps.plan.csv | cmp - page.html")
    assert room.run("ls table.csv* page.html*") == "page.html\ntable.csv\n"
    assert "none/table.csv" in room.run("bin/sheets --out none/table.csv examples/sheets", status=1)
    room.run("bin/sheets --names names.csv --out none/table.csv examples/sheets", status=1)
    room.run("test ! -e names.csv && test ! -e names.csv.new")


def test_sheets_sort_shipments_of_what_is_reset(room):
    """Which mrp wants in the order of their arrival, and leaves the others as they are."""
    rows = [("A", "X"), ("A", "Y"), ("B", "X"), ("B", "Y")]
    items = "".join(f"{plant},{item},{'buy' if plant == 'B' else 'from:B'},lot,1,0,0\n" for plant, item in rows)
    ships = "".join(f"B,A,{item},2026-01-{day},{day}\n" for day, item in ((28, "Y"), (27, "X"), (13, "X"), (14, "Y")))
    more = {
        "shipments.csv": f"From,To,Item,Arrives,Quantity\n{ships}",
        "resets.csv": "From,To,Item,Date\nB,A,X,2026-01-19\n",
    }
    write_sheets(
        room,
        "firm",
        {"firm.csv": BICYCLE["firm.csv"], "items.csv": BICYCLE["items.csv"].split("\n")[0] + "\n" + items, **more},
    )
    _, written, said = table_of_sheets(room, "firm")
    assert "resets.csv" not in said
    # (a reset on another day counts from the first one of its period, and is told)
    with open(f"{room.folder}/firm/resets.csv", "a", encoding="utf-8") as file:
        file.write("B,A,Y,2026-01-21\n")
    _, two, said = table_of_sheets(room, "firm")
    assert "reset,B,A,X,2,,,\nreset,B,A,Y,2,,,\n" in two.decode()
    assert "resets.csv row 3: 2026-01-21 isn't the first day of a period; figures start again on 2026-01-19\n" in said
    assert re.findall("ship,B,A,(.*),,", written.decode()) == ["Y,3,28", "X,1,13", "X,3,27", "Y,1,14"]
    room.needs_program()
    assert answered(room, "check", written, {})[0] == 0


def test_sheets_of_the_example(room):
    """The file of names has descriptions, order numbers and customers."""
    status, _, said = table_of_sheets(room, "--names", "names.csv", f"{TOP}/examples/sheets")
    told = """\
items.csv: 2 names written otherwise, as 100_250-A for 100/250-A
demands.csv: 1 overdue row in period 0, 1 row beyond 2027-01-10 left out (row 5)
demands.csv row 2: 5 of WORKS 100/250-A, 3 days late (Order 4711, Customer Weber)
resets.csv row 2: 2027-01-01 isn't the first day of a period; figures start again on 2026-12-28
"""
    assert (status, said) == (0, told)
    with open(f"{room.folder}/names.csv", encoding="utf-8") as file:
        said = file.read()
        assert 'pair,DEPOT,100_250-A,,,,100/250-A,"Pump, 2.5 kW",\n' in said
        assert 'demand,WORKS,100_250-A,2,2026-12-16,8,,,"Order 4720, Customer Grundmann"\n' in said
        assert 'firm,WORKS,100_250-A,2,2026-12-16,10,,,"Start 2026-12-07, Order FA-20"\n' in said


def test_tools_show_the_names_of_sheets(room):
    """And take them, as those of the table; what is no file of names is refused."""
    rows = [
        "plant,NORTH,,,,,Hamburg Nord,,",
        'pair,NORTH,WHEEL,,,,"28""/36",Wheel <28>,Buyer Ann',
        "pair,EAST,WHEEL,,,,Wheel,,",
    ]
    rows += ["demand,NORTH,FRAME,2,2.1.26,3,,,", "ship,NORTH,FRAME,1,2026-01-14,5,,,from SOUTH"]
    room.write("names.csv", "\n".join([",".join(reports.Names.COLUMNS), *rows, ""]))
    plan, names = "examples/three_plants.plan.csv", "--names names.csv"
    shown = 'Hamburg Nord 28"/36 (Wheel <28>): 40 on hand before 2026-01-05'
    for words in ("NORTH WHEEL", "'Hamburg Nord' '28\"/36'"):
        assert room.run(f"bin/record {names} {words} < {plan}").splitlines()[0] == shown
    assert room.run(f"bin/record {names} SOUTH TUBE < {plan}") == room.run(f"bin/record SOUTH TUBE < {plan}")
    assert "\n\nDemands\n  period 2: 3 of 2.1.26\n\nOpen orders\n  period 1: 5 of 2026-01-14: from SOUTH\n" in room.run(
        f"bin/record {names} NORTH FRAME < {plan}"
    )
    text = room.run(f"bin/page {names} --cums examples/three_plants.cums.csv < {plan}")
    assert Tags(text).articles[3] == ("Hamburg Nord", '28"/36 (Wheel <28>)')
    assert "<option>Hamburg Nord</option>" in text
    assert '<td class="name">Hamburg Nord</td><td class="name"><a href="#r2">FRAME</a></td>' in text
    assert Tags(room.run(f"bin/page {names} --plant 'Hamburg Nord' --item '28\"/36' < {plan}")).articles == [
        ("Hamburg Nord", '28"/36 (Wheel <28>)')
    ]
    room.run(f"sed 's/,NORTH,WHEEL,2,2026-01-19,28,0,50,/,NORTH,WHEEL,2,2026-01-19,28,0,60,/' {plan} > new.csv")
    assert room.run(f"bin/compare {names} {plan} new.csv").splitlines()[:2] == [
        'Hamburg Nord 28"/36 (Wheel <28>)',
        "  2026-01-19  grew    from 50 to 60",
    ]
    for tool, words in (
        ("record", "NORTH WHEEL"),
        ("page", ""),
        ("why", "NORTH WHEEL 0"),
        ("hit", ""),
        ("compare", f"{plan} {plan}"),
    ):
        for bad in (plan, "none"):
            said = room.run(f"bin/{tool} --names {bad} {words} < {plan}", status=1)
            assert (said.count("\n"), said.startswith(f"bin/{tool}: ")) == (1, True), (tool, bad)
    room.needs_program()
    room.run("bin/sheets --names names.csv examples/sheets > table.csv 2> said")
    wanted = """\
WORKS 100/250-A (Pump, 2.5 kW): 14 released in period 1
  10, due in period 2 (2026-12-14), firm
    10 of 2026-12-16: Start 2026-12-07, Order FA-20
    17 required in period 2
      15 demand
        8 of 2026-12-16: Order 4720, Customer Grundmann
        7 of 2026-12-18: Order 4722, Customer Weber
      2 for DEPOT 100/250-A (Pump, 2.5 kW): 2 released in period 2, due in period 3 (2026-12-21)
        6 required in period 3
          6 demand
            6 of 2026-12-22: Order 4725, Customer Spares
  4, due in period 2 (2026-12-14)
    17 required in period 2 (above)
"""
    assert room.run("bin/why --names names.csv WORKS 100/250-A 1 < table.csv") == wanted


def test_all_headings_are_listed(room):
    """Each stands for its column alone: in a sheet with it, and the other columns by their own names, the column is found."""
    lines = room.run("bin/sheets --headings").splitlines()
    assert "items.csv, Plant: site, location, facility, works, warehouse, werk, standort, fabrik, usine, etablissement, planta, centro, fabrica" in lines
    assert len(lines) == len({*lines}) == sum(map(len, headed.SHEETS.values())) + sum(len(headed.ADVICE_SHEETS[it]) for it in ("advices.csv", "booked.csv"))
    for line in lines:
        names, _, others = line.partition(": ")
        name, column = names.split(", ")
        columns = headed.SHEETS.get(name) or headed.ADVICE_SHEETS[name]
        unit = {"Scrap %": " %"}.get(column, " (periods)") if line.endswith("unit") else ""
        for it in others.removesuffix(", each with its unit").split(", "):
            heads = [it + unit if own == column else f"{own}{' (weeks)' * (own == 'Lead')}" for own in columns if own == column or own not in headed.OPTIONAL]
            sheet = headed.Sheet(room.folder, name, headed.Slips(), columns)
            sheet.open(",".join(heads).encode())
            assert sheet.slips.lines() == []
            assert sheet.heading(column) == it + unit, (line, it)
