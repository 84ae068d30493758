"""The cases of cases/, and tables that are made for a case: what the program answers to each, byte for byte."""
import datetime
import glob
import itertools
import os
import re
import subprocess

from crates import TOP  # (which lets the modules of bin/ be found)

import mrp

COMMANDS = ("check", "plan", "plan --single", "peg A X 0", "cums", "orders", "schedule --from none", "pegs", "advice", "shortages")
COMMANDS += ("check --reach", "advice --reach")
# With these a row's fault comes before the lack of an end.
WHOLE = ("plan --whole", "check --whole --reach")
# The words that ask for the reports that are stored beside the tables of examples/, by the ends of their names.
STORED = {"plan": "plan", "cums": "cums", **{it: f"{it} --header" for it in ("orders", "schedule", "pegs", "advice", "shortages")}}
# With how many workers a plant and records a mailbox a plan is made: the answer is the same.
SETTINGS = ("", " --single", " --single --capacity 1", " --workers 1 --capacity 1", " --workers 1 --capacity 65536")
SETTINGS += (" --workers 2 --capacity 1", " --workers 2 --capacity 65536", " --workers 64 --capacity 1", " --workers 64 --capacity 65536")
# What the usual limits alone refuse, and --large need not.
LIMITED = re.compile("2 |.*(TooMany|BadNumber|BadRule)$", re.MULTILINE)
# Rows before those that a case is about: A makes X and takes Y from B.
HEAD = "run,2026-01-05,7,4,,,,\nplant,A,,,,,,\nplant,B,,,,,,\npair,A,X,make,lot,1,0,0\npair,A,Y,from:B,lot,1,0,0\npair,B,Y,buy,lot,0,0,0\n"


class Different(AssertionError):
    """The program answers something else than the case says."""


def examples():
    """Returns the paths of the tables of examples/; the name of a report has a second point."""
    return sorted(it for it in glob.glob(f"{TOP}/examples/*.csv") if os.path.basename(it).count(".") == 1)


def answer(program, words, table):
    """Returns what the program writes, or the status and the line of its fault, behind a ! where something was written before it."""
    table = table if isinstance(table, bytes) else table.encode()
    done = subprocess.run([program, *words.split()], input=table, capture_output=True, timeout=300, check=False)
    written, said = (it.decode(errors="replace") for it in (done.stdout, done.stderr))
    if done.returncode == 0:
        return written + said
    return f"{'!' * bool(written)}{done.returncode} {said}"


def expect(program, words, table, wanted):
    """Has a command answer so; a plan with each setting, and each command with --large, where limits aren't what is refused."""
    large = () if "--large" in words or LIMITED.match(wanted) else (" --large",)
    for more in (*(SETTINGS if words == "plan" else ("",)), *large):
        got = answer(program, words + more, table)
        is_so = got[:2] not in ("1 ", "2 ", "3 ", "!1", "!3") if wanted == "accepted\n" else got == wanted
        if not is_so:
            raise Different(f"mrp {words}{more} of\n{str(table)[:2000]}\nanswers\n{got[:2000]}\nin place of\n{wanted[:2000]}")


def refused(program, table, line, commands=COMMANDS):
    """Has each command refuse a table with that line."""
    for words in commands:
        expect(program, words, table, f"1 mrp: {line}\n")


def blocks(text):
    """Returns title, table, and what follows it, of each case of a file, without the remarks."""
    for block in re.split(r"^== ", text, flags=re.MULTILINE)[1:]:
        title, _, rest = block.rstrip("\n").partition("\n")
        rows = [it for it in rest.split("\n") if not it.startswith("#")] if rest else []
        at = next((at for at, it in enumerate(rows) if it.startswith(("$ ", "! "))), len(rows))
        yield title, "".join(f"{it}\n" for it in rows[:at]), rows[at:]


def run_case(program, table, asks):
    """Runs what a case asks: `$ mrp WORDS` and the lines of the answer below it, `! FAULT  ROW` for a row that is refused behind the table."""
    if not asks:
        raise Different("the case asks nothing")
    at = 0
    while at < len(asks):
        mark, ask = asks[at][:2], asks[at][2:]
        at += 1
        if mark == "! ":
            fault, _, row = ask.partition("  ")
            refused(program, f"{table}{row}\n", f"row {table.count(chr(10)) + 1}: {fault}", (*COMMANDS, *WHOLE))
            continue
        end = next((it for it in range(at, len(asks)) if asks[it].startswith(("$ ", "! "))), len(asks))
        expect(program, ask.removeprefix("mrp "), table, "".join(f"{it}\n" for it in asks[at:end]))
        at = end


def numbered(count, before, behind):
    """Returns a row for each number below count."""
    return "".join(f"{before}{it}{behind}\n" for it in range(count))


def each_name_is_tested(program):
    """A text that is no name, in each field that holds one; and names of 20 characters in each."""
    around = ("pair,{},Z,buy,lot,0,0,0", "pair,A,{},buy,lot,0,0,0", "bill,{},X,Y,1,,,", "bill,A,{},Y,1,,,", "bill,A,X,{},1,,,")
    around += ("demand,{},X,0,1,,,", "demand,A,{},0,1,,,", "receipt,{},X,0,1,,,", "receipt,A,{},0,1,,,")
    around += ("ship,{},A,Y,0,1,,", "ship,B,{},Y,0,1,,", "ship,B,A,{},0,1,,", "cum,{},A,Y,1,,,", "cum,B,{},Y,1,,,", "cum,B,A,{},1,,,")
    around += ("reset,{},A,Y,1,,,", "reset,B,{},Y,1,,,", "reset,B,A,{},1,,,", "firm,{},X,0,0,1,,", "firm,A,{},0,0,1,,")
    around += ("policy,{},X,0,0,0,0,0", "policy,A,{},0,0,0,0,0", "usage,{},X,Y,0,1,1,", "usage,A,{},Y,0,1,1,", "usage,A,X,{},0,1,1,")
    around += ("vendor,{},B,Y,0,0,,", "vendor,V,{},Y,0,0,,", "vendor,V,B,{},0,0,,")
    for name in ("", "A/B", "A:B", "A B", "X!", "?", "@A", "A[", "A`B", "{A", '"A,B"', "Ü", "NAME-OF-21-CHARACTERS"):
        refused(program, f"run,2026-01-05,7,4,,,,\nplant,{name},,,,,,\n", "row 2: BadName", ("check",))
        for row in around:
            refused(program, f"{HEAD}{row.replace('{}', name)}\n", "row 7: BadName", ("check",))
    plants, items = ("Plant-of-20.letters1", "Plant-of-20.letters2"), ("ITEM_OF_MORE_LETTERS", "ITEM_OF_20_LETTERS.Z")
    table = HEAD + "bill,A,X,Y,1,,,\ndemand,A,X,0,1,,,\nreceipt,A,X,0,1,,,\nship,B,A,Y,0,1,,\ncum,B,A,Y,1,,,\nreset,B,A,Y,1,,,\nfirm,A,X,0,1,1,,\n"
    table += "policy,A,X,1,0,0,0,0\nusage,A,X,Y,1,1,4,\nvendor,V,B,Y,0,0,,\n"
    for short, long in zip("ABXYV", (*plants, *reversed(items), "VENDOR-OF-20.LETTERS")):
        table = re.sub(rf"(?<=[,:]){short}(?=,)", long, table)
    expect(program, "check", table, "accepted\n")


def rules_have_the_least_and_the_greatest_numbers(program):
    """What is ordered shows which rule was read."""
    most = 10**12
    for rule, order in (("lot", 5), ("fixed:1", 5), (f"fixed:{most}", most), ("periods:1", 5), ("periods:104", 8), ("min:1:1", 5)) + (
        (f"min:1:{most}", most),
        (f"min:{most}:1", most),
    ):
        table = f"run,2026-01-05,7,2,,,,\nplant,A,,,,,,\npair,A,X,buy,{rule},0,0,0\ndemand,A,X,0,5,,,\ndemand,A,X,1,3,,,\n"
        first = answer(program, "plan", table).partition("\n")[0]
        if first != f"plan,A,X,0,2026-01-05,5,0,{order},{order},{order - 5}":
            raise Different(f"{rule} plans\n{first}")


def rows_that_are_no_text(program):
    """In the first row and in a later one."""
    refused(program, b"run,2026-01-05,7,4,,,,\nplant,\xff,,,,,,\n", "row 2: NotUtf8")
    refused(program, b"\xff,2026-01-05,7,4,,,,\n", "row 1: NotUtf8")
    refused(program, HEAD.encode() + b"firm,A,X,0,\xff,0,,\n", "row 7: NotUtf8")
    refused(program, HEAD.encode() + b"policy,A,X,0,0,0,0,\xff\n", "row 7: NotUtf8")
    refused(program, HEAD.encode() + b"usage,A,X,Y,0,1,\xff,\n", "row 7: NotUtf8")
    refused(program, HEAD.encode() + b"vendor,V\xff,B,Y,0,0,,\n", "row 7: NotUtf8")
    refused(program, HEAD.encode() + b"day,1,2026-01-12\xff,,,,,\n", "row 7: NotUtf8")


def tables_of_other_programs(program):
    """Lines as other systems end them, quoted fields, and a last line without an end."""
    rows = "run,2026-01-05,7,1,,,,\nplant,A,,,,,,\npair,A,X,buy,lot,0,0,0\ndemand,A,X,0,3,,,\n"
    quoted = 'run,2026-01-05,7,1,,,,\r\nplant,"A",,,,,"",\r\npair,A,"X",buy,lot,0,0,0\r\ndemand,A,X,0,"3",,,\r\n'
    for table in (rows, rows.replace("\n", "\r\n"), quoted, rows.rstrip("\n")):
        expect(program, "plan", table, "plan,A,X,0,2026-01-05,3,0,3,3,0\n")
    refused(program, "run;2026-01-05;7;1;;;;\nplant;A;;;;;;\n", "row 1: FieldCount")
    zeros = "run,2026-01-05,7,1,,,,\nplant,A,,,,,,\npair,A,007,buy,lot,0,0,0\ndemand,A,7,0,3,,,\n"
    refused(program, zeros, "row 4: UnknownPair")


def tables_cut_anywhere(program):
    """A firm of two plants, cut behind each of its characters. One that is wanted whole is refused, but where the last line has no end."""
    rows = "demand,A,X,2,30,,,\nship,B,A,X,2,8,,\ncum,B,A,X,100,,,\nreset,B,A,X,2,,,\nfirm,A,X,0,1,12,,\npolicy,A,X,1,2,0,30,5\nusage,A,Z,X,2,103,100,\n"
    rows += "vendor,V,B,X,100,50,2,\nday,1,2026-01-19,,,,,\nend,16,,,,,,\n"
    firm = "run,2026-01-05,7,4,,,,\nplant,A,,,,,,\nplant,B,,,,,,\npair,A,X,from:B,lot,1,0,0\npair,B,X,buy,lot,0,0,0\n"
    firm += f"pair,A,Z,make,lot,0,0,0\nbill,A,Z,X,1,,,\n{rows}"
    expect(program, "plan --whole", firm[:-1], answer(program, "plan --whole", firm))
    refused(program, "", "row 0: Empty", ("check --whole",))
    for count in range(1, len(firm) - 1):
        row = firm.count("\n", 0, count) + 1
        if "\n" in firm[count - 1 : count + 1]:
            rows = row - (firm[count] != "\n")
            # (the fourth row takes from a pair that the fifth one is)
            fault = "row 4: UnknownPair" if rows == 4 else f"row {rows + 1}: Cut"
            refused(program, firm[:count], fault, ("plan --whole", "check --reach --whole"))
            continue
        # (where the last digit of a row of eight fields is cut off its last field is empty)
        fault = "BadNumber" if row in (4, 5, 6, 13) and firm[count + 1] == "\n" else "FieldCount"
        refused(program, firm[:count], f"row {row}: {fault}", ("plan --single", "check --whole"))


def plans_are_sent_by_sixteen_pairs(program):
    """Around the numbers of pairs that a piece of the report has."""
    for pairs in (0, 1, 15, 16, 17, 32, 33):
        table, report = "run,2026-01-05,7,2,,,,\nplant,A,,,,,,\n", ""
        for it in range(pairs):
            table += f"pair,A,I{it},buy,lot,0,{it},0\n"
            report += f"plan,A,I{it},0,2026-01-05,0,0,0,0,{it}\nplan,A,I{it},1,2026-01-12,0,0,0,0,{it}\n"
        expect(program, "plan", table, report)


ONE_PLANT = "run,2026-01-05,7,1,,,,\nplant,A,,,,,,\n"
TWO_PLANTS = "run,2026-01-05,7,1,,,,\nplant,A,,,,,,\nplant,B,,,,,,\npair,A,X,from:B,lot,0,0,0\npair,B,X,buy,lot,0,0,0\n"


def kinds_have_their_limits(program):
    """So many rows of a kind are read, and one more is refused; a million open orders make as many messages, and a million
    firm orders as many rows of orders.
    """
    plants = "run,2026-01-05,7,4,,,,\n" + numbered(64, "plant,P", ",,,,,,")
    pairs = ONE_PLANT + numbered(20_000, "pair,A,X", ",make,lot,0,0,0")
    some = ONE_PLANT + numbered(1000, "pair,A,X", ",make,lot,0,0,0")
    bills = some + "".join(f"bill,A,X{parent},X{part},1,,,\n" for parent in range(1000) for part in range(200) if parent != part)
    bills += "".join(f"bill,A,X{it},X{200 + it},1,,,\n" for it in range(200))
    for most, more in ((plants, "plant,Q,,,,,,\n"), (pairs, "pair,A,Y,make,lot,0,0,0\n"), (bills, "bill,A,X0,X999,1,,,\n")):
        row = most.count("\n") + 1
        if answer(program, "check", most).startswith("1 mrp: row"):
            raise Different(f"{row - 1} rows are refused: {answer(program, 'check', most)}")
        refused(program, most + more, f"row {row}: TooMany", ("check",))
    # (the bills make loops, which are found once all rows are read)
    usages = bills.replace("7,1", "7,2") + re.sub(r"bill(,A,X\d+,X\d+),1,,,", r"usage\1,0,103,100,", bills[bills.index("bill") :])
    if not answer(program, "check", usages).startswith("1 mrp: loop"):
        raise Different(f"200,000 usages are refused: {answer(program, 'check', usages)}")
    refused(program, f"{usages}usage,A,X0,X1,1,1,1,\n", f"row {usages.count(chr(10)) + 1}: TooMany", ("check",))
    amounts = {"demand,A,X,0,1,,,\n": "", "receipt,A,X,0,1,,,\n": "advice,cancel,receipt,A,X,,0,2026-01-05,1,,\n"}
    amounts["ship,B,A,X,0,1,,\n"] = "advice,cancel,ship,A,X,B,0,2026-01-05,1,,\n"
    amounts["firm,A,X,0,0,1,,\n"] = "advice,cancel,firm,A,X,,0,2026-01-05,1,,\n"
    for row, message in amounts.items():
        expect(program, "check", TWO_PLANTS + row * 1_000_000, "code,A,X,0\ncode,B,X,1\n")
        expect(program, "advice", TWO_PLANTS + row * 1_000_000, message * 1_000_000)
        refused(program, TWO_PLANTS + row * 1_000_001, "row 1000006: TooMany", ("check",))
    expect(program, "check", TWO_PLANTS + "".join(it * 1_000_000 for it in amounts), "code,A,X,0\ncode,B,X,1\n")
    firm, order = "firm,A,X,from:B,1,0,2026-01-05,0,2026-01-05,0\n", "order,B,X,buy,1000000,0,2026-01-05,0,2026-01-05,0\n"
    expect(program, "orders", TWO_PLANTS + "firm,A,X,0,0,1,,\n" * 1_000_000, firm * 1_000_000 + order)


def firm_orders_have_the_bound_of_quantities(program):
    """10^15 pieces, of orders of 10^12 alone: they count as what a pair has, and as what it may need. And those of a parent count
    in the need of its component.
    """
    order, pairs = "firm,A,X,0,0,1000000000000,,\n", ONE_PLANT + "pair,A,X,make,lot,0,0,0\npair,A,Y,buy,lot,0,0,0\n"
    expect(program, "check", pairs + 500 * order, "code,A,X,0\ncode,A,Y,0\n")
    refused(program, pairs + 500 * order + "firm,A,X,0,0,1,,\n", "NeedTooLarge A/X", ("check", "plan", "plan --single", "orders"))
    refused(program, pairs + 1000 * order, "NeedTooLarge A/X", ("check", "advice"))
    refused(program, pairs + 1000 * order + "firm,A,X,0,0,1,,\n", "SupplyTooLarge A/X", ("check", "plan", "plan --single", "orders"))
    bill = pairs + "bill,A,X,Y,2,,,\n"
    # (of supplies the first pair in table order is named, of needs one that is asked before those that it asks)
    expect(program, "peg A Y 0", bill + 500 * order, "peg,bill,A,X,500000000000000,2,1000000000000000\n")
    refused(program, bill + 500 * order + "firm,A,Y,0,0,1,,\n", "NeedTooLarge A/Y", ("check", "pegs"))


def faults_are_named_in_large_tables(program):
    """A need behind 19,998 pairs, and a loop of 1,000."""
    need = ONE_PLANT + numbered(19_998, "pair,A,F", ",buy,lot,0,0,0") + "pair,A,Y,make,lot,0,0,0\npair,A,X,buy,lot,0,0,0\n"
    refused(program, need + "bill,A,Y,X,1000000,,,\ndemand,A,Y,0,1000000000,,,\ndemand,A,X,0,1,,,\n", "NeedTooLarge A/X", ("plan --single", "plan"))
    loop = ONE_PLANT + numbered(1000, "pair,A,X", ",make,lot,0,0,0") + "".join(f"bill,A,X{it},X{(it + 1) % 1000},1,,,\n" for it in range(1000))
    refused(program, loop, "loop " + " ".join(f"A/X{it}" for it in range(1000)), ("check",))


def a_part_goes_into_all_others(program):
    """19,999 pairs are made of one part for their safety stocks: its code, what asks for it, alone and in the whole plan, and what lacks it."""
    table = ONE_PLANT + numbered(19_999, "pair,A,X", ",make,lot,0,0,1") + "pair,A,F,buy,lot,0,0,0\n" + numbered(19_999, "bill,A,X", ",F,1,,,")
    expect(program, "check", table, numbered(19_999, "code,A,X", ",0") + "code,A,F,1\n")
    expect(program, "peg A F 0", table, numbered(19_999, "peg,bill,A,X", ",1,1,1"))
    expect(program, "pegs", table, numbered(19_999, "pegs,A,F,0,bill,A,X", ",1,1,1"))
    # (they are made at once, so that of them nothing is lacking)
    expect(program, "shortages", table, numbered(19_999, "shortage,A,F,bill,A,X", ",1,1"))
    # (103 go into 100 of each, so that of each order for a piece two are taken)
    table += numbered(19_999, "usage,A,X", ",F,0,103,100,")
    expect(program, "pegs", table, numbered(19_999, "pegs,A,F,0,bill,A,X", ",1,103/100,2"))
    expect(program, "plan --single", table, numbered(19_999, "plan,A,X", ",0,2026-01-05,0,0,1,1,1") + "plan,A,F,0,2026-01-05,39998,0,39998,39998,0\n")


def each_of_20000_pairs_has_a_late_order(program):
    """By one thread and by several."""
    table = ONE_PLANT + numbered(20_000, "pair,A,F", ",buy,lot,1,0,1")
    report = numbered(20_000, "plan,A,F", ",0,2026-01-05,0,0,1,1,1") + numbered(20_000, "late,A,F", ",0,1,1")
    for words in ("plan --single", "plan --workers 1", "plan --workers 3"):
        expect(program, words, table, report)


def each_of_20000_pairs_has_a_policy(program):
    """Their orders for a safety stock may not be released in period 0, and are a period late."""
    table = ONE_PLANT.replace("7,1", "7,2") + numbered(20_000, "pair,A,F", ",buy,lot,0,0,1") + numbered(20_000, "policy,A,F", ",1,0,0,0,0")
    rows = (f"plan,A,F{it},0,2026-01-05,0,0,1,0,1\nplan,A,F{it},1,2026-01-12,0,0,0,1,1\n" for it in range(20_000))
    expect(program, "plan --single", table, "".join(rows) + numbered(20_000, "late,A,F", ",0,1,1"))
    refused(program, f"{table}policy,A,F0,0,0,0,0,0\n", "row 40003: Repeated", ("check",))


def each_of_20000_pairs_has_a_vendor(program):
    """Of 20,000 vendors each delivers one, and one all of them; the schedule of one, and of the plant."""
    pairs, name = numbered(20_000, "pair,A,F", ",buy,lot,0,0,1"), "VENDOR-OF-20.LETTERS"
    opened, called = "schedule,opening,V{0},A,F{0},,,2,9\n", "schedule,call,V{0},A,F{0},0,2026-01-05,1,10\n"
    rows = [(opened + called).format(it) for it in range(20_000)]
    each = ONE_PLANT + pairs + "".join(f"vendor,V{it},A,F{it},7,2,,\n" for it in range(20_000))
    for words in ("schedule", "schedule --to A"):
        expect(program, words, each, "".join(rows))
    expect(program, "schedule --from V19999", each, rows[-1])
    refused(program, f"{each}vendor,W,A,F0,0,0,,\n", "row 40003: Repeated", ("check",))
    one = re.sub("vendor,V[0-9]+,", f"vendor,{name},", each)
    expect(program, f"schedule --from {name} --to A", one, re.sub(",V[0-9]+,", f",{name},", "".join(rows)))


def each_of_104_periods_begins_on_a_day(program):
    """Each a day sooner than it would; and the last day on which the last period may begin."""
    table = "run,2026-01-05,31,104,,,,\nplant,A,,,,,,\npair,A,X,buy,lot,0,0,0\n"
    first = datetime.date(2026, 1, 5)
    days = [first + datetime.timedelta(30 * it) for it in range(104)]
    rows = "".join(f"day,{it},{day},,,,,\n" for it, day in enumerate(days) if it)
    expect(program, "plan", table + rows, "".join(f"plan,A,X,{it},{day},0,0,0,0,0\n" for it, day in enumerate(days)))
    refused(program, table + rows + "day,104,2199-12-01,,,,,\n", "row 107: BadNumber", ("check",))
    last = "".join(rows.splitlines(keepends=True)[:-1])
    for day, fault in ("2199-12-01", None), ("2199-12-02", "PastEnd"), ("9999-12-31", "PastEnd"):
        if fault:
            refused(program, f"{table}{last}day,103,{day},,,,,\n", f"row 106: CalendarFault {fault}", ("check", "plan"))
        else:
            expect(program, "check", f"{table}{last}day,103,{day},,,,,\n", "code,A,X,0\n")


def plants_take_from_each_other(program):
    """64 plants of which each takes an item from each other, for a safety stock of 1, and a chain of 64."""
    table = "run,2026-01-05,7,1,,,,\n" + numbered(64, "plant,P", ",,,,,,")
    for item, plant in itertools.product(range(64), range(64)):
        table += f"pair,P{plant},I{item},buy,lot,0,0,0\n" if plant == item else f"pair,P{plant},I{item},from:P{item},lot,0,0,1\n"
    figures = answer(program, "cums", table).splitlines()
    if len(figures) != 8_064 or any(not it.startswith("lane,") for it in figures):
        raise Different(f"{len(figures)} rows of figures")
    calls = {(it, to): f"schedule,{{}},P{it},P{to},I{it},{{}}\n" for to, it in itertools.product(range(64), range(64)) if it != to}
    both = {lane: row.format("opening", ",,0,0") + row.format("call", "0,2026-01-05,1,1") for lane, row in calls.items()}
    expect(program, "schedule", table, "".join(both.values()))
    expect(program, "schedule --from P7", table, "".join(rows for (it, _), rows in both.items() if it == 7))
    expect(program, "schedule --to P63", table, "".join(rows for (_, to), rows in both.items() if to == 63))
    expect(program, "schedule --from P63 --to P0", table, both[63, 0])
    chain = "run,2026-01-05,7,4,,,,\n" + numbered(64, "plant,P", ",,,,,,") + "".join(f"pair,P{it},X,from:P{it + 1},lot,0,0,0\n" for it in range(63))
    chain += "pair,P63,X,buy,lot,0,0,0\ndemand,P0,X,3,5,,,\n"
    for firm in (table, chain):
        wanted = answer(program, "plan --single", firm)
        for words in ("plan", "plan --workers 2 --capacity 1"):
            expect(program, words, firm, wanted)


def long_names_make_long_reports(program):
    """Two plants and 10,000 items of 20 characters: more than a million bytes of figures and of schedules, and 5,000 that start anew."""
    sender, customer, item = "B" * 20, "A" * 20, "ITEM-OF-A-NAME-"

    def taken(count):
        table = f"run,2026-01-05,7,1,,,,\nplant,{customer},,,,,,\nplant,{sender},,,,,,\n"
        table += numbered(count, f"pair,{customer},{item}", f",from:{sender},lot,0,0,0")
        return table + numbered(count, f"pair,{sender},{item}", ",buy,lot,0,0,0")

    def figures(count, kind, one, other):
        return numbered(count, f"lane,{kind},{one},{other},{item}", ",0,0,0,0")

    anew = taken(5_000) + numbered(5_000, f"cum,{sender},{customer},{item}", ",0,,,") + numbered(5_000, f"reset,{sender},{customer},{item}", ",0,,,")
    for table, count in ((taken(10_000), 10_000), (anew, 5_000)):
        wanted = figures(count, "despatch", sender, customer) + figures(count, "schedule", customer, sender)
        expect(program, "cums", table, wanted)
    opened, closed = (f"schedule,{kind},{sender},{customer},{item}" for kind in ("opening", "reset"))
    expect(program, "schedule", taken(10_000), numbered(10_000, opened, ",,,0,0"))
    expect(program, "schedule", anew, "".join(f"{opened}{it},,,0,0\n{closed}{it},0,2026-01-05,,0\n" for it in range(5_000)))
    codes = numbered(10_000, f"code,{customer},{item}", ",0") + numbered(10_000, f"code,{sender},{item}", ",1")
    expect(program, "check", taken(10_000), codes)


def pegs_are_those_of_each_pair_and_period(program):
    """The pegging of the whole plan is what each question is answered, with the pair and the period before it."""
    for name in ("three_plants", "firm_orders"):
        with mrp.open_table(f"{TOP}/examples/{name}.csv") as lines:
            firm = mrp.Table.read(lines)
        wanted = ""
        for it, period in itertools.product(firm.pairs, range(firm.run.periods)):
            terms = answer(program, f"peg {it.plant} {it.item} {period}", bytes(firm))
            wanted += "".join(f"pegs,{it.plant},{it.item},{period},{term.removeprefix('peg,')}\n" for term in terms.splitlines())
        expect(program, "pegs", bytes(firm), wanted)


def each_of_20000_pairs_has_an_open_order(program):
    """That nobody needs, and one pair has as many, which stand in the table from the last period to the first."""
    pairs = numbered(20_000, "pair,A,F", ",buy,lot,1,0,0")
    messages = numbered(20_000, "advice,cancel,receipt,A,F", ",,0,2026-01-05,1,,")
    expect(program, "advice", ONE_PLANT + pairs + numbered(20_000, "receipt,A,F", ",0,1,,,"), messages)
    falling = "".join(f"receipt,A,X,{t},{t + 1},,,\n" * 250 for t in reversed(range(80)))
    table = f"run,2026-01-01,1,80,,,,\nplant,A,,,,,,\npair,A,X,buy,lot,0,0,0\ndemand,A,X,79,1000000000,,,\n{falling}"
    days = [f"2026-01-{it:02}" for it in range(1, 32)] + [f"2026-02-{it:02}" for it in range(1, 29)] + [f"2026-03-{it:02}" for it in range(1, 22)]
    expect(program, "advice", table, "".join(f"advice,defer,receipt,A,X,,{t},{days[t]},{t + 1},79,2026-03-21\n" * 250 for t in range(79)))


MADE = (
    each_name_is_tested,
    rules_have_the_least_and_the_greatest_numbers,
    rows_that_are_no_text,
    tables_of_other_programs,
    tables_cut_anywhere,
    plans_are_sent_by_sixteen_pairs,
    kinds_have_their_limits,
    firm_orders_have_the_bound_of_quantities,
    faults_are_named_in_large_tables,
    a_part_goes_into_all_others,
    each_of_20000_pairs_has_a_late_order,
    each_of_20000_pairs_has_a_policy,
    each_of_20000_pairs_has_a_vendor,
    each_of_104_periods_begins_on_a_day,
    plants_take_from_each_other,
    long_names_make_long_reports,
    pegs_are_those_of_each_pair_and_period,
    each_of_20000_pairs_has_an_open_order,
)


def all_cases():
    """Returns name and test of each case: the test is called with the program's path."""
    for path in sorted(glob.glob(f"{TOP}/cases/*.txt")):
        with open(path, encoding="utf-8") as file:
            for title, table, asks in blocks(file.read()):
                yield f"{os.path.basename(path)}: {title}", lambda program, table=table, asks=asks: run_case(program, table, asks)
    for made in MADE:
        yield made.__name__, made
