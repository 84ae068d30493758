"""bin/page, also as a browser shows it."""
import datetime
import re

import oracle
import reports
from support import DELAYED_PLAN, listed, plan_rows, reports_from_files, Tags, wants, WITH_DELAYS
from test_hit import COMING, sheets_of
from test_lacks import LACKING
from test_oracle import FENCED, SOONER
from test_record import FIRM, FIRM_ORDERS, FIRM_PLAN


def test_page_has_late_orders_when_they_come(room):
    """Red below zero, in the record and in its picture."""
    room.write("plan.csv", DELAYED_PLAN)
    text = room.run("bin/page < plan.csv")
    assert len(Tags(text).articles) == 3
    for figures in WITH_DELAYS.values():
        cells = "".join(f'<td class="late">{it}</td>' if it < 0 else f"<td>{it}</td>" for it in figures)
        assert f'<tr class="stock"><th class="name">Available with delays</th>{cells}</tr>' in text
    assert text.count("Available with delays") == 2
    # (X from 6 at the height of 0 down to -6 at 100: zero is at 50, and -1 at 7 / 12; Z without a red line)
    assert '<path class="delayed" d="M0 0.0V0.0H1V58.33H2V100.0H3V33.33H4V33.33H5"/>' in text
    assert '<path class="zero" d="M0 50.0H5"/>' in text
    assert text.count('class="delayed"') == 2


def test_page_has_each_record(room):
    text = room.run("bin/page --cums examples/three_plants.cums.csv < examples/three_plants.plan.csv")
    assert len(Tags(text).articles) == 9
    due = '9 due <time datetime="2026-01-12">12 Jan <small>W03</small></time>'
    assert "NORTH FRAME</h3><span>10 on hand" in text
    assert "Between plants" in text
    assert '<td class="late">9<small>1&nbsp;week late</small></td>' in text
    assert f'<p>{due}, <b class="late">1 week</b> late</p>' in text
    assert (
        f'<a href="#r0">TUBE</a></td><td data-by="1"><b class="late">1 week</b></td><td class="name">{due}</td>' in text
    )
    assert re.findall('<section id="([a-z]+)"', text) == ["late", "lanes", "records"]
    # (the page asks for nothing outside)
    assert not re.search(r"(src|href)=[\"'](?!#)|url\(|https?:", text)
    assert room.run("cat examples/three_plants.plan.csv examples/three_plants.cums.csv | bin/page") == text


def test_page_says_what_it_leaves_out(room):
    text = room.run("bin/page --pairs 2 < examples/three_plants.plan.csv")
    assert Tags(text).articles == [("SOUTH", "TUBE"), ("NORTH", "BIKE")]
    assert "The page has 2 of 9 pairs" in text
    assert Tags(room.run("bin/page --plant EAST --item WHEEL < examples/three_plants.plan.csv")).articles == [
        ("EAST", "WHEEL")
    ]


def test_page_names_the_nearest(room):
    """Of a plant, an item or a pair that the report hasn't."""
    for words, said in (
        ("--plant SOTH", "no plant SOTH (SOUTH, NORTH?)"),
        ("--item WHEELS", "no item WHEELS (WHEEL?)"),
        ("--plant SOUTH --item TUB", "no pair SOUTH TUB (SOUTH TUBE?)"),
        ("--item 7", "no item 7"),
    ):
        wanted = f"bin/page: the report has {said}\n"
        assert room.run(f"bin/page {words} < examples/three_plants.plan.csv", status=1) == wanted


def open_page(room, name):
    """Opens a page in a browser, and returns what stands on it then."""
    browser = wants("chromium", "chromium-browser", "google-chrome")
    words = f"{browser} --headless --no-sandbox --disable-gpu --user-data-dir={room.folder}/browser --enable-logging=stderr --dump-dom"
    text = room.run(f"{words} file://{room.folder}/{name} 2> said")
    with open(f"{room.folder}/said", encoding="utf-8", errors="replace") as said:
        faults = [it for it in said if "CONSOLE" in it]
    assert faults == []
    return text


def test_page_sorts_and_finds(room):
    """The words of a reader, said by a script: sort by item, and find the wheels of the east."""
    room.run("bin/page --cums examples/three_plants.cums.csv < examples/three_plants.plan.csv > page.html")
    script = "item.value = 'wHEEL'; plant.value = 'EAST'; find(); document.querySelector('#lanes th:nth-child(5) button').click();"
    room.run(f'sed "s/^find();$/find(); {script}/" page.html > asked.html')
    text = open_page(room, "asked.html")
    assert "1 of 9 records" in text
    assert '<th aria-sort="descending"><button type="button">In transit' in text
    lanes = text[text.index('id="lanes"') :]
    assert re.findall(r"<td>(\d+)</td><td>\d+</td><td>\d+</td></tr>", lanes)[:3] == ["5", "4", "0"]


# The reports of pumps, of which the stored ones have names of columns, and the plan two kinds of rows.
PUMPS = "cat " + " ".join(f"examples/pumps.{it}.csv" for it in ("plan", "orders", "advice", "schedule", "shortages"))


def test_page_says_what_is_to_be_done(room):
    """Of the reports of pumps: orders to release, those to move, and three deliveries of each item on a lane, with the
    figure that a reset closes.
    """
    text = room.run(f"{PUMPS} | bin/page")
    Tags(text)
    assert "10 pairs, 8 weeks, 4 late orders, 8 orders to release, 1 of them lacking parts, 6 open orders to be moved" in text
    rows = listed(text, "release")
    assert [it[0] for it in rows] == ["PUMP", "CASTING", "HOUSING", "IMPELLER", "BRASS", "IMPELLER"]
    # (of two orders the first and their sum, and both where they open)
    two = "30 Nov W49, 2 orders50 due 30 Nov W49, 5 weeks50 due 7 Dec W50, 4 weeks"
    assert rows[1] == ["CASTING", "100", "5 weeks", two, "", "buy"]
    two = "7 Dec W50, 2 orders1 due 7 Dec W50, 1 week4 due 14 Dec W51"
    assert rows[5] == ["IMPELLER", "5", "1 week", two, "from WORKS 70%, FOUNDRY 30%"]
    orders = "50 due 30 Nov W49, 5 weeks50 due 7 Dec W50, 4 weeksor expedite 60 of 28 Dec W53"
    assert listed(text, "late")[:2] == [
        ["FOUNDRY", "CASTING", "5 weeks", orders],
        ["FOUNDRY", "HOUSING", "1 week", "40 due 7 Dec W50"],
    ]
    rows = listed(text, "moves")
    assert [it[0] for it in rows] == ["expedite", "defer", "defer", "defer", "defer", "cancel"]
    assert rows[0] == ["expedite", "FOUNDRY", "CASTING", "60", "28 Dec W53", "30 Nov W49", "receipt"]
    assert listed(text, "release")[2] == ["HOUSING", "40", "1 week", "7 Dec W50", "lacks CASTING 5 of 40", "make"]
    assert (rows[2][6], rows[5][4:6]) == ("in transit from FOUNDRY", ["18 Jan W03", "never"])
    rows = [it[1:] for it in listed(text, "deliveries") if it[0] == "HOUSING"]
    called = [["7 Dec W50", "25", "1,000"], ["21 Dec W52", "44", "1,044"], ["4 Jan W01", "14", "141,044 closed"]]
    assert rows == [["in transit", "15", "975"], *called]


# What the page asks for beside the plan.
ASKED = "plan", "orders", "advice --reach", "schedule", "shortages"


def test_page_says_what_orders_lack(room):
    """By hand, of the firm of test_lacks: the parts of an item's orders, those of a phantom that it takes, and a transfer; first those
    that lack nothing where a reader sorts by it. What many orders lack opens.
    """
    reports_from_files(room, LACKING, *ASKED)
    text = room.run("MRP=words/files bin/page < table.csv")
    Tags(text)
    assert "7 orders to release, 1 of them firm, 5 of them lacking parts</p>" in text
    rows = {(it[0], it[-1]): it[4] for it in listed(text, "release")}
    rings = "lacks RING 28 of 48"
    assert rows == {
        ("RING", "buy"): "",
        ("MOTOR", "from B"): "lacks B MOTOR 3 of 4",
        ("PUMP", "make"): f"lacks MOTOR 4 of 10{rings} for SET",
        ("FAN", "make"): f"{rings} for SET",
        ("SET", "make"): rings,
        ("MOTOR", "buy"): "buy",
    }
    assert re.findall('data-by="(0[0-9]+)"', text) == ["000", "001", "002", "001", "001"]
    assert re.search('<article [^>]*data-item="FAN">.*?</article>', text, re.DOTALL)[0].count("lacks</b> <a href") == 1
    assert "lacks</b>" not in room.run("MRP=words/files bin/page --plant B < table.csv")
    assert "lacks</b>" in room.run("MRP=words/files bin/page --item FAN < table.csv")
    # (reports alone don't say what a phantom goes into)
    text = room.run("cat plan.csv orders.csv shortages.csv | bin/page")
    assert [it[4] for it in listed(text, "release") if it[0] in ("FAN", "SET")] == ["", rings]
    parts = "".join(f"shortage,A,P{it},bill,A,FAN,{1000 * it + 1000},{it + 1}\n" for it in range(6))
    text = room.run(f"(cat plan.csv orders.csv; printf '{parts}') | bin/page")
    assert "lacks 6 partslacks P0 1 of 1,000lacks P1 2 of 2,000" in "".join(it[4] for it in listed(text, "release"))
    assert text.count("<details><summary><b class=\"late\">lacks</b> 6 parts</summary>") == 2


def figures_of(text, label):
    """Returns the figures of each line of the records that has a label."""
    lines = re.findall(f'<tr><th class="name">{label}</th>(.*?)</tr>', text)
    return [re.findall("<td[^>]*>(.*?)</td>", it) for it in lines]


def test_page_marks_firm_orders(room):
    """To release beside planned ones, and in records in lines of their own, when they are due and when they start."""
    advice = "advice,defer,firm,A,P,,3,2026-01-26,20,4,2026-02-02\nadvice,expedite,firm,A,C,,1,2026-01-12,6,0,2026-01-05\n"
    room.write("reports.csv", FIRM_PLAN + FIRM_ORDERS + "firm,A,P,make,3,1,2026-01-12,4,2026-02-02,0\n" + advice)
    text = room.run("bin/page < reports.csv")
    Tags(text)
    assert "2 pairs, 5 weeks, 1 late order, 3 orders to release, 1 of them firm, 2 open orders to be moved" in text
    assert listed(text, "release")[1] == ["P", "20", "", "26 Jan W05, firm", "make"]
    assert '<time datetime="2026-01-26">26 Jan <small>W05</small></time>, <b>firm</b></td>' in text
    assert figures_of(text, "<small>of which firm orders</small>") == [["", "", "", "20", "3"], ["20", "3", "", "", ""]]
    assert "<p>20 firm to release, due <time" in text
    assert [it[0:2] + it[3:5] + it[6:] for it in listed(text, "moves")] == [
        ["expedite", "A", "6", "12 Jan W03", "firm order"],
        ["defer", "A", "20", "26 Jan W05", "firm order"],
    ]
    assert "or expedite 6 firm of <time" in text
    assert "<br>defer 20 firm of <time" in text


def test_page_has_firm_orders_of_an_item_in_its_row(room):
    """The sum of both sorts, that opens, with what the sheets say of the firm ones; of the plan alone nothing is firm."""
    row = "{},A,P,make,{},0,2026-01-05,{},{},{}\n".format
    orders = row("firm", 20, 3, "2026-01-26", 0) + row("order", 5, 1, "2026-01-12", 1) + row("firm", 2, 4, "2026-02-02", 0)
    room.write("reports.csv", FIRM_PLAN + orders)
    said = 'firm,A,P,3,2026-01-28,20,,,"Start 2026-01-05, Order <F-1>"'
    room.write("names.csv", "\n".join([",".join(reports.Names.COLUMNS), said, ""]))
    text = room.run("bin/page --names names.csv < reports.csv")
    Tags(text)
    ((item, whole, late, opens, supply),) = listed(text, "release")
    assert (item, whole, late, supply) == ("P", "27", "1 week", "make")
    first = "12 Jan W03, 3 orders, 2 of them firm5 due 12 Jan W03, 1 week20 due 26 Jan W05, firm"
    assert opens == f"{first}20 of 2026-01-28: Start 2026-01-05, Order &lt;F-1&gt;2 due 2 Feb W06, firm"
    assert "firm" not in room.run("bin/page < examples/three_plants.plan.csv")


def test_page_of_a_table_has_its_firm_orders(room, program):
    """Those that start later too; and the demand that waits for what one takes."""
    room.write("table.csv", FIRM + "firm,A,P,1,4,3,,\n")
    text = room.run("bin/page < table.csv")
    Tags(text)
    assert figures_of(text, "<small>of which firm orders</small>") == [["", "", "", "20", "3"], ["20", "3", "", "", ""]]
    assert [it[0] for it in listed(text, "release")] == ["C", "P"]
    assert listed(text, "late")[0][4:] == ["1", "30 A P of 26 Jan W05, 1 week"]


def test_page_has_an_item_once(room):
    """Nine late orders of an item are one row in each list, with their sum, and open; five open orders of it open too."""
    days = [datetime.date(2026, 11, 30) + datetime.timedelta(days=7 * it) for it in range(10)]
    orders = (1, 2, 3, 4, 5, 6, 7, 8, 9, 0)
    rows = [plan_rows("2026-11-30", 7, {"H": orders}, [("H", t, 9 - t) for t in range(9)])]
    rows += [f"order,A,H,make,{t + 1},0,{days[0]},{t},{day},{9 - t}\n" for t, day in enumerate(days[:9])]
    rows += [f"advice,expedite,receipt,A,H,,9,{days[9]},{it},0,{days[0]}\n" for it in range(1, 6)]
    room.write("reports.csv", "".join(rows))
    text = room.run("bin/page < reports.csv")
    Tags(text)
    ((item, whole, late, opens, supply),) = listed(text, "release")
    assert (item, whole, late, supply) == ("H", "45", "9 weeks", "make")
    assert opens.startswith("30 Nov W49, 9 orders1 due 30 Nov W49, 9 weeks2 due 7 Dec W50, 8 weeks")
    ((_, item, late, opens),) = listed(text, "late")
    assert (item, late) == ("H", "9 weeks")
    assert opens.startswith("45 in 9 orders, the first due 30 Nov W491 due 30 Nov W49, 9 weeks2 due")
    assert opens.endswith("or expedite 1 of 1 Feb W05or expedite 2 of 1 Feb W05or expedite 3 of 1 Feb W05"
                          "or expedite 4 of 1 Feb W05or expedite 5 of 1 Feb W05")
    assert text.count("<summary>45 in 9 orders") == text.count("<summary>or expedite 1") == 1


def test_page_says_how_many_rows_scroll(room):
    """A hundred rows stand open, more scroll and are counted; of thousands of messages the first are shown, those to
    expedite first, and in the record those of its pair.
    """
    day, plan = "2026-11-30", plan_rows("2026-11-30", 7, {f"I{it}": (0, 0) for it in range(60)})
    defer = f"advice,defer,receipt,A,I7,,0,{day},5,1,2026-12-07\n"
    expedite = f"advice,expedite,receipt,A,I50,,1,2026-12-07,6,0,{day}\n"
    room.write("reports.csv", plan + 99 * defer + expedite)
    text = room.run("bin/page < reports.csv")
    assert len(listed(text, "moves")) == 100
    assert "scrolls" not in text
    room.write("reports.csv", plan + 100 * defer + expedite)
    text = room.run("bin/page < reports.csv")
    assert '<div class="list stack long">' in text
    assert "<p>101 rows; the list scrolls.</p>" in text
    room.write("reports.csv", plan + 3000 * defer + expedite)
    text = room.run("bin/page < reports.csv")
    assert "<p>The first 1,000 of 3,001 rows; the list scrolls.</p>" in text
    assert "3,001 open orders to be moved" in text
    rows = listed(text, "moves")
    assert ([it[0] for it in rows], rows[0][2]) == (["expedite", *["defer"] * 999], "I50")
    assert Tags(text).articles[:2] == [("A", "I50"), ("A", "I7")]
    assert text.count("<br>defer 5 of") == 19
    assert "<br>and 2,980 open orders more to be moved</p>" in text
    for line, place in ((f"advice,hurry,receipt,A,I7,,0,{day},5,1,{day}\n", 3122), ("advice,cancel\n", 3122)):
        room.write("reports.csv", plan + 3000 * defer + expedite + line)
        assert room.run("bin/page < reports.csv", status=1).startswith(f"bin/page: row {place} is no row of a report: ")


# Bicycles, of two wheels each, that take a week, and a bell that nobody wants in the four weeks.
UNKNOWN = """\
run,2026-01-05,7,4,,,,
plant,A,,,,,,
pair,A,BIKE,make,lot,1,0,0
pair,A,WHEEL,buy,lot,0,0,0
pair,A,BELL,buy,lot,0,0,0
bill,A,BIKE,WHEEL,2,,,
demand,A,BIKE,2,3,,,
receipt,A,WHEEL,1,6,,,
receipt,A,WHEEL,2,8,,,
receipt,A,WHEEL,3,9,,,
receipt,A,BELL,1,5,,,
"""
NOT_KNOWN = "not known yet: needed beyond the horizon"


def test_page_calls_nothing_cancelled_that_may_be_needed(room):
    """By hand. Of wheels requirements are whole up to period 2: 6 are wanted in 1 and come then. The 8 aren't needed up to it, of the 9 of
    period 3 nothing is known. The bell isn't needed in the four weeks.
    """
    assert oracle.Oracle(UNKNOWN.encode()).answer("advice").out.count(b"advice,cancel,") == 3
    reports_from_files(room, UNKNOWN, *ASKED)
    text = room.run("MRP=words/files bin/page < table.csv")
    Tags(text)
    wheel, bell = (["beyond", "A", item, pieces, day, NOT_KNOWN, "receipt"] for item, pieces, day in (("WHEEL", "8", "19 Jan W04"), ("BELL", "5", "12 Jan W03")))
    assert listed(text, "moves") == [wheel, bell]
    assert text.count(f", {NOT_KNOWN}") == 2
    assert "2 open orders needed beyond the horizon</p>" in text
    assert "to be moved" not in text
    assert "<b>cancel</b>" not in text
    assert "never" not in "".join(it[5] for it in listed(text, "moves"))


def test_page_has_what_is_not_known_behind_what_is(room):
    """Of many messages of a pair those that are to be moved first; what is left out of both is counted."""
    day, plan = "2026-11-30", plan_rows("2026-11-30", 7, {"I7": (0, 0)})
    beyond, defer = f"advice,beyond,receipt,A,I7,,0,{day},5,,\n", f"advice,defer,receipt,A,I7,,0,{day},4,1,2026-12-07\n"
    room.write("reports.csv", plan + 30 * beyond + defer)
    text = room.run("bin/page < reports.csv")
    assert [it[0] for it in listed(text, "moves")] == ["defer"] + 30 * ["beyond"]
    assert "1 open order to be moved, 30 open orders needed beyond the horizon</p>" in text
    assert text.count(f", {NOT_KNOWN}") == 19
    assert "<br>and 11 open orders more</p>" in text


def test_page_of_a_table_has_its_reports(room, program):
    """What the reports of the table say, with the demands that are hit and what the table says of pairs; a refused
    table is refused in the program's line.
    """
    text = room.run("bin/page < examples/pumps.csv | tee page.html")
    Tags(text)
    assert text.count('<article id="r') == 10
    room.run("mrp advice --reach < examples/pumps.csv > messages.csv")
    given = room.run(f"({PUMPS.replace('examples/pumps.advice.csv', 'messages.csv')}; bin/hit < examples/pumps.csv) | bin/page")
    for name in ("release", "moves", "deliveries"):
        assert listed(text, name) == listed(given, name)
    assert [it[:4] for it in listed(text, "late")] == [it[:4] for it in listed(given, "late")]
    row = listed(text, "late")[0]
    assert (row[4], row[5].startswith("20 WORKS PUMP of 21 Dec W52, 5 weeks5 DEPOT PUMP of 28 Dec W53, 5 weeks")) == (
        "9",
        True,
    )
    # (the castings that its housings wait for come later than these; what the depot's impeller waits for hits no
    # demand)
    assert [it[4:] for it in listed(text, "late")[1:]] == [["", "also 9, worse by CASTING"], ["0", ""]]
    assert "CASTING</h3><span>buy, at least 50, by 10, lead time 5 weeks, 35 on hand, safety stock 10</span>" in text
    # (of the works' 27 pumps in period 3 the demand for 20 is hit, and the depot's 5 in period 4)
    assert '<td class="late">27<small>5&nbsp;weeks late</small></td>' in text
    assert '<td class="late">5<small>5&nbsp;weeks late</small></td>' in text
    # (seven of the ten pairs have safety stock)
    assert (text.count('<path class="safety"'), given.count('<path class="safety"')) == (7, 0)
    assert {it[1] for it in listed(room.run("bin/page --plant DEPOT < examples/pumps.csv"), "moves")} == {"DEPOT"}
    text = room.run("bin/page < examples/bicycle.csv")
    assert "<p>Nothing.</p>" in text
    assert "<p>No order is late.</p>" in text
    assert "<p>Each comes when it is needed.</p>" in text
    assert "<p>There are none.</p>" in text
    for table in ("<(tail -n 3 examples/pumps.csv)", "README", "<(sed s/,PUMP,make/,PUMP,makes/ examples/pumps.csv)"):
        room.write("README", "no table\n")
        assert room.run(f"bin/page < {table}", status=1) == room.run(f"mrp plan < {table}", status=1)


def test_page_folds_what_can_wait(room):
    """The records stand worst first. Without an order in the first month they are folded, and a link unfolds them."""
    rows = {
        "LATER": (0, 0, 0, 0, 0, 0, 7),
        "SOON": (0, 0, 0, 0, 7, 0, 0),
        "LATE": (0, 3, 0, 0, 0, 0, 0),
        "NEVER": (0,) * 7,
    }
    plan = plan_rows("2026-11-30", 7, rows, [("LATE", 1, 2)])
    releases = {("SOON", 4), ("LATER", 5), ("LATE", 0)}
    lines = [it.split(",") for it in plan.splitlines()]
    released = (
        ",".join([*it[:8], "7" if (it[2], int(it[3])) in releases else "0", *it[9:]]) + "\n"
        for it in lines
        if it[0] == "plan"
    )
    room.write("plan.csv", "".join(released))
    room.write("late.csv", plan[plan.index("late,") :])
    room.run("cat plan.csv late.csv | bin/page > page.html")
    text = room.run("cat page.html")
    assert re.findall('data-item="([A-Z]+)"[^>]*><details( open)?>', text) == [
        ("LATE", " open"),
        ("LATER", ""),
        ("SOON", " open"),
        ("NEVER", ""),
    ]
    assert 'next release <time datetime="2027-01-04">4 Jan <small>W01</small></time></span>' in text
    assert "NEVER</h3><span>0 on hand, no order</span>" in text
    room.run(
        "sed \"s/^unfold();$/item.value = 'SOON'; find(); location.hash = '#r1'; unfold();/\" page.html > asked.html"
    )
    text = open_page(room, "asked.html")
    assert "4 of 4 records" in text
    assert 'data-item="LATER"><details open' in text


# What a reader sees of a page in a frame, said to the page around it: how many weeks of the first record; and whether
# nothing stands out of the window, the first picture is whole, and the lateness of the first order to release and of
# the first late one can be read; no list scrolls, and on a phone the heads above stacked cells say what they are for.
SEEN = """
const within = (it, outer) => it.left >= outer.left && it.right <= outer.right + 1, place = (words) => document.querySelector(words).getBoundingClientRect();
const window_ = { left: 0, right: innerWidth }, scroll = place("article .scroll"), whole = (words) => within(place(words), window_);
const weeks = [...document.querySelectorAll("article:first-of-type thead th:not(.name)")].filter((it) => within(it.getBoundingClientRect(), scroll)).length;
const fits = (it) => it.scrollWidth <= it.clientWidth && it.scrollHeight <= it.clientHeight;
const lists = [...document.querySelectorAll(".list")].every(fits);
const said = getComputedStyle(document.querySelector(".stack thead tr"), "::before").content, sorts = innerWidth > 400 ? "none" : '"Sort by"';
const seen = ["#release b.late", "#release time", "#late b.late"].every((it) => within(place(it), place(it.split(" ")[0] + " .list")) && whole(it)) && lists && said === sorts;
parent.postMessage([innerWidth, weeks, document.documentElement.scrollWidth <= innerWidth, whole("article svg"), seen].join(" "), "*");
"""
FRAMES = """<body><script>addEventListener("message", (it) => document.body.append("seen " + it.data + ";"));</script>
<iframe src="asked.html" width="1300" height="1400"></iframe><iframe src="asked.html" width="390" height="800"></iframe></body>
"""


def test_page_fits_a_screen_and_a_phone(room):
    """Of 26 weeks 18 at 1300 pixels; at 390 pictures are whole, and lateness and what is due are seen, with
    descriptions too.
    """
    start = datetime.date(2026, 11, 30)
    days = [start + datetime.timedelta(days=7 * it) for it in range(26)]
    figures = [
        f"{t},{day},{1200 if t % 3 else 0},0,{1250 if t % 2 else 0},1250,{1400 + t}" for t, day in enumerate(days)
    ]
    rows = [f"plan,HAM,PUMP-{item},{it}\n" for item in range(3) for it in figures]
    rows += ["late,HAM,PUMP-1,1,1250,9\n", f"order,HAM,PUMP-1,from:BRN:700:LYO:300,1250,0,{days[0]},1,{days[1]},9\n"]
    rows += [f"order,HAM,PUMP-1,from:BRN:700:LYO:300,12500,0,{days[0]},{t},{days[t]},{9 - t}\n" for t in range(2, 9)]
    rows += [f"advice,expedite,receipt,HAM,PUMP-1,,6,{days[6]},60,0,{days[0]}\n"] * 40 + [
        f"hit,HAM,PUMP-0,3,{days[3]},1200,8,HAM,PUMP-1\n"
    ]
    rows += ["schedule,opening,BRN,HAM,PUMP-1,,,150000,975000\n"]
    rows += [f"schedule,call,BRN,HAM,PUMP-1,{t},{days[t]},250000,1225000\n" for t in (1, 3)]
    rows += ["lane,despatch,BRN,HAM,PUMP-1,825000,975000,975000,0\n"]
    rows += ["lane,schedule,HAM,BRN,PUMP-1,975000,1475000,1475000,0\n"]
    room.write("reports.csv", "".join(rows))
    names = [
        ",".join(reports.Names.COLUMNS),
        "plant,HAM,,,,,Hamburg Nord,,",
        'pair,HAM,PUMP-1,,,,100/250-A,"Pump, 2.5 kW",',
        "",
    ]
    room.write("names.csv", "\n".join(names))
    room.write("seen.html", f"<script>{SEEN}</script>")
    room.write("frames.html", FRAMES)
    for words in ("", "--names names.csv"):
        room.run(f"bin/page {words} < reports.csv | cat - seen.html > asked.html")
        seen = sorted(it.split() for it in re.findall(r"seen (\d[^;]*);", open_page(room, "frames.html")))
        assert [(it[0], int(it[1]) >= least, *it[2:]) for it, least in zip(seen, (18, 4))] == [
            (it, True, "true", "true", "true") for it in ("1300", "390")
        ]


def test_page_has_200_pairs_at_once(room):
    rows = "".join(
        f"plan,P,I{pair},{t},2026-01-05,{t * pair % 90},0,0,{pair},{t * pair % 70}\n"
        for pair in range(201)
        for t in range(104)
    )
    room.write("large.csv", rows)
    text = room.run("bin/page < large.csv | tee page.html")
    assert "The page has 200 of 201 pairs" in text
    assert "200 of 200 records" in open_page(room, "page.html")


def test_page_of_many_pairs_wants_a_plant(room):
    """Of 20,001 pairs, of a table before the program is asked, and of a report; not of one item, or of a plant, or of as many as there may be."""
    refused = "bin/page: a page of more than 20,000 pairs wants a plant: --plant PLANT\n"
    head, pairs = "run,2026-01-05,7,1,,,,\nplant,P,,,,,,\nplant,Q,,,,,,\npair,Q,X,buy,lot,0,0,0\n", [f"I{it}" for it in range(20_000)]
    room.write("table.csv", head + "".join(f"pair,P,{it},buy,lot,0,0,0\n" for it in pairs))
    room.write("plan.csv", "plan,Q,X,0,2026-01-05,0,0,0,0,0\n" + "".join(f"plan,P,{it},0,2026-01-05,0,0,0,0,0\n" for it in pairs))
    for it in ("orders", "advice", "schedule", "shortages"):
        room.write(f"{it}.csv", "")
    room.stand_in("words/files", "from_files")
    room.variables["MRP"] = f"{room.folder}/words/files"
    assert room.run("bin/page --large < table.csv; ls asked", status=1).startswith(refused)
    assert room.run("ls asked 2>&1 || true").startswith("ls: cannot access")
    assert room.run("bin/page < plan.csv", status=1) == refused
    for words, count in (("--plant Q", 1), ("--plant P --pairs 3", 3), ("--item X", 1)):
        for source in ("--large < table.csv", "< plan.csv"):
            assert len(Tags(room.run(f"bin/page {words} {source}")).articles) == count
    assert len(Tags(room.run("head -n 20000 plan.csv | bin/page --pairs 2")).articles) == 2


def test_page_marks_frozen_releases(room):
    """By hand, of the worked figure: the two periods below the fence, of which the first has a firm order that starts."""
    reports_from_files(room, FENCED, *ASKED)
    text = room.run("MRP=words/files bin/page < table.csv")
    Tags(text)
    cell = '<td class="frozen" title="frozen: no planned order is released">'
    assert f'releases</th>{cell}12</td>{cell}</td><td>18</td><td>10</td><td></td></tr>' in text
    assert "lead time 1 week, 0 on hand, releases frozen: none is planned before <time datetime=\"2026-01-19\">" in text
    assert [it[:4] for it in listed(text, "late")] == [["A", "P", "1 week", "8 due 19 Jan W04"]]
    assert 'class="frozen"' not in room.run("bin/page < plan.csv")


def test_page_has_receipts_when_they_come(room):
    """By hand, of the worked figure: no order is late, and the 40 of period 1 wait two weeks for what is to be expedited."""
    reports_from_files(room, SOONER, *ASKED)
    text = room.run("MRP=words/files bin/page < table.csv")
    Tags(text)
    assert listed(text, "late") == [["A", "X", "2 weeks", "expedite 60 of 26 Jan W05", "1", "40 A X of 12 Jan W03, 2 weeks"]]
    assert "receipts that the plan counts sooner than they come: they are to be expedited" in text
    assert "Available with delays</th><td>5</td><td class=\"late\">-35</td><td class=\"late\">-35</td><td>5</td><td>5</td>" in text
    assert "receipts count up to 2 weeks sooner</span>" in text
    assert "when they are due, and receipts sooner than they come where a policy says so; available with delays" in text
    # (once it is expedited nothing waits)
    reports_from_files(room, SOONER.replace("receipt,A,X,3", "receipt,A,X,1"), *ASKED)
    text = room.run("MRP=words/files bin/page < table.csv")
    assert "No order is late." in text
    assert "Available with delays</th>" not in text
    assert "to be expedited" not in room.run("MRP=words/files bin/page --plant A < table.csv")


def test_page_has_open_orders_that_come_late(room):
    """By hand: the 20 wheels that are due in period 2 come in period 4, and the firm bicycles a week late. Projected available counts
    them when they are due."""
    sheets_of(room, COMING)
    text = room.run("bin/page --names names.csv < table.csv")
    Tags(text)
    assert listed(text, "late") == [
        ["P1", "WHEEL", "2 weeks", "open order of 20 due 14 Dec W51, 2 weeks", "1", "10 P1 BIKE of 21 Dec W52, 2 weeks10 of 2026-12-21: Order 47"],
        ["P1", "BIKE", "1 week", "open order of 5 due 14 Dec W51, 1 week", "1", "5 P1 BIKE of 14 Dec W51, 1 week5 of 2026-12-14: Order 46"],
    ]
    assert "Open orders that the sheets say come later than they are due (Comes) stand here too." in text
    assert "2 pairs, 6 weeks, 0 late orders, 2 open orders late, 2 demands hit, " in text
    assert "0 late orders, 1 open order late, " in room.run("bin/page --item WHEEL --names names.csv < table.csv")
    cells = [re.findall("<td[^>]*>(-?[0-9]*)<", it) for it in re.findall("Available with delays</th>(.*?)</tr>", text)]
    assert cells == [["0", "0", "-5", "0", "0", "0"], ["10", "0", "-20", "-20", "1", "1"]]
    assert '<small>2&nbsp;weeks late</small>' in text
    assert "No order is late." in room.run("bin/page < table.csv")
    assert "Available with delays</th>" not in room.run("bin/page < table.csv")
    room.run("$MRP plan < table.csv > plan.csv")
    text = room.run("bin/page --names names.csv < plan.csv")
    assert listed(text, "late") == [["P1", "WHEEL", "2 weeks", "open order of 20 due 14 Dec W51, 2 weeks"], ["P1", "BIKE", "1 week", "open order of 5 due 14 Dec W51, 1 week"]]


# Open orders of which some come later than they are due.
LEFT = """\
run,2026-11-30,7,8,,,,
plant,A,,,,,,
pair,A,CASTING,buy,lot,6,10,0
pair,A,KEY,buy,lot,1,0,0
pair,A,LID,buy,lot,1,0,0
demand,A,CASTING,2,20,,,
demand,A,CASTING,6,25,,,
demand,A,CASTING,7,40,,,
demand,A,KEY,3,5,,,
demand,A,KEY,7,6,,,
demand,A,LID,5,7,,,
demand,A,LID,7,8,,,
receipt,A,CASTING,0,40,,,
receipt,A,CASTING,4,25,,,
receipt,A,KEY,1,5,,,
receipt,A,KEY,4,6,,,
receipt,A,LID,2,7,,,
receipt,A,LID,3,8,,,
"""
LEFT_NAMES = """\
row,plant,item,period,date,quantity,name,description,note,comes
receipt,A,CASTING,0,2026-11-30,40,,,"Order 7, Comes 2027-01-11",2027-01-11
receipt,A,CASTING,4,2026-12-28,25,,,Order 3,
receipt,A,KEY,4,2026-12-28,6,,,,2027-01-11
receipt,A,LID,2,2026-12-14,7,,,,2026-12-21
"""


def test_orders_that_stand_in_for_late_ones_are_left(room, program):
    """By hand. CASTING: 10 on hand and the 40 of period 0 last until 50 < 85 in period 7, so the 25 of period 4 are to be deferred until
    then; but the 40 come in period 6 alone, and are needed in 2. KEY: the 5 of period 1 are needed in 3, and nothing that is late is due
    by then; the 6 of 4 come in 6 and are needed in 7. LID: the 7 are there in 3 with the 8.
    """
    room.write("table.csv", LEFT)
    room.write("names.csv", LEFT_NAMES)
    text = room.run("bin/page --names names.csv < table.csv")
    Tags(text)
    found = [(it[0], it[2], it[3], it[5]) for it in listed(text, "moves")]
    late = "an open order that is due by then comes late"
    assert found == [
        ("defer", "KEY", "5", "21 Dec W52"),
        ("defer", "KEY", "6", "18 Jan W03"),
        ("defer", "LID", "7", "4 Jan W01"),
        ("defer", "LID", "8", "18 Jan W03"),
        ("leave", "CASTING", "40", late),
        ("leave", "CASTING", "25", late),
    ]
    assert "4 open orders to be moved" in text
    assert f"<br>leave 25 of <time datetime=\"2026-12-28\">28 Dec <small>W53</small></time>, {late}</p>" in text
    assert len(re.findall("<b>defer</b>", room.run("bin/page < table.csv"))) == 6
    room.run("$MRP plan < table.csv > reports; $MRP advice --reach < table.csv >> reports")
    assert [(it[0], it[2], it[3], it[5]) for it in listed(room.run("bin/page --names names.csv < reports"), "moves")] == found
    lines = room.run("bin/why --names names.csv A CASTING 1 < table.csv").splitlines()
    assert lines[lines.index("Open orders") + 1 :] == [
        f"  40 in period 0 (2026-11-30), receipt: leave, {late}",
        f"  25 in period 4 (2026-12-28), receipt: leave, {late}",
    ]
    assert "receipt: defer to period 7 (2027-01-18)" in room.run("bin/why A CASTING 1 < table.csv")
