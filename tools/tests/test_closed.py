"""bin/sheets: days on which nobody works, and lead times in working days."""
import datetime
import random

import pytest
from test_sheets import table_of_sheets, write_sheets

DAY = datetime.timedelta(1)
FIRM = "First day,Days,Periods{0}\n{1}{2}\n"
ITEMS = "Plant,Item,Supply,Lot rule,{0},On hand,Safety stock\nWORKS,PUMP,make,lot,{1},0,0\nWORKS,SEAL,buy,lot,{1},0,0\n"


def rows_of(room, kinds, *words, status=0, **sheets):
    """Returns the rows of some kinds in the table of sheets, of which some are given, and what is told."""
    found = {"firm": FIRM.format("", "2026-12-21,7,4", ""), "items": ITEMS.format("Lead (days)", 7), "demands": "Plant,Item,Due,Quantity\n", **sheets}
    write_sheets(room, "firm", {f"{name}.csv": text for name, text in found.items()})
    ended, written, said = table_of_sheets(room, *words, "firm")
    assert ended == status, said
    return [it for it in written.decode().splitlines() if it.startswith(kinds)], said


def due(*days):
    """Returns demands of pumps on some days, each of as many pieces as its place says."""
    return "Plant,Item,Due,Quantity\n" + "".join(f"WORKS,PUMP,{day},{pieces}\n" for pieces, day in enumerate(days, 1))


def periods(rows):
    """Returns the periods of rows of demands."""
    return [int(it.split(",")[3]) for it in rows]


def test_a_shutdown_joins_periods(room):
    """By hand. From 24 December to 3 January nobody works: the week of the 28th is none, and its days are those of the week before."""
    demands = due("2026-12-23", "2026-12-24", "2027-01-03", "2027-01-04", "2027-01-24", "2027-01-25")
    for closed in (
        "Date,Until,Remark\n2026-12-24,2027-01-03,Christmas\n",
        "Bemerkung;Von;Bis\nBetriebsferien;24.12.2026;03.01.2027\n",
        # (in parts, in any order, and what is closed anyhow)
        "From,To\n2026-12-28,2027-01-03\n2026-12-24,\n2026-12-24,2026-12-27\n2026-12-25,2026-12-25\n2027-03-01,\n",
    ):
        rows, said = rows_of(room, ("run", "day", "demand"), closed=closed, demands=demands)
        assert rows[0] == "run,2026-12-21,7,4,,,,"
        assert rows[-1] == "day,1,2027-01-04,,,,,"
        assert periods(rows[1:-1]) == [0, 0, 0, 1, 3]
        assert "closed.csv: nobody works from 2026-12-28 to 2027-01-03; no period begins there\n" in said
        assert "demands.csv: 1 row beyond 2027-01-24 left out (row 7)\n" in said


def test_a_period_begins_when_somebody_works(room):
    """By hand. On Easter Monday, 6 April, and Good Friday nobody works; what is due on the Monday has to be there the week before."""
    firm = FIRM.format("", "2026-03-30,7,4", "")
    demands = due("2026-04-05", "2026-04-06", "2026-04-07", "2026-04-13")
    rows, _ = rows_of(room, ("run", "day", "demand"), firm=firm, closed="Date\n2026-04-03\n2026-04-06\n", demands=demands)
    assert rows[0] == "run,2026-03-30,7,4,,,,"
    assert rows[-2:] == ["day,1,2026-04-07,,,,,", "day,2,2026-04-13,,,,,"]
    assert periods(rows[1:-2]) == [0, 0, 1, 2]
    # (of the first week: what is due before somebody works isn't overdue)
    firm = FIRM.format("", "2026-04-06,7,4", "")
    sheets = {"firm": firm, "closed": "Date\n2026-04-06\n", "demands": due("2026-04-05", "2026-04-06", "2026-04-13")}
    rows, said = rows_of(room, ("run", "day", "demand"), "--today", "2026-04-06", **sheets)
    assert rows[0] == "run,2026-04-07,7,4,,,,"
    assert rows[-1] == "day,1,2026-04-13,,,,,"
    assert periods(rows[1:-1]) == [0, 0, 1]
    assert "demands.csv: 1 overdue row in period 0\n" in said and "hold today" not in said


def test_periods_of_a_day_are_days_on_which_somebody_works(room):
    """By hand. From Wednesday 23 December on: that day, Monday to Thursday of the next week, and Monday 4 January, the Fridays being holidays."""
    closed = "Date\n2026-12-24\n2026-12-25\n2027-01-01\n"
    for heading, cell in (("Closed on", "Sat Sun"), ("Frei an", "Sa, So"), ("Wochenende", "Samstag und Sonntag"), ("Weekends", "sábado/dim.")):
        firm = FIRM.format(f";{heading}".replace(";", ","), "2026-12-23,1,6", f',"{cell}"')
        demands = due("2026-12-23", "2026-12-27", "2026-12-28", "2026-12-31", "2027-01-03", "2027-01-04", "2027-01-05")
        rows, said = rows_of(room, ("run", "day", "demand"), firm=firm, closed=closed, demands=demands)
        assert [rows[0], *rows[-2:]] == ["run,2026-12-23,1,6,,,,", "day,1,2026-12-28,,,,,", "day,5,2027-01-04,,,,,"]
        assert periods(rows[1:-2]) == [0, 0, 1, 4, 4, 5]
        assert "closed.csv" not in said


def test_weeks_keep_their_bytes(room):
    """Where weekends alone are closed weeks begin as without, and nothing is written for an empty sheet."""
    for changes in ({"firm": FIRM.format(",Closed on", "2026-12-21,7,4", ",Sat Sun")}, {"closed": "Date,Until\n"}, {"closed": "Date\n2026-12-25\n"}):
        rows, said = rows_of(room, ("run", "day"), demands=due("2026-12-26"), **changes)
        assert rows == ["run,2026-12-21,7,4,,,,"] and "closed" not in said


def begins_of(first, days, count, is_closed):
    """Returns the first days of the periods, one by one: of as many days as a period has, the first on which somebody works."""
    found, place = [], 0
    while len(found) <= count:
        these = [first + DAY * (place * days + it) for it in range(days)]
        found += [it for it in these if not is_closed(it)][:1]
        place += 1
    return found


def test_random_calendars(room, trials=40):
    """Against periods that are counted day by day."""
    chance = random.Random(7)
    for trial in range(trials):
        first, days, count = datetime.date(2026, 1, 1) + DAY * chance.randrange(800), chance.choice((1, 1, 2, 7, 7, 7, 14, 31)), chance.randint(1, 30)
        week = chance.choice(((), (5, 6), (6,), (0, 1, 2, 3, 4, 6)))
        starts = [first + DAY * chance.randint(-30, 200) for _ in range(chance.randrange(5))]
        spans = [(start, start + DAY * chance.choice((0, 0, 2, 12, 40))) for start in starts]

        def is_closed(day):
            return day.weekday() in week or any(start <= day <= end for start, end in spans)

        begins = begins_of(first, days, count, is_closed)
        wanted = [first + DAY * chance.randrange((begins[-1] - first).days) for _ in range(10)]
        names = "Mon Tue Wed Thu Fri Sat Sun".split()
        sheets = {
            "firm": FIRM.format(",Closed on", f"{first},{days},{count},", " ".join(names[it] for it in week)),
            "closed": "From,To\n" + "".join(f"{start},{end}\n" for start, end in spans),
            "demands": due(*wanted),
        }
        rows, _ = rows_of(room, ("run", "day", "demand"), **sheets)
        assert rows[0] == f"run,{begins[0]},{days},{count},,,,", trial
        demands = [it for it in rows if it.startswith("demand")]
        assert periods(demands) == [max([0, *(period for period in range(count) if begins[period] <= it)]) for it in wanted], trial
        odd = [period for period in range(1, count) if begins[period] - begins[period - 1] != DAY * days]
        assert [it for it in rows if it.startswith("day")] == [f"day,{it},{begins[it]},,,,," for it in odd], trial


def test_lead_times_in_working_days(room):
    """20 of them are 4 weeks of five, 4 of six, 3 of seven, and 20 periods of a day; fences so too. Closed spans take none away."""
    for heading in ("Lead (AT)", "Lead (working days)", "Wiederbeschaffungszeit in Arbeitstagen", "Délai (jours ouvrés)", "Plazo (días hábiles)"):
        rows, _ = rows_of(room, ("pair",), firm=FIRM.format(",Closed on", "2026-12-21,7,40", ",Sat Sun"), items=ITEMS.format(heading, 20))
        assert [it.split(",")[5] for it in rows] == ["4", "4"], heading
    for days, closed, lead in ((7, "Sun", 4), (7, "", 3), (1, "Sat Sun", 20), (14, "Sat Sun", 2), (3, "Sat Sun", 10), (7, "Mon Tue Wed Thu Sat Sun", 20)):
        firm = FIRM.format(",Closed on", f"2026-12-21,{days},40", f",{closed}")
        rows, _ = rows_of(room, ("pair",), firm=firm, items=ITEMS.format("Lead (AT)", 20), closed="From,To\n2026-12-24,2027-01-03\n")
        assert [it.split(",")[5] for it in rows] == [str(lead)] * 2, (days, closed)
    items = ITEMS.format("Lead (AT)", 6).replace("Safety stock", "Safety stock,Fence (AT),Sooner (AT),Cover (weeks)").replace(",0,0\n", ",0,0,6,6,1\n")
    rows, _ = rows_of(room, ("pair", "policy"), firm=FIRM.format(",Closed on", "2026-12-21,7,40", ",Sat Sun"), items=items)
    assert rows[-1] == "policy,WORKS,SEAL,2,1,1,0,0"
    assert rows[0].split(",")[5] == "2"


@pytest.mark.parametrize(
    "sheets, told",
    [
        ({"closed": "Date,Until\n2026-12-24,2026-12-23\n"}, "closed.csv row 2, Until: 2026-12-23 is before 2026-12-24"),
        ({"closed": "Date\n2026-02-30\n"}, "closed.csv row 2, Date: '2026-02-30' is on no calendar"),
        ({"closed": "Until\n2026-12-24\n"}, "closed.csv row 1: it has no column Date"),
        (
            {"closed": "Werk,Von\nWORKS,2026-12-24\n"},
            "closed.csv row 1, Werk: all plants of a table have the same periods; give the days on which none works, without this column",
        ),
        (
            {"firm": FIRM.format(",Closed on", "2026-12-21,7,4", ",Di Do")},
            "firm.csv row 2, Closed on: 'Di Do': 'Di' is no day of the week, or may be two; write Sat Sun",
        ),
        (
            {"firm": FIRM.format(",Closed on", "2026-12-21,7,4", ",Mon-Fri")},
            "firm.csv row 2, Closed on: 'Mon-Fri' is no day of the week, or may be two; write Sat Sun",
        ),
        (
            {"firm": FIRM.format(",Closed on", "2026-12-21,7,4", ",Mo Tu We Th Fr Sa So")},
            "firm.csv row 2, Closed on: 'Mo Tu We Th Fr Sa So' leaves no day on which anyone works",
        ),
        (
            {"items": ITEMS.format("Lead (AT)", 20)},
            "items.csv row 1, Lead (AT): firm.csv doesn't say on which days of the week nobody works; give a column Closed on there, as Sat Sun, "
            "or head this one Lead (days)",
        ),
        (
            {"closed": "From,To\n2027-01-04,9999-12-31\n"},
            "firm.csv row 2, First day: a plan from 2026-12-21 on, of 4 times 7 days, isn't within the years 1970 to 2199",
        ),
    ],
)
def test_slips_of_calendars(room, sheets, told):
    _, said = rows_of(room, ("run",), status=1, **sheets)
    assert said == f"{told}\nbin/sheets: 1 slip; nothing is written\n"


def test_figures_start_again_when_somebody_works(room):
    """A reset of New Year's Day, in the shutdown, is one of the first day behind it; so is a bill that changes then."""
    items = ITEMS.format("Lead (days)", 7) + "DEPOT,PUMP,from:WORKS,lot,7,0,0\n"
    bills = "Plant,Parent,Component,Per,Valid from,Valid to\nWORKS,PUMP,SEAL,2,,2026-12-31\nWORKS,PUMP,SEAL,3,2027-01-01,\n"
    sheets = {"items": items, "bills": bills, "closed": "Date,Until\n2026-12-24,2027-01-03\n", "resets": "From,To,Item,Date\nWORKS,DEPOT,PUMP,2027-01-01\n"}
    rows, said = rows_of(room, ("reset", "bill", "usage", "day"), **sheets)
    usages = ["usage,WORKS,PUMP,SEAL,0,2,1,", "usage,WORKS,PUMP,SEAL,1,3,1,"]
    assert rows == ["bill,WORKS,PUMP,SEAL,3,,,", "reset,WORKS,DEPOT,PUMP,1,,,", *usages, "day,1,2027-01-04,,,,,"]
    assert "resets.csv" not in said
    # (without the shutdown figures start again a day before)
    rows, said = rows_of(room, ("reset", "day"), **{**sheets, "closed": "Date\n"})
    assert rows == ["reset,WORKS,DEPOT,PUMP,1,,,"]
    assert "resets.csv row 2: 2027-01-01 isn't the first day of a period; figures start again on 2026-12-28\n" in said


def test_the_period_that_holds_today(room):
    """Through the shutdown it is the week before it. The day that is told goes on by whole weeks, also where nobody works on it."""
    firm, closed = FIRM.format("", "2026-12-21,7,8", ""), "Date,Until\n2026-12-24,2027-01-03\n2027-01-11,\n"
    for day, meant in (("2026-12-21", ""), ("2027-01-03", ""), ("2027-01-05", "2027-01-04"), ("2027-01-13", "2027-01-11"), ("2026-12-18", "2026-12-14")):
        rows_of(room, (), firm=firm, closed=closed)
        said = room.run(f"bin/sheets --today {day} --out table.csv firm 2>&1")
        told = f"the period from 2026-12-21 on doesn't hold today, {day}; the one that does begins on {meant}\n"
        assert (told in said) if meant else ("hold today" not in said), day
