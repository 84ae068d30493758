"""tools/year: a small firm's year in which weeks go wrong, a large one's over closed weeks, and that what is wrong is found."""
import argparse
import datetime
import itertools
import re

import pytest
from support import module_of

year = module_of("year")
DAY, WEEK = datetime.timedelta(days=1), datetime.timedelta(days=7)
PUMP, SEAL = ("DEPOT", "PUMP"), ("WORKS", "SEAL")


@pytest.fixture
def firm(tmp_path, monkeypatch, program):
    """A small firm's year without trouble, of which three Mondays are over."""
    monkeypatch.setenv("MRP", program)
    found = year.Year(4, str(tmp_path), argparse.Namespace(firm="small", trouble=0, mondays=60))
    for _ in "123":
        found.monday()
    assert found.judge.found == []
    return found


def told(found):
    """Returns what another Monday and its week tell, without seed and day."""
    found.monday()
    return lines(found)


def lines(found):
    """Returns what is found, without seed and day."""
    return [it.partition(": ")[2] for it in found.judge.found]


def named(room, words):
    """Runs a year without a finding, and returns how often each kind of thing went wrong. What has to be named is named each time."""
    room.needs_program()
    last = room.run(f"tools/year {words}").splitlines()[-1]
    assert last.startswith("1 year, 0 findings; named: ")
    found = {kind: (int(times), int(count)) for kind, times, count in re.findall(r"(\w+) (\d+) of (\d+)", last)}
    assert all(times == count for kind, (times, count) in found.items() if kind in year.trouble.TOLD)
    return {kind: count for kind, (_, count) in found.items()}


def test_a_year_of_mondays(room):
    """Much goes wrong, of each kind that has to be told. Figures start again, and of an advice from before that day is heard behind it."""
    assert {*year.trouble.TOLD} <= named(room, "--firm small --seed 4 --trouble 100").keys()


def test_a_year_of_three_plants_and_twenty_vendors(room):
    """Nobody works over the turn of the year, and a customer's figures start again."""
    assert "late" in named(room, "--seed 2 --mondays 40")


def test_weeks_in_which_nobody_works():
    """By hand: two weeks before the turn of the year, and at Easter none, for three days are open in each of them."""
    firm = year.works.large(year.random.Random(1), year.FIRST, year.RESETS[0])
    firm.closed = (datetime.date(2026, 12, 19), datetime.date(2027, 1, 3)), (datetime.date(2027, 3, 26), datetime.date(2027, 3, 29))
    firm.monday = datetime.date(2026, 12, 14)
    assert firm.end == datetime.date(2027, 1, 4)
    assert firm.after(datetime.date(2026, 12, 8), 2) == datetime.date(2027, 1, 5)
    assert firm.after(datetime.date(2027, 3, 16), 2) == datetime.date(2027, 3, 30)


def test_an_order_that_lacks_parts_comes_later():
    """By hand: pumps take a week, and can't start before the next one."""
    firm = year.works.small(year.random.Random(1), year.FIRST, year.RESETS[0])
    order = year.world.Order("FA-1", ("WORKS", "PUMP"), 5, year.FIRST, year.FIRST + WEEK, year.FIRST + WEEK)
    firm.starts, firm.stock["WORKS", "MOTOR"] = {"FA-1": order}, 4
    firm.start(order)
    assert ({*firm.starts}, firm.lacked, order.comes) == ({"FA-1"}, {("WORKS", "MOTOR")}, year.FIRST + 2 * WEEK)
    firm.stock["WORKS", "MOTOR"], order.comes = 5, year.FIRST
    firm.start(order)
    assert ({*firm.starts}, {*firm.production}, order.comes) == (set(), {"FA-1"}, year.FIRST + WEEK)


def test_figures_of_a_customer():
    """By hand. 7 and 5 of 100 are called for, of which 9 are shipped; then figures start again, with 4 and 2 on one day."""
    first, reset = datetime.date(2026, 12, 28), datetime.date(2027, 1, 6)
    found = year.world.Customer("ACME", PUMP, first, 100, reset)
    for days, wanted, left in ((2, 7, 0), (4, 5, 3), (10, 4, 4), (10, 2, 2), (9, 1, 1)):
        found.calls.append(year.world.Demand("A-1", PUMP, first + days * DAY, wanted, left))
    rows = [((it - first).days, figure, mark) for it, figure, mark in found.rows()]
    assert (rows, found.shipped()) == ([(0, 100, ""), (2, 107, ""), (4, 112, ""), (9, 1, "x"), (10, 7, "")], 109)
    found.restart(reset - DAY)
    assert found.reset == reset
    found.restart(reset)
    assert ([*found.rows()], found.shipped()) == ([(reset, 1, ""), (reset + DAY, 7, "")], 0)


def test_a_figure_that_differs_is_found(firm):
    lane = firm.firm.lanes["WORKS", *PUMP]
    lane.total += 1
    *_, shipped, in_force = told(firm)
    assert shipped.startswith("('WORKS', 'DEPOT', 'PUMP'): ")
    assert shipped.endswith(" were shipped")
    assert in_force.endswith(" by the supplier")


@pytest.mark.parametrize(
    "column, said", [("Closed in transit", "are under way from before"), ("Backlog", "a backlog of 1000"), ("Release", "release 1000"), ("Closed", "were shipped")]
)
def test_a_release_that_says_otherwise_is_found(firm, column, said):
    firm.desk.released["V-SEALS", *SEAL][0][column] = "1000"
    firm.judge.figures()
    assert [it for it in lines(firm) if said in it]


def test_stock_that_comes_from_nowhere_is_found(firm):
    firm.firm.stock[SEAL] += 1
    assert len([it for it in told(firm) if it.startswith("('WORKS', 'SEAL')")]) == 2


@pytest.mark.parametrize("why", ["placed", "over", "cancelled", "lost"])
def test_orders_that_come_from_nowhere_are_found(firm, why):
    firm.firm.moved[SEAL, why] += 1
    assert [it for it in told(firm) if it.startswith("('WORKS', 'SEAL')") and "don't leave" in it]


def test_an_order_that_the_sheets_have_otherwise_is_found(firm, monkeypatch):
    opened = firm.desk.open

    def open_and_change():
        opened()
        next(iter(firm.firm.production.values())).quantity += 1

    while not firm.firm.production:
        firm.monday()
    monkeypatch.setattr(firm.desk, "open", open_and_change)
    assert [it for it in told(firm) if "are open in the table" in it]


@pytest.mark.parametrize("is_named", [True, False])
def test_a_demand_that_nothing_named_is_found(firm, monkeypatch, is_named):
    """More is wanted on a day than there is: bin/hit names it, and where it doesn't that is found."""
    if not is_named:
        monkeypatch.setattr(firm.desk, "hits", lambda: [])
    monday = firm.firm.monday
    wanted = firm.firm.want(PUMP, monday, 500)
    missed = f"{PUMP}: {{}} of {wanted.number} for {monday} are missed, known on {monday}, and named on None"
    assert told(firm) == ([] if is_named else [missed.format(wanted.quantity)])
    assert wanted.number in firm.judge.missed


def test_a_demand_that_is_named_no_more_is_found(firm, monkeypatch):
    """On the Monday of its week it has to be named still."""
    monday = firm.firm.monday
    wanted = firm.firm.want(PUMP, monday + WEEK, 500)
    assert told(firm) == []
    assert firm.judge.named[wanted.number] == (monday, monday)
    monkeypatch.setattr(firm.desk, "hits", lambda: [])
    missed = f"{PUMP}: {{}} of {wanted.number} for {monday + WEEK} are missed, known on {monday}, and named on None"
    firm.monday()
    assert missed.format(wanted.quantity) in lines(firm)


@pytest.mark.parametrize("pieces, is_found", [(2, False), (0, True), (3, True)])
def test_a_demand_that_is_missed_for_a_forecast_that_nobody_ordered(firm, tmp_path, pieces, is_found):
    """By hand: 10 bikes are there, and orders for them are for two periods. They last until period 2; the next 6 want 6 wheels in period 2, where 3
    are there and more come in 3. With 2 bikes less orders are for 3 in period 2 and 5 in 4, and wheels come in time; with 3 less they are for 3 in
    period 1 and 6 in 3 again.
    """
    judge, monday = firm.judge, firm.judge.now + WEEK
    mrp, bike, wheel = year.desk.mrp, ("P1", "BIKE"), ("P1", "WHEEL")
    rows = [mrp.Run(monday, 7, 8), mrp.Plant("P1"), mrp.Pair(*bike, "make", "periods:2", 1, 10, 0), mrp.Pair(*wheel, "buy", "lot", 3, 3, 0)]
    rows += [mrp.Bill(*bike, "WHEEL", 1), *(mrp.Demand(*bike, period, wanted) for period, wanted in ((1, 8), (2, 2), (3, 1), (4, 5)))]
    room = tmp_path / str(monday)
    room.mkdir()
    year.desk.write(room / "table.csv", rows)
    (room / "names.csv").write_text(f"{','.join(mrp.Names.COLUMNS)}\n")
    demand = year.world.Demand("A-0", bike, monday + 3 * WEEK + DAY, 1, 1)
    firm.firm.forecast, judge.unordered[monday], judge.now = bike, pieces, monday + WEEK
    judge.named["A-0"], judge.known["A-0"] = (monday, judge.now), monday - WEEK
    judge.miss(demand)
    said = f"{bike}: 1 of A-0 for {demand.due} are missed, known on {monday - WEEK}, and named on {monday}"
    assert lines(firm) == [said] * is_found


def test_what_is_left_of_a_forecast(firm):
    """Of what is forecast for a week 2 more than is ordered."""
    monday = firm.firm.monday
    firm.firm.want(PUMP, monday + DAY, 3)
    ordered = sum(it.quantity for it in firm.firm.demands if it.pair == PUMP and monday <= it.due < monday + WEEK)
    firm.firm.forecast, firm.firm.window, firm.firm.forecasts = PUMP, (0, 0), {monday: ordered + 2}
    firm.monday()
    assert firm.judge.unordered[monday] == 0
    assert firm.judge.unordered[monday + WEEK] == 2


def test_an_order_that_is_planned_again_is_found(firm):
    order = next(it for it in firm.desk.reports["orders"] if type(it) is year.desk.mrp.Order)
    firm.judge.monday([order], firm.desk.reports)
    assert f"{order} was booked, and is planned again" in lines(firm)


def test_orders_in_frozen_weeks_are_found(firm):
    release = next(it for it in firm.desk.reports["plan"] if type(it) is year.desk.mrp.Plan and (it.plant, it.item) == PUMP and it.release)
    pair = firm.firm.pairs[PUMP]
    firm.firm.pairs[PUMP] = pair._replace(fence=pair.lead + release.period + 1)
    firm.judge.frozen()
    assert lines(firm) == [f"DEPOT PUMP: {release.release} released in {release.period}, where releases are frozen"]


def test_an_order_beside_a_receipt_is_found(firm):
    """A receipt that would count sooner comes later than an order."""
    rows = []
    while not rows:
        firm.monday()
        rows = [it for it in firm.desk.reports.table(year.desk.mrp.Receipt) if it.period]
    pair, plan = rows[0].pair, firm.desk.reports["plan"]
    first = next(place for place, it in enumerate(plan) if (it.plant, it.item) == pair)
    plan[first] = plan[first]._replace(order=1)
    firm.firm.pairs[pair] = firm.firm.pairs[pair]._replace(sooner=104)
    firm.judge.sooner(firm.desk.reports)
    assert lines(firm)[0].startswith(f"{pair}: an order in 0, and of ")


@pytest.mark.parametrize("place, column", enumerate(("gross", "release")))
def test_a_plan_that_doesn_t_stay_is_found(firm, place, column):
    *_, figures = firm.judge.before
    figures[place][PUMP][0] += 1
    assert [it for it in told(firm) if it.startswith(f"{PUMP}: {column} was [")]


def test_a_lack_that_nothing_names_is_found(firm):
    pair = next(it for it in reversed([*firm.firm.pairs]))
    firm.judge.lacked = {pair}
    firm.judge.name()
    assert lines(firm) == [f"{pair} lacked last week, and nothing names it"]


def test_what_nothing_names_is_found(firm):
    """On the second Monday on which it can be seen, or at the end."""
    monday = firm.firm.monday
    firm.trouble.events = [year.trouble.Event("late", monday, SEAL, "L-0", 5, ("V-SEALS", *SEAL), monday, monday + days * WEEK) for days in (0, 1)]
    firm.trouble.events.append(year.trouble.Event("count", monday, SEAL, "", 5, seen=monday))
    for _ in "12":
        firm.monday()
    assert lines(firm) == [f"{it} was named by nothing".replace("True", "False") for it in firm.trouble.events[:1]]
    firm.judge.end()
    assert len(lines(firm)) == 2


def test_what_went_wrong_is_counted():
    events = [year.trouble.Event(kind, year.FIRST, SEAL, "", 1, is_named=is_named) for kind, is_named in itertools.product(("scrap", "late"), (True, False))]
    assert (year.wrong(events), year.wrong([])) == ("late 1 of 2, scrap 1 of 2", "nothing went wrong")
