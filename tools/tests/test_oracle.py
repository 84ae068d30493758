"""The second planner, tools/oracle.py: the plan of one pair, the plans and reports of a firm, and the command."""
import csv
import datetime
import fractions
import itertools
import math
import random
import re

import cases
import firms
import mrp
import oracle
import pytest
import reach
from crates import TOP

FIGURES = {
    "firm order of the parent": (
        {"lead": 2, "on_hand": 5, "firm_start": [20], "firm_due": [0, 0, 0, 20], "gross": [0, 0, 0, 30, 10]},
        {"incoming": [0, 0, 0, 20, 0], "order": [0, 0, 0, 5, 10], "release": [20, 5, 10, 0, 0]},
        [5, 5, 5, 0, 0],
        [],
    ),
    "its component": (
        {"lead": 1, "gross": [40, 10, 20, 0, 0]},
        {"incoming": [0] * 5, "order": [40, 10, 20, 0, 0], "release": [50, 20, 0, 0, 0]},
        [0] * 5,
        [(0, 40, 1)],
    ),
    "fence": (
        {"lead": 1, "fence": 3, "firm_start": [12], "firm_due": [0, 12], "gross": [0, 10, 10, 10, 10]},
        {"incoming": [0, 12, 0, 0, 0], "order": [0, 0, 8, 10, 10], "release": [12, 0, 18, 10, 0]},
        [0, 2, 0, 0, 0],
        [(2, 8, 1)],
    ),
    "receipt that is counted sooner": (
        {"lead": 1, "on_hand": 10, "safety": 5, "sooner": 2, "receipts": [0, 0, 0, 60], "gross": [5, 40, 0, 30, 0]},
        {"incoming": [0, 40, 0, 20, 0], "order": [0, 0, 0, 10, 0], "release": [0, 0, 10, 0, 0]},
        [5] * 5,
        [],
    ),
    "the same that isn't": (
        {"lead": 1, "on_hand": 10, "safety": 5, "receipts": [0, 0, 0, 60], "gross": [5, 40, 0, 30, 0]},
        {"incoming": [0, 0, 0, 60, 0], "order": [0, 40, 0, 0, 0], "release": [40, 0, 0, 0, 0]},
        [5, 5, 5, 35, 35],
        [],
    ),
    "cover": (
        {"lead": 1, "on_hand": 10, "cover": 1, "gross": [5, 5, 20, 5, 0]},
        {"incoming": [0] * 5, "order": [0, 20, 5, 0, 0], "release": [20, 5, 0, 0, 0]},
        [5, 20, 5, 0, 0],
        [],
    ),
}
PLAIN = oracle.PairData(("lot",), 0, 0, 0, 0, 0, 0, 0, 0, [], [], [], [], [])


@pytest.mark.parametrize("name", FIGURES)
def test_worked_figures(name):
    """Of pairs that are planned lot for lot, worked by hand."""
    given, rows, available, late = FIGURES[name]
    plan = oracle.PairPlan(PLAIN._replace(**given))
    found = {"incoming": plan.incoming, "order": plan.order, "release": plan.release}
    assert (found, plan.available, plan.late) == (rows, available, late)


def test_counted_receipts():
    """The terms of the worked figure, by period."""
    plan = oracle.PairPlan(PLAIN._replace(**FIGURES["receipt that is counted sooner"][0]))
    terms = [[term(t) for t in range(5)] for term in (plan.due, plan.short, plan.had)]
    assert terms == [[0, 0, 0, 60, 60], [0, 40, 40, 70, 70], [0, 40, 40, 60, 60]]


def test_last_word_of_multiple():
    """A lot of 50 is made up to a multiple of 40, and where 200 is the least order, to one that isn't below it."""
    given = PLAIN._replace(rule=("fixed", 50), multiple=40, gross=[45, 0, 0])
    assert oracle.PairPlan(given).order == [80, 0, 0]
    assert oracle.PairPlan(given._replace(least=200, multiple=60)).order == [240, 0, 0]


def period_rows(kind, row):
    """Yields rows of a table that give a pair these quantities."""
    for t, quantity in enumerate(row):
        for left in range(quantity, 0, -(10**12)):
            yield f"{kind},A,X,{t},{min(left, 10**12)},,,"


def firm_rows(starts, dues):
    """Yields firm orders with these starts and dues: what starts first is due first."""
    left = [*dues]
    for start, quantity in enumerate(starts):
        while quantity:
            due = next(t for t, it in enumerate(left) if it)
            some = min(quantity, left[due], 10**12)
            yield f"firm,A,X,{start},{due},{some},,"
            quantity, left[due] = quantity - some, left[due] - some


def table_of(given):
    """Returns a table of one pair that has this planning data."""
    pair = f"pair,A,X,from:B,{':'.join(map(str, given.rule))},{given.lead},{given.on_hand},{given.safety}"
    rows = [f"run,2026-01-05,7,{len(given.gross)},,,,", "plant,A,,,,,,", "plant,B,,,,,,", pair, "pair,B,X,buy,lot,0,0,0"]
    rows += itertools.chain(period_rows("demand", given.gross), period_rows("receipt", given.receipts))
    rows += (it.replace("receipt,A,X", "ship,B,A,X")[:-1] for it in period_rows("receipt", given.arrivals))
    rows += firm_rows(given.firm_start, given.firm_due)
    policy = [f"policy,A,X,{','.join(map(str, given[4:9]))}"] * any(given[4:9])
    return "".join(f"{it}\n" for it in rows + policy).encode()


def bound(given):
    """Returns what the bound of a table counts of a pair: what is firm twice, for it is there, and it may be needed."""
    quantities = given.rule[1:] if given.rule[0] != "periods" else ()
    rows = (*given.receipts, *given.arrivals, *given.firm_due, *given.firm_due, *given.gross)
    return sum((*quantities, *given[2:4], *given[7:9], *rows))


def test_plans_of_tables():
    """The plan of a pair is that of a table with it, and with a plant that it is taken from."""
    judged = [(it, oracle.Oracle(table_of(it))) for it in oracle.pair_cases(1500, 1)]
    assert all((judge.refused is not None) == (bound(it) > oracle.LIMIT) for it, judge in judged)
    planned = [(it, judge.firm) for it, judge in judged if not judge.refused]
    terms = [frozenset(place for place in range(4, 9) if it[place]) for it, _ in planned]
    assert min(map(terms.count, map(frozenset, ([], [4], [5], [6], [7], [8], range(4, 9))))) > 100
    for given, firm in planned:
        plan = oracle.PairPlan(given)
        rows = given.gross, plan.incoming, plan.order, plan.release, plan.available
        late = [tuple(it[3:]) for it in firm.plan_report() if it[:2] == ("late", "A")]
        assert (rows, plan.late) == (tuple(firm.plans["A", "X"]), late), oracle.data_text(given)


def breaks(given, plan):
    """Returns the names of the laws that a plan breaks."""
    t_all, last, most = plan.periods, len(given.gross) - 1, max(given.multiple, 1)
    due, had = [plan.due(t) for t in t_all], [plan.had(t) for t in t_all]
    sooner = [due[min(t + given.sooner, last)] for t in t_all]
    orders = [t for t in t_all if plan.order[t]]
    quantities = sum(given.rule[1:]) if given.rule[0] != "periods" else 0
    released = given.safety + sum(given.gross) + quantities + given.least + given.multiple + sum(given.firm_start)
    ahead = [sum(given.gross[t + 1 : t + 1 + given.cover]) for t in t_all]
    frozen = [t for t in t_all if t < given.fence - given.lead]
    firm = given.firm_start + [0] * len(given.gross)
    laws = {
        "counted": all(a <= b <= c for a, b, c in zip(due, had, sooner)),
        "counted rises": had == sorted(had) and had[last] == due[last],
        "orders come last": all(had[t] == sooner[t] for t in orders),
        "covered": all(given.safety + a <= b for a, b in zip(ahead, plan.available)),
        "balance": given.on_hand + sum(plan.incoming) + sum(plan.order) == sum(given.gross) + plan.available[last],
        "needed": all((plan.order[t] > 0) == (plan.need(t, t) > 0) for t in t_all),
        "multiple": all(plan.order[t] % most == 0 for t in orders),
        "not below": all(plan.order[t] >= max(plan.lot(t), given.least) for t in orders),
        "least multiple": all(plan.order[t] - most < max(plan.lot(t), given.least) for t in orders),
        "frozen": all(plan.release[t] == firm[t] for t in frozen),
        "released": sum(plan.release) <= released,
        "bound": max(map(max, (plan.incoming, plan.order, plan.release, plan.available))) <= oracle.LIMIT,
        "late": all(t < max(given.lead, given.fence) == t + by for t, _, by in plan.late),
    }
    return [law for law, holds in laws.items() if not holds]


def test_laws():
    """They hold of plans made from a seed, with each of the terms alone and all together."""
    broken = ((it, breaks(it, oracle.PairPlan(it))) for it in oracle.pair_cases(2000, 7))
    assert [(laws, oracle.data_text(it)) for it, laws in broken if laws] == []


def test_sums_of_receipts_and_arrivals():
    """Where no receipt is counted sooner, only their sum matters."""
    for given in itertools.islice((it for it in oracle.pair_cases(1000, 5) if not it.sooner), 300):
        both = [sum(it) for it in itertools.zip_longest(given.receipts, given.arrivals, fillvalue=0)]
        other = given._replace(receipts=both, arrivals=[])
        assert oracle.plan_text(oracle.PairPlan(given)) == oracle.plan_text(oracle.PairPlan(other))


def test_cases_have_all_kinds():
    """Within the limits: each rule, each term alone and with others, none, each of them beyond the horizon."""
    some = [*oracle.pair_cases(2000, 3)]
    assert {it.rule[0] for it in some} == {"lot", "fixed", "periods", "min"}
    assert {len(it.gross) for it in some} >= {1, 2, *range(3, 13), 104}
    terms = [frozenset(place for place in range(4, 9) if it[place]) | {*"f" * any(it.firm_start)} for it in some]
    assert {*terms} >= {frozenset(), *map(frozenset, ([4], [5], [6], [7], [8], "f", [4, 5, 6, 7, 8, "f"]))}
    for place in (1, 5, 6):
        assert {0, 104} <= {it[place] for it in some}
        assert any(len(it.gross) < it[place] < 104 for it in some)
    assert all(0 <= it.fence < len(it.gross) for it in some)
    assert all(any(compared(it.fence, it.lead) for it in some if it.fence) for compared in (int.__lt__, int.__gt__))
    for it in some:
        numbers = it.rule[1:] if it.rule[0] != "periods" else ()
        rows = (*it.receipts, *it.arrivals, *it.firm_due, *it.gross)
        assert sum((*numbers, it.on_hand, it.safety, it.least, it.multiple, *rows)) <= 10**15
        assert max(*it[2:4], *it[7:9], *it[1:2]) <= 10**12
        starts, dues = ([*itertools.accumulate(it[place] + [0] * 104)] for place in (11, 12))
        assert starts[103] == dues[103]
        assert all(start >= due for start, due in zip(starts, dues))


def test_command(room):
    """It prints as many cases as are asked for, each with its rows in order, and the same from the same seed."""
    said = room.run("tools/oracle.py --cases 40 --seed 2")
    assert said == room.run("tools/oracle.py --cases 41 --seed 2")[: len(said)]
    assert said != room.run("tools/oracle.py --cases 40")
    cases = said.removesuffix("end\n").split("end\n")
    assert len(cases) == 40
    rows = "".join(rf"{it}(,\d+)*\n" for it in ("receipts", "arrivals", "firm_start", "firm_due"))
    rows += "".join(rf"{it}(,\d+)+\n" for it in ("gross", "incoming", "order", "release", "available"))
    form = rf"pair,(lot|fixed:\d+|periods:\d+|min:\d+:\d+)(,\d+){{8}}\n{rows}(late,\d+,\d+,\d+\n)*"
    assert all(re.fullmatch(form, it) for it in cases)


# The plans and reports of a firm.


def some_firms():
    """Yields tables of firms that aren't refused, as they are read, with what the second planner answers."""
    for seed in range(120):
        text = firms.table(random.Random(seed), 6, 14)
        judge = oracle.Oracle(text)
        if not judge.refused:
            yield mrp.Table.read(text.decode().splitlines()), judge


def row_of(periods, quantities):
    """Returns the sums by period of some pairs of a period and a quantity."""
    row = [0] * periods
    for period, quantity in quantities:
        row[period] += quantity
    return row


def asked(table, plans, pair, t):
    """Returns the gross requirement of a pair in a period."""
    plant, item = pair
    found = sum(it.quantity for it in table.demands if (it.plant, it.item, it.period) == (plant, item, t))
    for it in table.bills:
        if (it.plant, it.component) == pair:
            begun = {row.period: row[4:] for row in table.usages if row[:3] == it[:3] and row.period <= t}
            per, base = begun[max(begun)] if begun else (it.per, 1)
            # (whole parents' bases, and what is begun of one)
            whole, rest = divmod(plans[plant, it.parent].release[t], base)
            found += per * whole + math.ceil(fractions.Fraction(per * rest, base))
    for it in table.pairs:
        if it.item == item and it.supply not in ("make", "buy"):
            whole, low = plans[it.plant, item].release[t], 0
            for source, share in mrp.sources(it.supply):
                part = whole * (low + share) // 1000 - whole * low // 1000
                found, low = found + part * (source == plant), low + share
    return found


def policy_of(table, pair):
    """Returns how a pair is planned beyond its own row."""
    found = [oracle.Policy(*it[2:]) for it in table.policies if it.pair == pair]
    return found[0] if found else oracle.NO_POLICY


def data_of(table, row, gross):
    """Returns the planning data of a pair of a table with this gross requirement."""
    pair, periods, (rule, *numbers) = (row.plant, row.item), table.run.periods, row.rule.split(":")
    firm = [it for it in table.firms if it.pair == pair]
    return oracle.PairData(
        rule=(rule, *map(int, numbers)),
        **dict(zip(("lead", "on_hand", "safety"), row[4:])),
        **policy_of(table, pair)._asdict(),
        receipts=row_of(periods, ((it.period, it.quantity) for it in table.receipts if it.pair == pair)),
        arrivals=row_of(periods, ((it.period, it.quantity) for it in table.ships if it.pair == pair)),
        firm_start=row_of(periods, ((it.start, it.quantity) for it in firm)),
        firm_due=row_of(periods, ((it.due, it.quantity) for it in firm)),
        gross=gross,
    )


def test_plans_of_firms():
    """Each pair's gross requirement is what its demands and the releases of its demanders say, and its plan that of its own
    planning data, by definitions that keep no sums.
    """
    kinds, policies, usages = set(), set(), set()
    for table, judge in some_firms():
        periods, plans = table.run.periods, judge.firm.plans
        usages |= {(it.period > 0, it.per > 0, it.base > 1) for it in table.usages}
        policies |= {frozenset(place for place, figure in enumerate(it[2:]) if figure) for it in table.policies}
        for it in table.pairs:
            pair = it.plant, it.item
            kinds |= {(it.supply[:4], sum(order.pair == pair for order in table.firms) > 1)}
            given = data_of(table, it, [asked(table, plans, pair, t) for t in range(periods)])
            plan = oracle.PairPlan(given)
            assert (given.gross, plan.incoming, plan.order, plan.release, plan.available) == tuple(plans[pair]), pair
    assert kinds == {*itertools.product(("make", "buy", "from"), (False, True))}
    assert policies >= {*(frozenset([it]) for it in range(5)), frozenset(range(5))}
    assert usages == {*itertools.product((False, True), repeat=3)}


def rows_of(judge, command, *words):
    return [*mrp.rows_of(judge.answer(command, *words).out)]


def test_orders_of_firms():
    """Firm and planned orders that are released in a period sum to the plan's release, those that are due to what is
    ordered and to what firm orders bring; up to a period stand those that are released up to it, in the same order.
    """
    words = set()
    for table, judge in some_firms():
        found, plans = rows_of(judge, "orders"), judge.firm.plans
        words |= {type(it) for it in found}
        for pair, plan in plans.items():
            own = [it for it in found if (it.plant, it.item) == pair]
            assert row_of(table.run.periods, ((it.release, it.quantity) for it in own)) == plan.release
            planned = [(it.due, it.quantity) for it in own if isinstance(it, mrp.Order)]
            assert row_of(table.run.periods, planned) == plan.order
            firm = [(it.start, it.due, it.quantity) for it in table.firms if it.pair == pair]
            shown = [(it.release, it.due, it.quantity) for it in own if isinstance(it, mrp.FirmOrder)]
            assert sorted(firm, key=lambda it: it[1]) == shown
        for until in (0, 1, 103):
            assert rows_of(judge, "orders", until) == [it for it in found if it.release <= until]
    assert words == {mrp.Order, mrp.FirmOrder}


def test_messages_of_firms():
    """Up to a period stand those for orders that come up to it. Once all are obeyed, what is required is there in time, also for
    the periods that a policy covers, or no order comes later.
    """
    kinds = set()
    for table, judge in some_firms():
        found = rows_of(judge, "advice")
        kinds |= {(it.action, it.kind) for it in found}
        for until in (0, 1, 103):
            assert rows_of(judge, "advice", until) == [it for it in found if it.period <= until]
        for row in table.pairs:
            pair = row.plant, row.item
            orders = [(it.period, it.quantity) for it in (*table.receipts, *table.ships) if it.pair == pair]
            orders += [(it.due, it.quantity) for it in table.firms if it.pair == pair]
            for it in (it for it in found if (it.plant, it.item) == pair):
                orders.remove((it.period, it.quantity))
                orders += [(it.needed, it.quantity)] if it.needed is not None else []
            gross, cover = judge.firm.plans[pair].gross, policy_of(table, pair).cover
            for t in range(table.run.periods):
                there = row.on_hand + sum(quantity for period, quantity in orders if period <= t)
                lacks = there < row.safety + sum(gross[: t + cover + 1])
                assert not lacks or all(period <= t for period, _ in orders), (pair, t)
    assert kinds == {*itertools.product(("expedite", "defer", "cancel"), ("receipt", "ship", "firm"))}


def without_cancelled(table, judge):
    """Returns a table without the open orders that are never needed."""
    left, rows = [it for it in rows_of(judge, "advice") if it.action == "cancel"], []
    for word, *fields in table.rows:
        row = mrp.TABLE_FORMS[word].row(fields)
        if word in ("receipt", "ship", "firm"):
            period = row.due if word == "firm" else row.period
            said = (word, *row.pair, period, row.quantity)
            found = next((it for it in left if (it.kind, it.plant, it.item, it.period, it.quantity) == said), None)
            if found and found.supplier in (None, fields[0]):
                left.remove(found)
                continue
        rows.append((word, *fields))
    assert left == []
    return mrp.Table(rows)


def counted_by(table, judge, pair):
    """Returns how many of a pair's receipts the plan counts up to each period."""
    others = [(it.period, it.quantity) for it in table.ships if it.pair == pair]
    others += [(it.due, it.quantity) for it in table.firms if it.pair == pair]
    return [*itertools.accumulate(map(int.__sub__, judge.firm.plans[pair].incoming, row_of(table.run.periods, others)))]


def test_receipts_that_count_sooner():
    """Each that the plan counts sooner is to be expedited, to where it is first counted or sooner. Without all that is to be cancelled a
    pair orders the same.
    """
    sooner, cancelled = 0, 0
    for table, judge in some_firms():
        messages, less = rows_of(judge, "advice"), without_cancelled(table, judge)
        for row in table.pairs:
            pair, due = (row.plant, row.item), 0
            own = [it for it in messages if it.kind == "receipt" and (it.plant, it.item) == pair]
            had, plan = counted_by(table, judge, pair), judge.firm.plans[pair]
            # (of receipts of a period the first in the table comes first)
            for it in sorted((it for it in table.receipts if it.pair == pair), key=lambda it: it.period):
                first = next(t for t, counted in enumerate(had) if counted > due)
                due += it.quantity
                if first < it.period:
                    found = next(row for row in own if (row.period, row.quantity) == (it.period, it.quantity))
                    assert (found.action, found.needed <= first) == ("expedite", True)
                    own.remove(found)
                    sooner += 1
            assert oracle.PairPlan(data_of(less, row, plan.gross)).order == plan.order
            cancelled += any(it.action == "cancel" and (it.plant, it.item) == pair for it in messages) and any(plan.order)
    assert sooner > 50
    assert cancelled > 50


def test_schedules_of_vendors():
    """They stand behind the lanes', a vendor's rows for each of its rows in the table: what was delivered and is under way, and then the
    releases of the pair, of which those before a reset sum to the figure that it ends.
    """
    resets, several = set(), 0
    for table, judge in some_firms():
        found, lanes = rows_of(judge, "schedule"), rows_of(judge, "cums")
        at = next((at for at, it in enumerate(found) if it.kind == "opening" and it.supplier in {it.vendor for it in table.vendors}), len(found))
        assert sum(it.kind == "opening" for it in found[:at]) * 2 == len(lanes)
        assert [it[1:4] for it in found[at:] if it.kind == "opening"] == [it[:3] for it in table.vendors]
        for it in table.vendors:
            own = [row for row in found[at:] if row[1:4] == it[:3]]
            release, last = judge.firm.plans[it.pair].release, table.run.periods if it.reset is None else it.reset
            assert (own[0].period, own[0].quantity, own[0].cumulative) == (None, it.transit, it.figure + it.transit)
            calls = [(row.period, row.quantity) for row in own if row.kind == "call"]
            assert calls == [(t, pieces) for t, pieces in enumerate(release) if pieces]
            sums = [own[0].cumulative + sum(release[: t + 1]) if t < last else sum(release[last : t + 1]) for t, _ in calls]
            assert sums == [row.cumulative for row in own if row.kind == "call"]
            closed = [(row.period, row.quantity, row.cumulative) for row in own if row.kind == "reset"]
            assert closed == ([] if it.reset is None else [(it.reset, None, own[0].cumulative + sum(release[:last]))])
            # (it stands before the call of its period)
            assert [row.period for row in own[1:]] == sorted(row.period for row in own[1:])
            assert all(row.kind == "reset" or before.period != row.period or before.kind == "reset" for before, row in itertools.pairwise(own[1:]))
            resets |= {(it.reset is None, it.reset in dict(calls), sum(release[:last]) > 0)}
            one = rows_of(judge, "schedule", it.vendor, it.plant)
            assert one == [row for row in found[at:] if (row.supplier, row.customer) == (it.vendor, it.plant)]
            several += len({row.item for row in one}) > 1
        for it in {it.vendor for it in table.vendors}:
            assert rows_of(judge, "schedule", it, None) == [row for row in found if row.supplier == it]
            assert judge.answer("schedule", None, it) == oracle.refusal("mrp: no plant")
        for it in table.plants:
            assert rows_of(judge, "schedule", None, it.plant) == [row for row in found if row.customer == it.plant]
    assert len(resets) == 6
    assert several > 5


def test_plans_are_without_vendors_and_days():
    """The rows of both kinds change no plan, but for its dates: those of day rows, and of other periods so many days later each."""
    lengths = set()
    for table, judge in some_firms():
        plain = oracle.Oracle(bytes(mrp.Table(it for it in table.rows if it[0] not in ("vendor", "day"))))
        plans = (rows_of(it, "plan") for it in (judge, plain))
        assert [it._replace(date=None) if isinstance(it, mrp.Plan) else it for it in next(plans)] == [
            it._replace(date=None) if isinstance(it, mrp.Plan) else it for it in next(plans)
        ]
        dates = [it.date for it in rows_of(judge, "plan")[: table.run.periods]]
        given = {0: table.run.first, **{it.period: it.date for it in table.days}}
        for period, it in enumerate(dates):
            assert it == (given[period] if period in given else dates[period - 1] + datetime.timedelta(table.run.days))
            lengths |= {(period in given, (it - dates[period - 1]).days - table.run.days) for _ in given if period and len(given) > 1}
        for command in ("orders", "advice", "schedule"):
            for row in rows_of(judge, command):
                said = {name: getattr(row, name) for name in row._fields if "date" in name}
                assert all(day == (None if period is None else dates[period]) for (name, day) in said.items() for period in [of_date(row, name)])
    assert {False, True} == {is_given for is_given, _ in lengths}
    assert min(more for _, more in lengths) < 0 < max(more for _, more in lengths)
    assert {more for is_given, more in lengths if not is_given} == {0}


def of_date(row, name):
    """Returns the period of a date of a report's row."""
    return getattr(row, {"date": "period"}.get(name, name.removesuffix("_date")))


def there(table, plan, row):
    """Returns what the rows of a table have of a pair in period 0, and where it is made without lead time and fence its orders."""
    pair, phantom = (row.plant, row.item), row.supply == "make" and row.lead == policy_of(table, (row.plant, row.item)).fence == 0
    comes = sum(it.quantity for it in (*table.receipts, *table.ships) if it.pair == pair and it.period == 0)
    firm = sum(it.quantity for it in table.firms if it.pair == pair and it.due == 0)
    return row.on_hand + comes + (firm + plan.order[0]) * phantom, phantom


def test_shortages_of_firms():
    """What is short of a pair sums to what its requirement of period 0 lacks. They are terms of it, in their order: what stands before
    the first is there, and of those behind it nothing.
    """
    kinds = set()
    for table, judge in some_firms():
        found, pegs = rows_of(judge, "shortages"), [it for it in rows_of(judge, "pegs") if it.period == 0]
        assert [(it.plant, it.item) for it in found] == [it for it in judge.firm.pairs for row in found if (row.plant, row.item) == it]
        for row in table.pairs:
            pair = row.plant, row.item
            own, terms = ([it for it in rows if (it.plant, it.item) == pair] for rows in (found, pegs))
            has, phantom = there(table, judge.firm.plans[pair], row)
            assert sum(it.short for it in own) == max(0, judge.firm.plans[pair].gross[0] - has)
            last = [(it.plant, it.item, it.source, it.by_plant, it.by_item, it.quantity) for it in terms[len(terms) - len(own) :]]
            assert [it[:-1] for it in own] == last
            assert [it.quantity for it in own[1:]] == [it.short for it in own[1:]]
            kinds |= {(row.supply[:4], phantom, it.source, it.short < it.quantity) for it in own}
    assert kinds >= {*itertools.product(("make", "buy", "from"), (False,), ("demand", "bill", "plant"), (False, True))}


# Tables of worked figures, with what the program has to answer.
HEAD = "run,2026-01-05,7,5,,,,\nplant,A,,,,,,\n"
FENCED = HEAD + "pair,A,P,make,lot,1,0,0\n" + "".join(f"demand,A,P,{t},10,,,\n" for t in range(1, 5))
FENCED += "firm,A,P,0,1,12,,\npolicy,A,P,3,0,0,0,0\n"
SOONER = HEAD + "pair,A,X,buy,lot,1,10,5\ndemand,A,X,0,5,,,\ndemand,A,X,1,40,,,\ndemand,A,X,3,30,,,\nreceipt,A,X,3,60,,,\n"
SOONER += "policy,A,X,0,2,0,0,0\n"
COVERED = HEAD + "pair,A,X,buy,lot,1,10,0\ndemand,A,X,0,5,,,\ndemand,A,X,1,5,,,\ndemand,A,X,2,20,,,\ndemand,A,X,3,5,,,\n"
COVERED += "policy,A,X,0,0,1,0,0\n"
# The pieces of four components that go into P, of which 10 are released in each of three periods: another one takes the place of OLD.
PARTS = {"OLD": (2, "2,0,1"), "NEW": (2, "0,0,1", "2,2,1"), "CASTING": (1, "0,103,100"), "PAINT": (1, "0,1,4")}
CHANGED = HEAD + "pair,A,P,make,lot,0,0,0\n" + "".join(f"pair,A,{it},buy,lot,0,0,0\n" for it in PARTS)
CHANGED += "".join(f"bill,A,P,{it},{per},,,\n" for it, (per, *_) in PARTS.items()) + "".join(f"demand,A,P,{t},10,,,\n" for t in range(3))
CHANGED += "".join(f"usage,A,P,{it},{usage},\n" for it, (_, *usages) in PARTS.items() for usage in usages)
DAYS = ("2026-01-05", "2026-01-12", "2026-01-19", "2026-01-26", "2026-02-02")


def plan_lines(item, *figures):
    """Returns the lines of a plan of five weeks: gross requirements, what comes in, orders, releases, and what is available."""
    rows = ((f"plan,A,{item},{t},{DAYS[t]}", *them) for t, them in enumerate(zip(*figures)))
    return "".join(",".join(map(str, it)) + "\n" for it in rows)


WORKED = {
    # With a fence of 3 the 8 of period 2 come a period late; nothing that is planned is released before period 2.
    (FENCED, "plan"): plan_lines("P", (0, 10, 10, 10, 10), (0, 12, 0, 0, 0), (0, 0, 8, 10, 10), (12, 0, 18, 10, 0), (0, 2, 0, 0, 0))
    + "late,A,P,2,8,1\n",
    (FENCED, "orders"): "firm,A,P,make,12,0,2026-01-05,1,2026-01-12,0\norder,A,P,make,8,2,2026-01-19,2,2026-01-19,1\n"
    "order,A,P,make,10,2,2026-01-19,3,2026-01-26,0\norder,A,P,make,10,3,2026-01-26,4,2026-02-02,0\n",
    (FENCED, "advice"): "",
    # 40 of the 60 count in period 1, and the 20 others when they come.
    (SOONER, "plan"): plan_lines("X", (5, 40, 0, 30, 0), (0, 40, 0, 20, 0), (0, 0, 0, 10, 0), (0, 0, 10, 0, 0), (5, 5, 5, 5, 5)),
    (SOONER, "orders"): "order,A,X,buy,10,2,2026-01-19,3,2026-01-26,0\n",
    (SOONER, "advice"): "advice,expedite,receipt,A,X,,3,2026-01-26,60,1,2026-01-12\n",
    (COVERED, "plan"): plan_lines("X", (5, 5, 20, 5, 0), (0, 0, 0, 0, 0), (0, 20, 5, 0, 0), (20, 5, 0, 0, 0), (5, 20, 5, 0, 0)),
    # Of the two usage rows of NEW the second is in force from period 2 on. 10.3 castings are 11, and 2.5 litres of paint 3.
    (CHANGED, "plan"): "".join(
        plan_lines(item, row, (0,) * 5, row, row, (0,) * 5)
        for item, row in (
            ("P", (10, 10, 10, 0, 0)),
            ("OLD", (20, 20, 0, 0, 0)),
            ("NEW", (0, 0, 20, 0, 0)),
            ("CASTING", (11, 11, 11, 0, 0)),
            ("PAINT", (3, 3, 3, 0, 0)),
        )
    ),
    (CHANGED, "pegs"): "".join(f"pegs,A,P,{t},demand,A,P,10,1,10\n" for t in range(3))
    + "".join(
        f"pegs,A,{item},{t},bill,A,P,10,{per}\n"
        for item, per, periods in (("OLD", "2,20", (0, 1)), ("NEW", "2,20", (2,)), ("CASTING", "103/100,11", range(3)), ("PAINT", "1/4,3", range(3)))
        for t in periods
    ),
    (CHANGED, "check"): "code,A,P,0\n" + "".join(f"code,A,{it},1\n" for it in PARTS),
    (COVERED, "orders"): "order,A,X,buy,20,0,2026-01-05,1,2026-01-12,0\norder,A,X,buy,5,1,2026-01-12,2,2026-01-19,0\n",
}


@pytest.mark.parametrize("table, report", WORKED, ids=lambda it: it if len(it) < 10 else "")
def test_worked_tables(table, report):
    """The worked figures as tables, byte for byte."""
    assert oracle.Oracle(table.encode()).answer(report) == oracle.Answer(0, WORKED[table, report].encode(), b"")


def worked(name):
    """Returns the cases of a file of cases/."""
    with open(f"{TOP}/cases/{name}.txt", encoding="utf-8") as file:
        return [*cases.blocks(file.read())]


BY_HAND = "shortages", "usages", "vendors", "days", "schedules", "rows", "ends", "reach"
WORKED_BY_HAND = [it for name in BY_HAND for it in worked(name)]


@pytest.mark.parametrize("title, table, asks", WORKED_BY_HAND, ids=[it[0] for it in WORKED_BY_HAND])
def test_worked_cases(title, table, asks):
    """Those of cases/, by the second planner."""
    text, row = "\n".join([*asks, ""]), table.count("\n") + 1
    for words, answer in re.findall(r"^\$ mrp (.*)\n((?:[^$!].*\n)*)", text, re.MULTILINE):
        command, *given = words.split()
        # (an option's word stands behind it, or behind its =)
        options = {"--from": None, "--to": None, **dict(re.findall(r"(--from|--to|--until)[ =](\S+)", words))}
        asked = [it for it in given if not it.startswith("--")] if command == "peg" else []
        asked += [options["--from"], options["--to"]] if command == "schedule" else [options["--until"]] if "--until" in options else []
        how = {"header": "--header" in given, "whole": "--whole" in given}
        got = oracle.Oracle(table.encode()).answer(command + " --reach" * ("--reach" in given), *asked, **how)
        assert (f"{got.status} {got.err.decode()}" if got.status else got.out.decode()) == answer, (title, words)
    for fault, more in re.findall(r"^! (\w+(?: \w+)?)  (.*)\n", text, re.MULTILINE):
        assert oracle.Oracle(f"{table}{more}\n".encode()).refused == f"mrp: row {row}: {fault}", (title, more)


@pytest.mark.parametrize("table, report", WORKED, ids=lambda it: it if len(it) < 10 else "")
def test_worked_tables_by_the_program(program, table, report):
    """The worked figures as tables, byte for byte."""
    cases.expect(program, report, table, WORKED[table, report])


def test_messages_with_shipments_and_cover():
    """By hand. X has 4, wants 10 in each of 1 to 3, and covers a period more: 10, 20, 30 and 30 have to be there up to each period.
    7 are under way for 1, and a firm 6 come in 2, so that 6, 9, 13 and 13 are lacked. Of the receipts of 2, which are 5 and 8, as
    many are counted up to each period. The 5 are needed in 0, and so are the 8, for 4 + 5 are below 10. With what is counted of
    receipts 4 + 9 are below 20 in 1, when the 7 come, and 4 + 13 + 7 below 30 in 2, when the firm 6 do.
    """
    table = HEAD.replace("7,5", "7,4") + "plant,B,,,,,,\npair,A,X,from:B,lot,0,4,0\npair,B,X,buy,lot,0,0,0\n"
    table += "".join(f"demand,A,X,{t},10,,,\n" for t in range(1, 4)) + "receipt,A,X,2,5,,,\nreceipt,A,X,2,8,,,\n"
    table += "ship,B,A,X,1,7,,\nfirm,A,X,2,2,6,,\n"
    judge = oracle.Oracle(f"{table}policy,A,X,0,2,1,0,0\n".encode())
    plan = judge.firm.plans["A", "X"]
    assert (plan.incoming, plan.order, plan.available) == ([6, 10, 10, 0], [0] * 4, [10, 10, 10, 0])
    expedite = "advice,expedite,receipt,A,X,,2,2026-01-19,{},0,2026-01-05\n"
    assert judge.answer("advice").out.decode() == expedite.format(5) + expedite.format(8)


# The faults of a row, first come, behind HEAD and two pairs; and behind a bill of two of three pairs with a usage row.
TWO = HEAD + "pair,A,X,buy,lot,1,0,0\npair,A,Y,buy,lot,1,0,0\npolicy,A,Y,0,0,0,0,0\n"
FAULTS = {
    "policy,A,X,0,0,0,0,": "BadNumber",
    "policy,A,X,0,0,0,0": "FieldCount",
    "policies,A,X,0,0,0,0,0": "UnknownKind",
    "Policy,A,X,0,0,0,0,0": "UnknownKind",
    "firm,A,X,0,0,1,,": "KindOrder",
    "policy,,X,5,0,0,0,0": "BadName",
    "policy,A,X!,0,0,0,0,0": "BadName",
    "policy,B,X,5,0,0,0,0": "BadNumber",
    "policy,A,X,-1,0,0,0,0": "BadNumber",
    "policy,A,X,04,0,0,0,0": "BadNumber",
    "policy,A,X,2026-01-12,0,0,0,0": "BadNumber",
    "policy,A,X,0,105,0,0,0": "BadNumber",
    "policy,A,X,0,0,105,0,0": "BadNumber",
    "policy,A,X,0,0,0,1000000000001,0": "BadNumber",
    "policy,A,X,0,0,0,0,1000000000001": "BadNumber",
    "policy,A,Y,0,0,0,0,1000000000001": "BadNumber",
    "policy,A,Y,4,104,104,1,1": "Repeated",
    "policy,B,Y,0,0,0,0,0": "UnknownPlant",
    "policy,A,Z,0,0,0,0,0": "UnknownPair",
    "policy,A,X,4,104,104,1000000000000,1000000000000": None,
}
THREE = HEAD + "pair,A,X,make,lot,1,0,0\npair,A,Y,buy,lot,1,0,0\npair,A,Z,make,lot,1,0,0\nbill,A,X,Y,1,,,\nbill,A,Z,X,1,,,\n"
THREE += "usage,A,X,Y,1,1,1,\n"
FAULTS_OF_USAGES = {
    "usage,A,X,Y,0,1,1": "FieldCount",
    "usage,A,X,Y,0,1,1,0": "FieldCount",
    "usage,A,X,Y,0,1,1,,": "FieldCount",
    "usage,A,X,Y,0,1,,": "BadNumber",
    "usages,A,X,Y,0,1,1,": "UnknownKind",
    "Usage,A,X,Y,0,1,1,": "UnknownKind",
    "policy,A,X,0,0,0,0,0": "KindOrder",
    "firm,A,X,0,0,1,,": "KindOrder",
    "bill,A,X,Z,1,,,": "KindOrder",
    "usage,,X,Y,5,1,1,": "BadName",
    "usage,A,X!,Y,0,1,1,": "BadName",
    "usage,A,X,Y Z,0,1,0,": "BadName",
    "usage,B,X,Y,5,1,1,": "BadNumber",
    "usage,A,X,Y,-1,1,1,": "BadNumber",
    "usage,A,X,Y,00,1,1,": "BadNumber",
    "usage,A,X,Y,,1,1,": "BadNumber",
    "usage,A,X,Y,2026-01-12,1,1,": "BadNumber",
    "usage,A,X,Y,0,,1,": "BadNumber",
    "usage,A,X,Y,0,1000001,1,": "BadNumber",
    "usage,A,X,Y,0,103/100,1,": "BadNumber",
    "usage,A,X,Y,0,1.03,1,": "BadNumber",
    "usage,A,X,Y,0,1,0,": "BadNumber",
    "usage,A,X,Y,0,1,1000001,": "BadNumber",
    "usage,A,X,Y,1,1,0,": "BadNumber",
    "usage,A,X,Y,1,0,7,": "Repeated",
    "usage,B,X,Y,0,1,1,": "UnknownPlant",
    "usage,A,W,Y,0,1,1,": "UnknownPair",
    "usage,A,X,W,0,1,1,": "UnknownPair",
    "usage,A,X,Z,0,1,1,": "NotMade",
    "usage,A,Y,X,0,1,1,": "NotMade",
    "usage,A,Z,Y,0,1,1,": "NotMade",
    "usage,A,X,X,0,1,1,": "NotMade",
    "usage,A,Z,X,1,1,1,": None,
    "usage,A,X,Y,4,0,1,": None,
    "usage,A,X,Y,0,1000000,1000000,": None,
}
DELIVERED = HEAD + "plant,B,,,,,,\npair,A,X,buy,lot,1,0,0\npair,A,Y,make,lot,1,0,0\npair,A,Z,from:B,lot,1,0,0\npair,B,Z,buy,lot,1,0,0\n"
DELIVERED += "vendor,V,B,Z,0,0,,\n"
FAULTS_OF_VENDORS = {
    "vendor,V,A,X,0,0": "FieldCount",
    "vendor,V,A,X,0,0,,0": "FieldCount",
    "vendors,V,A,X,0,0,,": "UnknownKind",
    "usage,A,X,Y,0,1,1,": "KindOrder",
    "vendor,V W,C,X,0,0,5,": "BadName",
    "vendor,,A,X,0,0,,": "BadName",
    "vendor,V,A!,X,0,0,5,": "BadName",
    "vendor,V,A,X Y,0,0,,": "BadName",
    "vendor,V,C,X,,0,,": "BadNumber",
    "vendor,V,B,Z,1000000000000001,0,,": "BadNumber",
    "vendor,V,A,X,0,1000000000000001,,": "BadNumber",
    "vendor,V,A,X,0,,,": "BadNumber",
    "vendor,V,A,X,0,0,5,": "BadNumber",
    "vendor,V,A,X,0,0,00,": "BadNumber",
    "vendor,A,B,Z,0,0,,": "Repeated",
    "vendor,V,B,Z,0,0,,": "Repeated",
    "vendor,A,C,X,0,0,,": "UnknownPlant",
    "vendor,V,V,X,0,0,,": "UnknownPlant",
    "vendor,A,A,W,0,0,,": "UnknownPair",
    "vendor,A,B,X,0,0,,": "UnknownPair",
    "vendor,A,A,Y,0,0,,": "NotSourced",
    "vendor,B,A,Z,0,0,,": "NotSourced",
    "vendor,B,A,X,0,0,,": "SelfSource",
    "vendor,A,A,X,0,0,,": "SelfSource",
    "vendor,X,A,X,500,500,4,": None,
    "vendor,V,A,X,0,0,0,": None,
    "vendor,V,A,X,1000000000000000,0,,": None,
}
# (periods 0 and 1 begin on January 5 and 19, 2 to 4 on the 26th and a week later each)
BEGUN = HEAD + "pair,A,X,buy,lot,1,0,0\nvendor,V,A,X,0,0,,\nday,1,2026-01-19,,,,,\n"
FAULTS_OF_DAYS = {
    "day,2,2026-02-02": "FieldCount",
    "day,2,2026-02-02,,,,,0": "FieldCount",
    "days,2,2026-02-02,,,,,": "UnknownKind",
    "vendor,V,A,X,0,0,,": "KindOrder",
    "day,0,2026-02-32,,,,,": "BadNumber",
    "day,1,2026-01-26,,,,,": "BadNumber",
    "day,5,2026-03-02,,,,,": "BadNumber",
    "day,02,2026-02-02,,,,,": "BadNumber",
    "day,,2026-02-02,,,,,": "BadNumber",
    "day,2,,,,,,": "CalendarFault BadDate",
    "day,2,2026-02-30,,,,,": "CalendarFault BadDate",
    "day,2,2026-2-2,,,,,": "CalendarFault BadDate",
    "day,2,2026-01-19,,,,,": "CalendarFault BadDate",
    "day,2,2026-01-12,,,,,": "CalendarFault BadDate",
    "day,4,2026-02-02,,,,,": "CalendarFault BadDate",
    "day,4,1969-12-31,,,,,": "CalendarFault BadDate",
    "day,4,2199-12-26,,,,,": "CalendarFault PastEnd",
    "day,3,2199-12-19,,,,,": "CalendarFault PastEnd",
    "day,2,9999-12-31,,,,,": "CalendarFault PastEnd",
    "day,2,2026-01-20,,,,,": None,
    "day,4,2026-02-03,,,,,": None,
    "day,4,2199-12-25,,,,,": None,
    "day,3,2199-12-18,,,,,": None,
}
# The rows before those that are tried, what they are refused for, and the codes of the table with those that are not.
FAULTY = (
    (TWO, FAULTS, "code,A,X,0\ncode,A,Y,0\n"),
    (THREE, FAULTS_OF_USAGES, "code,A,X,1\ncode,A,Y,2\ncode,A,Z,0\n"),
    (DELIVERED, FAULTS_OF_VENDORS, "code,A,X,0\ncode,A,Y,0\ncode,A,Z,0\ncode,B,Z,1\n"),
    (BEGUN, FAULTS_OF_DAYS, "code,A,X,0\n"),
)
ROWS = [(table, row, fault, codes) for table, faults, codes in FAULTY for row, fault in faults.items()]


@pytest.mark.parametrize("table, row, fault, codes", ROWS, ids=[it[1] for it in ROWS])
def test_faults_of_rows(table, row, fault, codes):
    """The first in the order of tests; the greatest figures have none."""
    said = oracle.Oracle(f"{table}{row}\n".encode()).refused
    assert said == (fault and f"mrp: row {table.count(chr(10)) + 1}: {fault}")


@pytest.mark.parametrize("table, row, fault, codes", ROWS, ids=[it[1] for it in ROWS])
def test_faults_of_rows_by_the_program(program, table, row, fault, codes):
    """By each command."""
    if fault:
        cases.refused(program, f"{table}{row}\n", f"row {table.count(chr(10)) + 1}: {fault}")
    else:
        cases.expect(program, "check", f"{table}{row}\n", codes)


# How far a plan is whole.


def longer_firms(seeds=150):
    """Yields tables with their reports, and those of tables that go on where they end."""
    for seed in range(seeds):
        chance = random.Random(seed)
        text = reach.narrow(chance) if seed % 2 else firms.table(chance, 6, 14)
        judge = oracle.Oracle(text)
        later = None if judge.refused else oracle.Oracle(reach.lengthened(chance, text))
        if later and not later.refused:
            yield text, *({name: it.answer(name).out for name in reach.REPORTS} for it in (judge, later))


def test_what_is_whole_stays():
    """In the plan of a longer table, and so do messages within it. Other figures change."""
    changed, beyond = 0, 0
    for text, before, after in longer_firms():
        assert [*reach.broken(text, before, after)] == [], text
        own = {tuple(it[:3]): it[3:] for it in mrp.rows_of(after["plan"]) if isinstance(it, mrp.Plan)}
        changed += any(own[it[:3]] != it[3:] for it in mrp.rows_of(before["plan"]) if isinstance(it, mrp.Plan))
        beyond += before["advice --reach"].count(b"beyond")
    assert changed > 30
    assert beyond > 200


@pytest.mark.parametrize("place", [3, 4])
def test_no_more_is_whole(place):
    """A period of requirements more, or of releases, and plans that differ are found."""
    found = 0
    for text, before, after in longer_firms(60):
        last = int(text.split(b",")[3]) - 1
        rows = [it.split(",") for it in before["check --reach"].decode().splitlines()]
        for it in rows:
            it[place] = "0" if it[place] == "none" else str(min(int(it[place]) + 1, last))
        more = "".join(f"{','.join(it)}\n" for it in rows).encode()
        found += any("falls" not in it for it in reach.broken(text, {**before, "check --reach": more}, after))
    assert found > 10


def test_an_end_row_changes_no_report():
    """And without one a table is refused where it is wanted whole."""
    for table, judge in itertools.islice(some_firms(), 30):
        whole, cut = oracle.Oracle(bytes(table)), oracle.Oracle(firms.unended(bytes(table)))
        line = oracle.refusal(f"mrp: row {len(table.rows) + 1}: Cut")
        for name in ("plan", "check", "check --reach", "cums", "orders", "pegs", "advice", "advice --reach", "shortages"):
            assert judge.answer(name) == whole.answer(name) == whole.answer(name, whole=True) == cut.answer(name)
            assert cut.answer(name, whole=True) == line


def test_bound_of_policies():
    """The least order and the multiple count in what may be needed, also of what a pair takes: 10^15, and a piece more."""
    table = HEAD + "pair,A,X,make,lot,1,0,0\npair,A,Y,buy,lot,1,0,0\nbill,A,X,Y,1000,,,\npolicy,A,X,0,0,0,400000000000,600000000000\n"
    assert oracle.Oracle(table.encode()).refused is None
    for more in ("policy,A,Y,0,0,0,1,0\n", "policy,A,Y,0,0,0,0,1\n"):
        assert oracle.Oracle(f"{table}{more}".encode()).refused == "mrp: NeedTooLarge A/Y"


def test_bound_of_usages():
    """By hand. C's need is that of P times the most pieces that go into one P by the bill or any usage row, rounded up: 10^9 times
    1,000,000 are 10^15, and 2,999,994,000 times 333,334 are 4,000 less.
    """
    table = HEAD + "pair,A,P,make,lot,1,0,0\npair,A,C,buy,lot,1,0,0\nbill,A,P,C,{},,,\ndemand,A,P,0,{},,,\n"
    refused = {
        (1, 10**9, "4,1000000,1"): False,
        (1, 10**9 + 1, "4,1000000,1"): True,
        (1, 10**9 + 1, "4,999999,1"): False,
        (10**6, 10**9 + 1, "0,1,1"): True,
        (1, 2_999_994_000, "2,1000000,3"): False,
        (1, 2_999_994_001, "2,1000000,3"): True,
        (1, 10**12, "2,1,1000000"): False,
    }
    for (per, quantity, usage), wanted in refused.items():
        judge = oracle.Oracle(f"{table.format(per, quantity)}usage,A,P,C,{usage},\n".encode())
        assert judge.refused == ("mrp: NeedTooLarge A/C" if wanted else None), (per, quantity, usage)


def test_bound_of_vendors():
    """What is booked and what is under way count in what a pair has: 10^15, and a piece more."""
    table = HEAD + "pair,A,X,buy,lot,1,1,0\nvendor,V,A,X,{},{},,\n"
    for figure, transit, wanted in ((10**15 - 1, 0, None), (4 * 10**14, 6 * 10**14 - 1, None), (10**15, 0, "Supply"), (0, 10**15, "Supply")):
        judge = oracle.Oracle(table.format(figure, transit).encode())
        assert judge.refused == (wanted and f"mrp: {wanted}TooLarge A/X"), (figure, transit)
    wanted = table.replace("vendor", "demand,A,X,0,2,,,\nvendor")
    assert oracle.Oracle(wanted.format(10**15 - 3, 0).encode()).refused is None
    assert oracle.Oracle(wanted.format(10**15 - 3, 1).encode()).refused == "mrp: NeedTooLarge A/X"


def test_most_usages():
    """200,000 of them, of bills of 1,924 pairs and 104 periods; and one more."""
    pairs = [f"pair,A,X{it},{'make' if it else 'buy'},lot,0,0,0" for it in range(1925)]
    rows = [*pairs, *(f"bill,A,X{it},X0,1,,," for it in range(1, 1925))]
    usages = itertools.islice((f"usage,A,X{it},X0,{t},1,1," for it in range(1, 1925) for t in range(104)), 200_001)
    table = "\n".join([HEAD.replace("7,5", "7,104") + rows[0], *rows[1:], *usages])
    assert oracle.Oracle(table.encode()).refused == f"mrp: row {2 + len(rows) + 200_001}: TooMany"
