"""What customers call for by cumulative figures, and what orders leave of forecasts, for bin/sheets."""
import datetime
from typing import NamedTuple


class Call(NamedTuple):
    """A customer's figure of a date: the pieces that he wants up to then, since his figures began or started again."""

    date: datetime.date
    figure: int
    starts_again: bool
    row: object


def asked(calls, shipped):
    """Yields each call-off of a customer and an item, in the order of dates, with the pieces that it asks for.

    They are those that its figure has above the one before, and above what was shipped. Where figures start again both
    begin at 0, but for what was shipped ahead of the figure before.
    """
    before = 0
    for it in calls:
        if it.starts_again:
            before, shipped = 0, max(0, shipped - before)
        yield it, max(0, it.figure - max(shipped, before))
        before = it.figure


def last_of_first(calls):
    """Returns the last call-off before figures start again for the first time, in the order of dates."""
    return next((before for before, it in zip(calls, calls[1:]) if it.starts_again), calls[-1])


def consumed(forecasts, orders, back, forward):
    """Returns how much of the forecast of each period orders consume, of an item's pieces by period.

    Each order, in the order of periods, takes from the forecast of its own period, then from those before it, the nearest
    first, so many back, and then from those after it, so many forward.
    """
    taken = dict.fromkeys(forecasts, 0)
    for period in sorted(orders):
        left = orders[period]
        for it in (*range(period, period - back - 1, -1), *range(period + 1, period + forward + 1)):
            if not left:
                break
            if it in taken:
                part = min(left, forecasts[it] - taken[it])
                taken[it], left = taken[it] + part, left - part
    return taken
