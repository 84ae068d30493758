"""tools/costs."""


def test_costs_are_by_function(room):
    """By a stand-in of rt, which leaves what a check leaves."""
    room.stand_in("words/rt", "rt_costs")
    header, rows = "    all   code  goals\n", (
        "    4.5    2.5    1.5  row::Row::get\n",
        "    0.5    0.0    0.0  Pieces\n",
    )
    assert room.run("tools/costs mrp_qty") == f"{header}{rows[0]}{rows[1]}    5.0 seconds in all\n"
    assert room.run("tools/costs --most 1 mrp_qty") == f"{header}{rows[0]}    5.0 seconds in all\n"
