"""tools/try."""


def test_try_runs_the_sources(room):
    """By a stand-in of rt, for the true one takes a minute."""
    room.stand_in("words/rt", "rt_try")
    assert (
        room.run("tools/try peg P1 WHEEL 2 2>&1") == "tools/try: this program is UNPROVED\nmrp\ntry -- peg P1 WHEEL 2\n"
    )


def test_try_runs_the_tests_of_crates(room):
    """By a stand-in of rt: those of each crate that has some, or of those that are named; what fails is told and
    counted.
    """
    room.stand_in("words/rt", "rt_tests")
    said = room.run("FAILS=none tools/try --test").splitlines()
    assert said[-1] == f"{len(said) - 1} passed, 0 failed"
    assert {"mrp_api_tests: passed", "mrp_run_tests: passed"} <= {*said}
    assert room.run("FAILS=none tools/try --test mrp_qty") == "mrp_qty: passed\n1 passed, 0 failed\n"
    wanted = "mrp_qty: FAILED\ntry --test of mrp_qty\nmrp_cal: passed\n1 passed, 1 failed\n"
    assert room.run("FAILS=mrp_qty tools/try --test mrp_qty mrp_cal", status=1) == wanted
