"""tools/pairs, by a stand-in of rt that plans by the second planner, and once by the true one, which takes a minute."""
import pytest
import support


@pytest.fixture
def pairs(room):
    room.stand_in("words/rt", "rt_pairs", tools=f"{support.TOP}/tools")
    return room


def test_no_difference(pairs):
    """In several runs of the program, and in one."""
    assert pairs.run("tools/pairs --cases 1200 --seed 3") == "1200 cases, seed 3, no difference\n"
    assert pairs.run("tools/pairs --cases 1") == "1 cases, seed 1, no difference\n"


def test_sources(room):
    """The plans of mrp_netting, as its sources stand, are right."""
    support.wants("rt")
    assert room.run("tools/pairs --cases 1000 --seed 5") == "1000 cases, seed 5, no difference\n"


def test_first_difference(pairs):
    """Its planning data is shown with both plans."""
    said = pairs.run("HOW=order tools/pairs --cases 20 --seed 2", status=1)
    given, plans = said.split("right:\n")
    right, planned = plans.split("planned:\n")
    cases = pairs.run("tools/oracle.py --cases 20 --seed 2").split("end\n")
    assert f"{given}{right.partition(chr(10))[2]}" == f"{cases[4]}end\n"
    assert [it.partition("\n")[0] for it in (right, planned)] == given.splitlines()[-1:] * 2
    assert planned.endswith("end\n20 cases, seed 2, case 5 differs\n")
    orders = [[it for it in plan.splitlines() if it.startswith("order,")] for plan in (right, planned)]
    first = [int(it.split(",")[1]) for it, in orders]
    assert first[1] == first[0] + 1


def test_program_that_fails(pairs):
    """It is told in a line, after what rt said."""
    said = pairs.run("HOW=short tools/pairs --cases 20", status=1)
    assert said == "tools/pairs: of 20 pairs the program plans 19\n"
    said = pairs.run("HOW=unbuilt tools/pairs --cases 20", status=1).splitlines()
    assert said[-2:] == ["run=none proved=no", "tools/pairs: the program isn't built, or doesn't end well"]
