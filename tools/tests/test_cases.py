"""The cases of cases/, which were worked by hand, on the program."""
import cases
import pytest

CASES = dict(cases.all_cases())


@pytest.mark.parametrize("case", CASES.values(), ids=CASES)
def test_case(program, case):
    case(program)
