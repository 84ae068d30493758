"""Two tests, of which one can't be run anywhere."""
import support


def test_good(room):
    assert room.run("echo good") == "good\n"


def test_none(room):
    support.wants("no-such-command")
