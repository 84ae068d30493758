"""tools/torture."""
import re
import shutil

import pytest


def test_torture_finds_nothing(room, program):
    """In one trial of each kind."""
    said = room.run("tools/torture --trials 12 --seed 7")
    assert "\ntrials   " in said
    assert "\nanswers  " in said
    assert "report " in said
    assert "ReadFault " in said
    assert said.endswith("\n0 findings, seed 7\n")
    if shutil.which("cc"):
        assert "left out" not in said


def test_torture_makes_the_trials_that_are_asked_for(room, program):
    """So many of one kind, and the same from the same seed."""
    said = [room.run("tools/torture --kind damaged-tables --trials 1 --seed 3").splitlines()[-4:] for _ in "12"]
    runs, trials, answers, last = said[0]
    assert re.fullmatch(r"80 runs of 80 tables in \d+ s", runs)
    assert trials == "trials   damaged tables 80"
    assert (answers, last) == (said[1][2], "0 findings, seed 3")


@pytest.mark.parametrize(
    "stand_in, fault",
    [
        ("silent", "the answer is not the right one"),
        ("killed", "the program was ended by signal 9"),
        ("forgetful", "the answer is not the right one"),
    ],
)
def test_torture_keeps_what_it_finds(room, stand_in, fault):
    """By programs that are wrong, each in a way of its own."""
    room.stand_in("words/wrong", stand_in)
    said = room.run(f"TMPDIR={room.folder} tools/torture --program words/wrong", status=1)
    assert f"finding 1, all commands: {fault}\n" in said
    assert "\n10 findings, seed 1\n" in said
    again = re.search("again: +(.*)", said).group(1)
    assert ("ended with" in room.run(f"{again} || echo ended with $?")) == (stand_in != "silent")
