"""tools/prove, and bin/mrp, which asks it whether the program is of the sources."""
import os
import pty
import re
import subprocess

from support import read_terminal, TOP


def test_program_is_found_by_a_link(room):
    """By a link to bin/mrp on the path, the program of its checkout."""
    tree_that_builds(room)
    room.run("mkdir path && ln -s ../tree/bin/mrp path/mrp")
    assert (
        room.run("PATH=$PWD/path:$PATH mrp check --header 2> said; grep -v ^prove: said")
        == "of one: check --header\nmrp: proving and building the program, once\n"
    )


def tree_that_builds(room):
    """Makes the folder `tree`, a checkout of one program, and a stand-in of rt that makes it and counts its runs in
    `proved`.
    """
    room.run(
        "mkdir -p tree/crates/mrp/{src,specs,proofs} && echo mrp: > tree/crates.txt && echo one > tree/crates/mrp/src/main.rt"
    )
    room.run(
        f"mkdir tree/bin tree/tools && cp {TOP}/bin/{{mrp,reports.py,headed.py}} {TOP}/python/mrp.py tree/bin && cp {TOP}/tools/{{prove,crates.py,made.py}} tree/tools"
    )
    room.stand_in("words/rt", "rt_run")
    room.variables |= {"PROVED": f"{room.folder}/proved", "SOURCE": f"{room.folder}/tree/crates/mrp/src/main.rt"}


def test_program_is_of_the_sources(room):
    """By what is in them, and not by when they were written: a program is proved where it is of others, and else runs
    as it is.
    """
    tree_that_builds(room)
    runs, source = 0, "tree/crates/mrp/src/main.rt"
    for change, wanted, proofs in (
        ("true", "one", 1),
        ("true", "one", 0),
        ("touch -d '+1 hour' $source", "one", 0),
        ("echo two > $source; touch -d 2020-01-01 $source", "two", 1),
        ("touch $source; sed -i 4s/.*// tree/crates/mrp/out/mrp.sources", "two", 0),
        ("cp -r tree other; touch -d '+1 hour' other/crates/mrp/src/*; rm -r tree; mv other tree", "two", 0),
        ("touch tree/crates/mrp/specs/New.antt", "two", 1),
        ("rm tree/crates/mrp/specs/New.antt", "two", 1),
        # (changed while it is proved, and proved by another run of tools/prove)
        ("echo three > $source; export MEANWHILE=four", "three", 1),
        ("true", "four", 1),
        ("echo five > $source; tree/tools/prove mrp; touch -d '+1 hour' tree/crates/mrp/out/mrp", "five", 1),
        ("rm tree/crates/mrp/out/mrp.sources; touch -d '+2 hours' $source", "five", 1),
        (
            "echo same > tree/crates/mrp/specs/New.antt; tree/tools/prove mrp; touch -d '+3 hours' tree/crates/mrp/out/mrp",
            "five",
            1,
        ),
        ("echo other > tree/crates/mrp/specs/New.antt; touch -d 2020-01-01 tree/crates/mrp/specs/New.antt", "five", 1),
        (
            "chmod -x tree/crates/mrp/out/mrp; cp -p tree/crates/mrp/out/mrp kept; cp kept tree/crates/mrp/out/mrp; chmod +x tree/crates/mrp/out/mrp",
            "five",
            0,
        ),
        # (built by another run of rt, which leaves no sum: it has to be newer than all sources)
        ("echo six > $source; (cd tree/crates/mrp && rt run); touch -d '+4 hours' tree/crates/mrp/out/mrp", "six", 1),
        ("echo seven > $source; (cd tree/crates/mrp && rt run); touch -d '+9 hours' $source", "seven", 2),
    ):
        runs += proofs
        said = room.run(f"source={source}; {change}; tree/bin/mrp plan 2> said; cat proved")
        assert said == f"of {wanted}: plan\n" + "mrp\n" * runs, change
    said = room.run(f"echo eight > {source}; FAILS=yes tree/bin/mrp plan", status=3)
    assert said.startswith("mrp: proving and building the program, once\nprove: mrp is not proved:\n")
    assert said.endswith("\nmrp: it could not be built\n")
    assert room.run("tree/tools/prove --ask mrp mrp", status=1) == ""


def test_prove_says_how_far_it_is(room):
    """By a stand-in of rt, on a terminal and on none, in a tree of two crates."""
    room.stand_in("words/rt", "rt_prove")
    seen = f"{room.folder}/seen"
    room.variables["SEEN"] = seen
    room.run(f"mkdir tree && cp -r {TOP}/bin {TOP}/python {TOP}/tools {TOP}/crates.txt tree")
    for crate in ("mrp_qty", "mrp_cal"):
        room.run(f"mkdir -p tree/crates/{crate} && cp -r {TOP}/crates/{crate}/{{src,specs,proofs}} tree/crates/{crate}")
    said = room.run("touch seen; tree/tools/prove mrp_cal 2>&1; rm seen")
    assert (
        re.sub(r"\d+ s", "N s", said)
        == "prove: 1 of 2 crates: mrp_qty (0 min N s)\nprove: 2 of 2 crates: mrp_cal (0 min N s)\n"
    )
    end, own = pty.openpty()
    with subprocess.Popen([f"{room.folder}/tree/tools/prove", "mrp_cal"], stderr=own, env=room.variables) as child:
        os.close(own)
        heard = ""
        while piece := read_terminal(end):
            heard += piece.decode()
            if "(functions: 1)" in heard:
                open(seen, "w", encoding="utf-8").close()
    os.close(end)
    assert child.returncode == 0
    assert "prove: 0 of 2 crates, 0 min; mrp_qty (functions: 1)" in heard
    assert "prove: 1 of 2 crates, 0 min" in heard
    assert heard.split("\r\x1b[K")[-1] == "prove: 2 of 2 crates, 0 min\r\n"
