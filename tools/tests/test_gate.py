""".ci/run and tools/test-tools, by stand-ins of what they run."""
from support import TOP


def test_gate_has_what_tests_want(room):
    """By stand-ins of rt and apt-get, on a path without fish: root installs it, with CI=true the gate names it, and
    elsewhere it goes on.
    """
    gate = gate_of_stand_ins(room)
    began, rest = (
        "rt ci\n50 passed, 0 failed\n",
        "tests with crates/mrp/out/mrp\n7 passed, 0 failed\n57 passed, 0 failed\n",
    )
    went = f"{began}{rest}"
    assert room.run(f"CI= WHO=7 {gate}") == f"{began}library\n{rest}"
    assert room.run(f"CI= WHO=7 {gate}") == went
    assert room.run(f"CI=true WHO=7 {gate}", status=1) == ".ci/run: no fish\n"
    asked = ".ci/run: installing fish\napt-get update -qq\napt-get install -qq --no-install-recommends fish\n"
    assert room.run(f"CI=true WHO=0 NONE=yes {gate}", status=1) == f"{asked}.ci/run: no fish\n"
    assert room.run(f"CI=true WHO=0 {gate}") == f"{asked}{went}"
    assert room.run(f"CI=true WHO=0 {gate}") == went
    room.run("rm only/cc only/fish")
    assert room.run(f"CI=true WHO=7 {gate}", status=1) == ".ci/run: no fish gcc,libc6-dev\n"


def test_gate_wants_pytest(room):
    """With CI=true or without, at once and in a line; root installs it."""
    gate = gate_of_stand_ins(room)
    room.run("mv only/pytest-3 only/fish")
    asked = "python3-pytest,python3-pytest-xdist"
    assert room.run(f"CI= WHO=7 {gate}", status=1) == f".ci/run: no {asked}\n"
    assert f".ci/run: installing {asked}\n" in room.run(f"CI= WHO=0 {gate}")


def test_gate_ends_with_one_line_of_counts(room):
    """Of rt ci and of the tests together, with those that were skipped; where one fails so does the gate."""
    gate = gate_of_stand_ins(room)
    room.run("echo > library; cp only/pytest-3 only/fish")
    for variables, status, last in (
        ("COUNTS='50 passed, 0 failed' TESTED='7 passed, 0 failed, 2 skipped'", 0, "57 passed, 0 failed, 2 skipped"),
        ("TESTED='5 passed, 2 failed' BROKEN=1", 1, "55 passed, 2 failed"),
        ("COUNTS='48 passed, 2 failed' REFUSED=1", 1, "48 passed, 2 failed"),
        ("COUNTS=nothing REFUSED=2", 2, "0 passed, 1 failed"),
    ):
        assert room.run(f"{variables} CI= WHO=7 {gate}", status=status).splitlines()[-1] == last, variables


def gate_of_stand_ins(room):
    """Makes the folder `tree` with a gate and stand-ins of what it runs, on a path without fish, and returns the
    command that runs it.
    """
    room.run(f"mkdir -p tree/.ci tree/tools only && cp {TOP}/.ci/run tree/.ci")
    for it in (
        "bash",
        "env",
        "dirname",
        "nproc",
        "awk",
        "sed",
        "sh",
        "cat",
        "chmod",
        "tee",
        "mktemp",
        "rm",
        "grep",
        "tail",
    ):
        room.run(f"ln -s $(command -v {it}) only/{it}")
    for it in ("chromium", "zsh", "sqlite3", "cc", "git", "initdb", "pytest-3"):
        room.stand_in(f"only/{it}", "silent")
    for it in ("rt", "id", "apt-get"):
        room.stand_in(f"only/{it}", f"gate/{it}")
    for it in ("test-tools", "prove", "staticlib"):
        room.stand_in(f"tree/tools/{it}", f"gate/{it}")
    return "PATH=$PWD/only tree/.ci/run 2>&1"


def test_skipped_tests_are_counted(room):
    """In the last line; with CI=true they have failed.

    Any test runs by its name, and nothing is left in the work tree.
    """
    room.run(
        f"mkdir -p tree/tools/tests && cp -r {TOP}/bin {TOP}/python tree && cp {TOP}/tools/*.py {TOP}/tools/test-tools tree/tools"
    )
    room.run(
        f"cp {TOP}/tools/tests/{{conftest.py,support.py,pytest.ini}} tree/tools/tests && cp -r {TOP}/tools/tests/stand_ins tree/tools/tests"
    )
    room.stand_in("tree/tools/tests/test_small.py", "small_tests.py")
    room.run("rm -r tree/bin/__pycache__ tree/tools/__pycache__ || true; find tree | sort > before")
    said = room.run("CI= tree/tools/test-tools").splitlines()
    assert said[-1] == "1 passed, 0 failed, 1 skipped"
    assert len([it for it in said if "for want of no-such-command" in it]) == 1
    said = room.run("CI=true tree/tools/test-tools", status=1).splitlines()
    assert said[-1] == "1 passed, 1 failed"
    assert len([it for it in said if it == "failed for want of no-such-command: test_none"]) == 1
    assert room.run("tree/tools/test-tools -k good").splitlines()[-1] == "1 passed, 0 failed"
    assert room.run("cd tree && pytest-3 tools/tests/test_small.py -k good").splitlines()[-1] == "1 passed, 0 failed"
    assert room.run("find tree | sort | diff before -") == ""
