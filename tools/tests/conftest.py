"""What every test of the tools starts with: the program, a room, and how tests that can't be run here are told."""
import os
import shutil
import sys

import pytest

HERE = os.path.dirname(os.path.realpath(__file__))
sys.dont_write_bytecode = True
TOOLS = os.path.dirname(HERE)
sys.path[:0] = [HERE, TOOLS, f"{os.path.dirname(TOOLS)}/bin", f"{os.path.dirname(TOOLS)}/python"]
import support  # noqa: E402


@pytest.fixture
def room(tmp_path):
    """A folder that looks like the top of the repository, with mrp on the path."""
    made = support.Room(str(tmp_path))
    yield made
    shutil.rmtree(tmp_path, ignore_errors=True)


@pytest.fixture
def program():
    """The path of the program that MRP names, or of the proved one where it is built of the sources."""
    return support.program() or support.skip("the program")


@pytest.hookimpl(hookwrapper=True)
def pytest_runtest_makereport(item):
    """With CI=true a test that can't be run has failed, in a line that says what it wants."""
    report = (yield).get_result()
    if report.skipped and os.environ.get("CI") == "true":
        report.outcome, report.longrepr = (
            "failed",
            f"failed {report.longrepr[2].removeprefix('Skipped: ')}: {item.name}",
        )


def pytest_unconfigure(config):
    """Ends a run with the line of counts, and leaves nothing in the work tree."""
    reporter = config.pluginmanager.get_plugin("terminalreporter")
    if hasattr(config, "workerinput") or not reporter:
        return
    passed, failed, errors, skipped = (
        len(reporter.stats.get(it, ())) for it in ("passed", "failed", "error", "skipped")
    )
    print(f"{passed} passed, {failed + errors} failed" + (f", {skipped} skipped" if skipped else ""), flush=True)
    shutil.rmtree(f"{HERE}/__pycache__", ignore_errors=True)
