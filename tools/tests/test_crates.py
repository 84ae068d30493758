"""The list of crates: what it names, and what it and the imports forbid: a run by threads that copies a plan that was made otherwise.

Contracts say that a run answers the one plan, and not how it came to it. What plans the network as a whole (`mrp_plan`), and what drives
all plants in one thread (`mrp_world`), answer the same plan. So a run that asks its gate and then copies theirs would meet every clause on
a network without lanes. It can't, since what it stands on has no such call.
"""
import glob
import os
import re

import crates
from support import TOP

OTHER_PLANNERS = {"mrp_plan", "mrp_world"}
PLANNER = f"{crates.TOP}/crates/mrp_api/src"
# An import of the function that plans a network as a whole, or its whole name.
PLANS_ALL = re.compile(r"\bmrp_plan::(?:\{[^}]*?\b)?plan_all\b")


def sources(folder):
    """Returns the text of each source of a folder by its path below it."""
    paths = [os.path.join(root, it) for root, _, names in os.walk(folder) for it in names if it.endswith(".rt")]
    texts = {}
    for path in paths:
        with open(path, encoding="utf-8") as file:
            texts[os.path.relpath(path, folder)] = file.read()
    return texts


def used_by(first, texts):
    """Returns the files of a crate that a file of it uses, directly or through others, and that file."""
    seen, left = {first}, [first]
    while left:
        named = {f"{it}.rt" for it in re.findall(r"\bcrate::(\w+)", texts[left.pop()])}
        new = (named & texts.keys()) - seen
        seen |= new
        left += new
    return seen


def copies(first, texts):
    """Returns the files with which a file comes to a plan that no thread of a plant made."""
    return {it for it in used_by(first, texts) if PLANS_ALL.search(texts[it]) or "mrp_world::" in texts[it]}


def test_a_run_by_threads_stands_on_no_other_planner():
    """Neither directly nor through others: what a run answers is made by the threads of its plants."""
    below = crates.libraries_below()
    assert OTHER_PLANNERS.isdisjoint(below["mrp_run"])
    assert OTHER_PLANNERS.isdisjoint(it for name in below["mrp_run"] for it in below[name])


def test_the_list_is_followed_through_others(monkeypatch):
    lines = {"mrp_plan": "mrp_plan: thiserror", "mrp_agent": "mrp_agent: mrp_plan", "mrp_run": "mrp_run: mrp_agent thiserror"}
    monkeypatch.setattr(crates, "lines_of_list", lambda top: lines)
    assert crates.libraries_below()["mrp_run"] == ["mrp_plan", "mrp_agent"]


def test_one_file_of_the_planner_plans_the_whole_network():
    """The reports of one thread are made from such a plan, and a plan by threads uses nothing of that file."""
    texts = sources(PLANNER)
    assert [it for it, text in texts.items() if PLANS_ALL.search(text)] == ["writing.rt"]
    assert "plan_network(" in texts["run.rt"]
    assert used_by("run.rt", texts) == {"run.rt", "fault.rt", "network.rt"}
    assert not copies("run.rt", texts)


def test_a_copied_plan_is_found():
    """Planted in what the planner's run by threads uses: by an import, by a whole name, in a file below, and out of a world."""
    run, below = "use crate::fault::TextFault;\nuse mrp_run::plan_network;\n", "pub enum TextFault {}\n"
    wrong = {
        "an import": (run + "use mrp_plan::{Plan, peg, plan_all};\n", below, {"run.rt"}),
        "a whole name": (run + "let plan = mrp_plan::plan_all(alloc, net)?;\n", below, {"run.rt"}),
        "a file below": (run, below + "use mrp_plan::{\n    Plan,\n    plan_all,\n};\n", {"fault.rt"}),
        "a world": (run + "use mrp_world::Firm;\n", below, {"run.rt"}),
        "nothing": (run + "use mrp_plan::Plan;\n", below, set()),
    }
    for name, (first, second, found) in wrong.items():
        assert (name, copies("run.rt", {"run.rt": first, "fault.rt": second})) == (name, found)


def test_crates_list_what_their_files_name(room):
    """rt reads the files below a crate once for each way down the list, so one that lists what no file of its names
    costs minutes.
    """
    listed = {name: line.partition(":")[2].split() for name, line in crates.lines_of_list().items()}
    for name, libraries in listed.items():
        files = (
            it
            for part in crates.PARTS
            for it in glob.glob(f"{TOP}/crates/{name}/{part}/**", recursive=True)
            if os.path.isfile(it)
        )
        named = set()
        for it in files:
            with open(it, encoding="utf-8") as file:
                named.update(re.findall(r"\b(?:Rattle\.)?(\w+)(?:::|\.)", file.read()))
        assert [it for it in libraries if it not in named] == [], name
