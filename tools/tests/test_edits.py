"""tools/edits, and the edits of all crates."""
import re

from support import module_of, TOP


def test_edits_are_judged_again(room):
    """By a stand-in of rt: where stored answers alone refuse edits, each is judged without them, and a whole proof by
    hand is left as it is.
    """
    room.stand_in("words/rt", "prover")
    room.run(
        f"mkdir -p tree/crates/one/{{src,edits}} && cp -r {TOP}/bin {TOP}/python {TOP}/tools tree && echo one: > tree/crates.txt"
    )
    functions = ("strong", "weak", "told", "renamed", "loose", "bare", "by_hand")
    source = "\n".join(f"pub fn {it}() -> u32 {{\n    1 // {it}\n}}\n" for it in functions)
    room.write("tree/crates/one/src/lib.rt", source)
    for it in functions:
        goal = "returns-1" if it == "renamed" else "returns"
        kind = {"bare": "Invariants", "by_hand": "Proof"}.get(it, "Answers")
        room.run(f"mkdir -p tree/crates/one/proofs/{it}")
        other = "\npub bounds :\n    goal.bounds\nunfolding a\nbounds c = b\n" if it == "loose" else ""
        room.write(
            f"tree/crates/one/proofs/{it}/{kind}.antt",
            f"use A\n\npub {goal} : goal.{goal}\n{goal} c =\n    fits c\n{other}",
        )
    for it, gives in (*((it, 2) for it in functions), ("weak", 3)):
        room.write(
            f"tree/crates/one/edits/{it}_gives_{gives}.edit",
            f"file: src/lib.rt\nold:     1 // {it}\nnew:     {gives} // {it}\n",
        )
    said = [re.sub("; 0 min.*", "", it) for it in room.run("tree/tools/edits one 2> /dev/null").splitlines()]
    assert said[0] == "one: 8 edits, 2 groups, 3 checks, 7 refused, 1 refused for a name"
    said = [
        re.sub("; 0 min.*", "", it)
        for it in room.run("tree/tools/edits --strict one || echo ended with $?").splitlines()
    ]
    counts = "4 refused, 2 refused by an answer alone, 1 refused by hand, 1 PROVED"
    alone = [
        f"  refused by an answer alone: {it}_gives_2: left open as in the right body: one::{it}: {goal}"
        for it, goal in (("weak", "returns"), ("renamed", "returns-2"))
    ]
    hand = "  refused by hand: by_hand_gives_2: ./proofs/by_hand/Proof.antt:1:1: error: `proof`: the two types differ"
    assert (said[0], sorted(said[1:])) == (
        f"one: 8 edits, 2 groups, 9 checks, 6 judged again, {counts}",
        sorted([*alone, hand, "  PROVED: loose_gives_2: ", "ended with 1"]),
    )


def test_planted_bugs_still_fit(room):
    """Each old text of each edit stands once in its file, and the new one is another, so that a bug that no check has
    tried for long can still be planted.
    """
    tool = module_of("edits")
    for name in tool.crates.lines_of_list():
        crate = tool.Crate(name)
        made = {it.name: crate.planted([it]) for it in crate.edits}
        assert [it for it, texts in made.items() if not texts or texts.items() <= crate.texts.items()] == [], name
