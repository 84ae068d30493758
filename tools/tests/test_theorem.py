"""tools/theorem, and the page that it writes."""
import re

from support import module_of, TOP


def test_theorem_is_of_the_sources(room):
    """The page is what the tool writes; in another page a difference is found, and a definition without a group is
    refused by its name.
    """
    assert room.run("tools/theorem --check") == ""
    room.run(f"mkdir -p tree/docs && cp -r {TOP}/bin {TOP}/python {TOP}/tools tree && ln -s {TOP}/crates tree")
    room.run("sed 's/≤ MOST/< MOST/' docs/theorem.md > tree/docs/theorem.md")
    said = (
        "tools/theorem: docs/theorem.md is not the page of these sources: tools/theorem > docs/theorem.md writes it\n"
    )
    assert room.run("tree/tools/theorem --check", status=1) == said
    assert (
        room.run(
            "tree/tools/theorem > tree/docs/theorem.md; cmp tree/docs/theorem.md docs/theorem.md; tree/tools/theorem --check"
        )
        == ""
    )
    room.run("sed -i 's/mrp_loops.specs.Need //' tree/tools/theorem")
    said = room.run("tree/tools/theorem --check", status=1)
    assert (
        re.sub(r"Need\.\w+", "Need.it", said)
        == "tools/theorem: mrp_loops.specs.Need.it has no group: PARTS of tools/theorem has to name mrp_loops.specs.Need\n"
    )


def test_theorem_gives_what_it_uses_before(room):
    """Each definition stands once, and behind those that it uses; a word of the sources that isn't given is a type or
    a constant.
    """
    page = module_of("theorem").Page()
    text, given = page.text(), set()
    for name, definition in page.given.items():
        assert text.count(f"\n{definition.shown()}\n") == 1, name
        assert [
            it
            for it in page.sources.below(name)
            if it.startswith("mrp_") and it not in given and ".declared." not in it
        ] == [], name
        given.add(name)
    assert [it for it in page.outside if it.startswith("mrp_")] == []
