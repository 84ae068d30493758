"""The recipes of the pages in docs/: each command writes what stands below it."""
import contextlib

import pytest
from support import postgresql, sections, wants

# (some sections have no commands)
RECIPES = {name: steps for name, steps in sections().items() if steps}


@pytest.mark.parametrize("steps", RECIPES.values(), ids=RECIPES)
def test_recipe(room, steps):
    commands = "".join(command for command, _ in steps)
    if "sqlite3" in commands:
        wants("sqlite3")
    with postgresql(room) if "psql" in commands else contextlib.nullcontext():
        for command, printed in steps:
            assert room.run(command) == printed
