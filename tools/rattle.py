"""What is read of Rattle without the kit: functions, declarations, clauses and imports of sources, and definitions of specs/.

Sources are read in the layout of rt fmt, where each item ends at a closing brace under its first letter.
"""
import glob
import os
import re

import crates
import reports

# The line that begins a function, and the type that an impl is of.
FUNCTION = re.compile(r"( *)(?:pub(?:\([^)]*\))? )?(?:const |unsafe |extern \"C\" )*fn (\w+)")
OWNER = re.compile(r"impl\b(?:<.*?>)?\s+(?:.*\bfor )?(?:\w+::)*(\w+)")
# How a type begins in a source.
TYPE = r"pub(?:\(crate\))? (?:struct|enum) "
# How a definition begins in a file of specs/, and what stands between definitions.
DEFINITION = re.compile(r"(?:abbrev|unfoldable)(?: pub)? (\S+)|(?:pub )?(?:record|data) (\S+)|(?:pub )?(\w+) :")
BETWEEN = re.compile(r"--|use |pub use |pub mod |infix")
# What builds a value of a data type.
BUILDER = re.compile(r"\s+(?:pub )?(\w+) :")
# An item with its docstring, from its name on to the brace that opens its body.
ITEM = r"((?:^///.*\n)*)^({}\b(?:.*\n)+?)\{{"


def read(path):
    """Returns the text of a file of the repository."""
    with open(f"{crates.TOP}/{path}", encoding="utf-8") as file:
        return file.read()


def files(pattern):
    """Returns the files of the repository that a pattern finds, sorted."""
    return sorted(
        it for it in glob.glob(pattern, root_dir=crates.TOP, recursive=True) if os.path.isfile(f"{crates.TOP}/{it}")
    )


def has_tests(crate):
    """Tells whether a crate has #[test] functions."""
    return any("#[test]" in read(it) for it in files(f"crates/{crate}/src/**/*.rt"))


def functions(text):
    """Yields each function of a source: the type that it belongs to or nothing, its name, the number of its first
    line, and its lines.
    """
    owner, lines = "", text.split("\n")
    for at, line in enumerate(lines):
        if line and not line.startswith((" ", "}")):
            owner = (OWNER.match(line) or ["", ""])[1]
        head = FUNCTION.match(line)
        if head:
            # (one that is only declared ends before the next, or with its trait)
            stops = (
                it
                for it in range(at + 1, len(lines))
                if re.match(rf"(?:{head[1]})?\}}", lines[it]) or FUNCTION.match(lines[it])
            )
            last = at if line.endswith("}") else next(stops, len(lines) - 1)
            yield owner if head[1] else "", head[2], at + 1, lines[at : last + 1]


def header(path, function):
    """Returns the docstring of a public function as text, and its lines from its name on to its last clause."""
    found = re.search(ITEM.format(f"pub fn {function}"), read(path), re.MULTILINE)
    if not found:
        raise reports.Refused(f"{path} has no function {function}")
    return re.sub("^/// ?", "", found[1], flags=re.MULTILINE).strip(), found[2].rstrip()


def clauses(path, function, name):
    """Returns the text of the clauses that a function ensures, or of the one of that name."""
    parts = re.split(r"^    (?=(?:ensures|requires) )", header(path, function)[1], flags=re.MULTILINE)
    found = [it for it in parts if it.startswith("ensures ") and (not name or it.startswith(f"ensures {name} "))]
    if not found:
        raise reports.Refused(f"{path}: {function} has no clause {name}")
    return "\n".join(found)


def declaration(path, head):
    """Returns the place in its file and the text of what a source declares by a line that begins so, with docstring
    and without attributes, or nothing.
    """
    lines = read(path).split("\n")
    place = next((place for place, it in enumerate(lines) if re.match(head, it)), None)
    if place is None:
        return None
    end = next(it for it in range(place, len(lines)) if lines[it] == "}" or lines[it].endswith(";"))
    begin = next(it for it in range(place, -1, -1) if not lines[it - 1].startswith(("///", "#[")))
    return place, "\n".join(it for it in lines[begin : end + 1] if not it.lstrip().startswith("#["))


def exported(path):
    """Returns the calls for C of a source by name, each with the text of its arguments."""
    return dict(re.findall(r'^pub extern "C" fn (\w+)\((.*?)\) -> u32', read(path), re.MULTILINE | re.DOTALL))


def imports(text, begin=""):
    """Returns the whole names of the words that use lines bring in, and of the modules that they give a name."""
    names = {}
    for module, listed in re.findall(rf"^\s*{begin}use Rattle\.(\S+?)\.\{{([^}}]*)\}}", text, re.MULTILINE):
        pairs = (it.strip().partition(" as ") for it in listed.split(","))
        names |= {own or real: f"{module}.{real}" for real, _, own in pairs if real}
    return names, {
        own: module for module, own in re.findall(rf"^\s*{begin}use Rattle\.([^\s{{]+) as (\w+)", text, re.MULTILINE)
    }


def module_of(path):
    """Returns the module of a file, as use lines name it behind Rattle."""
    return path.removeprefix("crates/").removesuffix(".antt").replace("/", ".")


def definitions(path):
    """Yields each definition of a file of specs/: its name, its comment, its lines, and the number of its first.

    A comment belongs to what it stands over.
    """
    notes, lines, own = [], read(path).split("\n"), None
    for place, line in enumerate(lines, 1):
        head = DEFINITION.match(line)
        if head:
            if own:
                yield own
            own = (head[1] or head[2] or head[3], [it for it in notes if it.startswith("--")], [], place)
            own[2].extend([*(it for it in notes if it.startswith("infix")), line])
        elif BETWEEN.match(line):
            # (a line of dashes parts a file)
            notes = [*([] if own else notes), line] if re.match("--(?! ----)|infix", line) else []
            if own:
                yield own
            own = None
        elif own:
            own[2].append(line)
        elif line:
            raise reports.Refused(f"{path}, line {place}: no definition begins here")
        if not line or head:
            notes = []
    if own:
        yield own
