"""tools/library, the library for C and its header."""
import ctypes
import re
import subprocess

import rattle
from support import answered, module_of, proved, reads_each_report, skip, some_tables, TOP, wants


def exported():
    """Returns the calls that crates/mrp_c_api exports, each with the types of its arguments as C has them."""
    types = {
        "&[u8]": "uint8_t* size_t",
        "&mut [u8]": "uint8_t* size_t",
        "&mut usize": "size_t*",
        "bool": "bool",
        "u64": "uint64_t",
        "&Reading": "mrp_reading*",
        "Global": "",
    }
    found = [it for name in ("lib", "large") for it in rattle.exported(f"crates/mrp_c_api/src/{name}.rt").items()]
    return {
        name: " ".join(types[it.partition(": ")[2].strip()] for it in words.split(",") if it.strip()).split()
        for name, words in found
    }


def test_header_declares_what_is_exported(room):
    """Each call with its arguments; what is only read is const, and the example in C compiles with it."""
    with open(f"{TOP}/include/mrp.h", encoding="utf-8") as file:
        text = file.read()
    found = {}
    for name, words in re.findall(r"^uint32_t (\w+)\((.*?)\);", text, re.MULTILINE | re.DOTALL):
        arguments = [re.fullmatch(r"\s*(const )?(\w+) (\*?)(\w+)", it).groups() for it in words.split(",")]
        found[name] = [kind + star for _, kind, star, _ in arguments]
        assert [argument for const, _, star, argument in arguments if star and not const] == ["buffer", "size"]
    assert found == exported()
    wants("cc")
    room.run("cc -std=c99 -Wall -Wextra -Wpedantic -Werror -Iinclude -c examples/c/report.c -o report.o")


def test_library_is_made_of_what_is_proved(room):
    """By stand-ins of rt's kit and tools/prove: the shared object has the calls of the header alone; what is of other
    sources is proved again.
    """
    wants("cc")
    room.run(
        f"mkdir -p tree/crates/mrp_c_api/{{src,out}} kit/bin kit/c && cp -r {TOP}/include {TOP}/bin {TOP}/tools tree"
    )
    room.stand_in("kit/bin/rt", "silent")
    room.stand_in("tree/tools/prove", "library/prove")
    room.stand_in("memory.c", "library/memory.c")
    calls = "".join(f"void *{it}(void) {{ return rattle_alloc(1); }}\n" for it in exported())
    room.write("calls.c", f"void *rattle_alloc(unsigned long size);\n{calls}int own;\n")
    source = "tree/crates/mrp_c_api/src/lib.rt"
    room.write(source, "one")
    room.run("cc -fPIC -c memory.c && ar rs kit/c/liblibc_c.a memory.o")
    make = 'PATH="$PWD/kit/bin:$PATH" tree/tools/library lib 2> said'
    made = "lib/libmrp.a\nlib/libmrp.so\nlib/mrp.h\n"
    assert [room.run(make), room.run(make), room.run("cat asked; cmp lib/mrp.h include/mrp.h")] == [made, made, "\n"]
    names = [it.split()[-1] for it in room.run("nm -D --defined-only lib/libmrp.so").splitlines()]
    assert sorted(it for it in names if not it.startswith("_")) == sorted(exported())
    room.write(source, "others")
    assert [room.run(make), room.run("cat asked")] == [made, "\n\n"]
    room.write(source, "still others")
    assert room.run(f"FAILS=yes {make} || tail -n 1 said") == "tools/library: the library could not be proved\n"


def library(room):
    """Makes the library for C in the folder lib by the commands of the page, with the example beside it."""
    if not proved("mrp_c_api", "libmrp_c_api.a"):
        skip("the library for C")
    wants("cc")
    with open(f"{TOP}/docs/integrate.md", encoding="utf-8") as file:
        section = file.read().partition("\n## From C and from Python\n")[2].partition("\n```")[0]
    for it in re.findall("^    (.*)$", section, re.MULTILINE):
        room.run(it)


def test_library_answers_memory_where_it_is_refused(room):
    """Each allocation refused in turn, and some of them with all behind: what is right, or that memory is missing,
    also for the line of a fault.
    """
    library(room)
    room.run("cc -O2 -shared -fPIC tools/refuse.c -o refuse.so -ldl")
    bicycle = room.run("cat examples/bicycle.csv")
    loop = bicycle.replace("WHEEL,buy", "WHEEL,make").replace("demand", "bill,P1,WHEEL,BIKE,1,,,\ndemand")
    for words, table, status in (
        ("plan", bicycle, 0),
        ("orders --header", bicycle, 0),
        ("cums", loop, 1),
        ("schedule", "run\n", 1),
    ):
        right, place, lacking = answered(room, words, table.encode(), {}, f"{room.folder}/report"), 0, set()
        assert right[0] == status
        while True:
            place += 1
            refused = {
                "LD_PRELOAD": f"{room.folder}/refuse.so",
                "REFUSE": f"memory {place} {place if place % 9 else 10**9} fail 0",
            }
            said = answered(room, words, table.encode(), refused, f"{room.folder}/report")
            if said == right and place % 9 == 0:
                break
            if said != right:
                assert said[:2] == (3, b"")
                lacking.add(said[2])
        assert lacking == {b"mrp: Memory\n", b"report: out of memory\n"}, words


# The reports of the example in C that may have names of columns.
REPORTS = "orders", "schedule", "check", "reach", "cums", "advice", "shortages"


def test_library_answers_as_the_program(room, program):
    """Report by report, by the example in C: the same status, and to the byte what is written."""
    library(room)
    for words in ("orders --until 0", "plan --header x", "none", ""):
        assert "report: " in room.run(f"./report {words} < examples/bicycle.csv", status=2)
    assert (
        room.run("./report plan < examples/bicycle.csv > /dev/full", status=3)
        == "report: the report can't be written\n"
    )
    assert room.run("./report plan < /", status=3) == "report: the table can't be read\n"
    for table in some_tables():
        for words in (
            ["plan"],
            ["plan", "--whole"],
            *([it, *more] for it in REPORTS for more in ([], ["--header"], ["--whole"], ["--whole", "--header"])),
        ):
            asked = ["check", "--reach", *words[1:]] if words[0] == "reach" else words
            got, wanted = (
                subprocess.run(it, input=table, capture_output=True, check=False)
                for it in ([f"{room.folder}/report", *words], [program, *asked])
            )
            assert (got.returncode, got.stdout, got.stderr) == (wanted.returncode, wanted.stdout, wanted.stderr), words


def test_library_writes_no_byte_behind_a_text(room):
    """In buffers of each size about that of the text; one that is too small is as it was, and its size is told."""
    library(room)
    calls = module_of("mrp.py", "python").Library(f"{room.folder}/lib/libmrp.so").calls
    table = room.run("cat examples/pumps.csv").encode()
    report = room.run("cat examples/pumps.plan.csv").encode()
    for call, options, wanted in (
        ("plan", (table, len(table)), (0, report)),
        ("plan", (b"", 0), (1, b"mrp: row 0: Empty\n")),
        ("schedule", (table, len(table), b"none", 4, b"", 0, True), (1, b"mrp: no plant\n")),
        ("schedule", (b"", 0, b"", 0, b"\xff", 1, True), (2, b"mrp: a name is not UTF-8\n")),
    ):
        for room_left in (0, 1, len(wanted[1]) - 1, len(wanted[1]), len(wanted[1]) + 7):
            size, buffer = ctypes.c_size_t(1), ctypes.create_string_buffer(b"\xa5" * (room_left + 64), room_left + 64)
            reading = ctypes.byref(ctypes.c_bool(False))
            status = calls[call](*options[:2], reading, *options[2:], buffer, room_left, ctypes.byref(size))
            text = wanted[1] if len(wanted[1]) <= room_left else b""
            assert (status, size.value) == (wanted[0], len(wanted[1])), (call, room_left)
            assert buffer.raw == text + b"\xa5" * (room_left + 64 - len(text)), (call, room_left)


def test_library_takes_options(room, program):
    """A last period of release, one plant or both, and plants that the table hasn't."""
    library(room)
    mrp = module_of("mrp.py", "python")
    table = room.run("cat examples/pumps.csv").encode()
    asks = [(name, {"until": it}) for name in ("orders", "advice") for it in (None, 0, 3, 103, 10**6)]
    asks += [("advice", {"until": it, "reach": True}) for it in (None, 0, 3, 10**6)] + [("check", {"reach": True})]
    asks += [(name, {"whole": True}) for name in ("plan", "orders", "check", "cums", "schedule", "advice", "shortages")]
    asks += [
        ("schedule", {"supplier": one, "customer": other})
        for one in (None, "FOUNDRY", "NONE", "-")
        for other in (None, "WORKS", "DEPOT", "\xdc")
    ]
    for name, options in asks:
        got, wanted = (
            by.ask(name, table, **options) for by in (mrp.Library(f"{room.folder}/lib/libmrp.so"), mrp.Program(program))
        )
        assert got == wanted, (name, options)


def test_library_takes_large_tables(room, program):
    """Of 65 plants, one more than the usual limits have: only the calls for large tables take it, each as the program."""
    library(room)
    mrp = module_of("mrp.py", "python")
    plants = "".join(f"plant,P{it},,,,,,\n" for it in range(65))
    table = f"run,2026-01-05,7,2,,,,\n{plants}pair,P64,X,buy,lot,1,0,0\ndemand,P64,X,1,5,,,\n".encode()
    one, other = (mrp.Library(f"{room.folder}/lib/libmrp.so", large) for large in (False, True))
    for name in ("plan", *REPORTS):
        asked, options = ("check", {"reach": True}) if name == "reach" else (name, {})
        assert one.ask(asked, table, **options) == (1, b"mrp: row 66: TooMany\n"), name
        wanted = mrp.Program(program, large=True).ask(asked, table, **options)
        assert other.ask(asked, table, **options) == wanted and wanted[0] == 0, name


def test_python_reads_each_report_of_the_library(room, program):
    """As by the program."""
    library(room)
    mrp = module_of("mrp.py", "python")
    reads_each_report(
        program, mrp, mrp.Library(f"{room.folder}/lib/libmrp.so"), ("plan", "check", "cums", "orders", "schedule", "advice", "shortages")
    )
