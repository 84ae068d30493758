"""tools/completions, and what it writes for bash, zsh and fish."""
import os
import pty
import re
import select
import subprocess
import time

from support import read_terminal, TOP, wants


def test_completions_are_of_the_help(room, program):
    """The files are what the tool writes; another one is refused by its name, and written again."""
    assert room.run("tools/completions --check") == ""
    room.run(
        f"mkdir tree && cp -r {TOP}/bin {TOP}/python {TOP}/tools {TOP}/completions tree && sed -i s/--until/--till/ tree/completions/_mrp"
    )
    said = "tools/completions: completions/_mrp is not what the program's help says: tools/completions writes it\n"
    assert room.run("tree/tools/completions --check", status=1) == said
    assert room.run(f"tree/tools/completions; diff -r tree/completions {TOP}/completions") == ""


def test_completes_in_bash(room):
    line = "source {0}; COMP_WORDS=(mrp {1}); COMP_CWORD={2}; _mrp; echo ${{COMPREPLY[@]}}"
    path = f"{TOP}/completions/mrp.bash"
    assert room.run(line.format(path, "p", 1)) == "plan peg pegs\n"
    assert room.run(line.format(path, "schedule --", 2)) == "--from --to --header --whole --large --help\n"
    assert room.run(line.format(path, "schedule --to S", 3)) == "\n"
    assert room.run(line.format(path, "advice --", 2)) == "--until --reach --header --whole --large --help\n"
    assert room.run(line.format(path, "advice --h", 2)) == "--header --help\n"
    assert room.run(line.format(path, "advice --until 1", 3)) == "\n"
    assert room.run(line.format(path, "plan --s", 2)) == "--single\n"
    assert room.run(line.format(path, "--v", 1)) == "--version\n"
    assert room.run(line.format(path, "he", 1)) == "help\n"
    assert room.run(line.format(path, "help s", 2)) == "schedule shortages\n"
    assert room.run(line.format(path, "check --v", 2)) == "\n"


def test_completes_in_zsh(room):
    """By the completion that a reader gets who presses the tabulator key at a terminal."""
    wants("zsh")
    room.run(f"zsh -n {TOP}/completions/_mrp")
    shown = {
        "mrp p": ["peg", "pegs", "plan"],
        "mrp plan --s": ["--single"],
        "mrp --": ["--help", "--version"],
        "mrp help o": ["orders"],
        "mrp check --": ["--header", "--help", "--large", "--reach", "--whole"],
        "mrp advice --": ["--header", "--help", "--large", "--reach", "--until", "--whole"],
    }
    for line, words in (*shown.items(), ("mrp schedule --", ["--from", "--header", "--help", "--large", "--to", "--whole"])):
        assert shown_by_zsh(room, line) == words, line


def shown_by_zsh(room, line):
    """Returns the words that zsh lists after a line."""
    begin = f"PS1=; fpath=({TOP}/completions $fpath); autoload -Uz compinit; compinit -u -D; bindkey '^I' list-choices; print rea''dy"
    end, own = pty.openpty()
    variables = {**room.variables, "HOME": room.folder, "ZDOTDIR": room.folder, "TERM": "dumb"}
    with subprocess.Popen(
        ["zsh", "-f", "-i"], stdin=own, stdout=own, stderr=own, env=variables, start_new_session=True
    ) as child:
        os.close(own)
        os.write(end, f"{begin}\n".encode())
        hear(end, b"ready\r\n", 30)
        os.write(end, f"{line}\t".encode())
        # (all words come in one piece, once it begins)
        heard = hear(end, b" -- ", 30) + hear(end, b"", 2)
        child.kill()
    os.close(end)
    return re.findall(r"^([\w-]+) +-- ", heard.decode(), re.MULTILINE)


def hear(end, last, seconds):
    """Returns what a terminal was given up to the last words, or within the seconds where there are none."""
    late, heard = time.monotonic() + seconds, b""
    while (rest := late - time.monotonic()) > 0 and not (last and last in heard):
        if select.select([end], [], [], rest)[0]:
            heard += read_terminal(end)
    return heard


def test_completes_in_fish(room):
    wants("fish")
    said = room.run(
        f'HOME={room.folder} fish -c \'source {TOP}/completions/mrp.fish; complete -C "mrp p"; complete -C "mrp plan --s"; complete -C "mrp --v"\''
    )
    assert [it.split("\t")[0] for it in said.splitlines()] == ["peg", "pegs", "plan", "--single", "--version"]
    said = room.run(
        f'HOME={room.folder} fish -c \'source {TOP}/completions/mrp.fish; complete -C "mrp check --"; complete -C "mrp plan --workers "\''
    )
    assert [it.split("\t")[0] for it in said.splitlines()] == ["--header", "--help", "--large", "--reach", "--whole"]
    said = room.run(
        f'HOME={room.folder} fish -c \'source {TOP}/completions/mrp.fish; complete -C "mrp schedule --"; complete -C "mrp schedule --to "\''
    )
    assert [it.split("\t")[0] for it in said.splitlines()] == ["--from", "--header", "--help", "--large", "--to", "--whole"]
    said = room.run(
        f'HOME={room.folder} fish -c \'source {TOP}/completions/mrp.fish; complete -C "mrp advice --"; complete -C "mrp advice --until "\''
    )
    assert [it.split("\t")[0] for it in said.splitlines()] == ["--header", "--help", "--large", "--reach", "--until", "--whole"]
    said = room.run(
        f'HOME={room.folder} fish -c \'source {TOP}/completions/mrp.fish; complete -C "mrp help o"; complete -C "mrp he"\''
    )
    assert [it.split("\t")[0] for it in said.splitlines()] == ["orders", "help"]
