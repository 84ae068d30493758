"""The crates of this repository, and rooms: copies of a crate outside the work tree, over what its libraries keep in out/."""
import atexit
import contextlib
import os
import re
import shutil
import signal
import subprocess
import sys
import tempfile
import threading

TOP = os.path.dirname(os.path.dirname(os.path.realpath(__file__)))
# (the tools beside this file speak as those of bin/ do, by its module reports, and import this one before it)
sys.path += [f"{TOP}/bin", f"{TOP}/python"]
PARTS = ("src", "specs", "proofs")
RUNNING, STOPPED, REMOVERS = set(), threading.Event(), []


def lines_of_list(top=TOP):
    """Returns the line of crates.txt of each crate by its name, lowest layer first."""
    with open(f"{top}/crates.txt", encoding="utf-8") as file:
        lines = [it.partition("#")[0].strip() for it in file]
    return {re.split(r"[\s:]", it)[0]: it for it in lines if it}


def libraries_below(top=TOP):
    """Returns, by the name of each crate, the libraries of this repository that it stands on, directly or through others, lowest first."""
    lines = lines_of_list(top)
    direct = {name: [it for it in line.partition(":")[2].split() if it in lines] for name, line in lines.items()}

    def below(name):
        found = []
        for library in direct[name]:
            found += [it for it in [*below(library), library] if it not in found]
        return found

    return {name: below(name) for name in lines}


def copy_tree(source, to):
    """Copies a folder, if it is there."""
    if os.path.isdir(source):
        shutil.copytree(source, to)


def lend(folders, to):
    """Gives each file of these folders, which is only read, a second name in another folder, or copies it where that one is of another file system."""
    os.makedirs(to, exist_ok=True)
    there = [it for it in folders if os.path.isdir(it)]
    if there and subprocess.run(["cp", "-al", "--", *there, to], stderr=subprocess.DEVNULL).returncode:
        subprocess.run(["cp", "-a", "--", *there, to], check=True)


def give_up(folder):
    """Removes a folder that nothing uses any more, while the caller goes on."""
    how = {"stdin": subprocess.DEVNULL, "stdout": subprocess.DEVNULL, "stderr": subprocess.DEVNULL}
    REMOVERS.append(subprocess.Popen(["rm", "-rf", "--", folder], start_new_session=True, **how))


@atexit.register
def end_removers():
    """Waits until all that was given up is removed."""
    for it in REMOVERS:
        it.wait()


@contextlib.contextmanager
def room(name):
    """Gives the folder of a copy of the crate, with what its checks keep, in a repository of its own with the libraries below it."""
    if STOPPED.is_set():
        raise InterruptedError
    lines, below = lines_of_list(), libraries_below()[name]
    top = tempfile.mkdtemp(prefix=f"{name}-")
    try:
        with open(f"{top}/crates.txt", "w", encoding="utf-8") as file:
            file.writelines(f"{lines[it]}\n" for it in [*below, name])
        for library in below:
            lend([f"{TOP}/crates/{library}/{part}" for part in PARTS], f"{top}/crates/{library}")
        for part in (*PARTS, "out/incremental"):
            copy_tree(f"{TOP}/crates/{name}/{part}", f"{top}/crates/{name}/{part}")
        # (rt writes a library into a folder that it has cleared, never over an older one)
        for it in [*below, name]:
            lend([f"{TOP}/crates/{it}/out/rlib"], f"{top}/crates/{it}/out")
        yield f"{top}/crates/{name}"
    finally:
        give_up(top)


def run(words, folder, heard=lambda line: None):
    """Runs a command in a folder, and returns its status and what it said. Each line is heard as it comes."""
    how = {"stdin": subprocess.DEVNULL, "stdout": subprocess.PIPE, "stderr": subprocess.STDOUT}
    with subprocess.Popen(words, cwd=folder, text=True, errors="replace", **how) as child:
        RUNNING.add(child)
        if STOPPED.is_set():
            child.terminate()
        said = []
        for line in child.stdout:
            said.append(line)
            heard(line)
        child.wait()
        RUNNING.discard(child)
    return child.returncode, "".join(said)


def end_with_children():
    """Has a signal that ends this program end what it runs first, so that no check goes on alone and each room is removed."""

    def stop(number, _):
        STOPPED.set()
        for child in [*RUNNING]:
            child.terminate()
        raise SystemExit(128 + number)

    for it in (signal.SIGHUP, signal.SIGINT, signal.SIGTERM):
        signal.signal(it, stop)


def memory_free():
    """Returns the free memory in bytes."""
    with open("/proc/meminfo", encoding="ascii") as file:
        return 1024 * int(re.search(r"MemAvailable:\s+(\d+)", file.read())[1])
