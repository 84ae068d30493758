#!/usr/bin/env python3
"""Measures mrp on one thread beside a plain program of the same words: bench/beside.py [--runs N] PLAIN TABLE..

PLAIN is a program that answers `plan`, `check` and `cums` as mrp does, by a table on standard input. For each TABLE
and each of these words both run in turn, N times (9 without it), to the null device, pinned to one processor. Before
that both reports are compared, and a difference ends the run with status 1. A line for each table and word:

    table word plain_least plain_middle mrp_least mrp_middle times plain_mib mrp_mib

Seconds are of wall time, `times` is mrp's least by the plain program's, memory is the peak. `bench/firm.sh table 64
20000` makes a firm whose plants all take from each other. MRP may name the program; else it is bin/mrp's.
"""
import argparse
import hashlib
import os
import subprocess
import sys
import time

TOP = os.path.dirname(os.path.dirname(os.path.abspath(__file__)))
WORDS = ("plan", "check", "cums")


def words_of(program, word, is_mrp):
    """Returns the words of a run: mrp plans on one thread."""
    return [program, word, *["--single"] * (is_mrp and word == "plan")]


def report_of(words, table):
    """Returns the sum of what a run writes. It is read piece by piece: a child's peak is at least its parent's memory."""
    report = hashlib.sha256()
    with open(table, "rb") as rows, subprocess.Popen(words, stdin=rows, stdout=subprocess.PIPE) as ran:
        while piece := ran.stdout.read(65536):
            report.update(piece)
    if ran.returncode:
        sys.exit(f"bench/beside.py: {' '.join(words)} < {table} ended with status {ran.returncode}")
    return report.digest()


def run_once(words, table):
    """Returns the seconds and the peak memory in KiB of one run to the null device."""
    rows, nowhere = os.open(table, os.O_RDONLY), os.open(os.devnull, os.O_WRONLY)
    streams = [(os.POSIX_SPAWN_DUP2, rows, 0), (os.POSIX_SPAWN_DUP2, nowhere, 1)]
    began = time.perf_counter()
    process = os.posix_spawn(words[0], words, os.environ, file_actions=streams)
    _, _, use = os.wait4(process, 0)
    seconds = time.perf_counter() - began
    os.close(rows)
    os.close(nowhere)
    return seconds, use.ru_maxrss


def measured(plain, mrp, word, table, runs):
    """Returns the sorted seconds and the peaks of both programs, run in turn."""
    both = [words_of(plain, word, False), words_of(mrp, word, True)]
    if report_of(both[0], table) != report_of(both[1], table):
        sys.exit(f"bench/beside.py: {word} < {table}: the reports differ")
    seconds, peaks = ([], []), [0, 0]
    for _ in range(runs):
        for at, words in enumerate(both):
            taken, peak = run_once(words, table)
            seconds[at].append(taken)
            peaks[at] = max(peaks[at], peak)
    return [sorted(it) for it in seconds], peaks


def main():
    parser = argparse.ArgumentParser(description=__doc__, formatter_class=argparse.RawDescriptionHelpFormatter)
    parser.add_argument("--runs", type=int, default=9)
    parser.add_argument("plain")
    parser.add_argument("tables", nargs="+", metavar="TABLE")
    given = parser.parse_args()
    if given.runs < 1:
        parser.error("--runs is 1 or more")
    mrp = os.environ.get("MRP") or f"{TOP}/bin/mrp"
    subprocess.run([mrp, "--help"], stdout=subprocess.DEVNULL, check=True)
    os.sched_setaffinity(0, {max(os.sched_getaffinity(0))})
    print("table word plain_least plain_middle mrp_least mrp_middle times plain_mib mrp_mib")
    for table in given.tables:
        for word in WORDS:
            (plain, ours), peaks = measured(os.path.abspath(given.plain), mrp, word, table, given.runs)
            figures = [plain[0], plain[len(plain) // 2], ours[0], ours[len(ours) // 2]]
            said = " ".join(f"{it:.3f}" for it in figures)
            memory = " ".join(str(it // 1024) for it in peaks)
            print(f"{os.path.basename(table)} {word} {said} {ours[0] / plain[0]:.2f} {memory}", flush=True)


if __name__ == "__main__":
    main()
