"""What a crate makes, and of which sources it is: judged by what is in files, and not by when they were written.

Beside crates/CRATE/out/FILE stands FILE.sources: the sum of the sources that FILE is of, its own sum with the time of
its writing, and a sum of when the status of each of these files was changed last. So they are read again only where one
was touched since. Where another run has written FILE, as rt ci, it has to be newer than all sources.
"""
import hashlib
import os

import crates


def sources(name, top=crates.TOP):
    """Returns the files that a crate and the libraries below it are made of, by their paths below the top."""
    found = []
    for it in [name, *crates.libraries_below(top)[name]]:
        for part in crates.PARTS:
            for at, _, files in os.walk(f"{top}/crates/{it}/{part}"):
                found += [os.path.relpath(f"{at}/{file}", top) for file in files]
    return sorted(found)


def sum_of_file(path):
    """Returns the sum of what is in a file."""
    with open(path, "rb") as file:
        return hashlib.sha256(file.read()).hexdigest()


def sum_of_texts(texts):
    """Returns the sum of some texts, one a line."""
    return hashlib.sha256("\n".join(texts).encode()).hexdigest()


def sum_of_sources(name, top=crates.TOP):
    """Returns the sum of the sources of a crate, with its lines of the list of crates."""
    lines = crates.lines_of_list(top)
    listed = [lines[it] for it in [name, *crates.libraries_below(top)[name]]]
    return sum_of_texts([*listed, *(f"{sum_of_file(f'{top}/{it}')} {it}" for it in sources(name, top))])


class Made:
    """A file that a crate makes, and what is kept of it."""

    def __init__(self, crate, name):
        self.crate, self.path = crate, f"{crates.TOP}/crates/{crate}/out/{name}"

    def is_of_sources(self):
        """Tells whether the file is there and of the sources as they stand."""
        if not os.path.isfile(self.path):
            return False
        # (what is changed from here on is seen the next time)
        seen, (of, bytes_kept, time, seen_before) = self.seen(), self.kept()
        if seen == seen_before:
            return True
        now, bytes_now, time_now = (
            sum_of_sources(self.crate),
            sum_of_file(self.path),
            str(os.stat(self.path).st_mtime_ns),
        )
        is_kept = bytes_now == bytes_kept and of == now
        if not is_kept and (bytes_now, time_now) != (bytes_kept, time):
            is_kept = self.is_newest()
        if is_kept:
            self.keep(now, seen)
        return is_kept

    def is_newest(self):
        """Tells whether no source was written after the file."""
        written = os.stat(self.path).st_mtime_ns
        return all(os.stat(f"{crates.TOP}/{it}").st_mtime_ns <= written for it in sources(self.crate))

    def seen(self):
        """Returns which files there are, and when the status of each was changed last: no tool sets that time back."""
        status = {it: os.stat(it) for it in (self.path, *(f"{crates.TOP}/{it}" for it in sources(self.crate)))}
        listed = crates.lines_of_list()
        return sum_of_texts(
            [*listed.values(), *(f"{it.st_ino} {it.st_ctime_ns} {path}" for path, it in status.items())]
        )

    def kept(self):
        """Returns what is kept: of which sources the file is, its sum, when it was written, and what was seen."""
        try:
            with open(f"{self.path}.sources", encoding="utf-8") as file:
                lines = file.read().split("\n")
        except OSError:
            lines = []
        return lines[:4] if len(lines) > 4 else [""] * 4

    def keep(self, of, seen=""):
        """Keeps of which sources the file is. (Where that can't be kept, they are read again each time.)"""
        beside = f"{self.path}.{os.getpid()}"
        lines = [of, sum_of_file(self.path), str(os.stat(self.path).st_mtime_ns), seen, ""]
        try:
            # (beside its place first, since others may read it)
            with open(beside, "w", encoding="utf-8") as file:
                file.write("\n".join(lines))
            os.replace(beside, f"{self.path}.sources")
        except OSError:
            pass


def files(crate, folder):
    """Returns the names of what a crate makes beside its library, as far as it is in a folder's out/: a program, or a
    library for C.
    """
    return [it for it in (crate, f"lib{crate}.a") if os.path.isfile(f"{folder}/out/{it}")]


def is_other(room, own):
    """Tells whether what a check left in a room is other than what the crate keeps: a library has a stamp, and all
    else is made in the room.
    """
    stamps = [f"{it}/out/rlib/stamp" for it in (room, own)]
    times = [os.stat(it).st_mtime_ns if os.path.isfile(it) else None for it in stamps]
    return times[0] != times[1] or bool(files(os.path.basename(room), room))
