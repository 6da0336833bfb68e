"""The crates of an earlier export that are still what an export would write."""
import collections
import functools
import hashlib
import os
import shutil

import workspace

HERE = os.path.dirname(os.path.abspath(__file__))
# For each crate the sum of what it is made from, and that of what was made.
SUMS = "exported.sums"


def sum_of(folder, names):
    """A sum of files by their names and contents."""
    total = hashlib.sha256()
    for name in sorted(names):
        with open(os.path.join(folder, name), "rb") as file:
            octets = file.read()
        total.update(f"{name} {len(octets)}\n".encode() + octets)
    return total.hexdigest()


@functools.lru_cache(maxsize=None)
def sum_of_tool():
    return sum_of(HERE, [it for it in os.listdir(HERE) if it == "export" or it.endswith((".py", ".json")) and it != "tests.py"])


def sum_of_source(repository, crate, stands_on):
    """A sum of all that the export of a crate depends on."""
    folder = os.path.join(repository, "crates", crate, "src")
    text = " ".join([sum_of_tool(), sum_of(folder, workspace.files_of(folder)), *stands_on])
    return hashlib.sha256(text.encode()).hexdigest()


def sums_line(target, crate, source):
    folder = os.path.join(target, "crates", crate)
    return f"{source} {sum_of(folder, workspace.files_of(folder))}"


def write(target, sums):
    with open(os.path.join(target, SUMS), "w", encoding="ascii") as file:
        file.writelines(f"{crate} {line}\n" for crate, line in sums.items())


class Kept:
    """An earlier export."""

    def __init__(self, folder):
        self.folder, self.sums, self.counts = folder, {}, {}
        try:
            with open(os.path.join(folder, SUMS), encoding="ascii") as file:
                self.sums = dict(line.rstrip("\n").split(" ", 1) for line in file)
            with open(os.path.join(folder, workspace.COUNTS), encoding="utf-8") as file:
                kinds, *rows = [line.rstrip("\n").split("\t") for line in file]
        except (OSError, ValueError):
            return
        for crate, *row in rows:
            self.counts[crate] = collections.Counter({kind: int(count) for kind, count in zip(kinds[1:], row) if count != "0"})

    def taken(self, new, crate, source):
        """Copies a crate that is what an export would write. Returns its counts, or None where it is not."""
        there = os.path.join(self.folder, "crates", crate)
        if crate not in self.counts or not os.path.isdir(there) or self.sums.get(crate) != sums_line(self.folder, crate, source):
            return None
        shutil.copytree(there, os.path.join(new, "crates", crate))
        return self.counts[crate]
