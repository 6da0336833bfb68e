"""The file of an export that says what it was made from, and by which words."""
import collections
import os
import shlex
import shutil
import subprocess

NAME = "MADE-FROM"
Made = collections.namedtuple("Made", "there crates members")


def commit(sources):
    """The commit that the sources are of, and whether they were changed since."""
    words = ["git", "-C", sources]
    try:
        name = subprocess.run([*words, "rev-parse", "HEAD"], capture_output=True, text=True, check=True).stdout.strip()
        changed = subprocess.run([*words, "status", "--porcelain", "crates", "tools/plain_rust"], capture_output=True, text=True, check=True).stdout
    except (OSError, subprocess.CalledProcessError):
        return "none: the sources are in no repository"
    return name + (", changed since" if changed else "")


def toolchain():
    """The line by which Rattle's toolchain names itself, where it is on this machine."""
    tool = shutil.which("rt")
    path = os.path.join(os.path.dirname(os.path.dirname(os.path.realpath(tool))), "KIT-ID") if tool else ""
    if not os.path.exists(path):
        return "none on the machine that made this"
    with open(path, encoding="utf-8") as file:
        return file.read().strip()


def write(target, given):
    """Writes the file."""
    words = ["tools/plain_rust/export", "FOLDER", *given.crates, *[it for member in given.member for it in ("--member", member)]]
    lines = {
        "commit": commit(given.sources),
        "toolchain": toolchain(),
        "crates": " ".join(given.crates) or "all",
        "members": shlex.join(given.member),
        "made again by": shlex.join(words),
    }
    with open(os.path.join(target, NAME), "w", encoding="utf-8") as file:
        file.writelines(f"{key}: {value}".rstrip() + "\n" for key, value in lines.items())


def read(target):
    """What an earlier export in this folder was asked for: no crates by name where it has all."""
    try:
        with open(os.path.join(target, NAME), encoding="utf-8") as file:
            lines = dict(line.rstrip("\n").partition(":")[::2] for line in file)
    except OSError:
        return Made(False, [], [])
    crates = lines.get("crates", " all").split()
    return Made(True, [] if crates == ["all"] else crates, shlex.split(lines.get("members", "")))
