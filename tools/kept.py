"""Keeps on this machine what tests held, and by what wrong bodies were refused, under a sum of all that was read: for tools/more_tests and
tools/wrong_bodies. tools/build and tools/timings name what they built by the same sum.

A sum is over the kit; over HANDLES; over the lines of crates.txt of a crate and of all crates below it, and each byte of the named parts of these
(src, specs, proofs); and over the files of the test or the edit and the texts of the tools that try it. What held is taken only where the whole
sum is the same, and is kept only where it is the same at the end of the try as at its begin. What failed is never kept. The folder is `strata` in
XDG_CACHE_HOME or ~/.cache; one that is another user's counts for nothing.
"""
import contextlib
import functools
import hashlib
import json
import os
import re
import shutil
import stat
import sys
import tempfile

TOP = os.path.dirname(os.path.dirname(os.path.abspath(__file__)))
# The files of the kit whose texts name it, and the folders whose files are told by size and time, as `rt ci` tells them.
TEXTS, FOLDERS = ("KIT-ID", "WHAT", "bin/rt", "bin/rtlib.py"), ("bin", "c", "toolchain", "logic_built", "rattle/logic", "rattle/antt", "rlibs")


def kit():
    """The folder of the kit whose `rt` is on the path."""
    rt = shutil.which("rt")
    if not rt:
        sys.exit("rt is not on the path: it stands in the folder bin/ of the Rattle kit")
    return os.path.dirname(os.path.dirname(os.path.realpath(rt)))


def contents(path):
    try:
        with open(path, "rb") as file:
            return file.read()
    except (FileNotFoundError, IsADirectoryError):
        return None


@functools.cache
def kit_sum(folder):
    """A sum of a kit."""
    total = hashlib.sha256(repr([contents(f"{folder}/{it}") for it in TEXTS]).encode())
    for part in FOLDERS:
        for at, below, names in os.walk(f"{folder}/{part}"):
            below[:] = sorted(it for it in below if it not in ("out", "__pycache__"))
            for name in sorted(names):
                found = os.lstat(f"{at}/{name}")
                total.update(repr((at[len(folder) :], name, found.st_mode, found.st_size, found.st_mtime_ns)).encode())
    return total.hexdigest()


def listed(top=TOP):
    """The lines of crates.txt, by crate."""
    with open(f"{top}/crates.txt", encoding="utf-8") as file:
        return {it.split(":")[0].split()[0]: it.strip() for it in file if ":" in it.partition("#")[0]}


def lines_below(line, lines):
    """The lines of all crates that the one of a line stands on."""
    found, left = {}, line.partition("#")[0].partition(":")[2].split()
    while left:
        name = left.pop()
        if name in lines and name not in found:
            found[name] = lines[name]
            left += lines[name].partition("#")[0].partition(":")[2].split()
    return found


def files_in(path):
    """The files below a folder, in order; a file by itself."""
    if not os.path.isdir(path):
        return [path]
    return sorted(f"{at}/{name}" for at, folders, names in os.walk(path) for name in names if "__pycache__" not in at)


def sum_of(line, own, parts, files, top=TOP):
    """A sum of all that is read where the crate of a line is built or checked: of the kit, HANDLES, the line and those below it, these parts of the
    crates below and of its own, and these files and folders of the repository."""
    below = lines_below(line, listed(top))
    folders = [f"crates/{name}/{part}" for name in sorted({*below, *own}) for part in parts]
    total = hashlib.sha256(repr((kit_sum(kit()), contents(f"{top}/HANDLES"), line, sorted(below.items()), sorted(own))).encode())
    for path in [it for place in [*folders, *files] for it in files_in(f"{top}/{place}")]:
        total.update(repr((os.path.relpath(path, top), os.access(path, os.X_OK), contents(path))).encode())
    return total.hexdigest()


def store():
    """The folder of what is kept; None where it can't be had, or is another user's."""
    folder = os.path.join(os.environ.get("XDG_CACHE_HOME") or os.path.expanduser("~/.cache"), "strata")
    try:
        os.makedirs(folder, 0o700, exist_ok=True)
        found = os.lstat(folder)
        is_own = stat.S_ISDIR(found.st_mode) and found.st_uid == os.geteuid() and not found.st_mode & 0o022
    except OSError:
        return None
    return folder if is_own else None


def place(name, total):
    folder = store()
    return folder and f"{folder}/{re.sub(r'[^a-zA-Z0-9_]', '-', name)}-{total}"


def taken(name, total):
    """What was said when this held with this sum; None where nothing is kept of it."""
    try:
        told = json.loads(contents(place(name, total) or "") or b"null")
        return told["said"] if told["name"] == name and told["sum"] == total and isinstance(told["said"], str) else None
    except (OSError, ValueError, KeyError, TypeError):
        return None


def keep(name, total, said):
    path = place(name, total)
    # (nothing is kept where there is no room: the next run tries it again)
    with contextlib.suppress(OSError):
        if path:
            with tempfile.TemporaryDirectory(prefix="new-", dir=os.path.dirname(path)) as room:
                with open(f"{room}/entry", "w", encoding="utf-8") as file:
                    json.dump({"name": name, "sum": total, "said": said}, file)
                os.replace(f"{room}/entry", path)


def tried(name, sum_now, attempt, anew=False):
    """What an attempt says, whether it held, and whether that was taken from an earlier run: only where the sum is the same."""
    total = sum_now()
    said = None if anew else taken(name, total)
    if said is not None:
        return said, True, True
    said, has_held = attempt()
    if has_held and sum_now() == total:
        keep(name, total, said)
    return said, has_held, False
