#!/usr/bin/env python3
"""Runs the programs with each of their allocations failing in turn, and tells which runs did not end as they should:
tools/failing_allocations.py [--quick] [--rows N] [PROGRAM..].

They are those that read scripts, records, blocks and media: `strata_sh` over its tour, over the scripts of its table, and over files
that keep a world, a new one or none; `strata_first` with and without stops; and `layer_rows` row by row over the sections `formats`,
`media`, `areas` and `devices` of its table, where damaged images and worlds are read; rows that must not hold are left out. A run ends as it should where it tells the want of memory by its name, or
says what it says with all memory there. It does not where it answers anything else: damage, no such entry, or fewer bytes. Nor does a
row that tells a want of memory while no allocation failed. How each program tells it stands at its function below.

A program that is not proved is built by `tools/build` (`layer_rows` by `tools/more_tests --program`); `tools/failing_allocations.c` makes their
allocations fail. It takes four minutes, and those that a build takes; the gate does not run it. With --quick only each seventh allocation of a
run fails; with --rows only the first N of the rows of each table. Exit status: 0 where all runs ended as they should, else 1.

Named `growths`, it holds five rows of `strata_sh` to more: each growth of each of their lines is refused in turn. The line in which one is
answers as before, or ENOMEM, or by the refusal or fault 15; or as where a write or fence of a medium fails, since a medium grows to note a
call. All later lines, a halt, a recovery and what can be read of the tree then answer as if a line that was refused were not there, or as
behind that failure; a digest that was refused may have left but to reclaim files. Only `book` may count more units as out until then, and a digest fewer records. Only before the first line may the
run end, by `fault 15`, or by `fault 2` as media grow while they are formatted. It tells how many growths each row has, how many were
refused, and how; status 1 also where a growth was left out. There are some 3,900, so it takes a quarter of an hour; with --quick each
seventh is refused.

Named `recoveries`, it has each growth of a run over an image refused in turn, from the reading of the image over its recovery to the
keeping of it: of the images of that table that another program made, with files that are digested, with records that are not, with an
open journal and with a record behind a closed gate. A run may end by `fault 15`, or by `fault 2` as a medium can't note a call. Whatever it
ends by, the image file is then as it was, or gives the row's answers; and so does the file as it was, and as a run with all memory leaves it.
"""
import argparse
import collections
import concurrent.futures
import os
import re
import shutil
import subprocess
import sys
import tempfile
import typing

import programs
import shell_rows

TOP = os.path.dirname(os.path.dirname(os.path.abspath(__file__)))
CRATES = f"{TOP}/crates"
# How the rows begin that must not hold.
NOT_TO_HOLD = "must not hold"
# How the crates' errors display the want of memory. A `MemMedia` keeps a record of its calls; where the record can't grow, the call fails.
NAMES = ("out of memory", "ENOMEM", "the device failed")
ROOM = tempfile.TemporaryDirectory(prefix="allocations-")
STEP = 1
# At most so many rows of a table are run; all where it is None.
ROWS = None
# At most so many allocations of a test function fail.
MOST = 400


class Run(typing.NamedTuple):
    """What a run printed, and how it ended; the allocation with this number was to fail, and so many were made."""

    number: int
    made: int
    status: int
    out: str
    err: str

    def failed(self):
        return 0 < self.number <= self.made


def path_of(name):
    """Where the program stands once it is built; STRATA_SH in the environment names another build of the shell."""
    return f"{ROOM.name}/{name}" if name == "layer_rows" else os.path.abspath(programs.find(name))


def build(name):
    """Has the program stand: what is proved is taken, else it is built without a proof."""
    if name == "layer_rows":
        subprocess.run([f"{TOP}/tools/more_tests", "--program", path_of(name), name], check=True)
        return
    programs.stand(name)


def sweep(name, text="", words=(), folder=None, clear=None, numbers=None):
    """The run of a program over a text with all memory there, and those with one allocation failing: each, or these."""
    first, last, step = numbers or (0, 1 << 40, 1)
    told, to = os.pipe()
    env = {**os.environ, "LD_PRELOAD": f"{ROOM.name}/allocations.so", "ALLOC_TO": str(to), "ALLOC_FIRST": str(first), "ALLOC_LAST": str(last), "ALLOC_STEP": str(step)}
    if clear:
        env["ALLOC_CLEAR"] = clear
    with tempfile.TemporaryFile() as file:
        file.write(text if isinstance(text, bytes) else text.encode("utf-8"))
        file.seek(0)
        with subprocess.Popen([path_of(name), *words], stdin=file, env=env, cwd=folder or ROOM.name, pass_fds=[to]) as child:
            os.close(to)
            with os.fdopen(told, "rb") as pipe:
                said = pipe.read()
    if child.returncode:
        raise RuntimeError(f"{name} could not be run with failing allocations: {child.returncode}")
    runs = []
    while said:
        head, _, said = said.partition(b"\n")
        number, made, status, out, err = map(int, head.split())
        runs.append(Run(number, made, status, said[:out].decode("utf-8", "replace"), said[out : out + err].decode("utf-8", "replace")))
        said = said[out + err :]
    return runs


def all_of(*words, **more):
    """The whole run, and those in which an allocation failed."""
    if STEP == 1:
        whole, *rest = sweep(*words, **more)
    else:
        [whole] = sweep(*words, **more, numbers=(0, 0, 1))
        rest = sweep(*words, **more, numbers=(1, 1 << 40, STEP))
    return whole, [it for it in rest if it.failed()]


class Tally(typing.NamedTuple):
    """How many allocations failed in turn, in how many runs of those the want of memory was told, and those that ended as they should not."""

    tried: int
    told: int
    bad: list

    def and_also(self, other):
        return Tally(self.tried + other.tried, self.told + other.told, self.bad + other.bad)


def tally(what, whole, runs, ends_well):
    """Each run says what the whole one says, or ends well."""
    bad, told = [], 0
    for run in runs:
        if run[2:] == whole[2:]:
            continue
        told += 1
        if not ends_well(run):
            bad.append(f"{what}, allocation {run.number} of {whole.made}: status {run.status}, {run.out!r}, {run.err!r}")
    return Tally(len(runs), told, bad)


# Before the script is read, or where a line of it can't be read for want of memory, strata_sh ends with `fault 15` and status 3. A line
# that meets it is answered ENOMEM or `refused 15`, a recovery `fault 15`, and the calls behind it as if it were not there, but that what it
# was granted is not there for others (ENOSPC). What the other lines tell, of records, blocks, units and who is in the way, may differ by
# what it has begun. A medium that can't note a call fails: what comes then is judged for `growths`, and by tools/fail_everywhere.

PLAIN_CALL = re.compile(rb"[1-8] (?!try |begin )")


def has_failed_medium(run, whole):
    """Whether a medium could not note a call: while it was formatted, or in the first line that is answered otherwise."""
    if run.status == 3 and not run.out:
        return run.err == "fault 2\n"
    pairs = zip(run.out.splitlines(), whole.out.splitlines())
    return run.status == whole.status and next((it for it, other in pairs if it != other), None) in ("EIO", "refused 2", "fault 2")


def run_script(lines, words, what):
    """Runs a script, given as its lines in bytes."""
    calls = [at for at, line in enumerate(lines) if line.strip() and not line.startswith(b"#")]
    without = {}

    def run_without(at):
        """What it says without its call of this number."""
        if at not in without:
            silent = lines[: calls[at]] + [b"#\n"] + lines[calls[at] + 1 :]
            [without[at]] = sweep("strata_sh", b"".join(silent), words, numbers=(0, 0, 1))
        return without[at]

    def ends_well(run):
        if has_failed_medium(run, whole):
            return True
        if run.status == 3:
            return whole.out.startswith(run.out) and run.err == "fault 15\n"
        answers = run.out.splitlines()
        met = [at for at, line in enumerate(answers) if line in ("ENOMEM", "refused 15", "fault 15")]
        if len(met) != 1 or (run.status, run.err) != (whole.status, whole.err):
            return False
        with_line, others = whole.out.splitlines(), run_without(met[0]).out.splitlines()
        with_line[met[0]] = answers[met[0]]
        others[met[0] : met[0]] = [answers[met[0]]]
        plain = [at for at, line in enumerate(calls) if PLAIN_CALL.match(lines[line])]
        return answers == with_line or (
            len(answers) == len(others)
            and all(answers[at] == others[at] or "ENOSPC" in (answers[at], others[at]) for at in plain if at < len(answers))
        )

    whole, runs = all_of("strata_sh", b"".join(lines), words)
    if "ENOMEM" in whole.out:
        return Tally(0, 0, [f"{what} itself: ENOMEM"])
    return tally(what, whole, runs, ends_well)


def run_tour():
    with open(f"{CRATES}/strata_sh/tour.txt", "rb") as file:
        return run_script(file.readlines(), (), "the tour")


def bytes_of(text, number):
    """The bytes that a text of a row of strata_sh spells: the head of its table tells how."""

    def escaped(found):
        word = found[0].decode("utf-8")
        if word.startswith("\\{"):
            again, _, count = word[2:-1].rpartition("*")
            return again.encode("utf-8") * int(count)
        return {"\\i": str(number).encode("utf-8"), "\\e": b""}.get(word) or (bytes.fromhex(word[2:]) if word[1] == "x" else b"")

    front, cut, _ = text.partition("\\c")
    return re.sub(rb"\\\{[^}]*\}|\\x..|\\[ie]", escaped, front.encode("utf-8")) + (b"" if cut else b"\n")


def script_of(row):
    """A row's script, as the lines of its file, and the words of its command line."""
    lines, words = [], ["strata_sh"]
    for line in row.splitlines()[1:]:
        mark, _, rest = line.partition(" ")
        numbers = [0]
        if mark == "$":
            words = rest.split(" ")
        elif mark == "@":
            numbers, _, line = rest.partition(" ")
            numbers = range(*map(int, numbers.split("..")))
        if line and mark not in ("$", "!", "=>"):
            lines += [bytes_of(line.partition(" => ")[0], number) for number in numbers]
    return b"".join(lines).splitlines(keepends=True), words


def script_rows():
    """The rows of strata_sh as scripts, command lines and names, but for those that print needs or change an image: the program alone does that, as it reads its table."""
    with open(f"{CRATES}/strata_sh/stdin", encoding="utf-8") as file:
        rows = [it for it in file.read().split("\n== ")[1:] if not it.startswith(NOT_TO_HOLD) and "\n& " not in it]
    runs = [(*script_of(row), row.partition("\n")[0]) for row in rows]
    return [(lines, words[1:], name) for lines, words, name in runs if words[0] == "strata_sh"]


def script_jobs():
    """The runs of those rows, as jobs."""
    return [(run_script, row) for row in script_rows()[:ROWS]]


# Of these rows each growth is judged by the line in which it is refused; with the units that they need, over media of the least sizes.

GROWN = {
    "a gap reads as zero": 5,
    "a file that has no name is gone behind a stop, though it was open": 6,
    "units are for what is logged, and come back once that is digested": 6,
    "a stop at the journal's gate leaves a block on its tier, and a stopped recovery too": 5,
    "a stop at the journal's gate that then reads as open leaves a block on the slower tier": 5,
}
# What a line answers where its growth is refused, by how it begins, and where a medium fails; a call of which the kernel is in the way is blocked.
# A line with a path that no client asks may want memory for the path or for what the kernel does.
CALL, KERNEL, RECOVER = re.compile(r"[1-8] |where |migrate "), re.compile(r"digest |migrate |where |wipe |book$"), re.compile(r"recover$")
REFUSED = ((CALL, "ENOMEM"), (KERNEL, "refused 15"), (RECOVER, "fault 15"))
FAILED = ((CALL, "EIO"), (CALL, "blocked"), (KERNEL, "refused 2"), (RECOVER, "fault 2"))
# Behind so many calls in a row whose failure no line meets there is none more that one meets.
QUIET = 8


def answers_so(line, answer, table):
    return any(form.match(line) and answer == given for form, given in table)


def reads_of(lines):
    """Lines that recover, and tell all that is left of a script's files and charge."""
    paths = sorted({word for line in lines for word in line.split() if word.startswith("/")})
    reads = [it for path in paths for it in (f"8 stat {path}", f"8 open {path} r", "8 pread 0 0 65536", "8 close 0", *(f"where {path} {at}" for at in range(3)))]
    return ["halt", "recover", "book", "8 list /", *reads]


class Grown:
    """A row whose growths are refused, with what it answers with all memory there."""

    def __init__(self, name, lines, words):
        self.name, self.words, self.lines = name, words, lines
        self.reads = reads_of(lines)
        self.all = lines + self.reads
        self.answers = self.answers_of(self.all)
        self.before = [self.healthy(lines[:count]).made for count in range(len(lines) + 1)]
        self.without, self.failures = {}, {}

    def text(self, lines):
        return "".join(f"{line}\n" for line in lines)

    def healthy(self, lines):
        [run] = sweep("strata_sh", self.text(lines), self.words, numbers=(0, 0, 1))
        return run

    def answers_of(self, lines):
        run = self.healthy(lines)
        if (run.status, run.err) != (0, ""):
            raise RuntimeError(f"{self.name}: status {run.status}, {run.err!r}")
        return run.out.splitlines()

    def line_of(self, number):
        """The line in which a growth is made, or -1 before the first one."""
        return max(at for at, made in enumerate([0, *self.before[:-1]]) if made < number) - 1

    def answers_without(self, at):
        """What is answered behind a line that was refused: as where it is not there.

        A digest may have left but to reclaim files: so does a call of another client, for which all that was logged is digested.
        """
        if at not in self.without:
            ends = [self.answers_of(self.all[:at] + self.all[at + 1 :])[at:]]
            if self.all[at].startswith("digest "):
                ends.append(self.answers_of([*self.all[:at], "7 list /", *self.all[at + 1 :]])[at + 1 :])
            self.without[at] = ends
        return self.without[at]

    def answers_failing(self, at):
        """What is answered from a line on, for each call of a medium that fails there; that is armed where the world last runs before it."""
        if at not in self.failures:
            self.failures[at], runs = [], at
            while self.answers[runs - 1 : runs] in (["stopped"], ["armed"]):
                runs -= 1
            for medium in sorted({"S", *(line[0] for line in self.lines if line[0].isdigit())}):
                call, quiet = 1, 0
                while quiet < QUIET:
                    found = self.answers_of([*self.all[:runs], f"fail {call} {medium}", *self.all[runs:]])
                    del found[runs]
                    met = found[:at] == self.answers[:at] and answers_so(self.all[at], found[at], FAILED)
                    self.failures[at] += [found[at:]] if met else []
                    call, quiet = call + 1, 0 if met else quiet + 1
        return self.failures[at]

    def agree(self, at, found, expected):
        """Whether the answers from a line on are these; a line that was refused may have taken units, and had others digest before."""
        rest = [*self.lines[at:], *[None] * len(self.reads)]
        return len(found) == len(expected) and all(self.agrees(line, *pair) for line, *pair in zip(rest[-len(found) :], found, expected))

    def agrees(self, line, answer, expected):
        if line is None:
            return answer == expected
        numbers, others = (list(map(int, re.findall(r"\d+", it))) for it in (answer, expected))
        if line == "book" and answer.startswith("charge ") and expected.startswith("charge "):
            return numbers[0] == others[0] and others[1] <= numbers[1] <= numbers[2] - numbers[0]
        if line.startswith("digest ") and answer.startswith("digested ") and expected.startswith("digested "):
            return numbers[0] <= others[0]
        return answer == expected

    def judge(self, run):
        """How a run ended in which a growth was refused, or None where it is not as it should."""
        at, found = self.line_of(run.number), run.out.splitlines()
        if at < 0 and (run.status, run.out) == (3, "") and run.err in ("fault 15\n", "fault 2\n"):
            return f"{run.err.rstrip()} at the start"
        if (run.status, run.err) != (0, "") or found[: max(at, 0)] != self.answers[: max(at, 0)]:
            return None
        if at < 0 or found[at] == self.answers[at]:
            return "as before" if self.agree(max(at, 0), found[max(at, 0) :], self.answers[max(at, 0) :]) else None
        if answers_so(self.lines[at], found[at], REFUSED):
            return found[at] if any(self.agree(at + 1, found[at + 1 :], it) for it in self.answers_without(at)) else None
        if answers_so(self.lines[at], found[at], FAILED):
            return found[at] if any(self.agree(at, found[at:], it) for it in self.answers_failing(at)) else None
        return None


def run_grown(name, lines, words):
    """A row of which each growth is refused."""
    row = Grown(name, [line.decode("utf-8").rstrip("\n") for line in lines], words)
    numbers = range(1, row.before[-1] + 1, STEP)
    runs = sweep("strata_sh", row.text(row.all), words, numbers=(1, numbers[-1], STEP))
    left_out = sorted(set(numbers).difference(run.number for run in runs if run.failed()))
    bad = [f"{name}: growths {left_out} were left out"] if left_out else []
    ends = collections.Counter()
    for run in runs:
        end, at = row.judge(run), row.line_of(run.number)
        ends[end or "as they should not"] += 1
        if not end:
            line = row.lines[at] if at >= 0 else "the start"
            bad.append(f"{name}: growth {run.number} of {row.before[-1]}, in {at} `{line}`: status {run.status}, {run.out.splitlines()}, {run.err!r}; with memory {row.answers}")
    in_lines = [f"{behind - before}" for before, behind in zip(row.before, row.before[1:])]
    told = f"{row.before[-1]} growths, {row.before[0]} before the first line, and in its lines {' '.join(in_lines)}"
    print(f"{name}: {told}\n  {len(runs)} refused: {', '.join(f'{count} {end}' for end, count in sorted(ends.items()))}", flush=True)
    return Tally(len(runs), len(runs) - ends["as before"], bad)


def grown_jobs():
    """The rows whose growths are refused, as jobs."""
    rows = {name: (lines, shell_rows.least(GROWN[name])) for lines, _, name in script_rows() if name in GROWN}
    return [(run_grown, (name, *rows[name])) for name in [*GROWN][:ROWS]]


# strata_first prints line by line, and ends with `fault 15` and status 3. Or a client's medium can't note a call: that client has then
# stopped, as `--stop` stops it, and what it was to log is there or not.

FIRST = re.compile(r"1 (?:wrote 4|(stopped))\n2 (?:ok|(stopped))\napplied ([01])\n/f bytes (?:4 61x4|(0 -))\n/ names (a )?f\n")


def has_stopped(run, whole):
    found, before = FIRST.fullmatch(run.out), FIRST.fullmatch(whole.out)
    if not found or run.status:
        return False
    is_told = (found[3] == "0") == bool(found[1]) and not (found[4] and not found[1]) and (found[2] or found[5])
    return bool(is_told and (found[1] or found[2])) and all(found[it] or not before[it] for it in (1, 2))


def run_first(words):
    whole, runs = all_of("strata_first", words=words)
    if whole.status or whole.err:
        return Tally(0, 0, [f"strata_first {words} itself: status {whole.status}, {whole.err!r}"])
    return tally(f"strata_first {' '.join(words)}", whole, runs, lambda it: has_stopped(it, whole) or it.status == 3 and it.err == "fault 15\n" and whole.out.startswith(it.out))


# How layer_rows ends where it can't read its table, or print.
OUT_OF_MEMORY = re.compile(r"^Error: (?:.*: )?(?:out of memory|memory allocation failed|Kind\(OutOfMemory\))\n$")


# Over a file strata_sh ends with `fault 15` and status 3 too, and the file then keeps all directories that were there. A line that meets
# the want of memory is answered ENOMEM or `refused 15`: then the file has each directory whose line was answered `ok`, and no other one.

DISK = ("--units", "200", "--fast", "8", "--block", "700", "--slow", "8", "--disk")
WANTING = ("ENOMEM", "refused 15")


def directories(first, end):
    return "".join(f"1 mkdir /d{number}\n" for number in range(first, end))


def over_disk(path, text, number=0):
    """The run of strata_sh over a file, with this allocation failing."""
    [run] = sweep("strata_sh", text, (*DISK, path), numbers=(number, number, 1))
    return run


def kept_in(path):
    """The directories that a file keeps."""
    return set(over_disk(path, "1 list /\n").out.split()[1:]) if os.path.exists(path) else set()


def has_kept(run, before, kept):
    """Whether a run over a file of so many directories, which makes three more, ended as it should, and so is what the file keeps."""
    there, lines = {f"d{at}" for at in range(before)}, run.out.splitlines()
    answered = there | {f"d{before + at}" for at, line in enumerate(lines) if line == "ok"}
    if run.status == 3:
        return run.err == "fault 15\n" and kept == answered and set(lines) <= {"ok"}
    return (run.status, run.err) == (0, "") and kept == answered and len(lines) == 3 and set(lines) <= {"ok", *WANTING}


def serve_disk(before, base):
    """Makes three directories more in a file that has some, which is copied anew for each run; without a file to copy it is made."""
    path, found, told, number = f"{ROOM.name}/served-{before}", [], 0, 0
    step = STEP
    while True:
        for name in (path, f"{path}.strata-draft"):
            if os.path.exists(name):
                os.remove(name)
        if base:
            shutil.copy(base, path)
        run = over_disk(path, directories(before, before + 3), number)
        if number and not run.failed():
            return Tally(len(found), told, [it for it in found if it])
        if not number:
            if run.out != "ok\n" * 3:
                return Tally(0, 0, [f"strata_sh over {before} directories itself: {run.out!r}, {run.err!r}"])
            step = max(STEP, -(-run.made // MOST)) | 1
        else:
            kept = kept_in(path)
            told += run.out != "ok\n" * 3
            is_well = has_kept(run, before, kept)
            found.append(None if is_well else f"strata_sh over {before} directories, allocation {number}: status {run.status}, {run.out!r}, {run.err!r}, kept {sorted(kept)}")
        number += step if number else 1


def open_disk(path, what):
    """Opens a file in which no world is to be found: it says so, or tells the want of memory, and leaves the file as it was."""
    with open(path, "rb") as file:
        before = file.read()
    whole, runs = all_of("strata_sh", "1 list /\n", (*DISK, path))
    with open(path, "rb") as file:
        if file.read() != before or whole.status != 3:
            return Tally(0, 0, [f"strata_sh over a {what} file itself: status {whole.status}, {whole.err!r}"])
    return tally(f"strata_sh over a {what} file", whole, runs, lambda it: (it.status, it.out, it.err) == (3, "", "fault 15\n"))


# Over an image strata_sh recovers what stands there at its start, and keeps what is recovered at its end.

IMAGE = "an image of another program: "
RECOVERED = (
    "directories, and a file of two names with a hole, all digested",
    "two clients with records that are not digested",
    "a batch behind its open gate, partly in place",
    "a record behind a closed gate, and another behind an open one",
)


def runs_of(text):
    """The bytes that runs spell, as `hhxN+hhxN`."""
    return b"".join(bytes.fromhex(byte) * int(count) for byte, count in (it.split("x") for it in text.split("+")))


def over_image(path, image, text="", number=0):
    """The run of strata_sh over a file that holds an image, with this allocation failing; and what the file holds then."""
    for name in (path, f"{path}.strata-draft"):
        if os.path.exists(name):
            os.remove(name)
    with open(path, "wb") as file:
        file.write(image)
    [run] = sweep("strata_sh", text, ("--image", path), numbers=(number, number, 1))
    with open(path, "rb") as file:
        return run, file.read()


class Imaged:
    """A row over an image: what stands in it, and what it answers."""

    def __init__(self, name, row):
        self.name, self.path = name, f"{ROOM.name}/image-{RECOVERED.index(name)}"
        lines = [it for it in row.splitlines()[1:] if it]
        words = next(it for it in lines if it.startswith("$ ")).split(" ")[2:]
        sweep("strata_sh", "", (*words, "--image", self.path), numbers=(0, 0, 1))
        with open(self.path, "rb") as file:
            image = bytearray(file.read())
        for _, at, data in (it.split(" ") for it in lines if it.startswith("& ")):
            image[int(at) : int(at) + len(runs_of(data))] = runs_of(data)
        self.image = bytes(image)
        asked = [it.partition(" => ") for it in lines if it[0] not in "$&"]
        self.text, self.out = ("".join(f"{it[part]}\n" for it in asked) for part in (0, 2))
        self.giving = {}

    def gives_tree(self, image):
        """Whether an image gives the row's answers."""
        if image not in self.giving:
            run, _ = over_image(self.path, image, self.text)
            self.giving[image] = run[2:] == (0, self.out, "")
        return self.giving[image]

    def judge(self, number):
        """A run with this allocation failing, and what is wrong with it or None."""
        run, kept = over_image(self.path, self.image, number=number)
        ended_well = run[2:] == (0, "", "") or run[2:] in ((3, "", "fault 15\n"), (3, "", "fault 2\n"))
        if ended_well and self.gives_tree(kept) and (run.status or kept != self.image):
            return run, None
        told = "as it was" if kept == self.image else "recovered" if self.gives_tree(kept) else "another"
        return run, f"{self.name}, allocation {number}: status {run.status}, {run.out!r}, {run.err!r}, the image {told}"


def run_image(name, row):
    """A row over an image, of which each growth is refused."""
    found = Imaged(name, row)
    whole, wrong = found.judge(0)
    if wrong or whole.status or not found.gives_tree(found.image):
        return Tally(0, 0, [wrong or f"{name} itself: status {whole.status}, {whole.err!r}"])
    bad, ends = [], collections.Counter()
    for number in range(1, whole.made + 1, STEP):
        run, wrong = found.judge(number)
        ends[run.err.rstrip() or "recovered"] += run.failed()
        bad += [wrong] if wrong else []
    told = ", ".join(f"{count} {end}" for end, count in sorted(ends.items()))
    print(f"{name}: {whole.made} growths\n  {sum(ends.values())} refused: {told}", flush=True)
    return Tally(sum(ends.values()), sum(ends.values()) - ends["recovered"], bad)


def image_jobs():
    """The rows over images, as jobs."""
    with open(f"{CRATES}/strata_sh/stdin", encoding="utf-8") as file:
        rows = {row.partition("\n")[0]: row for row in file.read().split("\n== ")[1:]}
    return [(run_image, (name, rows[IMAGE + name])) for name in RECOVERED[:ROWS]]


def disk_jobs():
    """The runs over files, as jobs."""
    some, files = f"{ROOM.name}/some", {}
    over_disk(some, directories(0, 4))
    with open(some, "rb") as file:
        made = file.read()
    for name, changed in (("short", made[:-1]), ("foreign", b"\x3c" * 8 + made[8:]), ("damaged", made[:4_096] + b"\x3c" * 8 + made[4_104:])):
        files[name] = f"{ROOM.name}/{name}"
        with open(files[name], "wb") as file:
            file.write(changed)
    return [(open_disk, (path, name)) for name, path in files.items()] + [(serve_disk, (0, None)), (serve_disk, (4, some))]


# A row of a section of layer_rows. The line that names the section comes first. What is said in place of the row's answer stands
# between `says` and `not`.

SAYS = re.compile(r"^(.*)\n  says (.*)\n  not  (.*)\n", re.M)


def items(text):
    return re.split(r"; | / |, ", text)


def has_in_order(items_of, found):
    left = iter(items_of)
    return all(it in left for it in found)


def said_well(said, answer):
    """Some of what is said names the want of memory, and all else stands in the answer, in order."""
    found = items(said)
    rest = [it for it in found if not it.endswith(NAMES)]
    return len(rest) < len(found) and has_in_order(items(answer), rest)


HOLDS = "1 rows hold, 0 do not\n"
FAILS = "\n0 rows hold, 1 do not\n"
# The sections tell the want of memory of what they try as the crates name it, and their own by one of these, or in place of what is said.
OF_ITS_OWN = ("no memory for the report\n", "no memory for a row\n0 rows hold, 1 do not\n")


def said_of(run):
    """What is printed of a row behind the line that names its section."""
    return re.sub(r"\A%% \w+\n", "", run.out)


def is_unsaid(run):
    """Whether a row is left out, or not told to its end, and that is said."""
    out = said_of(run)
    if not out:
        return bool(OUT_OF_MEMORY.match(run.err))
    found = SAYS.match(out)
    if not found:
        return out in OF_ITS_OWN
    return out.endswith(FAILS) and (found[2] == "no memory for what is said" or found[2].endswith("the row can't be read"))


def row_ends_well(run):
    if run.status != 1:
        return False
    out = said_of(run)
    found = SAYS.match(out)
    return is_unsaid(run) or bool(found and out.endswith(FAILS) and said_well(found[2], found[3]))


def run_row(section, text):
    """A row of a section of layer_rows, in the folder of its files."""
    whole, runs = all_of("layer_rows", f"%% {section}\n{text}", folder=f"{TOP}/tests/layer_rows/data")
    name = text.partition(": ")[0]
    if whole.status or said_of(whole) != HOLDS:
        return Tally(0, 0, [f"the row itself: {name}"])
    return tally(f"{section}, {name}", whole, runs, row_ends_well)


def rows_of(section):
    """The rows of a section of layer_rows, each as its lines: one that begins with two spaces goes on with the row above it."""
    with open(f"{TOP}/tests/layer_rows/stdin", encoding="utf-8") as file:
        tables = dict(it.split("\n", 1) for it in file.read().removeprefix("%% ").split("\n%% "))
    rows = []
    for line in tables[section].splitlines():
        if line.startswith("  ") and rows:
            rows[-1] += f"{line}\n"
        elif line and not line.startswith("#"):
            rows.append(f"{line}\n")
    return [it for it in rows if not it.startswith(NOT_TO_HOLD)][:ROWS]


# A call of a medium that can't note it fails, and all others answer as if that call were not there. Where the row's medium fails or stops
# at a call of its own, that call was counted all the same: so there each call answers by the row or fails, and a read gives the bytes
# that were written.


def without_call(text, at):
    """What is said of a row but for a call."""
    front, _, answer = text.rstrip("\n").partition(" => ")
    name, sizes, calls = front.split(": ", 2)
    left = calls.split("; ")
    left = left[:at] + left[at + 1 :]
    if not left:
        return [" ".join("0" * int(size)) or "-" for size in sizes.split()]
    with tempfile.TemporaryDirectory(dir=ROOM.name) as folder:
        [run] = sweep("layer_rows", f"%% devices\n{name}: {sizes}: {'; '.join(left)} => {answer}\n", folder=folder, numbers=(0, 0, 1))
    return items(SAYS.match(said_of(run))[2])


FAILING = re.compile(r"[^:]*: \d+ \d+ \d+, (?:fail|stop) ")
BYTES = re.compile(r"[\d ]+")


def device_row_ends_well(run, text):
    if run.status != 1:
        return False
    found = SAYS.match(said_of(run))
    if is_unsaid(run) or not found:
        return is_unsaid(run)
    said = items(found[2])
    if FAILING.match(text):
        answers = zip(found[2].split("; ")[:-1], found[3].split("; "))
        return all(it in ("the device failed", other) or (BYTES.fullmatch(it) and BYTES.fullmatch(other)) for it, other in answers)
    if said.count("the device failed") == 1:
        at = said.index("the device failed")
        return said[:at] + said[at + 1 :] == without_call(text, at)
    return said_well(found[2], found[3])


def run_device_row(text):
    """A row of device calls, in a folder of its own, where its medium's file is made."""
    with tempfile.TemporaryDirectory(dir=ROOM.name) as folder:
        whole, runs = all_of("layer_rows", f"%% devices\n{text}", folder=folder, clear="medium")
    name = text.partition(": ")[0]
    if whole.status or said_of(whole) != HOLDS:
        return Tally(0, 0, [f"the row itself: {name}, {whole.out!r}, {whole.err!r}"])
    return tally(f"devices, {name}", whole, runs, lambda it: device_row_ends_well(it, text))


def jobs_of(program):
    """What is run of a program: functions and what they take."""
    if program == "growths":
        return grown_jobs()
    if program == "recoveries":
        return image_jobs()
    if program == "strata_sh":
        return [(run_tour, ()), *script_jobs(), *disk_jobs()]
    if program == "strata_first":
        stops = [("--stop", str(call), "--fill", fill) for call in range(1, 9) for fill in ("00", "a5", "ff")]
        return [(run_first, (words,)) for words in [(), *stops]]
    devices = [(run_device_row, (it,)) for it in rows_of("devices")]
    return devices + [(run_row, (section, it)) for section in ("formats", "media", "areas") for it in rows_of(section)]


PROGRAMS = ("strata_sh", "strata_first", "layer_rows")
MORE = ("growths", "recoveries")


def main():
    words = argparse.ArgumentParser(description=__doc__.partition("\n")[0])
    words.add_argument("--quick", action="store_true", help="each seventh allocation alone fails")
    words.add_argument("--rows", type=int, metavar="N", help="only the first N rows of each table")
    words.add_argument("--jobs", type=int, default=2, help="how many runs side by side (default: 2)")
    words.add_argument("programs", nargs="*", metavar="PROGRAM", help=f"of {', '.join(PROGRAMS)} (default: all of these), and of {', '.join(MORE)}")
    asked = words.parse_args()
    global STEP, MOST, ROWS
    STEP, MOST, ROWS = (*((7, 57) if asked.quick else (1, 400)), asked.rows)
    subprocess.run([os.environ.get("CC", "cc"), "-O2", "-shared", "-fPIC", "-o", f"{ROOM.name}/allocations.so", f"{TOP}/tools/failing_allocations.c"], check=True)
    bad, tried = 0, 0
    for program in asked.programs or PROGRAMS:
        build("strata_sh" if program in MORE else program)
        all_told = Tally(0, 0, [])
        with concurrent.futures.ThreadPoolExecutor(asked.jobs) as lanes:
            started = [lanes.submit(function, *given) for function, given in jobs_of(program)]
            for done in concurrent.futures.as_completed(started):
                all_told = all_told.and_also(done.result())
        for text in all_told.bad:
            print(text)
        print(f"{program}: {all_told.tried} allocations in {len(started)} runs, {all_told.told} told the want of memory or ended by it, {all_told.tried - all_told.told} said the same; {len(all_told.bad)} ended as they should not", flush=True)
        bad, tried = bad + len(all_told.bad), tried + all_told.tried
    print(f"{tried} allocations failed in turn, {bad} runs ended as they should not")
    return 1 if bad else 0


if __name__ == "__main__":
    sys.exit(main())
