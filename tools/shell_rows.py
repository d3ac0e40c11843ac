"""The rows of crates/strata_sh/stdin, and a shell that answers line by line: for the tools that stop it or let its media fail."""
import os
import re
import subprocess

import programs

TOP = os.path.dirname(os.path.dirname(os.path.abspath(__file__)))
PROGRAM = programs.find("strata_sh")


def build():
    """Has the shell stand: what is proved is taken, else it is built without a proof."""
    programs.stand("strata_sh")


def spelled(text):
    """A line without what the table's escapes stand for."""
    text = re.sub(r"\\\{(.)\*(\d+)\}", lambda it: it[1] * int(it[2]), text)
    return text.replace("\\e", "")


def rows():
    """The lines of each row, in order, without their answers."""
    with open(f"{TOP}/crates/strata_sh/stdin", encoding="utf-8") as file:
        parts = [part.partition("\n") for part in file.read().split("\n== ")[1:]]
    return {name: list(lines_of(text)) for name, _, text in parts}


def lines_of(text):
    for line in text.splitlines():
        of, to, rest = re.fullmatch(r"(?:@ (\d+)\.\.(\d+) )?(.*)", line).groups()
        for number in range(int(of or 0), int(to or 1)):
            yield from (spelled(it.partition(" => ")[0].replace("\\i", str(number))) for it in rest.split(" | "))


def without_stops(lines):
    """A script up to its first halt, without its own stops."""
    ends = [at for at, line in enumerate(lines) if re.match("halt|recover", line)]
    return [it for it in lines[: min(ends, default=None)] if it and not re.match(r"[#$&=!]|stop ", it)]


def least(units):
    """The words of the command line for the least media with so many units and a block on each tier."""
    return ["--units", str(units), "--fast", str(units + 510), "--block", "1", "--slow", "1"]


class Shell:
    """A process that answers a line for each line."""

    def __init__(self, words, image=None):
        words = [*words, *(["--image", image] if image else [])]
        self.child = subprocess.Popen([PROGRAM, *words], stdin=subprocess.PIPE, stdout=subprocess.PIPE, stderr=subprocess.PIPE, text=True, bufsize=1)

    def __enter__(self):
        return self

    def __exit__(self, *_):
        self.end()

    def end(self):
        _, said = self.child.communicate()
        return self.child.returncode, said

    def ask(self, line):
        try:
            self.child.stdin.write(f"{line}\n")
            self.child.stdin.flush()
        except BrokenPipeError:
            pass
        return self.child.stdout.readline().rstrip("\n")

    def run(self, lines):
        """The answers up to the first `stopped`, with it."""
        answers = []
        for line in lines:
            answers.append(self.ask(line))
            if answers[-1] == "stopped":
                break
        return answers

    def tree(self, path="/"):
        """What client 8 sees at a path and below it, as pairs of a path and what stands there; before the root, the book."""
        stat = self.ask(f"8 stat {path}")
        if not stat.startswith("dir "):
            return [(path, stat, self.ask(f"where {path} 0"), *self.bytes_of(path, stat))]
        names = self.ask(f"8 list {path}").split(" ")[1:]
        below = [it for name in names for it in self.tree(f"{path.rstrip('/')}/{name}")]
        return [*([self.ask("book")] if path == "/" else []), (path, stat, *names), *below]

    def bytes_of(self, path, stat):
        fd = self.ask(f"8 open {path} r").split(" ")[-1]
        size = int(stat.split(" ")[1]) if stat.startswith("file ") else 0
        read = [self.ask(f"8 pread {fd} {at} 65536") for at in range(0, size + 1, 65536)]
        return [*read, self.ask(f"8 close {fd}")]

    def empty(self, tree):
        """Takes the whole of that tree away, and recovers: what then holds is a new tree, no lease and no descriptor."""
        for path, stat, *_ in reversed(tree[2:]):
            self.ask(f"8 {'rmdir' if stat.startswith('dir ') else 'unlink'} {path}")
        return self.ask("recover") == "recovered"
