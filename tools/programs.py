"""How a program is built without a proof, as fast as a proved one runs, in some three minutes: for tools/build, tools/more_tests and tools/timings.

`rt try` has its module compiled for its own run; here a `clang` of ours keeps that module, takes its checks of steps, its traps and its fills of
fresh memory out (a build with checks leaves them in), and has it compiled at -O2. Nothing of such a program is proved. A build reads src/ and
specs/ of the program and of all crates below it, in a copy, so that it may run beside `rt ci` and changes nothing in the checkout.
"""
import contextlib
import functools
import os
import re
import shutil
import signal
import subprocess
import sys
import tempfile
import threading

import kept

TOP = os.path.dirname(os.path.dirname(os.path.abspath(__file__)))
# What of a crate a build reads.
PARTS = ("src", "specs")
FLAGS = [
    "--target=x86_64-unknown-linux-gnu", "-march=x86-64", "-mllvm", "-no-trap-after-noreturn", "-ffunction-sections", "-fdata-sections", "-mllvm",
    "-trap-unreachable", "--no-default-config", "-no-canonical-prefixes", "-fintegrated-cc1",
]
CHECKS = re.compile(r'^ *call void @(?:"rattle-llvm-checks::|llvm\.trap\(\)|llvm\.memset[^\n]*i8 -86,)[^\n]*\n', re.M)

# The commands that run, and the signal that ends this process once one has come.
RUNNING, ENDED = set(), []


class NotBuilt(Exception):
    """Why a program is not built."""


def is_newer(path, name):
    """Whether a program is newer than each file of the crate of this name and of those below it that it is made of."""
    lines = kept.listed()
    folders = [f"{TOP}/crates/{it}/{part}" for it in [*kept.lines_below(lines[name], lines), name] for part in PARTS]
    with contextlib.suppress(OSError):
        made = os.stat(path).st_mtime
        return all(os.stat(it).st_mtime <= made for folder in folders if os.path.isdir(folder) for it in kept.files_in(folder))
    return False


@functools.cache
def find(name):
    """Where a program of the repository is to be run: where the environment says (STRATA_SH for strata_sh); else as `rt ci` or `rt run` proved and
    built it, where that is newer than its sources; else as tools/build builds it."""
    proved = f"{TOP}/crates/{name}/out/{name}"
    is_proved = os.access(proved, os.X_OK) and is_newer(proved, name)
    return os.environ.get(name.upper()) or (proved if is_proved else f"{TOP}/out/bin/{name}")


def what_is(name):
    """The program that `find` names, in words for the first line of a tool: which it is, and whether it is proved."""
    path = find(name)
    if os.environ.get(name.upper()):
        return f"{path}, which {name.upper()} names"
    return f"{os.path.relpath(path, TOP)}, {'unproved, by tools/build' if path.startswith(f'{TOP}/out/') else 'proved'}"


def stand(name):
    """A program as `find` names it, built by tools/build where none is proved and that one is not up to date."""
    path = find(name)
    if path == f"{TOP}/out/bin/{name}":
        subprocess.run([f"{TOP}/tools/build", name], stdin=subprocess.DEVNULL, stdout=sys.stderr, check=True)
    return os.path.abspath(path)


def copy_crates(room, names, parts=PARTS):
    """Copies these parts of these crates into a folder."""
    for name in names:
        for part in parts:
            if os.path.isdir(f"{TOP}/crates/{name}/{part}"):
                shutil.copytree(f"{TOP}/crates/{name}/{part}", f"{room}/crates/{name}/{part}")


def lay_out(room, lines, names, parts=PARTS):
    """Makes a folder a repository of these crates, with these lines in crates.txt."""
    with open(f"{room}/crates.txt", "w", encoding="utf-8") as file:
        file.write("\n".join([*lines, ""]))
    shutil.copy(f"{TOP}/HANDLES", room)
    copy_crates(room, names, parts)


def script(path, text):
    with open(path, "w", encoding="utf-8") as file:
        file.write(f"#!/bin/sh\n{text}\n")
    os.chmod(path, 0o755)


def lay_out_kit(kit, room):
    """A kit like the one that is there, whose clang keeps the module that `rt try` has compiled with its checks of addresses, and whose check of
    names does nothing."""
    os.makedirs(f"{room}/bin")
    os.makedirs(f"{room}/toolchain/bin")
    for name in os.listdir(kit):
        if name not in ("bin", "toolchain"):
            os.symlink(f"{kit}/{name}", f"{room}/{name}")
    for name in os.listdir(f"{kit}/bin"):
        if name in ("rt", "rtlib.py"):
            shutil.copy(f"{kit}/bin/{name}", f"{room}/bin")
        elif name != "rattle":
            os.symlink(f"{kit}/bin/{name}", f"{room}/bin/{name}")
    script(f"{room}/bin/rattle", f'case " $* " in *"no function"*) exit 0;; esac\nexec {kit}/bin/rattle "$@"')
    for name in os.listdir(f"{kit}/toolchain/bin"):
        if name != "clang":
            os.symlink(f"{kit}/toolchain/bin/{name}", f"{room}/toolchain/bin/{name}")
    os.symlink(f"{kit}/toolchain/lib", f"{room}/toolchain/lib")
    keep = f'case " $* " in *fsanitize*) cp module.bc {room}/module.bc; exit 1;; esac'
    script(f"{room}/toolchain/bin/clang", f'{keep}\nexec {kit}/toolchain/bin/clang "$@"')


def run(words, begun=None, **how):
    """Runs a command and answers its status and what it said. Where this process is told to end meanwhile, so is the command. What is to be done to
    the process beside it is begun with it."""
    if ENDED:
        raise SystemExit(1)
    # (a key that interrupts this process reaches no command of it: it is told once, here)
    pipes = {"stdin": subprocess.DEVNULL, "stdout": subprocess.PIPE, "stderr": subprocess.STDOUT, "text": True, "errors": "replace"}
    with subprocess.Popen(words, **{"start_new_session": True, **pipes, **how}) as ran:
        RUNNING.add(ran)
        try:
            if begun:
                threading.Thread(target=begun, args=[ran], daemon=True).start()
            said = ran.communicate()[0]
        except BaseException:
            # (rt ends what it started, where it is told to by this signal once: a second one would cut that off)
            if not ENDED:
                ran.terminate()
            with contextlib.suppress(subprocess.TimeoutExpired):
                ran.wait(60)
            ran.kill()
            raise
        finally:
            RUNNING.discard(ran)
    return ran.returncode, said


def checked_run(words):
    status, said = run(words)
    if status:
        raise NotBuilt(f"{os.path.basename(words[0])}: status {status}: {said[-4000:]}")


def compile_module(kit, room, has_checks):
    clang, module = [f"{kit}/toolchain/bin/clang", f"--sysroot={kit}/toolchain", *FLAGS], f"{room}/module.bc"
    if not has_checks:
        checked_run([*clang, "-S", "-emit-llvm", "-Xclang", "-disable-llvm-passes", "-O2", "-x", "ir", module, "-o", f"{room}/module.ll"])
        with open(f"{room}/module.ll", encoding="utf-8", errors="surrogateescape") as file:
            text = CHECKS.sub("", file.read()).replace(" sanitize_address", "")
        module = f"{room}/free.ll"
        with open(module, "w", encoding="utf-8", errors="surrogateescape") as file:
            file.write(text)
    checked_run([*clang, "-c", "-x", "ir", module, "-o", f"{room}/module.o", "-fPIE", "-O2"])


def build(folder, program, has_checks=False):
    """Builds the program whose crate a folder is, beside the crates below it, as a file."""
    kit = kept.kit()
    with tempfile.TemporaryDirectory(prefix="build-") as room:
        lay_out_kit(kit, room)
        said = run([f"{room}/bin/rt", "try", "--seconds", "5", "--", "--help"], cwd=folder)[1]
        if not os.path.exists(f"{room}/module.bc"):
            raise NotBuilt(said[-4000:])
        compile_module(kit, room, has_checks)
        # (what is linked takes its name whole, or not at all)
        begun = f"{os.path.dirname(os.path.abspath(program))}/.{os.path.basename(program)}.{os.getpid()}"
        link = [f"{kit}/bin/rattle-link", "--target", "x86_64-unknown-linux-gnu", "--toolchain", f"{kit}/toolchain"]
        try:
            checked_run([*link, "-o", begun, f"{room}/module.o", f"{kit}/c/libos_c.a", f"{kit}/c/liblibc_c.a"])
            os.replace(begun, program)
        finally:
            with contextlib.suppress(FileNotFoundError):
                os.remove(begun)


def end_when_told():
    """Has this process end the commands that it runs, and leave its folders by the way of an exception, where a signal ends it."""

    def leave(number, _):
        for it in (signal.SIGTERM, signal.SIGHUP, signal.SIGINT):
            signal.signal(it, signal.SIG_IGN)
        ENDED.append(number)
        for it in list(RUNNING):
            it.terminate()
        raise SystemExit(128 + number)

    for it in (signal.SIGTERM, signal.SIGHUP, signal.SIGINT):
        signal.signal(it, leave)
