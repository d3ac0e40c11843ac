"""Stores that run on a mount whose server is killed (SIGKILL) at random moments: tests for tools/mount_tests --all.

A worker prints the number of each unit once the store has answered it; nobody syncs. Behind the next mount each of these has to be there, at most
one more, and the store has to be sound. Each round goes on with the world of the last one.
"""
import contextlib
import os
import random
import select
import signal
import socket
import subprocess
import time

import mount_programs
from mount_programs import Missing, as_user, need
from mounts import Failure, Mount, check, run

DEBIAN_PYTHON = "/usr/bin/python3"
WIDE = ["--units", "16384", "--fast", "1024", "--block", "16384", "--slow", "1024"]
LMDB = """
import lmdb, sys
def opened(folder):
    return lmdb.open(folder, map_size=1 << 20, sync=False, metasync=False, max_readers=8)
"""
LMDB_WORK = LMDB + """
base = opened(sys.argv[1])
with base.begin() as seen:
    first = seen.stat()["entries"]
for number in range(first, first + 4000):
    with base.begin(write=True) as change:
        change.put(b"%08d" % number, b"v%d" % number)
    print(number, flush=True)
"""
LMDB_LOOK = LMDB + """
with opened(sys.argv[1]).begin() as seen:
    for key, value in seen.cursor():
        assert value == b"v%d" % int(key)
        print(int(key))
"""
LEVELDB = """
import plyvel, sys
def opened(folder):
    return plyvel.DB(folder, create_if_missing=True, write_buffer_size=1 << 16, max_file_size=1 << 20)
"""
LEVELDB_WORK = LEVELDB + """
base = opened(sys.argv[1])
first = sum(1 for _ in base.iterator())
for number in range(first, first + 20000):
    base.put(b"%08d" % number, b"v%d" % number)
    print(number, flush=True)
"""
LEVELDB_LOOK = LEVELDB + """
for key, value in opened(sys.argv[1]).iterator():
    assert value == b"v%d" % int(key)
    print(int(key))
"""


def server_of(mount):
    """The process that serves a mount: the child of its mounter."""
    with open(f"/proc/{mount.process.pid}/task/{mount.process.pid}/children", encoding="ascii") as file:
        for child in file.read().split():
            with open(f"/proc/{child}/comm", encoding="ascii") as name:
                if name.read().strip() == "strata_fuse":
                    return int(child)
    raise Failure("there is no server")


def answered_until_killed(mount, worker, seconds):
    """The numbers that a worker printed until the server was killed, after so many seconds, and the worker ended."""
    time.sleep(seconds)
    os.kill(server_of(mount), signal.SIGKILL)
    try:
        said = worker.communicate(timeout=30)[0]
    except subprocess.TimeoutExpired:
        worker.kill()
        said = worker.communicate()[0]
    return [int(line) for line in said.splitlines() if line.isdigit()]


def check_numbers(found, answered, kept):
    """All that were answered are there, in this round and before, and at most one more a round."""
    missing = sorted(set(answered) - set(found))
    check(not missing, f"{len(missing)} of {len(answered)} answered units are missing: {missing[:5]}")
    more = set(found) - set(answered) - set(kept)
    check(len(more) <= 1, f"{len(more)} units are there that were not answered")


def try_worker(folder, disk, rounds, work, look):
    """Rounds of a program that works in the mount until its server is killed, and one that prints what is there."""
    chance, kept = random.Random(os.path.basename(folder)), []
    for _ in range(rounds):
        mount = Mount(folder, disk, WIDE)
        with contextlib.suppress(Failure), mount:
            os.makedirs(f"{folder}/base", exist_ok=True)
            pipes = {"stdout": subprocess.PIPE, "stderr": subprocess.DEVNULL, "text": True}
            worker = subprocess.Popen([*work, f"{folder}/base"], **pipes)
            answered = answered_until_killed(mount, worker, chance.uniform(0.2, 1.5))
        with Mount(folder, disk, WIDE):
            found = [int(it) for it in run(*look, f"{folder}/base").split()]
            check_numbers(found, answered, kept)
        kept = found
    return len(kept)


def try_lmdb(folder, disk, rounds):
    if subprocess.run([DEBIAN_PYTHON, "-c", "import lmdb"], capture_output=True, check=False).returncode:
        raise Missing("python3-lmdb is not there")
    return try_worker(folder, disk, rounds, [DEBIAN_PYTHON, "-c", LMDB_WORK], [DEBIAN_PYTHON, "-c", LMDB_LOOK])


def try_leveldb(folder, disk, rounds):
    if subprocess.run([DEBIAN_PYTHON, "-c", "import plyvel"], capture_output=True, check=False).returncode:
        raise Missing("python3-plyvel is not there")
    return try_worker(folder, disk, rounds, [DEBIAN_PYTHON, "-c", LEVELDB_WORK], [DEBIAN_PYTHON, "-c", LEVELDB_LOOK])


class Redis:
    """A Redis server with its file in a folder, over a socket beside it. It says OK to what a failed write has not kept unless it syncs (which costs a
    mount nothing), so it does."""

    def __init__(self, folder, path):
        words = [need("redis-server"), "--port", "0", "--unixsocket", path, "--dir", folder, "--save", "", "--appendonly", "yes"]
        words += ["--appendfsync", "always", "--auto-aof-rewrite-percentage", "0"]
        self.process = subprocess.Popen(words, stdout=subprocess.DEVNULL, stderr=subprocess.DEVNULL)
        self.path = path

    def __enter__(self):
        for _ in range(100):
            with contextlib.suppress(OSError):
                self.line = socket.socket(socket.AF_UNIX)
                self.line.connect(self.path)
                if self.ask("PING") == "+PONG":
                    return self
            time.sleep(0.05)
        raise Failure("redis does not start")

    def __exit__(self, *_):
        self.line.close()
        self.process.kill()
        self.process.wait()

    def ask(self, text):
        self.line.settimeout(10)
        self.line.sendall(text.encode() + b"\r\n")
        said = b""
        while not said.endswith(b"\r\n"):
            piece = self.line.recv(4096)
            if not piece:
                raise OSError("it has gone")
            said += piece
        return said.decode().strip()


def try_redis(folder, disk, rounds):
    need("redis-server")
    chance, total, path = random.Random("redis"), 0, f"{os.path.dirname(disk)}/socket"
    for _ in range(rounds):
        mount, number = Mount(folder, disk, WIDE), total
        with contextlib.suppress(Failure), mount:
            with contextlib.suppress(OSError), Redis(folder, path) as redis:
                killed = time.monotonic() + chance.uniform(0.2, 1.0)
                while number < total + 20000:
                    if time.monotonic() > killed:
                        os.kill(server_of(mount), signal.SIGKILL)
                        killed += 1000
                    if redis.ask(f"SET key{number} value{number}") != "+OK":
                        break
                    number += 1
        with Mount(folder, disk, WIDE), Redis(folder, path) as redis:
            count = int(redis.ask("DBSIZE").lstrip(":"))
            check(count in (number, number + 1), f"{number} answered, {count} found")
            total = count
    return total


def try_postgres(folder, disk, rounds):
    bin_folder = mount_programs.postgres_folder()
    os.chmod(os.path.dirname(disk), 0o755)
    owner, kept = ["--uid", "postgres", "--umask", "077"], 0
    with Mount(folder, disk, WIDE, options=owner):
        mount_programs.make_base(folder, bin_folder)
        with mount_programs.postgres(folder, bin_folder, 54322) as psql:
            run(*psql, "-c", "CREATE TABLE t (number int)")
    for _ in range(rounds):
        mount, answered = Mount(folder, disk, WIDE, options=owner), kept
        with contextlib.suppress(Failure, subprocess.SubprocessError), mount:
            with mount_programs.postgres(folder, bin_folder, 54322) as psql:
                pipes = {"stdin": subprocess.PIPE, "stdout": subprocess.PIPE, "stderr": subprocess.DEVNULL, "text": True}
                client = subprocess.Popen(psql, **pipes)
                killed = time.monotonic() + random.uniform(0.3, 1.5)
                while True:
                    if time.monotonic() > killed:
                        os.kill(server_of(mount), signal.SIGKILL)
                        killed += 1000
                    client.stdin.write(f"INSERT INTO t VALUES ({answered}) RETURNING number;\n")
                    client.stdin.flush()
                    said = client.stdout.readline() if select.select([client.stdout], [], [], 20)[0] else ""
                    if said.strip() != str(answered):
                        break
                    answered += 1
                client.kill()
        with Mount(folder, disk, WIDE, options=owner), mount_programs.postgres(folder, bin_folder, 54322) as psql:
            count = int(run(*psql, "-c", "SELECT count(*) FROM t"))
            check(count in (answered, answered + 1), f"{answered} answered, {count} found")
            kept = count
    return kept


def try_fio(folder, disk, _):
    """Checksums of all that is written, by calls, mappings and asynchronous calls."""
    fio = need("fio")
    with Mount(folder, disk, WIDE):
        for engine in ("psync", "mmap", "libaio"):
            run(fio, "--name=t", f"--directory={folder}", f"--ioengine={engine}", "--rw=randwrite", "--bs=4k", "--size=1m", "--numjobs=4",
                "--verify=crc32c", "--do_verify=1", "--randrepeat=0", "--group_reporting", "--filename_format=$jobname.$jobnum")
            for name in os.listdir(folder):
                os.unlink(f"{folder}/{name}")
    return None


# Each with how many kills.
TESTS = [
    ("kills, LMDB", try_lmdb, 25), ("kills, LevelDB", try_leveldb, 25), ("kills, Redis", try_redis, 25), ("kills, PostgreSQL", try_postgres, 25),
    ("fio", try_fio, 0),
]
