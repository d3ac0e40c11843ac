"""Programs that look at times, owners, modes and free space, on a mount: tests for tools/mount_tests.

Each gets a folder to mount and a file for its world. `Missing` says that a program is not there.
"""
import contextlib
import mailbox
import os
import shutil
import signal
import subprocess
import sys
import time
import zipfile

from mounts import LEAST, SIZES, Mount, check, run

POSTGRES = "/usr/lib/postgresql"


class Missing(Exception):
    """What is not there."""


def need(name):
    found = shutil.which(name)
    if found is None:
        raise Missing(f"{name} is not there")
    return found


def put(path, text):
    with open(path, "w", encoding="utf-8") as file:
        file.write(text)


def text_of(path):
    with open(path, encoding="utf-8") as file:
        return file.read()


def beside(disk, name):
    return f"{os.path.dirname(disk)}/{name}"


def in_another_second():
    """Programs that compare whole seconds can't tell two changes of one second apart, on any file system."""
    time.sleep(1.05 - time.time() % 1)


def is_told_apart(folder, disk, before, write, after):
    """A file is changed to other bytes of the same length, right before the mount ends: what looks at it behind the next one has to see that."""
    with Mount(folder, disk):
        before()
        in_another_second()
        write()
    in_another_second()
    with Mount(folder, disk):
        after()


def try_rsync(folder, disk):
    """A backup has what was changed since; and what rsync itself sets of times is told for as long as the mount stands."""
    need("rsync")
    backup = beside(disk, "backup")

    def copy():
        return run("rsync", "-a", "--itemize-changes", f"{folder}/", f"{backup}/")

    def first():
        put(f"{folder}/book", "balance 100")
        put(f"{folder}/other", "the same")
        copy()

    def later():
        copied = copy()
        check(text_of(f"{backup}/book") == "balance 999", "a backup keeps old bytes")
        check("other" not in copied, "a backup copies what has not changed")

    is_told_apart(folder, disk, first, lambda: put(f"{folder}/book", "balance 999"), later)
    with Mount(folder, disk):
        os.makedirs(beside(disk, "source/d"))
        put(beside(disk, "source/d/file"), "text")
        os.utime(beside(disk, "source/d/file"), ns=(1_234_567_890_123_456_789, 1_000_000_000_987_654_321))
        words = ["rsync", "-a", "--itemize-changes", beside(disk, "source/"), f"{folder}/copy/"]
        check(">f" in run(*words), "nothing was copied")
        found = os.stat(f"{folder}/copy/d/file")
        check(found.st_mtime_ns == 1_000_000_000_987_654_321, "a time that was set is not told")
        check(">f" not in run(*words), "what was just copied is copied again")


def try_make(folder, disk):
    """An output is made anew where its source was changed behind it: also where an orderly end of the mount lies between."""
    need("make")

    def make():
        return run("make", "-C", folder)

    with Mount(folder, disk):
        put(f"{folder}/makefile", "out: data\n\tcp data out\n")
        put(f"{folder}/data", "balance 100")
        make()
        put(f"{folder}/data", "balance 999")
        make()
        check(text_of(f"{folder}/out") == "balance 999", "make keeps an old output")
    with Mount(folder, disk):
        check("up to date" in make(), "make makes what is up to date")
        put(f"{folder}/data", "balance 100")
    with Mount(folder, disk):
        make()
        check(text_of(f"{folder}/out") == "balance 100", "make keeps an output of another mount")
        check("up to date" in make(), "make makes what it has just made")


def try_python(folder, disk):
    """Python keeps what it compiled with the time and the length of its text."""
    def value():
        environment = {name: value for name, value in os.environ.items() if not name.startswith("PYTHON")}
        return run(sys.executable, "-c", "import mod; print(mod.balance)", cwd=folder, env=environment).strip()

    def first():
        put(f"{folder}/mod.py", "balance = 100\n")
        check(value() == "100", "python runs other code")
        check(os.listdir(f"{folder}/__pycache__"), "python keeps nothing")

    def later():
        check(value() == "999", "python runs old code")

    is_told_apart(folder, disk, first, lambda: put(f"{folder}/mod.py", "balance = 999\n"), later)


def try_zip(folder, disk):
    with Mount(folder, disk):
        put(f"{folder}/text", "some text")
    with Mount(folder, disk):
        with zipfile.ZipFile(f"{folder}/archive.zip", "w") as archive:
            archive.write(f"{folder}/text", "text")
        with zipfile.ZipFile(f"{folder}/archive.zip") as archive:
            check(archive.read("text") == b"some text", "an archive has other bytes")
            check(abs(archive.getinfo("text").date_time[0] - time.gmtime().tm_year) <= 1, "an archive tells another year")
        if shutil.which("zip"):
            run("zip", "-q", "second.zip", "text", cwd=folder)


def try_delivery(folder, disk):
    """A mail store removes what stands in tmp/ and looks older than 36 hours, as Dovecot does: not what is being written there."""
    with Mount(folder, disk):
        box = mailbox.Maildir(f"{folder}/mail", create=True)
        with open(f"{folder}/mail/tmp/delivery", "w", encoding="utf-8") as file:
            file.write("Subject: one\n\n")
            file.flush()
            box.clean()
            now, found = time.time(), os.fstat(file.fileno())
            check(abs(found.st_mtime - now) < 60 and abs(found.st_ctime - now) < 60, "what is written now looks old")
            os.rename(f"{folder}/mail/tmp/delivery", f"{folder}/mail/new/1.2.3")
        check(len(box) == 1, "a mail was lost")
    with Mount(folder, disk):
        now = time.time()
        check(abs(os.stat(f"{folder}/mail/new/1.2.3").st_mtime - now) < 60, "what was not changed does not look as old as the mount")


def times_of(path):
    found = os.stat(path)
    return found.st_mtime_ns, found.st_ctime_ns


def try_times(folder, disk):
    """Times rise with each change, none comes again, and those that are set are told."""
    before = time.time_ns()
    with Mount(folder, disk):
        seen = []
        with open(f"{folder}/file", "wb", buffering=0) as file:
            for number in range(300):
                file.write(b"%d" % number)
                seen.append(os.fstat(file.fileno()).st_mtime_ns)
        check(seen == sorted(set(seen)), "two changes have one time")
        check(before <= seen[0] and seen[-1] <= time.time_ns() + 10**9, "a time is not that of the day")
        modified, changed = times_of(f"{folder}/file")
        os.rename(f"{folder}/file", f"{folder}/moved")
        found = times_of(f"{folder}/moved")
        check(found[0] == modified and found[1] > changed, "a name is told as a change of bytes, or as none")
        os.utime(f"{folder}/moved", ns=(5 * 10**9, 7 * 10**9 + 11))
        os.rename(f"{folder}/moved", f"{folder}/file")
        found = os.stat(f"{folder}/file")
        check((found.st_atime_ns, found.st_mtime_ns) == (5 * 10**9, 7 * 10**9 + 11), "a time that was set is not told")
        os.utime(f"{folder}/file")
        check(times_of(f"{folder}/file")[0] > seen[-1], "touch has no effect")


def kill_mount(folder, disk):
    """A mount begins and is killed, and so is its server."""
    with contextlib.ExitStack() as stack:
        mount = Mount(folder, disk)
        stack.enter_context(mount)
        mount.process.kill()
        mount.process.wait(20)
        stack.pop_all()


def try_kept_times(folder, disk):
    """The times of bytes are kept over an orderly end of the mount, and told as those of its beginning behind any other."""
    def modified():
        return {path: os.stat(f"{folder}/{path}").st_mtime_ns for path in (".", "d", "d/file", "d/a\nb", "set", "\u00fc")}

    with Mount(folder, disk):
        os.mkdir(f"{folder}/d")
        for name in ("d/file", "d/a\nb", "set", "\u00fc"):
            put(f"{folder}/{name}", name)
        os.utime(f"{folder}/set", ns=(5 * 10**9, 7 * 10**9 + 11))
        told = modified()
    ended = time.time_ns()
    check(os.stat(f"{disk}.times").st_mode == 0o100600, "the times of a mount are for others to read")
    time.sleep(0.01)
    with Mount(folder, disk, first=["--read-only"]):
        check(modified() == told, "a time is not kept over an orderly end")
        check(os.stat(f"{folder}/set").st_ctime_ns > ended, "a time of the last change of all comes again")
        check(not os.path.exists(f"{disk}.times"), "times stay beside a world that may change")
        check(os.statvfs(folder).f_flag & os.ST_RDONLY, "what is mounted for reading alone may be changed")
    with Mount(folder, disk):
        check(modified() == told, "a time is not kept over a mount for reading alone")
        put(f"{folder}/d/file", "other")
        told = {**told, "d/file": os.stat(f"{folder}/d/file").st_mtime_ns}
    with Mount(folder, disk):
        check(modified() == told, "a time of a change is not kept")
    check_begun(folder, disk, modified, lambda: kill_mount(folder, disk))
    check_begun(folder, disk, modified, lambda: os.utime(disk))


def check_begun(folder, disk, modified, between):
    """What was done between two mounts has all times told as those of the beginning."""
    with Mount(folder, disk):
        os.utime(f"{folder}/set", ns=(5 * 10**9, 7 * 10**9 + 11))
    between()
    began = time.time_ns()
    with Mount(folder, disk):
        found = set(modified().values())
        check(len(found) == 1 and min(found) >= began, "times come again where they may be wrong")
        os.rename(f"{folder}/d/a\nb", f"{folder}/d/file")
        check(os.stat(f"{folder}/d/file").st_mtime_ns > min(found), "another file has a name at the same time")
        put(f"{folder}/d/a\nb", "again")


def as_user(name):
    """What a child process runs first, to become a user."""
    import pwd
    user = pwd.getpwnam(name)

    def become():
        os.setgroups([])
        os.setgid(user.pw_gid)
        os.setuid(user.pw_uid)
    return become


def runs(user, *words):
    return subprocess.run(words, capture_output=True, check=False, timeout=60, preexec_fn=as_user(user)).returncode == 0


def try_owners(folder, disk):
    """One owner and modes by masks are told to everybody, and held."""
    os.chmod(os.path.dirname(disk), 0o755)
    with Mount(folder, disk, LEAST, options=["--uid", "nobody", "--gid", "nogroup", "--umask", "077", "--fmask", "0177"]):
        check(runs("nobody", "sh", "-c", f"echo text > {folder}/file && mkdir {folder}/d"), "the owner may not write")
        found, folders = os.stat(f"{folder}/file"), os.stat(f"{folder}/d")
        check((found.st_uid, found.st_mode, folders.st_mode) == (os.stat(folder).st_uid, 0o100600, 0o40700), "another owner or mode is told")
        told = subprocess.run(["stat", "-c", "%u", f"{folder}/file"], capture_output=True, text=True, check=True, preexec_fn=as_user("nobody"))
        check(int(told.stdout) == found.st_uid != 0, "one owner is told to one, and another to others")
        check(not runs("daemon", "ls", folder), "others may look at what is the owner's alone")
    with Mount(folder, disk, LEAST):
        check(os.stat(f"{folder}/file").st_uid == 0 and os.stat(f"{folder}/d").st_mode == 0o40755, "an owner is told behind the mount")
        check(not runs("nobody", "ls", folder), "others may use what root mounted for itself")
    with Mount(folder, disk, LEAST, first=["--allow-other"]):
        check(runs("nobody", "cat", f"{folder}/file") and not runs("nobody", "rm", "-f", f"{folder}/file"), "others may not read, or may remove")


def free_of(folder):
    found = os.statvfs(folder)
    return found.f_bfree, found.f_ffree


def try_free_space(folder, disk):
    """What is free is told: also of what was removed and waits for a digest."""
    with Mount(folder, disk, LEAST):
        free, nodes = free_of(folder)
        check(nodes == 1023 and free == 199, f"of an empty world {free} blocks and {nodes} files are free")
        for number in range(20):
            with open(f"{folder}/{number}", "wb") as file:
                file.write(bytes(8192))
        used = free - free_of(folder)[0]
        check(60 <= used <= 80 and free_of(folder)[1] == nodes - 20, f"20 files of two blocks take {used}")
        for number in range(20):
            os.unlink(f"{folder}/{number}")
        found = free_of(folder)
        check(found in ((free, nodes), (free - 1, nodes)), f"behind a removal {found} are free of {free, nodes}")
        with contextlib.suppress(OSError):
            for number in range(2000):
                put(f"{folder}/{number}", "")
        check(free_of(folder)[0] == 0, "a full world tells free blocks")


def try_below_itself(folder, disk):
    """A world that lies below its own mount is refused by name, and so is one in the folder itself."""
    from mounts import MOUNTER
    os.mkdir(f"{folder}/d")
    for path in (f"{folder}/world", f"{folder}/d/world"):
        ran = subprocess.run([MOUNTER, folder, "--disk", path, *SIZES], capture_output=True, text=True, check=False, timeout=20)
        check(ran.returncode == 3 and "would hide it" in ran.stderr and not os.path.exists(path), f"a mount over its own world: {ran.stderr}")


@contextlib.contextmanager
def postgres(folder, programs_folder, port):
    """A server of a base in the mount, as the user postgres."""
    sockets = f"{os.path.dirname(folder)}/sockets"
    os.makedirs(sockets, exist_ok=True)
    shutil.chown(sockets, "postgres")
    small = ["shared_buffers=1MB", "max_connections=8", "max_wal_size=2MB", "min_wal_size=2MB", "dynamic_shared_memory_type=mmap"]
    words = [f"{programs_folder}/postgres", "-D", f"{folder}/data", "-p", str(port), "-k", sockets]
    for setting in ("listen_addresses=", "fsync=off", *small):
        words += ["-c", setting]
    log = f"{os.path.dirname(folder)}/log"
    with open(log, "ab") as file:
        process = subprocess.Popen(words, preexec_fn=as_user("postgres"), stdout=file, stderr=file)
    psql = [f"{programs_folder}/psql", "-h", sockets, "-p", str(port), "-U", "postgres", "-qAt", "-v", "ON_ERROR_STOP=1", "postgres"]
    try:
        for _ in range(200):
            if process.poll() is not None or subprocess.run([*psql, "-c", "SELECT 1"], capture_output=True, check=False).returncode == 0:
                break
            time.sleep(0.1)
        with open(log, encoding="utf-8", errors="replace") as file:
            check(process.poll() is None, f"postgres does not start: {file.read()[-400:]}")
        yield psql
    finally:
        process.send_signal(signal.SIGINT)
        with contextlib.suppress(subprocess.TimeoutExpired):
            process.wait(20)
        process.kill()


def postgres_folder():
    """Where the programs of PostgreSQL are."""
    versions = sorted(os.listdir(POSTGRES)) if os.path.isdir(POSTGRES) else []
    if not versions or not os.path.exists(f"{POSTGRES}/{versions[-1]}/bin/initdb"):
        raise Missing("postgresql is not there")
    return f"{POSTGRES}/{versions[-1]}/bin"


def make_base(folder, bin_folder):
    words = [f"{bin_folder}/initdb", "-D", f"{folder}/data", "--no-sync", "--wal-segsize=1", "--no-instructions", "-E", "UTF8", "--locale=C"]
    ran = subprocess.run(words, capture_output=True, text=True, check=False, timeout=200, preexec_fn=as_user("postgres"))
    check(ran.returncode == 0, f"initdb: {ran.stderr[-400:]}")


def try_postgres(folder, disk):
    """PostgreSQL starts on a mount that is its user's alone, and what it committed is there behind the next mount."""
    bin_folder = postgres_folder()
    os.chmod(os.path.dirname(disk), 0o755)
    sizes = ["--units", "16384", "--fast", "1024", "--block", "16384", "--slow", "1024"]
    owner = ["--uid", "postgres", "--umask", "077"]
    with Mount(folder, disk, sizes, options=owner):
        make_base(folder, bin_folder)
        with postgres(folder, bin_folder, 54321) as psql:
            run(*psql, "-c", "CREATE TABLE t (number int)")
            for number in range(20):
                run(*psql, "-c", f"INSERT INTO t VALUES ({number})")
    with Mount(folder, disk, sizes, options=owner), postgres(folder, bin_folder, 54321) as psql:
        check(run(*psql, "-c", "SELECT count(*), sum(number) FROM t").strip() == "20|190", "rows are missing")


# Those of a second or two each.
TESTS = [
    ("times", try_times), ("times that are kept", try_kept_times), ("rsync", try_rsync), ("make", try_make), ("python", try_python),
    ("zip", try_zip), ("delivery", try_delivery),
    ("owners", try_owners), ("free space", try_free_space), ("a mount over its own world", try_below_itself), ("postgres", try_postgres),
]
