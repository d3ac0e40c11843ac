"""A folder that is mounted for a test, for tools/mount_tests and its programs."""
import os
import signal
import subprocess

import programs

SERVER = programs.find("strata_fuse")
MOUNTER = f"{programs.TOP}/tools/strata_mount"
SIZES = ["--units", "2048", "--fast", "512", "--block", "2048", "--slow", "512"]
# The least media that are allowed for these units.
LEAST = ["--units", "200", "--fast", "8", "--block", "700", "--slow", "8"]


class Failure(Exception):
    """What did not hold."""


def check(holds, what):
    if not holds:
        raise Failure(what)


class Mount:
    """A folder that is mounted over a file, until the end of a `with`."""

    def __init__(self, folder, disk, sizes=SIZES, environment=None, options=(), first=()):
        self.folder, self.words = folder, [MOUNTER, *first, folder, "--disk", disk, *sizes, *options]
        self.environment = {**os.environ, "STRATA_FUSE": SERVER, **(environment or {})}

    def __enter__(self):
        self.process = subprocess.Popen(self.words, stdout=subprocess.PIPE, stderr=subprocess.PIPE, text=True, env=self.environment)
        # (the first line says which server it is, and the next that the mount stands)
        if not self.process.stdout.readline() or not self.process.stdout.readline():
            raise Failure(self.process.stderr.read().strip() or "the mount did not begin")
        return self.folder

    def __exit__(self, kind, error, trace):
        if kind is not None:
            self.process.send_signal(signal.SIGTERM)
        else:
            subprocess.run(["umount", self.folder], check=False, capture_output=True)
        try:
            self.status = self.process.wait(60)
        except subprocess.TimeoutExpired:
            self.process.kill()
            raise Failure("the server did not end") from error
        if kind is None:
            check(self.status == 0, f"the mount ended with status {self.status}: {self.process.stderr.read().strip()}")


def run(*words, **options):
    ran = subprocess.run(words, capture_output=True, text=True, check=False, timeout=120, **options)
    check(ran.returncode == 0, f"{' '.join(words)}: {ran.stderr.strip()[-300:]}")
    return ran.stdout
