#!/usr/bin/env python3
"""Lists the parts of a crate whose check took longest, from the work that `rt check` kept: tools/slow_parts.py CRATE [COUNT].

A part's time is the time between its file and the one written before it, so it means something only after a check from nothing with one
job (`rm -rf out; rt check --jobs 1`). A part named Lts is the check of borrows of a function: it grows fast with the function's
places and exits, and falls when the function is taken apart.
"""
import glob
import os
import re
import sys


def main():
    crate, count = sys.argv[1], int(sys.argv[2]) if len(sys.argv) > 2 else 20
    here = os.path.dirname(os.path.abspath(__file__))
    files = glob.glob(f"{here}/../crates/{crate}/out/incremental/antt*/*.oantt")
    if not files:
        sys.exit(f"no kept work of {crate}: run rt check --jobs 1 in its folder first")
    written = sorted((os.stat(it).st_mtime, os.path.basename(it)) for it in files)
    took = [(at - before, name) for (before, _), (at, name) in zip(written, written[1:])]
    for seconds, name in sorted(took, reverse=True)[:count]:
        print(f"{seconds:6.1f} s  {re.sub(r'^Rattle-|[.]oantt$', '', name)}")


if __name__ == "__main__":
    main()
