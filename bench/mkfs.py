#!/usr/bin/env python3
"""Times `crossfs mkfs` of the largest store, in milliseconds, beside `cp` of its image.

`mkfs` waits until its file is durable, and `cp` does not; so `cp` is timed alone and with `sync` of its
copy. The least of several runs counts. Build the program first (`rt ci` does, and `rt run` in
crates/crossfs), then run `bench/mkfs.py [PROGRAM [FOLDER]]`; the files are made in a folder of FOLDER.
"""
import os
import sys
import tempfile

from timing import least

TOP = os.path.dirname(os.path.dirname(os.path.abspath(__file__)))
PROGRAM = sys.argv[1] if len(sys.argv) > 1 else os.path.join(TOP, "crates/crossfs/out/crossfs")
FOLDER = sys.argv[2] if len(sys.argv) > 2 else None
BYTES = 71_542_840
RUNS = 7


def main():
    with tempfile.TemporaryDirectory(dir=FOLDER) as folder:
        image, copy = os.path.join(folder, "image"), os.path.join(folder, "copy")
        mkfs = least(RUNS, [PROGRAM, "mkfs", image, "16384", "64"])
        if os.path.getsize(image) != BYTES:
            sys.exit(f"{os.path.getsize(image)} bytes")
        plain = least(RUNS, ["cp", image, copy])
        synced = least(RUNS, ["cp", image, copy], ["sync", copy])
        print(f"mkfs of {BYTES} bytes {mkfs * 1e3:.1f} ms, durable")
        print(f"cp                    {plain * 1e3:.1f} ms, ratio {mkfs / plain:.2f}")
        print(f"cp and sync           {synced * 1e3:.1f} ms, ratio {mkfs / synced:.2f}")


main()
