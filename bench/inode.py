#!/usr/bin/env python3
"""Times a write's whole way through the state of one inode in memory, in nanoseconds of a processor a request,
beside a C loop that makes the copies that it demands.

`cfs_active_bench N` writes N blocks of 4096 bytes, over and over a file of 256 blocks: each write is staged in a
slot, admitted, given to a job, applied and finished, and its slot is collected for the next one. For each N the
program is also run with 1,000 requests, and the difference is divided by the difference of the counts, so that
starting the program and tagging the file's blocks do not count.
bench/inode.c makes the copies of the same requests. It is compiled here, and timed by 100,000 and 600,000 of
them: it keeps nothing from one to the next, so that their number does not matter.
Build the program first (`rt ci` does, and `rt run -- 10` in crates/cfs_active_bench), then run
`bench/inode.py [PROGRAM]`.
"""
import os
import subprocess
import sys
import tempfile

from timing import both_of_a_round

TOP = os.path.dirname(os.path.dirname(os.path.abspath(__file__)))
BUILT = os.path.join(TOP, "crates/cfs_active_bench/out/cfs_active_bench")
PROGRAM = sys.argv[1] if len(sys.argv) > 1 else BUILT
BASE = 1_000
COUNTS = (2_000, 4_000, 8_000, 16_000, 32_000)
FEW_COPIES, MANY_COPIES = 100_000, 600_000
RUNS = 30


def nanoseconds(program, few, many):
    """The processor time of one request, from runs with few and with many."""
    _, used = both_of_a_round(RUNS, [program], few, many)
    return used * 1e9


def main():
    with tempfile.TemporaryDirectory() as folder:
        copies = os.path.join(folder, "inode")
        source = os.path.join(TOP, "bench", "inode.c")
        subprocess.run(["cc", "-O2", "-o", copies, source], check=True)
        floor = nanoseconds(copies, FEW_COPIES, MANY_COPIES)
    print(f"the copies of a write{floor:9.0f} ns")
    print(f"{'requests':>10}{'a write':>12}{'ratio':>8}")
    for count in COUNTS:
        write = nanoseconds(PROGRAM, BASE, count)
        print(f"{count:10}{write:12.0f}{write / floor:8.1f}")


main()
