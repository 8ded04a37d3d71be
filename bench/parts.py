#!/usr/bin/env python3
"""Times the parts of a file's state in memory, in nanoseconds of a processor a call.

Of the tree of spans an insert (which looks first whether the place is new, and makes room), a
remove and both queries, over 100, 1,000 and 10,000 spans, beside a plain list that is walked for
the same queries; of the pool a take with a give, over 64 and 16,384 blocks; of the map of a
file's blocks a lend with a put_back, and a remove with a put, over 256 blocks in one run and
every other one in 128 runs. `cfs_parts_bench WHAT SIZE N` does each N times; two counts are
timed, and the difference is divided by the difference of the counts, so that starting the program
and making the part do not count.
Build the program first (`rt ci` does, and `rt run -- overlap 100 10` in crates/cfs_parts_bench),
then run `bench/parts.py [PROGRAM]`.
"""
import os
import sys

from timing import both_of_a_round

TOP = os.path.dirname(os.path.dirname(os.path.abspath(__file__)))
BUILT = os.path.join(TOP, "crates/cfs_parts_bench/out/cfs_parts_bench")
PROGRAM = sys.argv[1] if len(sys.argv) > 1 else BUILT
RUNS = 5
SPANS = (100, 1_000, 10_000)
BLOCKS = (64, 16_384)
RUNS_OF_BLOCKS = (1, 128)
QUERIES = (("overlap", "first_overlap_between"), ("covered", "next_covered"))


def nanoseconds(what, size, calls, a_round=1):
    """The time of one call: so many calls are timed, of which each round makes so many."""
    many = max(calls // a_round, 2)
    words = [PROGRAM, what, str(size)]
    _, used = both_of_a_round(RUNS, words, max(many // 10, 1), many)
    return used / a_round * 1e9


def line(name, *numbers):
    print(f"{name:34}" + "".join(f"{number:12.0f}" for number in numbers))


def trees():
    line("spans", *SPANS)
    inserts = [nanoseconds("insert", size, 2_000_000, size) for size in SPANS]
    both = [nanoseconds("remove", size, 2_000_000, size) for size in SPANS]
    line("insert", *inserts)
    line("remove", *(pair - insert for pair, insert in zip(both, inserts)))
    for what, name in QUERIES:
        line(name, *(nanoseconds(what, size, 2_000_000) for size in SPANS))
        scans = [nanoseconds(f"scan_{what}", size, 200_000_000 // size) for size in SPANS]
        line("  a plain list", *scans)


def main():
    trees()
    line("blocks", *BLOCKS)
    line("take and give", *(nanoseconds("pool", size, 5_000_000) for size in BLOCKS))
    line("runs", *RUNS_OF_BLOCKS)
    for what, name in (("lend", "lend and put_back"), ("put", "remove and put")):
        line(name, *(nanoseconds(what, runs, 5_000_000) for runs in RUNS_OF_BLOCKS))


main()
