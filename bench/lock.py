#!/usr/bin/env python3
"""Times a turn at a lock, in nanoseconds: one `enter` and the `leave` that belongs to it.

`cfs_lock_bench one N` makes N turns by one thread, `shared N` N turns by each of four threads on
one lock, and `apart N` N turns by each of four threads on four locks. Two counts are timed, and
the difference is divided by the difference of the counts, so that starting the program does not
count. The time by the clock is shared out among the turns of all threads; the time of processors
is what one turn costs, and differs less where other programs run.
Build the program first (`rt ci` does, and `rt run -- apart 10` in crates/cfs_lock_bench), then run
`bench/lock.py [PROGRAM]`.
"""
import os
import sys

from timing import both_of_a_round

TOP = os.path.dirname(os.path.dirname(os.path.abspath(__file__)))
BUILT = os.path.join(TOP, "crates/cfs_lock_bench/out/cfs_lock_bench")
PROGRAM = sys.argv[1] if len(sys.argv) > 1 else BUILT
FORMS = [
    ("one", 1, 1_000_000, 11_000_000, "one thread"),
    ("shared", 4, 50_000, 550_000, "four threads, one lock"),
    ("apart", 4, 1_000_000, 11_000_000, "four threads, four locks"),
]
RUNS = 5


def main():
    print(f"{'nanoseconds a turn':26}{'clock':>10}{'processors':>12}")
    for form, threads, few, many, name in FORMS:
        times = both_of_a_round(RUNS, [PROGRAM, form], few, many)
        clock, used = (time / threads * 1e9 for time in times)
        print(f"{name:26}{clock:10.1f}{used:12.1f}")


main()
