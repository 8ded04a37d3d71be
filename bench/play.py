#!/usr/bin/env python3
"""Times `crossfs play` over scripts of growing length, in nanoseconds a line.

Build the program first (`rt ci` does, and `rt run` in crates/crossfs), then run
`bench/play.py [PROGRAM]`. Each script is played five times; the least time counts.
"""
import os
import random
import sys
import tempfile

from timing import least

TOP = os.path.dirname(os.path.dirname(os.path.abspath(__file__)))
PROGRAM = sys.argv[1] if len(sys.argv) > 1 else os.path.join(TOP, "crates/crossfs/out/crossfs")
LINES = [8_000, 16_000, 32_000, 65_000]
LAST_OFFSET = 1_044_480
RUNS = 5


def script(kind, lines):
    """A script of so many lines. `mixed` writes and reads 16 bytes all over the file, `growing` only
    writes, each behind the one before it, and `reads` fills the file and then reads 4096 bytes a line.
    """
    draws = random.Random(1)
    out = ["caller 1 10 10", "1 open /a rwc 0644"]
    if kind == "reads":
        out += [f"1 pwrite 0 {4096 * i} t:{'x' * 4096}" for i in range(256)]
    while len(out) < lines:
        offset = draws.randrange(LAST_OFFSET + 1)
        if kind == "growing":
            out.append(f"1 pwrite 0 {min(16 * len(out), LAST_OFFSET)} t:{'x' * 16}")
        elif kind == "reads":
            out.append(f"1 pread 0 {offset} 4096")
        elif len(out) % 2 == 0:
            out.append(f"1 pwrite 0 {offset} t:{'x' * 16}")
        else:
            out.append(f"1 pread 0 {offset} 16")
    return "\n".join(out) + "\n"


def seconds(path):
    def given():
        os.dup2(os.open(path, os.O_RDONLY), 0)

    return least(RUNS, [PROGRAM, "play", "d"], preexec_fn=given)


def main():
    with tempfile.TemporaryDirectory() as folder:
        for kind in ["mixed", "growing", "reads"]:
            for lines in LINES:
                path = os.path.join(folder, "script")
                with open(path, "w", encoding="ascii") as file:
                    file.write(script(kind, lines))
                taken = seconds(path)
                print(f"{kind:>8} {lines:>6} lines {taken * 1e3:>8.1f} ms {taken * 1e9 / lines:>8.0f} ns a line")


main()
