#!/usr/bin/env python3
"""Times the reading and printing of scripts of 16 MiB and 65,536 lines, in MB/s.

`cfs_bench read SCRIPT N` reads a script N times, and `cfs_bench print SCRIPT N` reads it once and prints
it N times. Two counts are timed, and the difference is divided by the difference of the counts, so that
starting the program and reading the file do not count. Both the clock and the processor's time are told: the
clock says little while other work is done beside. Reading counts the bytes of the script, printing those
of its canonical text. Beside them a C loop copies the same bytes line by line, each into memory of its
own: what it costs is what the memory costs. Build the program first (`rt ci` does, and `rt run -- 10` in
crates/cfs_bench), then run `bench/script.py [PROGRAM]`.
"""
import os
import resource
import subprocess
import sys
import tempfile
import time

from timing import compiled

TOP = os.path.dirname(os.path.dirname(os.path.abspath(__file__)))
PROGRAM = sys.argv[1] if len(sys.argv) > 1 else os.path.join(TOP, "crates/cfs_bench/out/cfs_bench")
BYTES, LINES = 16 * 1024 * 1024, 65_536
LAST_OFFSET = 1_044_480
FEW, MANY = 1, 11
RUNS = 5

COPIES = r"""
#include <stdio.h>
#include <stdlib.h>
#include <string.h>

int main(int argc, char **argv) {
    FILE *file = fopen(argv[1], "rb");
    unsigned long count = strtoul(argv[2], 0, 10), lines = 0;
    unsigned char *bytes = malloc(16 * 1024 * 1024), **copies = malloc(65536 * sizeof *copies);
    size_t len = fread(bytes, 1, 16 * 1024 * 1024, file);
    for (unsigned long n = 0; n < count; n++) {
        lines = 0;
        for (size_t at = 0; at < len; lines++) {
            unsigned char *end = memchr(bytes + at, '\n', len - at);
            size_t size = end - (bytes + at) + 1;
            copies[lines] = malloc(size);
            memcpy(copies[lines], bytes + at, size);
            at += size;
        }
        for (size_t k = 0; k < lines; k++) free(copies[k]);
    }
    printf("%lu times %lu lines\n", count, lines);
    return 0;
}
"""


def script(mark, byte):
    """A script of as many bytes and lines as there may be, nearly all of them writes with data of one spelling. Where
    a byte takes two digits, the whole may lack one byte."""
    lines = ["caller 1 10 10", "1 open /a rwc 0644"]
    left = BYTES - sum(len(line) + 1 for line in lines)
    while len(lines) < LINES:
        front = f"1 pwrite 0 {16 * len(lines) % LAST_OFFSET} {mark}"
        count = (left // (LINES - len(lines)) - 1 - len(front)) // len(byte)
        lines.append(front + byte * count)
        left -= len(lines[-1]) + 1
    return "\n".join(lines) + "\n"


def canonical_len(text):
    """The length of the canonical text of such a script: two digits a byte."""
    marked = sum(len(line) - line.index("t:") - 2 for line in text.split("\n") if " t:" in line)
    return len(text) + marked


def taken(words):
    """The time of one run, in seconds by the clock and of the processor."""
    clock, before = time.perf_counter(), resource.getrusage(resource.RUSAGE_CHILDREN)
    subprocess.run(words, check=True, stdout=subprocess.DEVNULL)
    after = resource.getrusage(resource.RUSAGE_CHILDREN)
    return time.perf_counter() - clock, after.ru_utime + after.ru_stime - before.ru_utime - before.ru_stime


def rates(size, words):
    """The least times of several runs, of one round each, as MB/s of so many bytes."""
    few = [taken(words + [str(FEW)]) for _ in range(RUNS)]
    many = [taken(words + [str(MANY)]) for _ in range(RUNS)]
    rounds = [(min(most) - min(least)) / (MANY - FEW) for most, least in zip(zip(*many), zip(*few))]
    return "".join(f"{size / seconds / 1e6:8.0f}" for seconds in rounds)


def main():
    with tempfile.TemporaryDirectory() as folder:
        copies = compiled(COPIES, folder)
        path = os.path.join(folder, "script")
        for kind, mark, byte in [("text", "t:", "x"), ("hexadecimal", "h:", "5a")]:
            text = script(mark, byte)
            with open(path, "w", encoding="ascii") as file:
                file.write(text)
            print(f"{kind}, {len(text)} bytes: MB/s by the clock and of the processor's time")
            print("  read       ", rates(len(text), [PROGRAM, "read", path]))
            print("  printed    ", rates(canonical_len(text), [PROGRAM, "print", path]))
            print("  copied in C", rates(len(text), [copies, path]))


main()
