#!/usr/bin/env python3
"""Times a request's way through its slots in memory, in nanoseconds, beside a C loop that copies its bytes.

`cfs_bench N` stages, opens and closes N requests of 4096 bytes, and `cfs_bench long N` such of 65,536 bytes
in 16 slots. Two counts are timed, and the difference is divided by the difference of the counts, so that
starting the program does not count. The C loop copies the same bytes twice a request, slot by slot, since a
region keeps a durable and a present copy.
Build the program first (`rt ci` does, and `rt run -- 10` in crates/cfs_bench), then run `bench/slots.py [PROGRAM]`.
"""
import os
import sys
import tempfile

from timing import compiled, round_of

TOP = os.path.dirname(os.path.dirname(os.path.abspath(__file__)))
PROGRAM = sys.argv[1] if len(sys.argv) > 1 else os.path.join(TOP, "crates/cfs_bench/out/cfs_bench")
SIZES = [(1, [], 100_000, 1_100_000), (16, ["long"], 6_000, 66_000)]
RUNS = 7

COPIES = r"""
#include <stdio.h>
#include <stdlib.h>
#include <string.h>

static unsigned char payload[16][4096], present[16][4144], durable[16][4144];

int main(int argc, char **argv) {
    unsigned long slots = strtoul(argv[1], 0, 10), count = strtoul(argv[2], 0, 10);
    memset(payload, 'x', sizeof payload);
    for (unsigned long i = 0; i < count; i++) {
        for (unsigned long s = 0; s < slots; s++) {
            payload[s][i % sizeof payload[s]] ^= 1;
            memcpy(present[s] + 48, payload[s], sizeof payload[s]);
            __asm__ volatile("" : : "r"(present[s]) : "memory");
            memcpy(durable[s], present[s], sizeof present[s]);
            __asm__ volatile("" : : "r"(durable[s]) : "memory");
        }
    }
    printf("%lu requests\n", count);
    return 0;
}
"""


def main():
    with tempfile.TemporaryDirectory() as folder:
        copies = compiled(COPIES, folder)
        for slots, words, few, many in SIZES:
            slot = round_of(RUNS, [PROGRAM, *words], few, many) * 1e9
            copy = round_of(RUNS, [copies, str(slots)], few, many) * 1e9
            print(f"a request of {4096 * slots:6} bytes  {slot:8.0f} ns")
            print(f"its bytes copied twice  {copy:8.0f} ns")
            print(f"ratio                   {slot / copy:8.1f}")


main()
