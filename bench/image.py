#!/usr/bin/env python3
"""Times the reading and writing of the largest image in memory, in milliseconds, beside `cp` of a file of its size.

`cfs_bench image BLOCKS QUEUES N` makes an image, and reads and writes it N times. Two counts are timed, and
the difference is divided by the difference of the counts, so that starting the program and making the image
do not count. A C loop is timed in the same way, which takes the same memory piece by piece and copies the same
bytes: each object's into two copies, and one of these into a new image. What it costs is what the memory
costs. Build the program first (`rt ci` does, and `rt run -- 10` in crates/cfs_bench), then run
`bench/image.py [PROGRAM]`.
"""
import os
import sys
import tempfile

from timing import compiled, least, round_of

TOP = os.path.dirname(os.path.dirname(os.path.abspath(__file__)))
PROGRAM = sys.argv[1] if len(sys.argv) > 1 else os.path.join(TOP, "crates/cfs_bench/out/cfs_bench")
BLOCKS, QUEUES, BYTES = 16384, 64, 71542328
FEW, MANY = 1, 11
RUNS = 5

COPIES = r"""
#include <stdio.h>
#include <stdlib.h>
#include <string.h>

struct object { unsigned char *present, *durable, *bits; };

static size_t bytes_of(size_t k, size_t regions) {
    if (k >= regions) return 4096;
    return 8 * (k < 1 ? 1 : k < 3 ? 3073 : k < 67 ? 15 : k < 323 ? 1 : 518);
}

int main(int argc, char **argv) {
    size_t blocks = 16384, regions = 323 + 16 * 64, objects = regions + blocks;
    size_t bytes = 59448 + 66304 * 64 + 4104 * blocks;
    unsigned long count = strtoul(argv[1], 0, 10);
    unsigned char *image = malloc(bytes);
    memset(image, 1, bytes);
    for (unsigned long n = 0; n < count; n++) {
        struct object *all = malloc(objects * sizeof *all);
        size_t at = 32;
        for (size_t k = 0; k < objects; k++) {
            size_t len = bytes_of(k, regions);
            at += k < regions ? 0 : 8;
            all[k].present = malloc(len);
            memcpy(all[k].present, image + at, len);
            all[k].durable = malloc(len);
            memcpy(all[k].durable, all[k].present, len);
            all[k].bits = k < regions ? 0 : calloc(64, 8);
            at += len;
        }
        unsigned char *next = malloc(bytes);
        memcpy(next, image, 32);
        at = 32;
        for (size_t k = 0; k < objects; k++) {
            size_t len = bytes_of(k, regions);
            if (k >= regions) { memset(next + at, 0, 8); at += 8; }
            memcpy(next + at, all[k].present, len);
            at += len;
            free(all[k].present);
            free(all[k].durable);
            free(all[k].bits);
        }
        free(all);
        free(image);
        image = next;
    }
    printf("%lu images of %zu bytes, %d\n", count, bytes, image[bytes / 2]);
    return 0;
}
"""


def main():
    with tempfile.TemporaryDirectory() as folder:
        image, other = os.path.join(folder, "image"), os.path.join(folder, "other")
        with open(image, "wb") as file:
            file.write(os.urandom(BYTES))
        program = round_of(RUNS, [PROGRAM, "image", str(BLOCKS), str(QUEUES)], FEW, MANY) * 1e3
        loop = round_of(RUNS, [compiled(COPIES, folder)], FEW, MANY) * 1e3
        copied = least(RUNS, ["cp", image, other]) * 1e3
        print(f"an image read and written  {program:8.1f} ms")
        print(f"its file copied by cp      {copied:8.1f} ms")
        print(f"its bytes copied in C      {loop:8.1f} ms")
        print(f"ratio to cp                {program / copied:8.1f}")
        print(f"ratio to the copies in C   {program / loop:8.1f}")


main()
