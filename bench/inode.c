/* The copies that a write of a block demands of devices in memory, which keep each byte twice: what was
   written last, and what is durable. The slot of the log takes its header and the payload, and is persisted;
   its gate is opened and persisted; the block takes the payload from the slot, and is flushed; and the gate is
   closed and persisted. `inode N` does so N times, over and over a file of 256 blocks. */
#include <stdint.h>
#include <stdio.h>
#include <stdlib.h>
#include <string.h>

enum { BLOCKS = 256, BLOCK = 4096, HEADER = 6, WORDS = HEADER + BLOCK / 8 };

static unsigned char payload[BLOCK];
static uint64_t present_slot[WORDS], durable_slot[WORDS];
static unsigned char *present_block[BLOCKS], *durable_block[BLOCKS];

/* What was done before stands in memory. */
static void settle(void) {
    __asm__ volatile("" : : : "memory");
}

static void set_gate(uint64_t place) {
    present_slot[0] = place;
    settle();
    durable_slot[0] = present_slot[0];
    settle();
}

static void write_block(uint64_t place) {
    unsigned at = place % BLOCKS;
    uint64_t header[HEADER] = {0, 0, 2, (uint64_t)at * BLOCK, 65536 + BLOCK, 1};
    memcpy(present_slot, header, sizeof header);
    memcpy(present_slot + HEADER, payload, BLOCK);
    settle();
    memcpy(durable_slot, present_slot, sizeof present_slot);
    settle();
    set_gate(place);
    memcpy(present_block[at], present_slot + HEADER, BLOCK);
    settle();
    memcpy(durable_block[at], present_block[at], BLOCK);
    settle();
    set_gate(0);
}

int main(int argc, char **argv) {
    uint64_t count = argc > 1 ? strtoull(argv[1], 0, 10) : 0;
    memset(payload, 'x', sizeof payload);
    for (unsigned at = 0; at < BLOCKS; at++) {
        present_block[at] = calloc(1, BLOCK);
        durable_block[at] = calloc(1, BLOCK);
        if (!present_block[at] || !durable_block[at])
            return 1;
    }
    for (uint64_t place = 1; place <= count; place++)
        write_block(place);
    printf("%llu requests\n", (unsigned long long)count);
    return 0;
}
