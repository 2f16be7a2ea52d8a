/* The memories of lockstep: a slice with a word at each end, sound or with one of 50 faults. */
#ifndef FAULTS_H
#define FAULTS_H

#include "MemTst.h"
#include "board.h"

enum { FAULTS = 50, FIRST = 1 };

#define FILL ((MemTst_WordType)0xa5c396f00f69c35au)

/* The fault with a number, among so many words. */
static struct fault fault_of(int number, uint32_t words) {
    uint32_t seed = (uint32_t)number * 2654435761u + 12345u;
    struct fault it = {.kind = (enum fault_kind)(1 + number % 9)};
    it.aggressor = (struct spot){seed % words, (seed >> 8) % MEMTST_WIDTH};
    uint32_t other = (it.aggressor.word + 1 + (seed >> 14) % (words - 1)) % words;
    it.victim = (struct spot){other, (seed >> 20) % MEMTST_WIDTH};
    it.rises = seed >> 25 & 1, it.holds = seed >> 26 & 1, it.value = seed >> 27 & 1, it.wired_and = seed >> 28 & 1;
    it.seen = (MemTst_WordType)((uint64_t)seed * 0x9e3779b97f4a7c15u);
    return it;
}

/* A memory around a slice, with a fault unless its number is below 0. */
static void set_up_memory(int fault, uint32_t cells) {
    memory_power_up(cells + 2, 0, MEMTST_WIDTH, 0);
    for (uint32_t i = 0; i < cells + 2; i++) memory_write(i, (MemTst_WordType)((i + 1) * 0x9e3779b97f4a7c15u));
    if (fault >= 0) memory_inject(fault_of(fault, cells + 2));
}

#endif
