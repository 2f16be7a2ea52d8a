/* A simulated memory with at most one fault, its interrupts, and the requests of an event. */
#ifndef BOARD_H
#define BOARD_H

#include <stdint.h>

/* The nine faults: docs/RULES.md has their rules. */
enum fault_kind {
    NO_FAULT, STUCK_AT, CANNOT_RISE, CANNOT_FALL, INVERT, FORCE, STATE, NO_CELL, ALSO, INSTEAD
};

struct spot {
    uint32_t word;
    uint32_t bit;
};

struct fault {
    enum fault_kind kind;
    struct spot aggressor;  /* of a decoder fault, `word` alone: the address */
    struct spot victim;     /* of a decoder fault, `word` alone: the other address */
    int rises;              /* which change of the aggressor counts */
    int holds;              /* the state of the aggressor */
    int value;              /* the value of the victim */
    int wired_and;          /* a read answers the AND of both words, and not the OR */
    uint64_t seen;          /* what a read of no cell answers */
};

/* The memory as the application sees it. */
uint64_t memory_read(uint32_t number);
void memory_write(uint32_t number, uint64_t word);
uint64_t flash_read(uint32_t number);
void flash_write(uint32_t number, uint64_t word);

/* Powers up: each RAM word holds this one, each flash word has all bits one, and nothing is faulty. */
void memory_power_up(uint32_t ram, uint32_t flash, uint32_t width, uint64_t initial);

/* Puts a fault in, or answers 0 if one is there. */
int memory_inject(struct fault fault);
void memory_heal(void);

/* ---- what the hooks call */

void board_lock(void);
void board_unlock(void);
uint32_t board_is_urgent(void);
uint64_t board_load(uint32_t number);
void board_store(uint32_t number, uint64_t word);
uint64_t board_load_flash(uint32_t number);
void board_enter(void);
void board_exit(void);
void board_refuse(uint32_t service, uint32_t error);

#endif
