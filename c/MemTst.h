/* The loop that tests one slice of RAM by a plan, and the loop that compares one slice of flash with its copy. */
#ifndef MEMTST_H
#define MEMTST_H

#include "Std_Types.h"
#include "RamTst_Cfg.h"

#if MEMTST_WIDTH == 8
typedef uint8 MemTst_WordType;
#elif MEMTST_WIDTH == 16
typedef uint16 MemTst_WordType;
#elif MEMTST_WIDTH == 32
typedef uint32 MemTst_WordType;
#elif MEMTST_WIDTH == 64
typedef uint64 MemTst_WordType;
#else
#error "MEMTST_WIDTH is none of 8, 16, 32 and 64"
#endif

/* Refuses to compile where a condition does not hold. */
#define MEMTST_ASSERT(name, condition) typedef uint8 MemTst_Assert_##name[(condition) ? 1 : -1]

MEMTST_ASSERT(uint8, sizeof(uint8) == 1u);
MEMTST_ASSERT(uint16, sizeof(uint16) == 2u);
MEMTST_ASSERT(uint32, sizeof(uint32) == 4u);
MEMTST_ASSERT(uint64, sizeof(uint64) == 8u);
MEMTST_ASSERT(word, sizeof(MemTst_WordType) * 8u == MEMTST_WIDTH);

/* The most cells of a slice. */
#define MEMTST_MOST_CELLS (64u)

/* How the test of a slice ended. Each two of these words differ in 16 bits or more. */
#define MEMTST_PASS ((uint32)0x3CA5965Au)
#define MEMTST_FAIL ((uint32)0xC35A69A5u)
#define MEMTST_DROPPED ((uint32)0x3CA569A5u)
#define MEMTST_BARRED ((uint32)0xC35A965Au)

/* The bits of a step of a plan, and where its cell begins. */
#define MEMTST_STEP_FLIPPED (1u)
#define MEMTST_STEP_WRITE (2u)
#define MEMTST_STEP_CELL (2u)

/* The steps of an algorithm on so many cells: cell << 2 | write << 1 | flipped. */
typedef struct {
    const uint8 *steps;
    uint32 count;
    uint8 cells;
    uint32 checksum;
} MemTst_PlanType;

/* A slice, and how it is tested. */
typedef struct {
    const MemTst_PlanType *plan;
    uint32 first;               /* the number of the word that is cell 0 */
    MemTst_WordType background;
    MemTst_WordType fill;
    boolean own;                /* the background of a cell is the word that it held */
    boolean destructive;        /* the cells are left with the fill, and not with what they held */
    boolean droppable;          /* an urgent interrupt ends the attempt */
} MemTst_SliceType;

/*
 * Tests a slice under one lock, except if *barred is not 0 once the lock is held. Answers MEMTST_PASS, MEMTST_FAIL,
 * MEMTST_DROPPED (the words are back, and nothing is said of them) or MEMTST_BARRED (nothing was read or written).
 * Not reentrant: one call at a time.
 */
uint32 MemTst_Slice(const MemTst_SliceType *slice, const volatile boolean *barred);

/*
 * Compares so many flash words with their copy under one lock, except if *barred is not 0 once the lock is held.
 * Answers MEMTST_PASS, MEMTST_FAIL with the number of the first word that differs in *where, or MEMTST_BARRED.
 */
uint32 MemTst_Compare(uint32 first, uint32 copy, uint32 cells, const volatile boolean *barred, uint32 *where);

/*
 * CRC-32 (IEEE 802.3) of some bytes, and of a number as so many bytes, the least first: `crc` is that of what came
 * before.
 */
uint32 MemTst_Crc(uint32 crc, const uint8 *bytes, uint32 count);
uint32 MemTst_CrcNumber(uint32 crc, uint64 number, uint32 bytes);

/* The CRC of no byte. */
#define MEMTST_CRC_OF_NOTHING ((uint32)0u)

#endif
