#include "MemTst.h"
#include "MemTst_Hooks.h"

/*
 * The words that a test keeps, the backgrounds of its cells if these are not the words kept, and how far it is in its
 * plan.
 */
static MemTst_WordType MemTst_Saved[MEMTST_MOST_CELLS];
static MemTst_WordType MemTst_Backgrounds[MEMTST_MOST_CELLS];
static const uint8 *volatile MemTst_Reached;

/* What an urgent interrupt is asked for by, in an attempt that it ends and in one that it does not end. */
#define MEMTST_HEED ((uint32)0xFFFFFFFFu)
#define MEMTST_HEED_NOT ((uint32)0u)

static uint32 MemTst_Heed(const MemTst_SliceType *slice)
{
    return (slice->droppable != FALSE) ? MEMTST_HEED : MEMTST_HEED_NOT;
}

/* Saves the words. TRUE if an urgent interrupt asks meanwhile; then nothing was written. */
static boolean MemTst_Save(const MemTst_SliceType *slice)
{
    const MemTst_BaseType base = MEMTST_BASE(slice->first);
    const uint32 cells = slice->plan->cells;
    const uint32 heed = MemTst_Heed(slice);
    uint32 cell;

    for (cell = 0u; cell < cells; cell++) {
        MemTst_Saved[cell] = MEMTST_LOAD(base, cell);
        if ((MEMTST_URGENT() & heed) != 0u) {
            return TRUE;
        }
    }
    return FALSE;
}

/* Carries the plan out, as far as an urgent interrupt lets it. A plan has a step. */
static uint32 MemTst_CarryOut(const MemTst_SliceType *slice)
{
    const MemTst_BaseType base = MEMTST_BASE(slice->first);
    const uint8 *const end = &slice->plan->steps[slice->plan->count];
    const MemTst_WordType *const backgrounds = (slice->own != FALSE) ? MemTst_Saved : MemTst_Backgrounds;
    const uint32 heed = MemTst_Heed(slice);
    const uint8 *at = slice->plan->steps;
    MemTst_WordType differs = 0u;

    do {
        const uint32 step = *at;
        const uint32 cell = step >> MEMTST_STEP_CELL;
        const MemTst_WordType flip = (MemTst_WordType)(0u - (MemTst_WordType)(step & MEMTST_STEP_FLIPPED));
        const MemTst_WordType word = (MemTst_WordType)(backgrounds[cell] ^ flip);

        if ((step & MEMTST_STEP_WRITE) != 0u) {
            MEMTST_STORE(base, cell, word);
            MEMTST_BARRIER();
        } else {
            differs = (MemTst_WordType)(differs | (MEMTST_LOAD(base, cell) ^ word));
        }
        at++;
        MemTst_Reached = at;
        if (at == end) {
            return (differs == 0u) ? MEMTST_PASS : MEMTST_FAIL;
        }
    } while ((MEMTST_URGENT() & heed) == 0u);
    return MEMTST_DROPPED;
}

/* Leaves the words that were saved, or the fill. */
static void MemTst_Leave(const MemTst_SliceType *slice)
{
    const MemTst_BaseType base = MEMTST_BASE(slice->first);
    const uint32 cells = slice->plan->cells;
    const MemTst_WordType fill = slice->fill;
    uint32 cell;

    if (slice->destructive != FALSE) {
        for (cell = 0u; cell < cells; cell++) {
            MEMTST_STORE(base, cell, fill);
        }
    } else {
        for (cell = 0u; cell < cells; cell++) {
            MEMTST_STORE(base, cell, MemTst_Saved[cell]);
        }
    }
    MEMTST_BARRIER();
}

/* One attempt at a slice, under the lock. */
static uint32 MemTst_Attempt(const MemTst_SliceType *slice)
{
    uint32 verdict = MEMTST_DROPPED;

    if ((slice->destructive != FALSE) || (MemTst_Save(slice) == FALSE)) {
        verdict = MemTst_CarryOut(slice);
        MemTst_Leave(slice);
        if ((verdict == MEMTST_PASS) && (MemTst_Reached != &slice->plan->steps[slice->plan->count])) {
            verdict = MEMTST_FAIL;
        }
    }
    return verdict;
}

/* Lays out the background of each cell, before the lock. */
static void MemTst_LayOut(const MemTst_SliceType *slice)
{
    const uint32 cells = slice->plan->cells;
    uint32 cell;

    for (cell = 0u; cell < cells; cell++) {
        MemTst_Backgrounds[cell] = slice->background;
    }
}

uint32 MemTst_Slice(const MemTst_SliceType *slice, const volatile boolean *barred)
{
    uint32 verdict = MEMTST_BARRED;

    MemTst_LayOut(slice);
    MEMTST_ENTER();
    if (*barred == FALSE) {
        verdict = MemTst_Attempt(slice);
    }
    MEMTST_EXIT();
    return verdict;
}

/* Compares the words, under the lock. */
static uint32 MemTst_Pairs(uint32 first, uint32 copy, uint32 cells, uint32 *where)
{
    uint32 verdict = MEMTST_PASS;
    uint32 made = 0u;

    while (made < cells) {
        const MemTst_WordType word = MEMTST_FLASH_LOAD(first + made);
        const MemTst_WordType other = MEMTST_FLASH_LOAD(copy + made);

        if ((word != other) && (verdict == MEMTST_PASS)) {
            verdict = MEMTST_FAIL;
            *where = first + made;
        }
        made++;
    }
    return verdict;
}

uint32 MemTst_Compare(uint32 first, uint32 copy, uint32 cells, const volatile boolean *barred, uint32 *where)
{
    uint32 verdict = MEMTST_BARRED;

    MEMTST_ENTER();
    if (*barred == FALSE) {
        verdict = MemTst_Pairs(first, copy, cells, where);
    }
    MEMTST_EXIT();
    return verdict;
}

/* The polynomial of CRC-32, the least power first. */
#define MEMTST_CRC_POLYNOMIAL ((uint32)0xEDB88320u)

static uint32 MemTst_CrcByte(uint32 state, uint8 byte)
{
    uint32 next = state ^ byte;
    uint32 bit;

    for (bit = 0u; bit < 8u; bit++) {
        next = (next >> 1) ^ (MEMTST_CRC_POLYNOMIAL & (0u - (next & 1u)));
    }
    return next;
}

uint32 MemTst_Crc(uint32 crc, const uint8 *bytes, uint32 count)
{
    uint32 state = ~crc;
    uint32 at;

    for (at = 0u; at < count; at++) {
        state = MemTst_CrcByte(state, bytes[at]);
    }
    return ~state;
}

uint32 MemTst_CrcNumber(uint32 crc, uint64 number, uint32 bytes)
{
    uint32 state = ~crc;
    uint64 left = number;
    uint32 at;

    for (at = 0u; at < bytes; at++) {
        state = MemTst_CrcByte(state, (uint8)(left & 0xFFu));
        left >>= 8;
    }
    return ~state;
}
