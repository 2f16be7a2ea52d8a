/* The simulated memory, by the rules of docs/RULES.md. */
#include "board.h"

enum { MOST_WORDS = 65536 };

static uint64_t ram_words[MOST_WORDS], flash_words[MOST_WORDS], ones;
static struct fault fault;

static uint64_t bit_of(struct spot spot) { return (uint64_t)1 << spot.bit; }

static void set_bit(struct spot spot, int value) {
    if (value)
        ram_words[spot.word] |= bit_of(spot);
    else
        ram_words[spot.word] &= ~bit_of(spot);
}

static int holds(struct spot spot) { return (ram_words[spot.word] & bit_of(spot)) != 0; }

void memory_power_up(uint32_t ram, uint32_t flash, uint32_t width, uint64_t initial) {
    ones = width == 64 ? UINT64_MAX : ((uint64_t)1 << width) - 1;
    for (uint32_t i = 0; i < ram; i++) ram_words[i] = initial;
    for (uint32_t i = 0; i < flash; i++) flash_words[i] = ones;
    fault.kind = NO_FAULT;
}

/* What holds at every moment, and not only at a write. */
static void settle(void) {
    if (fault.kind == STUCK_AT) set_bit(fault.victim, fault.value);
    if (fault.kind == STATE && holds(fault.aggressor) == fault.holds) set_bit(fault.victim, fault.value);
}

int memory_inject(struct fault it) {
    if (fault.kind != NO_FAULT) return 0;
    fault = it;
    settle();
    return 1;
}

void memory_heal(void) { fault.kind = NO_FAULT; }

static int is_at(uint32_t number, struct spot spot) { return number == spot.word; }

static int is_coupled_by_changes(void) { return fault.kind == INVERT || fault.kind == FORCE; }

uint64_t memory_read(uint32_t number) {
    if (fault.kind >= NO_CELL && is_at(number, fault.aggressor)) {
        uint64_t own = ram_words[number], other = fault.kind == NO_CELL ? 0 : ram_words[fault.victim.word];
        if (fault.kind == NO_CELL) return fault.seen;
        if (fault.kind == INSTEAD) return other;
        return fault.wired_and ? own & other : own | other;
    }
    return ram_words[number];
}

/* A write of the cell itself, in which a transition may fail. */
static void store(uint32_t number, uint64_t word) {
    uint64_t before = ram_words[number];
    if (fault.kind == CANNOT_RISE && is_at(number, fault.victim)) word &= before | ~bit_of(fault.victim);
    if (fault.kind == CANNOT_FALL && is_at(number, fault.victim)) word |= before & bit_of(fault.victim);
    ram_words[number] = word;
    if (is_coupled_by_changes() && is_at(number, fault.aggressor)) {
        uint64_t bit = bit_of(fault.aggressor);
        int rose = !(before & bit) && (word & bit), fell = (before & bit) && !(word & bit);
        if (fault.rises ? rose : fell) set_bit(fault.victim, fault.kind == FORCE ? fault.value : !holds(fault.victim));
    }
    settle();
}

void memory_write(uint32_t number, uint64_t word) {
    int decoded = fault.kind >= NO_CELL && is_at(number, fault.aggressor);
    word &= ones;
    if (!decoded || fault.kind == ALSO) store(number, word);
    if (decoded && fault.kind != NO_CELL) store(fault.victim.word, word);
}

uint64_t flash_read(uint32_t number) { return flash_words[number]; }

void flash_write(uint32_t number, uint64_t word) { flash_words[number] = word & ones; }
