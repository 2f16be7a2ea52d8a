/* A RAM of 64 words is tested in slices of 8, while an application uses it in between. */
#include "../../include/mt.h"

#include <inttypes.h>
#include <stdio.h>
#include <string.h>

#define WORDS 64
#define SLICE 8

static volatile uint32_t ram[WORDS];

/* A defect of the simulated RAM: a bit of a word that reads as 1, whatever was written. The address WORDS stands for no defect. */
static uint32_t stuck_address = WORDS, stuck_bit;

/* Whether interrupts are locked, and after how many accesses an urgent one asks. */
static int locked;
static uint32_t accesses, urgent_at = UINT32_MAX;

static void lock(void) { locked = 1; }

static void unlock(void) { locked = 0; }

static uint64_t load(uint32_t address) {
    uint32_t word = ram[address];
    return address == stuck_address ? word | stuck_bit : word;
}

/* Makes an access that is due, and returns what it answered. */
static uint64_t make(uint32_t reply, const struct mt_access *access) {
    accesses++;
    if (reply == MT_READ) return load(access->address);
    ram[access->address] = (uint32_t)access->word;
    return 0;
}

static int is_access(uint32_t reply) { return reply == MT_READ || reply == MT_WRITE; }

/* Tests a slice under one lock, and breaks it off when an urgent interrupt asks. */
static uint32_t test_slice(uint32_t first) {
    static const char march[] = "march-c-minus";
    struct mt_settings settings = {.width = 32, .policy = MT_KEEP_WORDS, .first = first, .count = SLICE};
    struct mt_test test;
    struct mt_access access;
    struct mt_refusal refusal = mt_set_up(&test, &settings, march, sizeof march - 1);
    if (refusal.rule != MT_SET_UP) return MT_SPOILT;
    lock();
    uint32_t reply = mt_due(&test, &access);
    while (is_access(reply)) {
        reply = mt_next(&test, make(reply, &access), &access);
        if (accesses >= urgent_at && mt_may_break_off(&test)) reply = mt_break_off(&test, &access);
    }
    unlock();
    return reply;
}

/* The application: it writes a new value to each word, and checks that the words are those that it wrote. */
static uint32_t model[WORDS];

static void application(void) {
    for (uint32_t address = 0; address < WORDS; address++) {
        model[address] = model[address] * 1664525u + address + 1u;
        ram[address] = model[address];
    }
}

static int words_stay(void) {
    for (uint32_t address = 0; address < WORDS; address++)
        if (ram[address] != model[address]) return 0;
    return !locked;
}

static const char *name(uint32_t reply) {
    static const char *const names[] = {"?", "read", "write", "pass", "fail", "broken off", "no word", "too late", "spoilt"};
    return names[reply <= MT_SPOILT ? reply : 0];
}

/* One pass over the RAM, with the application at work between two slices. */
static void pass(const char *title) {
    printf("%s:", title);
    for (uint32_t first = 0; first < WORDS; first += SLICE) {
        application();
        printf(" %s", name(test_slice(first)));
        if (!words_stay()) printf(" (words changed)");
    }
    printf("\n");
}

int main(void) {
    pass("sound");

    stuck_address = 19, stuck_bit = 1u << 5;
    application();
    printf("bit 5 of word 19 stuck at 1: %s\n", name(test_slice(16)));
    stuck_address = WORDS;

    application();
    accesses = 0, urgent_at = 50;
    printf("urgent after 50 accesses: %s", name(test_slice(24)));
    printf(" after %" PRIu32 " accesses, words %s\n", accesses, words_stay() ? "back" : "lost");
    urgent_at = UINT32_MAX;
    pass("again");
    return 0;
}
