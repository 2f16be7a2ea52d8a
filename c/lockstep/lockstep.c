/*
 * The loop of the unit against the proved engine of mt_c, access by access.
 *
 * The tables have a set for each algorithm, with a plan for each number of cells from 1 to 64. Each plan is carried
 * out in a memory that is sound, and in one with each of 50 faults; with the words kept, and destroyed; and broken
 * off after each number of accesses, for up to 8 cells. Words: the most cells of a test with faults, 64 if there are
 * none.
 */
#include "MemTst.h"
#include "MemTst_Hooks.h"
#include "RamTst.h"
#include "faults.h"
#include "mt.h"

#include <stdio.h>
#include <stdlib.h>
#include <string.h>

enum { MOST_BROKEN = 8 };

static const char *const names[] = {"checkerboard", "march-c-minus", "mats-plus",
                                    "walk-path",    "galpat",        "transparent-galpat"};

/* The test under way, in the engine, and what is known of it. */
static struct mt_test engine;
static struct mt_access due;
static uint32_t reply, made, stop;
static unsigned long accesses, tests;
static const char *what;

static void fail(const char *why) {
    printf("lockstep: %s, width %d, %u cells, access %u: %s\n", what, MEMTST_WIDTH, engine.settings.count, made, why);
    exit(1);
}

uint64 lockstep_load(uint32 number) {
    if (reply != MT_READ || due.address != number) fail("another access is due than this read");
    uint64_t answer = memory_read(number);
    reply = mt_next(&engine, answer, &due);
    made++;
    return answer;
}

void lockstep_store(uint32 number, uint64 word) {
    if (reply != MT_WRITE || due.address != number || due.word != word) fail("another access is due than this write");
    memory_write(number, word);
    reply = mt_next(&engine, 0, &due);
    made++;
}

/* The loop asks where the test may be broken off, and nowhere else. */
uint32 lockstep_is_urgent(void) {
    if (made < stop) return 0;
    if (!mt_may_break_off(&engine)) fail("asked where the test may not be broken off");
    reply = mt_break_off(&engine, &due);
    return 1;
}

static void set_up_engine(const MemTst_SliceType *slice, const char *name) {
    struct mt_settings settings = {.width = MEMTST_WIDTH, .policy = slice->destructive ? MT_FILL_WORDS : MT_KEEP_WORDS,
                                   .first = slice->first, .count = slice->plan->cells,
                                   .background = slice->background, .fill = slice->fill};
    if (mt_set_up(&engine, &settings, name, strlen(name)).rule != MT_SET_UP) fail("the engine refuses the test");
    reply = mt_due(&engine, &due);
    made = 0;
}

/* The engine's reply that means the same as a verdict. */
static uint32_t reply_of(uint32_t verdict) {
    if (verdict == MEMTST_PASS) return MT_PASS;
    if (verdict == MEMTST_FAIL) return MT_FAIL;
    return verdict == MEMTST_DROPPED ? MT_BROKEN_OFF : 0;
}

/* How the test has to end, after so many accesses. */
static void compare_end(uint32_t verdict, uint32_t count) {
    if (reply != reply_of(verdict)) fail("the engine ends otherwise");
    if (made != count) fail("another number of accesses");
}

static void run(MemTst_SliceType *slice, const char *name, int fault, uint32_t stop_after, uint32_t count) {
    static const volatile boolean never = FALSE;
    what = name;
    set_up_memory(fault, slice->plan->cells);
    set_up_engine(slice, name);
    stop = stop_after;
    slice->droppable = stop_after != UINT32_MAX;
    uint32_t verdict = MemTst_Slice(slice, &never);
    compare_end(verdict, count);
    accesses += made, tests++;
}

/* Broken off after each number of accesses at which it may be. */
static void run_broken(MemTst_SliceType *slice, const char *name) {
    uint32_t cells = slice->plan->cells;
    for (uint32_t k = 1; k < cells + slice->plan->count; k++) run(slice, name, -1, k, k > cells ? k + cells : k);
}

static void run_plan(const RamTst_AlgParamsType *set, const char *name, const MemTst_PlanType *plan, uint32_t most) {
    for (int destructive = 0; destructive < (set->own ? 1 : 2); destructive++) {
        MemTst_SliceType slice = {.plan = plan, .first = FIRST, .background = set->background, .fill = FILL,
                                  .own = set->own, .destructive = (boolean)destructive};
        uint32_t count = plan->count + (destructive ? 1 : 2) * plan->cells;
        int faults = plan->cells <= most ? FAULTS : 0;
        for (int fault = -1; fault < faults; fault++) run(&slice, name, fault, UINT32_MAX, count);
        if (!destructive && plan->cells <= MOST_BROKEN) run_broken(&slice, name);
    }
}

int main(int count, char **words) {
    uint32_t most_faulty = count > 1 ? (uint32_t)atoi(words[1]) : MEMTST_MOST_CELLS;
    for (uint32_t i = 0; i < RAMTST_SETS; i++) {
        const RamTst_AlgParamsType *set = &RamTst_Config.sets[i];
        if (set->number_of_plans != MEMTST_MOST_CELLS) fail("a set lacks plans");
        for (uint32_t k = 0; k < set->number_of_plans; k++) run_plan(set, names[i], &set->plans[k], most_faulty);
    }
    printf("lockstep: width %d, %lu tests, %lu accesses\n", MEMTST_WIDTH, tests, accesses);
    return 0;
}
