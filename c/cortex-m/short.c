/*
 * The short form of lockstep, for the host and for an emulated Cortex-M3: all plans for up to 8 cells, over sound
 * memory and each of 50 faults, with the words kept and destroyed, and broken off after each number of accesses. A
 * line for each algorithm has the checksum of all accesses and verdicts. On the host the same tests are compared with
 * the proved engine by c/lockstep.
 */
#include "MemTst.h"
#include "MemTst_Hooks.h"
#include "RamTst.h"
#include "board.h"
#include "faults.h"
#include "port.h"

enum { MOST_CELLS = 8 };

static uint32 sum, made, stop;

static void note(uint32 kind, uint32 number, uint64 word) {
    sum = MemTst_CrcNumber(sum, kind, 1u);
    sum = MemTst_CrcNumber(sum, number, 4u);
    sum = MemTst_CrcNumber(sum, word, 8u);
}

uint64 lockstep_load(uint32 number) {
    uint64 answer = memory_read(number);
    note(0u, number, answer);
    made++;
    return answer;
}

void lockstep_store(uint32 number, uint64 word) {
    memory_write(number, word);
    note(1u, number, word);
    made++;
}

uint32 lockstep_is_urgent(void) { return made >= stop; }

static void run(MemTst_SliceType *slice, int fault, uint32 stop_after) {
    static const volatile boolean never = FALSE;
    set_up_memory(fault, slice->plan->cells);
    made = 0u, stop = stop_after;
    slice->droppable = stop_after != UINT32_MAX;
    uint32 verdict = MemTst_Slice(slice, &never);
    note(2u, made, verdict);
}

static void run_plan(const RamTst_AlgParamsType *set, const MemTst_PlanType *plan) {
    for (int destructive = 0; destructive < (set->own ? 1 : 2); destructive++) {
        MemTst_SliceType slice = {.plan = plan, .first = FIRST, .background = set->background, .fill = FILL,
                                  .own = set->own, .destructive = (boolean)destructive};
        for (int fault = -1; fault < FAULTS; fault++) run(&slice, fault, UINT32_MAX);
        if (!destructive)
            for (uint32 k = 1u; k < plan->cells + plan->count; k++) run(&slice, -1, k);
    }
}

int main(void) {
    for (uint32 i = 0u; i < RAMTST_SETS; i++) {
        const RamTst_AlgParamsType *set = &RamTst_Config.sets[i];
        sum = MEMTST_CRC_OF_NOTHING;
        for (uint32 k = 0u; k < MOST_CELLS; k++) run_plan(set, &set->plans[k]);
        put_number("set ", i);
        put_number(", checksum ", sum);
        put_text("\n");
    }
    return 0;
}
