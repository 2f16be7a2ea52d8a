/*
 * Instructions a step and a word of the loop, on the emulated board: 64 cells of real memory under each algorithm.
 * The hooks are those of template/, with a word that asks for an urgent interrupt and a barrier after each write.
 */
#include "MemTst.h"
#include "MemTst_Hooks.h"
#include "RamTst.h"
#include "port.h"

volatile uint32 urgent;

/* The instructions of one attempt. */
static uint32 instructions_of(MemTst_SliceType *slice) {
    static const volatile boolean never = FALSE;
    uint32 before = instructions();
    uint32 verdict = MemTst_Slice(slice, &never);
    uint32 after = instructions();
    if (verdict != MEMTST_PASS) put_text("it fails\n");
    return after - before;
}

/* A number with two places. */
static void put_ratio(const char *before, uint32 sum, uint32 count) {
    uint32 hundredths = (100u * (sum % count)) / count;
    put_number(before, sum / count);
    put_number(hundredths < 10u ? ".0" : ".", hundredths);
}

int main(void) {
    for (uint32 i = 0u; i < RAMTST_SETS; i++) {
        const RamTst_AlgParamsType *set = &RamTst_Config.sets[i];
        MemTst_SliceType slice = {.plan = &set->plans[set->number_of_plans - 1u], .background = set->background,
                                  .own = set->own, .droppable = TRUE};
        uint32 all = instructions_of(&slice);
        put_number("set ", i);
        put_number(", steps ", slice.plan->count);
        put_number(", instructions ", all);
        put_ratio(", a step ", all, slice.plan->count);
        put_text("\n");
    }
    return 0;
}
