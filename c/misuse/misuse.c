/*
 * Calls that no script makes, over the tables of c/misuse/misuse.job: pointers to nothing, tables that are not as
 * they were generated, services that preempt a running call and may not, and a plan that is left before its end. A
 * line for each that is not answered as it has to be.
 */
#include "MemTst.h"
#include "MemTst_Hooks.h"

/* The loop itself, so that its own words can be spoilt. */
#include "../MemTst.c"

#include "FlsTst.h"
#include "RamTst.h"

#include <stdio.h>

MemTst_WordType misuse_ram[MEMTST_RAM_WORDS];
MemTst_WordType misuse_flash[MEMTST_FLASH_WORDS + 1u];
uint32 misuse_error;

static int wrong;
static void (*inside)(void), (*outside)(void);

void misuse_inside(void) {
    if (inside) inside();
}

void misuse_outside(void) {
    if (outside) outside();
}

static void expect(const char *what, int holds) {
    if (!holds) wrong = 1, printf("misuse: %s\n", what);
}

/* Whether a call reported this error; 0 is none. */
static void reports(const char *what, uint32 error) {
    expect(what, misuse_error == error);
    misuse_error = 0;
}

/* ---- tables that are not as they were generated */

static RamTst_ConfigType ram;
static RamTst_AlgParamsType sets[RAMTST_SETS];
static RamTst_CellType ram_cells[RAMTST_SERVICES * RAMTST_STATES];
static MemTst_PlanType plans[2];
static RamTst_BlockType block;

static void copy_ram(void) {
    ram = RamTst_Config;
    for (uint32 i = 0; i < RAMTST_SETS; i++) sets[i] = RamTst_Config.sets[i];
    for (uint32 i = 0; i < RAMTST_SERVICES * RAMTST_STATES; i++) ram_cells[i] = RamTst_Config.cells[i];
    plans[0] = sets[1].plans[0], plans[1] = sets[1].plans[1];
    block = sets[1].blocks[0];
    sets[1].plans = plans;
    sets[1].blocks = &block;
    ram.sets = sets;
    ram.cells = ram_cells;
}

static void refuses_ram(const char *what) {
    RamTst_Init(&ram);
    reports(what, RAMTST_E_CHECKSUM);
    expect(what, RamTst_GetExecutionStatus() == RAMTST_EXECUTION_UNINIT);
    copy_ram();
}

static void spoilt_ram(void) {
    static uint8 steps[64];
    copy_ram();
    sets[0].atomic++, refuses_ram("a set");
    sets[1].background++, refuses_ram("a background");
    sets[1].number_of_blocks = 65, refuses_ram("too many blocks");
    block.fill++, refuses_ram("a block");
    plans[0].cells++, refuses_ram("the cells of a plan");
    plans[1].count--, refuses_ram("the length of a plan");
    for (uint32 i = 0; i < plans[1].count; i++) steps[i] = plans[1].steps[i];
    steps[3] ^= 1u, plans[1].steps = steps, refuses_ram("a step");
    ram_cells[7].next++, refuses_ram("a next state");
    ram_cells[100].reply++, refuses_ram("a reply");
    ram.number_of_sets--, refuses_ram("one set fewer");
    ram.checksum++, refuses_ram("a checksum");
    RamTst_Init(&ram), reports("an equal copy", 0);
    RamTst_DeInit();
}

static FlsTst_ConfigType fls;
static FlsTst_CellType fls_cells[FLSTST_SERVICES * FLSTST_STATES];
static FlsTst_BlockType flash_block;

static void copy_fls(void) {
    fls = FlsTst_Config;
    for (uint32 i = 0; i < FLSTST_SERVICES * FLSTST_STATES; i++) fls_cells[i] = FlsTst_Config.table[i];
    flash_block = fls.bgnd[0];
    fls.bgnd = &flash_block;
    fls.table = fls_cells;
}

static void refuses_fls(const char *what) {
    FlsTst_Init(&fls);
    reports(what, FLSTST_E_CHECKSUM);
    expect(what, FlsTst_GetCurrentState() == FLSTST_UNINIT);
    copy_fls();
}

static void spoilt_fls(void) {
    copy_fls();
    fls.interval_end++, refuses_fls("the end of intervals");
    flash_block.copy++, refuses_fls("a copy");
    fls_cells[20].reply++, refuses_fls("a flash reply");
    fls_cells[71].next++, refuses_fls("a next flash state");
    FlsTst_Init(&fls), reports("an equal flash copy", 0);
    FlsTst_DeInit();
}

/* ---- pointers to nothing */

static void no_pointers(void) {
    RamTst_Init(NULL_PTR), reports("Init of nothing", RAMTST_E_PARAM_POINTER);
    RamTst_GetVersionInfo(NULL_PTR), reports("the version to nothing", RAMTST_E_PARAM_POINTER);
    FlsTst_Init(NULL_PTR), reports("Init of no flash", FLSTST_E_PARAM_POINTER);
    FlsTst_GetVersionInfo(NULL_PTR), reports("the flash version to nothing", FLSTST_E_PARAM_POINTER);
}

/* ---- what is answered beside a refusal, and before there is a result */

static void refused_values(void) {
    expect("no set in UNINIT", RamTst_GetAlgParams() == 0u);
    expect("no cells in UNINIT", RamTst_GetNumberOfTestedCells() == 0u);
    expect("no algorithm in UNINIT", RamTst_GetTestAlgorithm() == RAMTST_ALGORITHM_UNDEFINED);
    expect("no result in UNINIT", RamTst_GetTestResult() == RAMTST_RESULT_UNDEFINED);
    expect("no result of a block in UNINIT", RamTst_GetTestResultPerBlock(0) == RAMTST_RESULT_UNDEFINED);
    expect("no flash result in UNINIT", FlsTst_GetTestResultFgnd() == FLSTST_RESULT_NOT_TESTED);
    for (int initialised = 0; initialised < 2; initialised++) {
        FlsTst_TestResultBgndType last = FlsTst_GetTestResultBgnd();
        FlsTst_ErrorDetailsType details = FlsTst_GetErrorDetails();
        expect("no interval", last.id == 0u && last.result == FLSTST_RESULT_NOT_TESTED);
        expect("no details", details.kind == FLSTST_NO_ERROR && details.block == 0u && details.word == 0u);
        FlsTst_Init(&FlsTst_Config);
    }
    FlsTst_DeInit();
    misuse_error = 0;
}

/* ---- services that preempt a running call */

static void preempt_ram(void) {
    outside = NULL;
    RamTst_Init(&RamTst_Config), reports("Init preempts", RAMTST_E_BUSY);
    RamTst_DeInit(), reports("DeInit preempts", RAMTST_E_BUSY);
    RamTst_SelectAlgParams(1), reports("SelectAlgParams preempts", RAMTST_E_BUSY);
    RamTst_ChangeNumberOfTestedCells(4), reports("ChangeNumberOfTestedCells preempts", RAMTST_E_BUSY);
    RamTst_RunFullTest(), reports("RunFullTest preempts", RAMTST_E_BUSY);
    RamTst_RunPartialTest(0), reports("RunPartialTest preempts", RAMTST_E_BUSY);
    RamTst_MainFunction(), reports("MainFunction preempts", RAMTST_E_BUSY);
    expect("the test goes on", RamTst_GetExecutionStatus() == RAMTST_EXECUTION_RUNNING);
}

static void busy_ram(void) {
    RamTst_Init(&RamTst_Config);
    outside = preempt_ram;
    RamTst_RunFullTest(), reports("a test that was preempted", 0);
    expect("it passed", RamTst_GetTestResult() == RAMTST_RESULT_OK);
    RamTst_MainFunction(), reports("a tick afterwards", 0);
    RamTst_DeInit();
}

static void preempt_fls(void) {
    outside = NULL;
    FlsTst_Init(&FlsTst_Config), reports("Init preempts in flash", FLSTST_E_BUSY);
    FlsTst_DeInit(), reports("DeInit preempts in flash", FLSTST_E_BUSY);
    expect("StartFgnd preempts", FlsTst_StartFgnd(0) == E_NOT_OK), reports("StartFgnd preempts", FLSTST_E_BUSY);
    FlsTst_MainFunction(), reports("MainFunction preempts in flash", FLSTST_E_BUSY);
}

static void busy_fls(void) {
    FlsTst_Init(&FlsTst_Config);
    outside = preempt_fls;
    FlsTst_MainFunction(), reports("a comparison that was preempted", 0);
    expect("it was made", FlsTst_GetCurrentState() == FLSTST_RUNNING);
    FlsTst_DeInit();
}

/* ---- services that preempt between a sequence and what it leaves */

static int locks;

static void stop_and_allow(void) {
    outside = NULL;
    RamTst_Stop(), RamTst_Allow();
}

static void suspend(void) {
    locks++;
    if (locks == 1) RamTst_Suspend();
}

static void abort_flash(void) {
    locks++;
    if (locks == 1) FlsTst_Abort();
}

/* The pass was begun anew in its first slice, so that its position stays at its start. */
static void dropped_pass(void) {
    RamTst_Init(&RamTst_Config), RamTst_ChangeNumberOfTestedCells(2), RamTst_Allow();
    outside = stop_and_allow;
    RamTst_MainFunction();
    RamTst_MainFunction();
    expect("one slice of the first block", RamTst_GetTestResultPerBlock(0) == RAMTST_RESULT_UNDEFINED);
    RamTst_MainFunction();
    expect("both slices of the first block", RamTst_GetTestResultPerBlock(0) == RAMTST_RESULT_OK);
    expect("none of the second", RamTst_GetTestResultPerBlock(1) == RAMTST_RESULT_NOT_TESTED);
    RamTst_DeInit();
}

/* A group that was suspended in its first slice tries one more lock, under which it finds that, and none after it. */
static void barred_groups(void) {
    RamTst_Init(&RamTst_Config), RamTst_ChangeNumberOfTestedCells(65536), RamTst_Allow();
    locks = 0, outside = suspend;
    RamTst_MainFunction();
    expect("two locks", locks == 2);
    expect("suspended", RamTst_GetExecutionStatus() == RAMTST_EXECUTION_SUSPENDED);
    expect("one slice was tested", RamTst_GetTestResultPerBlock(0) == RAMTST_RESULT_UNDEFINED);
    RamTst_DeInit();
    FlsTst_Init(&FlsTst_Config);
    locks = 0, outside = abort_flash;
    FlsTst_MainFunction();
    expect("two locks of flash", locks == 2);
    expect("aborted", FlsTst_GetCurrentState() == FLSTST_ABORTED);
    outside = NULL;
    FlsTst_DeInit();
    misuse_error = 0;
}

/* ---- a plan that is left before its end */

static void leave_early(void) { MemTst_Reached = RamTst_Config.sets[0].plans[0].steps; }

static void unfinished_plan(void) {
    RamTst_Init(&RamTst_Config);
    inside = leave_early;
    RamTst_RunPartialTest(0);
    inside = NULL;
    expect("a plan that is left fails", RamTst_GetTestResultPerBlock(0) == RAMTST_RESULT_NOT_OK);
    RamTst_DeInit();
}

/* ---- the words of a verdict, and the checksum's own check value */

static int bits_apart(uint32 one, uint32 other) {
    int count = 0;
    for (uint32 left = one ^ other; left; left &= left - 1) count++;
    return count;
}

static void numbers(void) {
    static const uint32 words[] = {MEMTST_PASS, MEMTST_FAIL, MEMTST_DROPPED, MEMTST_BARRED};
    static const uint8 check[] = {'1', '2', '3', '4', '5', '6', '7', '8', '9'};
    for (int i = 0; i < 4; i++)
        for (int k = 0; k < i; k++) expect("verdicts are far apart", bits_apart(words[i], words[k]) >= 16);
    expect("the check value of CRC-32", MemTst_Crc(MEMTST_CRC_OF_NOTHING, check, 9) == 0xCBF43926u);
}

int main(void) {
    expect("UNINIT at first", RamTst_GetExecutionStatus() == RAMTST_EXECUTION_UNINIT);
    expect("flash UNINIT at first", FlsTst_GetCurrentState() == FLSTST_UNINIT);
    no_pointers();
    refused_values();
    spoilt_ram();
    spoilt_fls();
    busy_ram();
    busy_fls();
    dropped_pass();
    barred_groups();
    unfinished_plan();
    numbers();
    return wrong;
}
