#include "RamTst.h"
#include "MemTst_Hooks.h"

/* The test of a block that is under way: the next slice, and whether a slice of this test has failed. */
typedef struct {
    uint32 block;
    uint32 slice;
    boolean failed;
} RamTst_TestType;

/* What is kept between calls. All of it is 0 in UNINIT, as .bss has it. */
static const RamTst_ConfigType *RamTst_Taken;
static volatile uint8 RamTst_State;
static volatile boolean RamTst_Busy;   /* a running call is under way */
static volatile boolean RamTst_Mark;   /* a Stop or a Suspend was accepted in this event */
static volatile boolean RamTst_Begun;  /* the pass was stopped since the group began */
static RamTst_TestType RamTst_Pass;    /* the position, and what is kept for the pass */
static uint32 RamTst_Selected;
static uint32 RamTst_Cells;
static volatile uint8 RamTst_Results[RAMTST_MOST_BLOCKS];

static const RamTst_AlgParamsType *RamTst_Set(void)
{
    return &RamTst_Taken->sets[RamTst_Selected];
}

/* ---- the state table */

/* The cell of a service in the state of the moment. */
static const RamTst_CellType *RamTst_CellOf(uint8 service)
{
    return &RamTst_Config.cells[((uint32)service * RAMTST_STATES) + RamTst_State];
}

/* Reports a refusal by the state table. TRUE if the call is taken. */
static boolean RamTst_IsTaken(uint8 service, uint8 reply)
{
    const boolean taken = ((reply == RAMTST_REPLY_TAKEN) || (reply == RAMTST_REPLY_RESTS)) ? TRUE : FALSE;

    if (taken == FALSE) {
        RAMTST_DET(service, reply);
    }
    return taken;
}

/* Looks a service up that leaves the state as it is. TRUE if it is taken. */
static boolean RamTst_Looks(uint8 service)
{
    return RamTst_IsTaken(service, RamTst_CellOf(service)->reply);
}

/* Reports a service that may not preempt a running call. TRUE if none is under way. */
static boolean RamTst_IsFree(uint8 service)
{
    const boolean free = (RamTst_Busy == FALSE) ? TRUE : FALSE;

    if (free == FALSE) {
        RAMTST_DET(service, RAMTST_E_BUSY);
    }
    return free;
}

/* ---- the tables as they were generated */

/* How many bytes a field has in the checksum of its table. */
#define RAMTST_FIELD (8u)

/* The checksum of a set's fields and blocks, each as eight bytes. */
static uint32 RamTst_SetSum(const RamTst_AlgParamsType *set)
{
    uint32 crc = MEMTST_CRC_OF_NOTHING;
    uint32 at;

    crc = MemTst_CrcNumber(crc, set->algorithm, RAMTST_FIELD);
    crc = MemTst_CrcNumber(crc, set->own, RAMTST_FIELD);
    crc = MemTst_CrcNumber(crc, set->background, RAMTST_FIELD);
    crc = MemTst_CrcNumber(crc, set->atomic, RAMTST_FIELD);
    crc = MemTst_CrcNumber(crc, set->cells, RAMTST_FIELD);
    crc = MemTst_CrcNumber(crc, set->retries, RAMTST_FIELD);
    crc = MemTst_CrcNumber(crc, set->full, RAMTST_FIELD);
    crc = MemTst_CrcNumber(crc, set->number_of_plans, RAMTST_FIELD);
    crc = MemTst_CrcNumber(crc, set->number_of_blocks, RAMTST_FIELD);
    for (at = 0u; at < set->number_of_blocks; at++) {
        const RamTst_BlockType *block = &set->blocks[at];
        crc = MemTst_CrcNumber(crc, block->first, RAMTST_FIELD);
        crc = MemTst_CrcNumber(crc, block->slices, RAMTST_FIELD);
        crc = MemTst_CrcNumber(crc, block->rest, RAMTST_FIELD);
        crc = MemTst_CrcNumber(crc, block->destructive, RAMTST_FIELD);
        crc = MemTst_CrcNumber(crc, block->fill, RAMTST_FIELD);
    }
    return crc;
}

/* Whether the plans of a set and its own fields are as they were generated. */
static boolean RamTst_IsSetWhole(const RamTst_AlgParamsType *set)
{
    uint32 differs = set->checksum ^ RamTst_SetSum(set);
    uint32 at;

    if (set->number_of_blocks > RAMTST_MOST_BLOCKS) {
        differs = 1u;
    }
    for (at = 0u; at < set->number_of_plans; at++) {
        const MemTst_PlanType *plan = &set->plans[at];
        uint32 crc = MemTst_Crc(MEMTST_CRC_OF_NOTHING, plan->steps, plan->count);
        crc = MemTst_CrcNumber(crc, plan->cells, 1u);
        differs |= plan->checksum ^ crc;
    }
    return (differs == 0u) ? TRUE : FALSE;
}

static boolean RamTst_IsWhole(const RamTst_ConfigType *config)
{
    boolean whole = TRUE;
    uint32 crc = MEMTST_CRC_OF_NOTHING;
    uint32 at;

    for (at = 0u; at < config->number_of_sets; at++) {
        if (RamTst_IsSetWhole(&config->sets[at]) == FALSE) {
            whole = FALSE;
        }
    }
    for (at = 0u; at < (RAMTST_SERVICES * RAMTST_STATES); at++) {
        crc = MemTst_CrcNumber(crc, config->cells[at].reply, 1u);
        crc = MemTst_CrcNumber(crc, config->cells[at].next, 1u);
    }
    return ((whole != FALSE) && (config->number_of_sets == RAMTST_SETS) && (crc == config->checksum)) ? TRUE : FALSE;
}

/* ---- services that run nothing */

static void RamTst_Select(uint32 set)
{
    uint32 at;

    RamTst_Selected = set;
    RamTst_Cells = RamTst_Set()->cells;
    for (at = 0u; at < RAMTST_MOST_BLOCKS; at++) {
        RamTst_Results[at] = (uint8)RAMTST_RESULT_NOT_TESTED;
    }
}

/* Drops the position of the pass, and what is kept for it. */
static void RamTst_Drop(void)
{
    RamTst_Pass.block = 0u;
    RamTst_Pass.slice = 0u;
    RamTst_Pass.failed = FALSE;
    RamTst_Begun = TRUE;
}

void RamTst_Init(const RamTst_ConfigType *ConfigPtr)
{
    if (ConfigPtr == NULL_PTR) {
        RAMTST_DET(RAMTST_SERVICE_INIT, RAMTST_E_PARAM_POINTER);
    } else if ((RamTst_IsFree(RAMTST_SERVICE_INIT) != FALSE) && (RamTst_Looks(RAMTST_SERVICE_INIT) != FALSE)) {
        if (RamTst_IsWhole(ConfigPtr) == FALSE) {
            RAMTST_DET(RAMTST_SERVICE_INIT, RAMTST_E_CHECKSUM);
        } else {
            RamTst_Taken = ConfigPtr;
            RamTst_Select(0u);
            RamTst_Drop();
            RamTst_State = RamTst_CellOf(RAMTST_SERVICE_INIT)->next;
        }
    } else {
        /* refused, and reported */
    }
}

/*
 * Takes a service that moves the module by the table alone. `drops`: it drops the pass. `marks`: it ends a tick. Init
 * and Stop drop the pass, so that Allow and DeInit, which come after or before them, need not.
 */
static void RamTst_Move(uint8 service, boolean drops, boolean marks)
{
    uint8 reply;

    RAMTST_ENTER();
    reply = RamTst_CellOf(service)->reply;
    if (reply == RAMTST_REPLY_TAKEN) {
        RamTst_State = RamTst_CellOf(service)->next;
        if (drops != FALSE) {
            RamTst_Drop();
        }
        if (marks != FALSE) {
            RamTst_Mark = TRUE;
        }
    }
    RAMTST_EXIT();
    (void)RamTst_IsTaken(service, reply);
}

void RamTst_DeInit(void)
{
    if (RamTst_IsFree(RAMTST_SERVICE_DEINIT) != FALSE) {
        RamTst_Move(RAMTST_SERVICE_DEINIT, FALSE, FALSE);
    }
}

void RamTst_Stop(void)
{
    RamTst_Move(RAMTST_SERVICE_STOP, TRUE, TRUE);
}

void RamTst_Allow(void)
{
    RamTst_Move(RAMTST_SERVICE_ALLOW, FALSE, FALSE);
}

void RamTst_Suspend(void)
{
    RamTst_Move(RAMTST_SERVICE_SUSPEND, FALSE, TRUE);
}

void RamTst_Resume(void)
{
    RamTst_Move(RAMTST_SERVICE_RESUME, FALSE, FALSE);
}

void RamTst_SelectAlgParams(RamTst_AlgParamsIdType NewAlgParamsId)
{
    const uint8 service = RAMTST_SERVICE_SELECT_ALG_PARAMS;

    if ((RamTst_IsFree(service) != FALSE) && (RamTst_Looks(service) != FALSE)) {
        if (NewAlgParamsId < RamTst_Taken->number_of_sets) {
            RamTst_Select(NewAlgParamsId);
        } else {
            RAMTST_DET(service, RAMTST_E_OUT_OF_RANGE);
        }
    }
}

/* The most words of a tick that may be asked for. */
#define RAMTST_MOST_CELLS (65536u)

void RamTst_ChangeNumberOfTestedCells(RamTst_NumberOfTestedCellsType NewNumberOfTestedCells)
{
    const uint8 service = RAMTST_SERVICE_CHANGE_NUMBER_OF_TESTED_CELLS;

    if ((RamTst_IsFree(service) != FALSE) && (RamTst_Looks(service) != FALSE)) {
        if ((NewNumberOfTestedCells >= RamTst_Set()->atomic) && (NewNumberOfTestedCells <= RAMTST_MOST_CELLS)) {
            RamTst_Cells = NewNumberOfTestedCells;
        } else {
            RAMTST_DET(service, RAMTST_E_OUT_OF_RANGE);
        }
    }
}

RamTst_ExecutionStatusType RamTst_GetExecutionStatus(void)
{
    const uint8 state = RamTst_State;
    RamTst_ExecutionStatusType shown = RAMTST_EXECUTION_RUNNING;

    if (state == RAMTST_STATE_UNINIT) {
        shown = RAMTST_EXECUTION_UNINIT;
    } else if (state == RAMTST_STATE_STOPPED) {
        shown = RAMTST_EXECUTION_STOPPED;
    } else if (state == RAMTST_STATE_SUSPENDED) {
        shown = RAMTST_EXECUTION_SUSPENDED;
    } else {
        /* RUNNING, and inside a full or a partial test */
    }
    return shown;
}

RamTst_TestResultType RamTst_GetTestResultPerBlock(RamTst_NumberOfBlocksType BlockID)
{
    const uint8 service = RAMTST_SERVICE_GET_TEST_RESULT_PER_BLOCK;
    RamTst_TestResultType result = RAMTST_RESULT_UNDEFINED;

    if (RamTst_Looks(service) != FALSE) {
        if (BlockID < RamTst_Set()->number_of_blocks) {
            result = (RamTst_TestResultType)RamTst_Results[BlockID];
        } else {
            RAMTST_DET(service, RAMTST_E_OUT_OF_RANGE);
        }
    }
    return result;
}

/* NOT_OK if some block is; else OK or NOT_TESTED if all are; else UNDEFINED. */
static RamTst_TestResultType RamTst_Overall(void)
{
    const uint32 number = RamTst_Set()->number_of_blocks;
    RamTst_TestResultType overall = (RamTst_TestResultType)RamTst_Results[0];
    uint32 at;

    for (at = 0u; at < number; at++) {
        const RamTst_TestResultType result = (RamTst_TestResultType)RamTst_Results[at];
        if ((result == RAMTST_RESULT_NOT_OK) || (overall == RAMTST_RESULT_NOT_OK)) {
            overall = RAMTST_RESULT_NOT_OK;
        } else if (result != overall) {
            overall = RAMTST_RESULT_UNDEFINED;
        } else {
            /* as all before it */
        }
    }
    return overall;
}

RamTst_TestResultType RamTst_GetTestResult(void)
{
    return (RamTst_Looks(RAMTST_SERVICE_GET_TEST_RESULT) != FALSE) ? RamTst_Overall() : RAMTST_RESULT_UNDEFINED;
}

RamTst_AlgParamsIdType RamTst_GetAlgParams(void)
{
    return (RamTst_Looks(RAMTST_SERVICE_GET_ALG_PARAMS) != FALSE) ? RamTst_Selected : 0u;
}

RamTst_AlgorithmType RamTst_GetTestAlgorithm(void)
{
    RamTst_AlgorithmType algorithm = RAMTST_ALGORITHM_UNDEFINED;

    if (RamTst_Looks(RAMTST_SERVICE_GET_TEST_ALGORITHM) != FALSE) {
        algorithm = (RamTst_AlgorithmType)RamTst_Set()->algorithm;
    }
    return algorithm;
}

RamTst_NumberOfTestedCellsType RamTst_GetNumberOfTestedCells(void)
{
    return (RamTst_Looks(RAMTST_SERVICE_GET_NUMBER_OF_TESTED_CELLS) != FALSE) ? RamTst_Cells : 0u;
}

void RamTst_GetVersionInfo(Std_VersionInfoType *versioninfo)
{
    if (versioninfo == NULL_PTR) {
        RAMTST_DET(RAMTST_SERVICE_GET_VERSION_INFO, RAMTST_E_PARAM_POINTER);
    } else {
        versioninfo->vendorID = RAMTST_VENDOR_ID;
        versioninfo->moduleID = RAMTST_MODULE_ID;
        versioninfo->sw_major_version = RAMTST_SW_MAJOR_VERSION;
        versioninfo->sw_minor_version = RAMTST_SW_MINOR_VERSION;
        versioninfo->sw_patch_version = RAMTST_SW_PATCH_VERSION;
    }
}

/* ---- running calls */

/* Whether the next slice of a test is its block's last. */
static boolean RamTst_IsLast(const RamTst_TestType *test)
{
    return ((test->slice + 1u) == RamTst_Set()->blocks[test->block].slices) ? TRUE : FALSE;
}

/* The plan of the next slice of a test. */
static const MemTst_PlanType *RamTst_PlanOf(const RamTst_TestType *test)
{
    const RamTst_AlgParamsType *set = RamTst_Set();
    const uint8 plan = (RamTst_IsLast(test) != FALSE) ? set->blocks[test->block].rest : set->full;

    return &set->plans[plan];
}

/* The next result of a block, after a slice of it was tested: `test` has it entered already whether that one failed. */
static uint8 RamTst_ResultAfter(const RamTst_TestType *test, uint32 verdict)
{
    uint8 result = RamTst_Results[test->block];

    if (verdict != MEMTST_PASS) {
        result = (uint8)RAMTST_RESULT_NOT_OK;
    } else if (RamTst_IsLast(test) != FALSE) {
        result = (uint8)((test->failed != FALSE) ? RAMTST_RESULT_NOT_OK : RAMTST_RESULT_OK);
    } else if (result == (uint8)RAMTST_RESULT_NOT_TESTED) {
        result = (uint8)RAMTST_RESULT_UNDEFINED;
    } else {
        /* it stays */
    }
    return result;
}

/* Goes on to the next slice. TRUE if that one is of another block, or of the next pass. */
static boolean RamTst_Advance(RamTst_TestType *test)
{
    const boolean last = RamTst_IsLast(test);

    if (last != FALSE) {
        test->slice = 0u;
        test->failed = FALSE;
        test->block++;
        if (test->block == RamTst_Set()->number_of_blocks) {
            test->block = 0u;
        }
    } else {
        test->slice++;
    }
    return last;
}

/* What a slice's test is done with. */
static void RamTst_Describe(const RamTst_TestType *test, MemTst_SliceType *slice)
{
    const RamTst_AlgParamsType *set = RamTst_Set();
    const RamTst_BlockType *block = &set->blocks[test->block];

    slice->plan = RamTst_PlanOf(test);
    slice->first = block->first + (test->slice * set->atomic);
    slice->background = set->background;
    slice->fill = block->fill;
    slice->own = set->own;
    slice->destructive = block->destructive;
}

/*
 * Tests the next slice, in as many attempts as urgent interrupts make of it, and goes on to the one after it. FALSE
 * if the slice was barred. `in_pass`: it is a slice of the pass, whose position and failure are kept.
 */
static boolean RamTst_TestSlice(RamTst_TestType *test, boolean in_pass, boolean *ends_block)
{
    static const volatile boolean never = FALSE; /* what bars no slice of a full or a partial test */
    const volatile boolean *barred = (in_pass != FALSE) ? &RamTst_Mark : &never;
    MemTst_SliceType slice;
    uint32 drops = 0u;
    uint32 verdict;

    RamTst_Describe(test, &slice);
    do {
        slice.droppable = ((slice.destructive == FALSE) && (drops < RamTst_Set()->retries)) ? TRUE : FALSE;
        verdict = MemTst_Slice(&slice, barred);
        RAMTST_ENTER();
        if (verdict == MEMTST_DROPPED) {
            drops++;
        } else if (verdict != MEMTST_BARRED) {
            if (verdict != MEMTST_PASS) {
                test->failed = TRUE;
                RAMTST_DEM(RamTst_Selected, test->block);
            }
            RamTst_Results[test->block] = RamTst_ResultAfter(test, verdict);
            *ends_block = RamTst_Advance(test);
            if ((in_pass != FALSE) && (RamTst_Begun == FALSE)) {
                RamTst_Pass = *test;
            }
        } else {
            /* nothing was tested */
        }
        RAMTST_EXIT();
    } while (verdict == MEMTST_DROPPED);
    return (verdict != MEMTST_BARRED) ? TRUE : FALSE;
}

/* Begins a running call: interrupts that wait are served before its state is looked at. */
static boolean RamTst_Begin(uint8 service)
{
    const boolean free = RamTst_IsFree(service);

    if (free != FALSE) {
        RAMTST_ENTER();
        RamTst_Busy = TRUE;
        RamTst_Mark = FALSE;
        RAMTST_EXIT();
    }
    return free;
}

/*
 * Takes a full or a partial test by the table, if there is such a block. *back is the state to which the module goes
 * back.
 */
static uint8 RamTst_Enter(uint8 service, uint32 block, uint8 *back)
{
    uint8 reply;

    RAMTST_ENTER();
    reply = RamTst_CellOf(service)->reply;
    *back = RamTst_State;
    if (reply == RAMTST_REPLY_TAKEN) {
        if (block < RamTst_Set()->number_of_blocks) {
            RamTst_State = RamTst_CellOf(service)->next;
        } else {
            reply = RAMTST_E_OUT_OF_RANGE;
        }
    }
    RAMTST_EXIT();
    return reply;
}

static void RamTst_Leave(uint8 back)
{
    RAMTST_ENTER();
    RamTst_State = back;
    RAMTST_EXIT();
}

/* The group at the position: as many next slices of the pass as the words of a tick allow. */
static void RamTst_Group(void)
{
    RamTst_TestType test;
    uint32 left;
    boolean more = TRUE;

    RAMTST_ENTER();
    test = RamTst_Pass;
    left = RamTst_Cells;
    RamTst_Begun = FALSE;
    RAMTST_EXIT();
    while ((more != FALSE) && (RamTst_PlanOf(&test)->cells <= left)) {
        boolean ends_block = FALSE;

        left -= RamTst_PlanOf(&test)->cells;
        more = RamTst_TestSlice(&test, TRUE, &ends_block);
        if ((ends_block != FALSE) && (test.block == 0u)) {
            more = FALSE;
        }
    }
}

void RamTst_MainFunction(void)
{
    const uint8 service = RAMTST_SERVICE_MAIN_FUNCTION;

    if (RamTst_Begin(service) != FALSE) {
        const uint8 reply = RamTst_CellOf(service)->reply;
        if ((RamTst_IsTaken(service, reply) != FALSE) && (reply == RAMTST_REPLY_TAKEN)) {
            RamTst_Group();
        }
        RamTst_Busy = FALSE;
    }
}

/* Tests so many blocks one after another. */
static void RamTst_TestBlocks(uint32 first, uint32 count)
{
    RamTst_TestType test;
    uint32 left = count;

    test.block = first;
    test.slice = 0u;
    test.failed = FALSE;
    while (left > 0u) {
        boolean ends_block = FALSE;

        (void)RamTst_TestSlice(&test, FALSE, &ends_block);
        if (ends_block != FALSE) {
            left--;
        }
    }
}

void RamTst_RunFullTest(void)
{
    const uint8 service = RAMTST_SERVICE_RUN_FULL_TEST;
    uint8 back;

    if (RamTst_Begin(service) != FALSE) {
        if (RamTst_IsTaken(service, RamTst_Enter(service, 0u, &back)) != FALSE) {
            RamTst_TestBlocks(0u, RamTst_Set()->number_of_blocks);
            RamTst_Leave(back);
        }
        RamTst_Busy = FALSE;
    }
}

void RamTst_RunPartialTest(RamTst_NumberOfBlocksType BlockId)
{
    const uint8 service = RAMTST_SERVICE_RUN_PARTIAL_TEST;
    uint8 back;

    if (RamTst_Begin(service) != FALSE) {
        if (RamTst_IsTaken(service, RamTst_Enter(service, BlockId, &back)) != FALSE) {
            RamTst_TestBlocks(BlockId, 1u);
            RamTst_Leave(back);
        }
        RamTst_Busy = FALSE;
    }
}
