#include "FlsTst.h"
#include "MemTst_Hooks.h"

/* Where a comparison stands: the next slice. */
typedef struct {
    uint32 block;
    uint32 slice;
} FlsTst_PlaceType;

/* What is kept between calls. All of it is 0 in UNINIT, as .bss has it. */
static const FlsTst_ConfigType *FlsTst_Taken;
static volatile uint8 FlsTst_State;
static volatile uint8 FlsTst_Back;     /* the state in which the foreground test was taken */
static volatile boolean FlsTst_Busy;   /* a running call is under way */
static volatile boolean FlsTst_Mark;   /* an Abort or a Suspend was accepted in this event */
static FlsTst_PlaceType FlsTst_Place;  /* the position */
static boolean FlsTst_Failed;          /* whether the interval under way has failed */
static FlsTst_TestResultBgndType FlsTst_Completed;
static volatile uint8 FlsTst_FgndResult;
static FlsTst_ErrorDetailsType FlsTst_Details;

/* ---- the state table */

/* The cell of a service in the state of the moment. */
static const FlsTst_CellType *FlsTst_CellOf(uint8 service)
{
    return &FlsTst_Config.table[((uint32)service * FLSTST_STATES) + FlsTst_State];
}

/* Reports a refusal by the state table. TRUE if the call is taken. */
static boolean FlsTst_IsTaken(uint8 service, uint8 reply)
{
    const boolean taken = ((reply == FLSTST_REPLY_TAKEN) || (reply == FLSTST_REPLY_RESTS)) ? TRUE : FALSE;

    if (taken == FALSE) {
        FLSTST_DET(service, reply);
    }
    return taken;
}

/* Looks a service up that leaves the state as it is. TRUE if it is taken. */
static boolean FlsTst_Looks(uint8 service)
{
    return FlsTst_IsTaken(service, FlsTst_CellOf(service)->reply);
}

/* Reports a service that may not preempt a running call. TRUE if none is under way. */
static boolean FlsTst_IsFree(uint8 service)
{
    const boolean free = (FlsTst_Busy == FALSE) ? TRUE : FALSE;

    if (free == FALSE) {
        FLSTST_DET(service, FLSTST_E_BUSY);
    }
    return free;
}

/* ---- the tables as they were generated */

/* How many bytes a field has in the checksum of its table. */
#define FLSTST_FIELD (8u)

static uint32 FlsTst_BlocksSum(uint32 before, const FlsTst_BlockType *blocks, uint32 number)
{
    uint32 crc = before;
    uint32 at;

    for (at = 0u; at < number; at++) {
        crc = MemTst_CrcNumber(crc, blocks[at].first, FLSTST_FIELD);
        crc = MemTst_CrcNumber(crc, blocks[at].copy, FLSTST_FIELD);
        crc = MemTst_CrcNumber(crc, blocks[at].slices, FLSTST_FIELD);
        crc = MemTst_CrcNumber(crc, blocks[at].rest, FLSTST_FIELD);
    }
    return crc;
}

static boolean FlsTst_IsWhole(const FlsTst_ConfigType *config)
{
    uint32 crc = MEMTST_CRC_OF_NOTHING;
    uint32 cells = MEMTST_CRC_OF_NOTHING;
    uint32 at;

    crc = MemTst_CrcNumber(crc, config->atomic, FLSTST_FIELD);
    crc = MemTst_CrcNumber(crc, config->cells, FLSTST_FIELD);
    crc = MemTst_CrcNumber(crc, config->interval_end, FLSTST_FIELD);
    crc = MemTst_CrcNumber(crc, config->number_of_bgnd, FLSTST_FIELD);
    crc = MemTst_CrcNumber(crc, config->number_of_fgnd, FLSTST_FIELD);
    crc = FlsTst_BlocksSum(crc, config->bgnd, config->number_of_bgnd);
    crc = FlsTst_BlocksSum(crc, config->fgnd, config->number_of_fgnd);
    for (at = 0u; at < (FLSTST_SERVICES * FLSTST_STATES); at++) {
        cells = MemTst_CrcNumber(cells, config->table[at].reply, 1u);
        cells = MemTst_CrcNumber(cells, config->table[at].next, 1u);
    }
    return ((crc == config->checksum) && (cells == config->checksum_of_table)) ? TRUE : FALSE;
}

/* ---- services that run nothing */

/* Drops the position, the interval under way, and whether it failed. */
static void FlsTst_Drop(void)
{
    FlsTst_Place.block = 0u;
    FlsTst_Place.slice = 0u;
    FlsTst_Failed = FALSE;
}

/* Forgets results and details. */
static void FlsTst_Forget(void)
{
    FlsTst_Completed.id = 0u;
    FlsTst_Completed.result = FLSTST_RESULT_NOT_TESTED;
    FlsTst_FgndResult = (uint8)FLSTST_RESULT_NOT_TESTED;
    FlsTst_Details.kind = FLSTST_NO_ERROR;
    FlsTst_Details.block = 0u;
    FlsTst_Details.word = 0u;
}

void FlsTst_Init(const FlsTst_ConfigType *ConfigPtr)
{
    if (ConfigPtr == NULL_PTR) {
        FLSTST_DET(FLSTST_SERVICE_INIT, FLSTST_E_PARAM_POINTER);
    } else if ((FlsTst_IsFree(FLSTST_SERVICE_INIT) != FALSE) && (FlsTst_Looks(FLSTST_SERVICE_INIT) != FALSE)) {
        if (FlsTst_IsWhole(ConfigPtr) == FALSE) {
            FLSTST_DET(FLSTST_SERVICE_INIT, FLSTST_E_CHECKSUM);
        } else {
            FlsTst_Taken = ConfigPtr;
            FlsTst_Forget();
            FlsTst_Drop();
            FlsTst_State = FlsTst_CellOf(FLSTST_SERVICE_INIT)->next;
        }
    } else {
        /* refused, and reported */
    }
}

/*
 * Takes a service that moves the module by the table alone. `marks`: it ends a tick. The interval is dropped by the
 * next Init.
 */
static void FlsTst_Move(uint8 service, boolean marks)
{
    uint8 reply;

    FLSTST_ENTER();
    reply = FlsTst_CellOf(service)->reply;
    if (reply == FLSTST_REPLY_TAKEN) {
        FlsTst_State = FlsTst_CellOf(service)->next;
        if (marks != FALSE) {
            FlsTst_Mark = TRUE;
        }
    }
    FLSTST_EXIT();
    (void)FlsTst_IsTaken(service, reply);
}

void FlsTst_DeInit(void)
{
    if (FlsTst_IsFree(FLSTST_SERVICE_DEINIT) != FALSE) {
        FlsTst_Move(FLSTST_SERVICE_DEINIT, FALSE);
    }
}

void FlsTst_Abort(void)
{
    FlsTst_Move(FLSTST_SERVICE_ABORT, TRUE);
}

void FlsTst_Suspend(void)
{
    FlsTst_Move(FLSTST_SERVICE_SUSPEND, TRUE);
}

void FlsTst_Resume(void)
{
    FlsTst_Move(FLSTST_SERVICE_RESUME, FALSE);
}

FlsTst_StateType FlsTst_GetCurrentState(void)
{
    const uint8 state = FlsTst_State;

    return (FlsTst_StateType)((state == FLSTST_STATE_FOREGROUND) ? FlsTst_Back : state);
}

FlsTst_TestResultBgndType FlsTst_GetTestResultBgnd(void)
{
    FlsTst_TestResultBgndType completed = {0u, FLSTST_RESULT_NOT_TESTED};

    if (FlsTst_Looks(FLSTST_SERVICE_GET_TEST_RESULT_BGND) != FALSE) {
        FLSTST_ENTER();
        completed = FlsTst_Completed;
        FLSTST_EXIT();
    }
    return completed;
}

FlsTst_TestResultFgndType FlsTst_GetTestResultFgnd(void)
{
    FlsTst_TestResultFgndType result = FLSTST_RESULT_NOT_TESTED;

    if (FlsTst_Looks(FLSTST_SERVICE_GET_TEST_RESULT_FGND) != FALSE) {
        result = (FlsTst_TestResultFgndType)FlsTst_FgndResult;
    }
    return result;
}

FlsTst_ErrorDetailsType FlsTst_GetErrorDetails(void)
{
    FlsTst_ErrorDetailsType details = {FLSTST_NO_ERROR, 0u, 0u};

    if (FlsTst_Looks(FLSTST_SERVICE_GET_ERROR_DETAILS) != FALSE) {
        FLSTST_ENTER();
        details = FlsTst_Details;
        FLSTST_EXIT();
    }
    return details;
}

void FlsTst_GetVersionInfo(Std_VersionInfoType *versioninfo)
{
    if (versioninfo == NULL_PTR) {
        FLSTST_DET(FLSTST_SERVICE_GET_VERSION_INFO, FLSTST_E_PARAM_POINTER);
    } else {
        versioninfo->vendorID = FLSTST_VENDOR_ID;
        versioninfo->moduleID = FLSTST_MODULE_ID;
        versioninfo->sw_major_version = FLSTST_SW_MAJOR_VERSION;
        versioninfo->sw_minor_version = FLSTST_SW_MINOR_VERSION;
        versioninfo->sw_patch_version = FLSTST_SW_PATCH_VERSION;
    }
}

/* ---- running calls */

/* The words of a slice of a block. */
static uint32 FlsTst_Words(const FlsTst_BlockType *block, uint32 slice)
{
    return ((slice + 1u) == block->slices) ? block->rest : FlsTst_Taken->atomic;
}

/* Keeps what a sequence that failed found. */
static void FlsTst_Keep(FlsTst_ErrorKindType kind, uint32 block, uint32 word)
{
    FlsTst_Details.kind = kind;
    FlsTst_Details.block = block;
    FlsTst_Details.word = word;
    FLSTST_DEM(kind, block, word);
}

/* Completes the interval. */
static void FlsTst_Complete(boolean failed)
{
    if ((FlsTst_Completed.result == FLSTST_RESULT_NOT_TESTED) || (FlsTst_Completed.id == FlsTst_Taken->interval_end)) {
        FlsTst_Completed.id = 0u;
    } else {
        FlsTst_Completed.id++;
    }
    FlsTst_Completed.result = (failed != FALSE) ? FLSTST_RESULT_NOT_OK : FLSTST_RESULT_OK;
}

/* Goes on to the next slice of the background blocks. TRUE if that one is of the next interval. */
static boolean FlsTst_Advance(FlsTst_PlaceType *place)
{
    boolean ends = FALSE;

    place->slice++;
    if (place->slice == FlsTst_Taken->bgnd[place->block].slices) {
        place->slice = 0u;
        place->block++;
        if (place->block == FlsTst_Taken->number_of_bgnd) {
            place->block = 0u;
            ends = TRUE;
        }
    }
    return ends;
}

/* Compares the next slice of the interval. TRUE if the group may go on behind it. */
static boolean FlsTst_CompareBgnd(FlsTst_PlaceType *place, boolean *failed)
{
    const FlsTst_BlockType *block = &FlsTst_Taken->bgnd[place->block];
    const uint32 offset = place->slice * FlsTst_Taken->atomic;
    uint32 where = 0u;
    boolean more = FALSE;
    const uint32 verdict = MemTst_Compare(
        block->first + offset, block->copy + offset, FlsTst_Words(block, place->slice), &FlsTst_Mark, &where);

    FLSTST_ENTER();
    if (verdict != MEMTST_BARRED) {
        if (verdict != MEMTST_PASS) {
            *failed = TRUE;
            FlsTst_Keep(FLSTST_ERROR_BGND, place->block, where);
        }
        if (FlsTst_Advance(place) != FALSE) {
            FlsTst_Complete(*failed);
            *failed = FALSE;
        } else {
            more = TRUE;
        }
        FlsTst_Place = *place;
        FlsTst_Failed = *failed;
    }
    FLSTST_EXIT();
    return more;
}

/* The group at the position: as many next slices of the interval as the words of a tick allow. */
static void FlsTst_Group(void)
{
    FlsTst_PlaceType place;
    boolean failed;
    uint32 left = FlsTst_Taken->cells;
    boolean more = (FlsTst_Taken->number_of_bgnd != 0u) ? TRUE : FALSE;

    FLSTST_ENTER();
    place = FlsTst_Place;
    failed = FlsTst_Failed;
    FLSTST_EXIT();
    while (more != FALSE) {
        const uint32 words = FlsTst_Words(&FlsTst_Taken->bgnd[place.block], place.slice);

        more = FALSE;
        if (words <= left) {
            left -= words;
            more = FlsTst_CompareBgnd(&place, &failed);
        }
    }
}

/* Begins a running call: interrupts that wait are served before its state is looked at. */
static boolean FlsTst_Begin(uint8 service)
{
    const boolean free = FlsTst_IsFree(service);

    if (free != FALSE) {
        FLSTST_ENTER();
        FlsTst_Busy = TRUE;
        FlsTst_Mark = FALSE;
        FLSTST_EXIT();
    }
    return free;
}

void FlsTst_MainFunction(void)
{
    const uint8 service = FLSTST_SERVICE_MAIN_FUNCTION;

    if (FlsTst_Begin(service) != FALSE) {
        uint8 reply;

        FLSTST_ENTER();
        reply = FlsTst_CellOf(service)->reply;
        if (reply == FLSTST_REPLY_TAKEN) {
            FlsTst_State = FlsTst_CellOf(service)->next;
        }
        FLSTST_EXIT();
        if ((FlsTst_IsTaken(service, reply) != FALSE) && (reply == FLSTST_REPLY_TAKEN)) {
            FlsTst_Group();
        }
        FlsTst_Busy = FALSE;
    }
}

/* Compares a foreground block, whole. */
static void FlsTst_CompareFgnd(uint32 number)
{
    static const volatile boolean never = FALSE; /* what bars no slice */
    const FlsTst_BlockType *block = &FlsTst_Taken->fgnd[number];
    boolean failed = FALSE;
    uint32 slice;

    for (slice = 0u; slice < block->slices; slice++) {
        const uint32 offset = slice * FlsTst_Taken->atomic;
        uint32 where = 0u;
        const uint32 verdict = MemTst_Compare(
            block->first + offset, block->copy + offset, FlsTst_Words(block, slice), &never, &where);

        FLSTST_ENTER();
        if (verdict != MEMTST_PASS) {
            failed = TRUE;
            FlsTst_Keep(FLSTST_ERROR_FGND, number, where);
        }
        if ((slice + 1u) == block->slices) {
            FlsTst_FgndResult = (uint8)((failed != FALSE) ? FLSTST_RESULT_NOT_OK : FLSTST_RESULT_OK);
        }
        FLSTST_EXIT();
    }
}

/* Takes a foreground test by the table, if there is such a block. */
static uint8 FlsTst_Enter(uint8 service, uint32 block)
{
    uint8 reply;

    FLSTST_ENTER();
    reply = FlsTst_CellOf(service)->reply;
    if (reply == FLSTST_REPLY_TAKEN) {
        if (block < FlsTst_Taken->number_of_fgnd) {
            FlsTst_Back = FlsTst_State;
            FlsTst_State = FlsTst_CellOf(service)->next;
        } else {
            reply = FLSTST_E_PARAM_INVALID;
        }
    }
    FLSTST_EXIT();
    return reply;
}

Std_ReturnType FlsTst_StartFgnd(FlsTst_BlockIdFgndType FgndBlockId)
{
    const uint8 service = FLSTST_SERVICE_START_FGND;
    Std_ReturnType result = E_NOT_OK;

    if (FlsTst_Begin(service) != FALSE) {
        if (FlsTst_IsTaken(service, FlsTst_Enter(service, FgndBlockId)) != FALSE) {
            FlsTst_CompareFgnd(FgndBlockId);
            FLSTST_ENTER();
            FlsTst_State = FlsTst_Back;
            FLSTST_EXIT();
            result = E_OK;
        }
        FlsTst_Busy = FALSE;
    }
    return result;
}
