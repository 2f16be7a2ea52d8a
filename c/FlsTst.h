/*
 * Flash Test, after the AUTOSAR Specification of Flash Test: flash words are compared with a copy. README.md has the
 * differences.
 */
#ifndef FLSTST_H
#define FLSTST_H

#include "Std_Types.h"
#include "MemTst.h"
#include "FlsTst_Cfg.h"

#define FLSTST_VENDOR_ID (0u)
#define FLSTST_MODULE_ID (104u)
#define FLSTST_SW_MAJOR_VERSION (1u)
#define FLSTST_SW_MINOR_VERSION (0u)
#define FLSTST_SW_PATCH_VERSION (0u)

/* What FLSTST_DET reports: the service's row in the state table, and the error. */
#define FLSTST_SERVICE_INIT (0u)
#define FLSTST_SERVICE_DEINIT (1u)
#define FLSTST_SERVICE_ABORT (2u)
#define FLSTST_SERVICE_SUSPEND (3u)
#define FLSTST_SERVICE_RESUME (4u)
#define FLSTST_SERVICE_START_FGND (5u)
#define FLSTST_SERVICE_MAIN_FUNCTION (6u)
#define FLSTST_SERVICE_GET_CURRENT_STATE (7u)
#define FLSTST_SERVICE_GET_TEST_RESULT_BGND (8u)
#define FLSTST_SERVICE_GET_TEST_RESULT_FGND (9u)
#define FLSTST_SERVICE_GET_ERROR_DETAILS (10u)
#define FLSTST_SERVICE_GET_VERSION_INFO (11u)
#define FLSTST_SERVICES (12u)

#define FLSTST_E_UNINIT (1u)
#define FLSTST_E_STATE_FAILURE (2u)
#define FLSTST_E_PARAM_INVALID (3u)
#define FLSTST_E_PARAM_POINTER (4u)
#define FLSTST_E_CHECKSUM (5u) /* a table is not as it was generated */
#define FLSTST_E_BUSY (6u)     /* a running call was preempted by a service that may not preempt it */

typedef enum {
    FLSTST_UNINIT = 0,
    FLSTST_INIT = 1,
    FLSTST_RUNNING = 2,
    FLSTST_SUSPENDED = 3,
    FLSTST_ABORTED = 4
} FlsTst_StateType;

typedef enum {
    FLSTST_RESULT_NOT_TESTED = 0,
    FLSTST_RESULT_OK = 1,
    FLSTST_RESULT_NOT_OK = 2
} FlsTst_TestResultType;

typedef uint32 FlsTst_BlockIdFgndType;
typedef uint32 FlsTst_IntervalIdType;
typedef FlsTst_TestResultType FlsTst_TestResultFgndType;

/* The last completed interval. With FLSTST_RESULT_NOT_TESTED there is none, and the identifier means nothing. */
typedef struct {
    FlsTst_IntervalIdType id;
    FlsTst_TestResultType result;
} FlsTst_TestResultBgndType;

typedef enum {
    FLSTST_NO_ERROR = 0,
    FLSTST_ERROR_BGND = 1,
    FLSTST_ERROR_FGND = 2
} FlsTst_ErrorKindType;

/* The latest sequence that failed: its kind, its block, and the first word that differed. */
typedef struct {
    FlsTst_ErrorKindType kind;
    uint32 block;
    uint32 word;
} FlsTst_ErrorDetailsType;

/*
 * The columns of the state table: the five states, and that inside a foreground test, which shows as the one before
 * it.
 */
#define FLSTST_STATE_UNINIT (0u)
#define FLSTST_STATE_INIT (1u)
#define FLSTST_STATE_RUNNING (2u)
#define FLSTST_STATE_SUSPENDED (3u)
#define FLSTST_STATE_ABORTED (4u)
#define FLSTST_STATE_FOREGROUND (5u)
#define FLSTST_STATES (6u)

/* The first byte of a cell of the state table: how a call is answered. A refusal has the number of its error. */
#define FLSTST_REPLY_TAKEN (0u)
#define FLSTST_REPLY_UNINIT (1u)
#define FLSTST_REPLY_STATUS (2u)
#define FLSTST_REPLY_RESTS (4u) /* taken, and nothing is compared */

/* A cell of the state table: the reply, and the column of the next state. */
typedef struct {
    uint8 reply;
    uint8 next;
} FlsTst_CellType;

/* A block, and its copy: so many slices of the module's `atomic` words, the last of which may be shorter. */
typedef struct {
    uint32 first;
    uint32 copy;
    uint32 slices;
    uint8 rest;      /* the words of the last slice */
} FlsTst_BlockType;

typedef struct {
    uint8 atomic;    /* the most words of a slice */
    uint32 cells;    /* the most words of a tick */
    uint16 interval_end;
    const FlsTst_BlockType *bgnd;
    uint8 number_of_bgnd;
    const FlsTst_BlockType *fgnd;
    uint8 number_of_fgnd;
    uint32 checksum; /* over the fields above but the pointers, and over the blocks */
    const FlsTst_CellType *table;
    uint32 checksum_of_table;
} FlsTst_ConfigType;

extern const FlsTst_ConfigType FlsTst_Config;

MEMTST_ASSERT(cell_of_the_flash_table, sizeof(FlsTst_CellType) == 2u);

void FlsTst_Init(const FlsTst_ConfigType *ConfigPtr);
void FlsTst_DeInit(void);
Std_ReturnType FlsTst_StartFgnd(FlsTst_BlockIdFgndType FgndBlockId);
void FlsTst_Abort(void);
void FlsTst_Suspend(void);
void FlsTst_Resume(void);
FlsTst_StateType FlsTst_GetCurrentState(void);
FlsTst_TestResultBgndType FlsTst_GetTestResultBgnd(void);
FlsTst_TestResultFgndType FlsTst_GetTestResultFgnd(void);
FlsTst_ErrorDetailsType FlsTst_GetErrorDetails(void);
void FlsTst_GetVersionInfo(Std_VersionInfoType *versioninfo);
void FlsTst_MainFunction(void);

#endif
