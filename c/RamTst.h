/* RAM Test, after the AUTOSAR Specification of RAM Test. README.md has the differences. */
#ifndef RAMTST_H
#define RAMTST_H

#include "Std_Types.h"
#include "MemTst.h"
#include "RamTst_Cfg.h"

#define RAMTST_VENDOR_ID (0u)
#define RAMTST_MODULE_ID (93u)
#define RAMTST_SW_MAJOR_VERSION (1u)
#define RAMTST_SW_MINOR_VERSION (0u)
#define RAMTST_SW_PATCH_VERSION (0u)

/* What RAMTST_DET reports: the service's row in the state table, and the error. */
#define RAMTST_SERVICE_INIT (0u)
#define RAMTST_SERVICE_DEINIT (1u)
#define RAMTST_SERVICE_ALLOW (2u)
#define RAMTST_SERVICE_STOP (3u)
#define RAMTST_SERVICE_SUSPEND (4u)
#define RAMTST_SERVICE_RESUME (5u)
#define RAMTST_SERVICE_SELECT_ALG_PARAMS (6u)
#define RAMTST_SERVICE_CHANGE_NUMBER_OF_TESTED_CELLS (7u)
#define RAMTST_SERVICE_RUN_FULL_TEST (8u)
#define RAMTST_SERVICE_RUN_PARTIAL_TEST (9u)
#define RAMTST_SERVICE_MAIN_FUNCTION (10u)
#define RAMTST_SERVICE_GET_TEST_RESULT_PER_BLOCK (11u)
#define RAMTST_SERVICE_GET_TEST_RESULT (12u)
#define RAMTST_SERVICE_GET_ALG_PARAMS (13u)
#define RAMTST_SERVICE_GET_TEST_ALGORITHM (14u)
#define RAMTST_SERVICE_GET_NUMBER_OF_TESTED_CELLS (15u)
#define RAMTST_SERVICE_GET_EXECUTION_STATUS (16u)
#define RAMTST_SERVICE_GET_VERSION_INFO (17u)
#define RAMTST_SERVICES (18u)

#define RAMTST_E_UNINIT (1u)
#define RAMTST_E_STATUS_FAILURE (2u)
#define RAMTST_E_OUT_OF_RANGE (3u)
#define RAMTST_E_PARAM_POINTER (4u)
#define RAMTST_E_CHECKSUM (5u) /* a table is not as it was generated */
#define RAMTST_E_BUSY (6u)     /* a running call was preempted by a service that may not preempt it */

typedef enum {
    RAMTST_EXECUTION_UNINIT = 0,
    RAMTST_EXECUTION_STOPPED = 1,
    RAMTST_EXECUTION_RUNNING = 2,
    RAMTST_EXECUTION_SUSPENDED = 3
} RamTst_ExecutionStatusType;

typedef enum {
    RAMTST_RESULT_NOT_TESTED = 0,
    RAMTST_RESULT_OK = 1,
    RAMTST_RESULT_NOT_OK = 2,
    RAMTST_RESULT_UNDEFINED = 3
} RamTst_TestResultType;

typedef enum {
    RAMTST_ALGORITHM_UNDEFINED = 0,
    RAMTST_CHECKERBOARD_TEST = 1,
    RAMTST_MARCH_TEST = 2,
    RAMTST_WALK_PATH_TEST = 3,
    RAMTST_GALPAT_TEST = 4,
    RAMTST_TRANSP_GALPAT_TEST = 5
} RamTst_AlgorithmType;

typedef uint32 RamTst_AlgParamsIdType;
typedef uint32 RamTst_NumberOfTestedCellsType;
typedef uint32 RamTst_NumberOfBlocksType;

/*
 * The columns of the state table: the four states, and those inside a full and a partial test, which show as RUNNING.
 */
#define RAMTST_STATE_UNINIT (0u)
#define RAMTST_STATE_STOPPED (1u)
#define RAMTST_STATE_RUNNING (2u)
#define RAMTST_STATE_SUSPENDED (3u)
#define RAMTST_STATE_FULL (4u)
#define RAMTST_STATE_PARTIAL (5u)
#define RAMTST_STATES (6u)

/* The first byte of a cell of the state table: how a call is answered. A refusal has the number of its error. */
#define RAMTST_REPLY_TAKEN (0u)
#define RAMTST_REPLY_UNINIT (1u)
#define RAMTST_REPLY_STATUS (2u)
#define RAMTST_REPLY_RESTS (4u) /* taken, and nothing is tested */

/* A cell of the state table: the reply, and the column of the next state. */
typedef struct {
    uint8 reply;
    uint8 next;
} RamTst_CellType;

/* A block: its words from `first` on, in slices of the set's `atomic` words, the last of which may be shorter. */
typedef struct {
    uint32 first;
    uint32 slices;
    uint8 rest;          /* the place of the last slice's plan among the set's */
    boolean destructive;
    MemTst_WordType fill;
} RamTst_BlockType;

/* A parameter set. */
typedef struct {
    uint8 algorithm;     /* a RamTst_AlgorithmType */
    boolean own;         /* the background of a cell is the word that it held */
    MemTst_WordType background;
    uint8 atomic;        /* the most words of a slice */
    uint32 cells;        /* the most words of a tick */
    uint8 retries;       /* how often urgent interrupts may drop the test of a slice in one event */
    uint8 full;          /* the place of the plan for `atomic` words */
    const MemTst_PlanType *plans;
    uint8 number_of_plans;
    const RamTst_BlockType *blocks;
    uint8 number_of_blocks;
    uint32 checksum;     /* over the fields above but the pointers, and over the blocks */
} RamTst_AlgParamsType;

typedef struct {
    const RamTst_AlgParamsType *sets;
    uint8 number_of_sets;
    const RamTst_CellType *cells;
    uint32 checksum;     /* over the cells of the state table */
} RamTst_ConfigType;

extern const RamTst_ConfigType RamTst_Config;

MEMTST_ASSERT(most_blocks, (RAMTST_MOST_BLOCKS >= 1u) && (RAMTST_MOST_BLOCKS <= 64u));
MEMTST_ASSERT(sets, (RAMTST_SETS >= 1u) && (RAMTST_SETS <= 16u));
MEMTST_ASSERT(cell_of_the_state_table, sizeof(RamTst_CellType) == 2u);

void RamTst_Init(const RamTst_ConfigType *ConfigPtr);
void RamTst_DeInit(void);
void RamTst_Stop(void);
void RamTst_Allow(void);
void RamTst_Suspend(void);
void RamTst_Resume(void);
RamTst_ExecutionStatusType RamTst_GetExecutionStatus(void);
RamTst_TestResultType RamTst_GetTestResult(void);
RamTst_TestResultType RamTst_GetTestResultPerBlock(RamTst_NumberOfBlocksType BlockID);
RamTst_AlgParamsIdType RamTst_GetAlgParams(void);
RamTst_AlgorithmType RamTst_GetTestAlgorithm(void);
RamTst_NumberOfTestedCellsType RamTst_GetNumberOfTestedCells(void);
void RamTst_SelectAlgParams(RamTst_AlgParamsIdType NewAlgParamsId);
void RamTst_ChangeNumberOfTestedCells(RamTst_NumberOfTestedCellsType NewNumberOfTestedCells);
void RamTst_RunFullTest(void);
void RamTst_RunPartialTest(RamTst_NumberOfBlocksType BlockId);
void RamTst_GetVersionInfo(Std_VersionInfoType *versioninfo);
void RamTst_MainFunction(void);

#endif
