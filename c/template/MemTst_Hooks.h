/*
 * What the integrator fills in. README.md says of each hook what it has to do.
 *
 * These defaults suit one context without interrupts. MEMTST_RAM and MEMTST_FLASH have no default: they are given
 * here, or as macros of the compiler's command line.
 */
#ifndef MEMTST_HOOKS_H
#define MEMTST_HOOKS_H

/* Locks all interrupts that may touch a word under test, and unlocks them (SchM_Enter, SchM_Exit). Never nested. */
#define MEMTST_ENTER() ((void)0)
#define MEMTST_EXIT() ((void)0)

/* Completes a write before the read-back that follows it (DSB, DSYNC), with caches for these words switched off. */
#define MEMTST_BARRIER() ((void)0)

/* Whether an urgent interrupt waits for the end of the attempt: not 0 if so. */
#define MEMTST_URGENT() (0u)

/*
 * The addresses of RAM word 0 and flash word 0 of the configuration, as volatile pointers to words of MEMTST_WIDTH
 * bits.
 */
/* #define MEMTST_RAM ((volatile MemTst_WordType *)0x20000000u) */
/* #define MEMTST_FLASH ((const volatile MemTst_WordType *)0x08000000u) */

/* One access of a cell, counted from the RAM word with this number; and one of the flash word with this number. */
typedef volatile MemTst_WordType *MemTst_BaseType;
#define MEMTST_BASE(number) (MEMTST_RAM + (number))
#define MEMTST_LOAD(base, cell) ((base)[(cell)])
#define MEMTST_STORE(base, cell, word) ((base)[(cell)] = (word))
#define MEMTST_FLASH_LOAD(number) (MEMTST_FLASH[(number)])

/* Locks all contexts that call a service of the module, for a few assignments. Never nested. */
#define RAMTST_ENTER() ((void)0)
#define RAMTST_EXIT() ((void)0)
#define FLSTST_ENTER() ((void)0)
#define FLSTST_EXIT() ((void)0)

/* A refused call, for the default error tracer: the row of the service in the state table, and the error. */
#define RAMTST_DET(service, error) ((void)(service), (void)(error))
#define FLSTST_DET(service, error) ((void)(service), (void)(error))

/*
 * A slice or a comparison that failed, for the diagnostic event manager: the block, and in flash the first word that
 * differs.
 */
#define RAMTST_DEM(set, block) ((void)0)
#define FLSTST_DEM(kind, block, word) ((void)0)

#endif
