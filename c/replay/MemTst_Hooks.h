/* The hooks of the replay: a simulated memory answers each access, and interrupt requests of the script are served. */
#ifndef MEMTST_HOOKS_H
#define MEMTST_HOOKS_H

#include "board.h"

#define MEMTST_ENTER() board_lock()
#define MEMTST_EXIT() board_unlock()
#define MEMTST_BARRIER() ((void)0)
#define MEMTST_URGENT() board_is_urgent()

typedef uint32 MemTst_BaseType;
#define MEMTST_BASE(number) (number)
#define MEMTST_LOAD(base, cell) ((MemTst_WordType)board_load((base) + (cell)))
#define MEMTST_STORE(base, cell, word) board_store((base) + (cell), (word))
#define MEMTST_FLASH_LOAD(number) ((MemTst_WordType)board_load_flash(number))

/* The boundary of an event: what a sequence left was entered, so that the requests that are due are served. */
#define RAMTST_ENTER() board_enter()
#define RAMTST_EXIT() board_exit()
#define FLSTST_ENTER() board_enter()
#define FLSTST_EXIT() board_exit()

#define RAMTST_DET(service, error) board_refuse((service), (error))
#define FLSTST_DET(service, error) board_refuse((service), (error))
#define RAMTST_DEM(set, block) ((void)(set), (void)(block))
#define FLSTST_DEM(kind, block, word) ((void)(kind), (void)(block), (void)(word))

#endif
