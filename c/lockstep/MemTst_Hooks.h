/* The hooks of lockstep: each access is compared with the one that the proved engine asks for. */
#ifndef MEMTST_HOOKS_H
#define MEMTST_HOOKS_H

uint64 lockstep_load(uint32 number);
void lockstep_store(uint32 number, uint64 word);
uint32 lockstep_is_urgent(void);

#define MEMTST_ENTER() ((void)0)
#define MEMTST_EXIT() ((void)0)
#define MEMTST_BARRIER() ((void)0)
#define MEMTST_URGENT() lockstep_is_urgent()
typedef uint32 MemTst_BaseType;
#define MEMTST_BASE(number) (number)
#define MEMTST_LOAD(base, cell) ((MemTst_WordType)lockstep_load((base) + (cell)))
#define MEMTST_STORE(base, cell, word) lockstep_store((base) + (cell), (word))
#define MEMTST_FLASH_LOAD(number) ((MemTst_WordType)0u * (MemTst_WordType)(number))

#endif
