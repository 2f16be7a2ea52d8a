/* The hooks of the calls that no script makes: a plain memory, and a place from which a test may be disturbed. */
#ifndef MEMTST_HOOKS_H
#define MEMTST_HOOKS_H

extern MemTst_WordType misuse_ram[MEMTST_RAM_WORDS];
extern MemTst_WordType misuse_flash[MEMTST_FLASH_WORDS + 1u];
extern uint32 misuse_error;

/* Called under each lock, and after each lock and each area. */
void misuse_inside(void);
void misuse_outside(void);

#define MEMTST_ENTER() ((void)0)
#define MEMTST_EXIT() misuse_outside()
#define MEMTST_BARRIER() misuse_inside()
#define MEMTST_URGENT() (0u)
typedef MemTst_WordType *MemTst_BaseType;
#define MEMTST_BASE(number) (misuse_ram + (number))
#define MEMTST_LOAD(base, cell) ((base)[(cell)])
#define MEMTST_STORE(base, cell, word) ((base)[(cell)] = (word))
#define MEMTST_FLASH_LOAD(number) (misuse_flash[(number)])
#define RAMTST_ENTER() ((void)0)
#define RAMTST_EXIT() ((void)0)
#define FLSTST_ENTER() ((void)0)
#define FLSTST_EXIT() ((void)0)
#define RAMTST_DET(service, error) ((void)(service), misuse_error = (error))
#define FLSTST_DET(service, error) ((void)(service), misuse_error = (error))
#define RAMTST_DEM(set, block) ((void)(set), (void)(block))
#define FLSTST_DEM(kind, block, word) ((void)(kind), (void)(block), (void)(word))

#endif
