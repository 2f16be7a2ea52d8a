/* The heap of the page's module. A block is cut from the front of the memory that is free; only the latest one is given back by
   itself. Between two calls the page gives all of them back at once, since a call frees all that it took. */

typedef unsigned long size;

/* What the proved code is told: whether there is memory, and the block. The first part is as wide as the module reads it, which
   was written for x86-64. */
typedef struct {
    size ok;
    void *block;
} Tried;

/* No block has more bytes, so that no sum of sizes wraps. */
#define MOST_BYTES (1ul << 32)
#define PAGE 65536ul

extern unsigned char __heap_base;
static size end, latest;

static size whole(size bytes) { return (bytes + 15) & ~15ul; }

__attribute__((export_name("page_reset"))) void page_reset(void) {
    end = whole((size)&__heap_base);
    latest = 0;
}

/* Makes the block at a place the latest one, with so many bytes, if the memory can have them. */
static Tried reach(size place, size bytes) {
    size wanted = place + whole(bytes ? bytes : 1), had = __builtin_wasm_memory_size(0) * PAGE;
    if (bytes > MOST_BYTES || (wanted > had && __builtin_wasm_memory_grow(0, (wanted - had + PAGE - 1) / PAGE) == ~0ul))
        return (Tried){0, &__heap_base};
    end = wanted;
    latest = place;
    return (Tried){1, (void *)place};
}

/* Each alignment that is asked for divides 16. */
Tried rattle_alloc(size bytes, size alignment) {
    (void)alignment;
    if (!end) page_reset();
    return reach(end, bytes);
}

Tried rattle_realloc(void *block, size kept, size bytes, size alignment) {
    if ((size)block == latest) return reach(latest, bytes);
    Tried tried = rattle_alloc(bytes, alignment);
    if (tried.ok) __builtin_memcpy(tried.block, block, kept < bytes ? kept : bytes);
    return tried;
}

void rattle_dealloc(void *block) {
    if ((size)block == latest) {
        end = latest;
        latest = 0;
    }
}

/* Room for the page's own bytes: nothing if there is no memory. */
__attribute__((export_name("page_take"))) void *page_take(size bytes) {
    Tried tried = rattle_alloc(bytes, 16);
    return tried.ok ? tried.block : 0;
}
