// The heap of the page: what libc/c/heap.c of the kit is to a Linux program, over WebAssembly's memory. A
// block has 2^class bytes, the first 16 of them a header; each class has a list of its free blocks.
typedef unsigned long u64;
typedef unsigned char u8;
typedef struct { u64 ok; void *p; } Tried;
typedef struct Block { u64 class; struct Block *next; } Block;
extern u8 __heap_base;
static Block *freed[48];
static u8 *top;
static u8 nothing[16] __attribute__((aligned(16)));

static u8 *take(u64 n) {
    u64 class = 5;
    if (n > 1UL << 40) return 0;
    while ((1UL << class) < n + 16) class++;
    Block *b = freed[class];
    if (b) {
        freed[class] = b->next;
        return (u8 *)b + 16;
    }
    if (!top) top = (u8 *)(((u64)&__heap_base + 15) & ~15UL);
    u64 end = (u64)top + (1UL << class), have = __builtin_wasm_memory_size(0) << 16;
    if (end > have && __builtin_wasm_memory_grow(0, (end - have + 65535) >> 16) == ~0UL) return 0;
    b = (Block *)top;
    top += 1UL << class;
    b->class = class;
    return (u8 *)b + 16;
}

static void give(void *p) {
    Block *b = (Block *)((u8 *)p - 16);
    if (p == nothing || !p) return;
    b->next = freed[b->class];
    freed[b->class] = b;
}

Tried rattle_alloc(u64 n, u64 align) {
    (void)align;
    u8 *p = take(n ? n : 1);
    return (Tried){p != 0, p ? p : nothing};
}

Tried rattle_realloc(void *p, u64 kept, u64 n, u64 align) {
    (void)align;
    Block *b = (Block *)((u8 *)p - 16);
    if (n + 16 <= 1UL << b->class && n + 16 > 1UL << (b->class - 1)) return (Tried){1, p};
    u8 *q = take(n ? n : 1);
    if (!q) return (Tried){0, nothing};
    __builtin_memcpy(q, p, kept < n ? kept : n);
    give(p);
    return (Tried){1, q};
}

void rattle_dealloc(void *p) { give(p); }

// For the page's script: room for what it passes in and reads out.
void *page_room(u64 n) { return take(n); }
void page_done(void *p) { give(p); }
