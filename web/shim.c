/* What the module of the library calls outside of itself, for WebAssembly: memory, and two operations that this target has no instruction for.

   Memory is taken from the heap in blocks of 16 bytes more than a power of two. A block that is given back is kept in a list of its size, and is the next one
   of that size that is handed out. Nothing of a call of the library stays behind, so `btx_reset` takes all blocks back at once: the caller calls it before
   each job. One call runs at a time. */

typedef unsigned long long u64;
typedef unsigned long size; /* (of 32 bits, as an address is) */

/* An answer of a request for memory: whether it was granted, and the address, as the library keeps it. */
typedef struct {
    u64 granted, address;
} answer;

enum { HEADER = 16, CLASSES = 48, PAGE = 65536, LEAST = 4 };

extern char __heap_base;

/* A block that was given back: the next one of its list stands in it. */
typedef struct block {
    struct block *next;
} block;

static u64 top, most = ~0ull;
static block *kept[CLASSES];

/* Takes all memory back. */
void btx_reset(void) {
    top = 0;
    for (int class = 0; class < CLASSES; class++)
        kept[class] = 0;
}

/* Bounds the heap: a request past this many bytes is refused. */
void btx_limit(u64 bytes) {
    most = bytes;
}

/* The class of a size: the least power of two that is as great, from 16 bytes up. */
static int class_of(u64 bytes) {
    return bytes <= 1ull << LEAST ? LEAST : 64 - __builtin_clzll(bytes - 1);
}

/* Grows the memory until it ends at this address or after it. */
static int reach(u64 end) {
    u64 base = (size)&__heap_base, pages = __builtin_wasm_memory_size(0);
    if (end > 1ull << 32 || end - base > most)
        return 0;
    if (end <= pages * PAGE)
        return 1;
    /* (in steps of an eighth, so that a heap that grows asks seldom) */
    u64 wanted = (end - pages * PAGE + PAGE - 1) / PAGE, more = wanted + pages / 8;
    return __builtin_wasm_memory_grow(0, more) != ~0ul || __builtin_wasm_memory_grow(0, wanted) != ~0ul;
}

/* Takes a block of this many bytes; null if memory is refused. */
void *btx_alloc(u64 bytes) {
    if (bytes > 1ull << 32)
        return 0;
    int class = class_of(bytes);
    block *found = kept[class];
    if (found) {
        kept[class] = found->next;
        return found;
    }
    if (!top)
        top = ((size)&__heap_base + HEADER - 1) / HEADER * HEADER;
    u64 at = top + HEADER, end = at + (1ull << class);
    if (!reach(end))
        return 0;
    *(int *)(size)(at - HEADER) = class;
    top = end;
    return (void *)(size)at;
}

static answer answer_of(void *at) {
    answer given = {at != 0, (size)at};
    return given;
}

answer rattle_alloc(u64 bytes, u64 align) {
    return answer_of(btx_alloc(bytes));
}

void rattle_dealloc(void *at) {
    int class = *(int *)((char *)at - HEADER);
    ((block *)at)->next = kept[class];
    kept[class] = at;
}

answer rattle_realloc(void *at, u64 old, u64 bytes, u64 align) {
    if (bytes <= 1ull << *(int *)((char *)at - HEADER))
        return answer_of(at);
    void *more = btx_alloc(bytes);
    if (more) {
        __builtin_memcpy(more, at, old);
        rattle_dealloc(at);
    }
    return answer_of(more);
}

typedef unsigned __int128 wide;

/* The product of two integers of 128 bits, by their halves. */
wide __multi3(wide a, wide b) {
    u64 a_low = a, b_low = b, a0 = a_low & 0xffffffff, a1 = a_low >> 32, b0 = b_low & 0xffffffff, b1 = b_low >> 32;
    u64 low = a0 * b0, one = a0 * b1, other = a1 * b0;
    u64 middle = (low >> 32) + (one & 0xffffffff) + (other & 0xffffffff);
    u64 high = a1 * b1 + (one >> 32) + (other >> 32) + (middle >> 32) + a_low * (u64)(b >> 64) + (u64)(a >> 64) * b_low;
    return (wide)high << 64 | (low & 0xffffffff) | middle << 32;
}
