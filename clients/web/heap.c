/*
 * The heap of vemodel.wasm: two-level segregated fit (TLSF) over the module's memory, from __heap_base on. It defines the three
 * functions that the proved code calls for memory, and two for the module's host. No proof covers it; clients/web/test/heap.c
 * tests it on the machine itself, with an arena in the memory's place.
 *
 * The heap is a row of blocks without gaps, each with a header of 16 bytes: the size of the block before it, and its own size,
 * with a bit that says whether it is used. No two free blocks stand side by side. A free block is in the list of its size: a row
 * for each power of two, with 16 columns each. Bits say which lists hold something, so that one is found in a few steps.
 */
typedef __SIZE_TYPE__ size_t;
typedef __UINTPTR_TYPE__ uintptr_t;
typedef __UINT32_TYPE__ uint32_t;
typedef __UINT64_TYPE__ uint64_t;

#ifdef __wasm__
extern unsigned char __heap_base;

static uintptr_t memory_start(void) { return (uintptr_t)&__heap_base; }
static uintptr_t memory_end(void) { return __builtin_wasm_memory_size(0) << 16; }

/* Over a 32-bit memory the engine's -1 comes as 32 bits. */
static int memory_grows(size_t pages) { return (uint32_t)__builtin_wasm_memory_grow(0, pages) != 0xffffffff; }
#else
uintptr_t memory_start(void);
uintptr_t memory_end(void);
int memory_grows(size_t pages);
#endif

/* Whether there was memory, and where. */
typedef struct {
    uint64_t ok;
    void *at;
} allocated;

typedef struct block {
    size_t size_before;
    size_t size_and_used;
    struct block *next, *previous; /* in a free block: its neighbours in its list */
} block;

enum { PAGE_BITS = 16, ALIGNMENT = 16, HEADER = 16, LEAST = sizeof(block), COLUMN_BITS = 4, COLUMNS = 1 << COLUMN_BITS, ROWS = 44 };
static const size_t USED = 1, MOST = (size_t)1 << 44;

static block *lists[ROWS][COLUMNS];
static uint64_t rows_held;
static uint32_t columns_held[ROWS];
static block *end; /* a used block of size 0, once there is a heap */

static size_t size_of(const block *it) { return it->size_and_used & ~USED; }
static int is_used(const block *it) { return it->size_and_used & USED; }
static block *after(block *it) { return (block *)((unsigned char *)it + size_of(it)); }
static block *before(block *it) { return (block *)((unsigned char *)it - it->size_before); }
static void *contents(block *it) { return (unsigned char *)it + HEADER; }
static block *block_of(void *contents) { return (block *)((unsigned char *)contents - HEADER); }
static int log2_of(size_t n) { return 63 - __builtin_clzll(n); }

/* Makes of a block one of this size, without a look at what stands behind it but its header. */
static void resize(block *it, size_t size, size_t used) {
    it->size_and_used = size | used;
    after(it)->size_before = size;
}

/* The list of the free blocks of about this size. */
typedef struct {
    int row, column;
} place;

static place place_of(size_t size) {
    int log = log2_of(size);
    return (place){log - COLUMN_BITS, (int)(size >> (log - COLUMN_BITS)) & (COLUMNS - 1)};
}

static void put(block *it) {
    place at = place_of(size_of(it));
    it->previous = 0;
    it->next = lists[at.row][at.column];
    if (it->next) it->next->previous = it;
    lists[at.row][at.column] = it;
    rows_held |= (uint64_t)1 << at.row;
    columns_held[at.row] |= (uint32_t)1 << at.column;
}

static void take(block *it) {
    place at = place_of(size_of(it));
    if (it->next) it->next->previous = it->previous;
    if (it->previous) it->previous->next = it->next;
    else lists[at.row][at.column] = it->next;
    if (!lists[at.row][at.column]) columns_held[at.row] &= ~((uint32_t)1 << at.column);
    if (!columns_held[at.row]) rows_held &= ~((uint64_t)1 << at.row);
}

/* A free block of at least this size, or none. It looks from the first list on of which each block is large enough. */
static block *find(size_t size) {
    place at = place_of(size + ((size_t)1 << (log2_of(size) - COLUMN_BITS)) - 1);
    uint32_t columns = columns_held[at.row] & (~(uint32_t)0 << at.column);
    if (!columns) {
        uint64_t rows = rows_held & (~(uint64_t)0 << (at.row + 1));
        if (!rows) return 0;
        at.row = __builtin_ctzll(rows);
        columns = columns_held[at.row];
    }
    return lists[at.row][__builtin_ctz(columns)];
}

/* Makes a used block free, and one with the free blocks beside it. */
static void release(block *it) {
    size_t size = size_of(it);
    block *next = after(it);
    if (!is_used(next)) {
        take(next);
        size += size_of(next);
    }
    if (it->size_before && !is_used(before(it))) {
        it = before(it);
        take(it);
        size += size_of(it);
    }
    resize(it, size, 0);
    put(it);
}

/* Makes a used block one of this size, and gives back the rest, where that is a block. */
static void cut(block *it, size_t size) {
    size_t rest = size_of(it) - size;
    if (rest < LEAST) return;
    resize(it, size, USED);
    resize(after(it), rest, USED);
    release(after(it));
}

/* Makes a free block of what stands from here to the end of the memory, but for a new end. */
static void reach_end(block *from) {
    size_t size = memory_end() - (uintptr_t)from - HEADER;
    end = (block *)((unsigned char *)from + size);
    end->size_and_used = USED;
    resize(from, size, USED);
    release(from);
}

/* Grows the memory for a block of this size: by an eighth, or by what is needed where that is more or there is no more. */
static int grow(size_t size) {
    size_t need = (size + size / COLUMNS + 2 * HEADER + ALIGNMENT + ((size_t)1 << PAGE_BITS) - 1) >> PAGE_BITS;
    size_t eighth = memory_end() >> PAGE_BITS >> 3;
    if (!(eighth > need && memory_grows(eighth)) && !memory_grows(need)) return 0;
    if (end) {
        reach_end(end);
        return 1;
    }
    block *first = (block *)((memory_start() + ALIGNMENT - 1) & ~(uintptr_t)(ALIGNMENT - 1));
    first->size_before = 0;
    reach_end(first);
    return 1;
}

/* The size of a block that holds so many bytes. */
static size_t size_for(size_t bytes) {
    size_t size = (bytes + HEADER + ALIGNMENT - 1) & ~(size_t)(ALIGNMENT - 1);
    return size < LEAST ? LEAST : size;
}

allocated rattle_alloc(size_t bytes, size_t alignment) {
    if (bytes > MOST || alignment > ALIGNMENT) return (allocated){0, 0};
    size_t size = size_for(bytes);
    block *it = find(size);
    if (!it && grow(size)) it = find(size);
    if (!it) return (allocated){0, 0};
    take(it);
    it->size_and_used |= USED;
    cut(it, size);
    return (allocated){1, contents(it)};
}

void rattle_dealloc(void *at) {
    if (at) release(block_of(at));
}

/* Where the block has no room, nor the free one behind it, its first bytes, as many as are kept, go to another one. */
allocated rattle_realloc(void *at, size_t kept, size_t bytes, size_t alignment) {
    if (!at) return rattle_alloc(bytes, alignment);
    if (bytes > MOST) return (allocated){0, 0};
    block *it = block_of(at), *next = after(it);
    size_t size = size_for(bytes);
    if (size_of(it) < size && !is_used(next) && size_of(it) + size_of(next) >= size) {
        take(next);
        resize(it, size_of(it) + size_of(next), USED);
    }
    if (size_of(it) >= size) {
        cut(it, size);
        return (allocated){1, at};
    }
    allocated moved = rattle_alloc(bytes, alignment);
    if (moved.ok) {
        __builtin_memcpy(moved.at, at, kept);
        release(it);
    }
    return moved;
}

#ifdef __wasm__
/* Room for the host's lines, replies and handles; 0 where there is none. */
__attribute__((export_name("vemodel_room"))) void *vemodel_room(size_t bytes) {
    return rattle_alloc(bytes, ALIGNMENT).at;
}

__attribute__((export_name("vemodel_free"))) void vemodel_free(void *at) {
    rattle_dealloc(at);
}
#endif
