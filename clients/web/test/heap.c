/* Tests the module's heap on this machine: an arena stands in the memory's place, and a caller by chance allocates, grows, shrinks and
   frees, and looks at each byte that it wrote. It prints what is wrong, and ends with 1. Usage: heap [CALLS] */
#include <stdio.h>
#include <stdlib.h>
#include <string.h>
#include "../heap.c"

enum { PAGES = 96, PIECES = 3000 };
static unsigned char arena[PAGES << PAGE_BITS] __attribute__((aligned(16)));
static size_t pages = 1;

/* (not aligned, as __heap_base may be) */
uintptr_t memory_start(void) { return (uintptr_t)arena + 40; }
uintptr_t memory_end(void) { return (uintptr_t)arena + (pages << PAGE_BITS); }

int memory_grows(size_t more) {
    if (more > PAGES - pages) return 0;
    pages += more;
    return 1;
}

static struct {
    unsigned char *at, tag;
    size_t size;
} pieces[PIECES];
static size_t refused;

static void fail(const char *why) {
    printf("heap: %s\n", why);
    exit(1);
}

/* xorshift64, so that each machine tests the same */
static uint64_t chance(uint64_t below) {
    static uint64_t state = 88172645463325252u;
    state ^= state << 13;
    state ^= state >> 7;
    state ^= state << 17;
    return state % below;
}

static size_t any_size(void) { return chance(64) ? chance(300) : chance(400000); }

static void look(int k, size_t size) {
    for (size_t i = 0; i < size; i++)
        if (pieces[k].at[i] != pieces[k].tag) fail("a byte has changed");
}

static void fill(int k, allocated it, size_t size) {
    if ((uintptr_t)it.at % ALIGNMENT) fail("a piece isn't aligned");
    if ((unsigned char *)it.at < arena || (unsigned char *)it.at + size > arena + (pages << PAGE_BITS)) fail("a piece lies outside");
    pieces[k].at = it.at;
    pieces[k].size = size;
    pieces[k].tag = (unsigned char)chance(256);
    memset(it.at, pieces[k].tag, size);
}

static void allocate(int k) {
    size_t size = any_size();
    allocated it = rattle_alloc(size, ALIGNMENT);
    if (it.ok) fill(k, it, size);
    else refused++;
}

static void reallocate(int k) {
    size_t size = any_size(), kept = size < pieces[k].size ? size : pieces[k].size;
    allocated it = rattle_realloc(pieces[k].at, kept, size, ALIGNMENT);
    if (!it.ok) {
        refused++;
        return;
    }
    pieces[k].at = it.at;
    look(k, kept);
    fill(k, it, size);
}

static void release_piece(int k) {
    look(k, pieces[k].size);
    rattle_dealloc(pieces[k].at);
    pieces[k].at = 0;
}

int main(int count, char **words) {
    long calls = count > 1 ? atol(words[1]) : 3000000;
    for (long i = 0; i < calls; i++) {
        int k = (int)chance(PIECES);
        if (!pieces[k].at) allocate(k);
        else if (chance(3)) release_piece(k);
        else reallocate(k);
    }
    if (!refused) fail("memory was never wanting, so this isn't tested");
    if (rattle_alloc(MOST + 1, 1).ok || rattle_alloc(1, 2 * ALIGNMENT).ok) fail("what it can't give isn't refused");
    for (int k = 0; k < PIECES; k++)
        if (pieces[k].at) release_piece(k);
    if (after((block *)(arena + 48)) != end) fail("freed blocks aren't one");
    printf("heap: ok (%ld calls, %zu refused)\n", calls, refused);
    return 0;
}
