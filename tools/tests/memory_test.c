// Tries memory.c on this machine: what it allocates, moves and multiplies. Prints each thing that is wrong, and returns how many there are.
#define _GNU_SOURCE
#include <stdint.h>
#include <stdio.h>
#include <stdlib.h>
#include <sys/mman.h>

// The functions that a compiler calls by itself keep their names for the C library.
#define memcpy tried_memcpy
#define memmove tried_memmove
#define memset tried_memset
#define memcmp tried_memcmp
#define bcmp tried_bcmp
#define strlen tried_strlen
#define __multi3 tried_multi3
#define __ashlti3 tried_ashlti3
#define __lshrti3 tried_lshrti3
#define __ashrti3 tried_ashrti3
#include "../system/memory.c"

static int wrong;
static u64 mapped, pool_left = 64 << 20;

static void expect(int holds, const char *what) {
    if (holds) return;
    printf("wrong: %s\n", what);
    wrong++;
}

static void *pages(u64 size) {
    void *at = mmap(0, size, PROT_READ | PROT_WRITE, MAP_PRIVATE | MAP_ANONYMOUS, -1, 0);
    return at == MAP_FAILED ? 0 : at;
}

void *system_memory(u64 *size) {
    if (*size < 1 << 20) *size = 1 << 20;
    if (*size > pool_left) return 0;
    pool_left -= *size;
    return pages(*size);
}

// What is larger than a gigabyte is not there.
void *system_map(u64 size) {
    if (size > 1ul << 30) return 0;
    mapped += size;
    return pages(size);
}

void *system_remap(void *old, u64 old_size, u64 size) {
    if (size > 1ul << 30) return 0;
    mapped += size - old_size;
    void *at = mremap(old, old_size, size, MREMAP_MAYMOVE);
    return at == MAP_FAILED ? 0 : at;
}

void system_unmap(void *block, u64 size) {
    mapped -= size;
    munmap(block, size);
}

static u64 state = 88172645463325252ul;
static u64 next(void) {
    state ^= state << 13, state ^= state >> 7, state ^= state << 17;
    return state;
}

struct held {
    u8 *at;
    u64 size;
    u8 mark;
};

static int is_marked(const struct held *held) {
    for (u64 at = 0; at < held->size; at++)
        if (held->at[at] != held->mark) return 0;
    return 1;
}

static u64 some_size(void) {
    return next() % (next() % 20 ? 3000 : 400000);
}

// Blocks of many sizes are allocated, resized and freed in no order: each keeps its bytes, and none overlaps another.
static void try_blocks(void) {
    enum { COUNT = 200 };
    static struct held blocks[COUNT];
    for (int turn = 0; turn < 60000; turn++) {
        struct held *held = &blocks[next() % COUNT];
        u64 size = some_size();
        struct block got;
        if (!held->at) {
            got = rattle_alloc(size, 8);
        } else {
            if (turn % 97 == 0) expect(is_marked(held), "a block keeps its bytes");
            if (next() % 2) {
                rattle_dealloc(held->at);
                held->at = 0;
                continue;
            }
            got = rattle_realloc(held->at, held->size, size, 8);
            u64 common = size < held->size ? size : held->size;
            struct held moved = {got.at, common, held->mark};
            expect(got.is_there && is_marked(&moved), "a block that is resized keeps its bytes");
        }
        expect(got.is_there == 1 && (u64)got.at % 16 == 0, "a block is there, and aligned");
        *held = (struct held){got.at, size, (u8)next()};
        tried_memset(held->at, held->mark, size);
    }
    for (int at = 0; at < COUNT; at++)
        if (blocks[at].at) rattle_dealloc(blocks[at].at);
    expect(mapped == 0, "each large block is given back");
}

// The same blocks again and again need no more memory.
static void try_reuse(void) {
    for (int turn = 0; turn < 3; turn++) {
        u64 before = pool_left;
        void *held[1000];
        for (int at = 0; at < 1000; at++) held[at] = rattle_alloc((u64)at * 40, 8).at;
        for (int at = 0; at < 1000; at++) rattle_dealloc(held[at]);
        if (turn) expect(pool_left == before, "freed memory is used again");
    }
}

static void try_limits(void) {
    expect(!rattle_alloc(1ul << 62, 8).is_there, "no memory of so many bytes");
    expect(!rattle_alloc(~0ul, 8).is_there, "no memory of all bytes");
    expect(!rattle_alloc(2ul << 30, 8).is_there, "no memory where neither a map nor the pool has it");
    struct block small = rattle_alloc(100, 8);
    tried_memset(small.at, 7, 100);
    expect(!rattle_realloc(small.at, 100, ~0ul - 5, 8).is_there, "a block is not resized to so many bytes");
    struct held held = {small.at, 100, 7};
    expect(is_marked(&held), "a block that was not resized stays");
    struct block none = rattle_alloc(0, 8);
    expect(none.is_there && none.at, "a block of no bytes");
    rattle_dealloc(0);
}

static void try_moves(void) {
    u8 one[200], other[200];
    for (int turn = 0; turn < 20000; turn++) {
        u64 from = next() % 90, to = next() % 90, size = next() % 100;
        for (int at = 0; at < 200; at++) one[at] = other[at] = (u8)next();
        tried_memmove(one + to, one + from, size);
        u8 copy[100];
        for (u64 at = 0; at < size; at++) copy[at] = other[from + at];
        for (u64 at = 0; at < size; at++) other[to + at] = copy[at];
        for (int at = 0; at < 200; at++) expect(one[at] == other[at], "memmove");
        expect(tried_memcmp(one, other, 200) == 0, "memcmp of the same");
        one[from] ^= 0x80;
        expect((tried_memcmp(one, other, 200) > 0) == (one[from] > other[from]), "memcmp of others");
        expect(tried_bcmp(one, other, from) == 0 && tried_bcmp(one, other, from + 1) != 0, "bcmp");
    }
    expect(tried_strlen("") == 0 && tried_strlen("four") == 4, "strlen");
}

static void try_numbers(void) {
    for (int turn = 0; turn < 200000; turn++) {
        u128 a = of_halves(next() >> next() % 64, next()), b = of_halves(next() >> next() % 64, next());
        int places = (int)(next() % 128);
        expect((u128)tried_multi3((i128)a, (i128)b) == a * b, "multiply");
        expect((u128)tried_ashlti3((i128)a, places) == a << places, "shift left");
        expect((u128)tried_lshrti3((i128)a, places) == a >> places, "shift right");
        i128 negative = -(i128)(a >> 1);
        expect(tried_ashrti3(negative, places) == negative >> places, "shift right with the sign");
    }
}

int main(void) {
    try_blocks();
    try_reuse();
    try_limits();
    try_moves();
    try_numbers();
    return wrong ? 1 : 0;
}
