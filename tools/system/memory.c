// Memory: the blocks that the program allocates, and the functions of memory and of numbers of 128 bits that a compiler calls by itself.
#include "system.h"

// A block begins with its header. Small blocks have one of a few sizes, four for each doubling. A block that was freed waits, for the next
// of its size, in the list of its size. A large block is mapped by itself and unmapped when it is freed.
struct header {
    u64 size;
    u64 list;
};

enum { LISTS = 192, MAPPED = LISTS, LEAST_SHIFT = 4 };
static const u64 most = 1ul << 46;

static struct header *lists[LISTS];
static u8 *free_from, *free_to;

static int shift_of(u64 size) {
    int shift = 61 - __builtin_clzl((size - 1) | 1);
    return shift < LEAST_SHIFT ? LEAST_SHIFT : shift;
}

// Where the blocks of a list are linked: in their first bytes after the header.
static struct header **next_of(struct header *block) {
    return (struct header **)(block + 1);
}

static struct header *cut_block(u64 size) {
    if ((u64)(free_to - free_from) < size) {
        u64 got = size;
        u8 *more = system_memory(&got);
        if (!more) return 0;
        if (more != free_to) free_from = more;
        free_to = more + got;
        if ((u64)(free_to - free_from) < size) return 0;
    }
    struct header *block = (struct header *)free_from;
    free_from += size;
    return block;
}

static struct header *map_block(u64 size) {
    struct header *block = system_map(size);
    if (block) *block = (struct header){size, MAPPED};
    return block;
}

static void *allocate(u64 wanted) {
    if (wanted > most) return 0;
    u64 size = wanted + sizeof(struct header);
    if (size >= LARGE) {
        struct header *block = map_block(size);
        if (block) return block + 1;
    }
    int shift = shift_of(size);
    u64 steps = (size + (1ul << shift) - 1) >> shift;
    u64 list = (u64)(shift - LEAST_SHIFT) * 4 + steps;
    struct header *block = lists[list];
    if (block) {
        lists[list] = *next_of(block);
    } else {
        block = cut_block(steps << shift);
        if (!block) return 0;
        *block = (struct header){steps << shift, list};
    }
    return block + 1;
}

static void release(void *at) {
    struct header *block = (struct header *)at - 1;
    if (block->list == MAPPED) {
        system_unmap(block, block->size);
        return;
    }
    *next_of(block) = lists[block->list];
    lists[block->list] = block;
}

void *memcpy(void *restrict to, const void *restrict from, u64 size);

static void *reallocate(void *at, u64 wanted) {
    struct header *block = (struct header *)at - 1;
    if (wanted > most) return 0;
    u64 size = wanted + sizeof(struct header);
    if (block->list == MAPPED && size >= LARGE) {
        block = system_remap(block, block->size, size);
        if (!block) return 0;
        block->size = size;
        return block + 1;
    }
    if (block->list != MAPPED && size <= block->size) return at;
    void *to = allocate(wanted);
    if (!to) return 0;
    u64 held = block->size - sizeof(struct header);
    memcpy(to, at, held < wanted ? held : wanted);
    release(at);
    return to;
}

// What the program calls for memory. A block of no bytes is one of its alignment, which is at most 16.
struct block {
    u64 is_there;
    void *at;
};
static u8 nothing;

static struct block block_at(void *at) {
    return (struct block){at != 0, at ? at : &nothing};
}

struct block rattle_alloc(u64 size, u64 alignment) {
    return block_at(allocate(size ? size : alignment));
}

struct block rattle_realloc(void *at, u64 old_size, u64 size, u64 alignment) {
    (void)old_size;
    return block_at(reallocate(at, size ? size : alignment));
}

void rattle_dealloc(void *at) {
    if (at) release(at);
}

// Eight bytes at any address.
typedef u64 __attribute__((aligned(1), may_alias)) word;

void *memcpy(void *restrict to, const void *restrict from, u64 size) {
    u8 *at = to;
    const u8 *source = from;
    for (; size >= 8; size -= 8, at += 8, source += 8) *(word *)at = *(const word *)source;
    while (size--) *at++ = *source++;
    return to;
}

void *memmove(void *to, const void *from, u64 size) {
    u8 *at = to;
    const u8 *source = from;
    if ((u64)at - (u64)source >= size) return memcpy(to, from, size);
    for (; size >= 8; size -= 8) *(word *)(at + size - 8) = *(const word *)(source + size - 8);
    while (size--) at[size] = source[size];
    return to;
}

void *memset(void *to, int byte, u64 size) {
    u8 *at = to;
    u64 eight = 0x0101010101010101ul * (u8)byte;
    for (; size >= 8; size -= 8, at += 8) *(word *)at = eight;
    while (size--) *at++ = (u8)byte;
    return to;
}

int memcmp(const void *left, const void *right, u64 size) {
    const u8 *a = left, *b = right;
    for (; size; size--, a++, b++)
        if (*a != *b) return *a - *b;
    return 0;
}

int bcmp(const void *left, const void *right, u64 size) {
    return memcmp(left, right, size);
}

u64 strlen(const char *text) {
    u64 size = 0;
    while (text[size]) size++;
    return size;
}

// Numbers of 128 bits, of which one register holds a half.
typedef __int128 i128;
typedef unsigned __int128 u128;

static u128 of_halves(u64 high, u64 low) {
    return ((u128)high << 64) | low;
}

static u64 high_half(u128 number) {
    return (u64)(number >> 64);
}

i128 __multi3(i128 a, i128 b) {
    u64 a_low = (u64)a, b_low = (u64)b;
    u64 a0 = (u32)a_low, a1 = a_low >> 32, b0 = (u32)b_low, b1 = b_low >> 32;
    u64 middle = (a0 * b0 >> 32) + (u32)(a0 * b1) + (u32)(a1 * b0);
    u64 low = (middle << 32) | (u32)(a0 * b0);
    u64 high = a1 * b1 + (a0 * b1 >> 32) + (a1 * b0 >> 32) + (middle >> 32);
    high += a_low * high_half((u128)b) + high_half((u128)a) * b_low;
    return (i128)of_halves(high, low);
}

i128 __ashlti3(i128 number, int places) {
    u64 low = (u64)number, high = high_half((u128)number);
    if (!places) return number;
    if (places >= 64) return (i128)of_halves(low << (places - 64), 0);
    return (i128)of_halves(high << places | low >> (64 - places), low << places);
}

i128 __lshrti3(i128 number, int places) {
    u64 low = (u64)number, high = high_half((u128)number);
    if (!places) return number;
    if (places >= 64) return (i128)of_halves(0, high >> (places - 64));
    return (i128)of_halves(high >> places, low >> places | high << (64 - places));
}

i128 __ashrti3(i128 number, int places) {
    u64 low = (u64)number;
    i64 high = (i64)high_half((u128)number);
    if (!places) return number;
    if (places >= 64) return (i128)of_halves((u64)(high >> 63), (u64)(high >> (places - 64)));
    return (i128)of_halves((u64)(high >> places), low >> places | (u64)high << (64 - places));
}
