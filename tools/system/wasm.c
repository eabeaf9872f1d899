// WebAssembly: the module imports its calls from its host, as system.h says. Here is what it does by itself.
#include "system.h"

// There is no environment, and no signal.
i64 system_variable(u64 at, u8 *to, u64 size) {
    (void)at, (void)to, (void)size;
    return -1;
}

void system_ignore_broken_pipes(void) {}

// The memory grows at its end, and is never given back.
extern u8 __heap_base;
enum { PAGE = 65536, LEAST_PAGES = 16 };
static u8 *end;

void *system_memory(u64 *size) {
    if (!end) {
        u64 begin = ((u64)&__heap_base + 15) & ~15ul;
        end = (u8 *)(__builtin_wasm_memory_size(0) * PAGE);
        if ((u64)end - begin >= *size) {
            *size = (u64)end - begin;
            return (void *)begin;
        }
    }
    u64 pages = (*size + PAGE - 1) / PAGE;
    if (pages < LEAST_PAGES) pages = LEAST_PAGES;
    if (__builtin_wasm_memory_grow(0, pages) == (u64)-1) return 0;
    u8 *more = end;
    *size = pages * PAGE;
    end += *size;
    return more;
}

void *system_map(u64 size) {
    (void)size;
    return 0;
}

void *system_remap(void *old, u64 old_size, u64 size) {
    (void)old, (void)old_size, (void)size;
    return 0;
}

void system_unmap(void *block, u64 size) {
    (void)block, (void)size;
}

int uxn_main(void);

// What the host calls, by its name, which the linker exports: it returns the exit status.
int run(void) {
    return uxn_main();
}
