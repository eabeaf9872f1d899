// Linux on aarch64: each call is one of the kernel.
#include "system.h"

enum {
    UNLINKAT = 35, OPENAT = 56, CLOSE = 57, GETDENTS64 = 61, LSEEK = 62, READ = 63, WRITE = 64, EXIT_GROUP = 94,
    RT_SIGACTION = 134, MUNMAP = 215, MREMAP = 216, MMAP = 222, STATX = 291,
};

static i64 kernel(i64 call, u64 a, u64 b, u64 c, u64 d, u64 e, u64 f) {
    register u64 x0 __asm__("x0") = a;
    register u64 x1 __asm__("x1") = b;
    register u64 x2 __asm__("x2") = c;
    register u64 x3 __asm__("x3") = d;
    register u64 x4 __asm__("x4") = e;
    register u64 x5 __asm__("x5") = f;
    register i64 x8 __asm__("x8") = call;
    __asm__ volatile("svc #0" : "+r"(x0) : "r"(x1), "r"(x2), "r"(x3), "r"(x4), "r"(x5), "r"(x8) : "memory");
    return (i64)x0;
}

i64 system_read(int file, void *to, u64 size) {
    return kernel(READ, (u64)(i64)file, (u64)to, size, 0, 0, 0);
}

i64 system_write(int file, const void *from, u64 size) {
    return kernel(WRITE, (u64)(i64)file, (u64)from, size, 0, 0, 0);
}

// Two flags have other numbers here than on x86-64.
enum { FOLDER_HERE = 040000, NO_LINK_HERE = 0100000 };

i64 system_open(int folder, const char *path, int flags, int mode) {
    int here = flags & ~(OPEN_FOLDER | OPEN_NO_LINK);
    if (flags & OPEN_FOLDER) here |= FOLDER_HERE;
    if (flags & OPEN_NO_LINK) here |= NO_LINK_HERE;
    return kernel(OPENAT, (u64)(i64)folder, (u64)path, (u64)here, (u64)mode, 0, 0);
}

i64 system_close(int file) {
    return kernel(CLOSE, (u64)(i64)file, 0, 0, 0, 0, 0);
}

i64 system_seek(int file, i64 offset, int whence) {
    return kernel(LSEEK, (u64)(i64)file, (u64)offset, (u64)whence, 0, 0, 0);
}

i64 system_status(int folder, const char *path, int flags, u32 mask, void *to) {
    return kernel(STATX, (u64)(i64)folder, (u64)path, (u64)flags, mask, (u64)to, 0);
}

i64 system_list(int folder, void *to, u64 size) {
    return kernel(GETDENTS64, (u64)(i64)folder, (u64)to, size, 0, 0, 0);
}

i64 system_unlink(const char *path) {
    return kernel(UNLINKAT, (u64)(i64)-100, (u64)path, 0, 0, 0, 0);
}

static u64 argument_count;
static u8 **arguments;

u64 system_argument_count(void) {
    return argument_count;
}

// Puts at most `size` bytes of a text at `to`, and returns how many it has, or one more than `size` if it has more.
static i64 put_text(const u8 *text, u8 *to, u64 size) {
    u64 at = 0;
    for (; text[at]; at++) {
        if (at == size) return (i64)size + 1;
        to[at] = text[at];
    }
    return (i64)at;
}

i64 system_argument(u64 at, u8 *to, u64 size) {
    return at < argument_count ? put_text(arguments[at], to, size) : -1;
}

// The environment lies after the arguments and a null.
i64 system_variable(u64 at, u8 *to, u64 size) {
    u8 **variables = arguments + argument_count + 1;
    for (u64 before = 0; before < at; before++)
        if (!variables[before]) return -1;
    return variables[at] ? put_text(variables[at], to, size) : -1;
}

void system_ignore_broken_pipes(void) {
    struct {
        u64 handler, flags, restorer, mask;
    } ignore = {1, 0, 0, 0};
    kernel(RT_SIGACTION, 13, (u64)&ignore, 0, sizeof ignore.mask, 0, 0);
}

static void *block_or_null(i64 answer) {
    return answer < 0 && answer > -4096 ? 0 : (void *)answer;
}

void *system_map(u64 size) {
    return block_or_null(kernel(MMAP, 0, size, 1 | 2, 2 | 32, (u64)-1, 0));
}

void *system_remap(void *old, u64 old_size, u64 size) {
    return block_or_null(kernel(MREMAP, (u64)old, old_size, size, 1, 0, 0));
}

void system_unmap(void *block, u64 size) {
    kernel(MUNMAP, (u64)block, size, 0, 0, 0, 0);
}

void *system_memory(u64 *size) {
    if (*size < 1ul << 20) *size = 1ul << 20;
    return system_map(*size);
}

int uxn_main(void);

__attribute__((noreturn, used)) static void start(u64 *stack) {
    argument_count = *stack;
    arguments = (u8 **)(stack + 1);
    int status = uxn_main();
    for (;;) kernel(EXIT_GROUP, (u64)status, 0, 0, 0, 0, 0);
}

// The kernel begins here, with the arguments on the stack, which is aligned.
__asm__(".globl _start\n_start:\n mov x29, #0\n mov x30, #0\n mov x0, sp\n b start\n");
