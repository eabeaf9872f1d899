// The functions of the C library and of the toolchain's own C code that the program calls, over what a machine answers.
#include "system.h"

static int last_error;

// A result of the system as C has it: -1 for an error, whose number is kept.
static i64 result(i64 answer) {
    if (answer >= 0) return answer;
    last_error = (int)-answer;
    return -1;
}

int rattle_errno(void) {
    return last_error;
}

void rattle_set_errno(int number) {
    last_error = number;
}

enum { HERE = -100 };

i64 read(int file, void *to, u64 size) {
    return result(system_read(file, to, size));
}

i64 write(int file, const void *from, u64 size) {
    return result(system_write(file, from, size));
}

// By this name the program's start says what is wrong with the processor.
i64 __write(int file, const void *from, u64 size) {
    return write(file, from, size);
}

int open(const char *path, int flags, ...) {
    int mode = 0;
    if (flags & OPEN_CREATE) {
        __builtin_va_list rest;
        __builtin_va_start(rest, flags);
        mode = __builtin_va_arg(rest, int);
        __builtin_va_end(rest);
    }
    return (int)result(system_open(HERE, path, flags, mode));
}

int rattle_open_dir_at(int folder, const char *path) {
    return (int)result(system_open(folder, path, OPEN_FOLDER | OPEN_NO_LINK | OPEN_CLOSE_ON_EXEC, 0));
}

int close(int file) {
    return (int)result(system_close(file));
}

i64 lseek(int file, i64 offset, int whence) {
    return result(system_seek(file, offset, whence));
}

int statx(int folder, const char *path, int flags, u32 mask, void *to) {
    return (int)result(system_status(folder, path, flags, mask, to));
}

i64 getdents64(int folder, void *to, u64 size) {
    return result(system_list(folder, to, size));
}

int unlink(const char *path) {
    return (int)result(system_unlink(path));
}

u64 rattle_arg_count(void) {
    return system_argument_count();
}

// An argument, or a variable, in a buffer: its bytes, or -2 where the buffer is too small.
static i64 fitted(i64 size, u64 room) {
    return size > (i64)room ? -2 : size;
}

i64 rattle_arg(u64 at, u8 *to, u64 size) {
    return fitted(system_argument(at, to, size), size);
}

i64 rattle_env_at(u64 at, u8 *to, u64 size) {
    return fitted(system_variable(at, to, size), size);
}

// The program asks for no variable by its name; the toolchain's code could.
i64 rattle_env(const char *name, u8 *to, u64 size) {
    (void)name, (void)to, (void)size;
    return -1;
}

// The program's start sets one signal, SIGPIPE, to be ignored.
i64 __sysv_signal(int signal, i64 handler) {
    if (signal == 13 && handler == 1) system_ignore_broken_pipes();
    return 0;
}

// The text of an error, which the program does not print.
int __xpg_strerror_r(int number, char *to, u64 size) {
    (void)number;
    if (size) *to = 0;
    return 0;
}

// The program's start asks whether the processor has what x86-64-v2 has. Compiled for another machine it has all that it needs.
void *__x86_get_cpuid_feature_leaf(u32 leaf) {
    static u32 all[16] = {~0u, ~0u, ~0u, ~0u, ~0u, ~0u, ~0u, ~0u, ~0u, ~0u, ~0u, ~0u, ~0u, ~0u, ~0u, ~0u};
    (void)leaf;
    return all;
}
