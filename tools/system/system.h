// What the files of this folder share: the calls that each machine has to answer, and the types of them.
#ifndef SYSTEM_H
#define SYSTEM_H

typedef unsigned char u8;
typedef unsigned int u32;
typedef unsigned long u64;
typedef long i64;

// The numbers of Linux on x86-64, which the program is compiled for.
enum { OPEN_CREATE = 0100, OPEN_FOLDER = 0200000, OPEN_NO_LINK = 0400000, OPEN_CLOSE_ON_EXEC = 02000000 };

// Where the module of WebAssembly has a call from its host.
#ifdef __wasm__
#define FROM_HOST(name) __attribute__((import_module("host"), import_name(name)))
#else
#define FROM_HOST(name)
#endif

// The calls that a machine answers. Each returns a number as Linux does: an error is its number, negated.
FROM_HOST("read") i64 system_read(int file, void *to, u64 size);
FROM_HOST("write") i64 system_write(int file, const void *from, u64 size);
FROM_HOST("open") i64 system_open(int folder, const char *path, int flags, int mode);
FROM_HOST("close") i64 system_close(int file);
FROM_HOST("seek") i64 system_seek(int file, i64 offset, int whence);
FROM_HOST("status") i64 system_status(int folder, const char *path, int flags, u32 mask, void *to);
FROM_HOST("list") i64 system_list(int folder, void *to, u64 size);
FROM_HOST("unlink") i64 system_unlink(const char *path);

// The command line, with the program's name as argument 0, and the environment, as `name=value`: the size of text `at`, of which at most
// `size` bytes are put at `to`; -1 where there is none. A text that is longer than `size` may have any greater size.
FROM_HOST("argument_count") u64 system_argument_count(void);
FROM_HOST("argument") i64 system_argument(u64 at, u8 *to, u64 size);
i64 system_variable(u64 at, u8 *to, u64 size);

// Lets a write to a pipe that nobody reads return an error, and not end the program.
void system_ignore_broken_pipes(void);

// At least `*size` bytes of memory that is aligned to 16, and in `*size` how many there are; null where there are no more.
void *system_memory(u64 *size);

// Memory of its own for one large block, which can be given back. A machine without it answers null for `system_map` each time.
enum { LARGE = 1 << 17 };
void *system_map(u64 size);
void *system_remap(void *old, u64 old_size, u64 size);
void system_unmap(void *block, u64 size);

#endif
