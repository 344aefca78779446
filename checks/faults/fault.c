/* Preloaded into a program, this library counts its calls that allocate memory and access files, and injects
 * faults into some of them. It reads these environment variables:
 *
 *   FAULT_CALL    memory, open, read or write: the calls that may fail
 *   FAULT_FIRST   the number of the first call that fails, counted from 1
 *   FAULT_LAST    the number of the last one
 *   FAULT_WAY     how: the number of an error, `short` (one byte is transferred) or `end` (none is)
 *   FAULT_COUNTS  a file that gets the counts, as numbers of 8 bytes in the order of `struct counts`
 */
#define _GNU_SOURCE
#include <errno.h>
#include <fcntl.h>
#include <stdarg.h>
#include <stdlib.h>
#include <string.h>
#include <sys/mman.h>
#include <sys/syscall.h>
#include <unistd.h>

enum call { MEMORY, OPEN, READ, WRITE, CALLS };

struct counts {
    long calls[CALLS];
    long memory_at_open; /* allocations before the first file was opened, or before the end */
    long failed;         /* calls that were made to fail */
    long file;           /* the file that was opened last when the first of them failed, counted from 1 */
    long taken;          /* the bytes that were read from it before */
    long sink;           /* the stream that this call would have written to */
};

static struct counts kept;
static struct counts *counts = &kept;
static enum call failing = CALLS;
static long first, last, taken;
static const char *way = "";

extern void *__libc_malloc(size_t);
extern void *__libc_calloc(size_t, size_t);
extern void *__libc_realloc(void *, size_t);
extern void *__libc_memalign(size_t, size_t);

static long number_of(const char *name) {
    const char *text = getenv(name);
    return text ? strtol(text, NULL, 10) : 0;
}

__attribute__((constructor)) static void begin(void) {
    static const char *const names[CALLS] = {"memory", "open", "read", "write"};
    const char *call = getenv("FAULT_CALL");
    const char *file = getenv("FAULT_COUNTS");
    if (getenv("FAULT_WAY")) way = getenv("FAULT_WAY");
    if (file) {
        int at = (int)syscall(SYS_openat, AT_FDCWD, file, O_RDWR, 0);
        void *shared = mmap(NULL, sizeof kept, PROT_READ | PROT_WRITE, MAP_SHARED, at, 0);
        syscall(SYS_close, at);
        if (shared == MAP_FAILED) abort();
        counts = shared;
    }
    memset(counts, 0, sizeof kept);
    first = number_of("FAULT_FIRST");
    last = number_of("FAULT_LAST");
    for (int i = 0; call && i < CALLS; i++)
        if (strcmp(call, names[i]) == 0) failing = (enum call)i;
}

/* Counts a call, and returns whether it has to fail. */
static int fails(enum call call, int sink) {
    long number = ++counts->calls[call];
    if (call == MEMORY && counts->calls[OPEN] == 0) counts->memory_at_open = number;
    if (call != failing || number < first || number > last) return 0;
    if (counts->failed++ == 0) {
        counts->file = counts->calls[OPEN];
        counts->taken = taken;
        counts->sink = sink;
    }
    return 1;
}

static void *refused(void) {
    errno = ENOMEM;
    return NULL;
}

void *malloc(size_t size) { return fails(MEMORY, 0) ? refused() : __libc_malloc(size); }
void *calloc(size_t count, size_t size) { return fails(MEMORY, 0) ? refused() : __libc_calloc(count, size); }
void *realloc(void *block, size_t size) { return fails(MEMORY, 0) ? refused() : __libc_realloc(block, size); }
void *memalign(size_t align, size_t size) { return fails(MEMORY, 0) ? refused() : __libc_memalign(align, size); }
void *aligned_alloc(size_t align, size_t size) { return memalign(align, size); }

int posix_memalign(void **block, size_t align, size_t size) {
    void *made = memalign(align, size);
    if (made) *block = made;
    return made ? 0 : ENOMEM;
}

static int open_at(int folder, const char *name, int flags, int mode) {
    if (fails(OPEN, 0)) {
        errno = atoi(way);
        return -1;
    }
    taken = 0;
    return (int)syscall(SYS_openat, folder, name, flags, mode);
}

/* The mode follows the flags of a call that may create a file. */
#define OPENS(name)                                      \
    int name(const char *path, int flags, ...) {         \
        va_list rest;                                    \
        va_start(rest, flags);                           \
        int mode = va_arg(rest, int);                    \
        va_end(rest);                                    \
        return open_at(AT_FDCWD, path, flags, mode);     \
    }
#define OPENS_AT(name)                                       \
    int name(int folder, const char *path, int flags, ...) { \
        va_list rest;                                        \
        va_start(rest, flags);                               \
        int mode = va_arg(rest, int);                        \
        va_end(rest);                                        \
        return open_at(folder, path, flags, mode);           \
    }
OPENS(open)
OPENS(open64)
OPENS(__open)
OPENS(__open64)
OPENS_AT(openat)
OPENS_AT(openat64)

/* Returns the size that a read or a write requests, or -1 if it fails. */
static long size_or_fault(enum call call, int stream, size_t size) {
    if (!fails(call, stream)) return (long)size;
    if (strcmp(way, "short") == 0) return size > 0;
    if (strcmp(way, "end") == 0) return 0;
    errno = atoi(way);
    return -1;
}

ssize_t read(int file, void *into, size_t size) {
    long most = size_or_fault(READ, 0, size);
    if (most <= 0) return most;
    long count = syscall(SYS_read, file, into, most);
    if (count > 0) taken += count;
    return count;
}

ssize_t write(int stream, const void *piece, size_t size) {
    long most = size_or_fault(WRITE, stream, size);
    return most <= 0 && size > 0 ? most : syscall(SYS_write, stream, piece, most);
}

ssize_t __read(int file, void *into, size_t size) { return read(file, into, size); }
ssize_t __write(int stream, const void *piece, size_t size) { return write(stream, piece, size); }
