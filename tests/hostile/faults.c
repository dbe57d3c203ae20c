/* Stands before the C library's read, write and allocator (LD_PRELOAD), and makes chosen calls of a program fail or come
 * short. What it does is told by the environment (faults.h).
 *
 * The allocator's calls are counted from the moment when the program is loaded. */
#define _GNU_SOURCE
#include "faults.h"
#include <dlfcn.h>
#include <errno.h>
#include <malloc.h>

static int is_loaded;

extern void *__libc_malloc(size_t);
extern void *__libc_calloc(size_t, size_t);
extern void *__libc_realloc(void *, size_t);
extern void *__libc_memalign(size_t, size_t);
extern void __libc_free(void *);

__attribute__((constructor)) static void load(void) {
    choose_all();
    is_loaded = 1;
}

/* Whether call number `number` of this kind fails; it does so without reaching the system. */
static int fails(const struct chosen *it, uint64_t number) {
    if (!is_chosen(it, number))
        return 0;
    errno = (int)it->what;
    return 1;
}

/* A read of the input: of the file that is open as fd from a place on or, where that is below 0, of standard input. */
static ssize_t read_input(int fd, void *to, size_t length, off_t at) {
    static ssize_t (*next)(int, void *, size_t);
    static ssize_t (*next_at)(int, void *, size_t, off_t);
    if (!next) {
        next = (ssize_t (*)(int, void *, size_t))dlsym(RTLD_NEXT, "read");
        next_at = (ssize_t (*)(int, void *, size_t, off_t))dlsym(RTLD_NEXT, "pread64");
    }
    if (told->reads == 0)
        told->peak = told->live;
    uint64_t number = told->reads++;
    if (fails(&failing_read, number))
        return -1;
    if (is_chosen(&shrink, number) && ftruncate(0, (off_t)shrink.what) != 0)
        abort();
    size_t most = length < read_most ? length : read_most;
    ssize_t got = at < 0 ? next(fd, to, most) : next_at(fd, to, most, at);
    told->bytes_read += got > 0 ? (uint64_t)got : 0;
    return got;
}

ssize_t read(int fd, void *to, size_t length) {
    static ssize_t (*next)(int, void *, size_t);
    if (!next)
        next = (ssize_t (*)(int, void *, size_t))dlsym(RTLD_NEXT, "read");
    return fd == 0 ? read_input(fd, to, length, -1) : next(fd, to, length);
}

/* By place nothing but the input is read, which the program opens once more for that. */
ssize_t pread64(int fd, void *to, size_t length, off_t at) {
    return read_input(fd, to, length, at);
}

ssize_t pread(int fd, void *to, size_t length, off_t at) {
    return pread64(fd, to, length, at);
}

ssize_t write(int fd, const void *from, size_t length) {
    static ssize_t (*next)(int, const void *, size_t);
    if (!next)
        next = (ssize_t (*)(int, const void *, size_t))dlsym(RTLD_NEXT, "write");
    if (fd != 1 && fd != 2)
        return next(fd, from, length);
    uint64_t number = told->writes[fd - 1]++;
    if (fails(&failing_write[fd - 1], number))
        return errno ? -1 : 0;
    return next(fd, from, length < write_most ? length : write_most);
}

/* ---- the allocator */

static int refuses_memory(void) {
    if (!is_loaded)
        return 0;
    uint64_t number = told->allocations++;
    const struct chosen *it = &failing_allocation;
    if (!it->is_set || number < it->number || number - it->number >= it->what)
        return 0;
    errno = ENOMEM;
    return 1;
}

/* Counts a block that was given, and the bytes that were asked for beyond those that it had before. */
static void *given(void *block, uint64_t asked) {
    if (block)
        told->live += (int64_t)malloc_usable_size(block);
    if (told->live > told->peak)
        told->peak = told->live;
    if (told->reads) {
        told->asked += asked;
        if (asked > told->most_asked)
            told->most_asked = asked;
    }
    return block;
}

void *malloc(size_t size) {
    return refuses_memory() ? NULL : given(__libc_malloc(size), size);
}

void *calloc(size_t count, size_t size) {
    return refuses_memory() ? NULL : given(__libc_calloc(count, size), count * size);
}

void *realloc(void *block, size_t size) {
    if (refuses_memory())
        return NULL;
    uint64_t had = block ? malloc_usable_size(block) : 0;
    void *moved = __libc_realloc(block, size);
    if (moved || !size)
        told->live -= (int64_t)had;
    return given(moved, size > had ? size - had : 0);
}

void *memalign(size_t align, size_t size) {
    return refuses_memory() ? NULL : given(__libc_memalign(align, size), size);
}

void *aligned_alloc(size_t align, size_t size) {
    return memalign(align, size);
}

int posix_memalign(void **to, size_t align, size_t size) {
    void *block = memalign(align, size);
    if (!block)
        return ENOMEM;
    *to = block;
    return 0;
}

void free(void *block) {
    if (block)
        told->live -= (int64_t)malloc_usable_size(block);
    __libc_free(block);
}
