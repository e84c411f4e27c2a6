// Counts what a program has allocated. `bench/gen.py` loads it into the controller (LD_PRELOAD).
//
// It counts the bytes that are allocated, in all threads together, as the C library rounds them, and the most that they were at one
// time. Right before the first call that writes to standard output both numbers go into the file MEMORY_LIST.
#define _GNU_SOURCE
#include <errno.h>
#include <fcntl.h>
#include <malloc.h>
#include <stdatomic.h>
#include <stdio.h>
#include <stdlib.h>
#include <sys/syscall.h>
#include <sys/uio.h>
#include <unistd.h>

// The C library's own, under the names that it gives them for libraries as this one.
void *__libc_malloc(size_t size);
void *__libc_calloc(size_t count, size_t size);
void *__libc_realloc(void *place, size_t size);
void *__libc_memalign(size_t alignment, size_t size);
void __libc_free(void *place);

static atomic_size_t now, most;
static int list = -1;

__attribute__((constructor)) static void begin(void)
{
    const char *path = getenv("MEMORY_LIST");
    if (path)
        list = syscall(SYS_openat, AT_FDCWD, path, O_WRONLY | O_CREAT | O_APPEND | O_CLOEXEC, 0644);
    unsetenv("MEMORY_LIST");
    unsetenv("LD_PRELOAD");
}

static void *given(void *place)
{
    size_t size = malloc_usable_size(place);
    size_t all = atomic_fetch_add(&now, size) + size;
    size_t before = atomic_load(&most);
    while (before < all && !atomic_compare_exchange_weak(&most, &before, all))
        ;
    return place;
}

static void taken(void *place)
{
    atomic_fetch_sub(&now, malloc_usable_size(place));
}

void *malloc(size_t size)
{
    return given(__libc_malloc(size));
}

void *calloc(size_t count, size_t size)
{
    return given(__libc_calloc(count, size));
}

// What is moved stands in both places for a moment.
void *realloc(void *place, size_t size)
{
    size_t before = malloc_usable_size(place);
    void *moved = __libc_realloc(place, size);
    if (moved || !size) {
        given(moved);
        atomic_fetch_sub(&now, before);
    }
    return moved;
}

void *memalign(size_t alignment, size_t size)
{
    return given(__libc_memalign(alignment, size));
}

void *aligned_alloc(size_t alignment, size_t size)
{
    return memalign(alignment, size);
}

int posix_memalign(void **place, size_t alignment, size_t size)
{
    *place = memalign(alignment, size);
    return *place ? 0 : ENOMEM;
}

void free(void *place)
{
    taken(place);
    __libc_free(place);
}

// A call that writes is about to be made.
static void writes(int file)
{
    char line[64];
    if (file != STDOUT_FILENO || list < 0)
        return;
    int length = snprintf(line, sizeof line, "%zu %zu\n", atomic_load(&now), atomic_load(&most));
    syscall(SYS_write, list, line, length);
    list = -1;
}

ssize_t write(int file, const void *bytes, size_t size)
{
    writes(file);
    return syscall(SYS_write, file, bytes, size);
}

ssize_t writev(int file, const struct iovec *parts, int number)
{
    writes(file);
    return syscall(SYS_writev, file, parts, number);
}
