// Kills a program right before one of its calls of the system. `bench/kills.py --calls` loads it into the controller (LD_PRELOAD).
//
// With CALLS_SYNCED, a fifo, it writes the path of each file and folder there that was synced, and waits for a byte from the fifo
// CALLS_GO_ON before it goes on: `bench/power.py` copies meanwhile what a power cut would leave.
//
// It counts the calls that change what is on the disk or start a process, in all threads together, and writes the name of each into
// the file CALLS_LIST before it is made. The call of the number CALLS_KILL is not made: the program gets SIGKILL. The tasks that the
// program starts do not load it.
#define _GNU_SOURCE
#include <dlfcn.h>
#include <fcntl.h>
#include <signal.h>
#include <spawn.h>
#include <stdarg.h>
#include <stdatomic.h>
#include <stdio.h>
#include <stdlib.h>
#include <sys/stat.h>
#include <sys/syscall.h>
#include <sys/uio.h>
#include <unistd.h>

static atomic_int count;
static int last, list = -1, synced_list = -1, go_on = -1;
static atomic_flag at_a_sync = ATOMIC_FLAG_INIT;

__attribute__((constructor)) static void begin(void)
{
    const char *number = getenv("CALLS_KILL"), *path = getenv("CALLS_LIST");
    last = number ? atoi(number) : 0;
    if (path)
        list = syscall(SYS_openat, AT_FDCWD, path, O_WRONLY | O_CREAT | O_APPEND | O_CLOEXEC, 0644);
    const char *synced_path = getenv("CALLS_SYNCED"), *go_on_path = getenv("CALLS_GO_ON");
    if (synced_path && go_on_path) {
        synced_list = syscall(SYS_openat, AT_FDCWD, synced_path, O_WRONLY | O_CLOEXEC, 0);
        go_on = syscall(SYS_openat, AT_FDCWD, go_on_path, O_RDONLY | O_CLOEXEC, 0);
    }
    unsetenv("CALLS_SYNCED");
    unsetenv("CALLS_GO_ON");
    unsetenv("CALLS_KILL");
    unsetenv("CALLS_LIST");
    unsetenv("LD_PRELOAD");
}

// A call of this name is about to be made.
static void comes(const char *name)
{
    char line[64];
    int number = atomic_fetch_add(&count, 1) + 1;
    if (list < 0 || (last && number > last))
        return;
    int length = snprintf(line, sizeof line, "%s\n", name);
    syscall(SYS_write, list, line, length);
    if (number == last)
        syscall(SYS_kill, getpid(), SIGKILL);
}

// The file or folder of this descriptor was synced.
static void synced(int file)
{
    char link[64], path[4096], answer;
    if (synced_list < 0)
        return;
    snprintf(link, sizeof link, "/proc/self/fd/%d", file);
    ssize_t length = readlink(link, path, sizeof path - 1);
    if (length < 0)
        return;
    path[length++] = '\n';
    while (atomic_flag_test_and_set(&at_a_sync))
        usleep(100);
    syscall(SYS_write, synced_list, path, length);
    syscall(SYS_read, go_on, &answer, 1);
    atomic_flag_clear(&at_a_sync);
}

#define SYNC(name)                                                  \
    int name(int file)                                              \
    {                                                               \
        static int (*next)(int);                                    \
        comes(#name);                                               \
        if (!next)                                                  \
            next = (int (*)(int))dlsym(RTLD_NEXT, #name);           \
        int result = next(file);                                    \
        if (result == 0)                                            \
            synced(file);                                           \
        return result;                                              \
    }

SYNC(fsync)
SYNC(fdatasync)

#define CALL(result, name, types, ...)                              \
    result name types                                               \
    {                                                               \
        static result(*next) types;                                 \
        comes(#name);                                               \
        if (!next)                                                  \
            next = (result(*) types)dlsym(RTLD_NEXT, #name);        \
        return next(__VA_ARGS__);                                   \
    }

CALL(ssize_t, write, (int file, const void *bytes, size_t size), file, bytes, size)
CALL(ssize_t, writev, (int file, const struct iovec *parts, int number), file, parts, number)
CALL(ssize_t, pwrite, (int file, const void *bytes, size_t size, off_t at), file, bytes, size, at)
CALL(int, ftruncate, (int file, off_t size), file, size)
CALL(int, mkdir, (const char *path, mode_t mode), path, mode)
CALL(int, mkdirat, (int folder, const char *path, mode_t mode), folder, path, mode)
CALL(int, rename, (const char *from, const char *to), from, to)
CALL(int, renameat, (int from_folder, const char *from, int to_folder, const char *to), from_folder, from, to_folder, to)
CALL(int, unlink, (const char *path), path)
CALL(int, unlinkat, (int folder, const char *path, int flags), folder, path, flags)
CALL(int, rmdir, (const char *path), path)
CALL(int, posix_spawn,
     (pid_t * child, const char *path, const posix_spawn_file_actions_t *actions, const posix_spawnattr_t *how, char *const *words,
      char *const *variables),
     child, path, actions, how, words, variables)

// Opening a file changes the disk where it makes the file or cuts it.
#define OPEN(name, types, mode_behind, ...)                         \
    int name types                                                  \
    {                                                               \
        static int(*next) types;                                    \
        va_list rest;                                               \
        va_start(rest, mode_behind);                                \
        mode_t mode = mode_behind & O_CREAT ? va_arg(rest, mode_t) : 0; \
        va_end(rest);                                               \
        if (mode_behind & (O_CREAT | O_TRUNC))                      \
            comes(#name);                                           \
        if (!next)                                                  \
            next = (int(*) types)dlsym(RTLD_NEXT, #name);           \
        return next(__VA_ARGS__, mode_behind, mode);                \
    }

OPEN(open, (const char *path, int flags, ...), flags, path)
OPEN(openat, (int folder, const char *path, int flags, ...), flags, folder, path)
