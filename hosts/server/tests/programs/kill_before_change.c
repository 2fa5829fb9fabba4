/* Kills the process before its n-th call that may change a file, or that sends by a socket. The environment's
 * KILL_BEFORE_CHANGE or KILL_BEFORE_SEND has n, from 1. It also kills the process before it syncs what
 * KILL_BEFORE_SYNC names, and has no room for the files whose names begin as FULL. The tests load it by LD_PRELOAD. */
#define _GNU_SOURCE
#include <dlfcn.h>
#include <errno.h>
#include <fcntl.h>
#include <limits.h>
#include <signal.h>
#include <stdarg.h>
#include <stdatomic.h>
#include <stdio.h>
#include <stdlib.h>
#include <string.h>
#include <sys/socket.h>
#include <sys/types.h>
#include <sys/uio.h>
#include <unistd.h>

static void count(atomic_long *calls, const char *variable)
{
    const char *last = getenv(variable);
    if (last && atomic_fetch_add(calls, 1) + 1 == atol(last))
        kill(getpid(), SIGKILL);
}

static void before_change(void)
{
    static atomic_long changes;
    count(&changes, "KILL_BEFORE_CHANGE");
}

static void before_send(void)
{
    static atomic_long sends;
    count(&sends, "KILL_BEFORE_SEND");
}

/* Whether the name of an open file is the variable's value, or only begins so. */
static int is_named(int file, const char *variable, int begins)
{
    char link[64], name[PATH_MAX];
    const char *expected = getenv(variable);
    if (!expected)
        return 0;
    snprintf(link, sizeof link, "/proc/self/fd/%d", file);
    ssize_t length = readlink(link, name, sizeof name - 1);
    if (length < 0)
        return 0;
    name[length] = 0;
    return begins ? !strncmp(name, expected, strlen(expected)) : !strcmp(name, expected);
}

/* Defines the call of this name as the next library's, with a count before it. */
#define COUNTED_BY(before, type, name, parameters, arguments) \
    type name parameters                                      \
    {                                                         \
        type(*next) parameters;                               \
        *(void **)&next = dlsym(RTLD_NEXT, #name);            \
        before();                                             \
        return next arguments;                                \
    }

#define COUNTED(type, name, parameters, arguments) COUNTED_BY(before_change, type, name, parameters, arguments)

/* The same of a call that writes to a file, which fails if there is no room. */
#define COUNTED_WRITE(name, parameters, arguments) \
    ssize_t name parameters                        \
    {                                              \
        ssize_t(*next) parameters;                 \
        *(void **)&next = dlsym(RTLD_NEXT, #name); \
        before_change();                           \
        if (is_named(file, "FULL", 1)) {           \
            errno = ENOSPC;                        \
            return -1;                             \
        }                                          \
        return next arguments;                     \
    }

COUNTED_WRITE(write, (int file, const void *bytes, size_t count), (file, bytes, count))
COUNTED_WRITE(pwrite, (int file, const void *bytes, size_t count, off_t at), (file, bytes, count, at))
COUNTED_WRITE(pwrite64, (int file, const void *bytes, size_t count, off64_t at), (file, bytes, count, at))
COUNTED(int, ftruncate, (int file, off_t length), (file, length))
COUNTED(int, ftruncate64, (int file, off64_t length), (file, length))
COUNTED(int, fdatasync, (int file), (file))
COUNTED(int, link, (const char *from, const char *to), (from, to))
COUNTED(int, linkat, (int old, const char *from, int new, const char *to, int flags), (old, from, new, to, flags))
COUNTED(int, rename, (const char *from, const char *to), (from, to))
COUNTED(int, unlink, (const char *path), (path))
COUNTED_BY(before_send, ssize_t, send, (int to, const void *bytes, size_t size, int flags), (to, bytes, size, flags))
COUNTED_BY(before_send, ssize_t, writev, (int file, const struct iovec *parts, int many), (file, parts, many))

int fsync(int file)
{
    int (*next)(int);
    *(void **)&next = dlsym(RTLD_NEXT, "fsync");
    before_change();
    if (is_named(file, "KILL_BEFORE_SYNC", 0))
        kill(getpid(), SIGKILL);
    return next(file);
}

/* Defines a call that opens a file as the next library's, with a count before it if it may make the file. */
#define COUNTED_OPEN(name)                                          \
    int name(const char *path, int flags, ...)                      \
    {                                                               \
        int (*next)(const char *, int, ...);                        \
        va_list rest;                                               \
        *(void **)&next = dlsym(RTLD_NEXT, #name);                  \
        if (!(flags & O_CREAT))                                     \
            return next(path, flags);                               \
        va_start(rest, flags);                                      \
        mode_t mode = va_arg(rest, mode_t);                         \
        va_end(rest);                                               \
        before_change();                                            \
        return next(path, flags, mode);                             \
    }

COUNTED_OPEN(open)
COUNTED_OPEN(open64)
