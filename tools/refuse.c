// Preloaded in front of the C library, it refuses what a program asks the system for:
//   REFUSE=N         the Nth call of malloc and realloc, counted from 1
//   REFUSE_READ=N    standard input gives N bytes and then fails
//   REFUSE_WRITE=N   standard output takes N bytes and then fails
//   EMPTY_WRITE=N    standard output takes N bytes and then says of each write that it took none
//   REFUSE_THREADS=N the Nth thread and each after it
//   SHORT=N          each read gives at most N bytes, each write takes at most N
// With REFUSE_COUNT it says on standard error at the end how many allocations there were.
#define _GNU_SOURCE
#include <dlfcn.h>
#include <errno.h>
#include <pthread.h>
#include <stdio.h>
#include <stdlib.h>
#include <sys/syscall.h>
#include <unistd.h>

static long refused = -1;
static long calls = 0;
static long threads = 0;
static long got = 0;
static long put = 0;
static void *(*next_malloc)(size_t);
static void *(*next_realloc)(void *, size_t);
static ssize_t (*next_read)(int, void *, size_t);
static ssize_t (*next_write)(int, const void *, size_t);

static long number(const char *name, long otherwise)
{
    const char *text = getenv(name);
    return text ? atol(text) : otherwise;
}

static int refuses(void)
{
    if (refused < 0) {
        refused = number("REFUSE", 0);
        next_malloc = dlsym(RTLD_NEXT, "malloc");
        next_realloc = dlsym(RTLD_NEXT, "realloc");
    }
    // workers of a run allocate at once
    return __atomic_add_fetch(&calls, 1, __ATOMIC_SEQ_CST) == refused;
}

void *malloc(size_t size)
{
    if (refuses()) {
        errno = ENOMEM;
        return NULL;
    }
    return next_malloc(size);
}

void *realloc(void *old, size_t size)
{
    if (refuses()) {
        errno = ENOMEM;
        return NULL;
    }
    return next_realloc(old, size);
}

int pthread_create(pthread_t *thread, const pthread_attr_t *how, void *(*body)(void *), void *given)
{
    int (*next)(pthread_t *, const pthread_attr_t *, void *(*)(void *), void *) = dlsym(RTLD_NEXT, "pthread_create");
    long first = number("REFUSE_THREADS", 0);
    if (first > 0 && __atomic_add_fetch(&threads, 1, __ATOMIC_SEQ_CST) >= first)
        return EAGAIN;
    return next(thread, how, body, given);
}

// How much of `size` bytes a call may move: what is left of `most`, where that is known, and `SHORT`.
static size_t allowed(size_t size, long most, long done)
{
    size_t bound = (size_t)number("SHORT", -1);
    if (size > bound)
        size = bound;
    if (most >= 0 && size > (size_t)(most - done))
        size = (size_t)(most - done);
    return size;
}

ssize_t read(int file, void *bytes, size_t size)
{
    long most = number("REFUSE_READ", -1);
    if (!next_read)
        next_read = dlsym(RTLD_NEXT, "read");
    if (file != STDIN_FILENO)
        return next_read(file, bytes, size);
    if (most >= 0 && got >= most) {
        errno = EIO;
        return -1;
    }
    ssize_t moved = next_read(file, bytes, allowed(size, most, got));
    got += moved > 0 ? moved : 0;
    return moved;
}

ssize_t write(int file, const void *bytes, size_t size)
{
    long full = number("REFUSE_WRITE", -1);
    long most = full >= 0 ? full : number("EMPTY_WRITE", -1);
    if (!next_write)
        next_write = dlsym(RTLD_NEXT, "write");
    if (file != STDOUT_FILENO)
        return next_write(file, bytes, size);
    if (most >= 0 && put >= most && size > 0) {
        errno = ENOSPC;
        return full >= 0 ? -1 : 0;
    }
    ssize_t moved = next_write(file, bytes, allowed(size, most, put));
    put += moved > 0 ? moved : 0;
    return moved;
}

__attribute__((destructor)) static void count(void)
{
    if (getenv("REFUSE_COUNT"))
        fprintf(stderr, "calls %ld\n", calls);
}

// A test ends by this, past all destructors.
void _exit(int status)
{
    count();
    syscall(SYS_exit_group, status);
    __builtin_unreachable();
}
