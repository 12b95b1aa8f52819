/* Sums the time between an entry of what runs under the lock and its return. The lock keeps the sums from two threads at once. */
#define _GNU_SOURCE
#include <stdint.h>
#include <stdio.h>
#include <sys/syscall.h>
#include <time.h>
#include <unistd.h>

static uint64_t begun, held, holds;

static uint64_t now(void)
{
    struct timespec at;
    clock_gettime(CLOCK_MONOTONIC, &at);
    return (uint64_t)at.tv_sec * 1000000000 + (uint64_t)at.tv_nsec;
}

void lock_entered(void)
{
    begun = now();
}

void lock_left(void)
{
    held += now() - begun;
    holds += 1;
}

/* The program ends by this call, so the sums are told here. */
void _exit(int status)
{
    fprintf(stderr, "lock held %llu ns in %llu holds\n", (unsigned long long)held, (unsigned long long)holds);
    fflush(stderr);
    syscall(SYS_exit_group, status);
    __builtin_unreachable();
}
