/* Stands in for the clocks of a program that is started with it (LD_PRELOAD). The time of day is put an hour ahead once
   the steady clock is at AHEAD_FROM seconds. */
#define _GNU_SOURCE
#include <stdlib.h>
#include <sys/syscall.h>
#include <time.h>
#include <unistd.h>

int clock_gettime(clockid_t which, struct timespec *at)
{
    struct timespec steady;
    syscall(SYS_clock_gettime, CLOCK_MONOTONIC, &steady);
    int status = syscall(SYS_clock_gettime, which, at);
    if (which == CLOCK_REALTIME && steady.tv_sec >= atol(getenv("AHEAD_FROM")))
        at->tv_sec += 3600;
    return status;
}
