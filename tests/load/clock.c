/* Loaded before a program, this has its clocks run faster: CLOCK_TIMES as fast, from when it starts. What waits for a while waits as long as ever. */
#define _GNU_SOURCE
#include <stdlib.h>
#include <sys/syscall.h>
#include <time.h>
#include <unistd.h>

#define SECOND 1000000000LL
#define CLOCKS 16

static long long times = 1;
static long long began[CLOCKS];

static long long reading(clockid_t clock)
{
    struct timespec now;
    return syscall(SYS_clock_gettime, clock, &now) == 0 ? now.tv_sec * SECOND + now.tv_nsec : -1;
}

__attribute__((constructor)) static void begin(void)
{
    const char *told = getenv("CLOCK_TIMES");
    times = told ? atoll(told) : 1;
    for (clockid_t clock = 0; clock < CLOCKS; clock++)
        began[clock] = reading(clock);
    unsetenv("LD_PRELOAD");
}

int clock_gettime(clockid_t clock, struct timespec *now)
{
    if (clock < 0 || clock >= CLOCKS || began[clock] < 0)
        return (int)syscall(SYS_clock_gettime, clock, now);
    long long moment = began[clock] + (reading(clock) - began[clock]) * times;
    now->tv_sec = moment / SECOND;
    now->tv_nsec = moment % SECOND;
    return 0;
}
