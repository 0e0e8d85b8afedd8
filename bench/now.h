// Nanoseconds, from a clock that only goes forward; for bench/count the instructions so far, which its plugin stores where the call says.
#ifdef COUNTED
#include <stdint.h>
#include <unistd.h>

static double now(void) {
    volatile uint64_t count = 0;
    syscall(9999, &count);
    return count;
}
#else
#include <time.h>

static double now(void) {
    struct timespec t;
    clock_gettime(CLOCK_MONOTONIC, &t);
    return t.tv_sec * 1e9 + t.tv_nsec;
}
#endif
