// Two clocks: nanoseconds that this thread ran, for whole drives and searches, so that other work on the machine does not count;
// and ticks for single calls (cycles of the time stamp counter on x86-64).
#ifndef TIMING_H
#define TIMING_H

#include <stdint.h>
#include <time.h>
#ifdef __x86_64__
#include <x86intrin.h>
#endif

static inline uint64_t clock_of(clockid_t clock) {
    struct timespec t;
    clock_gettime(clock, &t);
    return (uint64_t)t.tv_sec * 1000000000u + (uint64_t)t.tv_nsec;
}

static inline uint64_t nanoseconds(void) { return clock_of(CLOCK_THREAD_CPUTIME_ID); }

static inline uint64_t ticks(void) {
#ifdef __x86_64__
    unsigned aux;
    return __rdtscp(&aux);
#else
    return clock_of(CLOCK_MONOTONIC);
#endif
}

// Of three passes over the same work, so that one that was interrupted does not count.
static inline uint64_t median3(uint64_t a, uint64_t b, uint64_t c) {
    uint64_t low = a < b ? a : b, high = a < b ? b : a;
    return c < low ? low : c > high ? high : c;
}

// Evaluates the expression into answer, and its ticks into took.
#define TIME(took, answer, expression) \
    do {                               \
        uint64_t since_ = ticks();     \
        answer = expression;           \
        took = ticks() - since_;       \
    } while (0)

#endif
