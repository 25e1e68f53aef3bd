/*
 * Times husk_sqrt and husk_ln beside the platform's sqrt and log, and beside the bare square root instruction.
 *
 * A time is the throughput over an array: nanoseconds per call, the best of many repetitions. The functions take turns within each
 * repetition, so that whatever else the machine does hits all of them alike. Compile with -fno-builtin, or the calls of sqrt and log
 * become instructions.
 */
#define _POSIX_C_SOURCE 200809L
#include <math.h>
#include <stdint.h>
#include <stdio.h>
#include <string.h>
#include <time.h>

#include "huskcanyon.h"

#define COUNT 4096
#define PASSES 8
#define REPETITIONS 200

static double in[COUNT], out[COUNT];

static uint64_t state = 88172645463325252u;

/* Marsaglia's xorshift generator, so that each run has the same numbers. */
static uint64_t random_word(void)
{
    state ^= state << 13;
    state ^= state >> 7;
    state ^= state << 17;
    return state;
}

static double now(void)
{
    struct timespec t;
    clock_gettime(CLOCK_MONOTONIC, &t);
    return t.tv_sec * 1e9 + t.tv_nsec;
}

static inline double instruction(double x)
{
    __asm__("sqrtsd %0, %0" : "+x"(x));
    return x;
}

/* A function for each loop, so that each call in it is a direct one. The empty asm keeps every store. */
#define LOOP(NAME, CALL)                                                       \
    static double NAME(void)                                                   \
    {                                                                          \
        double start = now();                                                  \
        for (int pass = 0; pass < PASSES; pass++) {                            \
            for (int i = 0; i < COUNT; i++)                                    \
                out[i] = CALL(in[i]);                                          \
            __asm__ volatile("" : : "r"(out) : "memory");                      \
        }                                                                      \
        return (now() - start) / ((double)PASSES * COUNT);                     \
    }

LOOP(time_husk_sqrt, husk_sqrt)
LOOP(time_sqrt, sqrt)
LOOP(time_instruction, instruction)
LOOP(time_husk_ln, husk_ln)
LOOP(time_log, log)

static double (*const loops[])(void) = {
    time_husk_sqrt, time_sqrt, time_instruction, time_husk_ln, time_log,
};

#define LOOPS (sizeof loops / sizeof loops[0])

static void pivots(void)
{
    for (int i = 0; i < COUNT; i++)
        in[i] = ((random_word() >> 11) + 0.5) * (1e6 / 9007199254740992.0);
}

static void all_exponents(void)
{
    for (int i = 0; i < COUNT; i++) {
        uint64_t word;
        do
            word = random_word() >> 1;
        while (word == 0 || word >= 0x7ff0000000000000u);
        memcpy(&in[i], &word, sizeof word);
    }
}

static void report(const char *numbers)
{
    double best[LOOPS];
    for (size_t k = 0; k < LOOPS; k++)
        best[k] = loops[k]();
    for (int r = 1; r < REPETITIONS; r++)
        for (size_t k = 0; k < LOOPS; k++) {
            double time = loops[k]();
            if (time < best[k])
                best[k] = time;
        }
    printf("%s\n", numbers);
    printf("  husk_sqrt %8.2f ns   libm sqrt %8.2f ns   ratio %6.2f\n", best[0], best[1], best[0] / best[1]);
    printf("                          sqrtsd    %8.2f ns   ratio %6.2f\n", best[2], best[0] / best[2]);
    printf("  husk_ln   %8.2f ns   libm log  %8.2f ns   ratio %6.2f\n", best[3], best[4], best[3] / best[4]);
}

int main(void)
{
    pivots();
    report("pivots in (0, 1e6)");
    all_exponents();
    report("positive doubles of all exponents");
    return 0;
}
