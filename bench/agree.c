/*
 * Holds husk_sqrt to the processor's square root on random words of all kinds, and husk_ln to the bound of its contract around the platform's
 * logarithm in long double, which on x86-64 has 64 digits. Prints how many of each disagree. No test: it says more than the vectors by
 * number, and less by rigour.
 */
#include <math.h>
#include <stdint.h>
#include <stdio.h>
#include <stdlib.h>
#include <string.h>

#include "huskcanyon.h"

static uint64_t state = 88172645463325252u;

static uint64_t random_word(void)
{
    state ^= state << 13;
    state ^= state >> 7;
    state ^= state << 17;
    return state;
}

int main(int argc, char **argv)
{
    long count = argc > 1 ? atol(argv[1]) : 20000000, roots = 0, logs = 0;
    for (long i = 0; i < count; i++) {
        uint64_t word = random_word();
        double x, r, s;
        if (i % 4 != 0)
            word &= ~(UINT64_C(1) << 63);
        if (i % 8 == 1)
            word &= (UINT64_C(1) << 52) - 1; /* subnormal */
        memcpy(&x, &word, 8);
        r = husk_sqrt(x);
        s = sqrt(x);
        if (memcmp(&r, &s, 8) != 0 && !(r != r && s != s))
            roots++;
        if (x > 0 && x < INFINITY) {
            r = husk_ln(x);
            long double off = fabsl((long double)r - logl((long double)x));
            if (!(off <= 0x1p-50L + 0x1p-52L * fabsl((long double)r)))
                logs++;
        }
    }
    printf("%ld random words: %ld square roots and %ld logarithms disagree\n", count, roots, logs);
    return roots != 0 || logs != 0;
}
