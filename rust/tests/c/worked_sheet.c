/*
 * Solves the worked sheet of document 01 through include/huskcanyon.h and prints what comes out; tests/c_program.rs compiles and runs it and has the text
 * that it must print. Doubles are printed as their words. It also provokes what a Rust caller cannot: 12, 20, 13 for the result list, and the boundary's
 * own numbers from 100 on; and looks at what 26 and 27 leave.
 */
#include <huskcanyon.h>

#include <inttypes.h>
#include <math.h>
#include <stdio.h>
#include <stdlib.h>
#include <string.h>

static const char sheet[] = "size\t3\t1\t1\t1\t1\n"
                            "block\t1\t1\n"
                            "zz\t0\t0\t4008000000000000\n"
                            "zx\t0\t0\t4000000000000000\n"
                            "zy\t0\t4010000000000000\n"
                            "xx\t0\t0\t4014000000000000\n"
                            "xy\t0\t4018000000000000\n"
                            "yy\t4022000000000000\n";

/* The same with one reading; with 0.5 for X'X, so that the pivot of block 1, row 0, is -0.5; and without its entry of Z'Z. */
static const char one_reading[] = "size\t1\t1\t1\t1\t1\nblock\t1\t1\nzz\t0\t0\t4008000000000000\nzx\t0\t0\t4000000000000000\nzy\t0\t4010000000000000\n"
                                  "xx\t0\t0\t4014000000000000\nxy\t0\t4018000000000000\nyy\t4022000000000000\n";
static const char small_product[] = "size\t3\t1\t1\t1\t1\nblock\t1\t1\nzz\t0\t0\t4008000000000000\nzx\t0\t0\t4000000000000000\nzy\t0\t4010000000000000\n"
                                    "xx\t0\t0\t3fe0000000000000\nxy\t0\t4018000000000000\nyy\t4022000000000000\n";
static const char no_entry[] = "size\t3\t1\t1\t1\t1\nblock\t1\t1\nzx\t0\t0\t4000000000000000\nzy\t0\t4010000000000000\n"
                               "xx\t0\t0\t4014000000000000\nxy\t0\t4018000000000000\nyy\t4022000000000000\n";

/* The loaded numbers: a diagonal, two fixed rows, a triangle of three. */
enum { LOADED = 6 };

/* beta, b, u, L_X, w of y, w of the column: p + 2q + p(p+1)/2 + q(p+1) with p = q = 1. */
enum { RESULTS = 6, ML = 0, REML = 1, S = 0, C = 1, T = 2 };

static uint64_t answer[5];

/* A line: the call, its number, and so many words of the answer. */
static void print(const char *call, uint64_t number, size_t words) {
    printf("%s %" PRIu64 ":", call, number);
    for (size_t i = 0; i < words; i++)
        printf(" %" PRIx64, answer[i]);
    printf("\n");
}

int main(void) {
    const uint8_t *text = (const uint8_t *)sheet;
    const size_t length = strlen(sheet);
    print("needs", husk_needs(text, length, answer, 5), 4);
    const size_t d = answer[2], n = answer[3];
    double *doubles = calloc(d, sizeof *doubles);
    uint32_t *heading = calloc(n, sizeof *heading);
    if (doubles == NULL || heading == NULL)
        return 1;
    print("load, a double too few", husk_load(text, length, heading, n, doubles, d - 1, answer, 5), 2);
    print("load, a number too few", husk_load(text, length, heading, n - 1, doubles, d, answer, 5), 2);
    print("load, no workspace", husk_load(text, length, NULL, 0, NULL, 0, answer, 5), 2);
    print("load, a line too few", husk_load(text, length - 20, heading, n, doubles, d, answer, 5), 2);
    print("begin, nothing loaded", husk_begin(heading, n, doubles, d, NULL, 0, answer, 5), 2);
    print("load", husk_load(text, length, heading, n, doubles, d, answer, 5), 2);

    const double theta[] = {1.0};
    print("step", husk_step(heading, n, doubles, d, C, 0, 0, 0, answer, 5), 2);
    print("begin, no theta", husk_begin(heading, n, doubles, d, theta, 0, answer, 5), 2);
    print("begin", husk_begin(heading, n, doubles, d, theta, 1, answer, 5), 2);
    print("T(1,0)", husk_step(heading, n, doubles, d, T, 1, 0, 0, answer, 5), 2);
    print("C(0)", husk_step(heading, n, doubles, d, C, 0, 7, 7, answer, 5), 2);
    print("C(0)", husk_step(heading, n, doubles, d, C, 0, 0, 0, answer, 5), 2);
    print("T(1,0)", husk_step(heading, n, doubles, d, T, 1, 0, 7, answer, 5), 2);
    print("S(1,1,0)", husk_step(heading, n, doubles, d, S, 1, 1, 0, answer, 5), 2);
    print("steps left", husk_steps_left(heading, n, answer, 5), 3);
    print("deviance", husk_deviance_from_factor(heading, n, doubles, d, ML, answer, 5), 5);
    print("C(1)", husk_step(heading, n, doubles, d, C, 1, 0, 0, answer, 5), 2);
    print("steps left", husk_steps_left(heading, n, answer, 5), 3);
    print("pivot 0 0", husk_pivot(heading, n, doubles, d, 0, 0, answer, 5), 4);
    print("pivot 1 0", husk_pivot(heading, n, doubles, d, 1, 0, answer, 5), 4);
    print("pivot 1 1", husk_pivot(heading, n, doubles, d, 1, 1, answer, 5), 4);
    print("pivot 1 2", husk_pivot(heading, n, doubles, d, 1, 2, answer, 5), 4);

    /* 2 ln 2, and the deviance of the factor is that of profile_deviance. */
    print("log determinant", husk_log_determinant(heading, n, doubles, d, answer, 5), 2);
    double value;
    memcpy(&value, &answer[3], sizeof value);
    printf("2 ln 2: %s\n", answer[2] == 1 && value == 2 * husk_ln(2) ? "yes" : "no");
    print("deviance", husk_deviance_from_factor(heading, n, doubles, d, REML, answer, 5), 3);
    const uint64_t deviance = answer[3];
    print("profile deviance", husk_profile_deviance(heading, n, doubles, d, theta, 1, REML, answer, 5), 3);
    printf("the same: %s\n", answer[3] == deviance && answer[4] == deviance ? "yes" : "no");

    double out[RESULTS];
    uint64_t words[RESULTS];
    for (uint64_t mode = ML; mode <= REML; mode++) {
        print("solve", husk_solve_profile_blocked(heading, n, doubles, d, mode, out, RESULTS, words, RESULTS, answer, 5), 2);
        printf("sigma2 %" PRIx64 ", results", answer[3]);
        for (size_t i = 0; i < RESULTS; i++)
            printf(" %" PRIx64, words[i]);
        printf("\n");
    }
    print("solve, a short list", husk_solve_profile_blocked(heading, n, doubles, d, ML, out, RESULTS - 1, words, RESULTS - 1, answer, 5), 4);

    /* The boundary's own numbers; of several the first. The answer list keeps what it had. */
    for (size_t i = 0; i < 5; i++)
        answer[i] = i;
    print("short answer", husk_solve_profile_blocked(heading, n, doubles, d, 2, out, RESULTS, words, 0, answer, 3), 5);
    print("no such mode", husk_solve_profile_blocked(heading, n, doubles, d, 2, out, RESULTS, words, 0, answer, 4), 5);
    print("words and results", husk_solve_profile_blocked(heading, n, doubles, d, ML, out, RESULTS, words, RESULTS - 1, answer, 4), 5);
    print("no such kind", husk_step(heading, n, doubles, d, 3, 0, 0, 0, answer, 2), 5);
    print("no such mode", husk_profile_deviance(heading, n, doubles, d, theta, 1, 2, answer, 5), 5);

    /* Twice the response, and twice its solution; then a heading that no call has written. */
    const double zty[] = {8.0}, xty[] = {12.0}, yty[] = {36.0};
    print("new response", husk_replace_response(heading, n, doubles, d, zty, 1, xty, 1, yty, 1, answer, 5), 2);
    print("new response, no y'y", husk_replace_response(heading, n, doubles, d, zty, 1, xty, 1, yty, 0, answer, 5), 2);
    print("solve", husk_solve_profile_blocked(heading, n, doubles, d, ML, out, RESULTS, words, RESULTS, answer, 5), 4);
    print("profile deviance", husk_profile_deviance(heading, n, doubles, d, theta, 1, ML, answer, 5), 3);
    print("solve", husk_solve_profile_blocked(heading, n, doubles, d, ML, out, RESULTS, words, RESULTS, answer, 5), 2);
    printf("beta %" PRIx64 "\n", words[0]);

    /* 14; the other cases of a deviance; what 26 and 27 leave. */
    const double infinite[] = {HUGE_VAL}, large[] = {1e200};
    print("begin, infinite theta", husk_begin(heading, n, doubles, d, infinite, 1, answer, 5), 2);
    print("load", husk_load((const uint8_t *)one_reading, strlen(one_reading), heading, n, doubles, d, answer, 5), 2);
    print("no scale", husk_profile_deviance(heading, n, doubles, d, theta, 1, REML, answer, 5), 5);
    print("load", husk_load((const uint8_t *)small_product, strlen(small_product), heading, n, doubles, d, answer, 5), 2);
    print("refused pivot", husk_profile_deviance(heading, n, doubles, d, theta, 1, ML, answer, 5), 5);
    size_t left = 0;
    for (size_t i = LOADED; i < d; i++)
        left += doubles[i] != 0.0;
    printf("working doubles other than 0: %zu\n", left);
    print("load", husk_load((const uint8_t *)no_entry, strlen(no_entry), heading, n, doubles, d, answer, 5), 2);
    print("NaN", husk_profile_deviance(heading, n, doubles, d, large, 1, ML, answer, 5), 5);
    for (size_t i = 0; i < RESULTS; i++)
        out[i] = 7.0, words[i] = 7;
    print("solve", husk_solve_profile_blocked(heading, n, doubles, d, ML, out, RESULTS, words, RESULTS, answer, 5), 4);
    left = 0;
    for (size_t i = 0; i < RESULTS; i++)
        left += out[i] != 0.0 || words[i] != 0;
    printf("results other than 0: %zu\n", left);

    heading[3] = 9;
    print("steps left, no workspace", husk_steps_left(heading, n, answer, 5), 3);
    print("step, no workspace", husk_step(heading, n, doubles, d, C, 0, 0, 0, answer, 5), 2);

    printf("root %g, logarithm %g\n", husk_sqrt(2.25), husk_ln(1));
    free(heading);
    free(doubles);
    return 0;
}
