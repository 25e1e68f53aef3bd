/*
 * The calls of the blocked Cholesky solver, for C and Rust on x86-64 Linux. Link with libcapi.a, which `rt lib` makes in crates/capi/out.
 *
 * No function requires anything of numbers and lists: any may be given. Of pointers, what C demands:
 * - a list is a pointer and its length in elements; NULL only with length 0;
 * - a list that a call writes must overlap no other list of that call; lists that it only reads may;
 * - the stack is large enough: husk_needs and husk_load take 530 KB, whatever the sheet, husk_step and husk_profile_deviance some 75 KB, every other
 *   less than 20 KB.
 * No function keeps a pointer or has a state of its own, so calls on different workspaces may run at once.
 *
 * A sheet is Record 1 of document 01. Blocks count from 0, sorted by levels, largest first, equal ones in the sheet's sequence; block k, the last, is fixed
 * effects and response, with p + 1 rows.
 *
 * Every call but the square root and the logarithm returns a number, 0 where it is accepted, and writes words into its last list, `answer`. Words 0 and 1
 * are the refusal's two places, 0 where it has none, and the words behind them the values that the function names; a value that is not there is 0. A
 * double is given as its word (its bits), a NaN always as 7ff8000000000000. Words behind those that the function names are untouched.
 *
 * What is refused leaves heading and doubles as they were, but for 26, and the result list, but for 27. "Working doubles" are all that the sheet
 * needs but the loaded ones.
 *    1  the sheet is longer than 16,777,216 bytes
 *    2  a line is ill-formed, missing or out of sequence (line)
 *    3  a word is infinite or NaN (line)
 *    4  a count or index is outside its range (line)
 *    5  the sheet's flag is 0: not intercepts only
 *    6  there is no block
 *    7  a block has more than one effect per level
 *    8  q is not the sum of the blocks' levels
 *    9  a line zz has a zero, is off the diagonal inside a block, or has no mirror of equal bits (the first such line)
 *   10  more than two blocks, and a pair above 100,000 cells (j, jj, sorted blocks)
 *   11  a pair has more than 100,000 cells, and not one entry in each column or too many for its cells (j, jj)
 *   12  heading or doubles are too short
 *   13  a list has the wrong length (list; theta and the result list are list 0)
 *   14  a list holds an infinity or NaN (list, index)
 *   20  heading and doubles are no workspace
 *   21  there is no step of that name
 *   22  no update is under way: none was begun, or the factor is finished
 *   23  the step is done already
 *   24  a forerunner of the step is missing
 *   25  the factor is not finished
 *   26  a pivot is at most 0, NaN passes (block, row): every working double is +0.0 and no update is under way
 *   27  a pivot of the fixed effects is not above 0, NaN included (row): the whole result list is +0.0
 * The functions themselves refuse, before all else and in this order, and leave everything as it was, the answer list too:
 *  100  the answer list has fewer words than the function names
 *  101  there is no such mode: 0 is ML, 1 is REML
 *  102  there is no such kind of step: 0 is S, 1 is C, 2 is T
 *  103  the list of words is not as long as the result list
 */
#ifndef HUSKCANYON_H
#define HUSKCANYON_H

#include <stddef.h>
#include <stdint.h>

#ifdef __cplusplus
extern "C" {
#endif

/*
 * How long heading and doubles have to be for husk_load of this sheet: with at least so many it never answers 12, with fewer it does. Refused with 1 to
 * 11, by the number and places that husk_load gives, or 100. Answer: 4 words, word 2 the doubles, word 3 the heading's numbers.
 */
uint64_t husk_needs(const uint8_t *sheet, size_t sheet_length, uint64_t *answer, size_t answer_length);

/*
 * Loads a sheet into a workspace: heading and doubles are what the sheet says, every working double is +0.0, no update is under way, and nothing past
 * what the sheet needs is written. Refused with 1 to 12, or 100. Answer: 2 words.
 */
uint64_t husk_load(const uint8_t *sheet, size_t sheet_length, uint32_t *heading, size_t heading_length, double *doubles, size_t doubles_length,
                   uint64_t *answer, size_t answer_length);

/*
 * Begins an update with one theta for each block, in the sheet's sequence; an update under way is dropped. It leaves theta kept, every working block scaled
 * from its loaded one, the logarithms' sum +0.0, and an update under way with no step done. Refused with 20, 13, 14, or 100. Answer: 2 words.
 */
uint64_t husk_begin(uint32_t *heading, size_t heading_length, double *doubles, size_t doubles_length, const double *theta, size_t theta_length,
                    uint64_t *answer, size_t answer_length);

/*
 * One step of an update: S(i, j, h), h < j <= i, for kind 0, C(i) for kind 1, T(i, j), j < i, for kind 2; numbers that the step does not have are not looked
 * at. It writes its own block, (i, j) or (i, i), the progress and, in C(i), i < k, the logarithms' sum; after the last step the factor is finished. Its
 * forerunners: of S(i, j, h) S(i, j, h-1), T(i, h) and T(j, h); of C(j) S(j, j, j-1); of T(i, j) C(j) and S(i, j, j-1); where there are such. Refused with
 * 20, 22, 21, 23, 24, 26, or 100, 102. Answer: 2 words.
 */
uint64_t husk_step(uint32_t *heading, size_t heading_length, double *doubles, size_t doubles_length, uint64_t kind, uint64_t i, uint64_t j, uint64_t h,
                   uint64_t *answer, size_t answer_length);

/*
 * Replaces the response among the loaded numbers by Z'y, X'y and y'y (one number), which are lists 0, 1 and 2; no working double is touched, and
 * neither an update nor a finished factor is left. Refused with 20, 13, 14, or 100. Answer: 2 words.
 */
uint64_t husk_replace_response(uint32_t *heading, size_t heading_length, double *doubles, size_t doubles_length, const double *zty, size_t zty_length,
                               const double *xty, size_t xty_length, const double *yty, size_t yty_length, uint64_t *answer, size_t answer_length);

/*
 * Begins with theta, takes every step and gives the profiled deviance; leaves the finished factor. Refused with 20, 13, 14, or 100, 101. A refused pivot
 * is an answer too: it returns 26 with block and row, and leaves what 26 leaves. Answer: 5 words, from word 2 on
 * - the case: 0 refused, 1 a value, 2 a refused pivot, 3 no scale,
 * - the deviance's word,
 * - the word of what the Rust gives: the deviance, or f64::MAX for cases 2 and 3.
 */
uint64_t husk_profile_deviance(uint32_t *heading, size_t heading_length, double *doubles, size_t doubles_length, const double *theta,
                               size_t theta_length, uint64_t mode, uint64_t *answer, size_t answer_length);

/*
 * The profiled deviance of a finished factor; the workspace is not touched. Refused with 20, 25, or 100, 101. Answer: the 5 words of
 * husk_profile_deviance.
 */
uint64_t husk_deviance_from_factor(const uint32_t *heading, size_t heading_length, const double *doubles, size_t doubles_length, uint64_t mode,
                                   uint64_t *answer, size_t answer_length);

/*
 * The solution of a finished factor; the workspace is not touched. `out` is the result list, of p + 2q + p(p+1)/2 + q(p+1) doubles: beta, b, u, L_X by
 * rows, w of y, w of each column. `words` is as long, and gets the word of each double of `out`. Refused with 20, 25 and 13, which leave both lists as
 * they were, 27, which leaves +0.0 in the one and 0 in the other, or 100, 101, 103. Answer: 4 words, from word 2 on the deviance's and sigma2's.
 */
uint64_t husk_solve_profile_blocked(const uint32_t *heading, size_t heading_length, const double *doubles, size_t doubles_length, uint64_t mode,
                                    double *out, size_t out_length, uint64_t *words, size_t words_length, uint64_t *answer, size_t answer_length);

/*
 * How many steps of an update are left: 0 of a finished factor, all of them where no update was begun, or one was dropped. Refused with 20, by the heading alone, or 100. Answer: 3 words, word 2 the steps
 * left.
 */
uint64_t husk_steps_left(const uint32_t *heading, size_t heading_length, uint64_t *answer, size_t answer_length);

/*
 * The log determinant of a finished factor. Refused with 20, 25, or 100. Answer: 4 words, word 2 is 1 where there is a value, else 0, and word 3 its word.
 */
uint64_t husk_log_determinant(const uint32_t *heading, size_t heading_length, const double *doubles, size_t doubles_length, uint64_t *answer,
                              size_t answer_length);

/*
 * Pivot `row` of block `block` of a finished factor, the blocks sorted by levels. Refused with 20, 25, or 100. Answer: 4 words, word 2 is 1 where there is
 * such a pivot, else 0, and word 3 its word.
 */
uint64_t husk_pivot(const uint32_t *heading, size_t heading_length, const double *doubles, size_t doubles_length, uint64_t block, uint64_t row,
                    uint64_t *answer, size_t answer_length);

/*
 * The double nearest to the square root of x; there is never a tie. Of a zero it is that zero, with its sign; of a number below zero
 * and of a NaN it is a NaN; of +infinity it is +infinity.
 */
double husk_sqrt(double x);

/*
 * A double r with |r - ln x| <= 2^-50 + 2^-52 |r|, which is +0 at 1. Of either zero it is -infinity; of a number below zero and of a
 * NaN it is a NaN; of +infinity it is +infinity. The bits are fixed by a whole-number definition (crates/logarithm/specs), the same on
 * every machine, but for those of a NaN.
 */
double husk_ln(double x);

#ifdef __cplusplus
}
#endif

#endif
