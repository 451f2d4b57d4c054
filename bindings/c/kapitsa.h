/* Zapekuri for C and C++: the joints of a scanned mechanism solved, and measured whether they close.

   Call the functions at the end of this file, whose names end in _in:

     kapitsa_solve_in        finds the multipliers that close the joints of a table of rows
     kapitsa_check_in        measures every joint's gap from the multipliers: closed or open
     kapitsa_gaps_in         the check, with each row's measured gap, closed or open
     kapitsa_margins_in      the check, and where it says closed each row's smallest tolerance
     kapitsa_propose_in, kapitsa_commit_in    the solve in two steps, with a look between
     kapitsa_solve_groups_in                  several mechanisms on one bench, each by itself
     kapitsa_solve_velocity_in, kapitsa_check_velocity_in, kapitsa_gaps_velocity_in,
     kapitsa_margins_velocity_in, kapitsa_solve_velocity_groups_in    the same of speeds
     kapitsa_first_refused_in                 the row, body or rule that a refusal is about
     kapitsa_inverse_in      the inverse of a link's 3 by 3 inertia

   Each returns 0 or the number of a refusal, which kapitsa_refusal_text puts into words
   (kapitsa_refusals.h); what it finds it writes into lent memory, and only where it returns 0.
   first.c is a whole program: cc first.c $(pkg-config --cflags --libs kapitsa)

   What is asked of a caller, of every function: x86-64, gcc or clang. A slice is a pointer, then its
   length in numbers, and that many numbers are there, aligned as their type is; where the length is 0
   the pointer may be NULL. What is written overlaps nothing else that is lent; what is only read may
   overlap. There is no state: threads may call at once, each with memory that no other writes to. A
   call needs a few KiB of stack, one by groups some 600 KB. All else is tested, and refused where it
   does not fit. The functions in _in may be called in any floating-point mode and leave it as it was;
   the raw ones, which they are made of, take each work slice by itself and need the control word MXCSR
   to be KAPITSA_CONTROL, as it is when a program starts, unless it was linked with -ffast-math: in
   another mode their answers, "closed" too, mean nothing.

   ROWS AND BODIES. For n rows and b bodies numbers has 27 n doubles, words 8 n, masses 10 b, centres
   and new_centres 3 b each; residuals, solution, multipliers, rule_numbers, gaps, margin_rows and
   margins have n, impulses 6 b. Row i has its doubles from numbers[27 * i]:

      0  linear_a (3)              15  error                20  min_multiplier
      3  angular_a (3)             16  target_velocity      21  max_multiplier
      6  position_angular_a (3)    17  force_bias           22  min_impulse
      9  linear_b (3)              18  compliance           23  max_impulse
     12  angular_b (3)             19  damping              24  accumulated_multiplier
                                                            25  accumulated_impulse
                                                            26  cached_velocity_effective_mass

   and its words from words[8 * i]: key, dimension (0 linear, 1 angular), body_a, body_b, force_driven,
   position_enabled, owner (the number of its joint), spare (0). Body j has its inverse mass and its
   inverse inertia by columns from masses[10 * j], and its centre from centres[3 * j]: where no centre
   is known, lend zeros, and what new_centres gets is by how much each body moves. A rigid row has
   min_multiplier -infinity and max_multiplier +infinity, position_enabled 1, and 0 where nothing else
   is said; error is by how much the joint gapes along the row.

   VELOCITIES take the same rows and masses, no centres, and residuals, which are only read: for each
   row the speed that it should have less the one that it has, in m/s or rad/s. Nothing but refusals 4
   and 7 then reads error, position_enabled and the bounds of the multiplier. Instead of those the
   bounds of the impulse must be -infinity and +infinity.

   RULES are the tolerances, at most KAPITSA_MAX_RULES: for r rules rule_words has 3 r, rule_tolerances
   r. Rule i has dimension, first key and last key from rule_words[3 * i] and its tolerance at
   rule_tolerances[i], in metres or radians, for velocities in m/s or rad/s. It applies to the rows of
   its dimension whose key is from the first to the last. Each row must be under one rule and no second;
   keys that no row bears need none, and there rules may overlap. rule_numbers gets the number of each
   row's rule, from 0. One tolerance for each dimension is KAPITSA_TWO_RULES.

   A PROPOSAL is a position solve up to the rows, which it only reads: proposal has
   KAPITSA_PROPOSAL_WORDS, rows, flag, count and mark, and with solution and started, n doubles each,
   the multipliers it started from, it is what a commit takes. One that is not committed has changed
   nothing; one that is leaves what the solve would have left. Write nothing to these three between
   the two calls.

   BY GROUPS, several mechanisms are solved on one bench. Rows that share a body, directly or through
   further rows, are one group, and no others are; but a body whose ten mass numbers are all zero, of
   either sign, such as a frame that stands, joins nothing. Groups are numbered from 0, by their lowest
   row, and each is answered or refused as a table of its rows alone, in their order, with all bodies:
   what happens in one does not touch another. group_numbers has n words, group_answers 3 n and
   group_maxima 2 n, as there are at most n groups.

   WORK MEMORY is lent as one piece of doubles and one of words, to a check as doubles alone;
   kapitsa_solve_doubles and its like say how much. It is 0 after every call but one refused by 3,
   which writes nothing at all. */
#ifndef KAPITSA_H
#define KAPITSA_H

#if !defined(__x86_64__) || !defined(__GNUC__)
#error "libkapitsa.a is for x86-64; this header takes gcc or clang"
#endif

#include <stddef.h>
#include <stdint.h>
#include <xmmintrin.h> /* _mm_getcsr, _mm_setcsr */

#include "kapitsa_refusals.h"

#define KAPITSA_VERSION_MAJOR 0
#define KAPITSA_VERSION_MINOR 2
#define KAPITSA_VERSION_PATCH 0
#define KAPITSA_VERSION "0.2.0"

#define KAPITSA_MUST_USE __attribute__((warn_unused_result))

#ifdef __cplusplus
extern "C" {
#endif

/* ---- the numbers that are passed and answered */

enum kapitsa_limit {
    KAPITSA_MAX_ROWS = 512,
    KAPITSA_MAX_BODIES = 256,
    KAPITSA_MAX_PAIRS = 16384, /* rows that share a body, two by two; mode 1 */
    KAPITSA_MAX_RULES = 64,
    KAPITSA_MAX_KEY = 255
};

/* A proposal's words, and where each stands. */
enum kapitsa_proposal {
    KAPITSA_PROPOSAL_ROWS = 0,
    KAPITSA_PROPOSAL_FLAG = 1,
    KAPITSA_PROPOSAL_COUNT = 2,
    KAPITSA_PROPOSAL_MARK = 3, /* 0, and 1 once it is committed */
    KAPITSA_PROPOSAL_WORDS = 4
};

/* Of each group, where its words stand in group_answers, from KAPITSA_GROUP_WORDS * group. */
enum kapitsa_group {
    KAPITSA_GROUP_REFUSAL = 0, /* its refusal or 0; count and flag are 0 beside a refusal */
    KAPITSA_GROUP_COUNT = 1,
    KAPITSA_GROUP_FLAG = 2,
    KAPITSA_GROUP_WORDS = 3
};

enum kapitsa_dimension {
    KAPITSA_LINEAR = 0,
    KAPITSA_ANGULAR = 1
};

/* The rule_words of two rules, linear and angular, over all keys:
   const uint32_t rule_words[] = KAPITSA_TWO_RULES; const double rule_tolerances[] = {1e-6, 1e-6}; */
#define KAPITSA_TWO_RULES                                          \
    {                                                              \
        KAPITSA_LINEAR, 0, KAPITSA_MAX_KEY,                        \
        KAPITSA_ANGULAR, 0, KAPITSA_MAX_KEY                        \
    }

enum kapitsa_mode {
    KAPITSA_DIAGONAL = 0,
    KAPITSA_INCOMPLETE_CHOLESKY = 1,
    KAPITSA_BLOCK_JACOBI = 2
};

enum kapitsa_verdict {
    KAPITSA_OPEN = 0,  /* some row's exact gap plus twice its radius exceeds its tolerance */
    KAPITSA_CLOSED = 1 /* every row's exact gap is within its tolerance */
};

/* What a refusal is about, the first word of a place; the second is which row, body or rule, else 0. */
enum kapitsa_place {
    KAPITSA_PLACE_NONE = 0, /* nothing one by one */
    KAPITSA_PLACE_ROW = 1,
    KAPITSA_PLACE_BODY = 2,
    KAPITSA_PLACE_RULE = 3,
    KAPITSA_PLACE_LIMIT = 4, /* rows, and limit 0 */
    KAPITSA_PLACE_WORDS = 2
};

/* MXCSR as a program starts: round to nearest, subnormal numbers kept, exceptions masked. */
#define KAPITSA_CONTROL 0x1f80u

/* ---- the work slices, double or uint32_t: name and length for n rows, b bodies and the mode;
   p is kapitsa_pairs(n). These lists stay defined, for callers who lend each slice by itself. */

#define KAPITSA_SOLVE_WORK(DOUBLES, WORDS)                         \
    DOUBLES(jacobians, 12 * n)                                     \
    WORDS(links, 2 * n)                                            \
    DOUBLES(tolerances, n)                                         \
    DOUBLES(diagonal, n)                                           \
    DOUBLES(residual, n)                                           \
    DOUBLES(pending, n)                                            \
    DOUBLES(direction, n)                                          \
    DOUBLES(product, n)                                            \
    DOUBLES(body_impulses, 6 * b)                                  \
    WORDS(pattern, KAPITSA_BY_MODE(0, n + 1 + p, n))               \
    WORDS(order, KAPITSA_BY_MODE(0, n + 2 * p, 0))                 \
    DOUBLES(values, KAPITSA_BY_MODE(0, p, 36 * n))

#define KAPITSA_CHECK_WORK(DOUBLES)                                \
    DOUBLES(impulses, 6 * b)                                       \
    DOUBLES(size_impulses, 6 * b)                                  \
    DOUBLES(values, n)                                             \
    DOUBLES(sizes, n)

#define KAPITSA_BY_MODE(diagonal, cholesky, blocks)                \
    (mode == KAPITSA_INCOMPLETE_CHOLESKY ? (cholesky)              \
     : mode == KAPITSA_BLOCK_JACOBI      ? (blocks)                \
                                         : (diagonal))

/* What is made of the lists: parameters, sums, memory carved in their order, arguments. */
#define KAPITSA_TAKES_DOUBLES(name, length) , double *name, size_t name##_len
#define KAPITSA_TAKES_WORDS(name, length) , uint32_t *name, size_t name##_len
#define KAPITSA_ADD(name, length) + (length)
#define KAPITSA_SKIP(name, length)
#define KAPITSA_CARVE_DOUBLES(name, length) \
    double *name = kapitsa_carve_doubles(&work_doubles, length);
#define KAPITSA_CARVE_WORDS(name, length) \
    uint32_t *name = kapitsa_carve_words(&work_words, length);
#define KAPITSA_LEND(name, length) , name, length

/* ---- the raw functions; at their end a pointer and a length for each work slice, in order */

/* Refusals 3, 25, 4, 27, 28 and 5 to 17. counts (2) gets count and flag, maxima (2) the linear and
   the angular residual maximum; with them accumulated multipliers (in numbers), solution,
   impulses, new_centres and rule_numbers are written. The new centre of a body is its centre plus
   inverse mass times linear impulse, part by part, each rounded; a body whose six impulses are all
   zero keeps its centre's bits, and with count 0 every body does. 27 judges rules that no row is
   under too, and a job without rows. In mode 1 each pivot starts from diagonal * (1 + shift): 0 is
   the plain factor, a little more lets rows pass that say almost the same and that 13 turns back.
   Modes 0 and 2 use no shift, but it must be from 0 to 1 there too, and in a job without rows. */
KAPITSA_MUST_USE uint32_t kapitsa_solve_position(
    double *numbers, size_t numbers_len, const uint32_t *words, size_t words_len,
    const double *masses, size_t masses_len, const double *centres, size_t centres_len,
    const uint32_t *rule_words, size_t rule_words_len,
    const double *rule_tolerances, size_t rule_tolerances_len,
    uint32_t rows, uint32_t bodies, uint32_t limit, uint32_t mode, double shift,
    double *solution, size_t solution_len, double *impulses, size_t impulses_len,
    double *new_centres, size_t new_centres_len,
    uint32_t *rule_numbers, size_t rule_numbers_len,
    uint32_t *counts, size_t counts_len, double *maxima, size_t maxima_len
    KAPITSA_SOLVE_WORK(KAPITSA_TAKES_DOUBLES, KAPITSA_TAKES_WORDS));

/* kapitsa_solve_position, which answers and is refused as ever, 17 too, but for its last step: numbers
   is only read. In place of counts, proposal (4) gets rows, flag, count and mark 0, and started (n)
   each row's accumulated multiplier. A refusal writes none of it. 3 judges their lengths too. */
KAPITSA_MUST_USE uint32_t kapitsa_propose_position(
    const double *numbers, size_t numbers_len, const uint32_t *words, size_t words_len,
    const double *masses, size_t masses_len, const double *centres, size_t centres_len,
    const uint32_t *rule_words, size_t rule_words_len,
    const double *rule_tolerances, size_t rule_tolerances_len,
    uint32_t rows, uint32_t bodies, uint32_t limit, uint32_t mode, double shift,
    double *solution, size_t solution_len, double *impulses, size_t impulses_len,
    double *new_centres, size_t new_centres_len,
    uint32_t *rule_numbers, size_t rule_numbers_len,
    uint32_t *proposal, size_t proposal_len, double *started, size_t started_len,
    double *maxima, size_t maxima_len
    KAPITSA_SOLVE_WORK(KAPITSA_TAKES_DOUBLES, KAPITSA_TAKES_WORDS));

/* Refusals 3, 29 and 30, judged in this order; none writes. proposal, solution and started are as
   kapitsa_propose_position left them, rows and numbers (27 a row) the rows as they are now. Each
   accumulated multiplier must have the bits that the proposal started from, so that -0.0 is not 0.0;
   whatever else stands in the rows is not looked at. The multipliers gain the solution, with count 0
   they keep their bits, and the proposal gets its mark. 3 too where solution and started have not as
   many doubles as the proposal's words have rows. */
KAPITSA_MUST_USE uint32_t kapitsa_commit_proposal(
    double *numbers, size_t numbers_len, uint32_t rows,
    uint32_t *proposal, size_t proposal_len, const double *solution, size_t solution_len,
    const double *started, size_t started_len);

/* Refusals 3, 4, 27, 28, 6, 7 and 18. multipliers are the gains since the errors were measured,
   such as a solve's solution. centres are judged by 6, and nothing else reads them. verdict (1)
   gets KAPITSA_OPEN or KAPITSA_CLOSED, by each row's own tolerance, gap (2) the measured gap of
   the linear rows and of the angular ones: no row's exact gap is larger, and 0 stands where there
   is no such row. */
KAPITSA_MUST_USE uint32_t kapitsa_closing_check(
    const double *numbers, size_t numbers_len, const uint32_t *words, size_t words_len,
    const double *masses, size_t masses_len, const double *centres, size_t centres_len,
    const uint32_t *rule_words, size_t rule_words_len,
    const double *rule_tolerances, size_t rule_tolerances_len,
    uint32_t rows, uint32_t bodies, const double *multipliers, size_t multipliers_len,
    uint32_t *rule_numbers, size_t rule_numbers_len,
    uint32_t *verdict, size_t verdict_len, double *gap, size_t gap_len
    KAPITSA_CHECK_WORK(KAPITSA_TAKES_DOUBLES));

/* Refusals 3, 25, 4, 27, 28, 5, 6, 20 and 7 to 17, judged in this order, where all rows pass 7
   before 8 and 9 judge the first. The factor of modes 1 and 2 is built before the tolerance is
   tested: 10 to 13 turn back residuals that are within it, too. As kapitsa_solve_position it writes
   solution, impulses, rule_numbers, counts and maxima, and of numbers the accumulated impulses
   alone: each gains its solution number, and with count 0 keeps its bits. */
KAPITSA_MUST_USE uint32_t kapitsa_solve_velocity(
    double *numbers, size_t numbers_len, const uint32_t *words, size_t words_len,
    const double *masses, size_t masses_len, const double *residuals, size_t residuals_len,
    const uint32_t *rule_words, size_t rule_words_len,
    const double *rule_tolerances, size_t rule_tolerances_len,
    uint32_t rows, uint32_t bodies, uint32_t limit, uint32_t mode, double shift,
    double *solution, size_t solution_len, double *impulses, size_t impulses_len,
    uint32_t *rule_numbers, size_t rule_numbers_len,
    uint32_t *counts, size_t counts_len, double *maxima, size_t maxima_len
    KAPITSA_SOLVE_WORK(KAPITSA_TAKES_DOUBLES, KAPITSA_TAKES_WORDS));

/* Refusals of the whole table: 3, 25, 4, 27, 28, 6 and 7, judged in this order. Where 0 is returned
   group_count (1) gets how many groups there are, and each group has an answer of its own: 0 or its
   refusal, 5 or 8 to 17, count and flag in group_answers (KAPITSA_GROUP_WORDS a group), and its linear
   and angular residual maximum in group_maxima (2 a group). group_numbers gets each row's group. Of an
   accepted group rows and bodies get what kapitsa_solve_position gives them; of a refused one all its
   numbers stay as they were, its maxima, and the impulses and new centres of its bodies, too. A body
   whose mass numbers are all zero, or one in no row, gets impulses of +0.0, and its centre as new
   centre; 17 by the impulse of such a body still refuses its group. What is lent behind the last group
   stays as it was. The work memory of these two functions is on the stack, some 600 KB whatever the
   counts: a thread that calls them should have a megabyte. */
KAPITSA_MUST_USE uint32_t kapitsa_solve_groups(
    double *numbers, size_t numbers_len, const uint32_t *words, size_t words_len,
    const double *masses, size_t masses_len, const double *centres, size_t centres_len,
    const uint32_t *rule_words, size_t rule_words_len,
    const double *rule_tolerances, size_t rule_tolerances_len,
    uint32_t rows, uint32_t bodies, uint32_t limit, uint32_t mode, double shift,
    double *solution, size_t solution_len, double *impulses, size_t impulses_len,
    double *new_centres, size_t new_centres_len,
    uint32_t *rule_numbers, size_t rule_numbers_len,
    uint32_t *group_numbers, size_t group_numbers_len,
    uint32_t *group_answers, size_t group_answers_len,
    double *group_maxima, size_t group_maxima_len,
    uint32_t *group_count, size_t group_count_len);

/* The same of kapitsa_solve_velocity, with 20 between 6 and 7, and no centres. */
KAPITSA_MUST_USE uint32_t kapitsa_solve_velocity_groups(
    double *numbers, size_t numbers_len, const uint32_t *words, size_t words_len,
    const double *masses, size_t masses_len, const double *residuals, size_t residuals_len,
    const uint32_t *rule_words, size_t rule_words_len,
    const double *rule_tolerances, size_t rule_tolerances_len,
    uint32_t rows, uint32_t bodies, uint32_t limit, uint32_t mode, double shift,
    double *solution, size_t solution_len, double *impulses, size_t impulses_len,
    uint32_t *rule_numbers, size_t rule_numbers_len,
    uint32_t *group_numbers, size_t group_numbers_len,
    uint32_t *group_answers, size_t group_answers_len,
    double *group_maxima, size_t group_maxima_len,
    uint32_t *group_count, size_t group_count_len);

/* Refusals 3, 4, 27, 28, 6, 20, 7 and 18. kapitsa_closing_check with -residual in the error's place:
   multipliers are the gains since the residuals were measured, gap is in m/s and rad/s, and 18
   judges residuals instead of errors. */
KAPITSA_MUST_USE uint32_t kapitsa_velocity_closing_check(
    const double *numbers, size_t numbers_len, const uint32_t *words, size_t words_len,
    const double *masses, size_t masses_len, const double *residuals, size_t residuals_len,
    const uint32_t *rule_words, size_t rule_words_len,
    const double *rule_tolerances, size_t rule_tolerances_len,
    uint32_t rows, uint32_t bodies, const double *multipliers, size_t multipliers_len,
    uint32_t *rule_numbers, size_t rule_numbers_len,
    uint32_t *verdict, size_t verdict_len, double *gap, size_t gap_len
    KAPITSA_CHECK_WORK(KAPITSA_TAKES_DOUBLES));

/* kapitsa_closing_check, which answers and is refused as ever, and where it says closed the list of
   what would open the joint: margin_rows has every row once, and margins beside each the smallest
   tolerance at which it still closes, from +0.0. Linear rows come before angular ones, the largest
   number first within each dimension, so that each dimension begins with its gap, and the lower row
   first among equals. Judged by its number instead of its own tolerance, the others by their own, a
   row still closes; by any tolerance from 0 below it, where it is above 0, the verdict is open. Where
   the verdict is open, or the check is refused, both lists stay as they were. 3 judges their lengths
   too. */
KAPITSA_MUST_USE uint32_t kapitsa_closing_margins(
    const double *numbers, size_t numbers_len, const uint32_t *words, size_t words_len,
    const double *masses, size_t masses_len, const double *centres, size_t centres_len,
    const uint32_t *rule_words, size_t rule_words_len,
    const double *rule_tolerances, size_t rule_tolerances_len,
    uint32_t rows, uint32_t bodies, const double *multipliers, size_t multipliers_len,
    uint32_t *rule_numbers, size_t rule_numbers_len,
    uint32_t *margin_rows, size_t margin_rows_len, double *margins, size_t margins_len,
    uint32_t *verdict, size_t verdict_len, double *gap, size_t gap_len
    KAPITSA_CHECK_WORK(KAPITSA_TAKES_DOUBLES));

/* The same of kapitsa_velocity_closing_check; the numbers are in m/s and rad/s. */
KAPITSA_MUST_USE uint32_t kapitsa_velocity_closing_margins(
    const double *numbers, size_t numbers_len, const uint32_t *words, size_t words_len,
    const double *masses, size_t masses_len, const double *residuals, size_t residuals_len,
    const uint32_t *rule_words, size_t rule_words_len,
    const double *rule_tolerances, size_t rule_tolerances_len,
    uint32_t rows, uint32_t bodies, const double *multipliers, size_t multipliers_len,
    uint32_t *rule_numbers, size_t rule_numbers_len,
    uint32_t *margin_rows, size_t margin_rows_len, double *margins, size_t margins_len,
    uint32_t *verdict, size_t verdict_len, double *gap, size_t gap_len
    KAPITSA_CHECK_WORK(KAPITSA_TAKES_DOUBLES));

/* kapitsa_closing_check, which answers and is refused as ever, and each row's measured gap, closed or
   open: gaps has for each row the smallest tolerance at which it closes, from +0.0, so that its exact gap
   is no larger. After a refusal gaps stays as it was. 3 judges its length too. */
KAPITSA_MUST_USE uint32_t kapitsa_closing_gaps(
    const double *numbers, size_t numbers_len, const uint32_t *words, size_t words_len,
    const double *masses, size_t masses_len, const double *centres, size_t centres_len,
    const uint32_t *rule_words, size_t rule_words_len,
    const double *rule_tolerances, size_t rule_tolerances_len,
    uint32_t rows, uint32_t bodies, const double *multipliers, size_t multipliers_len,
    uint32_t *rule_numbers, size_t rule_numbers_len, double *gaps, size_t gaps_len,
    uint32_t *verdict, size_t verdict_len, double *gap, size_t gap_len
    KAPITSA_CHECK_WORK(KAPITSA_TAKES_DOUBLES));

/* The same of kapitsa_velocity_closing_check; the numbers are in m/s and rad/s. */
KAPITSA_MUST_USE uint32_t kapitsa_velocity_closing_gaps(
    const double *numbers, size_t numbers_len, const uint32_t *words, size_t words_len,
    const double *masses, size_t masses_len, const double *residuals, size_t residuals_len,
    const uint32_t *rule_words, size_t rule_words_len,
    const double *rule_tolerances, size_t rule_tolerances_len,
    uint32_t rows, uint32_t bodies, const double *multipliers, size_t multipliers_len,
    uint32_t *rule_numbers, size_t rule_numbers_len, double *gaps, size_t gaps_len,
    uint32_t *verdict, size_t verdict_len, double *gap, size_t gap_len
    KAPITSA_CHECK_WORK(KAPITSA_TAKES_DOUBLES));

/* Of a solve that this number turned back, given what the solve was given: place (2) gets what the refusal
   is about and which, the first row for 4, 5, 7, 8, 9, 11 and 28, the first body for 6, the first rule for
   27, the limit for a 5 by limit 0. KAPITSA_PLACE_NONE where the number judges nothing one by one, where
   nothing fails its test and where a length does not fit the counts. velocities is 1 for a solve of
   velocities, whose residuals are lent beside, else 0, with the centres. 3 where velocities is above 1 or
   place is not 2 long. */
KAPITSA_MUST_USE uint32_t kapitsa_first_refused(
    uint32_t velocities, uint32_t number,
    const double *numbers, size_t numbers_len, const uint32_t *words, size_t words_len,
    const double *masses, size_t masses_len, const double *beside, size_t beside_len,
    const uint32_t *rule_words, size_t rule_words_len,
    const double *rule_tolerances, size_t rule_tolerances_len,
    uint32_t rows, uint32_t bodies, uint32_t limit, uint32_t *place, size_t place_len);

/* Refusals 3, 21, 22, 23 and 12, judged in this order. inertia and inverse have 9 doubles each, by
   columns, as a mass has its inverse inertia; inverse is written where 0 is returned. */
KAPITSA_MUST_USE uint32_t kapitsa_inverse_spd(
    const double *inertia, size_t inertia_len, double *inverse, size_t inverse_len);

/* ---- work memory for every call in every mode, as constants for arrays; counts within the limits */

#define KAPITSA_WORK_PAIRS(rows)                                                     \
    ((size_t)(rows) * ((size_t)(rows) - 1) / 2 < (size_t)KAPITSA_MAX_PAIRS           \
         ? (size_t)(rows) * ((size_t)(rows) - 1) / 2                                 \
         : (size_t)KAPITSA_MAX_PAIRS)
#define KAPITSA_WORK_DOUBLES(rows, bodies)                                           \
    (18 * (size_t)(rows) + 12 * (size_t)(bodies)                                     \
     + (36 * (size_t)(rows) > KAPITSA_WORK_PAIRS(rows) ? 36 * (size_t)(rows)         \
                                                       : KAPITSA_WORK_PAIRS(rows)))
#define KAPITSA_WORK_WORDS(rows) (4 * (size_t)(rows) + 1 + 3 * KAPITSA_WORK_PAIRS(rows))

/* ---- how much work memory a call needs, exactly, the same for positions and for velocities, for a
   proposal as for a solve, and for a check with its gaps or its list of margins as for a check, which
   needs no words: more may be lent, less is refused by 3. 0 too where a count or the mode is beyond the
   limits: whatever is lent, such a call is refused. */

static inline int kapitsa_within(uint32_t rows, uint32_t bodies, uint32_t mode)
{
    return rows <= KAPITSA_MAX_ROWS && bodies <= KAPITSA_MAX_BODIES && mode <= 2;
}

/* n (n - 1) / 2, at most KAPITSA_MAX_PAIRS. */
static inline size_t kapitsa_pairs(uint32_t n)
{
    uint64_t all = n == 0 ? 0 : (uint64_t)n * (n - 1) / 2;
    return all < KAPITSA_MAX_PAIRS ? (size_t)all : (size_t)KAPITSA_MAX_PAIRS;
}

static inline size_t kapitsa_solve_doubles(uint32_t rows, uint32_t bodies, uint32_t mode)
{
    size_t n = rows, b = bodies, p = kapitsa_pairs(rows);
    if (!kapitsa_within(rows, bodies, mode))
        return 0;
    return 0 KAPITSA_SOLVE_WORK(KAPITSA_ADD, KAPITSA_SKIP);
}

static inline size_t kapitsa_solve_words(uint32_t rows, uint32_t bodies, uint32_t mode)
{
    size_t n = rows, p = kapitsa_pairs(rows);
    if (!kapitsa_within(rows, bodies, mode))
        return 0;
    return 0 KAPITSA_SOLVE_WORK(KAPITSA_SKIP, KAPITSA_ADD);
}

static inline size_t kapitsa_check_doubles(uint32_t rows, uint32_t bodies)
{
    size_t n = rows, b = bodies;
    if (!kapitsa_within(rows, bodies, 0))
        return 0;
    return 0 KAPITSA_CHECK_WORK(KAPITSA_ADD);
}

/* ---- the same functions with one piece of memory for the doubles and one for the words, if any, in
   any floating-point mode: the control word is KAPITSA_CONTROL during the call, and afterwards what
   it was, its flags too; flags that the call raises are dropped. They are not inlined, since a
   compiler may move its caller's arithmetic past a change of the control word. */

#define KAPITSA_APART static __attribute__((noinline, unused, warn_unused_result))

/* The next length doubles, or words. Nothing is added to NULL. */
static inline double *kapitsa_carve_doubles(double **rest, size_t length)
{
    double *carved = *rest;
    if (length != 0)
        *rest += length;
    return carved;
}

static inline uint32_t *kapitsa_carve_words(uint32_t **rest, size_t length)
{
    uint32_t *carved = *rest;
    if (length != 0)
        *rest += length;
    return carved;
}

/* The work slices of a solve and of a check, or 3 where what is lent is too short for them. */
#define KAPITSA_SOLVE_ROOM                                                \
    size_t n = rows, b = bodies, p = kapitsa_pairs(rows);                 \
    if (!kapitsa_within(rows, bodies, mode)                               \
        || work_doubles_len < kapitsa_solve_doubles(rows, bodies, mode)   \
        || work_words_len < kapitsa_solve_words(rows, bodies, mode))      \
        return KAPITSA_REFUSED_LENGTH;                                    \
    KAPITSA_SOLVE_WORK(KAPITSA_CARVE_DOUBLES, KAPITSA_CARVE_WORDS)

#define KAPITSA_CHECK_ROOM                                                \
    size_t n = rows, b = bodies;                                          \
    if (!kapitsa_within(rows, bodies, 0)                                  \
        || work_doubles_len < kapitsa_check_doubles(rows, bodies))        \
        return KAPITSA_REFUSED_LENGTH;                                    \
    KAPITSA_CHECK_WORK(KAPITSA_CARVE_DOUBLES)

/* What each check lends on, up to its answer; beside is centres or residuals. */
#define KAPITSA_CHECK_GIVEN(beside)                                       \
    numbers, numbers_len, words, words_len, masses, masses_len,           \
        beside, beside##_len, rule_words, rule_words_len,                 \
        rule_tolerances, rule_tolerances_len, rows, bodies,               \
        multipliers, multipliers_len, rule_numbers, rule_numbers_len

/* What the call of a raw function answers under KAPITSA_CONTROL. */
#define KAPITSA_RETURN_CONTROLLED(call)                                   \
    unsigned control = _mm_getcsr();                                      \
    _mm_setcsr(KAPITSA_CONTROL);                                          \
    uint32_t refusal = call;                                              \
    _mm_setcsr(control);                                                  \
    return refusal;

KAPITSA_APART uint32_t kapitsa_solve_in(
    double *numbers, size_t numbers_len, const uint32_t *words, size_t words_len,
    const double *masses, size_t masses_len, const double *centres, size_t centres_len,
    const uint32_t *rule_words, size_t rule_words_len,
    const double *rule_tolerances, size_t rule_tolerances_len,
    uint32_t rows, uint32_t bodies, uint32_t limit, uint32_t mode, double shift,
    double *solution, size_t solution_len, double *impulses, size_t impulses_len,
    double *new_centres, size_t new_centres_len,
    uint32_t *rule_numbers, size_t rule_numbers_len, uint32_t counts[2], double maxima[2],
    double *work_doubles, size_t work_doubles_len, uint32_t *work_words, size_t work_words_len)
{
    KAPITSA_SOLVE_ROOM
    KAPITSA_RETURN_CONTROLLED(kapitsa_solve_position(
        numbers, numbers_len, words, words_len, masses, masses_len, centres, centres_len,
        rule_words, rule_words_len, rule_tolerances, rule_tolerances_len,
        rows, bodies, limit, mode, shift, solution, solution_len, impulses, impulses_len,
        new_centres, new_centres_len, rule_numbers, rule_numbers_len, counts, 2, maxima, 2
        KAPITSA_SOLVE_WORK(KAPITSA_LEND, KAPITSA_LEND)))
}

KAPITSA_APART uint32_t kapitsa_propose_in(
    const double *numbers, size_t numbers_len, const uint32_t *words, size_t words_len,
    const double *masses, size_t masses_len, const double *centres, size_t centres_len,
    const uint32_t *rule_words, size_t rule_words_len,
    const double *rule_tolerances, size_t rule_tolerances_len,
    uint32_t rows, uint32_t bodies, uint32_t limit, uint32_t mode, double shift,
    double *solution, size_t solution_len, double *impulses, size_t impulses_len,
    double *new_centres, size_t new_centres_len,
    uint32_t *rule_numbers, size_t rule_numbers_len,
    uint32_t proposal[KAPITSA_PROPOSAL_WORDS], double *started, size_t started_len,
    double maxima[2],
    double *work_doubles, size_t work_doubles_len, uint32_t *work_words, size_t work_words_len)
{
    KAPITSA_SOLVE_ROOM
    KAPITSA_RETURN_CONTROLLED(kapitsa_propose_position(
        numbers, numbers_len, words, words_len, masses, masses_len, centres, centres_len,
        rule_words, rule_words_len, rule_tolerances, rule_tolerances_len,
        rows, bodies, limit, mode, shift, solution, solution_len, impulses, impulses_len,
        new_centres, new_centres_len, rule_numbers, rule_numbers_len,
        proposal, KAPITSA_PROPOSAL_WORDS, started, started_len, maxima, 2
        KAPITSA_SOLVE_WORK(KAPITSA_LEND, KAPITSA_LEND)))
}

KAPITSA_APART uint32_t kapitsa_commit_in(
    double *numbers, size_t numbers_len, uint32_t rows,
    uint32_t proposal[KAPITSA_PROPOSAL_WORDS], const double *solution, size_t solution_len,
    const double *started, size_t started_len)
{
    KAPITSA_RETURN_CONTROLLED(kapitsa_commit_proposal(
        numbers, numbers_len, rows, proposal, KAPITSA_PROPOSAL_WORDS, solution, solution_len,
        started, started_len))
}

KAPITSA_APART uint32_t kapitsa_solve_velocity_in(
    double *numbers, size_t numbers_len, const uint32_t *words, size_t words_len,
    const double *masses, size_t masses_len, const double *residuals, size_t residuals_len,
    const uint32_t *rule_words, size_t rule_words_len,
    const double *rule_tolerances, size_t rule_tolerances_len,
    uint32_t rows, uint32_t bodies, uint32_t limit, uint32_t mode, double shift,
    double *solution, size_t solution_len, double *impulses, size_t impulses_len,
    uint32_t *rule_numbers, size_t rule_numbers_len, uint32_t counts[2], double maxima[2],
    double *work_doubles, size_t work_doubles_len, uint32_t *work_words, size_t work_words_len)
{
    KAPITSA_SOLVE_ROOM
    KAPITSA_RETURN_CONTROLLED(kapitsa_solve_velocity(
        numbers, numbers_len, words, words_len, masses, masses_len, residuals, residuals_len,
        rule_words, rule_words_len, rule_tolerances, rule_tolerances_len,
        rows, bodies, limit, mode, shift, solution, solution_len, impulses, impulses_len,
        rule_numbers, rule_numbers_len, counts, 2, maxima, 2
        KAPITSA_SOLVE_WORK(KAPITSA_LEND, KAPITSA_LEND)))
}

/* By groups no work memory is lent. Read *group_count only where 0 was returned. */
KAPITSA_APART uint32_t kapitsa_solve_groups_in(
    double *numbers, size_t numbers_len, const uint32_t *words, size_t words_len,
    const double *masses, size_t masses_len, const double *centres, size_t centres_len,
    const uint32_t *rule_words, size_t rule_words_len,
    const double *rule_tolerances, size_t rule_tolerances_len,
    uint32_t rows, uint32_t bodies, uint32_t limit, uint32_t mode, double shift,
    double *solution, size_t solution_len, double *impulses, size_t impulses_len,
    double *new_centres, size_t new_centres_len,
    uint32_t *rule_numbers, size_t rule_numbers_len,
    uint32_t *group_numbers, size_t group_numbers_len,
    uint32_t *group_answers, size_t group_answers_len,
    double *group_maxima, size_t group_maxima_len, uint32_t *group_count)
{
    KAPITSA_RETURN_CONTROLLED(kapitsa_solve_groups(
        numbers, numbers_len, words, words_len, masses, masses_len, centres, centres_len,
        rule_words, rule_words_len, rule_tolerances, rule_tolerances_len,
        rows, bodies, limit, mode, shift, solution, solution_len, impulses, impulses_len,
        new_centres, new_centres_len, rule_numbers, rule_numbers_len,
        group_numbers, group_numbers_len, group_answers, group_answers_len,
        group_maxima, group_maxima_len, group_count, 1))
}

KAPITSA_APART uint32_t kapitsa_solve_velocity_groups_in(
    double *numbers, size_t numbers_len, const uint32_t *words, size_t words_len,
    const double *masses, size_t masses_len, const double *residuals, size_t residuals_len,
    const uint32_t *rule_words, size_t rule_words_len,
    const double *rule_tolerances, size_t rule_tolerances_len,
    uint32_t rows, uint32_t bodies, uint32_t limit, uint32_t mode, double shift,
    double *solution, size_t solution_len, double *impulses, size_t impulses_len,
    uint32_t *rule_numbers, size_t rule_numbers_len,
    uint32_t *group_numbers, size_t group_numbers_len,
    uint32_t *group_answers, size_t group_answers_len,
    double *group_maxima, size_t group_maxima_len, uint32_t *group_count)
{
    KAPITSA_RETURN_CONTROLLED(kapitsa_solve_velocity_groups(
        numbers, numbers_len, words, words_len, masses, masses_len, residuals, residuals_len,
        rule_words, rule_words_len, rule_tolerances, rule_tolerances_len,
        rows, bodies, limit, mode, shift, solution, solution_len, impulses, impulses_len,
        rule_numbers, rule_numbers_len, group_numbers, group_numbers_len,
        group_answers, group_answers_len, group_maxima, group_maxima_len, group_count, 1))
}

/* Of all checks read *verdict, gap and rule_numbers only where 0 was returned: a refusal leaves
   there what was there. */
KAPITSA_APART uint32_t kapitsa_check_in(
    const double *numbers, size_t numbers_len, const uint32_t *words, size_t words_len,
    const double *masses, size_t masses_len, const double *centres, size_t centres_len,
    const uint32_t *rule_words, size_t rule_words_len,
    const double *rule_tolerances, size_t rule_tolerances_len,
    uint32_t rows, uint32_t bodies, const double *multipliers, size_t multipliers_len,
    uint32_t *rule_numbers, size_t rule_numbers_len, uint32_t *verdict, double gap[2],
    double *work_doubles, size_t work_doubles_len)
{
    KAPITSA_CHECK_ROOM
    KAPITSA_RETURN_CONTROLLED(kapitsa_closing_check(
        KAPITSA_CHECK_GIVEN(centres), verdict, 1, gap, 2
        KAPITSA_CHECK_WORK(KAPITSA_LEND)))
}

KAPITSA_APART uint32_t kapitsa_check_velocity_in(
    const double *numbers, size_t numbers_len, const uint32_t *words, size_t words_len,
    const double *masses, size_t masses_len, const double *residuals, size_t residuals_len,
    const uint32_t *rule_words, size_t rule_words_len,
    const double *rule_tolerances, size_t rule_tolerances_len,
    uint32_t rows, uint32_t bodies, const double *multipliers, size_t multipliers_len,
    uint32_t *rule_numbers, size_t rule_numbers_len, uint32_t *verdict, double gap[2],
    double *work_doubles, size_t work_doubles_len)
{
    KAPITSA_CHECK_ROOM
    KAPITSA_RETURN_CONTROLLED(kapitsa_velocity_closing_check(
        KAPITSA_CHECK_GIVEN(residuals), verdict, 1, gap, 2
        KAPITSA_CHECK_WORK(KAPITSA_LEND)))
}

/* Read margin_rows and margins only where 0 was returned and *verdict is KAPITSA_CLOSED: otherwise
   there is no list, and they keep what was there. */
KAPITSA_APART uint32_t kapitsa_margins_in(
    const double *numbers, size_t numbers_len, const uint32_t *words, size_t words_len,
    const double *masses, size_t masses_len, const double *centres, size_t centres_len,
    const uint32_t *rule_words, size_t rule_words_len,
    const double *rule_tolerances, size_t rule_tolerances_len,
    uint32_t rows, uint32_t bodies, const double *multipliers, size_t multipliers_len,
    uint32_t *rule_numbers, size_t rule_numbers_len,
    uint32_t *margin_rows, size_t margin_rows_len, double *margins, size_t margins_len,
    uint32_t *verdict, double gap[2],
    double *work_doubles, size_t work_doubles_len)
{
    KAPITSA_CHECK_ROOM
    KAPITSA_RETURN_CONTROLLED(kapitsa_closing_margins(
        KAPITSA_CHECK_GIVEN(centres), margin_rows, margin_rows_len, margins, margins_len,
        verdict, 1, gap, 2
        KAPITSA_CHECK_WORK(KAPITSA_LEND)))
}

KAPITSA_APART uint32_t kapitsa_margins_velocity_in(
    const double *numbers, size_t numbers_len, const uint32_t *words, size_t words_len,
    const double *masses, size_t masses_len, const double *residuals, size_t residuals_len,
    const uint32_t *rule_words, size_t rule_words_len,
    const double *rule_tolerances, size_t rule_tolerances_len,
    uint32_t rows, uint32_t bodies, const double *multipliers, size_t multipliers_len,
    uint32_t *rule_numbers, size_t rule_numbers_len,
    uint32_t *margin_rows, size_t margin_rows_len, double *margins, size_t margins_len,
    uint32_t *verdict, double gap[2],
    double *work_doubles, size_t work_doubles_len)
{
    KAPITSA_CHECK_ROOM
    KAPITSA_RETURN_CONTROLLED(kapitsa_velocity_closing_margins(
        KAPITSA_CHECK_GIVEN(residuals), margin_rows, margin_rows_len, margins, margins_len,
        verdict, 1, gap, 2
        KAPITSA_CHECK_WORK(KAPITSA_LEND)))
}

/* Read gaps only where 0 was returned. */
KAPITSA_APART uint32_t kapitsa_gaps_in(
    const double *numbers, size_t numbers_len, const uint32_t *words, size_t words_len,
    const double *masses, size_t masses_len, const double *centres, size_t centres_len,
    const uint32_t *rule_words, size_t rule_words_len,
    const double *rule_tolerances, size_t rule_tolerances_len,
    uint32_t rows, uint32_t bodies, const double *multipliers, size_t multipliers_len,
    uint32_t *rule_numbers, size_t rule_numbers_len, double *gaps, size_t gaps_len,
    uint32_t *verdict, double gap[2],
    double *work_doubles, size_t work_doubles_len)
{
    KAPITSA_CHECK_ROOM
    KAPITSA_RETURN_CONTROLLED(kapitsa_closing_gaps(
        KAPITSA_CHECK_GIVEN(centres), gaps, gaps_len, verdict, 1, gap, 2
        KAPITSA_CHECK_WORK(KAPITSA_LEND)))
}

KAPITSA_APART uint32_t kapitsa_gaps_velocity_in(
    const double *numbers, size_t numbers_len, const uint32_t *words, size_t words_len,
    const double *masses, size_t masses_len, const double *residuals, size_t residuals_len,
    const uint32_t *rule_words, size_t rule_words_len,
    const double *rule_tolerances, size_t rule_tolerances_len,
    uint32_t rows, uint32_t bodies, const double *multipliers, size_t multipliers_len,
    uint32_t *rule_numbers, size_t rule_numbers_len, double *gaps, size_t gaps_len,
    uint32_t *verdict, double gap[2],
    double *work_doubles, size_t work_doubles_len)
{
    KAPITSA_CHECK_ROOM
    KAPITSA_RETURN_CONTROLLED(kapitsa_velocity_closing_gaps(
        KAPITSA_CHECK_GIVEN(residuals), gaps, gaps_len, verdict, 1, gap, 2
        KAPITSA_CHECK_WORK(KAPITSA_LEND)))
}

KAPITSA_APART uint32_t kapitsa_first_refused_in(
    uint32_t velocities, uint32_t number,
    const double *numbers, size_t numbers_len, const uint32_t *words, size_t words_len,
    const double *masses, size_t masses_len, const double *beside, size_t beside_len,
    const uint32_t *rule_words, size_t rule_words_len,
    const double *rule_tolerances, size_t rule_tolerances_len,
    uint32_t rows, uint32_t bodies, uint32_t limit, uint32_t place[KAPITSA_PLACE_WORDS])
{
    KAPITSA_RETURN_CONTROLLED(kapitsa_first_refused(
        velocities, number, numbers, numbers_len, words, words_len, masses, masses_len,
        beside, beside_len, rule_words, rule_words_len, rule_tolerances, rule_tolerances_len,
        rows, bodies, limit, place, KAPITSA_PLACE_WORDS))
}

KAPITSA_APART uint32_t kapitsa_inverse_in(const double inertia[9], double inverse[9])
{
    KAPITSA_RETURN_CONTROLLED(kapitsa_inverse_spd(inertia, 9, inverse, 9))
}

#undef KAPITSA_TAKES_DOUBLES
#undef KAPITSA_TAKES_WORDS
#undef KAPITSA_ADD
#undef KAPITSA_SKIP
#undef KAPITSA_CARVE_DOUBLES
#undef KAPITSA_CARVE_WORDS
#undef KAPITSA_LEND
#undef KAPITSA_SOLVE_ROOM
#undef KAPITSA_CHECK_ROOM
#undef KAPITSA_CHECK_GIVEN
#undef KAPITSA_RETURN_CONTROLLED
#undef KAPITSA_MUST_USE
#undef KAPITSA_APART

#ifdef __cplusplus
}
#endif

#endif
