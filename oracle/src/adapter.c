/* Between the driver and an implementation's archive: the one place that knows which
   work memory an implementation borrows. The driver calls oracle_*, which lend that
   memory and call kapitsa_*. This one lends none; an archive whose functions take work
   slices gets an adapter of its own (oracle/wrap ARCHIVE OUTPUT ADAPTER).

   A slice is a pointer, then its length. centres has three doubles a body, new_centres gets
   where each ends up; for velocities residuals has one double a row, in the centres' place.
   rule_words has dimension, first key and last key of each rule,
   rule_tolerances its tolerance; rule_numbers gets each row's rule. margin_rows and margins get,
   where the check says closed, each row and its number, in the order of document 02, m. `answer` is
   refusal (0: accepted), count, flag, bits of the linear maximum, bits of the angular maximum; for
   the check, with its list or without: refusal, verdict (1: closed), bits of the linear gap, bits of
   the angular gap. Where a call is refused, all but the refusal are 0. Of document 02, l: proposal
   gets rows, flag, count and mark, started the multipliers that the proposal started from; its answer
   is refusal and the bits of both maxima, a commit's the refusal alone. Of document 02, g: group_numbers
   gets each row's group, group_answers refusal, count and flag of each group, group_maxima its two
   maxima, group_count how many there are; the answer is the whole table's refusal alone. */
#include <stddef.h>
#include <stdint.h>

void kapitsa_solve_position(
    double *numbers, size_t numbers_len, const uint32_t *words, size_t words_len,
    const double *masses, size_t masses_len, const double *centres, size_t centres_len,
    const uint32_t *rule_words, size_t rule_words_len,
    const double *rule_tolerances, size_t rule_tolerances_len,
    uint32_t rows, uint32_t bodies, uint32_t limit, uint32_t mode, double shift,
    double *solution, size_t solution_len, double *impulses, size_t impulses_len,
    double *new_centres, size_t new_centres_len,
    uint32_t *rule_numbers, size_t rule_numbers_len, uint64_t *answer, size_t answer_len);

void kapitsa_solve_velocity(
    double *numbers, size_t numbers_len, const uint32_t *words, size_t words_len,
    const double *masses, size_t masses_len, const double *residuals, size_t residuals_len,
    const uint32_t *rule_words, size_t rule_words_len,
    const double *rule_tolerances, size_t rule_tolerances_len,
    uint32_t rows, uint32_t bodies, uint32_t limit, uint32_t mode, double shift,
    double *solution, size_t solution_len, double *impulses, size_t impulses_len,
    uint32_t *rule_numbers, size_t rule_numbers_len, uint64_t *answer, size_t answer_len);

void oracle_solve_position(
    double *numbers, size_t numbers_len, const uint32_t *words, size_t words_len,
    const double *masses, size_t masses_len, const double *centres, size_t centres_len,
    const uint32_t *rule_words, size_t rule_words_len,
    const double *rule_tolerances, size_t rule_tolerances_len,
    uint32_t rows, uint32_t bodies, uint32_t limit, uint32_t mode, double shift,
    double *solution, size_t solution_len, double *impulses, size_t impulses_len,
    double *new_centres, size_t new_centres_len,
    uint32_t *rule_numbers, size_t rule_numbers_len, uint64_t *answer, size_t answer_len)
{
    kapitsa_solve_position(numbers, numbers_len, words, words_len, masses, masses_len, centres,
                           centres_len, rule_words, rule_words_len, rule_tolerances,
                           rule_tolerances_len, rows, bodies, limit, mode, shift, solution,
                           solution_len, impulses, impulses_len, new_centres, new_centres_len,
                           rule_numbers, rule_numbers_len, answer, answer_len);
}

/* A proposal of an implementation, and the driver's. */
#define PROPOSE(name)                                                                           \
    void name(const double *numbers, size_t numbers_len, const uint32_t *words,                 \
              size_t words_len, const double *masses, size_t masses_len, const double *centres, \
              size_t centres_len, const uint32_t *rule_words, size_t rule_words_len,            \
              const double *rule_tolerances, size_t rule_tolerances_len, uint32_t rows,         \
              uint32_t bodies, uint32_t limit, uint32_t mode, double shift, uint32_t *proposal, \
              size_t proposal_len, double *solution, size_t solution_len, double *impulses,     \
              size_t impulses_len, double *new_centres, size_t new_centres_len, double *started,\
              size_t started_len, uint32_t *rule_numbers, size_t rule_numbers_len,              \
              uint64_t *answer, size_t answer_len)
#define COMMIT(name)                                                                            \
    void name(double *numbers, size_t numbers_len, uint32_t rows, uint32_t *proposal,           \
              size_t proposal_len, const double *solution, size_t solution_len,                 \
              const double *started, size_t started_len, uint64_t *answer, size_t answer_len)

PROPOSE(kapitsa_propose_position);
COMMIT(kapitsa_commit_proposal);

PROPOSE(oracle_propose_position)
{
    kapitsa_propose_position(numbers, numbers_len, words, words_len, masses, masses_len, centres,
                             centres_len, rule_words, rule_words_len, rule_tolerances,
                             rule_tolerances_len, rows, bodies, limit, mode, shift, proposal,
                             proposal_len, solution, solution_len, impulses, impulses_len,
                             new_centres, new_centres_len, started, started_len, rule_numbers,
                             rule_numbers_len, answer, answer_len);
}

COMMIT(oracle_commit_proposal)
{
    kapitsa_commit_proposal(numbers, numbers_len, rows, proposal, proposal_len, solution,
                            solution_len, started, started_len, answer, answer_len);
}

void oracle_solve_velocity(
    double *numbers, size_t numbers_len, const uint32_t *words, size_t words_len,
    const double *masses, size_t masses_len, const double *residuals, size_t residuals_len,
    const uint32_t *rule_words, size_t rule_words_len,
    const double *rule_tolerances, size_t rule_tolerances_len,
    uint32_t rows, uint32_t bodies, uint32_t limit, uint32_t mode, double shift,
    double *solution, size_t solution_len, double *impulses, size_t impulses_len,
    uint32_t *rule_numbers, size_t rule_numbers_len, uint64_t *answer, size_t answer_len)
{
    kapitsa_solve_velocity(numbers, numbers_len, words, words_len, masses, masses_len, residuals,
                           residuals_len, rule_words, rule_words_len, rule_tolerances,
                           rule_tolerances_len, rows, bodies, limit, mode, shift, solution,
                           solution_len, impulses, impulses_len, rule_numbers, rule_numbers_len,
                           answer, answer_len);
}

/* What a check takes before its answer, and is passed on; beside is centres or residuals. */
#define TAKES(beside)                                                                           \
    const double *numbers, size_t numbers_len, const uint32_t *words, size_t words_len,         \
        const double *masses, size_t masses_len, const double *beside, size_t beside##_len,     \
        const uint32_t *rule_words, size_t rule_words_len, const double *rule_tolerances,       \
        size_t rule_tolerances_len, uint32_t rows, uint32_t bodies, const double *multipliers,  \
        size_t multipliers_len, uint32_t *rule_numbers, size_t rule_numbers_len
#define PASSES(beside)                                                                          \
    numbers, numbers_len, words, words_len, masses, masses_len, beside, beside##_len,           \
        rule_words, rule_words_len, rule_tolerances, rule_tolerances_len, rows, bodies,         \
        multipliers, multipliers_len, rule_numbers, rule_numbers_len

/* A check of an implementation, and the driver's. */
#define CHECK(driven, own, beside)                                                              \
    void own(TAKES(beside), uint64_t *answer, size_t answer_len);                               \
    void driven(TAKES(beside), uint64_t *answer, size_t answer_len)                             \
    {                                                                                           \
        own(PASSES(beside), answer, answer_len);                                                \
    }

/* The same with its list. */
#define MARGINS(driven, own, beside)                                                            \
    void own(TAKES(beside), uint32_t *margin_rows, size_t margin_rows_len, double *margins,     \
             size_t margins_len, uint64_t *answer, size_t answer_len);                          \
    void driven(TAKES(beside), uint32_t *margin_rows, size_t margin_rows_len, double *margins,  \
                size_t margins_len, uint64_t *answer, size_t answer_len)                        \
    {                                                                                           \
        own(PASSES(beside), margin_rows, margin_rows_len, margins, margins_len, answer,         \
            answer_len);                                                                        \
    }

CHECK(oracle_closing_check, kapitsa_closing_check, centres)
CHECK(oracle_velocity_closing_check, kapitsa_velocity_closing_check, residuals)
MARGINS(oracle_closing_margins, kapitsa_closing_margins, centres)
MARGINS(oracle_velocity_closing_margins, kapitsa_velocity_closing_margins, residuals)

/* A solve by groups of an implementation, and the driver's, of positions and of velocities. */
#define GROUPS(name)                                                                           \
    void name(                                                                                 \
        double *numbers, size_t numbers_len, const uint32_t *words, size_t words_len,          \
        const double *masses, size_t masses_len, const double *centres, size_t centres_len,    \
        const uint32_t *rule_words, size_t rule_words_len,                                     \
        const double *rule_tolerances, size_t rule_tolerances_len,                             \
        uint32_t rows, uint32_t bodies, uint32_t limit, uint32_t mode, double shift,           \
        double *solution, size_t solution_len, double *impulses, size_t impulses_len,          \
        double *new_centres, size_t new_centres_len,                                           \
        uint32_t *rule_numbers, size_t rule_numbers_len,                                       \
        uint32_t *group_numbers, size_t group_numbers_len,                                     \
        uint32_t *group_answers, size_t group_answers_len,                                     \
        double *group_maxima, size_t group_maxima_len,                                         \
        uint32_t *group_count, size_t group_count_len, uint64_t *answer, size_t answer_len)
#define VELOCITY_GROUPS(name)                                                                  \
    void name(                                                                                 \
        double *numbers, size_t numbers_len, const uint32_t *words, size_t words_len,          \
        const double *masses, size_t masses_len, const double *residuals, size_t residuals_len,\
        const uint32_t *rule_words, size_t rule_words_len,                                     \
        const double *rule_tolerances, size_t rule_tolerances_len,                             \
        uint32_t rows, uint32_t bodies, uint32_t limit, uint32_t mode, double shift,           \
        double *solution, size_t solution_len, double *impulses, size_t impulses_len,          \
        uint32_t *rule_numbers, size_t rule_numbers_len,                                       \
        uint32_t *group_numbers, size_t group_numbers_len,                                     \
        uint32_t *group_answers, size_t group_answers_len,                                     \
        double *group_maxima, size_t group_maxima_len,                                         \
        uint32_t *group_count, size_t group_count_len, uint64_t *answer, size_t answer_len)

GROUPS(kapitsa_solve_groups);
VELOCITY_GROUPS(kapitsa_solve_velocity_groups);

GROUPS(oracle_solve_groups)
{
    kapitsa_solve_groups(numbers, numbers_len, words, words_len, masses, masses_len, centres,
                         centres_len, rule_words, rule_words_len, rule_tolerances,
                         rule_tolerances_len, rows, bodies, limit, mode, shift, solution,
                         solution_len, impulses, impulses_len, new_centres, new_centres_len,
                         rule_numbers, rule_numbers_len, group_numbers, group_numbers_len,
                         group_answers, group_answers_len, group_maxima, group_maxima_len,
                         group_count, group_count_len, answer, answer_len);
}

VELOCITY_GROUPS(oracle_solve_velocity_groups)
{
    kapitsa_solve_velocity_groups(numbers, numbers_len, words, words_len, masses, masses_len,
                                  residuals, residuals_len, rule_words, rule_words_len,
                                  rule_tolerances, rule_tolerances_len, rows, bodies, limit, mode,
                                  shift, solution, solution_len, impulses, impulses_len,
                                  rule_numbers, rule_numbers_len, group_numbers,
                                  group_numbers_len, group_answers, group_answers_len,
                                  group_maxima, group_maxima_len, group_count, group_count_len,
                                  answer, answer_len);
}
