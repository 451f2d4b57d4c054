/* The adapter of the port's archive (bindings/build) for the driver: it lends the work
   memory, exactly as much as the counts and the mode call for. adapter.c has what it stands in
   for. What a refused call writes of its answer, and it must write nothing, shows as an answer
   that no job has. */
#include "kapitsa.h"
#include <string.h>

/* The most that any call asks for: doubles in mode 2, words in mode 1. */
static double work_doubles[54 * KAPITSA_MAX_ROWS + 6 * KAPITSA_MAX_BODIES];
static uint32_t work_words[4 * KAPITSA_MAX_ROWS + 3 * KAPITSA_MAX_PAIRS + 1];

static const uint64_t untouched = 0x5eed5eed5eed5eed;

struct solved {
    uint32_t counts[2];
    double maxima[2];
};

static struct solved unsolved(void)
{
    struct solved to = {{(uint32_t)untouched, (uint32_t)untouched}, {0.0, 0.0}};
    uint64_t bits[2] = {untouched, untouched};
    memcpy(to.maxima, bits, sizeof bits);
    return to;
}

static void tell_solved(uint32_t refusal, struct solved to, uint64_t *answer, size_t answer_len)
{
    uint64_t bits[2];
    memcpy(bits, to.maxima, sizeof bits);
    if (answer_len != 5)
        return;
    answer[0] = refusal;
    for (int i = 0; i < 2; i++) {
        answer[1 + i] = refusal && to.counts[i] == (uint32_t)untouched ? 0 : to.counts[i];
        answer[3 + i] = refusal && bits[i] == untouched ? 0 : bits[i];
    }
}

struct checked {
    uint32_t verdict;
    double gap[2];
};

static struct checked unchecked(void)
{
    struct checked to = {(uint32_t)untouched, {0.0, 0.0}};
    uint64_t bits[2] = {untouched, untouched};
    memcpy(to.gap, bits, sizeof bits);
    return to;
}

static void tell_checked(uint32_t refusal, struct checked to, uint64_t *answer, size_t answer_len)
{
    uint64_t bits[2];
    memcpy(bits, to.gap, sizeof bits);
    if (answer_len != 4)
        return;
    answer[0] = refusal;
    answer[1] = refusal && to.verdict == (uint32_t)untouched ? 0 : to.verdict;
    for (int i = 0; i < 2; i++)
        answer[2 + i] = refusal && bits[i] == untouched ? 0 : bits[i];
}

void oracle_solve_position(
    double *numbers, size_t numbers_len, const uint32_t *words, size_t words_len,
    const double *masses, size_t masses_len, const double *centres, size_t centres_len,
    const uint32_t *rule_words, size_t rule_words_len,
    const double *rule_tolerances, size_t rule_tolerances_len,
    uint32_t rows, uint32_t bodies, uint32_t limit, uint32_t mode, double shift,
    double *solution, size_t solution_len, double *impulses, size_t impulses_len,
    double *new_centres, size_t new_centres_len,
    uint32_t *rule_numbers, size_t rule_numbers_len, uint64_t *answer, size_t answer_len)
{
    struct solved to = unsolved();
    uint32_t refusal = kapitsa_solve_in(
        numbers, numbers_len, words, words_len, masses, masses_len, centres, centres_len, rule_words,
        rule_words_len, rule_tolerances, rule_tolerances_len, rows, bodies, limit, mode, shift,
        solution, solution_len, impulses, impulses_len, new_centres, new_centres_len, rule_numbers,
        rule_numbers_len, to.counts, to.maxima,
        work_doubles, kapitsa_solve_doubles(rows, bodies, mode),
        work_words, kapitsa_solve_words(rows, bodies, mode));
    tell_solved(refusal, to, answer, answer_len);
}

/* What a proposal tells beside its words: the maxima. */
void oracle_propose_position(
    const double *numbers, size_t numbers_len, const uint32_t *words, size_t words_len,
    const double *masses, size_t masses_len, const double *centres, size_t centres_len,
    const uint32_t *rule_words, size_t rule_words_len,
    const double *rule_tolerances, size_t rule_tolerances_len,
    uint32_t rows, uint32_t bodies, uint32_t limit, uint32_t mode, double shift,
    uint32_t *proposal, size_t proposal_len, double *solution, size_t solution_len,
    double *impulses, size_t impulses_len, double *new_centres, size_t new_centres_len,
    double *started, size_t started_len, uint32_t *rule_numbers, size_t rule_numbers_len,
    uint64_t *answer, size_t answer_len)
{
    struct solved to = unsolved();
    uint64_t told[5] = {0};
    if (proposal_len != KAPITSA_PROPOSAL_WORDS || answer_len != 3)
        return;
    uint32_t refusal = kapitsa_propose_in(
        numbers, numbers_len, words, words_len, masses, masses_len, centres, centres_len, rule_words,
        rule_words_len, rule_tolerances, rule_tolerances_len, rows, bodies, limit, mode, shift,
        solution, solution_len, impulses, impulses_len, new_centres, new_centres_len, rule_numbers,
        rule_numbers_len, proposal, started, started_len, to.maxima,
        work_doubles, kapitsa_solve_doubles(rows, bodies, mode),
        work_words, kapitsa_solve_words(rows, bodies, mode));
    tell_solved(refusal, to, told, 5);
    answer[0] = told[0];
    memcpy(answer + 1, told + 3, 2 * sizeof told[0]);
}

void oracle_commit_proposal(
    double *numbers, size_t numbers_len, uint32_t rows, uint32_t *proposal, size_t proposal_len,
    const double *solution, size_t solution_len, const double *started, size_t started_len,
    uint64_t *answer, size_t answer_len)
{
    if (answer_len == 1)
        answer[0] = kapitsa_commit_proposal(numbers, numbers_len, rows, proposal, proposal_len,
                                            solution, solution_len, started, started_len);
}

void oracle_solve_velocity(
    double *numbers, size_t numbers_len, const uint32_t *words, size_t words_len,
    const double *masses, size_t masses_len, const double *residuals, size_t residuals_len,
    const uint32_t *rule_words, size_t rule_words_len,
    const double *rule_tolerances, size_t rule_tolerances_len,
    uint32_t rows, uint32_t bodies, uint32_t limit, uint32_t mode, double shift,
    double *solution, size_t solution_len, double *impulses, size_t impulses_len,
    uint32_t *rule_numbers, size_t rule_numbers_len, uint64_t *answer, size_t answer_len)
{
    struct solved to = unsolved();
    uint32_t refusal = kapitsa_solve_velocity_in(
        numbers, numbers_len, words, words_len, masses, masses_len, residuals, residuals_len,
        rule_words, rule_words_len, rule_tolerances, rule_tolerances_len, rows, bodies, limit, mode,
        shift, solution, solution_len, impulses, impulses_len, rule_numbers, rule_numbers_len,
        to.counts, to.maxima,
        work_doubles, kapitsa_solve_doubles(rows, bodies, mode),
        work_words, kapitsa_solve_words(rows, bodies, mode));
    tell_solved(refusal, to, answer, answer_len);
}

/* A solve by groups takes no work memory. The raw functions, so that group_count may be of any length. */
void oracle_solve_groups(
    double *numbers, size_t numbers_len, const uint32_t *words, size_t words_len,
    const double *masses, size_t masses_len, const double *centres, size_t centres_len,
    const uint32_t *rule_words, size_t rule_words_len,
    const double *rule_tolerances, size_t rule_tolerances_len,
    uint32_t rows, uint32_t bodies, uint32_t limit, uint32_t mode, double shift,
    double *solution, size_t solution_len, double *impulses, size_t impulses_len,
    double *new_centres, size_t new_centres_len,
    uint32_t *rule_numbers, size_t rule_numbers_len,
    uint32_t *group_numbers, size_t group_numbers_len,
    uint32_t *group_answers, size_t group_answers_len,
    double *group_maxima, size_t group_maxima_len,
    uint32_t *group_count, size_t group_count_len, uint64_t *answer, size_t answer_len)
{
    if (answer_len == 1)
        answer[0] = kapitsa_solve_groups(
            numbers, numbers_len, words, words_len, masses, masses_len, centres, centres_len,
            rule_words, rule_words_len, rule_tolerances, rule_tolerances_len, rows, bodies, limit,
            mode, shift, solution, solution_len, impulses, impulses_len, new_centres,
            new_centres_len, rule_numbers, rule_numbers_len, group_numbers, group_numbers_len,
            group_answers, group_answers_len, group_maxima, group_maxima_len, group_count,
            group_count_len);
}

void oracle_solve_velocity_groups(
    double *numbers, size_t numbers_len, const uint32_t *words, size_t words_len,
    const double *masses, size_t masses_len, const double *residuals, size_t residuals_len,
    const uint32_t *rule_words, size_t rule_words_len,
    const double *rule_tolerances, size_t rule_tolerances_len,
    uint32_t rows, uint32_t bodies, uint32_t limit, uint32_t mode, double shift,
    double *solution, size_t solution_len, double *impulses, size_t impulses_len,
    uint32_t *rule_numbers, size_t rule_numbers_len,
    uint32_t *group_numbers, size_t group_numbers_len,
    uint32_t *group_answers, size_t group_answers_len,
    double *group_maxima, size_t group_maxima_len,
    uint32_t *group_count, size_t group_count_len, uint64_t *answer, size_t answer_len)
{
    if (answer_len == 1)
        answer[0] = kapitsa_solve_velocity_groups(
            numbers, numbers_len, words, words_len, masses, masses_len, residuals, residuals_len,
            rule_words, rule_words_len, rule_tolerances, rule_tolerances_len, rows, bodies, limit,
            mode, shift, solution, solution_len, impulses, impulses_len, rule_numbers,
            rule_numbers_len, group_numbers, group_numbers_len, group_answers, group_answers_len,
            group_maxima, group_maxima_len, group_count, group_count_len);
}

/* What a check takes before its answer, and is passed on; beside is centres or residuals. */
#define TAKES(beside)                                                                           \
    const double *numbers, size_t numbers_len, const uint32_t *words, size_t words_len,         \
        const double *masses, size_t masses_len, const double *beside, size_t beside##_len,     \
        const uint32_t *rule_words, size_t rule_words_len, const double *rule_tolerances,       \
        size_t rule_tolerances_len, uint32_t rows, uint32_t bodies, const double *multipliers,  \
        size_t multipliers_len, uint32_t *rule_numbers, size_t rule_numbers_len
#define PASSES(beside)                                                                          \
    numbers, numbers_len, words, words_len, masses, masses_len, beside, beside##_len,           \
        rule_words, rule_words_len, rule_tolerances, rule_tolerances_len, rows, bodies,         \
        multipliers, multipliers_len, rule_numbers, rule_numbers_len
#define WORK work_doubles, kapitsa_check_doubles(rows, bodies)

/* A check of the port as the driver's. */
#define CHECK(driven, own, beside)                                                              \
    void driven(TAKES(beside), uint64_t *answer, size_t answer_len)                             \
    {                                                                                           \
        struct checked to = unchecked();                                                        \
        uint32_t refusal = own(PASSES(beside), &to.verdict, to.gap, WORK);                      \
        tell_checked(refusal, to, answer, answer_len);                                          \
    }

/* The same with its list. */
#define MARGINS(driven, own, beside)                                                            \
    void driven(TAKES(beside), uint32_t *margin_rows, size_t margin_rows_len, double *margins,  \
                size_t margins_len, uint64_t *answer, size_t answer_len)                        \
    {                                                                                           \
        struct checked to = unchecked();                                                        \
        uint32_t refusal = own(PASSES(beside), margin_rows, margin_rows_len, margins,           \
                               margins_len, &to.verdict, to.gap, WORK);                         \
        tell_checked(refusal, to, answer, answer_len);                                          \
    }

CHECK(oracle_closing_check, kapitsa_check_in, centres)
CHECK(oracle_velocity_closing_check, kapitsa_check_velocity_in, residuals)
MARGINS(oracle_closing_margins, kapitsa_margins_in, centres)
MARGINS(oracle_velocity_closing_margins, kapitsa_margins_velocity_in, residuals)

/* The first byte is 0, and each is like the one before it. */
static int all_zero(const void *memory, size_t size)
{
    const unsigned char *bytes = memory;
    return bytes[0] == 0 && memcmp(bytes, bytes + 1, size - 1) == 0;
}

/* Is all of the work memory +0.0 (integers 0)? */
int oracle_work_cleared(void)
{
    return all_zero(work_doubles, sizeof work_doubles) && all_zero(work_words, sizeof work_words);
}

/* For times: the raw solves over work memory that is carved once, as the Rust's scratch is made once.
   kapitsa_solve_in carves in each call and keeps the control word around it. Of the answer the
   refusal alone is told. */
#define FIELD_DOUBLES(name, length) double *name; size_t name##_len;
#define FIELD_WORDS(name, length) uint32_t *name; size_t name##_len;
#define CARVE_DOUBLES(name, length) \
    lent.name = kapitsa_carve_doubles(&doubles, length); \
    lent.name##_len = length;
#define CARVE_WORDS(name, length) \
    lent.name = kapitsa_carve_words(&carved, length); \
    lent.name##_len = length;
#define LEND_FIELD(name, length) , lent.name, lent.name##_len

static struct {
    KAPITSA_SOLVE_WORK(FIELD_DOUBLES, FIELD_WORDS)
} lent;

void oracle_lend(uint32_t rows, uint32_t bodies, uint32_t mode)
{
    size_t n = rows, b = bodies, p = kapitsa_pairs(rows);
    double *doubles = work_doubles;
    uint32_t *carved = work_words;
    KAPITSA_SOLVE_WORK(CARVE_DOUBLES, CARVE_WORDS)
}

void oracle_time_position(
    double *numbers, size_t numbers_len, const uint32_t *words, size_t words_len,
    const double *masses, size_t masses_len, const double *centres, size_t centres_len,
    const uint32_t *rule_words, size_t rule_words_len,
    const double *rule_tolerances, size_t rule_tolerances_len,
    uint32_t rows, uint32_t bodies, uint32_t limit, uint32_t mode, double shift,
    double *solution, size_t solution_len, double *impulses, size_t impulses_len,
    double *new_centres, size_t new_centres_len,
    uint32_t *rule_numbers, size_t rule_numbers_len, uint64_t *answer, size_t answer_len)
{
    struct solved to;
    (void)answer_len;
    answer[0] = kapitsa_solve_position(
        numbers, numbers_len, words, words_len, masses, masses_len, centres, centres_len, rule_words,
        rule_words_len, rule_tolerances, rule_tolerances_len, rows, bodies, limit, mode, shift,
        solution, solution_len, impulses, impulses_len, new_centres, new_centres_len, rule_numbers,
        rule_numbers_len, to.counts, 2, to.maxima, 2 KAPITSA_SOLVE_WORK(LEND_FIELD, LEND_FIELD));
}

void oracle_time_velocity(
    double *numbers, size_t numbers_len, const uint32_t *words, size_t words_len,
    const double *masses, size_t masses_len, const double *residuals, size_t residuals_len,
    const uint32_t *rule_words, size_t rule_words_len,
    const double *rule_tolerances, size_t rule_tolerances_len,
    uint32_t rows, uint32_t bodies, uint32_t limit, uint32_t mode, double shift,
    double *solution, size_t solution_len, double *impulses, size_t impulses_len,
    uint32_t *rule_numbers, size_t rule_numbers_len, uint64_t *answer, size_t answer_len)
{
    struct solved to;
    (void)answer_len;
    answer[0] = kapitsa_solve_velocity(
        numbers, numbers_len, words, words_len, masses, masses_len, residuals, residuals_len,
        rule_words, rule_words_len, rule_tolerances, rule_tolerances_len, rows, bodies, limit, mode,
        shift, solution, solution_len, impulses, impulses_len, rule_numbers, rule_numbers_len,
        to.counts, 2, to.maxima, 2 KAPITSA_SOLVE_WORK(LEND_FIELD, LEND_FIELD));
}
