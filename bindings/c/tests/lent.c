/* Every function of the header as the list of its slices; and tables to call it with. */
#include "lent.h"

/* ---- the slices: kind, type, how many numbers for n rows, b bodies, r rules, p pairs and the mode,
   and what they hold beforehand */

#define BY_MODE(diagonal, cholesky, blocks)                                                    \
    (t->mode == 0 ? (diagonal) : t->mode == 1 ? (cholesky) : (blocks))

#define SLICES_OF_CALLS(X)                                                                     \
    X(S_NUMBERS, double, 27 * n, t->numbers)                                                   \
    X(S_WORDS, uint32_t, 8 * n, t->words)                                                      \
    X(S_MASSES, double, 10 * b, t->masses)                                                     \
    X(S_CENTRES, double, 3 * b, t->centres)                                                    \
    X(S_RESIDUALS, double, n, t->residuals)                                                    \
    X(S_RULE_WORDS, uint32_t, 3 * t->rules, t->rule_words)                                     \
    X(S_TOLERANCES, double, t->rules, t->tolerances)                                           \
    X(S_MULTIPLIERS, double, n, t->solution)                                                   \
    X(S_SOLUTION, double, n, NULL)                                                             \
    X(S_IMPULSES, double, 6 * b, NULL)                                                         \
    X(S_NEW_CENTRES, double, 3 * b, NULL)                                                      \
    X(S_RULE_NUMBERS, uint32_t, n, NULL)                                                       \
    X(S_COUNTS, uint32_t, 2, NULL)                                                             \
    X(S_MAXIMA, double, 2, NULL)                                                               \
    X(S_PROPOSAL, uint32_t, KAPITSA_PROPOSAL_WORDS, NULL)                                      \
    X(S_STARTED, double, n, NULL)                                                              \
    X(S_PROPOSED, uint32_t, KAPITSA_PROPOSAL_WORDS, t->proposal)                               \
    X(S_STARTED_FROM, double, n, t->started)                                                   \
    X(S_VERDICT, uint32_t, 1, NULL)                                                            \
    X(S_GAP, double, 2, NULL)                                                                  \
    X(S_MARGIN_ROWS, uint32_t, n, NULL)                                                        \
    X(S_MARGINS, double, n, NULL)                                                              \
    X(S_GAPS, double, n, NULL)                                                                 \
    X(S_GROUP_NUMBERS, uint32_t, n, NULL)                                                      \
    X(S_GROUP_ANSWERS, uint32_t, KAPITSA_GROUP_WORDS * n, NULL)                                \
    X(S_GROUP_MAXIMA, double, 2 * n, NULL)                                                     \
    X(S_GROUP_COUNT, uint32_t, 1, NULL)                                                        \
    X(S_INERTIA, double, 9, inertia)                                                           \
    X(S_INVERSE, double, 9, NULL)                                                              \
    X(S_JACOBIANS, double, 12 * n, NULL)                                                       \
    X(S_LINKS, uint32_t, 2 * n, NULL)                                                          \
    X(S_BY_ROW, double, n, NULL)                                                               \
    X(S_BODY_IMPULSES, double, 6 * b, NULL)                                                    \
    X(S_PATTERN, uint32_t, BY_MODE(0, n + 1 + p, n), NULL)                                     \
    X(S_ORDER, uint32_t, BY_MODE(0, n + 2 * p, 0), NULL)                                       \
    X(S_VALUES, double, BY_MODE(0, p, 36 * n), NULL)                                           \
    /* of the functions in _in: answers whose length is not told, and work memory in one piece */ \
    X(S_COUNTS_IN, uint32_t, 2, NULL)                                                          \
    X(S_MAXIMA_IN, double, 2, NULL)                                                            \
    X(S_PROPOSAL_IN, uint32_t, KAPITSA_PROPOSAL_WORDS, NULL)                                   \
    X(S_PROPOSED_IN, uint32_t, KAPITSA_PROPOSAL_WORDS, t->proposal)                            \
    X(S_VERDICT_IN, uint32_t, 1, NULL)                                                         \
    X(S_GAP_IN, double, 2, NULL)                                                               \
    X(S_GROUP_COUNT_IN, uint32_t, 1, NULL)                                                     \
    X(S_INERTIA_IN, double, 9, inertia)                                                        \
    X(S_INVERSE_IN, double, 9, NULL)                                                           \
    X(S_SOLVE_DOUBLES, double, kapitsa_solve_doubles(t->rows, t->bodies, t->mode), NULL)       \
    X(S_SOLVE_WORDS, uint32_t, kapitsa_solve_words(t->rows, t->bodies, t->mode), NULL)         \
    X(S_CHECK_DOUBLES, double, kapitsa_check_doubles(t->rows, t->bodies), NULL)

#define NAME(kind, type, length, held) kind,
enum { SLICES_OF_CALLS(NAME) KINDS };

static const double inertia[9] = {2.0, 1.0, 0.0, 1.0, 2.0, 0.0, 0.0, 0.0, 4.0};

size_t length_of_kind(int kind, const struct table *t)
{
    const size_t n = t->rows, b = t->bodies, p = kapitsa_pairs(t->rows);
    switch (kind) {
#define LENGTH(kind, type, length, held) case kind: return length;
        SLICES_OF_CALLS(LENGTH)
    }
    return 0;
}

size_t size_of_kind(int kind)
{
    switch (kind) {
#define SIZE(kind, type, length, held) case kind: return sizeof(type);
        SLICES_OF_CALLS(SIZE)
    }
    return 0;
}

const void *held_by_kind(int kind, const struct table *t)
{
    switch (kind) {
#define HELD(kind, type, length, held) case kind: return held;
        SLICES_OF_CALLS(HELD)
    }
    return NULL;
}

int is_told(int kind)
{
    return kind < S_COUNTS_IN || kind > S_INVERSE_IN;
}

int may_be_longer(int kind)
{
    return kind >= S_SOLVE_DOUBLES;
}

int is_read_by_3(int kind)
{
    return kind == S_PROPOSED || kind == S_PROPOSED_IN;
}

/* ---- the functions */

#define D(i) (double *)l->at[i], l->length[i]
#define W(i) (uint32_t *)l->at[i], l->length[i]
#define D_AT(i) (double *)l->at[i]
#define W_AT(i) (uint32_t *)l->at[i]
#define COUNTS t->rows, t->bodies
#define GIVEN D(0), W(1), D(2), D(3), W(4), D(5), COUNTS /* rows, masses, beside, rules */
#define SOLVES GIVEN, t->limit, t->mode, t->shift
#define CALLS(function, ...)                                                                   \
    static uint32_t call_##function(const struct lending *l, const struct table *t)            \
    {                                                                                          \
        (void)t;                                                                               \
        return function(__VA_ARGS__);                                                          \
    }

CALLS(kapitsa_solve_position, SOLVES, D(6), D(7), D(8), W(9), W(10), D(11), D(12), W(13), D(14), D(15),
      D(16), D(17), D(18), D(19), D(20), W(21), W(22), D(23))
CALLS(kapitsa_propose_position, SOLVES, D(6), D(7), D(8), W(9), W(10), D(11), D(12), D(13), W(14), D(15),
      D(16), D(17), D(18), D(19), D(20), D(21), W(22), W(23), D(24))
CALLS(kapitsa_commit_proposal, D(0), t->rows, W(1), D(2), D(3))
CALLS(kapitsa_solve_velocity, SOLVES, D(6), D(7), W(8), W(9), D(10), D(11), W(12), D(13), D(14), D(15),
      D(16), D(17), D(18), D(19), W(20), W(21), D(22))
CALLS(kapitsa_solve_groups, SOLVES, D(6), D(7), D(8), W(9), W(10), W(11), D(12), W(13))
CALLS(kapitsa_solve_velocity_groups, SOLVES, D(6), D(7), W(8), W(9), W(10), D(11), W(12))
CALLS(kapitsa_closing_check, GIVEN, D(6), W(7), W(8), D(9), D(10), D(11), D(12), D(13))
CALLS(kapitsa_velocity_closing_check, GIVEN, D(6), W(7), W(8), D(9), D(10), D(11), D(12), D(13))
CALLS(kapitsa_closing_margins, GIVEN, D(6), W(7), W(8), D(9), W(10), D(11), D(12), D(13), D(14), D(15))
CALLS(kapitsa_velocity_closing_margins, GIVEN, D(6), W(7), W(8), D(9), W(10), D(11), D(12), D(13), D(14),
      D(15))
CALLS(kapitsa_closing_gaps, GIVEN, D(6), W(7), D(8), W(9), D(10), D(11), D(12), D(13), D(14))
CALLS(kapitsa_velocity_closing_gaps, GIVEN, D(6), W(7), D(8), W(9), D(10), D(11), D(12), D(13), D(14))
CALLS(kapitsa_inverse_spd, D(0), D(1))
CALLS(kapitsa_solve_in, SOLVES, D(6), D(7), D(8), W(9), W_AT(10), D_AT(11), D(12), W(13))
CALLS(kapitsa_propose_in, SOLVES, D(6), D(7), D(8), W(9), W_AT(10), D(11), D_AT(12), D(13), W(14))
CALLS(kapitsa_commit_in, D(0), t->rows, W_AT(1), D(2), D(3))
CALLS(kapitsa_solve_velocity_in, SOLVES, D(6), D(7), W(8), W_AT(9), D_AT(10), D(11), W(12))
CALLS(kapitsa_solve_groups_in, SOLVES, D(6), D(7), D(8), W(9), W(10), W(11), D(12), W_AT(13))
CALLS(kapitsa_solve_velocity_groups_in, SOLVES, D(6), D(7), W(8), W(9), W(10), D(11), W_AT(12))
CALLS(kapitsa_check_in, GIVEN, D(6), W(7), W_AT(8), D_AT(9), D(10))
CALLS(kapitsa_check_velocity_in, GIVEN, D(6), W(7), W_AT(8), D_AT(9), D(10))
CALLS(kapitsa_margins_in, GIVEN, D(6), W(7), W(8), D(9), W_AT(10), D_AT(11), D(12))
CALLS(kapitsa_margins_velocity_in, GIVEN, D(6), W(7), W(8), D(9), W_AT(10), D_AT(11), D(12))
CALLS(kapitsa_gaps_in, GIVEN, D(6), W(7), D(8), W_AT(9), D_AT(10), D(11))
CALLS(kapitsa_gaps_velocity_in, GIVEN, D(6), W(7), D(8), W_AT(9), D_AT(10), D(11))
CALLS(kapitsa_inverse_in, D_AT(0), D_AT(1))

#define PLACES S_NUMBERS, S_WORDS, S_MASSES, S_CENTRES, S_RULE_WORDS, S_TOLERANCES
#define SPEEDS S_NUMBERS, S_WORDS, S_MASSES, S_RESIDUALS, S_RULE_WORDS, S_TOLERANCES
#define PLACED S_SOLUTION, S_IMPULSES, S_NEW_CENTRES, S_RULE_NUMBERS
#define PUSHED S_SOLUTION, S_IMPULSES, S_RULE_NUMBERS
#define GROUPED S_GROUP_NUMBERS, S_GROUP_ANSWERS, S_GROUP_MAXIMA
#define JUDGED S_MULTIPLIERS, S_RULE_NUMBERS
#define LISTED S_MARGIN_ROWS, S_MARGINS
#define SOLVE_WORK                                                                             \
    S_JACOBIANS, S_LINKS, S_BY_ROW, S_BY_ROW, S_BY_ROW, S_BY_ROW, S_BY_ROW, S_BY_ROW,          \
        S_BODY_IMPULSES, S_PATTERN, S_ORDER, S_VALUES
#define CHECK_WORK S_BODY_IMPULSES, S_BODY_IMPULSES, S_BY_ROW, S_BY_ROW
#define SOLVE_ROOM S_SOLVE_DOUBLES, S_SOLVE_WORDS

#define RAW(function, of_speeds, ...) {#function, of_speeds, 0, {__VA_ARGS__, -1}, call_##function}
#define IN(function, of_speeds, ...) {#function, of_speeds, 1, {__VA_ARGS__, -1}, call_##function}

const struct function functions[FUNCTIONS] = {
    RAW(kapitsa_solve_position, 0, PLACES, PLACED, S_COUNTS, S_MAXIMA, SOLVE_WORK),
    RAW(kapitsa_propose_position, 0, PLACES, PLACED, S_PROPOSAL, S_STARTED, S_MAXIMA, SOLVE_WORK),
    RAW(kapitsa_commit_proposal, 0, S_NUMBERS, S_PROPOSED, S_MULTIPLIERS, S_STARTED_FROM),
    RAW(kapitsa_solve_velocity, 1, SPEEDS, PUSHED, S_COUNTS, S_MAXIMA, SOLVE_WORK),
    RAW(kapitsa_solve_groups, 0, PLACES, PLACED, GROUPED, S_GROUP_COUNT),
    RAW(kapitsa_solve_velocity_groups, 1, SPEEDS, PUSHED, GROUPED, S_GROUP_COUNT),
    RAW(kapitsa_closing_check, 0, PLACES, JUDGED, S_VERDICT, S_GAP, CHECK_WORK),
    RAW(kapitsa_velocity_closing_check, 1, SPEEDS, JUDGED, S_VERDICT, S_GAP, CHECK_WORK),
    RAW(kapitsa_closing_margins, 0, PLACES, JUDGED, LISTED, S_VERDICT, S_GAP, CHECK_WORK),
    RAW(kapitsa_velocity_closing_margins, 1, SPEEDS, JUDGED, LISTED, S_VERDICT, S_GAP, CHECK_WORK),
    RAW(kapitsa_closing_gaps, 0, PLACES, JUDGED, S_GAPS, S_VERDICT, S_GAP, CHECK_WORK),
    RAW(kapitsa_velocity_closing_gaps, 1, SPEEDS, JUDGED, S_GAPS, S_VERDICT, S_GAP, CHECK_WORK),
    RAW(kapitsa_inverse_spd, 2, S_INERTIA, S_INVERSE),
    IN(kapitsa_solve_in, 0, PLACES, PLACED, S_COUNTS_IN, S_MAXIMA_IN, SOLVE_ROOM),
    IN(kapitsa_propose_in, 0, PLACES, PLACED, S_PROPOSAL_IN, S_STARTED, S_MAXIMA_IN, SOLVE_ROOM),
    IN(kapitsa_commit_in, 0, S_NUMBERS, S_PROPOSED_IN, S_MULTIPLIERS, S_STARTED_FROM),
    IN(kapitsa_solve_velocity_in, 1, SPEEDS, PUSHED, S_COUNTS_IN, S_MAXIMA_IN, SOLVE_ROOM),
    IN(kapitsa_solve_groups_in, 0, PLACES, PLACED, GROUPED, S_GROUP_COUNT_IN),
    IN(kapitsa_solve_velocity_groups_in, 1, SPEEDS, PUSHED, GROUPED, S_GROUP_COUNT_IN),
    IN(kapitsa_check_in, 0, PLACES, JUDGED, S_VERDICT_IN, S_GAP_IN, S_CHECK_DOUBLES),
    IN(kapitsa_check_velocity_in, 1, SPEEDS, JUDGED, S_VERDICT_IN, S_GAP_IN, S_CHECK_DOUBLES),
    IN(kapitsa_margins_in, 0, PLACES, JUDGED, LISTED, S_VERDICT_IN, S_GAP_IN, S_CHECK_DOUBLES),
    IN(kapitsa_margins_velocity_in, 1, SPEEDS, JUDGED, LISTED, S_VERDICT_IN, S_GAP_IN, S_CHECK_DOUBLES),
    IN(kapitsa_gaps_in, 0, PLACES, JUDGED, S_GAPS, S_VERDICT_IN, S_GAP_IN, S_CHECK_DOUBLES),
    IN(kapitsa_gaps_velocity_in, 1, SPEEDS, JUDGED, S_GAPS, S_VERDICT_IN, S_GAP_IN, S_CHECK_DOUBLES),
    IN(kapitsa_inverse_in, 2, S_INERTIA_IN, S_INVERSE_IN),
};

uint32_t called(const struct function *function, const struct lending *lending,
                const struct table *table)
{
    const unsigned before = _mm_getcsr();
    _mm_setcsr(KAPITSA_CONTROL);
    const uint32_t refusal = function->call(lending, table);
    _mm_setcsr(before);
    return refusal;
}

/* ---- the tables */

/* 512 rows, three for each joint of a chain, on 256 bodies under 64 rules. */
static void largest(struct table *to)
{
    enum { N = KAPITSA_MAX_ROWS, B = KAPITSA_MAX_BODIES, R = KAPITSA_MAX_RULES };
    static double numbers[27 * N], masses[10 * B], centres[3 * B], residuals[N];
    static uint32_t row_words[8 * N];
    static struct rules rules;
    memset(numbers, 0, sizeof numbers);
    rules = no_rules();
    for (uint32_t i = 0; i < N; i++) {
        double *row = numbers + 27 * i;
        set_row(row, row_words + 8 * i, i / 3, i / 3 + 1, i / 3);
        row_words[8 * i] = i % 256; /* key */
        row[0] = row[9] = 0.0;
        row[i % 3] = 1.0;
        row[9 + i % 3] = -1.0;
        set_error(row, residuals + i, 0.0009765625 * (i % 7));
    }
    for (uint32_t i = 0; i < R; i++)
        add_rule(&rules, KAPITSA_LINEAR, 4 * i, 4 * i + 3, 1e-9);
    for (uint32_t j = 0; j < B; j++) {
        masses[10 * j] = j % 3 == 0 ? 0.25 : 1.0;
        centres[3 * j] = 0.125 * j;
    }
    to->name = "512 rows";
    to->rows = N;
    to->bodies = B;
    to->rules = R;
    to->numbers = numbers;
    to->masses = masses;
    to->centres = centres;
    to->residuals = residuals;
    to->words = row_words;
    to->rule_words = rules.words;
    to->tolerances = rules.tolerances;
}

static void from_job(struct table *to, const struct job *job, const char *name)
{
    to->name = name;
    to->rows = job->rows;
    to->bodies = job->bodies;
    to->rules = job->rules.tolerances_len;
    to->numbers = job->numbers;
    to->masses = job->masses;
    to->centres = job->centres;
    to->residuals = job->residuals;
    to->words = job->words;
    to->rule_words = job->rules.words;
    to->tolerances = job->rules.tolerances;
}

/* Its solution, which a check measures; for positions with the proposal that a commit takes. */
static void solve_once(struct table *t)
{
    static double numbers[27 * KAPITSA_MAX_ROWS], impulses[6 * KAPITSA_MAX_BODIES];
    static double new_centres[3 * KAPITSA_MAX_BODIES], maxima[2];
    static uint32_t rule_numbers[KAPITSA_MAX_ROWS], counts[2];
    const size_t n = t->rows, b = t->bodies, r = t->rules;
    const size_t d = sizeof doubles / sizeof doubles[0], w = sizeof words / sizeof words[0];
    memcpy(numbers, t->numbers, 27 * n * sizeof(double));
    const uint32_t refusal = speeds
        ? kapitsa_solve_velocity_in(numbers, 27 * n, t->words, 8 * n, t->masses, 10 * b, t->residuals, n,
                                    t->rule_words, 3 * r, t->tolerances, r, t->rows, t->bodies, t->limit,
                                    t->mode, t->shift, t->solution, n, impulses, 6 * b, rule_numbers, n,
                                    counts, maxima, doubles, d, words, w)
        : kapitsa_propose_in(numbers, 27 * n, t->words, 8 * n, t->masses, 10 * b, t->centres, 3 * b,
                             t->rule_words, 3 * r, t->tolerances, r, t->rows, t->bodies, t->limit, t->mode,
                             t->shift, t->solution, n, impulses, 6 * b, new_centres, 3 * b, rule_numbers, n,
                             t->proposal, t->started, n, maxima, doubles, d, words, w);
    expect(refusal == KAPITSA_ACCEPTED, t->name, "solved");
}

const struct table *tables(void)
{
    static struct table tables[TABLES];
    static struct job jobs[2];
    jobs[0] = kinds();
    jobs[1] = kinds();
    jobs[1].rows = jobs[1].bodies = 0;
    for (uint32_t i = 0; i < TABLES; i++) {
        struct table *t = &tables[i];
        memset(t, 0, sizeof *t);
        if (i < 3)
            from_job(t, &jobs[0], "three rows");
        else if (i < 6)
            largest(t);
        else
            from_job(t, &jobs[1], "no rows");
        t->mode = i % 3;
        t->limit = 4;
        solve_once(t);
    }
    return tables;
}
