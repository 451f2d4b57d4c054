/* Each row's gap, closed or open, and where a solve was turned back. */
#include "tests.h"

/* What the check with gaps tells of a job. */
struct gapped {
    double gaps[ROWS + 1], gap[2];
    uint32_t rule_numbers[ROWS + 1], verdict, refusal;
};

static struct gapped gaps_of(const struct job *job, const double *multipliers, unsigned control)
{
    const uint32_t n = job->rows, b = job->bodies;
    struct gapped to;
    memset(&to, PATTERN, sizeof to);
    fill_work();
    const unsigned before = _mm_getcsr();
    _mm_setcsr(control);
    to.refusal = (speeds ? kapitsa_gaps_velocity_in : kapitsa_gaps_in)(
        job->numbers, 27 * n, job->words, 8 * n, job->masses, 10 * b,
        speeds ? job->residuals : job->centres, speeds ? n : 3 * b, job->rules.words,
        job->rules.words_len, job->rules.tolerances, job->rules.tolerances_len, n, b, multipliers, n,
        to.rule_numbers, n, to.gaps, n, &to.verdict, to.gap, doubles, kapitsa_check_doubles(n, b));
    _mm_setcsr(before);
    return to;
}

/* The gaps are those of the list where it is closed, and each dimension's largest is its gap. */
static void gaps_as_checked(const char *what, const struct job *job, const double *multipliers)
{
    const struct checked wanted = check(job, multipliers, KAPITSA_CONTROL, exactly);
    for (size_t i = 0; i < CONTROLS; i++) {
        const struct gapped found = gaps_of(job, multipliers, controls[i].word);
        uint64_t most[2] = {0, 0};
        expect(found.refusal == wanted.refusal, what, controls[i].name);
        if (found.refusal) {
            expect(KEPT(found.gaps) && KEPT(found.gap) && KEPT(found.verdict) && KEPT(found.rule_numbers),
                   "nothing is written", what);
            continue;
        }
        expect(found.verdict == wanted.verdict && !memcmp(found.gap, wanted.gap, sizeof found.gap)
               && !memcmp(found.rule_numbers, wanted.rule_numbers, sizeof found.rule_numbers), what,
               "as the check");
        for (uint32_t row = 0; row < job->rows; row++) {
            const uint32_t dimension = job->words[8 * row + 1];
            if (bits_of(found.gaps[row]) > most[dimension])
                most[dimension] = bits_of(found.gaps[row]);
        }
        expect(measures(found.gap, most[0], most[1]) && KEPT(found.gaps[job->rows]), what, "the largest");
        for (uint32_t k = 0; k < job->rows && found.verdict == KAPITSA_CLOSED; k++)
            expect(bits_of(found.gaps[wanted.margin_rows[k]]) == bits_of(wanted.margins[k]), what,
                   "as the list");
    }
}

static void gaps(void)
{
    struct job job = kinds();
    const struct solved solved = solve(&job, 0, KAPITSA_CONTROL, exactly);
    gaps_as_checked("closed", &job, solved.solution);
    gaps_as_checked("open", &job, no_multipliers);
    job.rules = two_rules(0.0);
    gaps_as_checked("open by 0", &job, solved.solution);
    job.masses[0] = from_bits(INFINITE);
    gaps_as_checked("refused by 6", &job, solved.solution);
    const struct job tiny = p1(from_bits(SMALLEST), 0.0);
    gaps_as_checked("refused by 18", &tiny, no_multipliers);
}

/* The place of what the solve of a job is refused by. */
static void refused_at(uint32_t refusal, uint32_t what, uint32_t which, const char *name,
                       const struct job *job, uint32_t mode)
{
    const uint32_t n = job->rows, b = job->bodies;
    expect(solve(job, mode, KAPITSA_CONTROL, exactly).refusal == refusal, name, "refused");
    for (size_t i = 0; i < CONTROLS; i++) {
        uint32_t place[KAPITSA_PLACE_WORDS] = {9, 9};
        const unsigned before = _mm_getcsr();
        _mm_setcsr(controls[i].word);
        const uint32_t found = kapitsa_first_refused_in(
            (uint32_t)speeds, refusal, job->numbers, 27 * n, job->words, 8 * n, job->masses, 10 * b,
            speeds ? job->residuals : job->centres, speeds ? n : 3 * b, job->rules.words,
            job->rules.words_len, job->rules.tolerances, job->rules.tolerances_len, n, b, job->limit,
            place);
        _mm_setcsr(before);
        expect(found == 0 && place[0] == what && place[1] == which, name, controls[i].name);
    }
}

static void places(void)
{
    struct job job = kinds();
    job.words[8 * 1 + 7] = 1; /* spare */
    refused_at(KAPITSA_REFUSED_WORD, KAPITSA_PLACE_ROW, 1, "4", &job, 0);
    job = kinds();
    job.numbers[27 * 2 + 18] = 1.0; /* compliance */
    refused_at(KAPITSA_REFUSED_OPENING, KAPITSA_PLACE_ROW, 2, "5", &job, 0);
    job.limit = 0;
    refused_at(KAPITSA_REFUSED_OPENING, KAPITSA_PLACE_LIMIT, 0, "5 by limit 0", &job, 0);
    job = kinds();
    job.masses[10 * 2 + 3] = from_bits(INFINITE);
    refused_at(KAPITSA_REFUSED_MASS, KAPITSA_PLACE_BODY, 2, "6", &job, 0);
    job = kinds();
    job.words[8 * 2 + 3] = 7; /* body_b */
    refused_at(KAPITSA_REFUSED_ROW, KAPITSA_PLACE_ROW, 2, "7", &job, 0);
    job = kinds();
    memset(job.masses, 0, sizeof job.masses);
    refused_at(KAPITSA_REFUSED_IMMOVABLE, KAPITSA_PLACE_ROW, 0, "9", &job, 0);
    job = kinds();
    add_rule(&job.rules, 2, 40, 40, 0.5);
    refused_at(KAPITSA_REFUSED_RULE, KAPITSA_PLACE_RULE, 2, "27", &job, 0);
    job = kinds();
    job.rules.words[2] = 19; /* row 1 has key 20 */
    refused_at(KAPITSA_REFUSED_RULES_OF_ROW, KAPITSA_PLACE_ROW, 1, "28", &job, 0);
    job = kinds();
    job.words[8 * 1 + 3] = 2; /* of one joint, on other bodies */
    refused_at(KAPITSA_REFUSED_BLOCK, KAPITSA_PLACE_ROW, 0, "11", &job, KAPITSA_BLOCK_JACOBI);
    job = worn(0.0);
    refused_at(KAPITSA_REFUSED_PIVOT, KAPITSA_PLACE_NONE, 0, "13", &job, KAPITSA_INCOMPLETE_CHOLESKY);
    uint32_t place[KAPITSA_PLACE_WORDS] = {9, 9};
    expect(kapitsa_first_refused_in(2, 4, NULL, 0, NULL, 0, NULL, 0, NULL, 0, NULL, 0, NULL, 0, 0, 0, 0,
                                    place) == KAPITSA_REFUSED_LENGTH && place[0] == 9, "velocities 2", "3");
    expect(kapitsa_first_refused_in(0, 4, NULL, 0, NULL, 0, NULL, 0, NULL, 0, NULL, 0, NULL, 0, 1, 0, 0,
                                    place) == 0 && place[0] == KAPITSA_PLACE_NONE, "no length fits", "");
}

void reports(void)
{
    gaps();
    places();
}
