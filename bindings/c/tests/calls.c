/* The calls, each in a floating-point mode and with work memory that shows what was written. */
#include "tests.h"

double doubles[54 * KAPITSA_MAX_ROWS + 6 * KAPITSA_MAX_BODIES + 8];
uint32_t words[4 * KAPITSA_MAX_ROWS + 3 * KAPITSA_MAX_PAIRS + 9];

const struct lent exactly = {0, 0};

void fill_work(void)
{
    memset(doubles, PATTERN, sizeof doubles);
    memset(words, PATTERN, sizeof words);
}

/* The work memory is 0 as far as it is needed, and nothing is written behind it. */
int work_clear(size_t need_doubles, size_t need_words)
{
    return all(0, doubles, need_doubles * sizeof doubles[0])
        && all(0, words, need_words * sizeof words[0])
        && all(PATTERN, doubles + need_doubles, sizeof doubles - need_doubles * sizeof doubles[0])
        && all(PATTERN, words + need_words, sizeof words - need_words * sizeof words[0]);
}

size_t length(size_t need, int more)
{
    return more == NONE ? 0 : need + (size_t)more;
}

struct lengths lengths_of(const struct job *job)
{
    const size_t n = job->rows, b = job->bodies;
    const size_t counted[SLICES] = {27 * n, 8 * n, 10 * b, 3 * b, n, n, 6 * b, 3 * b, n, n};
    struct lengths to;
    for (int i = 0; i < SLICES; i++)
        to.of[i] = length(counted[i], job->more[i]);
    to.rule_numbers = length(n, job->rules.more_numbers);
    return to;
}

static uint32_t solve_called(const struct job *job, uint32_t mode, struct solved *to,
                             size_t doubles_len, size_t words_len)
{
    const uint32_t n = job->rows, b = job->bodies;
    const struct lengths l = lengths_of(job);
    if (speeds)
        return kapitsa_solve_velocity_in(
            to->numbers, l.of[NUMBERS], job->words, l.of[WORDS], job->masses, l.of[MASSES],
            job->residuals, l.of[RESIDUALS], job->rules.words, job->rules.words_len,
            job->rules.tolerances, job->rules.tolerances_len, n, b, job->limit, mode, job->shift,
            to->solution, l.of[SOLUTION], to->impulses, l.of[IMPULSES], to->rule_numbers,
            l.rule_numbers, to->counts, to->maxima, doubles, doubles_len, words, words_len);
    return kapitsa_solve_in(
        to->numbers, l.of[NUMBERS], job->words, l.of[WORDS], job->masses, l.of[MASSES],
        job->centres, l.of[CENTRES], job->rules.words, job->rules.words_len, job->rules.tolerances,
        job->rules.tolerances_len, n, b, job->limit, mode, job->shift, to->solution,
        l.of[SOLUTION], to->impulses, l.of[IMPULSES], to->new_centres, l.of[NEW_CENTRES],
        to->rule_numbers, l.rule_numbers, to->counts, to->maxima, doubles, doubles_len, words,
        words_len);
}

/* A solve in a floating-point mode; .control is the mode that it leaves. */
struct solved solve(const struct job *job, uint32_t mode, unsigned control, struct lent lent)
{
    const uint32_t n = job->rows, b = job->bodies;
    const size_t doubles_len = length(kapitsa_solve_doubles(n, b, mode), lent.more_doubles);
    const size_t words_len = length(kapitsa_solve_words(n, b, mode), lent.more_words);
    struct solved to;
    memset(&to, PATTERN, sizeof to);
    memcpy(to.numbers, job->numbers, sizeof to.numbers);
    fill_work();
    const unsigned before = _mm_getcsr();
    _mm_setcsr(control);
    to.refusal = solve_called(job, mode, &to, doubles_len, words_len);
    to.control = _mm_getcsr();
    _mm_setcsr(before);
    return to;
}

uint32_t check_called(const struct job *job, const double *multipliers, struct checked *to,
                      size_t doubles_len)
{
    const struct lengths l = lengths_of(job);
    return (speeds ? kapitsa_check_velocity_in : kapitsa_check_in)(
        job->numbers, l.of[NUMBERS], job->words, l.of[WORDS], job->masses, l.of[MASSES],
        speeds ? job->residuals : job->centres, l.of[speeds ? RESIDUALS : CENTRES],
        job->rules.words, job->rules.words_len, job->rules.tolerances, job->rules.tolerances_len,
        job->rows, job->bodies, multipliers, l.of[SOLUTION], to->rule_numbers, l.rule_numbers,
        &to->verdict, to->gap, doubles, doubles_len);
}

uint32_t margins_called(const struct job *job, const double *multipliers, struct checked *to,
                        size_t doubles_len)
{
    const struct lengths l = lengths_of(job);
    return (speeds ? kapitsa_margins_velocity_in : kapitsa_margins_in)(
        job->numbers, l.of[NUMBERS], job->words, l.of[WORDS], job->masses, l.of[MASSES],
        speeds ? job->residuals : job->centres, l.of[speeds ? RESIDUALS : CENTRES],
        job->rules.words, job->rules.words_len, job->rules.tolerances, job->rules.tolerances_len,
        job->rows, job->bodies, multipliers, l.of[SOLUTION], to->rule_numbers, l.rule_numbers,
        to->margin_rows, l.of[MARGIN_ROWS], to->margins, l.of[MARGINS], &to->verdict, to->gap,
        doubles, doubles_len);
}

struct checked checked_by(calls *called, const struct job *job, const double *multipliers,
                          unsigned control, struct lent lent)
{
    const size_t need = kapitsa_check_doubles(job->rows, job->bodies);
    struct checked to;
    memset(&to, PATTERN, sizeof to);
    fill_work();
    const unsigned before = _mm_getcsr();
    _mm_setcsr(control);
    to.refusal = called(job, multipliers, &to, length(need, lent.more_doubles));
    to.control = _mm_getcsr();
    _mm_setcsr(before);
    return to;
}

int says(struct checked found, uint32_t verdict)
{
    return found.refusal == KAPITSA_ACCEPTED && found.verdict == verdict;
}

/* The largest reach of the linear rows and of the angular ones. */
int measures(const double gap[2], uint64_t linear, uint64_t angular)
{
    return bits_of(gap[0]) == linear && bits_of(gap[1]) == angular;
}

/* Where the check says closed, n rows, each once, in the order of document 02, m, each dimension
   beginning with its gap. The bits of numbers from +0.0 are in the order of the numbers. */
int in_order(const uint32_t *row_words, uint32_t n, const uint32_t *margin_rows,
             const double *margins, const double gap[2])
{
    static unsigned char seen[KAPITSA_MAX_ROWS];
    uint64_t first[2] = {0, 0};
    memset(seen, 0, sizeof seen);
    for (uint32_t i = 0; i < n; i++) {
        const uint32_t row = margin_rows[i];
        const uint64_t number = bits_of(margins[i]);
        if (row >= n || seen[row]++)
            return 0;
        const uint32_t dimension = row_words[8 * row + 1];
        const uint32_t before = i == 0 ? 2 : row_words[8 * margin_rows[i - 1] + 1];
        if (before != dimension) {
            if (before < 2 && before > dimension)
                return 0;
            first[dimension] = number;
            continue;
        }
        const uint64_t above = bits_of(margins[i - 1]);
        if (number > above || (number == above && row < margin_rows[i - 1]))
            return 0;
    }
    return measures(gap, first[0], first[1]);
}

/* The list is there where it is closed, with nothing behind it, and nowhere else. */
static int listed_well(const struct job *job, const struct checked *found)
{
    const uint32_t n = says(*found, KAPITSA_CLOSED) ? job->rows : 0;
    return all(PATTERN, found->margin_rows + n, sizeof found->margin_rows - n * sizeof(uint32_t))
        && all(PATTERN, found->margins + n, sizeof found->margins - n * sizeof(double))
        && (n == 0 || in_order(job->words, n, found->margin_rows, found->margins, found->gap));
}

/* What a check leaves of the work memory that it needs. */
static int check_cleared(const struct job *job, uint32_t refusal)
{
    const size_t clears = refusal != KAPITSA_REFUSED_LENGTH;
    return work_clear(clears * kapitsa_check_doubles(job->rows, job->bodies), 0);
}

/* The check, and beside it the check with its list, which answers alike; the list is of that. */
struct checked check(const struct job *job, const double *multipliers, unsigned control,
                     struct lent lent)
{
    const struct checked listed = checked_by(margins_called, job, multipliers, control, lent);
    expect(listed_well(job, &listed) && check_cleared(job, listed.refusal), "the list", "margins");
    struct checked to = checked_by(check_called, job, multipliers, control, lent);
    memcpy(to.margin_rows, listed.margin_rows, sizeof to.margin_rows);
    memcpy(to.margins, listed.margins, sizeof to.margins);
    expect(!memcmp(&to, &listed, sizeof to), "as the check without a list", "margins");
    return to;
}

/* The raw functions, in mode 0. */
uint32_t raw_solve(const struct job *job, unsigned control, double *solution)
{
    double numbers[27 * ROWS], impulses[6 * BODIES], maxima[2], jacobians[12 * ROWS];
    double tolerances[ROWS], diagonal[ROWS], residual[ROWS], pending[ROWS], direction[ROWS];
    double product[ROWS], body_impulses[6 * BODIES], new_centres[3 * BODIES];
    uint32_t rule_numbers[ROWS], counts[2], links[2 * ROWS];
    const uint32_t n = job->rows, b = job->bodies;
    memcpy(numbers, job->numbers, sizeof numbers);
    const unsigned before = _mm_getcsr();
    _mm_setcsr(control);
    uint32_t refusal;
    if (speeds)
        refusal = kapitsa_solve_velocity(
            numbers, 27 * n, job->words, 8 * n, job->masses, 10 * b, job->residuals, n,
            job->rules.words, job->rules.words_len, job->rules.tolerances,
            job->rules.tolerances_len, n, b, LIMIT, KAPITSA_DIAGONAL, 0.0, solution, n, impulses,
            6 * b, rule_numbers, n, counts, 2, maxima, 2,
            jacobians, 12 * n, links, 2 * n, tolerances, n, diagonal, n, residual, n, pending, n,
            direction, n, product, n, body_impulses, 6 * b, NULL, 0, NULL, 0, NULL, 0);
    else
        refusal = kapitsa_solve_position(
            numbers, 27 * n, job->words, 8 * n, job->masses, 10 * b, job->centres, 3 * b,
            job->rules.words, job->rules.words_len, job->rules.tolerances,
            job->rules.tolerances_len, n, b, LIMIT, KAPITSA_DIAGONAL, 0.0, solution, n, impulses,
            6 * b, new_centres, 3 * b, rule_numbers, n, counts, 2, maxima, 2,
            jacobians, 12 * n, links, 2 * n, tolerances, n, diagonal, n, residual, n, pending, n,
            direction, n, product, n, body_impulses, 6 * b, NULL, 0, NULL, 0, NULL, 0);
    _mm_setcsr(before);
    return refusal;
}

uint32_t raw_check(const struct job *job, const double *multipliers, unsigned control,
                   uint32_t *verdict, size_t verdict_len, double *gap, size_t gap_len)
{
    double impulses[6 * BODIES], size_impulses[6 * BODIES], values[ROWS], sizes[ROWS];
    uint32_t rule_numbers[ROWS];
    const uint32_t n = job->rows, b = job->bodies;
    const unsigned before = _mm_getcsr();
    _mm_setcsr(control);
    uint32_t refusal = (speeds ? kapitsa_velocity_closing_check : kapitsa_closing_check)(
        job->numbers, 27 * n, job->words, 8 * n, job->masses, 10 * b,
        speeds ? job->residuals : job->centres, speeds ? n : 3 * b,
        job->rules.words, job->rules.words_len, job->rules.tolerances, job->rules.tolerances_len, n,
        b, multipliers, n, rule_numbers, n, verdict, verdict_len, gap, gap_len,
        impulses, 6 * b, size_impulses, 6 * b, values, n, sizes, n);
    _mm_setcsr(before);
    return refusal;
}

uint32_t raw_margins(const struct job *job, const double *multipliers, struct checked *to,
                     const size_t lengths[RAW_SLICES])
{
    double impulses[6 * BODIES], size_impulses[6 * BODIES], values[ROWS], sizes[ROWS];
    const uint32_t n = job->rows, b = job->bodies;
    const unsigned before = _mm_getcsr();
    _mm_setcsr(KAPITSA_CONTROL);
    uint32_t refusal = (speeds ? kapitsa_velocity_closing_margins : kapitsa_closing_margins)(
        job->numbers, 27 * n, job->words, 8 * n, job->masses, 10 * b,
        speeds ? job->residuals : job->centres, speeds ? n : 3 * b,
        job->rules.words, job->rules.words_len, job->rules.tolerances, job->rules.tolerances_len, n,
        b, multipliers, n, to->rule_numbers, n, to->margin_rows, lengths[RAW_ROWS],
        to->margins, lengths[RAW_MARGINS], &to->verdict, lengths[RAW_VERDICT],
        to->gap, lengths[RAW_GAP],
        impulses, 6 * b, size_impulses, 6 * b, values, n, sizes, n);
    _mm_setcsr(before);
    return refusal;
}
