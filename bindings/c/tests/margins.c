/* What would open the joint: document 02, m. */
#include "tests.h"

/* Rows on the same two bodies. With no multipliers each one's number is its error's size and
   (n + 16) * 2^-51 of that: for a power of two, 2 (n + 16) units above it. */
static struct job rows_of(const double *errors, const uint32_t *dimensions, uint32_t n)
{
    struct job job = p1(0.0, 2.0);
    for (uint32_t i = 0; i < n; i++) {
        set_row(job.numbers + 27 * i, job.words + 8 * i, 0, 1, i);
        set_error(job.numbers + 27 * i, job.residuals + i, errors[i]);
        job.words[8 * i + 1] = dimensions[i];
    }
    job.rows = n;
    return job;
}

/* True where the list has these rows, and beside each the number of its error. */
static int lists(const struct checked *found, const double *errors, const uint32_t *rows,
                 uint32_t n)
{
    for (uint32_t i = 0; i < n; i++) {
        const uint64_t size = bits_of(errors[rows[i]]) & ~MINUS;
        if (found->margin_rows[i] != rows[i]
            || bits_of(found->margins[i]) != (size == 0 ? 0 : size + 2 * (n + 16)))
            return 0;
    }
    return says(*found, KAPITSA_CLOSED);
}

static void order_of_lists(void)
{
    static const double errors[] = {0.25, -0.5, 1.0, -0.25, 0.5, 0.5};
    static const uint32_t dimensions[] = {1, 0, 0, 1, 0, 1}, order[] = {2, 1, 4, 5, 0, 3};
    static const uint32_t linear[] = {0, 0, 0, 0, 0, 0}, by_size[] = {2, 1, 4, 5, 0, 3};
    static const uint32_t angular[] = {1, 1, 1}, zeros_last[] = {1, 0, 2};
    const double small[] = {from_bits(MINUS), -0.125, 0.0};
    const uint64_t below_1 = bits_of(1.0) + 2 * (6 + 16) - 1;
    struct job job = rows_of(errors, dimensions, 6);
    for (size_t i = 0; i < CONTROLS; i++) {
        const struct checked found = check(&job, no_multipliers, controls[i].word, exactly);
        expect(lists(&found, errors, order, 6), "linear first, largest first, lower row first",
               controls[i].name);
    }
    job = rows_of(errors, linear, 6);
    struct checked found = check(&job, no_multipliers, KAPITSA_CONTROL, exactly);
    expect(lists(&found, errors, by_size, 6), "linear rows alone", "margins");
    job = rows_of(small, angular, 3);
    job.rules.tolerances[0] = 0.0; /* of no row */
    found = check(&job, no_multipliers, KAPITSA_CONTROL, exactly);
    expect(lists(&found, small, zeros_last, 3), "numbers of +0.0", "margins");
    job = rows_of(errors, dimensions, 6);
    job.rules.tolerances[0] = from_bits(below_1);
    found = check(&job, no_multipliers, KAPITSA_CONTROL, exactly);
    expect(says(found, KAPITSA_OPEN) && KEPT(found.margin_rows) && KEPT(found.margins),
           "no list where it is open", "margins");
}

/* P1's number, of velocities V1's: it closes by it, and opens by the double below. */
static void margin_of_p1(void)
{
    static const double multiplier[] = {0.25};
    const uint64_t tolerances[] = {bits_of(0.001), P1_GAP, P1_GAP - 1, 0};
    for (size_t i = 0; i < 4; i++) {
        const struct job sheet = p1(-0.25, from_bits(tolerances[i]));
        const struct checked found = check(&sheet, multiplier, KAPITSA_CONTROL, exactly);
        expect(i < 2 ? says(found, KAPITSA_CLOSED) && found.margin_rows[0] == 0
                           && bits_of(found.margins[0]) == P1_GAP
                     : says(found, KAPITSA_OPEN) && KEPT(found.margins),
               "P1's number", i < 2 ? "closed" : "open");
    }
}

/* One row judged by its number, or by less, and the others by their own. */
static void rows_alone(void)
{
    struct job job = kinds();
    const struct solved solved = solve(&job, 0, KAPITSA_CONTROL, exactly);
    const struct checked plain = check(&job, solved.solution, KAPITSA_CONTROL, exactly);
    expect(says(plain, KAPITSA_CLOSED), "the chain is closed", "margins");
    for (uint32_t i = 0; i < 3; i++) {
        const uint64_t number = bits_of(plain.margins[i]);
        const uint64_t tolerances[] = {number, number - 1, SMALLEST, MINUS};
        for (size_t k = 0; k < 4; k++) {
            job.rules = three_rules(1e-9, 1e-9, 1e-9);
            job.rules.tolerances[2 - plain.margin_rows[i]] = from_bits(tolerances[k]);
            const struct checked found = check(&job, solved.solution, KAPITSA_CONTROL, exactly);
            const int same = !memcmp(found.margin_rows, plain.margin_rows, sizeof found.margin_rows)
                && !memcmp(found.margins, plain.margins, sizeof found.margins);
            expect(says(found, k == 0 ? KAPITSA_CLOSED : KAPITSA_OPEN) && same == (k == 0),
                   "a row alone, by its number or by less", "margins");
        }
    }
}

/* A number a row in each list, no more and no fewer: 3, and nothing is written. */
static void lengths_of_lists(void)
{
    static const int more[] = {-1, 1, -2, NONE};
    for (int slice = MARGIN_ROWS; slice <= MARGINS; slice++)
        for (size_t i = 0; i < sizeof more / sizeof more[0]; i++) {
            struct job job = two_of_the_chain();
            job.more[slice] = more[i];
            for (uint32_t odd = 0; odd < 2; odd++, job.words[7] = 1 /* spare: 4 */) {
                const struct checked found =
                    checked_by(margins_called, &job, no_multipliers, KAPITSA_CONTROL, exactly);
                expect(found.refusal == KAPITSA_REFUSED_LENGTH && work_clear(0, 0)
                       && KEPT(found.verdict) && KEPT(found.gap) && KEPT(found.rule_numbers)
                       && KEPT(found.margin_rows) && KEPT(found.margins),
                       "a list of another length", "margins");
            }
        }
    /* the raw one, which takes a verdict of 1 and a gap of 2 besides */
    static const double multiplier[] = {0.25};
    const struct job sheet = p1(-0.25, 0.001);
    for (size_t which = 0; which < 81; which++) {
        const size_t lengths[] = {which % 3, which / 3 % 3, which / 9 % 3, 1 + which / 27};
        const int fits =
            lengths[0] == 1 && lengths[1] == 1 && lengths[2] == 1 && lengths[3] == 2;
        struct checked found;
        memset(&found, PATTERN, sizeof found);
        const uint32_t refusal = raw_margins(&sheet, multiplier, &found, lengths);
        expect(fits ? refusal == 0 && found.verdict == KAPITSA_CLOSED
                          && measures(found.gap, P1_GAP, 0) && found.margin_rows[0] == 0
                          && bits_of(found.margins[0]) == P1_GAP && found.rule_numbers[0] == 0
                    : refusal == KAPITSA_REFUSED_LENGTH && all(PATTERN, &found, sizeof found),
               "lengths of the raw check with its list", "raw");
    }
}

void margins(void)
{
    order_of_lists();
    margin_of_p1();
    rows_alone();
    lengths_of_lists();
}
