/* A first program: two links and one joint, which gapes by a quarter of a metre; solved, then checked.
   cc first.c $(pkg-config --cflags --libs kapitsa) && ./a.out */
#include <kapitsa.h>
#include <math.h>
#include <stdio.h>

int main(void)
{
    double numbers[27] = {0}, masses[20] = {0}, centres[6] = {0}; /* one row, two bodies */
    uint32_t words[8] = {0};
    numbers[0] = 1.0;             /* linear_a: along x */
    numbers[9] = -1.0;            /* linear_b */
    numbers[15] = -0.25;          /* error */
    numbers[20] = -INFINITY;      /* min_multiplier */
    numbers[21] = INFINITY;       /* max_multiplier */
    words[3] = 1;                 /* body_b; body_a is 0 */
    words[5] = 1;                 /* position_enabled */
    masses[0] = masses[10] = 0.5; /* inverse masses: 2 kg each */
    const uint32_t rules[] = KAPITSA_TWO_RULES;
    const double tolerances[] = {1e-6, 1e-6}; /* a micrometre, a microradian */

    double solution[1], impulses[12], new_centres[6], maxima[2], gap[2];
    uint32_t rule_numbers[1], counts[2], verdict;
    double doubles[KAPITSA_WORK_DOUBLES(1, 2)];
    uint32_t more[KAPITSA_WORK_WORDS(1)];
    const size_t d = sizeof doubles / sizeof *doubles, w = sizeof more / sizeof *more;
    uint32_t refusal = kapitsa_solve_in(
        numbers, 27, words, 8, masses, 20, centres, 6, rules, 6, tolerances, 2, 1, 2, 100, KAPITSA_DIAGONAL,
        0.0, solution, 1, impulses, 12, new_centres, 6, rule_numbers, 1, counts, maxima, doubles, d, more, w);
    if (refusal == 0)
        refusal = kapitsa_check_in(numbers, 27, words, 8, masses, 20, centres, 6, rules, 6, tolerances, 2, 1, 2,
                                   solution, 1, rule_numbers, 1, &verdict, gap, doubles, d);
    if (refusal != 0)
        return fprintf(stderr, "%s %s\n", kapitsa_refusal_text(refusal), kapitsa_refusal_advice(refusal)), 1;
    printf("%s, gap at most %g m\n", verdict == KAPITSA_CLOSED ? "closed" : "open", gap[0]);
    return verdict != KAPITSA_CLOSED;
}
