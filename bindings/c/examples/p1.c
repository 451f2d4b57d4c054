/* Document 01's P1: two bodies, one row; solved, then checked, and where each body ends up.
   cc p1.c $(pkg-config --cflags --libs kapitsa) */
#include "kapitsa.h"
#include <math.h>
#include <stdio.h>
#include <stdlib.h>

int main(void)
{
    double numbers[27] = {0}, masses[20] = {0}, solution[1] = {0}, impulses[12] = {0};
    const double centres[6] = {1.0, 0.5, 0.0, 2.0, 0.5, 0.0}; /* three numbers a body */
    double new_centres[6];
    uint32_t words[8] = {0, 0, 0, 1, 0, 1, 0, 0}, rule_numbers[1], counts[2], verdict;
    const uint32_t rule_words[] = KAPITSA_TWO_RULES;
    const double rule_tolerances[] = {0.001, 0.001};
    double maxima[2], gap[2];
    numbers[0] = 1.0;        /* linear_a */
    numbers[9] = -1.0;       /* linear_b */
    numbers[15] = -0.25;     /* error */
    numbers[20] = -INFINITY; /* min_multiplier */
    numbers[21] = INFINITY;  /* max_multiplier */
    masses[0] = masses[10] = 0.5;

    /* Work memory for the call that needs more; the check takes no words. */
    size_t doubles_len = kapitsa_solve_doubles(1, 2, KAPITSA_DIAGONAL);
    const size_t words_len = kapitsa_solve_words(1, 2, KAPITSA_DIAGONAL);
    if (doubles_len < kapitsa_check_doubles(1, 2))
        doubles_len = kapitsa_check_doubles(1, 2);
    double *work_doubles = (double *)calloc(doubles_len, sizeof(double));
    uint32_t *work_words = (uint32_t *)calloc(words_len, sizeof(uint32_t));
    if (!work_doubles || !work_words)
        return 1;

    uint32_t refusal = kapitsa_solve_in(
        numbers, 27, words, 8, masses, 20, centres, 6, rule_words, 6, rule_tolerances, 2, 1, 2, 4,
        KAPITSA_DIAGONAL, 0.0, solution, 1, impulses, 12, new_centres, 6, rule_numbers, 1, counts,
        maxima, work_doubles, doubles_len, work_words, words_len);
    if (refusal == 0)
        refusal = kapitsa_check_in(
            numbers, 27, words, 8, masses, 20, centres, 6, rule_words, 6, rule_tolerances, 2, 1, 2,
            solution, 1, rule_numbers, 1, &verdict, gap, work_doubles, doubles_len);
    free(work_doubles);
    free(work_words);
    if (refusal != 0) {
        printf("refused by %u: %s\n", (unsigned)refusal, kapitsa_refusal_text(refusal));
        return 1;
    }
    printf("count %u, flag %u\n", (unsigned)counts[0], (unsigned)counts[1]);
    printf("multiplier %g, %s\n", numbers[24], verdict == KAPITSA_CLOSED ? "closed" : "open");
    printf("gap at most %g, %g\n", gap[0], gap[1]);
    for (int j = 0; j < 2; j++) {
        const double *from = centres + 3 * j, *to = new_centres + 3 * j;
        printf("body %d from %g %g %g to %g %g %g\n", j, from[0], from[1], from[2], to[0], to[1],
               to[2]);
    }
    return !(counts[0] == 1 && counts[1] == 1 && verdict == KAPITSA_CLOSED && rule_numbers[0] == 0
             && 0.0 < gap[0] && gap[0] <= 0.001 && gap[1] == 0.0
             && new_centres[0] == 1.125 && new_centres[3] == 1.875 && new_centres[1] == 0.5);
}
