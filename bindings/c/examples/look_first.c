/* Document 02, l: a curator looks at the impulses before the rows change. One proposal is dropped, which
   changes nothing, and another, from a tighter tolerance, is committed.
   cc look_first.c $(pkg-config --cflags --libs kapitsa) */
#include "kapitsa.h"
#include <math.h>
#include <stdio.h>

enum { ROWS = 2, BODIES = 3 };

/* Three links in a line, a pin between each two; they gape by 0.5 and 0.125. */
static double numbers[27 * ROWS], masses[10 * BODIES];
static const double centres[3 * BODIES] = {0.0, 0.0, 0.0, 1.0, 0.0, 0.0, 2.0, 0.0, 0.0};
static const uint32_t words[8 * ROWS] = {0, 0, 0, 1, 0, 1, 0, 0, 0, 0, 1, 2, 0, 1, 1, 0};

/* What a proposal stands in. */
static uint32_t proposal[KAPITSA_PROPOSAL_WORDS], rule_numbers[ROWS];
static double solution[ROWS], impulses[6 * BODIES], new_centres[3 * BODIES], started[ROWS], maxima[2];
static double work_doubles[KAPITSA_WORK_DOUBLES(ROWS, BODIES)];
static uint32_t work_words[KAPITSA_WORK_WORDS(ROWS)];

static uint32_t propose(double tolerance, uint32_t limit)
{
    const uint32_t rule_words[] = KAPITSA_TWO_RULES;
    const double rule_tolerances[] = {tolerance, tolerance};
    return kapitsa_propose_in(
        numbers, 27 * ROWS, words, 8 * ROWS, masses, 10 * BODIES, centres, 3 * BODIES, rule_words, 6,
        rule_tolerances, 2, ROWS, BODIES, limit, KAPITSA_DIAGONAL, 0.0, solution, ROWS, impulses,
        6 * BODIES, new_centres, 3 * BODIES, rule_numbers, ROWS, proposal, started, ROWS, maxima,
        work_doubles, KAPITSA_WORK_DOUBLES(ROWS, BODIES), work_words, KAPITSA_WORK_WORDS(ROWS));
}

static uint32_t commit(void)
{
    return kapitsa_commit_in(numbers, 27 * ROWS, ROWS, proposal, solution, ROWS, started, ROWS);
}

static void look(const char *which)
{
    printf("%s: count %u, flag %u, largest residual %g\n", which,
           (unsigned)proposal[KAPITSA_PROPOSAL_COUNT], (unsigned)proposal[KAPITSA_PROPOSAL_FLAG],
           maxima[0]);
    for (int j = 0; j < BODIES; j++)
        printf("  link %d: impulse %g, from %g to %g\n", j, impulses[6 * j], centres[3 * j],
               new_centres[3 * j]);
}

int main(void)
{
    for (int i = 0; i < ROWS; i++) {
        double *row = numbers + 27 * i;
        row[0] = 1.0;                /* linear_a */
        row[9] = -1.0;               /* linear_b */
        row[15] = i ? -0.125 : -0.5; /* error */
        row[20] = -INFINITY;         /* min_multiplier */
        row[21] = INFINITY;          /* max_multiplier */
    }
    for (int j = 0; j < BODIES; j++)
        masses[10 * j] = 1.0;

    uint32_t refusal = propose(0.25, 1);
    if (refusal != 0)
        return 1;
    look("dropped");
    printf("multipliers %g, %g\n", numbers[24], numbers[27 + 24]);

    refusal = propose(1e-9, 8);
    if (refusal != 0)
        return 1;
    look("committed");
    refusal = commit();
    printf("multipliers %g, %g\n", numbers[24], numbers[27 + 24]);
    const uint32_t again = commit();
    printf("once more: refused by %u\n", (unsigned)again);
    return !(refusal == 0 && again == KAPITSA_REFUSED_COMMITTED && numbers[24] == solution[0]
             && proposal[KAPITSA_PROPOSAL_MARK] == 1);
}
