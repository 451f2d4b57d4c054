/* Three clocks on one frame: a scan of a bench, solved by groups in mode 1. The frame stands, so that
   it joins nothing, and each clock is a group of its own. The second clock's first pin was scanned
   twice: as one table the bench is refused for it by 13; by groups that clock alone is, and the other
   two come out closed.
   cc bench.c $(pkg-config --cflags --libs kapitsa) */
#include "kapitsa.h"
#include <math.h>
#include <stdio.h>
#include <string.h>

enum { CLOCKS = 3, PINS = 3, AXES = 2, CLOCK_ROWS = PINS * AXES };
enum { ROWS = CLOCKS * CLOCK_ROWS, BODIES = 1 + CLOCKS * PINS, LIMIT = 100 };
enum { MODE = KAPITSA_INCOMPLETE_CHOLESKY, TWICE = 1 };

static const uint32_t RULES[] = KAPITSA_TWO_RULES;
static const double TOLERANCES[] = {1e-9, 1e-9}; /* a nanometre */

struct bench {
    double numbers[27 * ROWS], masses[10 * BODIES], centres[3 * BODIES];
    uint32_t words[8 * ROWS];
};

/* Each wheel's pin hangs on the wheel before it, the first on the frame, body 0. In the clock that was
   scanned TWICE the third pin is the first once more, and the third wheel is in no row. */
static void make(struct bench *bench)
{
    static const double gaps[CLOCK_ROWS] = {3e-4, -2e-4, 5e-4, 1e-4, -4e-4, 2.5e-4};
    memset(bench, 0, sizeof *bench);
    for (uint32_t i = 0; i < ROWS; i++) {
        double *row = bench->numbers + 27 * i;
        const uint32_t clock = i / CLOCK_ROWS, place = i % CLOCK_ROWS, pin = place / AXES;
        const uint32_t hangs = clock == TWICE && pin == 2 ? 0 : pin, wheel = PINS * clock + hangs;
        const uint32_t words[8] = {0, 0, hangs ? wheel : 0, wheel + 1, 0, 1, i / AXES, 0};
        memcpy(bench->words + 8 * i, words, sizeof words);
        row[i % AXES] = 1.0;      /* linear_a */
        row[9 + i % AXES] = -1.0; /* linear_b */
        row[15] = gaps[place] * (1 + clock);
        row[20] = -INFINITY;
        row[21] = INFINITY;
    }
    for (uint32_t j = 1; j < BODIES; j++) { /* the frame keeps ten zeros */
        bench->masses[10 * j] = 4.0;
        bench->centres[3 * j] = 0.1 * ((j - 1) % PINS);
        bench->centres[3 * j + 1] = 0.3 * ((j - 1) / PINS);
    }
}

/* What is lent to either solve beside the work memory. */
struct answer {
    double solution[ROWS], impulses[6 * BODIES], new_centres[3 * BODIES], maxima[2 * ROWS];
    uint32_t rule_numbers[ROWS], groups[ROWS], answers[KAPITSA_GROUP_WORDS * ROWS], count;
};

enum { D = KAPITSA_WORK_DOUBLES(ROWS, BODIES), W = KAPITSA_WORK_WORDS(ROWS) };
static double work_doubles[D];
static uint32_t work_words[W];

/* The whole bench as one table. */
static uint32_t as_one_table(struct bench bench, struct answer *to)
{
    return kapitsa_solve_in(
        bench.numbers, 27 * ROWS, bench.words, 8 * ROWS, bench.masses, 10 * BODIES, bench.centres,
        3 * BODIES, RULES, 6, TOLERANCES, 2, ROWS, BODIES, LIMIT, MODE, 0.0, to->solution, ROWS,
        to->impulses, 6 * BODIES, to->new_centres, 3 * BODIES, to->rule_numbers, ROWS,
        to->answers + KAPITSA_GROUP_COUNT, to->maxima, work_doubles, D, work_words, W);
}

/* Whether the rows of one clock, which stand one behind the other, are closed. */
static uint32_t verdict_of(const struct bench *bench, uint32_t first, struct answer *to, double gap[2])
{
    uint32_t verdict = KAPITSA_OPEN, n = CLOCK_ROWS;
    if (kapitsa_check_in(
            bench->numbers + 27 * first, 27 * n, bench->words + 8 * first, 8 * n, bench->masses,
            10 * BODIES, bench->centres, 3 * BODIES, RULES, 6, TOLERANCES, 2, n, BODIES,
            to->solution + first, n, to->rule_numbers + first, n, &verdict, gap,
            work_doubles, D) != 0)
        return KAPITSA_OPEN;
    return verdict;
}

/* A clock's own answer; true where it is as it should be. */
static int told(const struct bench *bench, const struct bench *before, uint32_t clock, struct answer *to)
{
    const uint32_t first = clock * CLOCK_ROWS, group = to->groups[first];
    const uint32_t *words = to->answers + KAPITSA_GROUP_WORDS * group;
    double gap[2];
    printf("clock %u, group %u: ", (unsigned)clock, (unsigned)group);
    if (words[KAPITSA_GROUP_REFUSAL] != 0) {
        int kept = !memcmp(bench->numbers + 27 * first, before->numbers + 27 * first,
                           27 * CLOCK_ROWS * sizeof(double));
        printf("refused by %u, %s\n", (unsigned)words[KAPITSA_GROUP_REFUSAL],
               kept ? "its rows as they were" : "written to");
        return kept && clock == TWICE && words[KAPITSA_GROUP_REFUSAL] == KAPITSA_REFUSED_PIVOT;
    }
    int closed = verdict_of(bench, first, to, gap) == KAPITSA_CLOSED;
    printf("count %u, flag %u, %s, gap at most %.2e\n", (unsigned)words[KAPITSA_GROUP_COUNT],
           (unsigned)words[KAPITSA_GROUP_FLAG], closed ? "closed" : "open", gap[0]);
    for (uint32_t j = 1 + PINS * clock; j < 1 + PINS * (clock + 1); j++)
        printf("  wheel %u moves by %.2e, %.2e\n", (unsigned)j,
               to->new_centres[3 * j] - bench->centres[3 * j],
               to->new_centres[3 * j + 1] - bench->centres[3 * j + 1]);
    return closed && clock != TWICE;
}

int main(void)
{
    static struct bench bench, before;
    static struct answer answer;
    make(&bench);
    before = bench;
    const uint32_t whole = as_one_table(bench, &answer);
    printf("as one table: refused by %u\n", (unsigned)whole);
    const uint32_t refusal = kapitsa_solve_groups_in(
        bench.numbers, 27 * ROWS, bench.words, 8 * ROWS, bench.masses, 10 * BODIES, bench.centres,
        3 * BODIES, RULES, 6, TOLERANCES, 2, ROWS, BODIES, LIMIT, MODE, 0.0, answer.solution, ROWS,
        answer.impulses, 6 * BODIES, answer.new_centres, 3 * BODIES, answer.rule_numbers, ROWS,
        answer.groups, ROWS, answer.answers, KAPITSA_GROUP_WORDS * ROWS, answer.maxima, 2 * ROWS,
        &answer.count);
    if (refusal != 0)
        return 1;
    printf("by groups: %u groups\n", (unsigned)answer.count);
    int good = whole == KAPITSA_REFUSED_PIVOT && answer.count == CLOCKS;
    for (uint32_t clock = 0; clock < CLOCKS; clock++)
        good &= told(&bench, &before, clock, &answer);
    return !good;
}
