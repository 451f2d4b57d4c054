/* A worn frame: nine parts in a chain, the first fixed, each joint scanned from both sides, so that
   its two rows say almost the same. Mode 1 turns it back by 13; a small shift lets it pass, and the
   closing check, which knows no shift, says of each result whether the joints are closed.
   cc worn_frame.c $(pkg-config --cflags --libs kapitsa) */
#include "kapitsa.h"
#include <math.h>
#include <stdio.h>
#include <string.h>

enum { JOINTS = 8, ROWS = 2 * JOINTS, BODIES = JOINTS + 1, LIMIT = 100 };

static const uint32_t RULES[] = KAPITSA_TWO_RULES;
static const double TOLERANCES[] = {1e-9, 1e-9}; /* a nanometre */

struct frame {
    double numbers[27 * ROWS], masses[10 * BODIES], centres[3 * BODIES];
    uint32_t words[8 * ROWS];
};

static void make(struct frame *frame)
{
    static const double gaps[JOINTS] = {3e-4, -2e-4, 5e-4, 1e-4, -4e-4, 2.5e-4, -1e-4, 3.5e-4};
    memset(frame, 0, sizeof *frame);
    for (uint32_t i = 0; i < ROWS; i++) {
        double *row = frame->numbers + 27 * i, aside = i % 2 ? 1.0 / 268435456.0 : 0.0; /* 2^-28 */
        const uint32_t joint = i / 2, words[8] = {0, 0, joint, joint + 1, 0, 1, joint, 0};
        memcpy(frame->words + 8 * i, words, sizeof words);
        row[0] = 1.0; /* linear_a */
        row[1] = aside;
        row[9] = -1.0; /* linear_b */
        row[10] = -aside;
        row[15] = gaps[joint];
        row[20] = -INFINITY;
        row[21] = INFINITY;
    }
    for (uint32_t j = 1; j < BODIES; j++) /* body 0 keeps inverse mass 0 */
        frame->masses[10 * j] = 0.5 + 0.25 * ((j - 1) % 3);
    for (uint32_t j = 0; j < BODIES; j++) /* a part every ten centimetres */
        frame->centres[3 * j] = 0.1 * j;
}

/* Solves the frame and checks what comes out; true where all is as it should be. */
static int try_it(uint32_t mode, double shift, uint32_t refused, uint32_t steps)
{
    enum { D = KAPITSA_WORK_DOUBLES(ROWS, BODIES), W = KAPITSA_WORK_WORDS(ROWS) };
    static double work_doubles[D];
    static uint32_t work_words[W];
    struct frame frame;
    double solution[ROWS], impulses[6 * BODIES], new_centres[3 * BODIES], maxima[2], gap[2];
    uint32_t rule_numbers[ROWS], counts[2], verdict;
    make(&frame);
    printf("mode %u, shift %g: ", (unsigned)mode, shift);
    uint32_t refusal = kapitsa_solve_in(
        frame.numbers, 27 * ROWS, frame.words, 8 * ROWS, frame.masses, 10 * BODIES, frame.centres,
        3 * BODIES, RULES, 6, TOLERANCES, 2, ROWS, BODIES, LIMIT, mode, shift, solution, ROWS,
        impulses, 6 * BODIES, new_centres, 3 * BODIES, rule_numbers, ROWS, counts, maxima,
        work_doubles, D, work_words, W);
    if (refusal == 0)
        refusal = kapitsa_check_in(
            frame.numbers, 27 * ROWS, frame.words, 8 * ROWS, frame.masses, 10 * BODIES,
            frame.centres, 3 * BODIES, RULES, 6, TOLERANCES, 2, ROWS, BODIES, solution, ROWS,
            rule_numbers, ROWS, &verdict, gap, work_doubles, D);
    if (refusal != 0) {
        printf("refused by %u\n", (unsigned)refusal);
        return refusal == refused;
    }
    printf("count %u, flag %u, %s, gap at most %g\n", (unsigned)counts[0], (unsigned)counts[1],
           verdict == KAPITSA_CLOSED ? "closed" : "open", gap[0]);
    return refused == 0 && counts[0] == steps && counts[1] == 1 && verdict == KAPITSA_CLOSED;
}

int main(void)
{
    int good = try_it(KAPITSA_DIAGONAL, 0.0, 0, 8);
    good &= try_it(KAPITSA_INCOMPLETE_CHOLESKY, 0.0, KAPITSA_REFUSED_PIVOT, 0);
    good &= try_it(KAPITSA_INCOMPLETE_CHOLESKY, 1.0 / 1048576.0, 0, 2); /* 2^-20 */
    good &= try_it(KAPITSA_INCOMPLETE_CHOLESKY, 1.5, KAPITSA_REFUSED_SHIFT, 0);
    return !good;
}
