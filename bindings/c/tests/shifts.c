/* Shifts of mode 1, and 25 of every mode. */
#include "tests.h"

/* True where the solve is refused by 25, in any mode of the processor, and has written nothing. */
static int refused_shift(const struct job *job, uint32_t mode)
{
    const size_t d = kapitsa_solve_doubles(job->rows, job->bodies, mode);
    const size_t w = kapitsa_solve_words(job->rows, job->bodies, mode);
    for (size_t i = 0; i < CONTROLS; i++) {
        const struct solved found = solve(job, mode, controls[i].word, exactly);
        if (found.refusal != KAPITSA_REFUSED_SHIFT || !work_clear(d, w)
            || !nothing_written(job, &found))
            return 0;
    }
    return 1;
}

void shifts(void)
{
    static const uint64_t odd[] = {0x3ff0000000000001u /* above 1 */, 0x4000000000000000u,
                                   MINUS | SMALLEST, MINUS | 0x3ff0000000000000u, INFINITE,
                                   MINUS | INFINITE, 0x7ff8000000000000u, 0x7ff0000000000001u};
    static const uint64_t sound[] = {0, MINUS, SMALLEST, 0x3fe0000000000000u,
                                     0x3ff0000000000000u /* 1 */};
    const struct job plain = worn(0.0), minus = worn(from_bits(MINUS)), little = worn(SMALL_SHIFT);
    struct solved found = solve(&plain, KAPITSA_INCOMPLETE_CHOLESKY, KAPITSA_CONTROL, exactly);
    expect(found.refusal == KAPITSA_REFUSED_PIVOT, "13 for near-equal rows", "shift 0");
    found = solve(&minus, KAPITSA_INCOMPLETE_CHOLESKY, KAPITSA_CONTROL, exactly);
    expect(found.refusal == KAPITSA_REFUSED_PIVOT, "13 for near-equal rows", "shift -0");
    found = solve(&little, KAPITSA_INCOMPLETE_CHOLESKY, KAPITSA_CONTROL, exactly);
    expect(found.refusal == 0 && found.counts[1] == 1, "near-equal rows", "shift 2^-20");
    expect(says(check(&little, found.solution, KAPITSA_CONTROL, exactly), KAPITSA_CLOSED),
           "near-equal rows are closed", "shift 2^-20");
    alike("near-equal rows, shift 2^-20", &little, KAPITSA_INCOMPLETE_CHOLESKY);
    for (uint32_t mode = 0; mode < 3; mode++) {
        struct job rows = chain();
        const struct solved wanted = solve(&rows, mode, KAPITSA_CONTROL, exactly);
        for (size_t i = 0; i < sizeof sound / sizeof sound[0]; i++) {
            rows.shift = from_bits(sound[i]);
            found = solve(&rows, mode, KAPITSA_CONTROL, exactly);
            expect(found.refusal == 0
                   && (mode == KAPITSA_INCOMPLETE_CHOLESKY && i > 2
                       ? memcmp(&found, &wanted, sizeof found) != 0
                       : memcmp(&found, &wanted, sizeof found) == 0),
                   "the bits of shift 0 but in mode 1", "a sound shift");
        }
        for (size_t i = 0; i < sizeof odd / sizeof odd[0]; i++) {
            rows.shift = from_bits(odd[i]);
            expect(refused_shift(&rows, mode), "25 in every mode", "an odd shift");
        }
        rows.words[7] = 1; /* spare: 4 */
        expect(refused_shift(&rows, mode), "25 before 4", "an odd shift");
        const struct lent short_of_one = {-1, 0};
        expect(solve(&rows, mode, KAPITSA_CONTROL, short_of_one).refusal == KAPITSA_REFUSED_LENGTH,
               "3 before 25", "an odd shift");
        rows.rows = rows.bodies = 0;
        expect(refused_shift(&rows, mode), "25 without rows", "an odd shift");
    }
}
