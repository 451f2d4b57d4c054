/* Floating-point modes, in which all must be alike, and refusals, which write nothing. */
#include "tests.h"

const struct control controls[CONTROLS] = {
    {"to nearest", KAPITSA_CONTROL},
    {"down", KAPITSA_CONTROL | DOWN},
    {"up", KAPITSA_CONTROL | UP},
    {"to zero", KAPITSA_CONTROL | TO_ZERO},
    {"FTZ and DAZ", KAPITSA_CONTROL | FTZ_AND_DAZ},
    {"FTZ and DAZ, down", KAPITSA_CONTROL | FTZ_AND_DAZ | DOWN},
    {"all flags raised", KAPITSA_CONTROL | FLAGS},
    {"no exception masked", 0},
};

/* A solve and the check of its solution: the same bits in every mode, which is left as it was. */
void alike(const char *name, const struct job *job, uint32_t mode)
{
    const struct solved wanted = solve(job, mode, KAPITSA_CONTROL, exactly);
    const double *list = wanted.refusal ? no_multipliers : wanted.solution;
    const struct checked verdict = check(job, list, KAPITSA_CONTROL, exactly);
    for (size_t i = 0; i < CONTROLS; i++) {
        struct solved solved = solve(job, mode, controls[i].word, exactly);
        struct checked checked = check(job, list, controls[i].word, exactly);
        expect(solved.control == controls[i].word && checked.control == controls[i].word,
               "the mode is left as it was", controls[i].name);
        solved.control = wanted.control;
        checked.control = verdict.control;
        expect(!memcmp(&solved, &wanted, sizeof solved), name, controls[i].name);
        expect(!memcmp(&checked, &verdict, sizeof checked), name, controls[i].name);
    }
}

/* True where nothing that a solve is lent to write into has been written. */
int nothing_written(const struct job *job, const struct solved *found)
{
    return !memcmp(found->numbers, job->numbers, sizeof found->numbers) && KEPT(found->solution)
        && KEPT(found->impulses) && KEPT(found->new_centres) && KEPT(found->rule_numbers)
        && KEPT(found->maxima) && KEPT(found->counts);
}

/* The solve, in this mode, is refused by this number, and nothing is written. */
void solve_refused_by(uint32_t refusal, const char *what, const struct job *job,
                      uint32_t mode)
{
    const size_t clears = refusal != KAPITSA_REFUSED_LENGTH;
    const size_t d = clears * kapitsa_solve_doubles(job->rows, job->bodies, mode);
    const size_t w = clears * kapitsa_solve_words(job->rows, job->bodies, mode);
    for (size_t i = 0; i < CONTROLS; i++) {
        const struct solved found = solve(job, mode, controls[i].word, exactly);
        expect(found.refusal == refusal && nothing_written(job, &found) && work_clear(d, w), what,
               "solve");
    }
}

void check_refused_by(uint32_t refusal, const char *what, const struct job *job)
{
    const size_t clears = refusal != KAPITSA_REFUSED_LENGTH;
    const size_t d = clears * kapitsa_check_doubles(job->rows, job->bodies);
    for (size_t i = 0; i < CONTROLS; i++) {
        const struct checked found = check(job, no_multipliers, controls[i].word, exactly);
        expect(found.refusal == refusal && KEPT(found.verdict) && KEPT(found.gap)
               && KEPT(found.rule_numbers) && work_clear(d, 0), what, "check");
    }
}

/* Solve, in every mode, and check. */
void refused_by(uint32_t refusal, const char *what, const struct job *job)
{
    for (uint32_t mode = 0; mode < 3; mode++)
        solve_refused_by(refusal, what, job, mode);
    check_refused_by(refusal, what, job);
}
