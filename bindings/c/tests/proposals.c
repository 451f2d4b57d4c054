/* Propose, look, then commit: document 02, l. Of positions alone. */
#include "tests.h"

struct proposed {
    double solution[ROWS], impulses[6 * BODIES], new_centres[3 * BODIES + 1], maxima[2];
    double started[ROWS + 1];
    uint32_t words[KAPITSA_PROPOSAL_WORDS], rule_numbers[ROWS + 1], refusal, control;
};


/* A proposal in a floating-point mode, of which so much more is lent for what it started from. */
static struct proposed proposed(const struct job *job, uint32_t mode, unsigned control,
                                int more_started)
{
    const uint32_t n = job->rows, b = job->bodies;
    const struct lengths l = lengths_of(job);
    struct proposed to;
    memset(&to, PATTERN, sizeof to);
    fill_work();
    const unsigned before = _mm_getcsr();
    _mm_setcsr(control);
    to.refusal = kapitsa_propose_in(
        job->numbers, l.of[NUMBERS], job->words, l.of[WORDS], job->masses, l.of[MASSES],
        job->centres, l.of[CENTRES], job->rules.words, job->rules.words_len, job->rules.tolerances,
        job->rules.tolerances_len, n, b, job->limit, mode, job->shift, to.solution,
        l.of[SOLUTION], to.impulses, l.of[IMPULSES], to.new_centres, l.of[NEW_CENTRES],
        to.rule_numbers, l.rule_numbers, to.words, to.started, length(n, more_started), to.maxima,
        doubles, kapitsa_solve_doubles(n, b, mode), words, kapitsa_solve_words(n, b, mode));
    to.control = _mm_getcsr();
    _mm_setcsr(before);
    return to;
}

/* True where nothing that a proposal is lent to write into has been written. */
static int none_made(const struct proposed *to)
{
    return KEPT(to->solution) && KEPT(to->impulses) && KEPT(to->new_centres) && KEPT(to->maxima)
        && KEPT(to->started) && KEPT(to->words) && KEPT(to->rule_numbers);
}

/* A commit to so many rows. */
static uint32_t commit(struct proposed *from, double *numbers, uint32_t rows)
{
    const size_t n = from->words[KAPITSA_PROPOSAL_ROWS];
    return kapitsa_commit_in(numbers, 27 * (size_t)rows, rows, from->words, from->solution, n,
                             from->started, n);
}

/* A commit that is turned back by this number, and writes nothing. */
static void not_committed(uint32_t refusal, const char *what, struct proposed *from,
                          double *numbers, uint32_t rows)
{
    double kept[27 * ROWS];
    const struct proposed proposal = *from;
    memcpy(kept, numbers, sizeof kept);
    expect(commit(from, numbers, rows) == refusal, what, "commit");
    expect(!memcmp(kept, numbers, sizeof kept) && !memcmp(from, &proposal, sizeof proposal),
           "and nothing is written", what);
}

/* A proposal and its commit leave what the solve leaves, in every mode; a second commit is 29. */
static void as_the_solve(const char *name, const struct job *job, uint32_t mode)
{
    const size_t d = kapitsa_solve_doubles(job->rows, job->bodies, mode);
    const size_t w = kapitsa_solve_words(job->rows, job->bodies, mode);
    const struct solved wanted = solve(job, mode, KAPITSA_CONTROL, exactly);
    for (size_t i = 0; i < CONTROLS; i++) {
        struct proposed found = proposed(job, mode, controls[i].word, 0);
        double numbers[27 * ROWS];
        memcpy(numbers, job->numbers, sizeof numbers);
        expect(found.refusal == wanted.refusal && found.control == controls[i].word
               && work_clear(d, w), name, controls[i].name);
        if (found.refusal) {
            expect(none_made(&found), "a refused solve makes no proposal", name);
            continue;
        }
        expect(found.words[KAPITSA_PROPOSAL_ROWS] == job->rows
               && found.words[KAPITSA_PROPOSAL_FLAG] == wanted.counts[1]
               && found.words[KAPITSA_PROPOSAL_COUNT] == wanted.counts[0]
               && found.words[KAPITSA_PROPOSAL_MARK] == 0, "rows, flag, count, no mark", name);
        for (uint32_t j = 0; j < job->rows; j++)
            expect(bits_of(found.started[j]) == bits_of(job->numbers[27 * j + 24]), "started", name);
        const unsigned before = _mm_getcsr();
        _mm_setcsr(controls[i].word);
        const uint32_t refusal = commit(&found, numbers, job->rows);
        const unsigned after = _mm_getcsr();
        _mm_setcsr(before);
        expect(refusal == 0 && after == controls[i].word, "committed", controls[i].name);
        expect(!memcmp(numbers, wanted.numbers, sizeof numbers)
               && !memcmp(found.solution, wanted.solution, sizeof wanted.solution)
               && !memcmp(found.impulses, wanted.impulses, sizeof wanted.impulses)
               && !memcmp(found.new_centres, wanted.new_centres, sizeof wanted.new_centres)
               && !memcmp(found.rule_numbers, wanted.rule_numbers, sizeof wanted.rule_numbers)
               && !memcmp(found.maxima, wanted.maxima, sizeof wanted.maxima), "as the solve", name);
        expect(found.words[KAPITSA_PROPOSAL_MARK] == 1, "the mark", name);
        not_committed(KAPITSA_REFUSED_COMMITTED, "a second time", &found, numbers, job->rows);
        if (job->rows != 0)
            numbers[24] = 100.0;
        not_committed(KAPITSA_REFUSED_COMMITTED, "29 before 30", &found, numbers, job->rows);
    }
}

static void as_solves(void)
{
    struct job off = chain();
    off.words[5] = 0;
    struct job empty = chain();
    empty.rows = empty.bodies = 0;
    for (uint32_t mode = 0; mode < 3; mode++) {
        const struct job jobs[] = {p1(-0.25, 0.001), chain(), worn(0.0), worn(SMALL_SHIFT), off,
                                   p1(0.0, 0.001), empty};
        for (size_t i = 0; i < sizeof jobs / sizeof jobs[0]; i++)
            as_the_solve("a job", &jobs[i], mode);
    }
}

/* 30: a multiplier has other bits than the proposal started from, or there are more or fewer rows. */
static void moved_since(void)
{
    static const uint64_t others[] = {0, 1, MINUS | 1, INFINITE, INFINITE | 1, 0x7ff8000000000000u};
    struct job job = p1(0.0, 0.001); /* count 0 */
    job.numbers[24] = from_bits(MINUS);
    struct proposed found = proposed(&job, KAPITSA_DIAGONAL, KAPITSA_CONTROL, 0);
    for (size_t i = 0; i < sizeof others / sizeof others[0]; i++) {
        job.numbers[24] = from_bits(others[i]);
        not_committed(KAPITSA_REFUSED_MOVED, "not -0.0 any more", &found, job.numbers, 1);
    }
    job.numbers[24] = from_bits(MINUS);
    job.numbers[15] = job.numbers[25] = from_bits(INFINITE | 1); /* which a commit does not read */
    expect(commit(&found, job.numbers, 1) == 0 && bits_of(job.numbers[24]) == MINUS
           && found.words[KAPITSA_PROPOSAL_MARK] == 1, "count 0 keeps the bits of -0.0", "commit");

    job = chain();
    found = proposed(&job, KAPITSA_DIAGONAL, KAPITSA_CONTROL, 0);
    struct proposed other = found;
    not_committed(KAPITSA_REFUSED_MOVED, "a row less", &found, job.numbers, 2);
    not_committed(KAPITSA_REFUSED_MOVED, "a row more", &found, job.numbers, 4);
    job.numbers[27 * 2 + 24] = 0.125; /* the last row's */
    not_committed(KAPITSA_REFUSED_MOVED, "the last multiplier", &found, job.numbers, 3);
    job.numbers[27 * 2 + 24] = 0.0;
    expect(commit(&found, job.numbers, 3) == 0, "as it was again", "commit");
    not_committed(KAPITSA_REFUSED_COMMITTED, "29 with a row less", &found, job.numbers, 2);
    not_committed(KAPITSA_REFUSED_MOVED, "another from the same start", &other, job.numbers, 3);
}

/* The raw functions, in mode 0, with a proposal of so many words and maxima of so many doubles. */
static uint32_t raw_propose(const struct job *job, struct proposed *to, size_t proposal_len,
                            size_t maxima_len)
{
    double jacobians[12 * ROWS], tolerances[ROWS], diagonal[ROWS], residual[ROWS], pending[ROWS];
    double direction[ROWS], product[ROWS], body_impulses[6 * BODIES];
    uint32_t links[2 * ROWS];
    const uint32_t n = job->rows, b = job->bodies;
    const unsigned before = _mm_getcsr();
    _mm_setcsr(KAPITSA_CONTROL);
    const uint32_t refusal = kapitsa_propose_position(
        job->numbers, 27 * n, job->words, 8 * n, job->masses, 10 * b, job->centres, 3 * b,
        job->rules.words, job->rules.words_len, job->rules.tolerances,
        job->rules.tolerances_len, n, b, LIMIT, KAPITSA_DIAGONAL, 0.0, to->solution, n,
        to->impulses, 6 * b, to->new_centres, 3 * b, to->rule_numbers, n, to->words, proposal_len,
        to->started, n, to->maxima, maxima_len,
        jacobians, 12 * n, links, 2 * n, tolerances, n, diagonal, n, residual, n, pending, n,
        direction, n, product, n, body_impulses, 6 * b, NULL, 0, NULL, 0, NULL, 0);
    _mm_setcsr(before);
    return refusal;
}

/* A raw commit of so many numbers, rows, words and doubles. */
static uint32_t raw_commit(struct proposed *from, double *numbers, const size_t lengths[5])
{
    const unsigned before = _mm_getcsr();
    _mm_setcsr(KAPITSA_CONTROL);
    const uint32_t refusal = kapitsa_commit_proposal(
        numbers, lengths[0], (uint32_t)lengths[1], from->words, lengths[2], from->solution,
        lengths[3], from->started, lengths[4]);
    _mm_setcsr(before);
    return refusal;
}

static void lengths_of_proposals(void)
{
    static const int others[] = {-1, 1, NONE};
    struct job job = chain();
    const size_t d = kapitsa_solve_doubles(3, 3, KAPITSA_DIAGONAL);
    for (size_t i = 0; i < sizeof others / sizeof others[0]; i++) {
        const struct proposed found = proposed(&job, KAPITSA_DIAGONAL, KAPITSA_CONTROL, others[i]);
        expect(found.refusal == KAPITSA_REFUSED_LENGTH && none_made(&found)
               && all(PATTERN, doubles, d * sizeof doubles[0]), "started", "propose");
    }
    struct proposed to;
    memset(&to, PATTERN, sizeof to);
    expect(raw_propose(&job, &to, 3, 2) == KAPITSA_REFUSED_LENGTH && none_made(&to)
           && raw_propose(&job, &to, 5, 2) == KAPITSA_REFUSED_LENGTH && none_made(&to)
           && raw_propose(&job, &to, 4, 1) == KAPITSA_REFUSED_LENGTH && none_made(&to)
           && raw_propose(&job, &to, 4, 3) == KAPITSA_REFUSED_LENGTH && none_made(&to),
           "words and maxima", "propose");
    expect(raw_propose(&job, &to, 4, 2) == 0 && to.words[KAPITSA_PROPOSAL_ROWS] == 3, "raw",
           "propose");

    /* numbers, rows, words, solution, started: 3 before 29, and nothing written. */
    static const size_t tried[][5] = {
        {80, 3, 4, 3, 3}, {82, 3, 4, 3, 3}, {81, 2, 4, 3, 3}, {81, 4, 4, 3, 3}, {81, 513, 4, 3, 3},
        {81, 3, 3, 3, 3}, {81, 3, 5, 3, 3}, {81, 3, 0, 3, 3}, {81, 3, 4, 2, 3}, {81, 3, 4, 4, 3},
        {81, 3, 4, 3, 2}, {81, 3, 4, 3, 4}, {54, 2, 4, 2, 2}, {0, 0, 4, 0, 0},
    };
    for (uint32_t mark = 0; mark < 2; mark++) {
        to.words[KAPITSA_PROPOSAL_MARK] = mark;
        const struct proposed kept = to;
        for (size_t i = 0; i < sizeof tried / sizeof tried[0]; i++)
            expect(raw_commit(&to, job.numbers, tried[i]) == KAPITSA_REFUSED_LENGTH, "a length",
                   "commit");
        const struct job same = chain();
        expect(!memcmp(&to, &kept, sizeof to)
               && !memcmp(job.numbers, same.numbers, sizeof same.numbers), "3 writes nothing",
               "commit");
    }
    static const size_t fitting[5] = {81, 3, 4, 3, 3};
    to.words[KAPITSA_PROPOSAL_MARK] = 0;
    expect(raw_commit(&to, job.numbers, fitting) == 0, "raw", "commit");
    uint32_t none[KAPITSA_PROPOSAL_WORDS] = {0, 1, 0, 0};
    expect(kapitsa_commit_proposal(NULL, 0, 0, none, 4, NULL, 0, NULL, 0) == 0 && none[3] == 1,
           "no rows", "commit");
}

void proposals(void)
{
    as_solves();
    moved_since();
    lengths_of_proposals();
}
