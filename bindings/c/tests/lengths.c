/* Lengths of slices and of work memory, empty jobs, the limits and beyond. */
#include "tests.h"

/* Each slice by itself too short by one, or too long: 3 by all calls that take it. */
static void lengths_of_slices(void)
{
    static const char *const names[] = {"numbers", "words", "masses", "centres", "residuals",
                                        "solution", "impulses", "new centres"};
    const struct job fitting = two_of_the_chain();
    for (uint32_t mode = 0; mode < 3; mode++)
        expect(solve(&fitting, mode, KAPITSA_CONTROL, exactly).refusal == 0, "two rows", "solve");
    for (int slice = 0; slice < MARGIN_ROWS; slice++)
        for (int more = -1; more < 2; more += 2) {
            struct job job = fitting;
            if (speeds ? slice == CENTRES || slice == NEW_CENTRES : slice == RESIDUALS)
                continue;
            job.more[slice] = more;
            for (uint32_t mode = 0; mode < 3; mode++)
                solve_refused_by(KAPITSA_REFUSED_LENGTH, names[slice], &job, mode);
            if (slice != IMPULSES && slice != NEW_CENTRES)
                check_refused_by(KAPITSA_REFUSED_LENGTH, names[slice], &job);
        }
}

static void sizes(void)
{
    static const struct {
        uint32_t rows, bodies, mode;
        size_t doubles, words;
    } solves[] = {
        {1, 2, 0, 30, 2}, {1, 2, 1, 30, 5}, {1, 2, 2, 66, 3},
        {3, 3, 0, 72, 6}, {3, 3, 1, 75, 22}, {3, 3, 2, 180, 9},
        {181, 1, 1, 19554, 49595}, {182, 1, 1, 19666, 49881},
        {512, 256, 0, 10752, 1024}, {512, 256, 1, 27136, 51201}, {512, 256, 2, 29184, 1536},
        {0, 0, 0, 0, 0}, {0, 0, 1, 0, 1}, {0, 0, 2, 0, 0}, {0, 5, 1, 30, 1},
        {513, 2, 0, 0, 0}, {513, 2, 1, 0, 0}, {1, 257, 1, 0, 0}, {1, 2, 3, 0, 0},
        {UINT32_MAX, 2, 1, 0, 0}, {1, UINT32_MAX, 2, 0, 0}, {1, 2, UINT32_MAX, 0, 0},
    };
    static const struct {
        uint32_t rows, bodies;
        size_t doubles;
    } checks[] = {
        {1, 2, 26}, {3, 3, 42}, {512, 256, 4096}, {0, 0, 0}, {0, 5, 60}, {5, 0, 10},
        {513, 2, 0}, {1, 257, 0}, {UINT32_MAX, 2, 0}, {1, UINT32_MAX, 0},
    };
    for (size_t i = 0; i < sizeof solves / sizeof solves[0]; i++) {
        const uint32_t n = solves[i].rows, b = solves[i].bodies, mode = solves[i].mode;
        expect(kapitsa_solve_doubles(n, b, mode) == solves[i].doubles
               && kapitsa_solve_words(n, b, mode) == solves[i].words, "room", "solve");
    }
    for (size_t i = 0; i < sizeof checks / sizeof checks[0]; i++) {
        const uint32_t n = checks[i].rows, b = checks[i].bodies;
        expect(kapitsa_check_doubles(n, b) == checks[i].doubles, "room", "check");
    }
}

/* The constants for arrays are enough for every call in every mode, and no more than the limits need. */
static void sizes_of_arrays(void)
{
    static const uint32_t bodies[] = {0, 1, 2, KAPITSA_MAX_BODIES};
    for (uint32_t n = 0; n <= KAPITSA_MAX_ROWS; n++)
        for (size_t k = 0; k < 4; k++) {
            const uint32_t b = bodies[k];
            size_t most_doubles = kapitsa_check_doubles(n, b), most_words = 0;
            for (uint32_t mode = 0; mode < 3; mode++) {
                const size_t d = kapitsa_solve_doubles(n, b, mode);
                const size_t w = kapitsa_solve_words(n, b, mode);
                most_doubles = d > most_doubles ? d : most_doubles;
                most_words = w > most_words ? w : most_words;
            }
            expect(KAPITSA_WORK_DOUBLES(n, b) >= most_doubles
                   && KAPITSA_WORK_DOUBLES(n, b) <= most_doubles + 6 * b
                   && KAPITSA_WORK_WORDS(n) == most_words, "room for every call", "arrays");
        }
}

/* Long enough is accepted. Too short is refused by 3, and nothing at all is written. */
static void work_memory(void)
{
    static const struct lent enough[] = {{0, 0}, {7, 0}, {0, 7}, {7, 7}};
    static const struct lent too_short[] = {{-1, 0}, {0, -1}, {-1, 7}, {7, -1},
                                            {NONE, 7}, {7, NONE}, {NONE, NONE}};
    const struct job rows = chain();
    const struct solved solved = solve(&rows, 0, KAPITSA_CONTROL, exactly);
    for (size_t i = 0; i < sizeof enough / sizeof enough[0]; i++) {
        for (uint32_t mode = 0; mode < 3; mode++)
            expect(solve(&rows, mode, KAPITSA_CONTROL, enough[i]).refusal == 0
                   && work_clear(kapitsa_solve_doubles(3, 3, mode),
                                 kapitsa_solve_words(3, 3, mode)), "long enough", "solve");
        expect(says(check(&rows, solved.solution, KAPITSA_CONTROL, enough[i]), KAPITSA_CLOSED)
               && work_clear(42, 0), "long enough", "check");
    }
    for (size_t i = 0; i < sizeof too_short / sizeof too_short[0]; i++) {
        for (uint32_t mode = 0; mode < 3; mode++) {
            const struct solved found = solve(&rows, mode, KAPITSA_CONTROL, too_short[i]);
            expect(found.refusal == KAPITSA_REFUSED_LENGTH && work_clear(0, 0)
                   && nothing_written(&rows, &found), "too short", "solve");
        }
        if (too_short[i].more_doubles >= 0)
            continue;
        const struct checked found = check(&rows, solved.solution, KAPITSA_CONTROL, too_short[i]);
        expect(found.refusal == KAPITSA_REFUSED_LENGTH && work_clear(0, 0) && KEPT(found.verdict)
               && KEPT(found.gap) && KEPT(found.rule_numbers), "too short", "check");
    }
}

/* Nothing but the answer and work memory is lent, no rule either. True where the answer is refusal, and
   is written exactly where that is 0: count 0, flag 1, maxima +0.0; closed, gap +0.0. */
static int solve_of_nothing(uint32_t rows, uint32_t bodies, uint32_t mode, double *work,
                            size_t work_len, uint32_t *more, size_t more_len, uint32_t refusal)
{
    uint32_t counts[2];
    double maxima[2];
    memset(counts, PATTERN, sizeof counts);
    memset(maxima, PATTERN, sizeof maxima);
    const uint32_t found = speeds
        ? kapitsa_solve_velocity_in(NULL, 0, NULL, 0, NULL, 0, NULL, 0, NULL, 0, NULL, 0, rows,
                                    bodies, 0, mode, 0.0, NULL, 0, NULL, 0, NULL, 0, counts,
                                    maxima, work, work_len, more, more_len)
        : kapitsa_solve_in(NULL, 0, NULL, 0, NULL, 0, NULL, 0, NULL, 0, NULL, 0, rows, bodies, 0,
                           mode, 0.0, NULL, 0, NULL, 0, NULL, 0, NULL, 0, counts, maxima, work,
                           work_len, more, more_len);
    return found == refusal
        && (found ? KEPT(counts) && KEPT(maxima)
                  : counts[0] == 0 && counts[1] == 1 && all(0, maxima, sizeof maxima));
}

static int check_of_nothing(uint32_t rows, uint32_t bodies, double *work, size_t work_len,
                            uint32_t refusal)
{
    uint32_t verdict = 9;
    double gap[2];
    memset(gap, PATTERN, sizeof gap);
    const uint32_t found = (speeds ? kapitsa_check_velocity_in : kapitsa_check_in)(
        NULL, 0, NULL, 0, NULL, 0, NULL, 0, NULL, 0, NULL, 0, rows, bodies, NULL, 0, NULL, 0,
        &verdict, gap, work, work_len);
    uint32_t listed_verdict = 9;
    double listed_gap[2];
    memset(listed_gap, PATTERN, sizeof listed_gap);
    const uint32_t listed = (speeds ? kapitsa_margins_velocity_in : kapitsa_margins_in)(
        NULL, 0, NULL, 0, NULL, 0, NULL, 0, NULL, 0, NULL, 0, rows, bodies, NULL, 0, NULL, 0,
        NULL, 0, NULL, 0, &listed_verdict, listed_gap, work, work_len);
    return found == refusal && verdict == (found ? 9 : KAPITSA_CLOSED)
        && (found ? KEPT(gap) : measures(gap, 0, 0))
        && listed == found && listed_verdict == verdict && !memcmp(listed_gap, gap, sizeof gap);
}

static void empty_jobs(void)
{
    uint32_t word = 9;
    expect(solve_of_nothing(0, 0, 0, NULL, 0, NULL, 0, 0), "nothing at all", "mode 0");
    expect(solve_of_nothing(0, 0, 2, NULL, 0, NULL, 0, 0), "nothing at all", "mode 2");
    expect(solve_of_nothing(0, 0, 1, NULL, 0, NULL, 0, 3), "nothing at all", "mode 1");
    expect(solve_of_nothing(0, 0, 1, NULL, 0, &word, 1, 0) && word == 0, "one word", "mode 1");
    expect(check_of_nothing(0, 0, NULL, 0, 0), "nothing at all", "check");
}

static void beyond_the_limits(void)
{
    static const uint32_t counts[][3] = {{513, 0, 0}, {0, 257, 0}, {0, 0, 3}, {UINT32_MAX, 0, 1},
                                         {0, UINT32_MAX, 2}, {0, 0, UINT32_MAX}, {513, 257, 3}};
    const size_t d = sizeof doubles / sizeof doubles[0], w = sizeof words / sizeof words[0];
    fill_work();
    for (size_t i = 0; i < sizeof counts / sizeof counts[0]; i++) {
        const uint32_t n = counts[i][0], b = counts[i][1], mode = counts[i][2];
        expect(solve_of_nothing(n, b, mode, NULL, 0, NULL, 0, KAPITSA_REFUSED_LENGTH)
               && solve_of_nothing(n, b, mode, doubles, d, words, w, KAPITSA_REFUSED_LENGTH)
               && work_clear(0, 0), "beyond the limits", "solve");
        if (n > KAPITSA_MAX_ROWS || b > KAPITSA_MAX_BODIES)
            expect(check_of_nothing(n, b, NULL, 0, KAPITSA_REFUSED_LENGTH)
                   && check_of_nothing(n, b, doubles, d, KAPITSA_REFUSED_LENGTH)
                   && work_clear(0, 0), "beyond the limits", "check");
    }
}

/* The list of 512 rows, each of which is there twice, and closed. */
static void list_at_the_limits(const double *numbers, const uint32_t *row_words,
                               const double *masses, const double *beside,
                               const struct rules *rules, const double *multipliers)
{
    enum { N = KAPITSA_MAX_ROWS, B = KAPITSA_MAX_BODIES };
    static uint32_t rule_numbers[N], margin_rows[N + 1];
    static double margins[N + 1];
    const size_t d = kapitsa_check_doubles(N, B);
    uint32_t verdict = 9;
    double gap[2];
    fill_work();
    memset(margin_rows, PATTERN, sizeof margin_rows);
    memset(margins, PATTERN, sizeof margins);
    const uint32_t refusal = (speeds ? kapitsa_margins_velocity_in : kapitsa_margins_in)(
        numbers, 27 * N, row_words, 8 * N, masses, 10 * B, beside, speeds ? N : 3 * B,
        rules->words, rules->words_len, rules->tolerances, rules->tolerances_len, N, B,
        multipliers, N, rule_numbers, N, margin_rows, N, margins, N, &verdict, gap, doubles, d);
    expect(refusal == 0 && verdict == KAPITSA_CLOSED && work_clear(d, 0)
           && in_order(row_words, N, margin_rows, margins, gap) && KEPT(margin_rows[N])
           && KEPT(margins[N]), "512 rows", "margins");
}

/* 512 rows on 256 bodies under 64 rules, each row twice, so that mode 1 finds a pivot of 0. */
static void at_the_limits(void)
{
    enum { N = KAPITSA_MAX_ROWS, B = KAPITSA_MAX_BODIES, R = KAPITSA_MAX_RULES };
    static double numbers[27 * N], masses[10 * B], solution[N], impulses[6 * B], maxima[2];
    static double centres[3 * B], new_places[3 * B], residuals[N];
    static uint32_t row_words[8 * N], rule_numbers[N], counts[2];
    struct rules rules = no_rules();
    memset(numbers, 0, sizeof numbers);
    for (uint32_t i = 0; i < N; i++) {
        set_row(numbers + 27 * i, row_words + 8 * i, i / 2, (i / 2 + 1) % B, i);
        row_words[8 * i] = i % 256; /* key */
    }
    for (uint32_t i = 0; i < R; i++)
        add_rule(&rules, KAPITSA_LINEAR, 4 * i, 4 * i + 3, 1e-9);
    for (uint32_t j = 0; j < B; j++)
        masses[10 * j] = 0.5;
    for (uint32_t k = 0; k < 3 * B; k++)
        centres[k] = 0.125 * k;
    set_error(numbers, residuals, 0.01);
    for (uint32_t mode = 0; mode < 3; mode++) {
        const size_t d = kapitsa_solve_doubles(N, B, mode), w = kapitsa_solve_words(N, B, mode);
        fill_work();
        for (uint32_t i = 0; i < N; i++)
            rule_numbers[i] = 999;
        uint32_t refusal;
        if (speeds)
            refusal = kapitsa_solve_velocity_in(
                numbers, 27 * N, row_words, 8 * N, masses, 10 * B, residuals, N, rules.words,
                3 * R, rules.tolerances, R, N, B, 1, mode, 0.0, solution, N, impulses, 6 * B,
                rule_numbers, N, counts, maxima, doubles, d, words, w);
        else
            refusal = kapitsa_solve_in(
                numbers, 27 * N, row_words, 8 * N, masses, 10 * B, centres, 3 * B, rules.words,
                3 * R, rules.tolerances, R, N, B, 1, mode, 0.0, solution, N, impulses, 6 * B,
                new_places, 3 * B, rule_numbers, N, counts, maxima, doubles, d, words, w);
        expect(refusal == (mode == 1 ? KAPITSA_REFUSED_PIVOT : KAPITSA_ACCEPTED)
               && work_clear(d, w), "512 rows", "solve");
        for (uint32_t i = 0; i < N; i++)
            expect(rule_numbers[i] == (mode == 1 ? 999 : i % 256 / 4),
                   "the rule of each of 512 rows", "solve");
        for (uint32_t k = 0; k < 3 * B && mode != 1 && !speeds; k++)
            expect((bits_of(new_places[k]) == bits_of(centres[k]))
                       == (bits_of(impulses[6 * (k / 3) + k % 3]) == 0),
                   "which of 256 bodies move", "solve");
    }
    const size_t d = kapitsa_check_doubles(N, B);
    uint32_t verdict = 9;
    double gap[2];
    fill_work();
    memset(rule_numbers, PATTERN, sizeof rule_numbers);
    const uint32_t refusal = (speeds ? kapitsa_check_velocity_in : kapitsa_check_in)(
        numbers, 27 * N, row_words, 8 * N, masses, 10 * B, speeds ? residuals : centres,
        speeds ? N : 3 * B, rules.words, 3 * R, rules.tolerances, R, N, B, solution, N,
        rule_numbers, N, &verdict, gap, doubles, d);
    for (uint32_t i = 0; i < N; i++)
        expect(rule_numbers[i] == i % 256 / 4, "the rule of each of 512 rows", "check");
    expect(refusal == 0 && verdict == KAPITSA_OPEN && bits_of(gap[0]) > bits_of(1e-9)
           && bits_of(gap[0]) < INFINITE && bits_of(gap[1]) == 0 && work_clear(d, 0), "512 rows",
           "check");
    for (uint32_t i = 0; i < R; i++)
        rules.tolerances[i] = from_bits(LARGEST);
    list_at_the_limits(numbers, row_words, masses, speeds ? residuals : centres, &rules, solution);
}

void lengths(void)
{
    if (!speeds) {
        sizes();
        sizes_of_arrays();
    }
    lengths_of_slices();
    work_memory();
    empty_jobs();
    beyond_the_limits();
    at_the_limits();
}
