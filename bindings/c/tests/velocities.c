/* Linkages in motion: document 02, a. What is said of positions alone is tried with speeds too. */
#include "tests.h"

/* Every number but the accumulated impulses is as it was, and each of those, 0 before, is now the
   solution's. */
static int impulses_alone(const struct job *job, const struct solved *found)
{
    struct solved wanted;
    memcpy(wanted.numbers, job->numbers, sizeof wanted.numbers);
    for (uint32_t i = 0; i < job->rows; i++)
        wanted.numbers[27 * i + 25] = found->solution[i];
    return !memcmp(found->numbers, wanted.numbers, sizeof wanted.numbers);
}

static struct job chosen(int velocities, int which)
{
    speeds = velocities;
    return which == 0 ? p1(-0.25, 0.001) : which == 1 ? chain() : worn(SMALL_SHIFT);
}

/* The numbers of a job of positions, bit for bit, -residual in the error's place. */
static void as_positions(void)
{
    for (int which = 0; which < 3; which++)
        for (uint32_t mode = 0; mode < 3; mode++) {
            struct job job = chosen(0, which);
            const struct solved places = solve(&job, mode, KAPITSA_CONTROL, exactly);
            const struct checked verdict = check(&job, places.solution, KAPITSA_CONTROL, exactly);
            job = chosen(1, which);
            for (uint32_t i = 0; i < job.rows; i++)
                job.numbers[27 * i + 24] = 3.5; /* accumulated_multiplier */
            const struct job before = job;
            const struct solved found = solve(&job, mode, KAPITSA_CONTROL, exactly);
            const struct checked checked = check(&job, found.solution, KAPITSA_CONTROL, exactly);
            expect(found.refusal == 0 && places.refusal == 0
                   && !memcmp(found.solution, places.solution, sizeof found.solution)
                   && !memcmp(found.impulses, places.impulses, sizeof found.impulses)
                   && !memcmp(found.maxima, places.maxima, sizeof found.maxima)
                   && !memcmp(found.counts, places.counts, sizeof found.counts)
                   && !memcmp(found.rule_numbers, places.rule_numbers, sizeof found.rule_numbers),
                   "the bits of the position solve", "solve");
            expect(impulses_alone(&job, &found) && KEPT(found.new_centres),
                   "accumulated impulses alone", "solve");
            expect(!memcmp(&checked, &verdict, sizeof checked), "the bits of the position check",
                   "check");
            expect(!memcmp(job.residuals, before.residuals, sizeof job.residuals),
                   "residuals are only read", "both");
        }
}

/* A second row, and its residual and the first one's. */
static struct job two_speeds(double first, double second, uint32_t owner)
{
    struct job job = p1(0.0, 0.001);
    set_row(job.numbers + 27, job.words + 8, 0, 1, owner);
    job.residuals[0] = first;
    job.residuals[1] = second;
    job.rows = 2;
    return job;
}

/* Within tolerance: with count 0 in modes below `refusing`, and by 13 from it on. */
static void within_tolerance(const char *what, const struct job *job, uint32_t refusing)
{
    for (uint32_t mode = 0; mode < refusing; mode++) {
        const struct solved found = solve(job, mode, KAPITSA_CONTROL, exactly);
        expect(found.refusal == 0 && found.counts[0] == 0 && found.counts[1] == 1
               && bits_of(found.maxima[0]) == bits_of(0.001) && bits_of(found.maxima[1]) == 0
               && all(0, found.solution, job->rows * sizeof(double))
               && all(0, found.impulses, 6 * job->bodies * sizeof(double))
               && !memcmp(found.numbers, job->numbers, sizeof found.numbers), what, "count 0");
        alike(what, job, mode);
    }
    for (uint32_t mode = refusing; mode < 3; mode++)
        solve_refused_by(KAPITSA_REFUSED_PIVOT, what, job, mode);
}

/* V2 to V4; V1 is P1 above. */
static void sheets(void)
{
    struct job job = two_speeds(0.001, -0.001, 0);
    job.numbers[25] = from_bits(MINUS); /* with count 0 these bits stay */
    job.numbers[27 + 25] = 0.1;
    within_tolerance("V2: two equal rows", &job, 1);
    job = two_speeds(0.001, 0.001, 1);
    job.numbers[27] = job.numbers[27 + 9] = 0.0;
    within_tolerance("V3: a row of zeros", &job, 2);
    job.words[8 + 1] = KAPITSA_ANGULAR; /* its residual becomes 0, and so its maximum */
    within_tolerance("V3: an angular row of zeros", &job, 2);
    job.residuals[1] = from_bits(bits_of(0.001) + 1);
    for (uint32_t mode = 0; mode < 3; mode++)
        solve_refused_by(KAPITSA_REFUSED_IMMOVABLE, "9 for a row of zeros", &job, mode);
    job = chain();
    job.numbers[0] = job.numbers[3] = job.numbers[9] = job.numbers[13] = 0.0; /* 9 */
    for (uint32_t mode = 0; mode < 3; mode++)
        solve_refused_by(KAPITSA_REFUSED_IMMOVABLE, "9 alone", &job, mode);
    job.words[8 * 2 + 3] = 7; /* body_b */
    refused_by(KAPITSA_REFUSED_ROW, "V4: 7 of the last row before 9 of the first", &job);
}

/* 20: whatever is not finite, in any row, by solve and check; and its place, V5. */
static void odd_residuals(void)
{
    static const uint64_t odd[] = {INFINITE, MINUS | INFINITE, 0x7ff8000000000000u,
                                   0x7ff0000000000001u, 0xfff8000000000007u};
    for (uint32_t row = 0; row < 3; row++)
        for (size_t i = 0; i < sizeof odd / sizeof odd[0]; i++) {
            struct job job = chain();
            job.residuals[row] = from_bits(odd[i]);
            refused_by(KAPITSA_REFUSED_SPEED, "a residual that is not finite", &job);
        }
    struct job job = p1(0.0, 0.001);
    job.residuals[0] = from_bits(0x7ff8000000000000u);
    job.numbers[25] = from_bits(0x7ff8000000000000u);
    refused_by(KAPITSA_REFUSED_SPEED, "V5: 20 before 7", &job);
    job.masses[13] = from_bits(0x7ff8000000000000u);
    refused_by(KAPITSA_REFUSED_MASS, "V5: 6 before 20", &job);
    job.limit = 0;
    for (uint32_t mode = 0; mode < 3; mode++)
        solve_refused_by(KAPITSA_REFUSED_OPENING, "V5: 5 before 20", &job, mode);
    job.rules.words[2] = 0;
    job.words[0] = 1; /* key */
    refused_by(KAPITSA_REFUSED_RULES_OF_ROW, "28 before 20", &job);
    job.rules.tolerances[1] = -1.0;
    refused_by(KAPITSA_REFUSED_RULE, "27 before 20", &job);
    job.words[5] = 2; /* position_enabled */
    refused_by(KAPITSA_REFUSED_WORD, "4 before 20, by position_enabled too", &job);
    job.more[RESIDUALS] = 1;
    refused_by(KAPITSA_REFUSED_LENGTH, "3 before 20", &job);
    job = p1(0.0, 0.001);
    job.residuals[0] = from_bits(INFINITE);
    job.rows = 0;
    expect(solve(&job, 0, KAPITSA_CONTROL, exactly).refusal == 0, "no row, no 20", "solve");
    expect(says(check(&job, no_multipliers, KAPITSA_CONTROL, exactly), KAPITSA_CLOSED),
           "no row, no 20", "check");
}

/* The opening test reads these numbers of a row and no others: 5, or the bits of the plain row. */
static void opening(void)
{
    static const struct {
        int number;
        uint64_t bits;
        uint32_t refusal;
    } rows[] = {
        {18, 0x3ff0000000000000u, KAPITSA_REFUSED_OPENING}, /* compliance */
        {19, 0x3ff0000000000000u, KAPITSA_REFUSED_OPENING}, /* damping */
        {22, MINUS | LARGEST, KAPITSA_REFUSED_OPENING},     /* min_impulse */
        {23, LARGEST, KAPITSA_REFUSED_OPENING},             /* max_impulse */
        {23, 0x7ff8000000000000u, KAPITSA_REFUSED_OPENING},
        {15, LARGEST, KAPITSA_ACCEPTED},            /* error */
        {16, LARGEST, KAPITSA_ACCEPTED},            /* target_velocity */
        {20, MINUS | INFINITE, KAPITSA_ACCEPTED},   /* min_multiplier */
        {21, INFINITE, KAPITSA_ACCEPTED},           /* max_multiplier */
        {20, 0x3ff0000000000000u, KAPITSA_REFUSED_ROW}, /* above the other bound */
        {21, 0x7ff8000000000000u, KAPITSA_REFUSED_ROW},
        {15, INFINITE, KAPITSA_REFUSED_ROW},
    };
    const struct job plain = chain();
    for (uint32_t mode = 0; mode < 3; mode++) {
        const struct solved wanted = solve(&plain, mode, KAPITSA_CONTROL, exactly);
        struct job job = plain;
        for (size_t i = 0; i < sizeof rows / sizeof rows[0]; i++) {
            job = plain;
            job.numbers[27 + rows[i].number] = from_bits(rows[i].bits);
            if (rows[i].refusal) {
                solve_refused_by(rows[i].refusal, "a number of a row", &job, mode);
                continue;
            }
            const struct solved found = solve(&job, mode, KAPITSA_CONTROL, exactly);
            expect(found.refusal == 0 && impulses_alone(&job, &found)
                   && !memcmp(found.solution, wanted.solution, sizeof found.solution),
                   "a number of a row that nothing reads", "solve");
        }
        job = plain;
        job.words[8 + 5] = 1; /* position_enabled */
        const struct solved found = solve(&job, mode, KAPITSA_CONTROL, exactly);
        expect(!memcmp(&found, &wanted, sizeof found), "position on", "solve");
        job.words[8 + 4] = 1; /* force_driven */
        solve_refused_by(KAPITSA_REFUSED_OPENING, "5 for force_driven", &job, mode);
    }
}

/* The second row's accumulated impulse is the largest double and gains a unit: 17, and the first
   row is not written either. An eighth of a unit is rounded away. */
static void largest_impulse(void)
{
    struct job job = two_speeds(1.0, 1.0, 1);
    job.numbers[27] = job.numbers[27 + 9] = 0.0;
    job.numbers[27 + 1] = 1.0; /* along y */
    job.numbers[27 + 10] = -1.0;
    job.numbers[27 + 25] = from_bits(LARGEST);
    job.masses[0] = job.masses[10] = from_bits(0x0330000000000000u); /* 2^-972 */
    for (uint32_t mode = 0; mode < 3; mode++) {
        job.residuals[1] = 1.0;
        solve_refused_by(KAPITSA_REFUSED_RESULT, "17 by an accumulated impulse", &job, mode);
        job.residuals[1] = 0.125;
        const struct solved found = solve(&job, mode, KAPITSA_CONTROL, exactly);
        expect(found.refusal == 0 && bits_of(found.numbers[27 + 25]) == LARGEST
               && bits_of(found.numbers[25]) == bits_of(found.solution[0]), "no 17", "solve");
        alike("the largest impulse", &job, mode);
    }
}

void velocities(void)
{
    as_positions();
    speeds = 1;
    sheets();
    odd_residuals();
    opening();
    largest_impulse();
}
