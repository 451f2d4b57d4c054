/* Where each link ends up: of positions alone. */
#include "tests.h"

#define HALF_UNIT 0x7c90000000000000u /* 2^970, half a unit of the largest double */

/* P1 with its bodies at places of these bits. */
static struct job p1_at(const uint64_t places[6])
{
    struct job job = p1(-0.25, 0.001);
    for (uint32_t k = 0; k < 6; k++)
        job.centres[k] = from_bits(places[k]);
    return job;
}

/* True where a solve leaves these places, and nothing behind them. */
static int ends_at(const struct solved *found, const uint64_t places[6])
{
    for (uint32_t k = 0; k < 6; k++)
        if (bits_of(found->new_centres[k]) != places[k])
            return 0;
    return found->refusal == 0
        && all(PATTERN, found->new_centres + 6, sizeof found->new_centres - 6 * sizeof(double));
}

/* P1 moves its bodies by 1/8, the one along x, the other back. */
static void new_centres(void)
{
    static const struct {
        const char *what;
        uint64_t from[6], to[6];
    } moves[] = {
        {"from the origin", {0}, {0x3fc0000000000000u, 0, 0, 0xbfc0000000000000u, 0, 0}},
        {"from -0.0", {MINUS, MINUS, MINUS, MINUS, 0, MINUS},
         {0x3fc0000000000000u, 0, 0, 0xbfc0000000000000u, 0, 0}},
        {"to +0.0",
         {0xbfc0000000000000u, 0x3ff0000000000000u, MINUS, 0x3fc0000000000000u, SMALLEST, LARGEST},
         {0, 0x3ff0000000000000u, 0, 0, SMALLEST, LARGEST}},
        /* 2^50 has units of 1/4: its half is rounded away, and added to the next one */
        {"by half a unit", {0x4310000000000000u, 0, 0, 0x4310000000000001u, 0, 0},
         {0x4310000000000000u, 0, 0, 0x4310000000000000u, 0, 0}},
        {"at the largest", {LARGEST, 0, 0, MINUS | LARGEST, 0, 0},
         {LARGEST, 0, 0, MINUS | LARGEST, 0, 0}},
    };
    for (size_t i = 0; i < sizeof moves / sizeof moves[0]; i++) {
        struct job job = p1_at(moves[i].from);
        for (uint32_t mode = 0; mode < 3; mode++) {
            const struct solved found = solve(&job, mode, KAPITSA_CONTROL, exactly);
            expect(ends_at(&found, moves[i].to), moves[i].what, "new centres");
            alike(moves[i].what, &job, mode);
        }
        job.rules = two_rules(1.0);
        struct solved found = solve(&job, 0, KAPITSA_CONTROL, exactly);
        expect(found.counts[0] == 0 && ends_at(&found, moves[i].from), moves[i].what, "count 0");
        job.rows = 0;
        found = solve(&job, 0, KAPITSA_CONTROL, exactly);
        expect(ends_at(&found, moves[i].from), moves[i].what, "no rows");
    }
    /* a body in no row keeps its bits */
    struct job job = chain();
    job.rows = 1;
    job.centres[6] = from_bits(MINUS);
    const struct solved found = solve(&job, 0, KAPITSA_CONTROL, exactly);
    expect(found.refusal == 0 && bits_of(found.new_centres[6]) == MINUS
           && bits_of(found.new_centres[7]) == bits_of(job.centres[7])
           && bits_of(found.new_centres[0]) != bits_of(job.centres[0]), "a body in no row",
           "chain");
}

/* Body 0 lies at the largest double and moves by this: 17 where it leaves the doubles, before
   anything is written. */
static void beyond_the_doubles(uint64_t error, uint32_t refusal)
{
    static const uint64_t places[6] = {LARGEST, 0, 0, 0, 0, 0};
    struct job job = p1_at(places);
    job.masses[0] = job.masses[10] = from_bits(0x7bf0000000000000u); /* 2^960 */
    job.numbers[15] = from_bits(error);
    for (size_t i = 0; i < CONTROLS; i++)
        for (uint32_t mode = 0; mode < 3; mode++) {
            const size_t d = kapitsa_solve_doubles(1, 2, mode), w = kapitsa_solve_words(1, 2, mode);
            const struct solved found = solve(&job, mode, controls[i].word, exactly);
            expect(found.refusal == refusal && work_clear(d, w)
                   && (refusal ? nothing_written(&job, &found)
                               : bits_of(found.new_centres[0]) == LARGEST), "17 by a new centre",
                   controls[i].name);
        }
}

static void odd_centres(void)
{
    static const uint64_t odd[] = {INFINITE, MINUS | INFINITE, 0x7ff8000000000000u,
                                   0x7ff0000000000001u, 0xfff8000000000007u};
    for (uint32_t k = 0; k < 6; k++)
        for (size_t i = 0; i < sizeof odd / sizeof odd[0]; i++) {
            struct job job = p1(-0.25, 0.001);
            job.centres[k] = from_bits(odd[i]);
            refused_by(KAPITSA_REFUSED_MASS, "a centre that is not finite", &job);
            job.rows = 0;
            refused_by(KAPITSA_REFUSED_MASS, "a centre that is not finite, no rows", &job);
        }
    struct job job = chain();
    job.centres[8] = from_bits(INFINITE);
    job.words[2] = 7; /* body_a: 7 */
    refused_by(KAPITSA_REFUSED_MASS, "6 before 7", &job);
    add_rule(&job.rules, KAPITSA_LINEAR, 0, 0, 1e-9);
    refused_by(KAPITSA_REFUSED_RULES_OF_ROW, "28 before 6", &job);
    beyond_the_doubles(MINUS | (HALF_UNIT + 0x0010000000000000u), KAPITSA_REFUSED_RESULT);
    beyond_the_doubles(MINUS | (HALF_UNIT + 0x000fffffffffffffu), KAPITSA_ACCEPTED);
}

/* Three numbers a body, no more and no fewer, of what is lent and of what is written. */
static void lengths_of_centres(void)
{
    static const int more[] = {-1, 1, -3, NONE};
    for (size_t i = 0; i < sizeof more / sizeof more[0]; i++) {
        struct job job = chain();
        job.more[CENTRES] = more[i];
        refused_by(KAPITSA_REFUSED_LENGTH, "centres of another length", &job);
        job.more[CENTRES] = 0;
        job.more[NEW_CENTRES] = more[i];
        for (uint32_t mode = 0; mode < 3; mode++)
            solve_refused_by(KAPITSA_REFUSED_LENGTH, "new centres of another length", &job, mode);
    }
}

void centres(void)
{
    new_centres();
    odd_centres();
    lengths_of_centres();
}
