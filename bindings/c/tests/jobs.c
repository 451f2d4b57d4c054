/* Counting, doubles as bits, and the jobs that the tests are tried on. */
#include "tests.h"

unsigned passed, failed;
int speeds;

void expect(int holds, const char *what, const char *where)
{
    if (holds) {
        passed++;
    } else {
        failed++;
        printf("failed: %s (%s%s)\n", what, where, speeds ? ", velocities" : "");
    }
}

int tell_all(void)
{
    printf("%u passed, %u failed\n", passed, failed);
    return failed != 0;
}

double from_bits(uint64_t bits)
{
    double number;
    memcpy(&number, &bits, sizeof number);
    return number;
}

uint64_t bits_of(double number)
{
    uint64_t bits;
    memcpy(&bits, &number, sizeof bits);
    return bits;
}

int all(int byte, const void *memory, size_t size)
{
    const unsigned char *bytes = (const unsigned char *)memory;
    for (size_t i = 0; i < size; i++)
        if (bytes[i] != byte)
            return 0;
    return 1;
}

void add_rule(struct rules *to, uint32_t dimension, uint32_t first, uint32_t last,
              double tolerance)
{
    uint32_t *rule = to->words + 3 * to->tolerances_len;
    rule[0] = dimension;
    rule[1] = first;
    rule[2] = last;
    to->tolerances[to->tolerances_len++] = tolerance;
    to->words_len += 3;
}

struct rules no_rules(void)
{
    struct rules to;
    memset(&to, 0, sizeof to);
    return to;
}

/* One tolerance for all rows. */
struct rules two_rules(double tolerance)
{
    static const uint32_t words[] = KAPITSA_TWO_RULES;
    struct rules to = no_rules();
    memcpy(to.words, words, sizeof words);
    to.words_len = 6;
    to.tolerances[0] = to.tolerances[1] = tolerance;
    to.tolerances_len = 2;
    return to;
}

/* A rule for each row, the last row's first, and with these tolerances for rows 0 to 2. */
struct rules three_rules(double first, double second, double third)
{
    struct rules to = no_rules();
    add_rule(&to, KAPITSA_ANGULAR, 0, KAPITSA_MAX_KEY, third);
    add_rule(&to, KAPITSA_LINEAR, 11, KAPITSA_MAX_KEY, second);
    add_rule(&to, KAPITSA_LINEAR, 0, 10, first);
    return to;
}

void set_row(double *row, uint32_t *words, uint32_t a, uint32_t b, uint32_t owner)
{
    double *bounds = row + (speeds ? 22 : 20); /* of the impulse, of the multiplier */
    row[0] = 1.0;                              /* linear_a */
    row[9] = -1.0;                             /* linear_b */
    bounds[0] = from_bits(MINUS | INFINITE);
    bounds[1] = from_bits(INFINITE);
    words[2] = a;
    words[3] = b;
    words[5] = !speeds; /* position_enabled */
    words[6] = owner;
}

/* A row's error, for velocities its negated residual, and then any error. */
void set_error(double *row, double *residual, double error)
{
    row[15] = speeds ? from_bits(0x6970000000000000u) : error; /* 2^664: 18 would not let it pass */
    *residual = from_bits(MINUS ^ bits_of(error));
}

/* Document 01's P1, for velocities V1, with this error and tolerance. */
struct job p1(double error, double tolerance)
{
    struct job job;
    memset(&job, 0, sizeof job);
    set_row(job.numbers, job.words, 0, 1, 0);
    set_error(job.numbers, job.residuals, error);
    job.masses[0] = job.masses[10] = 0.5;
    job.rows = 1;
    job.bodies = 2;
    job.limit = LIMIT;
    job.rules = two_rules(tolerance);
    return job;
}

/* Three rows of two joints on three bodies, with numbers that nothing divides evenly. */
struct job chain(void)
{
    static const double errors[] = {0.1, -0.03, 0.07};
    static const double places[] = {0.1, -0.7, 0.3, 1.1, -0.9, 0.6, 2.3, -1.3, 0.7};
    struct job job;
    memset(&job, 0, sizeof job);
    for (uint32_t i = 0; i < 3; i++) {
        double *row = job.numbers + 27 * i, *mass = job.masses + 10 * i;
        set_row(row, job.words + 8 * i, i / 2, i / 2 + 1, i / 2);
        row[i] = 0.9;
        row[3] = 0.3; /* angular_a */
        row[9 + i] = -0.9;
        row[13 + i % 2] = 0.6; /* angular_b */
        set_error(row, job.residuals + i, errors[i]);
        mass[0] = 0.7;
        mass[1] = mass[5] = mass[9] = 1.1; /* the inertia's diagonal */
    }
    memcpy(job.centres, places, sizeof places);
    job.rows = job.bodies = 3;
    job.limit = LIMIT;
    job.rules = two_rules(1e-9);
    return job;
}

/* The chain, its rows of keys 10, 20 and 30, the last of them angular. */
struct job kinds(void)
{
    struct job job = chain();
    for (uint32_t i = 0; i < 3; i++)
        job.words[8 * i] = 10 * (i + 1);
    job.words[8 * 2 + 1] = KAPITSA_ANGULAR;
    return job;
}

/* Two rows of the chain and their two bodies; the memory behind is there. */
struct job two_of_the_chain(void)
{
    struct job job = chain();
    job.rows = job.bodies = 2;
    return job;
}

/* Two rows that say the same but for 2^-28 in one number: mode 1 finds a pivot of 0. */
struct job worn(double shift)
{
    struct job job = p1(-0.25, 1e-9);
    set_row(job.numbers + 27, job.words + 8, 0, 1, 1);
    job.numbers[27 + 1] = from_bits(0x3e30000000000000u); /* 2^-28 */
    set_error(job.numbers + 27, job.residuals + 1, -0.25);
    job.rows = 2;
    job.shift = shift;
    return job;
}

const double no_multipliers[ROWS] = {0.0};
