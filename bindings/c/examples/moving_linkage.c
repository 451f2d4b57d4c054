/* A four-bar linkage in motion: frame, crank, coupler and rocker in a plane, each filmed by itself,
   so that by their recorded speeds the pins would come apart. The velocity solve finds the impulses
   that make every pin's two sides run alike and the crank turn as its tachometer says; the closing
   check says of the speeds, before and after, whether they fit and how far they are off, and where
   they fit it lists how near each row was to opening.
   cc moving_linkage.c $(pkg-config --cflags --libs kapitsa) */
#include "kapitsa.h"
#include <math.h>
#include <stdio.h>
#include <string.h>

enum { PARTS = 4, PINS = 4, ROWS = 2 * PINS + 1, LIMIT = 32 };

static const uint32_t RULES[] = KAPITSA_TWO_RULES;
static const double TOLERANCES[] = {1e-9, 1e-9}; /* m/s and rad/s */
static const double TACHOMETER = 10.0;           /* rad/s */

/* Where the part's centre lies, its mass and length, and its recorded speed: m/s and rad/s. */
static const struct {
    const char *name;
    double x, y, kilograms, length, speed_x, speed_y, turning;
} PART[PARTS] = {
    {"frame", 0.15, 0.0, 0.0, 0.0, 0.0, 0.0, 0.0}, /* inverse mass 0: it stands */
    {"crank", 0.03, 0.04, 0.2, 0.1, -0.39, 0.31, 9.9},
    {"coupler", 0.19, 0.135, 0.5, 0.282, -0.70, 0.33, -2.1},
    {"rocker", 0.31, 0.095, 0.35, 0.191, -0.28, 0.03, 3.05},
};

static const struct {
    uint32_t a, b;
    double x, y;
} PIN[PINS] = {{0, 1, 0.0, 0.0}, {1, 2, 0.06, 0.08}, {2, 3, 0.32, 0.19}, {3, 0, 0.30, 0.0}};

struct linkage {
    double numbers[27 * ROWS], masses[10 * PARTS], residuals[ROWS];
    double speeds[6 * PARTS]; /* as impulses: three numbers of the centre, three of turning */
    uint32_t words[8 * ROWS];
};

/* The row's speed: of a pin, by how much its two sides part along an axis. */
static double speed_of(const struct linkage *linkage, uint32_t i)
{
    const double *row = linkage->numbers + 27 * i;
    const double *a = linkage->speeds + 6 * linkage->words[8 * i + 2];
    const double *b = linkage->speeds + 6 * linkage->words[8 * i + 3];
    double sum = 0.0;
    for (int k = 0; k < 3; k++)
        sum += row[k] * a[k] + row[3 + k] * a[3 + k] + row[9 + k] * b[k] + row[12 + k] * b[3 + k];
    return sum;
}

/* A rigid row of joint `owner`, whose residual is the speed that it should have less its speed. */
static void set_row(struct linkage *to, uint32_t i, uint32_t dimension, uint32_t a, uint32_t b,
                    uint32_t owner, double wanted)
{
    const uint32_t words[8] = {0, dimension, a, b, 0, 0, owner, 0};
    memcpy(to->words + 8 * i, words, sizeof words);
    to->numbers[27 * i + 22] = -INFINITY; /* min_impulse */
    to->numbers[27 * i + 23] = INFINITY;  /* max_impulse */
    to->residuals[i] = wanted - speed_of(to, i);
}

/* The pin along x or y: linear numbers, and how far the axis passes by each part's centre. */
static void set_pin(struct linkage *to, uint32_t pin, int axis)
{
    const uint32_t i = 2 * pin + (uint32_t)axis, a = PIN[pin].a, b = PIN[pin].b;
    double *row = to->numbers + 27 * i;
    row[axis] = 1.0;
    row[9 + axis] = -1.0;
    row[5] = axis ? PIN[pin].x - PART[a].x : PART[a].y - PIN[pin].y;
    row[14] = axis ? PART[b].x - PIN[pin].x : PIN[pin].y - PART[b].y;
    set_row(to, i, KAPITSA_LINEAR, a, b, pin, 0.0);
}

static void make(struct linkage *to)
{
    memset(to, 0, sizeof *to);
    for (uint32_t j = 0; j < PARTS; j++) {
        to->speeds[6 * j] = PART[j].speed_x;
        to->speeds[6 * j + 1] = PART[j].speed_y;
        to->speeds[6 * j + 5] = PART[j].turning;
        if (PART[j].kilograms == 0.0)
            continue;
        to->masses[10 * j] = 1.0 / PART[j].kilograms;
        to->masses[10 * j + 9] = 12.0 / (PART[j].kilograms * PART[j].length * PART[j].length);
    }
    for (uint32_t pin = 0; pin < PINS; pin++) {
        set_pin(to, pin, 0);
        set_pin(to, pin, 1);
    }
    to->numbers[27 * (ROWS - 1) + 5] = 1.0; /* the crank turns against the frame */
    to->numbers[27 * (ROWS - 1) + 14] = -1.0;
    set_row(to, ROWS - 1, KAPITSA_ANGULAR, 1, 0, PINS, TACHOMETER);
}

/* What the impulses make of the speeds. */
static void push(struct linkage *linkage, const double *impulses)
{
    for (uint32_t j = 0; j < PARTS; j++) {
        const double *mass = linkage->masses + 10 * j, *impulse = impulses + 6 * j;
        double *speed = linkage->speeds + 6 * j;
        for (int k = 0; k < 3; k++) {
            speed[k] += mass[0] * impulse[k];
            for (int column = 0; column < 3; column++)
                speed[3 + k] += mass[1 + 3 * column + k] * impulse[3 + column];
        }
    }
}

/* Work memory for solve and check, in any mode. */
enum { DOUBLES = KAPITSA_WORK_DOUBLES(ROWS, PARTS), WORDS = KAPITSA_WORK_WORDS(ROWS) };
static double work_doubles[DOUBLES];
static uint32_t work_words[WORDS];

/* What would open the linkage: the smallest tolerance at which each row still closes. */
static void print_margins(const struct linkage *linkage, const uint32_t *rows, const double *margins)
{
    for (uint32_t i = 0; i < ROWS; i++) {
        const uint32_t *words = linkage->words + 8 * rows[i];
        const int turns = words[1] == KAPITSA_ANGULAR;
        printf("  %s and %s, %s: down to %.3g %s\n", PART[words[2]].name, PART[words[3]].name,
               turns ? "turning" : rows[i] % 2 ? "y" : "x", margins[i], turns ? "rad/s" : "m/s");
    }
}

/* Says whether every row's speed, with these multipliers, is within its tolerance, and how far it
   is off at most; where all are, with the list. */
static int told(const struct linkage *linkage, const double *multipliers, const char *when,
                uint32_t wanted)
{
    uint32_t rule_numbers[ROWS], margin_rows[ROWS], verdict;
    double gap[2], margins[ROWS];
    const uint32_t refusal = kapitsa_margins_velocity_in(
        linkage->numbers, 27 * ROWS, linkage->words, 8 * ROWS, linkage->masses, 10 * PARTS,
        linkage->residuals, ROWS, RULES, 6, TOLERANCES, 2, ROWS, PARTS, multipliers, ROWS,
        rule_numbers, ROWS, margin_rows, ROWS, margins, ROWS, &verdict, gap, work_doubles, DOUBLES);
    if (refusal != 0) {
        printf("%s: refused by %u\n", when, (unsigned)refusal);
        return 0;
    }
    printf("%s: %s, off by at most %.3g m/s and %.3g rad/s\n", when,
           verdict == KAPITSA_CLOSED ? "closed" : "open", gap[0], gap[1]);
    if (verdict == KAPITSA_CLOSED)
        print_margins(linkage, margin_rows, margins);
    return verdict == wanted;
}

int main(void)
{
    static const double none[ROWS] = {0.0};
    struct linkage linkage;
    double solution[ROWS], impulses[6 * PARTS], maxima[2];
    uint32_t rule_numbers[ROWS], counts[2];
    make(&linkage);
    int good = told(&linkage, none, "as recorded", KAPITSA_OPEN);
    const uint32_t refusal = kapitsa_solve_velocity_in(
        linkage.numbers, 27 * ROWS, linkage.words, 8 * ROWS, linkage.masses, 10 * PARTS,
        linkage.residuals, ROWS, RULES, 6, TOLERANCES, 2, ROWS, PARTS, LIMIT,
        KAPITSA_INCOMPLETE_CHOLESKY, 0.0, solution, ROWS, impulses, 6 * PARTS, rule_numbers, ROWS,
        counts, maxima, work_doubles, DOUBLES, work_words, WORDS);
    if (refusal != 0) {
        printf("refused by %u\n", (unsigned)refusal);
        return 1;
    }
    printf("count %u, flag %u\n", (unsigned)counts[0], (unsigned)counts[1]);
    good &= told(&linkage, solution, "as solved", KAPITSA_CLOSED);
    push(&linkage, impulses);
    for (uint32_t j = 1; j < PARTS; j++)
        printf("%s: from %g %g m/s, %g rad/s to %.4f %.4f m/s, %.4f rad/s\n", PART[j].name,
               PART[j].speed_x, PART[j].speed_y, PART[j].turning, linkage.speeds[6 * j],
               linkage.speeds[6 * j + 1], linkage.speeds[6 * j + 5]);
    for (uint32_t i = 0; i < ROWS - 1; i++) /* the pins, by the new speeds */
        good &= fabs(speed_of(&linkage, i)) < 1e-9;
    return !(good && counts[1] == 1 && fabs(linkage.speeds[6 + 5] - TACHOMETER) < 1e-9);
}
