/* A scanned link: its mass and its 3 by 3 local inertia become a mass of a job, which is solved and
   checked. Then the inertias that are turned back, with nothing written.
   cc scanned_link.c $(pkg-config --cflags --libs kapitsa) */
#include "kapitsa.h"
#include <stdio.h>
#include <string.h>

/* A mass of a job: the inverse mass and the inverse inertia, by columns. The link's axes are those
   of the bench here; of a turned one the inverse is turned too. */
static uint32_t mass_of(double kilograms, const double inertia[9], double mass[10])
{
    uint32_t refusal = kapitsa_inverse_in(inertia, mass + 1);
    if (refusal == 0)
        mass[0] = 1.0 / kilograms;
    return refusal;
}

static double from_bits(uint64_t bits)
{
    double number;
    memcpy(&number, &bits, sizeof number);
    return number;
}

static const double LINK[9] = {2.0, 1.0, 0.0, 1.0, 2.0, 0.0, 0.0, 0.0, 4.0};

/* Two such links, joined where the joint lies beside their centres. */
static int joined(void)
{
    double numbers[27] = {0}, masses[20], solution[1], impulses[12], maxima[2], gap[2];
    const double centres[6] = {0}; /* nobody asks where the links lie */
    double new_centres[6], work_doubles[KAPITSA_WORK_DOUBLES(1, 2)];
    uint32_t words[8] = {0, 0, 0, 1, 0, 1, 0, 0}, rule_numbers[1], counts[2], verdict;
    uint32_t work_words[KAPITSA_WORK_WORDS(1)];
    const uint32_t rule_words[] = KAPITSA_TWO_RULES;
    const double rule_tolerances[] = {0.001, 0.001};
    if (mass_of(2.0, LINK, masses) != 0 || mass_of(2.0, LINK, masses + 10) != 0)
        return 0;
    for (int i = 0; i < 10; i++)
        printf("%s%g", i == 0 ? "mass " : " ", masses[i]);
    printf("\n");
    numbers[0] = 1.0;  /* linear_a */
    numbers[4] = 0.5;  /* angular_a */
    numbers[7] = 0.5;  /* position_angular_a */
    numbers[9] = -1.0; /* linear_b */
    numbers[13] = 0.25;
    numbers[15] = -0.25; /* error */
    numbers[20] = -from_bits(0x7ff0000000000000u);
    numbers[21] = from_bits(0x7ff0000000000000u);
    if (kapitsa_solve_in(numbers, 27, words, 8, masses, 20, centres, 6, rule_words, 6,
                         rule_tolerances, 2, 1, 2, 4, KAPITSA_DIAGONAL, 0.0, solution, 1, impulses,
                         12, new_centres, 6, rule_numbers, 1, counts, maxima, work_doubles,
                         KAPITSA_WORK_DOUBLES(1, 2), work_words, KAPITSA_WORK_WORDS(1)) != 0
        || kapitsa_check_in(numbers, 27, words, 8, masses, 20, centres, 6, rule_words, 6,
                            rule_tolerances, 2, 1, 2, solution, 1, rule_numbers, 1, &verdict, gap,
                            work_doubles, KAPITSA_WORK_DOUBLES(1, 2)) != 0)
        return 0;
    printf("multiplier %g, %s\n", solution[0], verdict == KAPITSA_CLOSED ? "closed" : "open");
    return counts[0] == 1 && counts[1] == 1 && verdict == KAPITSA_CLOSED;
}

/* LINK with one number changed is turned back by this number, and the inverse stays as it was. */
static int turned_back(int at, uint64_t bits, uint32_t number)
{
    double inertia[9], inverse[9];
    memcpy(inertia, LINK, sizeof inertia);
    memset(inverse, 0x5a, sizeof inverse);
    inertia[at] = from_bits(bits);
    uint32_t refusal = kapitsa_inverse_in(inertia, inverse);
    const unsigned char *bytes = (const unsigned char *)inverse;
    int kept = 1;
    for (size_t i = 0; i < sizeof inverse; i++)
        kept &= bytes[i] == 0x5a;
    printf("refused by %u%s\n", (unsigned)refusal, kept ? "" : ", but written");
    return refusal == number && kept;
}

int main(void)
{
    double inverse[9];
    int good = joined();
    good &= turned_back(5, 0x7ff8000000000000u, KAPITSA_REFUSED_NUMBER); /* a NaN */
    good &= turned_back(3, 0x3ff0000000001000u, KAPITSA_REFUSED_SYMMETRY);
    good &= turned_back(8, 0x8000000000000001u, KAPITSA_REFUSED_DEFINITE); /* -2^-1074 */
    good &= turned_back(8, 2u, KAPITSA_REFUSED_VALUE);                     /* 2^-1073 */
    good &= kapitsa_inverse_spd(LINK, 8, inverse, 9) == KAPITSA_REFUSED_LENGTH;
    good &= kapitsa_inverse_spd(LINK, 9, inverse, 10) == KAPITSA_REFUSED_LENGTH;
    return !good;
}
