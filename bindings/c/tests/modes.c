/* Floating-point modes: FTZ and DAZ, the four roundings, unmasked exceptions. */
#include "tests.h"

static void solves_in_all_modes(void)
{
    const char *names[] = {"mode 0", "mode 1", "mode 2"};
    const struct job sheet = p1(-0.25, 0.001), rows = chain(), tiny = p1(from_bits(SMALLEST), 0.0);
    for (uint32_t mode = 0; mode < 3; mode++) {
        struct solved found = solve(&sheet, mode, KAPITSA_CONTROL, exactly);
        expect(found.refusal == 0 && found.counts[0] == 1 && found.counts[1] == 1
               && bits_of(found.numbers[24 + speeds]) == bits_of(0.25), "P1", names[mode]);
        found = solve(&rows, mode, KAPITSA_CONTROL, exactly);
        expect(found.refusal == 0 && found.counts[1] == 1, "the chain is solved", names[mode]);
        expect(says(check(&rows, found.solution, KAPITSA_CONTROL, exactly), KAPITSA_CLOSED),
               "the chain is closed", names[mode]);
        found = solve(&tiny, mode, KAPITSA_CONTROL, exactly);
        expect(found.refusal == KAPITSA_REFUSED_RESIDUAL, "a subnormal error", names[mode]);
        alike("P1", &sheet, mode);
        alike("the chain", &rows, mode);
        alike("a subnormal error", &tiny, mode);
    }
}

/* The bits of the least tolerance at which the check says closed in this mode. */
static uint64_t least_tolerance(struct job job, const double *multipliers, unsigned control)
{
    uint64_t open = 0, closed = INFINITE;
    while (closed - open > 1) {
        uint64_t middle = open + (closed - open) / 2;
        job.rules = two_rules(from_bits(middle));
        if (says(checked_by(check_called, &job, multipliers, control, exactly), KAPITSA_CLOSED))
            closed = middle;
        else
            open = middle;
    }
    return closed;
}

static void checks_in_all_modes(void)
{
    const struct job rows = chain();
    const struct solved solved = solve(&rows, 0, KAPITSA_CONTROL, exactly);
    const uint64_t least = least_tolerance(rows, solved.solution, KAPITSA_CONTROL);
    const struct job below = p1(0.0, from_bits(MINUS | SMALLEST)); /* as -0.0 it would close */
    for (size_t i = 0; i < CONTROLS; i++) {
        expect(least_tolerance(rows, solved.solution, controls[i].word) == least,
               "the least tolerance that closes the chain", controls[i].name);
        expect(measures(check(&rows, solved.solution, controls[i].word, exactly).gap, least, 0),
               "it is the measured gap", controls[i].name);
        expect(check(&below, no_multipliers, controls[i].word, exactly).refusal
                   == KAPITSA_REFUSED_RULE,
               "a tolerance below zero", controls[i].name);
    }
}

/* Arithmetic for a call's arguments is the caller's, in the caller's mode: rounded up, the sum is
   the least tolerance that closes P1, 17 * 2^-52; rounded to nearest, one unit less. */
static void arguments(void)
{
    static const double multiplier[] = {0.25};
    const struct job sheet = p1(-0.25, 0.0);
    volatile double less = from_bits(0x3cf0ffffffffffffu), little = from_bits(0x3000000000000000u);
    for (uint32_t up = 0; up < 2; up++) {
        uint32_t verdict = 9, rule_number = 9;
        double gap[2] = {9.0, 9.0}, tolerances[2] = {0.0, 0.0};
        const unsigned before = _mm_getcsr();
        _mm_setcsr(KAPITSA_CONTROL | (up ? UP : 0));
        tolerances[0] = less + little;
        uint32_t refusal = (speeds ? kapitsa_check_velocity_in : kapitsa_check_in)(
            sheet.numbers, 27, sheet.words, 8, sheet.masses, 20,
            speeds ? sheet.residuals : sheet.centres, speeds ? 1 : 6, sheet.rules.words, 6,
            tolerances, 2, 1, 2, multiplier, 1, &rule_number, 1, &verdict, gap, doubles, 26);
        _mm_setcsr(before);
        expect(refusal == 0 && verdict == up && measures(gap, P1_GAP, 0),
               "a sum as argument", up ? "up" : "to nearest");
    }
}

/* The tests above can fail: where nothing sets the mode, a solve differs. */
static void raw_modes(void)
{
    const struct job rows = chain(), tiny = p1(from_bits(SMALLEST), 0.0);
    const struct solved solved = solve(&rows, KAPITSA_DIAGONAL, KAPITSA_CONTROL, exactly);
    double found[ROWS];
    for (size_t i = 0; i < 4; i++)
        expect(raw_solve(&rows, controls[i].word, found) == 0
               && (memcmp(found, solved.solution, 3 * sizeof found[0]) == 0) == (i == 0),
               "the raw solve's bits hang on the rounding", controls[i].name);
    expect(raw_solve(&tiny, KAPITSA_CONTROL, found) == KAPITSA_REFUSED_RESIDUAL
           && raw_solve(&tiny, KAPITSA_CONTROL | FTZ_AND_DAZ, found) == 0,
           "the raw solve's answer hangs on FTZ and DAZ", "raw");
}

void modes(void)
{
    solves_in_all_modes();
    checks_in_all_modes();
    arguments();
    raw_modes();
}
