/* Tolerances by kind of joint: 27, 28, and each row judged by its own. */
#include "tests.h"

/* Solve and check under rules that are let pass: the bits of two rules but for the rule numbers,
   where all tolerances are the same. */
static void judged_by(const char *what, struct job job, const struct rules *rules,
                      const uint32_t numbers[3])
{
    for (uint32_t mode = 0; mode < 3; mode++) {
        job.rules = two_rules(1e-9);
        struct solved wanted = solve(&job, mode, KAPITSA_CONTROL, exactly);
        struct checked verdict = check(&job, wanted.solution, KAPITSA_CONTROL, exactly);
        job.rules = *rules;
        const struct solved found = solve(&job, mode, KAPITSA_CONTROL, exactly);
        const struct checked checked = check(&job, wanted.solution, KAPITSA_CONTROL, exactly);
        memcpy(wanted.rule_numbers, numbers, 3 * sizeof numbers[0]);
        memcpy(verdict.rule_numbers, numbers, 3 * sizeof numbers[0]);
        expect(wanted.refusal == 0 && !memcmp(&found, &wanted, sizeof found), what, "solve");
        expect(says(verdict, KAPITSA_CLOSED) && !memcmp(&checked, &verdict, sizeof checked), what,
               "check");
        alike(what, &job, mode);
    }
}

static void sound_rules(void)
{
    static const uint32_t by_dimension[] = {0, 0, 1}, reversed[] = {2, 1, 0}, last[] = {63, 61, 62};
    const struct job job = kinds();
    struct rules rules = two_rules(1e-9);
    judged_by("two rules", job, &rules, by_dimension);
    rules = three_rules(1e-9, 1e-9, 1e-9);
    judged_by("a rule a row", job, &rules, reversed);
    add_rule(&rules, KAPITSA_LINEAR, 30, 40, 1e-9); /* over another where no row is */
    add_rule(&rules, KAPITSA_ANGULAR, 0, 29, 0.0);
    add_rule(&rules, KAPITSA_ANGULAR, 31, 255, from_bits(MINUS));
    judged_by("rules over each other where no row is", job, &rules, reversed);
    rules = no_rules();
    while (rules.tolerances_len < 61)
        add_rule(&rules, KAPITSA_LINEAR, 40, 40 + rules.tolerances_len, 0.0);
    add_rule(&rules, KAPITSA_LINEAR, 20, 20, 1e-9);
    add_rule(&rules, KAPITSA_ANGULAR, 30, 30, 1e-9);
    add_rule(&rules, KAPITSA_LINEAR, 10, 10, 1e-9);
    judged_by("64 rules", job, &rules, last);
}

/* Each row is judged by its own tolerance, in the solve and in the check. */
static void own_tolerances(void)
{
    struct job job = kinds();
    const struct solved plain = solve(&job, 0, KAPITSA_CONTROL, exactly);
    const double *list = plain.solution;
    struct checked found = check(&job, list, KAPITSA_CONTROL, exactly);
    expect(bits_of(found.gap[0]) > 0 && bits_of(found.gap[1]) > 0, "a gap above 0", "own rules");
    for (uint32_t row = 0; row < 3; row++) {
        job.rules = three_rules(row == 0 ? 0.0 : 1.0, row == 1 ? 0.0 : 1.0, row == 2 ? 0.0 : 1.0);
        expect(says(check(&job, list, KAPITSA_CONTROL, exactly), KAPITSA_OPEN),
               "one row's tolerance at 0 is enough to open", "own rules");
    }
    job.rules = three_rules(1.0, 1.0, found.gap[1]);
    expect(says(check(&job, list, KAPITSA_CONTROL, exactly), KAPITSA_CLOSED),
           "closed at the gap of the angular row", "own rules");
    job.rules.tolerances[0] = from_bits(bits_of(found.gap[1]) - 1);
    expect(says(check(&job, list, KAPITSA_CONTROL, exactly), KAPITSA_OPEN), "open one unit below",
           "own rules");
    job.rules = three_rules(1.0, 1.0, 1.0);
    struct solved solved = solve(&job, 0, KAPITSA_CONTROL, exactly);
    expect(solved.refusal == 0 && solved.counts[0] == 0 && solved.rule_numbers[0] == 2
           && solved.rule_numbers[1] == 1 && solved.rule_numbers[2] == 0
           && KEPT(solved.rule_numbers[3]), "rule numbers at count 0", "own rules");
    job.rules = three_rules(1.0, 1e-9, 1.0);
    solved = solve(&job, 0, KAPITSA_CONTROL, exactly);
    expect(solved.refusal == 0 && solved.counts[0] > 0 && solved.counts[1] == 1,
           "steps for one row's tolerance", "own rules");
}

/* The job with this rule behind those that it has. */
static struct job with_rule(struct job job, uint32_t dimension, uint32_t first, uint32_t last,
                            double tolerance)
{
    add_rule(&job.rules, dimension, first, last, tolerance);
    return job;
}

static void odd_rules(void)
{
    static const uint64_t odd[] = {MINUS | SMALLEST, MINUS | 0x3ff0000000000000u, INFINITE,
                                   MINUS | INFINITE, 0x7ff8000000000000u, 0x7ff0000000000001u,
                                   0xfff8000000000007u};
    const struct job rows = kinds();
    struct job none = rows;
    none.rows = 0;
    for (uint32_t without = 0; without < 2; without++) {
        const struct job job = without ? none : rows;
        struct job found = with_rule(job, KAPITSA_LINEAR, 41, 40, 0.5);
        refused_by(KAPITSA_REFUSED_RULE, "first above last", &found);
        found = with_rule(job, 2, 40, 40, 0.5);
        refused_by(KAPITSA_REFUSED_RULE, "dimension 2", &found);
        found = with_rule(job, UINT32_MAX, 40, 40, 0.5);
        refused_by(KAPITSA_REFUSED_RULE, "the largest dimension", &found);
        found = with_rule(job, KAPITSA_ANGULAR, 40, 256, 0.5);
        refused_by(KAPITSA_REFUSED_RULE, "last key 256", &found);
        found = with_rule(job, KAPITSA_LINEAR, 256, 256, 0.5);
        refused_by(KAPITSA_REFUSED_RULE, "first and last key 256", &found);
        found = with_rule(job, KAPITSA_LINEAR, 40, UINT32_MAX, 0.5);
        refused_by(KAPITSA_REFUSED_RULE, "the largest last key", &found);
        for (size_t i = 0; i < sizeof odd / sizeof odd[0]; i++) {
            found = with_rule(job, KAPITSA_LINEAR, 40, 40, from_bits(odd[i]));
            refused_by(KAPITSA_REFUSED_RULE, "an odd tolerance that no row uses", &found);
            found = job;
            found.rules.tolerances[i % 2] = from_bits(odd[i]);
            refused_by(KAPITSA_REFUSED_RULE, "an odd tolerance", &found);
        }
    }
    struct job job = with_rule(rows, 2, 20, 20, 0.5);
    job.rules.words[0] = 1; /* the linear rule is angular: 28 too */
    job.masses[0] = from_bits(INFINITE);
    refused_by(KAPITSA_REFUSED_RULE, "27 before 28 and 6", &job);
    job.words[7] = 1; /* spare */
    refused_by(KAPITSA_REFUSED_WORD, "4 before 27", &job);
}

static void rules_of_rows(void)
{
    struct job job = kinds();
    job.rules = no_rules();
    refused_by(KAPITSA_REFUSED_RULES_OF_ROW, "no rule", &job);
    add_rule(&job.rules, KAPITSA_LINEAR, 0, 255, 1e-9);
    refused_by(KAPITSA_REFUSED_RULES_OF_ROW, "no rule for the angular row", &job);
    job = kinds();
    job.rules.words[1] = 11;
    refused_by(KAPITSA_REFUSED_RULES_OF_ROW, "a key below the first", &job);
    job = kinds();
    job.rules.words[2] = 19;
    refused_by(KAPITSA_REFUSED_RULES_OF_ROW, "a key above the last", &job);
    job = with_rule(kinds(), KAPITSA_ANGULAR, 30, 30, 1e-9);
    refused_by(KAPITSA_REFUSED_RULES_OF_ROW, "a second rule over a row", &job);
    job.masses[0] = from_bits(INFINITE);
    refused_by(KAPITSA_REFUSED_RULES_OF_ROW, "28 before 6", &job);
    job.words[4] = 1; /* force_driven: 5 */
    refused_by(KAPITSA_REFUSED_RULES_OF_ROW, "28 before 5", &job);
    job.words[4] = 2;
    refused_by(KAPITSA_REFUSED_WORD, "4 before 28", &job);
}

/* Lengths that do not belong together, and one rule too many: 3, whatever the rules say. */
static void lengths_of_rules(void)
{
    struct job job = kinds();
    for (int more = -1; more < 2; more += 2) {
        struct job found = job;
        found.rules.words_len = (uint32_t)((int)found.rules.words_len + more);
        refused_by(KAPITSA_REFUSED_LENGTH, "words of another length", &found);
        found = job;
        found.rules.tolerances_len = (uint32_t)((int)found.rules.tolerances_len + more);
        refused_by(KAPITSA_REFUSED_LENGTH, "tolerances of another length", &found);
        found = job;
        found.rules.more_numbers = more;
        refused_by(KAPITSA_REFUSED_LENGTH, "rule numbers of another length", &found);
    }
    job.rules.more_numbers = NONE;
    refused_by(KAPITSA_REFUSED_LENGTH, "no room for rule numbers", &job);
    job = kinds();
    while (job.rules.tolerances_len < KAPITSA_MAX_RULES + 1)
        add_rule(&job.rules, 2, 40, 40, 0.5); /* 27 */
    refused_by(KAPITSA_REFUSED_LENGTH, "65 rules", &job);
    job.rules.words_len -= 3;
    job.rules.tolerances_len--;
    refused_by(KAPITSA_REFUSED_RULE, "64 rules", &job);
    job.rows = 0;
    refused_by(KAPITSA_REFUSED_RULE, "64 rules without rows", &job);
    add_rule(&job.rules, KAPITSA_LINEAR, 40, 40, 0.5);
    refused_by(KAPITSA_REFUSED_LENGTH, "65 rules without rows", &job);
}

void rules(void)
{
    sound_rules();
    own_tolerances();
    odd_rules();
    rules_of_rows();
    lengths_of_rules();
}
