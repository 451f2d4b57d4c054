/* Refusals are no verdicts: what a caller can get wrong without reading "closed". */
#include "tests.h"

static void told(void)
{
    static const double multiplier[] = {0.25};
    const struct job closed = p1(-0.25, from_bits(0x3d00000000000000u)); /* P2: 2^-47 */
    const struct job open = p1(-0.25, from_bits(0x3cf0000000000000u));   /* P3: 2^-48 */
    const struct job tiny = p1(from_bits(SMALLEST), 0.0); /* was called closed with FTZ and DAZ */
    struct job angular = open;
    angular.words[1] = 1;
    struct checked found = check(&closed, multiplier, KAPITSA_CONTROL, exactly);
    expect(says(found, KAPITSA_CLOSED) && measures(found.gap, P1_GAP, 0), "P2", "");
    found = check(&open, multiplier, KAPITSA_CONTROL, exactly);
    expect(says(found, KAPITSA_OPEN) && measures(found.gap, P1_GAP, 0), "P3", "");
    found = check(&angular, multiplier, KAPITSA_CONTROL, exactly);
    expect(says(found, KAPITSA_OPEN) && measures(found.gap, 0, P1_GAP), "P3", "angular");
    for (size_t i = 0; i < CONTROLS; i++) {
        found = check(&tiny, no_multipliers, controls[i].word, exactly);
        expect(found.refusal == KAPITSA_REFUSED_RANGE && KEPT(found.verdict) && KEPT(found.gap)
               && KEPT(found.rule_numbers) && work_clear(26, 0),
               "18 for a subnormal error, and no verdict", controls[i].name);
        if (controls[i].word == 0)
            continue; /* the raw check would be ended by an exception */
        uint32_t verdict = 9;
        double gap[2];
        memset(gap, PATTERN, sizeof gap);
        expect(raw_check(&tiny, no_multipliers, controls[i].word, &verdict, 1, gap, 2)
               == KAPITSA_REFUSED_RANGE && verdict == 9 && KEPT(gap), "18 by the raw check",
               controls[i].name);
    }
}

/* The raw check takes a verdict of 1 and a gap of 2. */
static void lengths_told(void)
{
    static const double multiplier[] = {0.25};
    const struct job sheet = p1(-0.25, 0.001);
    for (size_t verdict_len = 0; verdict_len < 3; verdict_len++)
        for (size_t gap_len = 0; gap_len < 4; gap_len++) {
            const uint32_t fits = verdict_len == 1 && gap_len == 2;
            uint32_t verdict[2];
            double gap[3];
            memset(verdict, PATTERN, sizeof verdict);
            memset(gap, PATTERN, sizeof gap);
            const uint32_t refusal = raw_check(&sheet, multiplier, KAPITSA_CONTROL, verdict,
                                               verdict_len, gap, gap_len);
            expect(fits ? refusal == 0 && verdict[0] == KAPITSA_CLOSED && measures(gap, P1_GAP, 0)
                              && KEPT(verdict[1]) && KEPT(gap[2])
                        : refusal == KAPITSA_REFUSED_LENGTH && KEPT(verdict) && KEPT(gap),
                   "a verdict of another length than 1, or a gap than 2", "raw");
        }
}

void verdicts(void)
{
    told();
    lengths_told();
}
