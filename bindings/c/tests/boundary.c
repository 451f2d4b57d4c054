/* The boundary between the port and C: what a caller can get wrong. The last line is
   `N passed, 0 failed`; the exit is 1 otherwise. Its argument is docs/refusals.tsv. */
#include "tests.h"

int main(int count, char **arguments)
{
    const unsigned start = _mm_getcsr();
    if (count != 2)
        return 2;
#ifdef __FAST_MATH__
    expect(start == (KAPITSA_CONTROL | FTZ_AND_DAZ), "FTZ and DAZ at the start", "-ffast-math");
#else
    expect(start == KAPITSA_CONTROL, "the default mode at the start", "start");
#endif
    for (speeds = 0; speeds < 2; speeds++) {
        modes();
        verdicts();
        shifts();
        rules();
        lengths();
        margins();
        groups();
        reports();
    }
    speeds = 0;
    centres();
    proposals();
    velocities();
    refusals(arguments[1]);
    expect(_mm_getcsr() == start, "the mode at the start is left as it was", "end");
    return tell_all();
}
