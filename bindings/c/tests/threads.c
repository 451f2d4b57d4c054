/* No state is shared: eight threads call every function at once, each with memory of its own and in a
   floating-point mode of its own, and every answer is that of a call alone. */
#define _DEFAULT_SOURCE
#include "lent.h"
#include <pthread.h>
#include <stdlib.h>

enum { THREADS = 8, ROUNDS = 6, CALLS_OF_KIND = TABLES * FUNCTIONS };

/* What a call leaves, all slices in a row, and what it returns. */
struct left {
    size_t bytes;
    uint32_t refusal;
    unsigned char *memory;
};

static const struct table *all_tables;
static struct left alone[CALLS_OF_KIND];

static size_t bytes_of(const struct function *f, const struct table *t, int slice)
{
    /* each on its own multiple of 8 */
    return (length_of_kind(f->kinds[slice], t) * size_of_kind(f->kinds[slice]) + 7) / 8 * 8;
}

static struct left left_by(const struct function *f, const struct table *t)
{
    struct left to = {0, 0, NULL};
    struct lending lending;
    for (int i = 0; f->kinds[i] >= 0; i++)
        to.bytes += bytes_of(f, t, i);
    to.memory = (unsigned char *)malloc(to.bytes + 1);
    if (!to.memory)
        exit(2);
    memset(to.memory, PATTERN, to.bytes);
    unsigned char *at = to.memory;
    for (int i = 0; f->kinds[i] >= 0; i++) {
        const void *held = held_by_kind(f->kinds[i], t);
        lending.at[i] = at;
        lending.length[i] = length_of_kind(f->kinds[i], t);
        if (held)
            memcpy(at, held, lending.length[i] * size_of_kind(f->kinds[i]));
        at += bytes_of(f, t, i);
    }
    to.refusal = f->any_mode ? f->call(&lending, t) : called(f, &lending, t);
    return to;
}

static int is_of_kind(const struct function *f)
{
    return f->of_speeds != !speeds;
}

struct tried {
    unsigned control, same, calls;
};

static void *try_all(void *at)
{
    struct tried *to = (struct tried *)at;
    const unsigned before = _mm_getcsr();
    _mm_setcsr(to->control);
    for (int i = 0; i < ROUNDS * CALLS_OF_KIND; i++) {
        /* each thread begins elsewhere, so that different calls meet */
        const int call = (int)((unsigned)i + 31 * to->control) % CALLS_OF_KIND;
        const struct function *f = &functions[call % FUNCTIONS];
        if (!is_of_kind(f))
            continue;
        const struct left found = left_by(f, &all_tables[call / FUNCTIONS]);
        to->calls++;
        to->same += found.refusal == alone[call].refusal
            && !memcmp(found.memory, alone[call].memory, found.bytes) && _mm_getcsr() == to->control;
        free(found.memory);
    }
    _mm_setcsr(before);
    return NULL;
}

static void at_once(void)
{
    pthread_t threads[THREADS];
    struct tried tried[THREADS];
    all_tables = tables();
    for (int call = 0; call < CALLS_OF_KIND; call++)
        if (is_of_kind(&functions[call % FUNCTIONS])) {
            alone[call] = left_by(&functions[call % FUNCTIONS], &all_tables[call / FUNCTIONS]);
            expect(alone[call].refusal == KAPITSA_ACCEPTED, functions[call % FUNCTIONS].name, "alone");
        }
    for (int i = 0; i < THREADS; i++) {
        tried[i].control = controls[i % CONTROLS].word;
        tried[i].same = tried[i].calls = 0;
        if (pthread_create(&threads[i], NULL, try_all, &tried[i]) != 0)
            exit(2);
    }
    for (int i = 0; i < THREADS; i++) {
        pthread_join(threads[i], NULL);
        passed += tried[i].same;
        failed += tried[i].calls - tried[i].same;
        expect(tried[i].calls > 0 && tried[i].same == tried[i].calls, "as alone", controls[i % CONTROLS].name);
    }
    for (int call = 0; call < CALLS_OF_KIND; call++) {
        free(alone[call].memory);
        alone[call].memory = NULL;
    }
}

int main(void)
{
    for (speeds = 0; speeds < 2; speeds++)
        at_once();
    return tell_all();
}
