/* Several mechanisms on one bench: document 02, g. */
#include "tests.h"

struct bench {
    double numbers[27 * KAPITSA_MAX_ROWS], masses[10 * KAPITSA_MAX_BODIES], shift;
    double centres[3 * KAPITSA_MAX_BODIES + 1], residuals[KAPITSA_MAX_ROWS + 1];
    struct rules rules;
    uint32_t words[8 * KAPITSA_MAX_ROWS], rows, bodies, limit;
};

struct grouped {
    double numbers[27 * KAPITSA_MAX_ROWS], solution[KAPITSA_MAX_ROWS + 1];
    double impulses[6 * KAPITSA_MAX_BODIES + 1], new_centres[3 * KAPITSA_MAX_BODIES + 1];
    double maxima[2 * KAPITSA_MAX_ROWS + 1];
    uint32_t rule_numbers[KAPITSA_MAX_ROWS + 1], groups[KAPITSA_MAX_ROWS + 1];
    uint32_t answers[3 * KAPITSA_MAX_ROWS + 1], count[2], refusal, control;
};

static uint32_t add_row(struct bench *bench, uint32_t a, uint32_t b, uint32_t axis, double error)
{
    const uint32_t i = bench->rows++;
    double *row = bench->numbers + 27 * i;
    set_row(row, bench->words + 8 * i, a, b, i);
    row[0] = row[9] = 0.0;
    row[axis] = 1.0;
    row[9 + axis] = -1.0;
    set_error(row, bench->residuals + i, error);
    return i;
}

/* So many bodies, the first a frame of zero mass, each at a place of its own. */
static struct bench *bench_of(uint32_t bodies)
{
    static struct bench bench;
    memset(&bench, 0, sizeof bench);
    for (uint32_t j = 1; j < bodies; j++) /* with roots that are exact */
        bench.masses[10 * j] = j % 3 == 0 ? 0.25 : j % 3 == 1 ? 1.0 : 4.0;
    for (uint32_t k = 0; k < 3 * bodies; k++)
        bench.centres[k] = 0.125 * k - 0.75;
    bench.bodies = bodies;
    bench.limit = LIMIT;
    bench.rules = two_rules(1e-9);
    return &bench;
}

/* Two chains that hang on one frame, their rows by turns, and a body in no row. */
static struct bench *two_mechanisms(void)
{
    struct bench *bench = bench_of(6);
    add_row(bench, 0, 3, 0, 0.25);
    add_row(bench, 1, 0, 0, -0.125);
    add_row(bench, 4, 3, 0, 0.1);
    add_row(bench, 1, 2, 0, 0.3);
    add_row(bench, 3, 4, 1, -0.2);
    return bench;
}

/* What a solve by groups takes beside its counts, in the order in which it is lent. */
enum {
    G_NUMBERS, G_WORDS, G_MASSES, G_BESIDE, G_RULE_WORDS, G_TOLERANCES, G_SOLUTION, G_IMPULSES,
    G_NEW_CENTRES, G_RULE_NUMBERS, G_GROUPS, G_ANSWERS, G_MAXIMA, G_COUNT, G_SLICES
};


/* The raw functions, which are told the length of count too; so much more of one slice is lent. */
static struct grouped *raw_groups(const struct bench *b, uint32_t mode, int slice, int more)
{
    static struct grouped to;
    const size_t n = b->rows, m = b->bodies;
    size_t l[G_SLICES] = {27 * n, 8 * n, 10 * m, speeds ? n : 3 * m, b->rules.words_len,
                          b->rules.tolerances_len, n, 6 * m, 3 * m, n, n, 3 * n, 2 * n, 1};
    if (slice < G_SLICES)
        l[slice] += (size_t)more;
    memset(&to, PATTERN, sizeof to);
    memcpy(to.numbers, b->numbers, sizeof to.numbers);
    const unsigned before = _mm_getcsr();
    _mm_setcsr(KAPITSA_CONTROL);
    if (speeds)
        to.refusal = kapitsa_solve_velocity_groups(
            to.numbers, l[0], b->words, l[1], b->masses, l[2], b->residuals, l[3],
            b->rules.words, l[4], b->rules.tolerances, l[5], b->rows, b->bodies, b->limit, mode,
            b->shift, to.solution, l[6], to.impulses, l[7], to.rule_numbers, l[9], to.groups,
            l[10], to.answers, l[11], to.maxima, l[12], to.count, l[13]);
    else
        to.refusal = kapitsa_solve_groups(
            to.numbers, l[0], b->words, l[1], b->masses, l[2], b->centres, l[3],
            b->rules.words, l[4], b->rules.tolerances, l[5], b->rows, b->bodies, b->limit, mode,
            b->shift, to.solution, l[6], to.impulses, l[7], to.new_centres, l[8],
            to.rule_numbers, l[9], to.groups, l[10], to.answers, l[11], to.maxima, l[12],
            to.count, l[13]);
    _mm_setcsr(before);
    return &to;
}

/* The same in a floating-point mode; .control is the mode that it leaves. */
static struct grouped *groups_in(const struct bench *b, uint32_t mode, unsigned control)
{
    static struct grouped to;
    const size_t n = b->rows, m = b->bodies;
    memset(&to, PATTERN, sizeof to);
    memcpy(to.numbers, b->numbers, sizeof to.numbers);
    const unsigned before = _mm_getcsr();
    _mm_setcsr(control);
    if (speeds)
        to.refusal = kapitsa_solve_velocity_groups_in(
            to.numbers, 27 * n, b->words, 8 * n, b->masses, 10 * m, b->residuals, n,
            b->rules.words, b->rules.words_len, b->rules.tolerances, b->rules.tolerances_len,
            b->rows, b->bodies, b->limit, mode, b->shift, to.solution, n, to.impulses, 6 * m,
            to.rule_numbers, n, to.groups, n, to.answers, 3 * n, to.maxima, 2 * n, to.count);
    else
        to.refusal = kapitsa_solve_groups_in(
            to.numbers, 27 * n, b->words, 8 * n, b->masses, 10 * m, b->centres, 3 * m,
            b->rules.words, b->rules.words_len, b->rules.tolerances, b->rules.tolerances_len,
            b->rows, b->bodies, b->limit, mode, b->shift, to.solution, n, to.impulses, 6 * m,
            to.new_centres, 3 * m, to.rule_numbers, n, to.groups, n, to.answers, 3 * n,
            to.maxima, 2 * n, to.count);
    to.control = _mm_getcsr();
    _mm_setcsr(before);
    return &to;
}

static int stays(const struct bench *b, uint32_t body)
{
    for (uint32_t k = 0; k < 10; k++)
        if ((bits_of(b->masses[10 * body + k]) & ~MINUS) != 0)
            return 0;
    return 1;
}

/* The group of each body, or count for one that is in none. */
static void groups_of_bodies(const struct bench *b, const struct grouped *found, uint32_t *to)
{
    for (uint32_t j = 0; j < b->bodies; j++)
        to[j] = found->count[0];
    for (uint32_t i = 0; i < 2 * b->rows; i++) {
        const uint32_t body = b->words[8 * (i / 2) + 2 + i % 2];
        if (!stays(b, body))
            to[body] = found->groups[i / 2];
    }
}

/* The rows of a group as a table of their own, with all bodies, solved as one. */
static struct grouped *alone(const struct bench *b, const struct grouped *found, uint32_t group,
                             uint32_t mode, uint32_t *rows)
{
    static struct bench own;
    static struct grouped to;
    own = *b;
    own.rows = 0;
    for (uint32_t i = 0; i < b->rows; i++)
        if (found->groups[i] == group) {
            memcpy(own.numbers + 27 * own.rows, b->numbers + 27 * i, 27 * sizeof(double));
            memcpy(own.words + 8 * own.rows, b->words + 8 * i, 8 * sizeof(uint32_t));
            own.residuals[own.rows] = b->residuals[i];
            rows[own.rows++] = i;
        }
    const uint32_t n = own.rows, m = own.bodies;
    const size_t d = kapitsa_solve_doubles(n, m, mode), w = kapitsa_solve_words(n, m, mode);
    memset(&to, PATTERN, sizeof to);
    memcpy(to.numbers, own.numbers, sizeof to.numbers);
    to.count[0] = n;
    if (speeds)
        to.refusal = kapitsa_solve_velocity_in(
            to.numbers, 27 * n, own.words, 8 * n, own.masses, 10 * m, own.residuals, n,
            own.rules.words, own.rules.words_len, own.rules.tolerances, own.rules.tolerances_len,
            n, m, own.limit, mode, own.shift, to.solution, n, to.impulses, 6 * m, to.rule_numbers,
            n, to.answers + 1, to.maxima, doubles, d, words, w);
    else
        to.refusal = kapitsa_solve_in(
            to.numbers, 27 * n, own.words, 8 * n, own.masses, 10 * m, own.centres, 3 * m,
            own.rules.words, own.rules.words_len, own.rules.tolerances, own.rules.tolerances_len,
            n, m, own.limit, mode, own.shift, to.solution, n, to.impulses, 6 * m, to.new_centres,
            3 * m, to.rule_numbers, n, to.answers + 1, to.maxima, doubles, d, words, w);
    to.answers[0] = to.refusal;
    if (to.refusal != 0)
        to.answers[1] = to.answers[2] = 0;
    return &to;
}

/* A group's rows and bodies have the bits of its rows solved alone. */
static int as_alone(const struct bench *b, const struct grouped *found, uint32_t group,
                    uint32_t mode, const uint32_t *of_body)
{
    static uint32_t rows[KAPITSA_MAX_ROWS];
    const struct grouped *own = alone(b, found, group, mode, rows);
    int good = !memcmp(found->answers + 3 * group, own->answers, 3 * sizeof(uint32_t))
        && !memcmp(found->maxima + 2 * group, own->maxima, 2 * sizeof(double));
    for (uint32_t k = 0; k < own->count[0]; k++) {
        const uint32_t i = rows[k];
        good &= !memcmp(found->numbers + 27 * i, own->numbers + 27 * k, 27 * sizeof(double))
            && !memcmp(found->solution + i, own->solution + k, sizeof(double))
            && found->rule_numbers[i] == own->rule_numbers[k];
    }
    for (uint32_t j = 0; j < b->bodies; j++)
        if (of_body[j] == group)
            good &= !memcmp(found->impulses + 6 * j, own->impulses + 6 * j, 6 * sizeof(double))
                && !memcmp(found->new_centres + 3 * j, own->new_centres + 3 * j, 3 * sizeof(double));
    return good;
}

/* All of an accepted bench: so many groups, each as alone, the other bodies, and nothing behind. */
static void grouped_well(const struct bench *b, const struct grouped *found, uint32_t mode,
                         uint32_t count, const char *what)
{
    expect(found->refusal == 0 && found->count[0] == count && KEPT(found->count[1]), what, "groups");
    if (found->refusal != 0 || found->count[0] > b->rows)
        return;
    static uint32_t of_body[KAPITSA_MAX_BODIES];
    groups_of_bodies(b, found, of_body);
    for (uint32_t g = 0; g < found->count[0]; g++)
        expect(as_alone(b, found, g, mode, of_body), what, "as its rows alone");
    for (uint32_t j = 0; j < b->bodies; j++) {
        if (of_body[j] != found->count[0])
            continue;
        expect(all(0, found->impulses + 6 * j, 6 * sizeof(double))
               && (speeds || !memcmp(found->new_centres + 3 * j, b->centres + 3 * j, 3 * sizeof(double))),
               what, "a body of no group");
    }
    const uint32_t n = b->rows, m = b->bodies, c = found->count[0];
    expect(all(PATTERN, found->answers + 3 * c, sizeof found->answers - 12 * c)
           && all(PATTERN, found->maxima + 2 * c, sizeof found->maxima - 16 * c)
           && all(PATTERN, found->solution + n, sizeof found->solution - 8 * n)
           && all(PATTERN, found->impulses + 6 * m, sizeof found->impulses - 48 * m)
           && all(PATTERN, found->rule_numbers + n, sizeof found->rule_numbers - 4 * n)
           && all(PATTERN, found->groups + n, sizeof found->groups - 4 * n)
           && all(PATTERN, found->new_centres + 3 * m, sizeof found->new_centres - 24 * m)
           && (!speeds || KEPT(found->new_centres)), what, "behind what is lent");
}

/* Nothing but the refusal. */
static int untouched(const struct bench *b, const struct grouped *found)
{
    return !memcmp(found->numbers, b->numbers, sizeof found->numbers) && KEPT(found->solution)
        && KEPT(found->impulses) && KEPT(found->new_centres) && KEPT(found->maxima)
        && KEPT(found->rule_numbers) && KEPT(found->groups) && KEPT(found->answers)
        && KEPT(found->count);
}

static void whole_refused(uint32_t refusal, const char *what, const struct bench *b)
{
    for (uint32_t mode = 0; mode < 3; mode++) {
        const struct grouped *found = raw_groups(b, mode, G_SLICES, 0);
        expect(found->refusal == refusal && untouched(b, found), what, "the whole bench");
    }
}

static void mechanisms(void)
{
    static const uint32_t groups[] = {0, 1, 0, 1, 0};
    /* of rows that contradict each other: mode 0 goes on to the limit */
    static const uint32_t refusals[] = {KAPITSA_ACCEPTED, KAPITSA_REFUSED_PIVOT,
                                        KAPITSA_REFUSED_BLOCK};
    for (uint32_t mode = 0; mode < 3; mode++) {
        struct bench *bench = two_mechanisms();
        const struct grouped *found = raw_groups(bench, mode, G_SLICES, 0);
        grouped_well(bench, found, mode, 2, "two mechanisms on one frame");
        expect(!memcmp(found->groups, groups, sizeof groups), "which rows", "groups");
        expect(found->answers[0] == 0 && found->answers[3] == 0, "both accepted", "groups");
        for (int i = 0; i < CONTROLS; i++) {
            const struct grouped *again = groups_in(bench, mode, controls[i].word);
            expect(again->control == controls[i].word, controls[i].name, "the mode is kept");
            expect(!memcmp(again, found, offsetof(struct grouped, control)), controls[i].name,
                   "groups in this mode");
        }
        for (uint32_t k = 0; k < 10; k++) /* zeros of the other sign, one by one */
            bench->masses[k] = from_bits(MINUS);
        grouped_well(bench, raw_groups(bench, mode, G_SLICES, 0), mode, 2, "a frame of -0.0");
        bench->masses[7] = from_bits(SMALLEST);
        grouped_well(bench, raw_groups(bench, mode, G_SLICES, 0), mode, 1, "a frame that moves");
        bench = two_mechanisms();
        for (uint32_t i = 0; i < 5; i++) /* of one joint; in its group the rows follow each other */
            bench->words[8 * i + 6] = 0;
        bench->words[8 * add_row(bench, 1, 2, 0, -0.3) + 6] = 0;
        found = raw_groups(bench, mode, G_SLICES, 0);
        grouped_well(bench, found, mode, 2, "one refused");
        expect(found->answers[3] == refusals[mode], "its refusal", "groups");
        bench->numbers[27 * 5 + 18] = 1.0; /* compliance */
        found = raw_groups(bench, mode, G_SLICES, 0);
        grouped_well(bench, found, mode, 2, "one refused by 5");
        expect(found->answers[3] == KAPITSA_REFUSED_OPENING, "its refusal by 5", "groups");
        bench->limit = 0;
        grouped_well(bench, raw_groups(bench, mode, G_SLICES, 0), mode, 2, "limit 0");
        bench->rows = 0;
        grouped_well(bench, raw_groups(bench, mode, G_SLICES, 0), mode, 0, "no rows");
        bench->bodies = 0;
        grouped_well(bench, raw_groups(bench, mode, G_SLICES, 0), mode, 0, "nothing at all");
    }
}

static void whole_benches(void)
{
    struct bench *bench = two_mechanisms();
    for (int slice = 0; slice < G_SLICES; slice++)
        for (int more = -1; more < 2; more += 2) {
            const struct grouped *found = raw_groups(bench, KAPITSA_DIAGONAL, slice, more);
            const int unused = speeds && slice == G_NEW_CENTRES;
            expect(unused ? found->refusal == 0 : found->refusal == 3 && untouched(bench, found),
                   "one slice of another length", "the whole bench");
        }
    /* Each refusal, and with it what is judged later. */
    bench->limit = 0;
    bench->numbers[27 + 24] = from_bits(INFINITE); /* accumulated_multiplier */
    whole_refused(KAPITSA_REFUSED_ROW, "7", bench);
    if (speeds) {
        bench->residuals[4] = from_bits(INFINITE);
        whole_refused(KAPITSA_REFUSED_SPEED, "20", bench);
    } else {
        bench->centres[5 * 3 + 2] = from_bits(INFINITE); /* of the body in no row */
        whole_refused(KAPITSA_REFUSED_MASS, "6 by a centre", bench);
    }
    bench->masses[10 * 5 + 9] = from_bits(INFINITE);
    whole_refused(KAPITSA_REFUSED_MASS, "6", bench);
    bench->words[8] = 7; /* key */
    bench->rules.words[2] = 6;
    whole_refused(KAPITSA_REFUSED_RULES_OF_ROW, "28", bench);
    bench->rules.tolerances[1] = from_bits(INFINITE);
    whole_refused(KAPITSA_REFUSED_RULE, "27", bench);
    bench->words[8 * 3 + 7] = 1; /* spare */
    whole_refused(KAPITSA_REFUSED_WORD, "4", bench);
    bench->shift = 1.5;
    whole_refused(KAPITSA_REFUSED_SHIFT, "25", bench);
    const struct grouped *found = raw_groups(bench, 3, G_SLICES, 0);
    expect(found->refusal == 3 && untouched(bench, found), "mode 3", "the whole bench");
    bench = bench_of(2);
    bench->shift = -1.0;
    whole_refused(KAPITSA_REFUSED_SHIFT, "25 without rows", bench);
}

/* 512 rows: one chain; 170 parts on a frame, of which the last has two rows twice. */
static void largest_benches(void)
{
    for (uint32_t mode = 0; mode < 3; mode++) {
        struct bench *bench = bench_of(KAPITSA_MAX_BODIES);
        for (uint32_t i = 0; i < KAPITSA_MAX_ROWS; i++)
            bench->words[8 * add_row(bench, i / 3, i / 3 + 1, i % 3, 0.0009765625 * (i % 7)) + 6] = i / 3;
        bench->limit = 400;
        grouped_well(bench, raw_groups(bench, mode, G_SLICES, 0), mode, 1, "512 rows in one group");
        bench = bench_of(KAPITSA_MAX_BODIES);
        for (uint32_t i = 0; i < KAPITSA_MAX_ROWS; i++) {
            const uint32_t part = i / 3 < 170 ? i / 3 : 169;
            bench->words[8 * add_row(bench, part + 1, 0, i % 3, 0.0009765625 * (part % 7)) + 6] = part;
        }
        const struct grouped *found = raw_groups(bench, mode, G_SLICES, 0);
        grouped_well(bench, found, mode, 170, "512 rows in 170 groups");
        uint32_t refused = 0;
        for (uint32_t g = 0; g < 170; g++)
            refused += found->answers[3 * g] != 0;
        expect(refused == (mode != 0), "the last one refused by its factor", "512 rows");
    }
}

void groups(void)
{
    mechanisms();
    whole_benches();
    largest_benches();
}
