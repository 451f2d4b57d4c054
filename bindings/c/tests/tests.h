/* What the tests of the boundary between the port and C share. Doubles are set and compared as bits, so
   that they are the same under -ffast-math. */
#ifndef TESTS_H
#define TESTS_H

#include "kapitsa.h"
#include <stdio.h>
#include <string.h>

/* ---- counting (jobs.c) */

extern unsigned passed, failed;

/* The jobs below are made, solved and checked for velocities where it is 1, else for positions. */
extern int speeds;

void expect(int holds, const char *what, const char *where);

/* The last line of a program's tests, and its exit status. */
int tell_all(void);

/* ---- doubles as bits, memory as bytes (jobs.c) */

#define INFINITE 0x7ff0000000000000u
#define MINUS 0x8000000000000000u
#define SMALLEST 1u                   /* 2^-1074, subnormal */
#define LARGEST 0x7fefffffffffffffu
#define P1_GAP 0x3cf1000000000000u    /* 17 * 2^-52 */
#define SMALL_SHIFT from_bits(0x3eb0000000000000u) /* 2^-20 */

double from_bits(uint64_t bits);
uint64_t bits_of(double number);
int all(int byte, const void *memory, size_t size);

/* What is lent is filled with it beforehand: what stays as it was shows. */
enum { PATTERN = 0x5a };

#define KEPT(lent) all(PATTERN, &(lent), sizeof(lent))

/* ---- the jobs (jobs.c) */

enum { ROWS = 6, BODIES = 3, LIMIT = 50 };

/* A table of rules, one more than there may be, and what is lent of it: of rule_numbers so many
   more than rows. */
struct rules {
    double tolerances[KAPITSA_MAX_RULES + 1];
    uint32_t words[3 * (KAPITSA_MAX_RULES + 1)], words_len, tolerances_len;
    int more_numbers;
};

void add_rule(struct rules *to, uint32_t dimension, uint32_t first, uint32_t last,
              double tolerance);
struct rules no_rules(void);
struct rules two_rules(double tolerance); /* one for all rows */
/* A rule for each row of kinds(), the last row's first, and with these tolerances for rows 0 to 2. */
struct rules three_rules(double first, double second, double third);

/* What is lent beside rules, answers and work memory; multipliers have the length of a solution. */
enum {
    NUMBERS, WORDS, MASSES, CENTRES, RESIDUALS, SOLUTION, IMPULSES, NEW_CENTRES, MARGIN_ROWS,
    MARGINS, SLICES
};

struct job {
    double numbers[27 * ROWS], masses[10 * BODIES], shift; /* shift 0 but in shifts() */
    double centres[3 * BODIES + 1], residuals[ROWS + 1];
    struct rules rules;
    uint32_t words[8 * ROWS], rows, bodies, limit;
    int more[SLICES]; /* so much more of each is lent than the counts call for */
};

void set_row(double *row, uint32_t *words, uint32_t a, uint32_t b, uint32_t owner);
/* A row's error, for velocities its negated residual, and then any error. */
void set_error(double *row, double *residual, double error);

/* Document 01's P1, for velocities V1, with this error and tolerance. */
struct job p1(double error, double tolerance);
/* Three rows of two joints on three bodies, with numbers that nothing divides evenly. */
struct job chain(void);
/* The chain, its rows of keys 10, 20 and 30, the last of them angular. */
struct job kinds(void);
/* Two rows of the chain and their two bodies; the memory behind is there. */
struct job two_of_the_chain(void);
/* Two rows that say the same but for 2^-28 in one number: mode 1 finds a pivot of 0. */
struct job worn(double shift);

extern const double no_multipliers[ROWS];

/* ---- the calls (calls.c) */

/* Longer than any call needs. */
extern double doubles[54 * KAPITSA_MAX_ROWS + 6 * KAPITSA_MAX_BODIES + 8];
extern uint32_t words[4 * KAPITSA_MAX_ROWS + 3 * KAPITSA_MAX_PAIRS + 9];

void fill_work(void);
/* The work memory is 0 as far as it is needed, and nothing is written behind it. */
int work_clear(size_t need_doubles, size_t need_words);

/* Work memory that is lent: so much more than is needed, or none. A check takes no words. */
struct lent {
    int more_doubles, more_words;
};

enum { NONE = -1000 };

extern const struct lent exactly;

size_t length(size_t need, int more);

struct solved {
    double numbers[27 * ROWS], solution[ROWS], impulses[6 * BODIES], maxima[2];
    double new_centres[3 * BODIES + 1];
    uint32_t rule_numbers[ROWS + 1], counts[2], refusal, control;
};

/* How much of each slice is lent. */
struct lengths {
    size_t of[SLICES], rule_numbers;
};

struct lengths lengths_of(const struct job *job);

/* A solve in a floating-point mode; .control is the mode that it leaves. */
struct solved solve(const struct job *job, uint32_t mode, unsigned control, struct lent lent);

struct checked {
    double gap[2], margins[ROWS + 1];
    uint32_t rule_numbers[ROWS + 1], margin_rows[ROWS + 1], refusal, verdict, control;
};

/* A check, alone or with its list. */
typedef uint32_t calls(const struct job *job, const double *multipliers, struct checked *to,
                       size_t doubles_len);

calls check_called, margins_called;

struct checked checked_by(calls *called, const struct job *job, const double *multipliers,
                          unsigned control, struct lent lent);
/* The check, and beside it the check with its list, which answers alike; the list is of that. */
struct checked check(const struct job *job, const double *multipliers, unsigned control,
                     struct lent lent);

int says(struct checked found, uint32_t verdict);
/* The largest reach of the linear rows and of the angular ones. */
int measures(const double gap[2], uint64_t linear, uint64_t angular);
/* Where the check says closed, n rows, each once, in the order of document 02, m, each dimension
   beginning with its gap. */
int in_order(const uint32_t *row_words, uint32_t n, const uint32_t *margin_rows,
             const double *margins, const double gap[2]);

/* The raw functions, in mode 0. */
uint32_t raw_solve(const struct job *job, unsigned control, double *solution);
uint32_t raw_check(const struct job *job, const double *multipliers, unsigned control,
                   uint32_t *verdict, size_t verdict_len, double *gap, size_t gap_len);

/* The raw check with its list, in the default mode; how much of each answer is lent. */
enum { RAW_ROWS, RAW_MARGINS, RAW_VERDICT, RAW_GAP, RAW_SLICES };

uint32_t raw_margins(const struct job *job, const double *multipliers, struct checked *to,
                     const size_t lengths[RAW_SLICES]);

/* ---- floating-point modes, and what is refused in each of them (refused.c) */

enum { DOWN = 0x2000, UP = 0x4000, TO_ZERO = 0x6000, FTZ_AND_DAZ = 0x8040, FLAGS = 0x3f };

enum { CONTROLS = 8 };

extern const struct control {
    const char *name;
    unsigned word;
} controls[CONTROLS];

/* A solve and the check of its solution: the same bits in every mode, which is left as it was. */
void alike(const char *name, const struct job *job, uint32_t mode);
/* True where nothing that a solve is lent to write into has been written. */
int nothing_written(const struct job *job, const struct solved *found);
/* The solve, in this mode, is refused by this number, and nothing is written. */
void solve_refused_by(uint32_t refusal, const char *what, const struct job *job, uint32_t mode);
void check_refused_by(uint32_t refusal, const char *what, const struct job *job);
/* Solve, in every mode, and check. */
void refused_by(uint32_t refusal, const char *what, const struct job *job);

/* ---- the themes, each in its file; those of the first two lines for positions and for velocities */

void modes(void), verdicts(void), shifts(void), rules(void), lengths(void), margins(void), groups(void);
void reports(void);
void centres(void), proposals(void), velocities(void), refusals(const char *table);

#endif
