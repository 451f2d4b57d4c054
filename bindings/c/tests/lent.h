/* Every function of the header as the list of slices that it is lent, so that a test can say where each
   of them lies and how long it is (lent.c has the lists). */
#ifndef LENT_H
#define LENT_H

#include "tests.h"

/* What a function is told, and what its slices hold beforehand. */
struct table {
    const char *name;
    uint32_t rows, bodies, limit, mode, proposal[KAPITSA_PROPOSAL_WORDS];
    size_t rules;
    double shift;
    const double *numbers, *masses, *centres, *residuals, *tolerances;
    const uint32_t *words, *rule_words;
    double solution[KAPITSA_MAX_ROWS], started[KAPITSA_MAX_ROWS]; /* of its own proposal, or solve */
};

enum { MOST_SLICES = 32 };

/* Where each slice lies, and how long the function is told that it is. */
struct lending {
    void *at[MOST_SLICES];
    size_t length[MOST_SLICES];
};

struct function {
    const char *name;
    int of_speeds; /* 0 of positions, 1 of velocities, 2 of either */
    int any_mode;  /* one of those in _in, which leave the floating-point mode alone */
    int kinds[MOST_SLICES + 1]; /* of its slices, in order; -1 behind the last */
    uint32_t (*call)(const struct lending *, const struct table *);
};

enum { FUNCTIONS = 26 };

extern const struct function functions[FUNCTIONS];

/* Of a slice of this kind: how many numbers it has, the size of each in bytes, what it holds beforehand
   (NULL where it is only written), and whether its length is told and must be met exactly. */
size_t length_of_kind(int kind, const struct table *table);
size_t size_of_kind(int kind);
const void *held_by_kind(int kind, const struct table *table);
int is_told(int kind);
int may_be_longer(int kind); /* work memory in one piece */
int is_read_by_3(int kind);  /* a commit's proposal, whose row count judges other lengths */

/* A call in its default mode. */
uint32_t called(const struct function *function, const struct lending *lending,
                const struct table *table);

/* Three rows on three bodies, 512 on 256 under 64 rules, and none, in each mode, for positions or for
   velocities as `speeds` says, each solved once. */
enum { TABLES = 9 };
const struct table *tables(void);

#endif
