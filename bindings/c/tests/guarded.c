/* Nothing outside of what is lent is read or written: each slice lies by itself between two pages that
   nobody may touch, once right before the one and once right behind the other, and a call that strays
   by one byte ends the program. Lengths that do not fit are refused before anything is touched: then
   nothing of what is lent is there at all. */
#define _DEFAULT_SOURCE
#include "lent.h"
#include <stdlib.h>
#include <sys/mman.h>
#include <unistd.h>

/* A stretch of memory for each slice of a call, longer than any of them, between two guard pages. */
static unsigned char *stretches[MOST_SLICES], *nowhere;
static size_t page, room;

static unsigned char *mapped(size_t size, int protection)
{
    void *found = mmap(NULL, size, protection, MAP_PRIVATE | MAP_ANONYMOUS, -1, 0);
    if (found == MAP_FAILED) {
        perror("mmap");
        exit(2);
    }
    return (unsigned char *)found;
}

static void map_stretches(void)
{
    page = (size_t)sysconf(_SC_PAGESIZE);
    room = (sizeof doubles / page + 1) * page;
    for (int i = 0; i < MOST_SLICES; i++) {
        unsigned char *all = mapped(room + 2 * page, PROT_NONE);
        stretches[i] = all + page;
        if (mprotect(stretches[i], room, PROT_READ | PROT_WRITE) != 0) {
            perror("mprotect");
            exit(2);
        }
    }
    nowhere = mapped(page * MOST_SLICES, PROT_NONE);
}

enum place { APART, BEFORE_A_GUARD, BEHIND_A_GUARD, PLACES_TRIED };

/* A slice of these bytes in its place. One of no bytes begins in a guard page. */
static void *placed(int i, size_t bytes, enum place place)
{
    if (place == APART)
        return stretches[i] + 64;
    if (place == BEFORE_A_GUARD || bytes == 0)
        return stretches[i] + room - bytes;
    return stretches[i];
}

/* The slices of a call, filled with what they hold beforehand. */
static struct lending lent_at(const struct function *f, const struct table *t, enum place place)
{
    struct lending to;
    for (int i = 0; f->kinds[i] >= 0; i++) {
        const size_t bytes = length_of_kind(f->kinds[i], t) * size_of_kind(f->kinds[i]);
        const void *held = held_by_kind(f->kinds[i], t);
        memset(stretches[i], PATTERN, room);
        to.at[i] = placed(i, bytes, place);
        to.length[i] = length_of_kind(f->kinds[i], t);
        if (held)
            memcpy(to.at[i], held, bytes);
    }
    return to;
}

/* What a call leaves in each slice. */
static unsigned char *left[MOST_SLICES];

static void keep(const struct function *f, const struct table *t, const struct lending *from)
{
    for (int i = 0; f->kinds[i] >= 0; i++) {
        if (!left[i])
            left[i] = (unsigned char *)malloc(room);
        memcpy(left[i], from->at[i], length_of_kind(f->kinds[i], t) * size_of_kind(f->kinds[i]));
    }
}

static int same_as_kept(const struct function *f, const struct table *t, const struct lending *from)
{
    for (int i = 0; f->kinds[i] >= 0; i++)
        if (memcmp(left[i], from->at[i], length_of_kind(f->kinds[i], t) * size_of_kind(f->kinds[i])))
            return 0;
    return 1;
}

/* The same answer wherever the slices lie, and nothing touched beside them. */
static void within_what_is_lent(const struct function *f, const struct table *t)
{
    struct lending at = lent_at(f, t, APART);
    const uint32_t refusal = called(f, &at, t);
    expect(refusal == KAPITSA_ACCEPTED, f->name, t->name);
    keep(f, t, &at);
    for (int place = BEFORE_A_GUARD; place < PLACES_TRIED; place++) {
        at = lent_at(f, t, (enum place)place);
        expect(called(f, &at, t) == refusal && same_as_kept(f, t, &at), f->name, t->name);
    }
}

/* Every pointer to memory that is not there, but for a proposal that is to be committed. */
static struct lending lent_nowhere(const struct function *f, const struct table *t)
{
    struct lending to = lent_at(f, t, BEFORE_A_GUARD);
    for (int i = 0; f->kinds[i] >= 0; i++)
        if (!is_read_by_3(f->kinds[i]))
            to.at[i] = nowhere + page * (size_t)i;
    return to;
}

/* One slice of another length than it should have: none, one less, one more, as many more as a length
   of 32 bits would not show, and the largest there are. */
static void lengths_of_each(const struct function *f, const struct table *t)
{
    for (int i = 0; f->kinds[i] >= 0; i++) {
        const size_t fits = length_of_kind(f->kinds[i], t);
        const size_t tried[] = {0, fits - 1, fits + 1, fits + ((size_t)1 << 32), SIZE_MAX / 8, SIZE_MAX};
        for (size_t k = 0; k < 6 && is_told(f->kinds[i]); k++) {
            struct lending at = lent_nowhere(f, t);
            at.length[i] = tried[k];
            if (tried[k] == fits || (may_be_longer(f->kinds[i]) && tried[k] > fits))
                continue;
            expect(called(f, &at, t) == KAPITSA_REFUSED_LENGTH, "a slice of another length", f->name);
        }
    }
}

/* Counts and a mode that there are not, with the lengths that belong to the table, or with none. */
static void counts_beyond(const struct function *f, const struct table *t)
{
    static const uint32_t odd[][3] = {{513, 0, 0}, {UINT32_MAX, 0, 0}, {0, 257, 0}, {0, UINT32_MAX, 0},
                                      {0, 0, 3}, {0, 0, UINT32_MAX}, {159072863, 0, 0}, {0x8000001, 0, 0}};
    for (size_t k = 0; k < sizeof odd / sizeof odd[0]; k++) {
        struct table other = *t;
        struct lending at = lent_nowhere(f, t);
        other.rows = odd[k][0] ? odd[k][0] : t->rows;
        other.bodies = odd[k][1] ? odd[k][1] : t->bodies;
        other.mode = odd[k][2] ? odd[k][2] : t->mode;
        const int reads_mode = strstr(f->name, "solve") || strstr(f->name, "propose_");
        const int reads_bodies = reads_mode || strstr(f->name, "check") || strstr(f->name, "margins")
            || strstr(f->name, "gaps");
        if (strstr(f->name, "inverse") || (odd[k][1] && !reads_bodies) || (odd[k][2] && !reads_mode))
            continue;
        expect(called(f, &at, &other) == KAPITSA_REFUSED_LENGTH, "beyond the limits", f->name);
        for (int i = 0; f->kinds[i] >= 0; i++)
            at.length[i] = is_read_by_3(f->kinds[i]) ? at.length[i] : 0;
        expect(called(f, &at, &other) == KAPITSA_REFUSED_LENGTH, "beyond the limits, no length", f->name);
    }
}

int main(void)
{
    map_stretches();
    for (speeds = 0; speeds < 2; speeds++) {
        const struct table *all_tables = tables();
        for (int k = 0; k < TABLES; k++)
            for (int i = 0; i < FUNCTIONS; i++) {
                if (functions[i].of_speeds == !speeds)
                    continue;
                within_what_is_lent(&functions[i], &all_tables[k]);
                lengths_of_each(&functions[i], &all_tables[k]);
                counts_beyond(&functions[i], &all_tables[k]);
            }
    }
    return tell_all();
}
