/* The constants and words of kapitsa_refusals.h held to docs/refusals.tsv, line by line. */
#include "tests.h"
#include <ctype.h>
#include <stdlib.h>

/* Each constant under its own name. */
static const struct {
    const char *name;
    uint32_t number;
} constants[] = {
#define NAMED(name) {#name, KAPITSA_REFUSED_##name}
    NAMED(FILE), NAMED(SECTIONS), NAMED(LENGTH), NAMED(WORD), NAMED(OPENING), NAMED(MASS), NAMED(ROW),
    NAMED(DIAGONAL), NAMED(IMMOVABLE), NAMED(PAIRS), NAMED(BLOCK), NAMED(VALUE), NAMED(PIVOT),
    NAMED(RESIDUAL), NAMED(DIRECTION), NAMED(STEP), NAMED(RESULT), NAMED(RANGE), NAMED(ROOT),
    NAMED(SPEED), NAMED(NUMBER), NAMED(SYMMETRY), NAMED(DEFINITE), NAMED(LAYOUT), NAMED(SHIFT),
    NAMED(TOLERANCE), NAMED(RULE), NAMED(RULES_OF_ROW), NAMED(COMMITTED), NAMED(MOVED),
#undef NAMED
};

enum { REFUSALS = sizeof constants / sizeof constants[0] };

/* True where RULES_OF_ROW is RulesOfRow. */
static int same_name(const char *constant, const char *name)
{
    for (; *constant && *name; constant++) {
        if (*constant == '_')
            continue;
        if (*constant != toupper((unsigned char)*name))
            return 0;
        name++;
    }
    return !*constant && !*name;
}

static void refusal_of_line(uint32_t number, char *line)
{
    char *cell[4] = {line, NULL, NULL, NULL};
    for (int i = 1; i < 4; i++) {
        char *tab = cell[i - 1] ? strchr(cell[i - 1], '\t') : NULL;
        if (tab)
            *tab = '\0';
        cell[i] = tab ? tab + 1 : NULL;
    }
    line[strcspn(line, "\n")] = '\0';
    if (cell[3])
        cell[3][strcspn(cell[3], "\n")] = '\0';
    expect(cell[3] && number <= REFUSALS && (uint32_t)strtoul(cell[0], NULL, 10) == number
           && constants[number - 1].number == number
           && same_name(constants[number - 1].name, cell[1])
           && !strcmp(kapitsa_refusal_text(number), cell[2])
           && !strcmp(kapitsa_refusal_advice(number), cell[3]), "a line of the table", line);
}

void refusals(const char *table)
{
    char line[512];
    uint32_t number = 0;
    FILE *from = fopen(table, "r");
    expect(from != NULL, "the table is there", table);
    if (!from)
        return;
    expect(fgets(line, sizeof line, from) && !strcmp(line, "number\tname\ttext\tadvice\n"), "its head",
           table);
    while (fgets(line, sizeof line, from))
        refusal_of_line(++number, line);
    fclose(from);
    expect(number == REFUSALS, "as many lines as constants", table);
    for (uint32_t odd = 0; odd < 3; odd++) {
        const uint32_t none = odd == 0 ? REFUSALS + 1 : odd == 1 ? 255 : UINT32_MAX;
        expect(!strcmp(kapitsa_refusal_text(none), "There is no such refusal.")
               && !strcmp(kapitsa_refusal_advice(none), ""), "no such refusal", "words");
    }
    expect(!strcmp(kapitsa_refusal_text(KAPITSA_ACCEPTED), "Nothing is refused.")
           && !strcmp(kapitsa_refusal_advice(KAPITSA_ACCEPTED), ""), "nothing refused", "words");
    char version[32];
    snprintf(version, sizeof version, "%d.%d.%d", KAPITSA_VERSION_MAJOR, KAPITSA_VERSION_MINOR,
             KAPITSA_VERSION_PATCH);
    expect(!strcmp(version, KAPITSA_VERSION), "the version's numbers", KAPITSA_VERSION);
}
