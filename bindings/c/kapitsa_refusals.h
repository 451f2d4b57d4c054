/* The refusals of kapitsa.h: a constant for each number, what it says in plain words, and what to do.
   Made by bindings/refusals from docs/refusals.tsv. The functions for C never return 1, 2, 19, 24 or
   26: those are the programs'. */
#ifndef KAPITSA_REFUSALS_H
#define KAPITSA_REFUSALS_H

#include <stdint.h>

enum kapitsa_refusal {
    KAPITSA_ACCEPTED = 0,
    KAPITSA_REFUSED_FILE = 1,
    KAPITSA_REFUSED_SECTIONS = 2,
    KAPITSA_REFUSED_LENGTH = 3,
    KAPITSA_REFUSED_WORD = 4,
    KAPITSA_REFUSED_OPENING = 5,
    KAPITSA_REFUSED_MASS = 6,
    KAPITSA_REFUSED_ROW = 7,
    KAPITSA_REFUSED_DIAGONAL = 8,
    KAPITSA_REFUSED_IMMOVABLE = 9,
    KAPITSA_REFUSED_PAIRS = 10,
    KAPITSA_REFUSED_BLOCK = 11,
    KAPITSA_REFUSED_VALUE = 12,
    KAPITSA_REFUSED_PIVOT = 13,
    KAPITSA_REFUSED_RESIDUAL = 14,
    KAPITSA_REFUSED_DIRECTION = 15,
    KAPITSA_REFUSED_STEP = 16,
    KAPITSA_REFUSED_RESULT = 17,
    KAPITSA_REFUSED_RANGE = 18,
    KAPITSA_REFUSED_ROOT = 19,
    KAPITSA_REFUSED_SPEED = 20,
    KAPITSA_REFUSED_NUMBER = 21,
    KAPITSA_REFUSED_SYMMETRY = 22,
    KAPITSA_REFUSED_DEFINITE = 23,
    KAPITSA_REFUSED_LAYOUT = 24,
    KAPITSA_REFUSED_SHIFT = 25,
    KAPITSA_REFUSED_TOLERANCE = 26,
    KAPITSA_REFUSED_RULE = 27,
    KAPITSA_REFUSED_RULES_OF_ROW = 28,
    KAPITSA_REFUSED_COMMITTED = 29,
    KAPITSA_REFUSED_MOVED = 30
};

/* What a refusal says, in one sentence. */
static inline const char *kapitsa_refusal_text(uint32_t refusal)
{
    switch (refusal) {
    case KAPITSA_ACCEPTED:
        return "Nothing is refused.";
    case KAPITSA_REFUSED_FILE:
        return "The file is no job file: too short, too long, cut off or damaged.";
    case KAPITSA_REFUSED_SECTIONS:
        return "The file has more than 128 rows or 64 bodies, or its sections overlap or run over its end.";
    case KAPITSA_REFUSED_LENGTH:
        return "A count, the mode or the length of a slice does not fit, or there are more than 64 rules; of the converter, its argument is not old or new.";
    case KAPITSA_REFUSED_WORD:
        return "A row's key, kind, flags or spare has a value that there is none of.";
    case KAPITSA_REFUSED_OPENING:
        return "There are rows and the step limit is 0, or a row is not a rigid joint to be closed: off, compliant, damped, driven by force or bounded.";
    case KAPITSA_REFUSED_MASS:
        return "A mass, an inertia or a centre is not a finite number.";
    case KAPITSA_REFUSED_ROW:
        return "A row has a number that is not finite or not allowed, or names a body that there is not.";
    case KAPITSA_REFUSED_DIAGONAL:
        return "A row cannot be moved: its bodies are too light to compute with.";
    case KAPITSA_REFUSED_IMMOVABLE:
        return "A row cannot be moved: both its bodies are fixed while the joint gapes.";
    case KAPITSA_REFUSED_PAIRS:
        return "Mode 1: more than 16,384 pairs of rows share a body.";
    case KAPITSA_REFUSED_BLOCK:
        return "Mode 2: a joint has more than six rows, or rows on differing bodies.";
    case KAPITSA_REFUSED_VALUE:
        return "The preconditioner of mode 1 or 2, or an inverse inertia, goes beyond the doubles.";
    case KAPITSA_REFUSED_PIVOT:
        return "Modes 1 and 2: rows say the same thing twice.";
    case KAPITSA_REFUSED_RESIDUAL:
        return "The steps cannot go on: rows contradict each other, or the tolerance is beyond what doubles hold.";
    case KAPITSA_REFUSED_DIRECTION:
        return "The steps cannot go on: rows contradict each other, or the tolerance is beyond what doubles hold.";
    case KAPITSA_REFUSED_STEP:
        return "A number overflowed on the way.";
    case KAPITSA_REFUSED_RESULT:
        return "A number of the result overflowed: an impulse, a multiplier or where a part ends up.";
    case KAPITSA_REFUSED_RANGE:
        return "The closing check promises nothing: a number is neither 0 nor from 2^-150 to 2^150 in size.";
    case KAPITSA_REFUSED_ROOT:
        return "A square root is asked of a NaN or of a negative number.";
    case KAPITSA_REFUSED_SPEED:
        return "Of a linkage in motion: a residual is not a finite number.";
    case KAPITSA_REFUSED_NUMBER:
        return "Of an inertia: a number is not finite.";
    case KAPITSA_REFUSED_SYMMETRY:
        return "Of an inertia: two numbers across the diagonal differ.";
    case KAPITSA_REFUSED_DEFINITE:
        return "Of an inertia: it is not positive definite.";
    case KAPITSA_REFUSED_LAYOUT:
        return "Of the converter: the old layout has no room for the centres that the file has.";
    case KAPITSA_REFUSED_SHIFT:
        return "The shift is not finite, below 0 or above 1.";
    case KAPITSA_REFUSED_TOLERANCE:
        return "A tolerance of the file is below zero, not a number or infinite.";
    case KAPITSA_REFUSED_RULE:
        return "A rule has its keys the wrong way round, a kind of row or a key that there is none of, or a tolerance that is below zero, not a number or infinite.";
    case KAPITSA_REFUSED_RULES_OF_ROW:
        return "A row's key falls under no rule, or under more than one.";
    case KAPITSA_REFUSED_COMMITTED:
        return "The proposal was committed before.";
    case KAPITSA_REFUSED_MOVED:
        return "Since the proposal was made a multiplier or the number of rows has changed.";
    default:
        return "There is no such refusal.";
    }
}

/* What to do about it; nothing for 0 and for a number that there is not. */
static inline const char *kapitsa_refusal_advice(uint32_t refusal)
{
    switch (refusal) {
    case KAPITSA_REFUSED_FILE:
        return "Export it again.";
    case KAPITSA_REFUSED_SECTIONS:
        return "Split the job, or export it again.";
    case KAPITSA_REFUSED_LENGTH:
        return "Choose mode 0, 1 or 2; in a program, look at the lengths that are lent.";
    case KAPITSA_REFUSED_WORD:
        return "The export is faulty: export it again.";
    case KAPITSA_REFUSED_OPENING:
        return "Give a step limit of 1 or more, and leave such rows out.";
    case KAPITSA_REFUSED_MASS:
        return "Scan that link again.";
    case KAPITSA_REFUSED_ROW:
        return "Scan that joint again.";
    case KAPITSA_REFUSED_DIAGONAL:
        return "Look for a mass in the wrong unit.";
    case KAPITSA_REFUSED_IMMOVABLE:
        return "Let one of the two links move, or scan the joint again.";
    case KAPITSA_REFUSED_PAIRS:
        return "Use mode 0.";
    case KAPITSA_REFUSED_BLOCK:
        return "Use mode 0 or 1.";
    case KAPITSA_REFUSED_VALUE:
        return "Use mode 0; for an inertia, look for a wrong unit.";
    case KAPITSA_REFUSED_PIVOT:
        return "Use mode 0; in a program, in mode 1, a small shift.";
    case KAPITSA_REFUSED_RESIDUAL:
        return "Take out the joint that was scanned twice, or give a larger tolerance.";
    case KAPITSA_REFUSED_DIRECTION:
        return "Take out the joint that was scanned twice, or give a larger tolerance.";
    case KAPITSA_REFUSED_STEP:
        return "Look for a scan in the wrong unit.";
    case KAPITSA_REFUSED_RESULT:
        return "Look for a scan in the wrong unit.";
    case KAPITSA_REFUSED_RANGE:
        return "Look for a scan in the wrong unit.";
    case KAPITSA_REFUSED_ROOT:
        return "Call it with a number from 0.";
    case KAPITSA_REFUSED_SPEED:
        return "Look for a speed that was not recorded.";
    case KAPITSA_REFUSED_NUMBER:
        return "Scan the link again.";
    case KAPITSA_REFUSED_SYMMETRY:
        return "Scan the link again, or look for a wrong unit.";
    case KAPITSA_REFUSED_DEFINITE:
        return "Scan the link again, or look for a wrong unit.";
    case KAPITSA_REFUSED_LAYOUT:
        return "Convert to the new one.";
    case KAPITSA_REFUSED_SHIFT:
        return "Give a shift from 0 to 1.";
    case KAPITSA_REFUSED_TOLERANCE:
        return "Give each tolerance as a number from 0.";
    case KAPITSA_REFUSED_RULE:
        return "Correct the rule.";
    case KAPITSA_REFUSED_RULES_OF_ROW:
        return "Correct the rules: each row must be under one.";
    case KAPITSA_REFUSED_COMMITTED:
        return "Propose anew.";
    case KAPITSA_REFUSED_MOVED:
        return "Propose anew.";
    default:
        return "";
    }
}

#endif
