// Made by bindings/refusals from docs/refusals.tsv.

/// Why a call was refused, by its number in the table of refusals.
///
/// As an error it prints its number and what it says; `{:#}` prints what to do besides. No function
/// here gives [`File`](Self::File), [`Sections`](Self::Sections), [`Root`](Self::Root),
/// [`Layout`](Self::Layout) or [`Tolerance`](Self::Tolerance): those are the programs'.
#[derive(Clone, Copy, Debug, PartialEq, Eq, PartialOrd, Ord, Hash)]
#[non_exhaustive]
#[repr(u32)]
pub enum Refusal {
    /// The file is no job file: too short, too long, cut off or damaged.
    File = 1,
    /// The file has more than 128 rows or 64 bodies, or its sections overlap or run over its end.
    Sections = 2,
    /// A count, the mode or the length of a slice does not fit, or there are more than 64 rules; of the converter, its argument is not old or new.
    Length = 3,
    /// A row's key, kind, flags or spare has a value that there is none of.
    Word = 4,
    /// There are rows and the step limit is 0, or a row is not a rigid joint to be closed: off, compliant, damped, driven by force or bounded.
    Opening = 5,
    /// A mass, an inertia or a centre is not a finite number.
    Mass = 6,
    /// A row has a number that is not finite or not allowed, or names a body that there is not.
    Row = 7,
    /// A row cannot be moved: its bodies are too light to compute with.
    Diagonal = 8,
    /// A row cannot be moved: both its bodies are fixed while the joint gapes.
    Immovable = 9,
    /// Mode 1: more than 16,384 pairs of rows share a body.
    Pairs = 10,
    /// Mode 2: a joint has more than six rows, or rows on differing bodies.
    Block = 11,
    /// The preconditioner of mode 1 or 2, or an inverse inertia, goes beyond the doubles.
    Value = 12,
    /// Modes 1 and 2: rows say the same thing twice.
    Pivot = 13,
    /// The steps cannot go on: rows contradict each other, or the tolerance is beyond what doubles hold.
    Residual = 14,
    /// The steps cannot go on: rows contradict each other, or the tolerance is beyond what doubles hold.
    Direction = 15,
    /// A number overflowed on the way.
    Step = 16,
    /// A number of the result overflowed: an impulse, a multiplier or where a part ends up.
    Result = 17,
    /// The closing check promises nothing: a number is neither 0 nor from 2^-150 to 2^150 in size.
    Range = 18,
    /// A square root is asked of a NaN or of a negative number.
    Root = 19,
    /// Of a linkage in motion: a residual is not a finite number.
    Speed = 20,
    /// Of an inertia: a number is not finite.
    Number = 21,
    /// Of an inertia: two numbers across the diagonal differ.
    Symmetry = 22,
    /// Of an inertia: it is not positive definite.
    Definite = 23,
    /// Of the converter: the old layout has no room for the centres that the file has.
    Layout = 24,
    /// The shift is not finite, below 0 or above 1.
    Shift = 25,
    /// A tolerance of the file is below zero, not a number or infinite.
    Tolerance = 26,
    /// A rule has its keys the wrong way round, a kind of row or a key that there is none of, or a tolerance that is below zero, not a number or infinite.
    Rule = 27,
    /// A row's key falls under no rule, or under more than one.
    RulesOfRow = 28,
    /// The proposal was committed before.
    Committed = 29,
    /// Since the proposal was made a multiplier or the number of rows has changed.
    Moved = 30,
}

impl Refusal {
    /// Every refusal, by its number.
    pub const ALL: &'static [Self] = &[
        Self::File,
        Self::Sections,
        Self::Length,
        Self::Word,
        Self::Opening,
        Self::Mass,
        Self::Row,
        Self::Diagonal,
        Self::Immovable,
        Self::Pairs,
        Self::Block,
        Self::Value,
        Self::Pivot,
        Self::Residual,
        Self::Direction,
        Self::Step,
        Self::Result,
        Self::Range,
        Self::Root,
        Self::Speed,
        Self::Number,
        Self::Symmetry,
        Self::Definite,
        Self::Layout,
        Self::Shift,
        Self::Tolerance,
        Self::Rule,
        Self::RulesOfRow,
        Self::Committed,
        Self::Moved,
    ];

    /// What it says, in one sentence.
    pub const fn text(self) -> &'static str {
        match self {
            Self::File => "The file is no job file: too short, too long, cut off or damaged.",
            Self::Sections => "The file has more than 128 rows or 64 bodies, or its sections overlap or run over its end.",
            Self::Length => "A count, the mode or the length of a slice does not fit, or there are more than 64 rules; of the converter, its argument is not old or new.",
            Self::Word => "A row's key, kind, flags or spare has a value that there is none of.",
            Self::Opening => "There are rows and the step limit is 0, or a row is not a rigid joint to be closed: off, compliant, damped, driven by force or bounded.",
            Self::Mass => "A mass, an inertia or a centre is not a finite number.",
            Self::Row => "A row has a number that is not finite or not allowed, or names a body that there is not.",
            Self::Diagonal => "A row cannot be moved: its bodies are too light to compute with.",
            Self::Immovable => "A row cannot be moved: both its bodies are fixed while the joint gapes.",
            Self::Pairs => "Mode 1: more than 16,384 pairs of rows share a body.",
            Self::Block => "Mode 2: a joint has more than six rows, or rows on differing bodies.",
            Self::Value => "The preconditioner of mode 1 or 2, or an inverse inertia, goes beyond the doubles.",
            Self::Pivot => "Modes 1 and 2: rows say the same thing twice.",
            Self::Residual => "The steps cannot go on: rows contradict each other, or the tolerance is beyond what doubles hold.",
            Self::Direction => "The steps cannot go on: rows contradict each other, or the tolerance is beyond what doubles hold.",
            Self::Step => "A number overflowed on the way.",
            Self::Result => "A number of the result overflowed: an impulse, a multiplier or where a part ends up.",
            Self::Range => "The closing check promises nothing: a number is neither 0 nor from 2^-150 to 2^150 in size.",
            Self::Root => "A square root is asked of a NaN or of a negative number.",
            Self::Speed => "Of a linkage in motion: a residual is not a finite number.",
            Self::Number => "Of an inertia: a number is not finite.",
            Self::Symmetry => "Of an inertia: two numbers across the diagonal differ.",
            Self::Definite => "Of an inertia: it is not positive definite.",
            Self::Layout => "Of the converter: the old layout has no room for the centres that the file has.",
            Self::Shift => "The shift is not finite, below 0 or above 1.",
            Self::Tolerance => "A tolerance of the file is below zero, not a number or infinite.",
            Self::Rule => "A rule has its keys the wrong way round, a kind of row or a key that there is none of, or a tolerance that is below zero, not a number or infinite.",
            Self::RulesOfRow => "A row's key falls under no rule, or under more than one.",
            Self::Committed => "The proposal was committed before.",
            Self::Moved => "Since the proposal was made a multiplier or the number of rows has changed.",
        }
    }

    /// What to do about it.
    pub const fn advice(self) -> &'static str {
        match self {
            Self::File => "Export it again.",
            Self::Sections => "Split the job, or export it again.",
            Self::Length => "Choose mode 0, 1 or 2; in a program, look at the lengths that are lent.",
            Self::Word => "The export is faulty: export it again.",
            Self::Opening => "Give a step limit of 1 or more, and leave such rows out.",
            Self::Mass => "Scan that link again.",
            Self::Row => "Scan that joint again.",
            Self::Diagonal => "Look for a mass in the wrong unit.",
            Self::Immovable => "Let one of the two links move, or scan the joint again.",
            Self::Pairs => "Use mode 0.",
            Self::Block => "Use mode 0 or 1.",
            Self::Value => "Use mode 0; for an inertia, look for a wrong unit.",
            Self::Pivot => "Use mode 0; in a program, in mode 1, a small shift.",
            Self::Residual => "Take out the joint that was scanned twice, or give a larger tolerance.",
            Self::Direction => "Take out the joint that was scanned twice, or give a larger tolerance.",
            Self::Step => "Look for a scan in the wrong unit.",
            Self::Result => "Look for a scan in the wrong unit.",
            Self::Range => "Look for a scan in the wrong unit.",
            Self::Root => "Call it with a number from 0.",
            Self::Speed => "Look for a speed that was not recorded.",
            Self::Number => "Scan the link again.",
            Self::Symmetry => "Scan the link again, or look for a wrong unit.",
            Self::Definite => "Scan the link again, or look for a wrong unit.",
            Self::Layout => "Convert to the new one.",
            Self::Shift => "Give a shift from 0 to 1.",
            Self::Tolerance => "Give each tolerance as a number from 0.",
            Self::Rule => "Correct the rule.",
            Self::RulesOfRow => "Correct the rules: each row must be under one.",
            Self::Committed => "Propose anew.",
            Self::Moved => "Propose anew.",
        }
    }
}
