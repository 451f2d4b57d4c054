//! Slips: one thing each, done otherwise than documents 01 and 02 say.

#[derive(Clone, Copy, PartialEq)]
pub enum Slip {
    ProductsDescending,
    SquaresDescending,
    ForwardDescending,
    BackwardDescending,
    ZeroAsAbsent,
    AbsentAsZero,
    OtherRowFirst,
    OneSharedBody,
    DiagonalKept,
    ResidualKept,
    ReplacedInBlocks,
    CountAfterValues,
    ValuesByRow,
    ValueBeforeBodies,
    LengthAfterRows,
    RunsBeforeFactors,
    RowsDescending,
    BodyBFirst,
    DotsFromTheRight,
    CentreInOneRounding,
    RestMoves,
    TurningAtRest,
    PartAtRest,
}

/// Each slip, what it does, and the modes in which it can show.
pub const SLIPS: [(Slip, &str, &[u32]); 23] = [
    (Slip::ProductsDescending, "products under a factor descending", &[1, 2]),
    (Slip::SquaresDescending, "squares under a pivot descending", &[1, 2]),
    (Slip::ForwardDescending, "the forward solve's columns descending", &[1, 2]),
    (Slip::BackwardDescending, "the backward solve's rows descending", &[1, 2]),
    (Slip::ZeroAsAbsent, "a stored zero left out", &[1]),
    (Slip::AbsentAsZero, "an absent pair stored as zero", &[1]),
    (Slip::OtherRowFirst, "the rows of a pair value the other way round", &[1, 2]),
    (Slip::OneSharedBody, "one cross where two bodies are shared", &[1]),
    (Slip::DiagonalKept, "a diagonal not replaced", &[0, 1]),
    (Slip::ResidualKept, "the residual of a replaced row not replaced", &[0, 1]),
    (Slip::ReplacedInBlocks, "a replaced diagonal used in a block", &[2]),
    (Slip::CountAfterValues, "12 before 10", &[1]),
    (Slip::ValuesByRow, "13 of a row before 12 of a later one", &[1]),
    (Slip::ValueBeforeBodies, "12 before 11 in one pair of rows", &[2]),
    (Slip::LengthAfterRows, "12 and 13 of a run's rows before 11 of its length", &[2]),
    (Slip::RunsBeforeFactors, "11 of a run before 12 and 13 of an earlier one", &[2]),
    (Slip::RowsDescending, "the operator's rows descending", &[0, 1, 2]),
    (Slip::BodyBFirst, "body_b first in the operator's row value", &[0, 1, 2]),
    (Slip::DotsFromTheRight, "(xx)+((yy)+(zz)) in the operator's row value", &[0, 1, 2]),
    (Slip::CentreInOneRounding, "a new centre in one rounding", &[0, 1, 2]),
    (Slip::RestMoves, "a body without an impulse moved", &[0, 1, 2]),
    (Slip::TurningAtRest, "a body with angular impulses alone not moved", &[0, 1, 2]),
    (Slip::PartAtRest, "a part of a centre without an impulse not moved", &[0, 1, 2]),
];

impl Slip {
    /// It is about where the links end up (document 02, d).
    pub fn of_centres(self) -> bool {
        use Slip::*;
        matches!(self, CentreInOneRounding | RestMoves | TurningAtRest | PartAtRest)
    }
}
