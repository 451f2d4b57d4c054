//! What there are a few of: dimensions, modes and verdicts.

/// What a row measures: a length, in metres, or an angle, in radians.
#[derive(Clone, Copy, Debug, PartialEq, Eq, Hash)]
#[repr(u32)]
pub enum Dimension {
    /// Metres; of speeds m/s.
    Linear = 0,
    /// Radians; of speeds rad/s.
    Angular = 1,
}

/// The preconditioner of a solve. They come to the same joints by other steps.
#[derive(Clone, Copy, Debug, Default, PartialEq, Eq, Hash)]
#[repr(u32)]
pub enum Mode {
    /// The diagonal alone: it takes more steps, and is refused by the fewest tables.
    #[default]
    Diagonal = 0,
    /// Incomplete Cholesky on the pairs of rows that share a body.
    IncompleteCholesky = 1,
    /// A block for each joint, of at most six rows on the same two bodies.
    BlockJacobi = 2,
}

/// What the closing check says of a whole table.
#[derive(Clone, Copy, Debug, PartialEq, Eq, Hash)]
#[repr(u32)]
pub enum Verdict {
    /// Some row's exact gap plus twice its radius of rounding exceeds its tolerance.
    Open = 0,
    /// Every row's exact gap, worked without any rounding, is within its tolerance.
    Closed = 1,
}

/// A number of the linear rows and one of the angular rows: in metres and radians, of speeds in m/s and
/// rad/s.
#[derive(Clone, Copy, Debug, Default, PartialEq)]
pub struct ByDimension {
    /// Of the linear rows; 0 where there is none.
    pub linear: f64,
    /// Of the angular rows; 0 where there is none.
    pub angular: f64,
}

impl From<[f64; 2]> for ByDimension {
    fn from([linear, angular]: [f64; 2]) -> Self {
        Self { linear, angular }
    }
}
