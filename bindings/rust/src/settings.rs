//! What a solve is told beside its table.

use crate::{Mode, Rules};

/// What a solve is told beside its table.
///
/// ```
/// use kapitsa::{Mode, Rules, Settings};
///
/// let settings = Settings { mode: Mode::IncompleteCholesky, ..Settings::new(Rules::two(1e-6, 1e-6)) };
/// assert_eq!((settings.limit, settings.shift), (100, 0.0));
/// ```
#[derive(Clone, Debug, PartialEq)]
pub struct Settings {
    /// The tolerances, which the check takes too.
    pub rules: Rules,
    /// The most steps, from 1 where there are rows.
    pub limit: u32,
    /// The preconditioner.
    pub mode: Mode,
    /// From 0 to 1. In [`Mode::IncompleteCholesky`] each pivot starts from diagonal × (1 + shift): 0 is
    /// the plain factor, a little more lets rows pass that say almost the same and that
    /// [`Refusal::Pivot`](crate::Refusal::Pivot) turns back. The other modes use none.
    pub shift: f64,
}

impl Settings {
    /// At most 100 steps, the diagonal, no shift.
    pub fn new(rules: Rules) -> Self {
        Self { rules, limit: 100, mode: Mode::Diagonal, shift: 0.0 }
    }
}
