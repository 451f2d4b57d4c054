//! What a solve says of itself.

use crate::ByDimension;

/// How a solve ended. It is not the verdict: [`Solver::check`](crate::Solver::check) gives that.
#[derive(Clone, Copy, Debug, PartialEq)]
pub struct Answer {
    /// Whether the solver's own residual met every row's tolerance; false where the limit ended it.
    pub converged: bool,
    /// How many steps it took.
    pub iterations: u32,
    /// Its own largest residuals, carried along by recurrence. They are not the joints' gaps.
    pub residual: ByDimension,
}

impl Answer {
    pub(crate) fn new(iterations: u32, flag: u32, maxima: [f64; 2]) -> Self {
        Self { converged: flag == 1, iterations, residual: maxima.into() }
    }
}
