//! Work memory: one piece of numbers and one of words, carved into the slices that a call works in.

use crate::{Mode, MAX_PAIRS};

/// The work memory, kept from call to call; it grows to what a call needs.
#[derive(Clone, Debug, Default)]
pub struct Work {
    doubles: Vec<f64>,
    words: Vec<u32>,
}

/// What a solve works in.
pub(super) struct SolveWork<'a> {
    pub(super) jacobians: &'a mut [f64],
    pub(super) links: &'a mut [u32],
    pub(super) tolerances: &'a mut [f64],
    pub(super) diagonal: &'a mut [f64],
    pub(super) residual: &'a mut [f64],
    pub(super) pending: &'a mut [f64],
    pub(super) direction: &'a mut [f64],
    pub(super) product: &'a mut [f64],
    pub(super) body_impulses: &'a mut [f64],
    pub(super) pattern: &'a mut [u32],
    pub(super) order: &'a mut [u32],
    pub(super) values: &'a mut [f64],
}

/// What a check works in.
pub(super) struct CheckWork<'a> {
    pub(super) impulses: &'a mut [f64],
    pub(super) size_impulses: &'a mut [f64],
    pub(super) values: &'a mut [f64],
    pub(super) sizes: &'a mut [f64],
}

impl Work {
    /// For n rows and b bodies, which are within the limits.
    pub(super) fn of_solve(&mut self, n: usize, b: usize, mode: Mode) -> SolveWork<'_> {
        let (pattern, order, values) = factor_lengths(n, mode);
        let (doubles, words) = self.lend(18 * n + 6 * b + values, 2 * n + pattern + order);
        let (doubles, words) = (&mut { doubles }, &mut { words });
        SolveWork {
            jacobians: carve(doubles, 12 * n),
            links: carve(words, 2 * n),
            tolerances: carve(doubles, n),
            diagonal: carve(doubles, n),
            residual: carve(doubles, n),
            pending: carve(doubles, n),
            direction: carve(doubles, n),
            product: carve(doubles, n),
            body_impulses: carve(doubles, 6 * b),
            pattern: carve(words, pattern),
            order: carve(words, order),
            values: carve(doubles, values),
        }
    }

    /// For n rows and b bodies, which are within the limits.
    pub(super) fn of_check(&mut self, n: usize, b: usize) -> CheckWork<'_> {
        let (doubles, _) = self.lend(12 * b + 2 * n, 0);
        let doubles = &mut { doubles };
        CheckWork {
            impulses: carve(doubles, 6 * b),
            size_impulses: carve(doubles, 6 * b),
            values: carve(doubles, n),
            sizes: carve(doubles, n),
        }
    }

    fn lend(&mut self, doubles: usize, words: usize) -> (&mut [f64], &mut [u32]) {
        if self.doubles.len() < doubles {
            self.doubles.resize(doubles, 0.0);
        }
        if self.words.len() < words {
            self.words.resize(words, 0);
        }
        (&mut self.doubles[..doubles], &mut self.words[..words])
    }
}

/// The lengths of `pattern`, `order` and `values`.
fn factor_lengths(n: usize, mode: Mode) -> (usize, usize, usize) {
    let p = (n * n.saturating_sub(1) / 2).min(MAX_PAIRS);
    match mode {
        Mode::Diagonal => (0, 0, 0),
        Mode::IncompleteCholesky => (n + 1 + p, n + 2 * p, p),
        Mode::BlockJacobi => (n, 0, 36 * n),
    }
}

/// The next `length` numbers of the work memory.
fn carve<'a, T>(rest: &mut &'a mut [T], length: usize) -> &'a mut [T] {
    let (carved, left) = std::mem::take(rest).split_at_mut(length);
    *rest = left;
    carved
}
