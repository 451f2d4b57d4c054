//! What a call reads beside the rows' numbers.

use crate::{Refusal, MASS_NUMBERS, MAX_BODIES, MAX_ROWS, ROW_WORDS};

/// Of positions: the rows' words (8 each), the masses (10 numbers each) and the bodies' centres (3 each),
/// zeros where none are known.
#[derive(Clone, Copy, Debug)]
pub struct Tables<'a> {
    /// Of each row: key, dimension, body a, body b, driven by force, position on, owner, spare.
    pub words: &'a [u32],
    /// Of each body: the inverse mass, and the inverse inertia by columns.
    pub masses: &'a [f64],
    /// Of each body: where its centre lies, in metres.
    pub centres: &'a [f64],
}

/// Of velocities: the same words and masses, and a residual a row. Nothing but refusals 4 and 7 reads a
/// row's error, whether its position is on and the bounds of its multiplier; its bounds of the impulse
/// must be infinite.
#[derive(Clone, Copy, Debug)]
pub struct VelocityTables<'a> {
    /// Of each row, as in [`Tables`].
    pub words: &'a [u32],
    /// Of each body, as in [`Tables`].
    pub masses: &'a [f64],
    /// Of each row the speed that it should have less the one that it has, in m/s or rad/s.
    pub residuals: &'a [f64],
}

/// How many rows and bodies there are, within the limits. The archive compares the lengths.
pub(super) fn counts(words: &[u32], masses: &[f64]) -> Result<(usize, usize), Refusal> {
    let (rows, bodies) = (words.len() / ROW_WORDS, masses.len() / MASS_NUMBERS);
    if rows > MAX_ROWS || bodies > MAX_BODIES {
        return Err(Refusal::Length);
    }
    Ok((rows, bodies))
}
