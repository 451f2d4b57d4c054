//! How much one table may hold.

/// The most rows of a table.
pub const MAX_ROWS: usize = 512;
/// The most bodies of a table.
pub const MAX_BODIES: usize = 256;
/// The most pairs of rows that share a body, in mode 1.
pub const MAX_PAIRS: usize = 16_384;
/// The most rules.
pub const MAX_RULES: usize = 64;
/// The largest key of a row.
pub const MAX_KEY: u32 = 255;

/// Numbers of a row, in the order of [`Row`](crate::Row)'s fields.
pub const ROW_NUMBERS: usize = 27;
/// Words of a row: key, dimension, body a, body b, driven by force, position on, owner, spare.
pub const ROW_WORDS: usize = 8;
/// Numbers of a mass: the inverse mass, and the inverse inertia by columns.
pub const MASS_NUMBERS: usize = 10;
