//! The calls on memory that is there already: slices of numbers and words, laid out as `kapitsa.h` has
//! them, nothing copied and nothing allocated but the work memory, which is kept.
//!
//! For `n` rows and `b` bodies `numbers` has 27 n doubles ([`ROW_NUMBERS`](crate::ROW_NUMBERS)), `words`
//! 8 n, `masses` 10 b, `centres` 3 b; solution, residuals, multipliers and rule numbers have n, impulses
//! 6 b. Every length is tested, and one that does not fit is
//! [`Refusal::Length`](crate::Refusal::Length).
//!
//! ```
//! use kapitsa::slices::{closing_check, solve_position, Delivered, Tables, Work};
//! use kapitsa::{Refusal, Rules, Settings, Verdict};
//!
//! # fn main() -> Result<(), Refusal> {
//! let mut numbers = [0.0; 27]; // one row
//! (numbers[0], numbers[9], numbers[15]) = (1.0, -1.0, -0.25); // linear_a, linear_b, error
//! (numbers[20], numbers[21]) = (f64::NEG_INFINITY, f64::INFINITY); // the multiplier's bounds
//! let mut masses = [0.0; 20]; // two bodies
//! (masses[0], masses[10]) = (0.5, 0.5);
//! let tables = Tables { words: &[0, 0, 0, 1, 0, 1, 0, 0], masses: &masses, centres: &[0.0; 6] };
//!
//! let (mut solution, mut impulses, mut rules) = ([0.0; 1], [0.0; 12], [0; 1]);
//! let to = Delivered {
//!     solution: &mut solution,
//!     impulses: &mut impulses,
//!     new_centres: &mut [0.0; 6],
//!     rule_numbers: &mut rules,
//! };
//! let settings = Settings::new(Rules::two(1e-6, 1e-6));
//! let mut work = Work::default();
//! solve_position(&mut numbers, &tables, &settings, to, &mut work)?;
//! let judged =
//!     closing_check(&numbers, &tables, &settings.rules, &solution, &mut rules, &mut work)?;
//! assert_eq!((numbers[24], judged.verdict), (0.25, Verdict::Closed));
//! # Ok(())
//! # }
//! ```

mod check;
mod first;
mod groups;
mod propose;
mod solve;
mod tables;
mod work;

pub use check::{
    closing_check, closing_gaps, closing_margins, velocity_closing_check, velocity_closing_gaps,
    velocity_closing_margins, Judged, Measured,
};
pub use first::{first_refused, first_refused_velocity};
pub use groups::{solve_groups, solve_velocity_groups};
pub use propose::propose_position;
pub use solve::{solve_position, solve_velocity, Delivered, VelocityDelivered};
pub use tables::{Tables, VelocityTables};
pub use work::Work;
