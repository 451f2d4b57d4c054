//! Joints of scanned mechanisms solved, and measured whether they close.
//!
//! A mechanism is a [`Table`] of bodies and of joints between them; a joint is one or more rows, each a
//! direction in which two bodies must not part. A [`Solver`] finds the multipliers that close the joints,
//! and its closing check measures each joint's gap from them. That closed means the exact gap of every row
//! is within its tolerance is a theorem: the archive behind these calls is Zapekuri's, written in Rattle,
//! where every function is proved to meet its contract. The answers have the same bits in every
//! floating-point mode and on every thread.
//!
//! ```
//! use kapitsa::{Body, Joint, Refusal, Row, Rules, Solver, Table};
//!
//! fn main() -> Result<(), Refusal> {
//!     let mut table = Table::new();
//!     let crank = table.add_body(Body::point(2.0).at([1.0, 0.0, 0.0])); // 2 kg, 1 m along x
//!     let rocker = table.add_body(Body::point(2.0).at([2.0, 0.0, 0.0]));
//!     let pin = Row::linear([1.0, 0.0, 0.0]).error(-0.25); // gapes by a quarter of a metre
//!     table.add_joint(Joint::between(crank, rocker).row(pin));
//!
//!     let mut solver = Solver::new(Rules::two(1e-6, 1e-6)); // a micrometre, a microradian
//!     let solved = solver.solve(&mut table)?;
//!     let checked = solver.check(&table, &solved.solution)?;
//!     println!("{:?}, gap at most {:e} m", checked.verdict, checked.gap.linear);
//!     println!("the crank ends up at {:?}", solved.new_centres[crank.index()]);
//!     assert!(checked.is_closed());
//!     Ok(())
//! }
//! ```
//!
//! | to | call |
//! |---|---|
//! | solve for positions, and check | [`Solver::solve`], [`Solver::check`] |
//! | solve for speeds, and check | [`Solver::solve_velocity`], [`Solver::check_velocity`] |
//! | solve, look, then write | [`Solver::propose`], [`Proposal::commit`] |
//! | solve several mechanisms, each by itself | [`Solver::solve_groups`], [`Solver::solve_velocity_groups`] |
//! | find the row, body or rule that a refusal is about | [`Solver::first_refused`] |
//! | make a body of a scanned inertia | [`Body::new`], [`inverse_spd`] |
//! | set tolerances by kind of joint | [`Rules`] |
//! | lend memory that is there already | [`slices`] |
//!
//! A call that answers nothing is refused: [`Refusal`] is the error of all of them, and prints what is wrong
//! and, by `{:#}`, what to do.

#[cfg(not(target_arch = "x86_64"))]
compile_error!("libkapitsa.a is for x86-64");

mod answer;
mod archive;
mod body;
mod checked;
mod control;
mod groups;
mod impulse;
mod inertia;
mod joint;
mod kinds;
mod limits;
mod place;
mod proposal;
mod refusal;
mod row;
mod rules;
mod settings;
pub mod slices;
mod solved;
mod solver;
mod table;

pub use answer::Answer;
pub use body::{Body, BodyId};
pub use checked::{Checked, Margin};
pub use groups::{Group, GroupsSolved};
pub use impulse::Impulse;
pub use inertia::inverse_spd;
pub use joint::Joint;
pub use kinds::{ByDimension, Dimension, Mode, Verdict};
pub use limits::{
    MASS_NUMBERS, MAX_BODIES, MAX_KEY, MAX_PAIRS, MAX_ROWS, MAX_RULES, ROW_NUMBERS, ROW_WORDS,
};
pub use place::Place;
pub use proposal::Proposal;
pub use refusal::Refusal;
pub use row::{Jacobian, Row};
pub use rules::Rules;
pub use settings::Settings;
pub use solved::{Solved, VelocitySolved};
pub use solver::Solver;
pub use table::Table;
