//! The solve and the closing check, worked from the documents alone: a second
//! implementation, which also tells the refusal numbers that the Rust keeps to
//! itself. Finiteness is tested on final values only: a number that is not finite
//! never becomes finite again under +, -, × and division by a finite number.

mod algebra;
mod centres;
mod closing;
mod groups;
mod margins;
mod operator;
mod places;
mod preconditioner;
mod rules;
mod steps;
mod table;

pub use algebra::{Side, Vector, cross, scaled};
pub use closing::{Checked, Measured, check_words, closing_check};
pub use groups::{Bench, Groups, only, solve_groups};
pub use margins::{Margin, margins};
pub use places::{Place, place};
pub use rules::agreed;
pub use steps::{Begun, begin};
pub use table::{Row, Table, masses_finite, opened, tolerances_fit, words_fit};

use crate::job::{Answer, Job, Kind, Solved};
use preconditioner::Preconditioner;
use steps::run;
use table::opening;

/// A value, or the number of the refusal that turns the job back.
pub type Judged<T> = Result<T, u32>;

/// Refuses by `number` unless `passes`.
fn pass(number: u32, passes: bool) -> Judged<()> {
    if passes { Ok(()) } else { Err(number) }
}

pub fn solve(job: &Job) -> Solved {
    settled(delivered(job))
}

/// The same but for 17 by a new centre, which the Rust does not work where it is compared.
pub fn delivered(job: &Job) -> Solved {
    attempt(job).unwrap_or_else(Solved::refused)
}

/// Refused by 17 where a centre comes out not finite.
pub fn settled(delivered: Solved) -> Solved {
    if all_finite(&delivered.centres) { delivered } else { Solved::refused(17) }
}

/// The job program's solve: it judges its two tolerances by 26, after 3 and 4, and then takes
/// them as two rules, which 27 and 28 find nothing wrong with.
pub fn solve_file(job: &Job) -> Solved {
    let solved = solve(job);
    match solved.answer.refusal() {
        3 | 4 => solved,
        _ if !tolerances_fit(job) => Solved::refused(26),
        _ => solved,
    }
}

fn attempt(job: &Job) -> Judged<Solved> {
    let table = opening(job)?;
    let Begun { residual, diagonal } = begin(&table)?;
    let met = table.meets(&residual);
    if met && job.kind == Kind::Position {
        return Ok(at_step_zero(job, &table, &residual));
    }
    let preconditioner = Preconditioner::build(job.mode, job.shift, &table, &diagonal)?;
    // Document 02, a: factors are built before the first convergence test.
    if met {
        return Ok(at_step_zero(job, &table, &residual));
    }
    let ended = run(&table, &preconditioner, residual, job.limit)?;
    let impulses = operator::impulses(&table, &ended.solution).concat();
    pass(17, all_finite(&impulses))?;
    let gained = job.accumulated().into_iter().zip(&ended.solution).map(|(old, gain)| old + gain);
    let accumulated: Vec<f64> = gained.collect();
    pass(17, all_finite(&accumulated))?;
    let answer = answer(&table, &ended.residual, ended.count, ended.flag);
    let centres = centres::moved(job, &table.masses, &impulses);
    let solution = ended.solution;
    Ok(Solved { answer, solution, accumulated, impulses, centres, rules: table.rules })
}

/// The table and step 0 of a job that comes to its factor.
pub fn at_factor(job: &Job) -> Option<(Table, Begun)> {
    let table = opening(job).ok()?;
    let begun = begin(&table).ok()?;
    let comes = job.kind == Kind::Velocity || !table.meets(&begun.residual);
    comes.then_some((table, begun))
}

/// Count 0: what gains the solution and the centres keep their bits, solution and impulses are +0.0.
pub fn at_step_zero(job: &Job, table: &Table, residual: &[f64]) -> Solved {
    Solved {
        answer: answer(table, residual, 0, true),
        solution: vec![0.0; table.rows.len()],
        accumulated: job.accumulated(),
        impulses: vec![0.0; 6 * table.masses.len()],
        centres: job.centres.clone(),
        rules: table.rules.clone(),
    }
}

/// Both maxima run over the rows of their dimension, from +0.0 upward.
pub fn answer(table: &Table, residual: &[f64], count: u32, flag: bool) -> Answer {
    let mut maxima = [0.0_f64; 2];
    for (row, value) in table.rows.iter().zip(residual) {
        if value.abs() > maxima[row.dimension] {
            maxima[row.dimension] = value.abs();
        }
    }
    Answer::Accepted { flag, count, linear: maxima[0], angular: maxima[1] }
}

fn all_finite(values: &[f64]) -> bool {
    values.iter().all(|value| value.is_finite())
}
