//! The judge: the reference's outcome, held to the model's refusal number.

use crate::job::{Answer, BLOCK_JACOBI, INCOMPLETE_CHOLESKY, Job, Kind, Solved, same_bits};
use crate::model;
use reference::collision::CollisionError;
use reference::{Outcome, Prepared};

/// What the Rust tells of a job that it turns back.
#[derive(Clone, Copy, Debug, PartialEq)]
pub enum RustOutcome {
    NotAvailable,
    InvalidContact,
    ArithmeticOverflow,
}

/// The one table of document 01's "Rust:": every refusal that the Rust knows, and how
/// it tells it. Refusals that are not listed are added by documents 01 and 02: a job that
/// meets one of them first is not compared.
pub const RUST_OUTCOMES: [(u32, RustOutcome); 11] = [
    (5, RustOutcome::NotAvailable),
    (7, RustOutcome::InvalidContact),
    (8, RustOutcome::ArithmeticOverflow),
    (9, RustOutcome::NotAvailable),
    (11, RustOutcome::NotAvailable),
    (12, RustOutcome::ArithmeticOverflow),
    (13, RustOutcome::NotAvailable),
    (14, RustOutcome::NotAvailable),
    (15, RustOutcome::NotAvailable),
    (16, RustOutcome::ArithmeticOverflow),
    (17, RustOutcome::ArithmeticOverflow),
];

pub fn rust_outcome(refusal: u32) -> Option<RustOutcome> {
    RUST_OUTCOMES.iter().find(|(number, _)| *number == refusal).map(|(_, told)| *told)
}

pub struct Judged {
    pub solved: Solved,
    /// The job lies in the domain that is compared with the Rust.
    pub compared: bool,
    /// Where the reference and the model differ.
    pub dispute: Option<String>,
}

/// Answers a job by the model, and holds the answer to the reference where that applies. One that
/// 17 turns back by a new centre alone is not compared; what it delivers but for that is held to the
/// reference all the same.
pub fn judge(job: &Job) -> Judged {
    let delivered = model::delivered(job);
    let refusal = delivered.answer.refusal();
    // The Rust has no shift, and two tolerances: with another shift than 0, or rules of one
    // dimension that do not agree, the definition is the measure.
    let comparable = job.mode <= last_mode(job.kind)
        && job.shift == 0.0
        && (refusal == 0 || rust_outcome(refusal).is_some());
    let agreed = if comparable { model::agreed(job) } else { None };
    let dispute = agreed.and_then(|tolerances| dispute(job, tolerances, &delivered));
    let solved = model::settled(delivered);
    let by_centre = solved.answer.refusal() != refusal;
    Judged { solved, compared: agreed.is_some() && !by_centre, dispute }
}

/// The Rust has blocks on its velocity side alone.
fn last_mode(kind: Kind) -> u32 {
    match kind {
        Kind::Position => INCOMPLETE_CHOLESKY,
        Kind::Velocity => BLOCK_JACOBI,
    }
}

/// Runs the reference, at these tolerances, on a job whose counts and words are sound.
pub fn run_reference(job: &Job, tolerances: [f64; 2]) -> (Outcome, Prepared) {
    let mut prepared = Prepared::new(&job.numbers, &job.words, &job.masses, &job.centres);
    let limit = job.limit as usize;
    let outcome = match job.kind {
        Kind::Position => prepared.solve(limit, tolerances, job.mode == INCOMPLETE_CHOLESKY),
        Kind::Velocity => {
            prepared.lend(&job.residuals);
            prepared.solve_velocity(limit, tolerances, job.mode)
        }
    };
    (outcome, prepared)
}

/// What gained the solution, as the Rust left it.
pub fn gained(job: &Job, prepared: &Prepared) -> Vec<f64> {
    match job.kind {
        Kind::Position => prepared.multipliers(),
        Kind::Velocity => prepared.accumulated_impulses(),
    }
}

fn dispute(job: &Job, tolerances: [f64; 2], solved: &Solved) -> Option<String> {
    let (outcome, prepared) = run_reference(job, tolerances);
    let same = match (outcome, solved.answer) {
        (Outcome::Accepted { count, converged, linear, angular }, Answer::Accepted { .. }) => {
            let found = Answer::Accepted { flag: converged, count: count as u32, linear, angular };
            found.words() == solved.answer.words() && same_delivery(job, &prepared, solved, count)
        }
        (Outcome::Accepted { .. }, _) => false,
        (Outcome::NotAvailable, answer) => told(answer, RustOutcome::NotAvailable),
        (Outcome::Error(CollisionError::InvalidContact), answer) => {
            told(answer, RustOutcome::InvalidContact)
        }
        (Outcome::Error(CollisionError::ArithmeticOverflow), answer) => {
            told(answer, RustOutcome::ArithmeticOverflow)
        }
        (Outcome::Error(_), _) => false,
    };
    // At 17 the Rust may already have written; at every other refusal it has not.
    let kept = matches!(solved.answer.refusal(), 0 | 17)
        || same_bits(&gained(job, &prepared), &job.accumulated());
    (!same || !kept).then(|| format!("reference {outcome:?}, model {:?}", solved.answer))
}

fn told(answer: Answer, by: RustOutcome) -> bool {
    rust_outcome(answer.refusal()) == Some(by)
}

/// What gained the solution, centres, solution and impulses; at count 0 the Rust makes neither of the
/// last two.
fn same_delivery(job: &Job, prepared: &Prepared, solved: &Solved, count: usize) -> bool {
    let placed = job.kind == Kind::Velocity || same_centres(prepared, solved);
    if !placed || !same_bits(&gained(job, prepared), &solved.accumulated) {
        return false;
    }
    let applied = prepared.applied();
    if count == 0 {
        return applied.iter().all(Option::is_none);
    }
    let wanted = solved.impulses.chunks_exact(6);
    same_bits(prepared.solution(), &solved.solution)
        && same_bits(&prepared.impulses(), &solved.impulses)
        && applied.iter().zip(wanted).all(|(found, wanted)| match found {
            Some(six) => same_bits(six, wanted),
            None => wanted.iter().all(|value| *value == 0.0),
        })
}

/// Each body's new centre, or that it overflows.
fn same_centres(prepared: &Prepared, solved: &Solved) -> bool {
    let found = prepared.next_centers();
    let wanted = solved.centres.chunks_exact(3);
    found.len() == wanted.len()
        && found.iter().zip(wanted).all(|(found, wanted)| match found {
            Some(centre) => same_bits(centre, wanted),
            None => !wanted.iter().all(|value| value.is_finite()),
        })
}
