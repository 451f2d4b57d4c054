//! Mode 2 against the Rust's velocity side, which has the blocks: an added check of
//! the model where both do the same arithmetic.

use crate::generator::{Sizes, job};
use crate::job::*;
use crate::judge::{RustOutcome, rust_outcome};
use crate::model;
use reference::collision::CollisionError;
use reference::{Outcome, Prepared};

/// The velocity side of the harness starts from the target velocity, reads the
/// impulse bounds, and adds to the accumulated impulse.
fn as_velocity_rows(job: &Job) -> Vec<f64> {
    let mut numbers = job.numbers.clone();
    for row in numbers.chunks_exact_mut(ROW_NUMBERS) {
        row[TARGET_VELOCITY] = -row[ERROR];
        row[MIN_IMPULSE] = f64::NEG_INFINITY;
        row[MAX_IMPULSE] = f64::INFINITY;
        row[ACCUMULATED_IMPULSE] = row[MULTIPLIER];
    }
    numbers
}

/// The two sides judge in another order before the factors, and the velocity side builds
/// them before the first convergence test: only what comes after is held together.
fn comparable(answer: &Answer) -> bool {
    match answer {
        Answer::Accepted { count, .. } => *count > 0,
        Answer::Refused(number) => (11..=17).contains(number),
    }
}

fn agrees(job: &Job, solved: &Solved) -> bool {
    let mut prepared = Prepared::new(&as_velocity_rows(job), &job.words, &job.masses, &job.centres);
    let outcome = prepared.solve_velocity(job.limit as usize, job.tolerances, BLOCK_JACOBI);
    let told = |by| rust_outcome(solved.answer.refusal()) == Some(by);
    match outcome {
        Outcome::Accepted { count, converged, linear, angular } => {
            let found = Answer::Accepted { flag: converged, count: count as u32, linear, angular };
            found.words() == solved.answer.words()
                && same_bits(prepared.solution(), &solved.solution)
                && same_bits(&prepared.impulses(), &solved.impulses)
        }
        Outcome::NotAvailable => told(RustOutcome::NotAvailable),
        Outcome::Error(CollisionError::ArithmeticOverflow) => told(RustOutcome::ArithmeticOverflow),
        Outcome::Error(_) => false,
    }
}

/// Whether the velocity side, which gives no centres, says the same, where the two can be held
/// together.
pub fn witnessed(job: &Job) -> Option<bool> {
    let solved = model::delivered(job);
    comparable(&solved.answer).then(|| agrees(job, &solved))
}

pub fn run(jobs: u64, seed: u64) -> bool {
    let (mut compared, mut differ) = (0, 0);
    for index in 0..jobs {
        let mut job = job(seed, index, Sizes::Any);
        if job.mode <= BLOCK_JACOBI {
            job.mode = BLOCK_JACOBI;
        }
        let witnessed = witnessed(&job);
        compared += u64::from(witnessed.is_some());
        if witnessed == Some(false) {
            differ += 1;
            println!("job {index}: model {:?}", model::delivered(&job).answer);
        }
    }
    println!("{jobs} jobs, {compared} compared with the velocity side's blocks, {differ} differ");
    differ == 0
}
