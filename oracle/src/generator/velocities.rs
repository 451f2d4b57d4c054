//! Velocity jobs (document 02, a): drawn as any other and turned into motion, or built to stand on an
//! edge that positions do not have.

mod edges;
mod fixed;
mod pins;
mod residuals;
mod sheets;

pub use edges::{chain as velocity_chain, push_row as push_velocity_row};
pub use fixed::fixed_velocities;
pub use pins::velocity_pin;
pub use sheets::{sheets, v1};

use super::doubles::{ODD, Style, double};
use super::rules::under_rules;
use super::shifts::with_shift;
use super::{Sizes, job, pin};
use crate::job::*;
use crate::random::Random;

/// Velocity job `index` of `seed`.
pub fn moving(seed: u64, index: u64, sizes: Sizes) -> Job {
    let mut random = Random::of(seed.rotate_left(32) ^ 0x5eed, index);
    let mut job = match random.below(10) {
        0 => in_motion(pin(seed, index), &mut random),
        1 => edges::any(&mut random),
        _ => in_motion(job(seed, index, sizes), &mut random),
    };
    if random.chance(35) {
        residuals::any(&mut job, &mut random);
    }
    unread(&mut job, &mut random);
    if job.mode <= BLOCK_JACOBI && random.chance(50) {
        job.mode = random.below(3) as u32;
    }
    job
}

/// The same for an implementation: some under rules, some with a shift, and now and then a residual
/// too many or too few (3).
pub fn driven(seed: u64, index: u64) -> Job {
    let mut random = Random::of(seed.rotate_left(32) ^ 0xd1e5, index);
    let mut job = moving(seed, index, Sizes::Any);
    if random.chance(20) {
        under_rules(&mut job, &mut random);
    }
    if random.chance(20) {
        with_shift(&mut job, &mut random);
    }
    match random.below(100) {
        0 => job.residuals.push(0.0),
        1 => drop(job.residuals.pop()),
        _ => {}
    }
    job
}

/// A position job as the same job for speeds: residuals for errors, and what one of them reads of
/// bounds and sums for what the other does. An error that is not finite mostly stays one (7).
pub fn in_motion(mut job: Job, random: &mut Random) -> Job {
    job.kind = Kind::Velocity;
    job.centres.clear();
    for row in job.numbers.chunks_exact_mut(ROW_NUMBERS) {
        row.swap(MULTIPLIER, ACCUMULATED_IMPULSE);
        row.swap(MIN_MULTIPLIER, MIN_IMPULSE);
        row.swap(MAX_MULTIPLIER, MAX_IMPULSE);
        let stays = !row[ERROR].is_finite() && random.chance(70);
        job.residuals.push(if stays { double(Style::Short, random) } else { -row[ERROR] });
        row[ERROR] = if stays { row[ERROR] } else { 0.0 };
    }
    job
}

/// What a velocity solve reads by 7 alone, or not at all: errors, multipliers and their bounds, and
/// whether a position is asked for.
fn unread(job: &mut Job, random: &mut Random) {
    let style = random.pick(&[Style::Short, Style::Plain, Style::Extreme]);
    let (errors, sums, bounds) = (random.chance(70), random.chance(50), random.chance(40));
    let enabled = random.pick(&[[1, 1], [0, 0], [0, 1]]);
    for row in job.numbers.chunks_exact_mut(ROW_NUMBERS) {
        if errors && row[ERROR].is_finite() {
            row[ERROR] = if random.chance(10) { -0.0 } else { double(style, random) };
        }
        if sums && row[MULTIPLIER].is_finite() {
            let any = double(style, random);
            row[MULTIPLIER] = random.pick(&[0.0, -0.0, f64::MAX, any]);
        }
        if bounds && row[MIN_MULTIPLIER] <= row[MAX_MULTIPLIER] {
            let low = random.pick(&[f64::NEG_INFINITY, -1.0, -0.0, 0.0]);
            (row[MIN_MULTIPLIER], row[MAX_MULTIPLIER]) = (low, random.pick(&[0.0, 2.0, f64::MAX]));
        }
    }
    for words in job.words.chunks_exact_mut(ROW_WORDS) {
        if words[POSITION_ENABLED] <= 1 {
            words[POSITION_ENABLED] = random.pick(&enabled);
        }
    }
    let rows = job.numbers.len() / ROW_NUMBERS;
    if rows > 0 && random.chance(3) {
        invalid(job, random.below(rows), random);
    }
}

/// 7 by a number that nothing else reads: crossed or NaN bounds, an error, a multiplier.
fn invalid(job: &mut Job, row: usize, random: &mut Random) {
    match random.below(4) {
        0 => job.set(row, MIN_MULTIPLIER, &[1.0, -1.0]),
        1 => job.set(row, MIN_MULTIPLIER + random.below(2), &[f64::NAN]),
        _ => job.set(row, random.pick(&[ERROR, MULTIPLIER]), &[random.pick(&ODD)]),
    }
}
