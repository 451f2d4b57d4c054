//! Velocity jobs that hold an implementation to one thing each, for `cover`.

use super::edges;
use super::{Sizes, in_motion, moving};
use crate::generator::pin;
use crate::job::*;
use crate::random::Random;

/// Edges of the order, drawn jobs and bounds, by turns.
pub fn velocity_pin(seed: u64, index: u64) -> Job {
    let mut random = Random::of(seed.rotate_left(32) ^ 0x7e10, index);
    let turn = index % 8;
    let mut job = match turn {
        0 => edges::order_of_rows(&mut random),
        1 => edges::empty_rows(&mut random),
        2 => edges::equal_rows(&mut random),
        3 => summed(&mut random),
        4 => moving(seed ^ 0x7e10, index, Sizes::Small),
        _ => in_motion(pin(seed, index), &mut random),
    };
    if job.mode > BLOCK_JACOBI || (turn < 5 && random.chance(70)) {
        job.mode = random.below(3) as u32;
    }
    job
}

/// A chain whose multipliers and accumulated impulses differ.
fn summed(random: &mut Random) -> Job {
    let residuals: Vec<f64> = (0..1 + random.below(3)).map(|_| random.unit() - 0.5).collect();
    let mut job = edges::chain(&residuals);
    for row in 0..residuals.len() {
        job.set(row, MULTIPLIER, &[random.unit(), random.unit()]);
        if random.chance(50) {
            job.set(row, MIN_MULTIPLIER, &[-random.unit(), random.unit()]);
        }
    }
    job
}
