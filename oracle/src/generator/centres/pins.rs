//! Small jobs with centres, for what `cover` counts and drawn jobs seldom meet.

use super::{near_the_largest, place};
use crate::generator::doubles::{Style, double};
use crate::generator::examples::{chain_along_x, coupled};
use crate::generator::{Sizes, job};
use crate::job::*;
use crate::random::Random;

/// Mechanisms with bodies that stay, that turn alone, and that move.
pub fn centred_pin(seed: u64, index: u64) -> Job {
    let mut random = Random::of(seed.rotate_left(32) ^ 0x7171, index);
    let (mut job, placed) = match random.below(5) {
        0 => (bystanders(&mut random), true),
        1 => (far_away(&mut random), true),
        2 => (far_from_the_origin(&mut random), false),
        _ => (job(seed ^ 0xce27, index, Sizes::Small), true),
    };
    if job.mode > BLOCK_JACOBI || random.chance(40) {
        job.mode = random.below(3) as u32;
    }
    if placed {
        place(&mut job, &mut random);
    }
    job
}

/// Two joints between three of five bodies: one moves and turns, one is only turned, others are in
/// no row.
fn bystanders(random: &mut Random) -> Job {
    let mut job = Job { limit: 8, tolerances: [1e-9; 2], ..Job::default() };
    for _ in 0..5 {
        let inertia = [(); 3].map(|()| double(Style::Short, random).abs());
        job.push_mass(double(Style::Short, random).abs(), inertia);
    }
    for (row, (a, b)) in [(0, 1), (1, 3)].into_iter().enumerate() {
        job.push_row(a, b);
        let axis = random.below(3);
        job.set(row, ANGULAR_A + axis, &[double(Style::Short, random)]);
        job.set(row, ANGULAR_B + axis, &[double(Style::Short, random)]);
        if row == 0 {
            job.set(row, LINEAR_A + random.below(3), &[1.0]);
        }
        job.set(row, ERROR, &[double(Style::Short, random)]);
    }
    job
}

/// P1 and a further body, near the largest double.
fn far_away(random: &mut Random) -> Job {
    let mut job = chain_along_x(0.5, &[double(Style::Short, random)]);
    job.push_mass(1.0, [1.0; 3]);
    job.masses[0] *= random.pick(&[1.0, 2.0, 4.0, 0.0]);
    near_the_largest(&mut job, random);
    job
}

/// From +0.0 beyond the doubles in one step: the factor sees no coupling, the operator one that all
/// but cancels both rows, so that alpha is about 2^20, and with it what the second body moves by. The
/// first row, which then gapes, has all the tolerance there is.
fn far_from_the_origin(random: &mut Random) -> Job {
    let error = double(Style::Short, random) * two(random.between(206, 210));
    let side = random.sign() * two(-random.between(818, 823));
    let mut job = from_the_origin(error, two(random.between(1014, 1020)), side);
    job.numbers.swap(ROW_NUMBERS + LINEAR_B, ROW_NUMBERS + LINEAR_B + random.below(3));
    job
}

/// This with an error, the second body's inverse mass and its arm in the second row.
pub fn from_the_origin(error: f64, inverse_mass: f64, side: f64) -> Job {
    let (mass, part) = (two(-600), two(-11));
    let lower = -mass * (part + 1.0 / part) * (1.0 - two(-20));
    let mut job = coupled([mass; 2], 0.0, lower, [part * error, error]);
    job.masses[MASS_NUMBERS] = inverse_mass;
    job.set(1, LINEAR_B, &[side]);
    job.set_word(0, DIMENSION, 1);
    (0..2).for_each(|row| job.set_word(row, OWNER, row as u32));
    job.tolerances = [0.5 * error.abs(), f64::MAX];
    job
}
