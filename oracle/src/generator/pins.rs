//! Jobs that hold an implementation to one thing each: what `cover` counts and drawn jobs
//! seldom meet.

use super::doubles::{Style, double, positive};
use super::edges::replaced_diagonals;
use super::examples::{chain_along_x, push_x_row};
use super::overflows::{overflowing, renewal_overflow};
use crate::job::*;
use crate::random::Random;

type Pin = fn(&mut Random) -> Job;

const PINS: [Pin; 14] = [
    many_blocks,
    too_long,
    two_pairs,
    later_run,
    later_value,
    zero_pairs,
    replaced_diagonals,
    negative_diagonal,
    overflow,
    impulse_overflow,
    alpha_overflow,
    solution_overflow,
    residual_overflow,
    renewal_overflow,
];

/// Pins by turns; those for one mode have it, the others any.
pub fn pin(seed: u64, index: u64) -> Job {
    let mut random = Random::of(seed, index);
    let mut job = PINS[index as usize % PINS.len()](&mut random);
    if job.mode == 0 {
        job.mode = random.pick(&[0, INCOMPLETE_CHOLESKY, BLOCK_JACOBI]);
    }
    job
}

/// Any pin, in its mode or any.
pub fn pin_of(random: &mut Random) -> Job {
    random.pick(&PINS)(random)
}

fn short(random: &mut Random) -> f64 {
    double(Style::Short, random)
}

/// Bodies with short numbers, no rows yet.
fn bodies(count: u32, mode: u32, random: &mut Random) -> Job {
    let mut job = Job { limit: 1 + random.below(12) as u32, mode, ..Job::default() };
    job.tolerances = [random.pick(&[1e-9, 1e-3, 0.25]); 2];
    for _ in 0..count {
        let [mass, x, y, z] = [(); 4].map(|()| positive(Style::Short, random));
        job.push_mass(mass, [x, y, z]);
    }
    job
}

/// A row with twelve short numbers.
fn push_free_row(job: &mut Job, bodies: [u32; 2], owner: u32, random: &mut Random) {
    let row = job.push_row(bodies[0], bodies[1]);
    for place in [LINEAR_A, ANGULAR_A, LINEAR_B, ANGULAR_B] {
        job.set(row, place, &[(); 3].map(|()| short(random)));
    }
    job.set(row, ERROR, &[short(random)]);
    job.set_word(row, OWNER, owner);
    job.set_word(row, DIMENSION, random.below(2) as u32);
}

/// A chain of two or three joints with one to six rows each.
fn many_blocks(random: &mut Random) -> Job {
    let joints = 2 + random.below(2) as u32;
    let mut job = bodies(joints + 1, BLOCK_JACOBI, random);
    for joint in 0..joints {
        for _ in 0..1 + random.below(6) {
            push_free_row(&mut job, [joint, joint + 1], joint, random);
        }
    }
    job
}

/// A joint of two rows and further ones; 12 refuses the first two, or 13.
fn refused_first(further: &[([u32; 2], u32)], random: &mut Random) -> Job {
    let mut job = bodies(3, BLOCK_JACOBI, random);
    for &(bodies, owner) in [([0, 1], 0); 2].iter().chain(further) {
        push_free_row(&mut job, bodies, owner, random);
    }
    if random.chance(50) {
        overflowing(&mut job, 1, 0);
    } else {
        let first = job.numbers[..ERROR].to_vec();
        job.set(1, LINEAR_A, &first);
    }
    job
}

/// Seven or eight rows of one joint.
fn too_long(random: &mut Random) -> Job {
    let further = 5 + random.below(2);
    refused_first(&vec![([0, 1], 0); further], random)
}

/// A later joint that 11 refuses, by its length or its bodies.
fn later_run(random: &mut Random) -> Job {
    if random.chance(50) {
        refused_first(&[([0, 1], 1); 7], random)
    } else {
        refused_first(&[([0, 1], 1), ([0, 2], 1)], random)
    }
}

/// Two rows of one joint on differing bodies whose value overflows.
fn two_pairs(random: &mut Random) -> Job {
    let mut job = bodies(3, BLOCK_JACOBI, random);
    push_free_row(&mut job, [0, 1], 0, random);
    push_free_row(&mut job, [0, 2], 0, random);
    overflowing(&mut job, 1, 0);
    job
}

/// Mode 1: two equal rows, which 13 refuses, before two that 12 does.
fn later_value(random: &mut Random) -> Job {
    let mut job = bodies(3, INCOMPLETE_CHOLESKY, random);
    for bodies in [[1, 2], [1, 2], [0, 1], [0, 1]] {
        push_free_row(&mut job, bodies, 0, random);
    }
    let first = job.numbers[..ERROR].to_vec();
    job.set(1, LINEAR_A, &first);
    overflowing(&mut job, 2, 3);
    job
}

/// Mode 1: two rows on one body whose value is zero, under a row that shares it with both;
/// the last row shares a body with the first alone.
fn zero_pairs(random: &mut Random) -> Job {
    let mut job = bodies(5, INCOMPLETE_CHOLESKY, random);
    let axes = [[short(random), short(random), 0.0], [1.0, 0.0, 0.0], [0.0, 1.0, 0.0]];
    for (row, axis) in axes.iter().enumerate() {
        push_x_row(&mut job, 0, row as u32 + 1, short(random));
        job.set(row, LINEAR_A, axis);
    }
    push_x_row(&mut job, 1, 4, short(random));
    job
}

/// The middle row of a chain has a diagonal below zero.
fn negative_diagonal(random: &mut Random) -> Job {
    let tolerance = 0.25;
    let error = tolerance * short(random).clamp(-1.0, 1.0);
    let mut job = chain_along_x(2.0, &[short(random), error, short(random)]);
    job.tolerances = [tolerance; 2];
    for body in [1, 2] {
        job.masses[MASS_NUMBERS * body] = -0.25 * positive(Style::Short, random);
    }
    job
}

/// Three angular rows about the axes of one body: the inertia, here by rows, is the operator.
fn turning(inertia: [[f64; 3]; 3], errors: [f64; 3]) -> Job {
    let mut job = Job { limit: 2, ..Job::default() };
    (0..2).for_each(|_| job.push_mass(0.0, [0.0; 3]));
    for row in 0..3 {
        job.push_row(0, 1);
        job.set(row, ANGULAR_A + row, &[1.0]);
        job.set(row, ERROR, &[errors[row]]);
        (0..3).for_each(|column| job.masses[1 + 3 * column + row] = inertia[row][column]);
    }
    job
}

/// Diagonals, couplings and errors of all sizes: z, its product with the residual, impulses
/// or the operator's product leave the doubles.
fn overflow(random: &mut Random) -> Job {
    let mut sized = |low: i32, high: i32| short(random).abs() * two(random.between(low, high));
    let [x, y, z] = [(); 3].map(|()| sized(-600, 600));
    let errors = [(); 3].map(|()| sized(-500, 900));
    let [xy, xz, yz] = [(); 3].map(|()| sized(-1000, 900));
    let side = sized(0, 510);
    let mut job = turning([[x, 0.0, 0.0], [xy, y, 0.0], [xz, yz, z]], errors);
    job.set(random.below(3), LINEAR_B, &[side]);
    job
}

/// The direction is large, and so is what it meets at the fixed body.
fn impulse_overflow(random: &mut Random) -> Job {
    let errors = [(); 3].map(|()| short(random) * two(random.between(440, 450)));
    let light = two(-100);
    let mut job = turning([[light, 0.0, 0.0], [0.0, light, 0.0], [0.0, 0.0, light]], errors);
    job.set(random.below(3), LINEAR_B, &[two(random.between(490, 510))]);
    job
}

/// Two rows cancel, and the third has little more than 2^-1022: alpha is beyond the doubles.
fn alpha_overflow(random: &mut Random) -> Job {
    let error = short(random) * two(random.between(6, 20));
    let inertia = [[1.0, 0.0, 0.0], [-2.0, 1.0, 0.0], [0.0, 0.0, 1.0]];
    turning(inertia, [error, error, 1.5 * two(-511)])
}

/// Two rows all but cancel, so that alpha is large.
fn large_alpha(size: f64, far: f64, random: &mut Random) -> Job {
    let (apart, error) = (two(-random.between(12, 30)), short(random));
    let second = [size * (apart - 2.0), size, 0.0];
    turning([[size, 0.0, 0.0], second, [far, 0.0, size]], [error, error, 0.0])
}

/// Both rows are light: alpha times their direction overflows.
fn solution_overflow(random: &mut Random) -> Job {
    let size = two(-random.between(1000, 1015));
    large_alpha(size, 0.0, random)
}

/// The third's residual overflows.
fn residual_overflow(random: &mut Random) -> Job {
    let far = two(random.between(1012, 1022));
    large_alpha(1.0, far, random)
}
