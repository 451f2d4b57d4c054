//! Numbers that leave the doubles, at each place that tests for it.

use super::doubles::{Style, double};
use super::examples::{chain_along_x, coupled, two_rows};
use crate::job::*;
use crate::random::Random;

pub fn diagonal_overflow(random: &mut Random) -> Job {
    let mut job = chain_along_x(1.0, &[-0.25, 0.5, 0.0]);
    let row = random.below(3);
    job.set(row, LINEAR_A, &[0.0, 0.0, two(random.between(505, 1023))]);
    job.masses[0] = random.pick(&[1.0, 1e-300, -1.0]);
    job
}

/// Finite diagonals, but a pair whose angular value is beyond the doubles.
pub fn pair_overflow(random: &mut Random) -> Job {
    let mut job = two_rows(1.0, [[1.0, 0.0, 0.0]; 2], [-1.0, random.pick(&[1.0, 0.25])]);
    let size = random.pick(&[1e200, 1e300, 1e308]);
    job.set(0, ANGULAR_A, &[random.sign() * random.pick(&[1e8, 1e150, 1e300]), 0.0, 0.0]);
    job.set(1, ANGULAR_A, &[0.0, 1.0, 0.0]);
    // Row 0 · inertia · row 1 reads the second column's first number, or by the block
    // test's order (higher row first) the first column's second.
    job.masses[1..4].copy_from_slice(&[0.0, random.pick(&[0.0, 1e-300, size * 1e-300]), 0.0]);
    job.masses[4..7].copy_from_slice(&[size, 1.0, 0.0]);
    if random.chance(30) {
        job.masses[1..4].copy_from_slice(&[0.0, 1e200, 0.0]);
        job.set(0, ANGULAR_A, &[1.0, 0.0, 0.0]);
        job.set(1, ANGULAR_A, &[0.0, random.pick(&[1e50, 1e110]), 0.0]);
        job.masses[4..7].copy_from_slice(&[0.0, 0.0, 0.0]);
    }
    job
}

/// Body 0 makes a value beyond the doubles of two rows whose body_a it is, the first before
/// the second, while all diagonals are finite. Other rows turn about z alone.
pub fn overflowing(job: &mut Job, first: usize, second: usize) {
    job.masses[1..7].copy_from_slice(&[0.0, 1e200, 0.0, 0.0, 0.0, 0.0]);
    for row in 0..job.rows as usize {
        job.set(row, ANGULAR_A, &[0.0; 2]);
    }
    job.set(first, ANGULAR_A, &[0.0, 1e110, 0.0]);
    job.set(second, ANGULAR_A, &[1.0, 0.0, 0.0]);
}

/// A small pivot under a large coupling: the factor is beyond the doubles.
pub fn factor_overflow(random: &mut Random) -> Job {
    let tiny = two(-random.between(700, 1020));
    let large = two(random.between(400, 1000));
    let (upper, lower) = random.pick(&[(large, 0.0), (0.0, large), (large, large)]);
    coupled([tiny, 1.0], upper, lower, [double(Style::Short, random), 1.0])
}

pub fn recurrence_overflow(random: &mut Random) -> Job {
    let mut job =
        chain_along_x(two(-random.between(0, 1000)), &[double(Style::Short, random), 1.0]);
    let by = two(random.between(300, 1020));
    for row in 0..2 {
        job.set(row, ERROR, &[job.number(row, ERROR) * by]);
    }
    job
}

/// Two rows that nearly cancel, under tiny masses: alpha is 2^53, the update overflows.
pub fn update_overflow(random: &mut Random) -> Job {
    let apart = two(-random.between(20, 27));
    let error = double(Style::Short, random);
    let mass = two(-random.between(940, 1000));
    two_rows(mass, [[1.0, 0.0, 0.0], [-1.0, apart, 0.0]], [error, error])
}

/// The residual moves in one step to a row with a far smaller diagonal, where z, s, beta
/// or the direction overflows at the renewal, often at the limit.
pub fn renewal_overflow(random: &mut Random) -> Job {
    let (tiny, small) = (two(-random.between(900, 1020)), two(-random.between(0, 200)));
    let coupling = small * two(random.between(0, 60));
    let error = two(random.between(-100, 30));
    let mut job = if random.chance(50) {
        coupled([tiny, small], coupling, 0.0, [0.0, error])
    } else {
        coupled([small, tiny], 0.0, coupling, [error, 0.0])
    };
    job.set_word(1, OWNER, random.below(2) as u32);
    job.limit = 1 + random.below(3) as u32;
    job
}

/// The multiplier was near the largest double already.
pub fn multiplier_overflow(random: &mut Random) -> Job {
    let mut job = chain_along_x(two(-990), &[-0.25, double(Style::Short, random)]);
    job.tolerances = [random.pick(&[1e-6, 0.125]); 2];
    for row in 0..job.rows as usize {
        let value = random.pick(&[f64::MAX, f64::MIN, two(1023), 0.0]);
        job.set(row, MULTIPLIER, &[value]);
    }
    job
}

/// Final impulses around the largest double.
pub fn impulses_near_overflow(random: &mut Random) -> Job {
    let errors: Vec<f64> = (0..2 + random.below(4)).map(|_| double(Style::Short, random)).collect();
    let mut job = chain_along_x(two(-random.between(1012, 1022)), &errors);
    job.limit = 1 + random.below(8) as u32;
    job.tolerances = [random.pick(&[1e-9, 1e-3, 0.25]); 2];
    job
}

/// Alpha is large, so that only the final impulse on the fixed body overflows: the factor
/// sees no coupling, the operator one that all but cancels both rows.
pub fn final_impulse_overflow(random: &mut Random) -> Job {
    let (mass, error) = (two(-600), double(Style::Short, random));
    let apart = two(-random.between(4, 20));
    let mut job = coupled([mass; 2], 0.0, mass * (apart - 2.0), [error; 2]);
    for row in 0..2 {
        let side = [LINEAR_B, ANGULAR_B][row] + random.below(3);
        job.set(row, side, &[random.sign() * two(random.between(404, 418))]);
        job.set_word(row, OWNER, row as u32);
    }
    job.limit = 1 + random.below(2) as u32;
    job
}
