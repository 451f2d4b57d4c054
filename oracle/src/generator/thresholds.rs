//! Numbers exactly at 2^-1022 and one unit beside it, at each place that tests for it.

use super::doubles::beside;
use super::examples::{chain_along_x, two_rows};
use crate::job::*;
use crate::random::Random;

const MIN: f64 = f64::MIN_POSITIVE;

/// A diagonal at 2^-1022 or one unit beside it.
pub fn threshold_diagonal(random: &mut Random) -> Job {
    let mut job = chain_along_x(0.0, &[random.pick(&[0.0, two(-540), 0.001, 0.25])]);
    job.masses[0] = beside(MIN, random);
    job
}

/// Residual times preconditioned residual at 2^-1022 or beside it.
pub fn threshold_residual_product(random: &mut Random) -> Job {
    let mut job = chain_along_x(0.5, &[beside(two(-511), random) * random.sign()]);
    // With a diagonal one unit below 1, z is one unit larger than the residual.
    job.masses[MASS_NUMBERS] -= random.pick(&[0.0, 0.0, two(-53)]);
    job.tolerances = [two(-600); 2];
    job
}

/// The same where direction times product is half as large again, and so would pass.
pub fn threshold_first_product(random: &mut Random) -> Job {
    let error = beside(two(-511), random);
    let mut job = two_rows(2.0, [[1.0, 0.0, 0.0], [0.5, 0.0, 0.0]], [error, error]);
    job.masses[1] = 1.5;
    job.set(1, ANGULAR_A, &[1.0, 0.0, 0.0]);
    job.tolerances = [two(-700); 2];
    job
}

/// The residual product of step 1 at 2^-1022 or beside it, the limit there or behind.
pub fn threshold_renewal(random: &mut Random) -> Job {
    let mut job = chain_along_x(0.5, &[beside(two(-510), random), 0.0]);
    (job.limit, job.tolerances) = (1 + random.below(2) as u32, [two(-700); 2]);
    job
}

/// Direction times product at 2^-1022 or beside it, while the residual product is twice
/// that: both diagonals are 1, the coupling is 1/2, and the residuals are opposite.
pub fn threshold_denominator(random: &mut Random) -> Job {
    let error = beside(two(-511), random);
    let mut job = two_rows(1.0, [[1.0, 0.0, 0.0], [0.5, 0.0, 0.0]], [error, -error]);
    job.masses[1] = 0.75 + two(-53) * f64::from(random.between(-2, 2));
    job.set(1, ANGULAR_A, &[1.0, 0.0, 0.0]);
    job.tolerances = [two(-700); 2];
    job
}

/// A second pivot at 2^-1022 or beside it: 5 units less the square of 2.
pub fn threshold_pivot(random: &mut Random) -> Job {
    let directions = [[1.0, 0.0, 0.0], [1.0, beside(0.5, random), 0.0]];
    two_rows(4.0 * MIN, directions, [two(-520), two(random.between(-530, -510))])
}
