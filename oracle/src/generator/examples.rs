//! Document 01's examples, and the small jobs that the edges are made of.

use crate::job::*;

/// Document 01's P1 with these errors: row i joins body i to body i + 1 along x.
pub fn chain_along_x(inverse_mass: f64, errors: &[f64]) -> Job {
    let mut job = Job { limit: 4, tolerances: [0.001; 2], ..Job::default() };
    for body in 0..errors.len() as u32 {
        job.push_mass(inverse_mass, [0.0; 3]);
        push_x_row(&mut job, body, body + 1, errors[body as usize]);
    }
    job.push_mass(inverse_mass, [0.0; 3]);
    job
}

pub fn push_x_row(job: &mut Job, a: u32, b: u32, error: f64) {
    let row = job.push_row(a, b);
    job.set(row, LINEAR_A, &[1.0, 0.0, 0.0]);
    job.set(row, LINEAR_B, &[-1.0, 0.0, 0.0]);
    job.set(row, ERROR, &[error]);
}

/// A job of document 01's table, and what documents 01 and 02 say of it: lines of its listing.
pub struct Example {
    pub name: &'static str,
    pub job: Job,
    pub says: &'static [&'static str],
}

/// P1 to P9; P2 and P3 are P1's check, so P1 is solved at their tolerances.
pub fn examples() -> Vec<Example> {
    let p1 = chain_along_x(0.5, &[-0.25]);
    let p4 = Job { limit: 1, ..chain_along_x(1.0, &[-1.0, 0.0]) };
    let mut p5 = chain_along_x(0.5, &[-1.0]);
    push_x_row(&mut p5, 0, 1, 1.0);
    let p7 = Job { tolerances: [1e-170; 2], ..chain_along_x(0.5, &[1e-160]) };
    let at = |tolerance| Job { tolerances: [tolerance; 2], ..p1.clone() };
    let example = |name, job, says| Example { name, job, says };
    vec![
        example("P1", p1.clone(), &P1_LISTING),
        example("P2", at(two(-47)), &["solve 0 1 1", P1_GAP, "close 1"]),
        example("P3", at(two(-48)), &["solve 0 1 1", P1_GAP, "close 0"]),
        example("P4", p4.clone(), &P4_LISTING),
        example("P4-limit-2", Job { limit: 2, ..p4 }, &["solve 0 2 1"]),
        example("P5", p5.clone(), &["solve 15 0 0"]),
        example("P6", Job { mode: INCOMPLETE_CHOLESKY, ..p5 }, &["solve 13 0 0"]),
        example("P7", p7, &["solve 14 0 0"]),
        example("P8", Job { limit: 0, ..p1 }, &["solve 5 0 0"]),
        example("P9", Job::default(), &["solve 0 0 1"]),
    ]
}

/// 17·2^-52, the E of P1's row, whose measured r is 0.
const P1_GAP: &str = "gap 3cf1000000000000 0000000000000000";

const P1_LISTING: [&str; 7] = [
    "solve 0 1 1",
    P1_GAP,
    "carried 0000000000000000 0000000000000000",
    "close 1",
    "row 0 3fd0000000000000",
    "body 0 3fd0000000000000 0000000000000000 0000000000000000 0000000000000000 0000000000000000 0000000000000000",
    "body 1 bfd0000000000000 0000000000000000 0000000000000000 0000000000000000 0000000000000000 0000000000000000",
];

const P4_LISTING: [&str; 4] = [
    "solve 0 1 0",
    "carried 3fe0000000000000 0000000000000000",
    "row 0 3fe0000000000000",
    "row 1 0000000000000000",
];

/// Two rows on one pair of bodies; body 1 is fixed.
pub fn two_rows(mass: f64, directions: [[f64; 3]; 2], errors: [f64; 2]) -> Job {
    let mut job = Job { limit: 3, tolerances: [0.0; 2], ..Job::default() };
    job.push_mass(mass, [mass; 3]);
    job.push_mass(0.0, [0.0; 3]);
    for (direction, error) in directions.iter().zip(errors) {
        push_x_row(&mut job, 0, 1, error);
        job.set(job.rows as usize - 1, LINEAR_A, direction);
        job.set_word(job.rows as usize - 1, OWNER, 0);
    }
    job
}

/// Two angular rows about x and y, whose couplings the inertia gives one by one:
/// `upper` is what row 0 feels of row 1, `lower` what row 1 feels of row 0.
pub fn coupled(diagonals: [f64; 2], upper: f64, lower: f64, errors: [f64; 2]) -> Job {
    let mut job = two_rows(0.0, [[0.0; 3]; 2], errors);
    job.masses[1..7].copy_from_slice(&[diagonals[0], lower, 0.0, upper, diagonals[1], 0.0]);
    job.set(0, ANGULAR_A, &[1.0, 0.0, 0.0]);
    job.set(1, ANGULAR_A, &[0.0, 1.0, 0.0]);
    (0..2).for_each(|row| job.set(row, LINEAR_B, &[0.0; 3]));
    job
}
