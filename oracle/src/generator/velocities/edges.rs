//! Velocity jobs built to stand on an edge that positions do not have.

use super::in_motion;
use super::sheets::sheets;
use crate::generator::doubles::{Style, beside, double, odd};
use crate::generator::examples::{chain_along_x, push_x_row};
use crate::generator::pins::pin_of;
use crate::job::*;
use crate::random::Random;

type Edge = fn(&mut Random) -> Job;

const EDGES: [Edge; 8] = [
    any_sheet,
    equal_rows,
    empty_rows,
    order_of_rows,
    order_of_rows,
    two_at_once,
    factor_within,
    factor_within,
];

pub fn any(random: &mut Random) -> Job {
    let mut job = random.pick(&EDGES)(random);
    if random.chance(60) {
        job.mode = random.below(3) as u32;
    }
    job
}

fn any_sheet(random: &mut Random) -> Job {
    let sheets = sheets();
    sheets[random.below(sheets.len())].job.clone()
}

/// P1's row with these residuals, row i on bodies i and i + 1.
pub fn chain(residuals: &[f64]) -> Job {
    let mut job = chain_along_x(0.5, &vec![0.0; residuals.len()]);
    job.kind = Kind::Velocity;
    job.centres.clear();
    job.residuals = residuals.to_vec();
    job
}

/// P1's row once more with this residual.
pub fn push_row(job: &mut Job, a: u32, b: u32, residual: f64) -> usize {
    push_x_row(job, a, b, 0.0);
    job.residuals.push(residual);
    job.rows as usize - 1
}

/// Equal or nearly equal rows around tolerance, of one owner or two.
pub fn equal_rows(random: &mut Random) -> Job {
    let tolerance = random.pick(&[0.001, 0.25]);
    let near = |random: &mut Random| random.sign() * beside(tolerance, random);
    let mut job = chain(&[near(random)]);
    job.tolerances = [tolerance; 2];
    for _ in 0..1 + random.below(3) {
        let row = near(random);
        let row = push_row(&mut job, 0, 1, row);
        job.set_word(row, OWNER, random.below(2) as u32);
        if random.chance(30) {
            job.set(row, LINEAR_A + 1, &[two(-random.between(20, 40))]);
        }
    }
    job
}

/// Rows of zeros among rows that move, their residuals within tolerance, on it and beyond.
pub fn empty_rows(random: &mut Random) -> Job {
    let mut job = chain(&[0.0; 3].map(|_: f64| double(Style::Short, random)));
    if random.chance(40) {
        job.residuals.iter_mut().for_each(|residual| *residual = 0.001 * random.sign());
    }
    for row in 0..3 {
        if random.chance(60) {
            let tiny = random.pick(&[0.0, -0.0, 0.0, two(-540)]);
            job.set(row, LINEAR_A, &[tiny, 0.0, 0.0]);
            job.set(row, LINEAR_B, &[tiny, 0.0, 0.0]);
            let size = random.pick(&[0.001, 0.0005, 0.0, 0.001_f64.next_up()]);
            job.residuals[row] = random.sign() * size;
        }
        job.set_word(row, OWNER, random.below(3) as u32);
    }
    job
}

/// Rows that meet 9 or 8, nothing, and 7, in every order.
pub fn order_of_rows(random: &mut Random) -> Job {
    let mut job = chain(&[0.25, 0.5, -0.75]);
    let order = random.pick(&[[0, 1, 2], [0, 2, 1], [1, 0, 2], [1, 2, 0], [2, 0, 1], [2, 1, 0]]);
    let size = random.pick(&[0.0, 0.0, 1e200]);
    job.set(order[0], LINEAR_A, &[size, 0.0, 0.0]);
    job.set(order[0], LINEAR_B, &[0.0; 3]);
    match random.below(6) {
        0 => job.set(order[2], ERROR, &[f64::NAN]),
        1 => job.set(order[2], TARGET_VELOCITY, &[f64::INFINITY]),
        2 => job.set(order[2], MIN_MULTIPLIER, &[1.0, -1.0]),
        3 => job.set(order[2], ACCUMULATED_IMPULSE, &[f64::NAN]),
        4 => job.set_word(order[2], BODY_A, job.bodies),
        _ => {}
    }
    job
}

/// Two of 4 to 9 and 20 at once.
fn two_at_once(random: &mut Random) -> Job {
    let mut job = chain(&[0.25, 0.5]);
    for _ in 0..2 {
        let row = random.below(2);
        match random.below(8) {
            0 => job.set_word(row, POSITION_ENABLED, 2),
            1 => job.limit = 0,
            2 => job.set(row, MIN_IMPULSE, &[-1.0]),
            3 => job.masses[random.below(30)] = f64::NAN,
            4 => job.residuals[row] = odd(random),
            5 => job.set(row, ACCUMULATED_IMPULSE, &[f64::NAN]),
            6 => job.set(row, LINEAR_A, &[1e200]),
            _ => job.set(row, LINEAR_A, &[0.0; ERROR]),
        }
    }
    job
}

/// A job that its factor turns back, or would nearly, with every residual within tolerance.
fn factor_within(random: &mut Random) -> Job {
    let mut job = in_motion(pin_of(random), random);
    job.tolerances = [random.pick(&[0.001, 0.25]); 2];
    for residual in &mut job.residuals {
        *residual = random.sign() * random.pick(&[0.001, 0.0, 0.0005]);
    }
    job
}
