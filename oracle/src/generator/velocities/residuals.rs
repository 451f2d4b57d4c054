//! Residuals of every kind for a velocity job, whatever it is.

use crate::generator::doubles::{Style, beside, double, odd};
use crate::job::*;
use crate::random::Random;

type Change = fn(&mut Job, &mut Random);

const CHANGES: [Change; 8] = [within, within, within, zeros, huge, not_finite, any_odd, one_beyond];

pub fn any(job: &mut Job, random: &mut Random) {
    let rows = job.rows as usize;
    if rows > 0 && job.residuals.len() == rows && job.words.len() == ROW_WORDS * rows {
        random.pick(&CHANGES)(job, random);
    }
}

/// The tolerance of a row's dimension.
fn tolerance(job: &Job, row: usize) -> f64 {
    job.tolerances[(job.word(row, DIMENSION) & 1) as usize]
}

/// Each residual within its tolerance, on it, or one unit beside it: the count 0 test stands behind
/// the factors.
fn within(job: &mut Job, random: &mut Random) {
    if random.chance(30) {
        job.tolerances = [random.pick(&[0.001, 0.25, 4.0]); 2];
    }
    let beyond = random.chance(30);
    for row in 0..job.rows as usize {
        let tolerance = tolerance(job, row);
        let size = match random.below(4) {
            0 if beyond => beside(tolerance, random),
            0 | 1 => tolerance,
            _ => tolerance * random.pick(&[0.5, 0.0]),
        };
        job.residuals[row] = size * random.sign();
    }
}

/// Within tolerance but for one row, which is a unit beyond.
fn one_beyond(job: &mut Job, random: &mut Random) {
    within(job, random);
    let row = random.below(job.rows as usize);
    job.residuals[row] = tolerance(job, row).next_up() * random.sign();
}

/// Zeros of either sign, but for one row perhaps.
fn zeros(job: &mut Job, random: &mut Random) {
    let kept = random.below(2 * job.rows as usize);
    for (row, residual) in job.residuals.iter_mut().enumerate() {
        *residual = if row == kept { *residual } else { random.pick(&[0.0, -0.0]) };
    }
}

/// So large that the steps leave the doubles, or nearly.
fn huge(job: &mut Job, random: &mut Random) {
    let by = two(random.between(400, 1023));
    for residual in &mut job.residuals {
        let size = if *residual == 0.0 { double(Style::Short, random) } else { *residual };
        *residual = (size * by).clamp(f64::MIN, f64::MAX);
    }
}

/// Refusal 20.
fn not_finite(job: &mut Job, random: &mut Random) {
    let row = random.below(job.rows as usize);
    job.residuals[row] = random.pick(&[f64::NAN, f64::INFINITY, f64::NEG_INFINITY]);
}

fn any_odd(job: &mut Job, random: &mut Random) {
    let row = random.below(job.rows as usize);
    job.residuals[row] = odd(random);
}
