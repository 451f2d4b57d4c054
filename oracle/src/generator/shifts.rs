//! Jobs with a shift: drawn as any other, then given one, some of them near-equal rows too.

use super::doubles::beside;
use super::{Sizes, job};
use crate::job::*;
use crate::random::Random;

/// 0 in both signs, the least, those around the half unit that 1 + shift rounds away, 1 and beside
/// it, and what refusal 25 turns back.
const SHIFTS: [f64; 18] = [
    0.0,
    -0.0,
    f64::from_bits(1),
    f64::MIN_POSITIVE,
    f64::EPSILON / 2.0,
    f64::EPSILON,
    0.5,
    1.0,
    1.0 + f64::EPSILON,
    1.0 - f64::EPSILON / 2.0,
    -f64::from_bits(1),
    -1.0,
    2.0,
    f64::NAN,
    f64::from_bits(0x7ff0_0000_0000_0001),
    f64::from_bits(0xfff8_0000_0000_0007),
    f64::INFINITY,
    f64::NEG_INFINITY,
];

/// Job `index` of `seed` as `job` draws it, more often in mode 1, and its shift.
pub fn shifted(seed: u64, index: u64) -> Job {
    let mut random = Random::of(seed.rotate_left(32) ^ 0x5417, index);
    let mut job = job(seed, index, Sizes::Any);
    with_shift(&mut job, &mut random);
    job
}

/// Gives a job its shift.
pub fn with_shift(job: &mut Job, random: &mut Random) {
    if job.mode <= BLOCK_JACOBI && random.chance(60) {
        job.mode = INCOMPLETE_CHOLESKY;
    }
    if random.chance(30) {
        near_equal_row(job, random);
    }
    job.shift = shift(random);
}

fn shift(random: &mut Random) -> f64 {
    match random.below(10) {
        0..3 => random.pick(&SHIFTS),
        3 => beside(random.pick(&[f64::EPSILON / 2.0, f64::EPSILON, 0.5]), random),
        4..8 => random.unit() * two(random.between(-60, -8)),
        _ => random.unit(),
    }
}

/// A row once more at the end: as it is, or one of its numbers a unit or a little beside.
fn near_equal_row(job: &mut Job, random: &mut Random) {
    let rows = job.rows as usize;
    let lent = if job.kind == Kind::Velocity { rows } else { 0 };
    let sound = job.numbers.len() == ROW_NUMBERS * rows
        && job.words.len() == ROW_WORDS * rows
        && job.residuals.len() == lent;
    if rows == 0 || rows >= 512 || !sound {
        return;
    }
    let row = random.below(rows);
    job.numbers.extend_from_within(ROW_NUMBERS * row..ROW_NUMBERS * (row + 1));
    job.words.extend_from_within(ROW_WORDS * row..ROW_WORDS * (row + 1));
    if job.kind == Kind::Velocity {
        job.residuals.push(job.residuals[row]);
    }
    job.rows += 1;
    let place = random.pick(&[LINEAR_A, LINEAR_A + 1, ANGULAR_A, LINEAR_B, ANGULAR_B + 2]);
    let number = job.number(rows, place);
    let little = random.sign() * two(random.between(-40, -8));
    let turned = random.pick(&[number, number.next_up(), number.next_down(), number + little]);
    job.set(rows, place, &[turned]);
}
