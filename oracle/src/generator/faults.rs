//! Faults: each changes one thing about a job.

use super::doubles::{Style, beside, double, odd};
use crate::job::*;
use crate::model;
use crate::random::Random;

type Fault = fn(&mut Job, &mut Random);

const FAULTS: [Fault; 26] = [
    zero_mass,
    negative_mass,
    odd_mass,
    equal_rows,
    equal_rows,
    nearly_equal_rows,
    nearly_equal_rows,
    scaled_row,
    scaled_errors,
    scaled_errors,
    scaled_masses,
    odd_number,
    odd_number,
    odd_word,
    opening_test,
    bad_body,
    odd_tolerances,
    odd_limit,
    step_tolerance,
    step_tolerance,
    empty_row,
    gained_multipliers,
    within_tolerance,
    owners,
    beyond_counts,
    tiny_masses,
];

/// Those that a solve by groups leaves to the group: none of them makes the whole table's tests fail, but
/// for numbers that overflow.
const OWN: [Fault; 14] = [
    zero_mass,
    negative_mass,
    equal_rows,
    equal_rows,
    nearly_equal_rows,
    scaled_row,
    scaled_errors,
    scaled_errors,
    scaled_masses,
    opening_test,
    empty_row,
    gained_multipliers,
    owners,
    tiny_masses,
];

pub fn own(job: &mut Job, random: &mut Random) {
    random.pick(&OWN)(job, random);
}

/// Leaves a job alone whose counts no longer fit its lists: further faults index by them.
pub fn any(job: &mut Job, random: &mut Random) {
    let fits = job.numbers.len() == ROW_NUMBERS * job.rows as usize
        && job.masses.len() == MASS_NUMBERS * job.bodies as usize;
    if fits && job.rows > 0 && job.bodies > 1 {
        random.pick(&FAULTS)(job, random);
    }
}

fn any_row(job: &Job, random: &mut Random) -> usize {
    random.below(job.rows as usize)
}

fn any_mass<'a>(job: &'a mut Job, random: &mut Random) -> &'a mut [f64] {
    let at = MASS_NUMBERS * random.below(job.bodies as usize);
    &mut job.masses[at..at + MASS_NUMBERS]
}

fn zero_mass(job: &mut Job, random: &mut Random) {
    any_mass(job, random).fill(random.pick(&[0.0, -0.0]));
}

fn negative_mass(job: &mut Job, random: &mut Random) {
    let from = random.below(2);
    any_mass(job, random)[from..].iter_mut().for_each(|value| *value = -*value);
}

fn odd_mass(job: &mut Job, random: &mut Random) {
    let (at, value) = (random.below(MASS_NUMBERS), odd(random));
    any_mass(job, random)[at] = value;
}

/// Row `to` gets row `from`'s bodies and Jacobian, not its error.
fn copy_row(job: &mut Job, from: usize, to: usize) {
    let numbers = job.numbers[ROW_NUMBERS * from..][..ERROR].to_vec();
    job.set(to, 0, &numbers);
    for at in [DIMENSION, BODY_A, BODY_B, OWNER] {
        job.set_word(to, at, job.word(from, at));
    }
}

fn equal_rows(job: &mut Job, random: &mut Random) {
    let (from, to) = (any_row(job, random), any_row(job, random));
    copy_row(job, from, to);
    if random.chance(50) {
        job.set(to, ERROR, &[job.number(from, ERROR)]);
    }
}

fn nearly_equal_rows(job: &mut Job, random: &mut Random) {
    let (from, to) = (any_row(job, random), any_row(job, random));
    copy_row(job, from, to);
    let at = random.pick(&[LINEAR_A, ANGULAR_A, LINEAR_B, ANGULAR_B]) + random.below(3);
    let size = two(random.between(-60, -1));
    job.set(to, at, &[job.number(to, at) * (1.0 + size)]);
}

fn scaled_row(job: &mut Job, random: &mut Random) {
    let (row, by) = (any_row(job, random), two(random.between(-1074, 1023)));
    for at in LINEAR_A..ERROR {
        job.set(row, at, &[job.number(row, at) * by]);
    }
}

fn scaled_errors(job: &mut Job, random: &mut Random) {
    let by = two(random.between(-1074, 1023));
    for row in 0..job.rows as usize {
        let scaled = job.number(row, ERROR) * by;
        job.set(row, ERROR, &[scaled.clamp(f64::MIN, f64::MAX)]);
    }
}

fn scaled_masses(job: &mut Job, random: &mut Random) {
    let by = two(random.between(-1060, 1000));
    let scale = |value: &mut f64| *value = (*value * by).clamp(f64::MIN, f64::MAX);
    job.masses.iter_mut().for_each(scale);
}

fn odd_number(job: &mut Job, random: &mut Random) {
    let (row, at) = (any_row(job, random), random.below(ROW_NUMBERS));
    let value = odd(random);
    job.set(row, at, &[value]);
}

/// Refusal 4, sometimes 5.
fn odd_word(job: &mut Job, random: &mut Random) {
    let at = random.pick(&[KEY, DIMENSION, FORCE_DRIVEN, POSITION_ENABLED, SPARE]);
    let value = random.pick(&[1, 2, 255, 256, u32::MAX]);
    let row = any_row(job, random);
    job.set_word(row, at, value);
}

/// The opening test (refusal 5).
fn opening_test(job: &mut Job, random: &mut Random) {
    let row = any_row(job, random);
    match random.below(6) {
        0 => job.set_word(row, POSITION_ENABLED, 0),
        1 => job.set_word(row, FORCE_DRIVEN, 1),
        2 => job.set(row, COMPLIANCE, &[odd(random)]),
        3 => job.set(row, DAMPING, &[odd(random)]),
        4 => job.set(row, MIN_MULTIPLIER, &[odd(random)]),
        _ => job.set(row, MAX_MULTIPLIER, &[odd(random)]),
    }
}

/// Refusal 7: the same body twice, or one that is not there.
fn bad_body(job: &mut Job, random: &mut Random) {
    let row = any_row(job, random);
    let (kept, changed) = random.pick(&[(BODY_A, BODY_B), (BODY_B, BODY_A)]);
    let same = job.word(row, kept);
    let value = random.pick(&[same, job.bodies, job.bodies + 1, u32::MAX]);
    job.set_word(row, changed, value);
}

fn odd_tolerances(job: &mut Job, random: &mut Random) {
    let at = random.below(2);
    job.tolerances[at] =
        if random.chance(80) { odd(random) } else { double(Style::Extreme, random) };
}

fn odd_limit(job: &mut Job, random: &mut Random) {
    job.limit = random.pick(&[0, 1, 1, 2, 1000]);
}

/// The tolerance lies exactly at a step's residual, or one unit beside it.
fn step_tolerance(job: &mut Job, random: &mut Random) {
    let mut trial = job.clone();
    trial.limit = 1 + random.below(4) as u32;
    trial.tolerances = [0.0; 2];
    if let Answer::Accepted { linear, angular, .. } = model::delivered(&trial).answer {
        job.tolerances = [beside(linear, random), beside(angular, random)];
        job.limit = trial.limit + random.below(3) as u32;
    }
}

/// A row whose diagonal is 0, with an error that tolerance meets or misses.
fn empty_row(job: &mut Job, random: &mut Random) {
    let row = any_row(job, random);
    job.set(row, LINEAR_A, &[random.pick(&[0.0, -0.0]); ERROR]);
    let dimension = (job.word(row, DIMENSION) & 1) as usize;
    let error = random.pick(&[0.0, -0.0, job.tolerances[dimension], 0.25]);
    job.set(row, ERROR, &[error]);
}

fn gained_multipliers(job: &mut Job, random: &mut Random) {
    let style = random.pick(&[Style::Short, Style::Plain, Style::Extreme]);
    for row in 0..job.rows as usize {
        let value = if random.chance(10) { -0.0 } else { double(style, random) };
        job.set(row, MULTIPLIER, &[value]);
    }
}

/// Count 0: each error is exactly at its tolerance, or one unit beside it, or less.
fn within_tolerance(job: &mut Job, random: &mut Random) {
    for row in 0..job.rows as usize {
        let tolerance = job.tolerances[(job.word(row, DIMENSION) & 1) as usize];
        let size = if random.chance(20) { beside(tolerance, random) } else { tolerance * 0.5 };
        job.set(row, ERROR, &[size * random.sign()]);
    }
}

/// Runs of owners that are too long, or cut across joints.
fn owners(job: &mut Job, random: &mut Random) {
    let span = random.pick(&[1, 2, 3, 6, 7, 9]);
    for row in 0..job.rows {
        job.set_word(row as usize, OWNER, row / span);
    }
}

/// Refusal 3: mode, counts, or lengths that do not fit them.
fn beyond_counts(job: &mut Job, random: &mut Random) {
    match random.below(4) {
        0 => job.mode = random.pick(&[3, 4, u32::MAX]),
        1 => job.rows = random.pick(&[job.rows + 1, 513, u32::MAX]),
        2 => job.bodies = random.pick(&[job.bodies + 1, 257, u32::MAX]),
        _ => job.masses.truncate(job.masses.len() - 1),
    }
}

/// Masses so small that the largest final impulse lies just beyond the doubles.
fn tiny_masses(job: &mut Job, random: &mut Random) {
    let solved = model::delivered(job);
    let largest = solved.impulses.iter().fold(0.0, |size: f64, value| size.max(value.abs()));
    if largest > 0.0 && largest < two(500) {
        let exponent = 1024 - ((largest.to_bits() >> 52) as i32 - 1023) + random.between(-1, 0);
        job.masses.iter_mut().for_each(|value| *value *= two(-exponent.min(1022)));
    }
}
