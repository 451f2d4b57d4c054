//! The recorded jobs that are not drawn.

use super::examples::{chain_along_x, examples, push_x_row};
use super::large::{large, late_faults, star, stars, stars_overflowing};
use crate::job::*;

pub fn fixed() -> Vec<Job> {
    let examples = examples().into_iter().map(|example| example.job);
    let in_modes = |job: Job| (0..=BLOCK_JACOBI).map(move |mode| Job { mode, ..job.clone() });
    // Of 512 rows the first three have 256 bodies, the others 172 and 87.
    let largest = [0, 3, 7].into_iter().flat_map(|index| in_modes(large(512, index)));
    let largest = largest.chain([large(512, 1), large(512, 2)]);
    let between = [16, 25, 33, 64, 100, 128, 200, 256, 400].into_iter();
    let between = between.flat_map(|rows| [large(rows, 0), large(rows, 1)]);
    let with_blocks = |rows| Job { mode: BLOCK_JACOBI, ..large(rows, 0) };
    let blocks = [16, 33, 64, 128, 256].into_iter().map(with_blocks);
    let large = largest.chain(between).chain(blocks).chain(most_pairs()).chain([late_faults()]);
    let beyond = beyond().into_iter().flat_map(in_modes);
    let odd = odd_tolerances().into_iter().flat_map(in_modes);
    let tolerances = one_tolerance().into_iter().chain(odd);
    examples.chain(large).chain(one_change()).chain(tolerances).chain(beyond).collect()
}

/// Mode 1 around 16,384 pairs.
fn most_pairs() -> Vec<Job> {
    let [most, over]: [&[u32]; 2] = [&[181, 14, 3], &[181, 14, 3, 2]];
    let mut jobs = vec![star(181), star(182), stars_overflowing(&[182]), stars_overflowing(over)];
    for rows_a_body in [1, 2] {
        jobs.extend([most, over].map(|sizes| stars(sizes, rows_a_body)));
    }
    jobs
}

/// P1 with 513 rows, and with 257 bodies: 3 by its counts.
fn beyond() -> [Job; 2] {
    let [mut rows, mut bodies] = [(); 2].map(|()| chain_along_x(0.5, &[-0.25]));
    (1..513).for_each(|_| push_x_row(&mut rows, 0, 1, -0.25));
    (2..257).for_each(|_| bodies.push_mass(0.5, [0.0; 3]));
    [rows, bodies]
}

/// P1 with one of its numbers or words changed: every test of 4 to 7, field by field.
fn one_change() -> Vec<Job> {
    let p1 = chain_along_x(0.5, &[-0.25]);
    let mut jobs = Vec::new();
    let signalling = f64::from_bits(0xfff0_0000_0000_0001);
    for value in [f64::NAN, signalling, f64::INFINITY, f64::NEG_INFINITY, -1.0] {
        for at in 0..ROW_NUMBERS {
            let mut job = p1.clone();
            job.numbers[at] = value;
            jobs.push(job);
        }
        for at in 0..MASS_NUMBERS {
            let mut job = p1.clone();
            job.masses[at] = value;
            jobs.push(job);
        }
    }
    for (at, value) in (0..8).flat_map(|at| [0, 1, 2, 255, 256, u32::MAX].map(|value| (at, value)))
    {
        let mut job = p1.clone();
        job.words[at] = value;
        jobs.push(job);
    }
    jobs
}

/// P1 with one of its tolerances changed: what 26 and 27 let pass, and what they turn back.
fn one_tolerance() -> Vec<Job> {
    let (p1, least) = (chain_along_x(0.5, &[-0.25]), f64::from_bits(1));
    let passing = [0.0, -0.0, least, f64::MIN_POSITIVE, f64::MAX];
    let signalling = [0x7ff0_0000_0000_0001, 0xfff8_0000_0000_0007].map(f64::from_bits);
    let odd = [-least, -f64::MIN_POSITIVE, -1.0, f64::MIN, f64::NAN, f64::INFINITY];
    let odd = odd.into_iter().chain(signalling).chain([f64::NEG_INFINITY]);
    let mut jobs = Vec::new();
    for value in passing.into_iter().chain(odd) {
        for place in 0..2 {
            let mut job = p1.clone();
            job.tolerances[place] = value;
            jobs.push(job);
        }
    }
    jobs
}

/// 27 alone by a tolerance, without rows too, and beside each refusal that is judged before it or
/// after it.
fn odd_tolerances() -> Vec<Job> {
    let odd = |tolerance: f64, job: Job| Job { tolerances: [0.001, tolerance], ..job };
    let changed = |change: fn(&mut Job)| {
        let mut job = chain_along_x(0.5, &[-0.25]);
        change(&mut job);
        job
    };
    let mut bodies = Job::default();
    (0..2).for_each(|_| bodies.push_mass(0.5, [0.0; 3]));
    let mut not_finite = bodies.clone();
    not_finite.masses[3] = f64::NAN;
    let [rows, _] = beyond();
    let beside = [
        rows,                                             // 3
        changed(|job| job.set_word(0, KEY, 256)),         // 4
        changed(|job| job.set_word(0, SPARE, 1)),         // 4
        changed(|job| job.limit = 0),                     // 5
        changed(|job| job.set_word(0, FORCE_DRIVEN, 1)),  // 5
        changed(|job| job.set(0, COMPLIANCE, &[0.5])),    // 5
        changed(|job| job.masses[0] = f64::NAN),          // 6
        changed(|job| job.set_word(0, BODY_B, 2)),        // 7
        changed(|job| job.set(0, ERROR, &[f64::NAN])),    // 7
        changed(|job| job.set(0, LINEAR_A, &[f64::MAX])), // 8
        changed(|job| job.masses.fill(0.0)),              // 9
        changed(|job| job.set(0, ERROR, &[0.0])),         // count 0
    ];
    let empty = [Job::default(), bodies, not_finite].into_iter();
    let empty = empty.flat_map(|job| [f64::NAN, -1.0, -0.0].map(|value| odd(value, job.clone())));
    let beside = beside.into_iter().zip([-1.0, f64::NAN, f64::INFINITY].into_iter().cycle());
    empty.chain(beside.map(|(job, tolerance)| odd(tolerance, job))).collect()
}
