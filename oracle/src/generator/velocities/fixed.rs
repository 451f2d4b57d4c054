//! The recorded velocity jobs that are not drawn.

use super::edges::{chain, push_row};
use super::sheets::v1;
use super::{in_motion, sheets};
use crate::generator::doubles::{Style, double};
use crate::generator::large::{large, late_faults, stars, stars_overflowing};
use crate::job::*;
use crate::random::Random;

pub fn fixed_velocities() -> Vec<Job> {
    let mut jobs: Vec<Job> = sheets().into_iter().map(|sheet| sheet.job).collect();
    jobs.extend(by_turns(one_change()));
    jobs.extend(odd_residuals().into_iter().chain(odd_tolerances()).flat_map(in_modes));
    jobs.extend(large_ones());
    jobs.extend(most_pairs());
    jobs.extend(beyond().into_iter().flat_map(in_modes));
    jobs
}

fn in_modes(job: Job) -> impl Iterator<Item = Job> {
    (0..=BLOCK_JACOBI).map(move |mode| Job { mode, ..job.clone() })
}

fn by_turns(jobs: Vec<Job>) -> impl Iterator<Item = Job> {
    jobs.into_iter().zip((0..=BLOCK_JACOBI).cycle()).map(|(job, mode)| Job { mode, ..job })
}

const NOT_FINITE: [f64; 4] = [
    f64::NAN,
    f64::INFINITY,
    f64::NEG_INFINITY,
    // A signalling one.
    f64::from_bits(0xfff0_0000_0000_0001),
];

/// V1 with one of its numbers or words changed: every test of 4 to 7 and 20, field by field.
fn one_change() -> Vec<Job> {
    let mut jobs = Vec::new();
    let mut change = |change: &dyn Fn(&mut Job)| {
        let mut job = v1(0.001);
        change(&mut job);
        jobs.push(job);
    };
    for value in NOT_FINITE.into_iter().chain([-1.0]) {
        (0..ROW_NUMBERS).for_each(|at| change(&|job| job.numbers[at] = value));
        (0..MASS_NUMBERS).for_each(|at| change(&|job| job.masses[at] = value));
        change(&|job| job.residuals[0] = value);
    }
    for value in [0, 1, 2, 255, 256, u32::MAX] {
        (0..ROW_WORDS).for_each(|at| change(&|job| job.words[at] = value));
    }
    let residuals = [0.0, -0.0, f64::MAX, -f64::MAX, f64::MIN_POSITIVE, 1e-160, 0.001, -0.001];
    for value in residuals.into_iter().chain([0.001_f64.next_up(), -0.25]) {
        change(&|job| job.residuals[0] = value);
    }
    jobs
}

/// Two of P1's rows in a chain, changed in one thing that a refusal other than 20 and 27 looks at.
fn beside() -> [Job; 9] {
    let changed = |change: fn(&mut Job)| {
        let mut job = chain(&[0.25, 0.25]);
        change(&mut job);
        job
    };
    [
        changed(|job| job.set_word(0, KEY, 256)),              // 4
        changed(|job| job.limit = 0),                          // 5
        changed(|job| job.set(1, MAX_IMPULSE, &[1.0])),        // 5
        changed(|job| job.masses[0] = f64::NAN),               // 6
        changed(|job| job.set_word(1, BODY_B, 3)),             // 7
        changed(|job| job.set(0, ERROR, &[f64::NAN])),         // 7
        changed(|job| job.set(0, LINEAR_A, &[f64::MAX, 0.0])), // 8
        changed(|job| job.masses.fill(0.0)),                   // 9
        changed(|job| job.tolerances = [1.0; 2]),              // count 0
    ]
}

/// 20 beside each refusal that is judged before it or after it, in the first row and in the last.
fn odd_residuals() -> Vec<Job> {
    let mut jobs = beside().to_vec();
    for (place, job) in jobs.iter_mut().enumerate() {
        job.residuals[place % 2] = NOT_FINITE[place % 4];
    }
    let mut both = chain(&[f64::NAN, 0.25]);
    both.tolerances[1] = -1.0;
    jobs.push(both);
    jobs
}

/// 27 beside the others, and without rows; tolerances of zero in either sign, which it lets pass.
fn odd_tolerances() -> Vec<Job> {
    let mut empty = Job { kind: Kind::Velocity, ..Job::default() };
    let mut jobs = vec![empty.clone()];
    empty.push_mass(0.5, [0.0; 3]);
    empty.centres.clear();
    jobs.push(empty);
    jobs.extend(beside());
    let odd = [-1.0, f64::NAN, f64::INFINITY].into_iter().cycle();
    let with = |(job, tolerance): (Job, f64)| Job { tolerances: [0.001, tolerance], ..job };
    let zeros = [[0.0, -0.0], [-0.0, 0.0]].map(|tolerances| Job { tolerances, ..v1(0.0) });
    let without_rows = jobs[..2].to_vec();
    jobs.into_iter().zip(odd).map(with).chain(zeros).chain(without_rows).collect()
}

/// 512 rows on 256 bodies in each mode, some of middle size, and 9 before 7 in the last two rows.
fn large_ones() -> Vec<Job> {
    let mut random = Random::of(20, 512);
    let mut moving = |job: Job| in_motion(job, &mut random);
    let mut jobs: Vec<Job> = in_modes(moving(large(512, 0))).collect();
    jobs.extend(by_turns([24, 33, 48, 64, 100, 128].map(|rows| moving(large(rows, 0))).to_vec()));
    jobs.push(moving(late_faults()));
    jobs
}

/// Mode 1 at 16,384 pairs, and thirty times beyond.
fn most_pairs() -> Vec<Job> {
    let mut random = Random::of(20, 16_384);
    let [most, over]: [&[u32]; 2] = [&[181, 14, 3], &[181, 14, 3, 2]];
    let mut jobs = vec![stars(most, 2), stars(over, 2), stars(over, 1)];
    jobs.extend([stars_overflowing(&[182]), stars_overflowing(over)]);
    let mut jobs: Vec<Job> = jobs.into_iter().map(|job| in_motion(job, &mut random)).collect();
    jobs.extend((0..26).map(|_| one_pair(182 + random.below(4) as u32, &mut random)));
    jobs
}

/// Rows between the same two bodies: n (n - 1) / 2 pairs.
fn one_pair(rows: u32, random: &mut Random) -> Job {
    let mut job = chain(&[double(Style::Short, random)]);
    for _ in 1..rows {
        push_row(&mut job, 0, 1, 0.25);
    }
    (0..rows as usize).for_each(|row| job.set_word(row, OWNER, 0));
    if random.chance(50) {
        job.tolerances = [4.0; 2];
    }
    Job { mode: INCOMPLETE_CHOLESKY, ..job }
}

/// 513 rows, and 257 bodies beside every other refusal: 3 by the counts.
fn beyond() -> Vec<Job> {
    let mut rows = chain(&[0.25]);
    for _ in 1..513 {
        push_row(&mut rows, 0, 1, 0.25);
    }
    (0..513).for_each(|row| rows.set_word(row, OWNER, 0));
    let bodies = |mut job: Job| {
        while job.bodies < 257 {
            job.push_mass(0.5, [0.0; 3]);
        }
        job.centres.clear();
        job
    };
    let plain = (0..11).map(|row| chain(&vec![0.25; row % 4]));
    let all = plain.chain(beside()).chain(odd_residuals());
    [rows].into_iter().chain(all.map(bodies)).collect()
}
