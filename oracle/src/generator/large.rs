//! Jobs at the largest counts.

use super::doubles::{Style, double};
use super::examples::push_x_row;
use super::mechanism::{Plan, Shape, build, joined};
use super::overflows::overflowing;
use crate::job::*;
use crate::random::Random;

/// Rows around the largest number of pairs, all on one body or two.
pub fn many_pairs(random: &mut Random) -> Job {
    let plan = Plan {
        shape: random.pick(&[Shape::Star, Shape::Pair]),
        joints: 181 + random.below(2),
        rows_a_joint: 1,
        style: Style::Plain,
    };
    let mut job = build(&plan, random);
    (job.mode, job.limit) = (random.pick(&[0, 1, 1, 1]), 4);
    job
}

/// A star in mode 1: 181 rows have 16,290 pairs, 182 rows 16,471.
pub fn star(rows: u32) -> Job {
    stars(&[rows], 1)
}

/// Stars of so many rows: 181, 14 and 3 rows have 16,384 pairs. Each other body has one row
/// or two, along x and y, which share two bodies and are one pair.
pub fn stars(sizes: &[u32], rows_a_body: u32) -> Job {
    let mut job = Job { limit: 4, mode: INCOMPLETE_CHOLESKY, ..Job::default() };
    job.tolerances = [0.001; 2];
    for &rows in sizes {
        let hub = job.bodies;
        job.push_mass(1.0, [0.0; 3]);
        for row in 0..rows {
            let place = row % rows_a_body;
            if place == 0 {
                job.push_mass(1.0, [0.0; 3]);
            }
            let body = job.bodies - 1;
            push_x_row(&mut job, hub, body, f64::from(row % 7) * 0.25);
            turn(&mut job, place as usize);
        }
    }
    job
}

/// The last row along x, y or z in place of x.
fn turn(job: &mut Job, axis: usize) {
    let row = job.rows as usize - 1;
    for (place, size) in [(LINEAR_A, 1.0), (LINEAR_B, -1.0)] {
        job.set(row, place, &[0.0; 3]);
        job.set(row, place + axis, &[size]);
    }
}

/// The same with a pair value beyond the doubles.
pub fn stars_overflowing(sizes: &[u32]) -> Job {
    let mut job = stars(sizes, 1);
    overflowing(&mut job, 3, 5);
    job
}

/// Many rows over up to 256 bodies with few different numbers, short to record.
pub fn large(rows: usize, index: u64) -> Job {
    let mut random = Random::of(rows as u64, index);
    let rows_a_joint = random.pick(&[2, 3, 4, 6]);
    let shape = random.pick(&[Shape::Chain, Shape::Loop, Shape::Tree]);
    let (pairs, bodies) = joined(shape, rows.div_ceil(rows_a_joint), &mut random);
    let mut job = Job { limit: 24, tolerances: [1e-3; 2], ..Job::default() };
    job.mode = (index % 2) as u32;
    (0..bodies).for_each(|_| job.push_mass(0.5, [1.0, 0.75, 1.25]));
    for row in 0..rows {
        let (a, b) = pairs[row / rows_a_joint];
        job.push_row(a, b);
        large_row(&mut job, row, row % rows_a_joint, row / rows_a_joint);
        job.set(row, ERROR, &[double(Style::Short, &mut random)]);
    }
    job
}

/// 512 rows of which the last but one fails 9 and the last 7.
pub fn late_faults() -> Job {
    let mut job = large(512, 0);
    job.set(510, LINEAR_A, &[0.0; ERROR]);
    job.set(511, TARGET_VELOCITY, &[f64::NAN]);
    job
}

fn large_row(job: &mut Job, row: usize, place: usize, owner: usize) {
    let mut axis = [0.0; 3];
    axis[place % 3] = 1.0;
    let negated = axis.map(|value: f64| -value);
    if place < 3 {
        job.set(row, LINEAR_A, &axis);
        job.set(row, LINEAR_B, &negated);
    }
    let turned = [axis[1], axis[2], axis[0]];
    job.set(row, ANGULAR_A, &turned);
    job.set(row, ANGULAR_B, &turned.map(|value| if place < 3 { value } else { -value }));
    job.set_word(row, DIMENSION, u32::from(place >= 3));
    job.set_word(row, OWNER, owner as u32);
}
