//! Jobs with centres (document 02, d): drawn as any other, then each body is given a place.

mod fixed;
mod pins;

pub use fixed::fixed_centres;
pub use pins::{centred_pin, from_the_origin};

use super::doubles::{Style, beside, double, odd};
use super::{Sizes, job};
use crate::job::*;
use crate::model;
use crate::random::Random;

/// Job `index` of `seed` as `job` draws it, and its centres, now and then one number too many or too
/// few of them (3).
pub fn centred(seed: u64, index: u64) -> Job {
    let mut random = Random::of(seed.rotate_left(32) ^ 0xce27, index);
    let mut job = job(seed, index, Sizes::Any);
    place(&mut job, &mut random);
    match random.below(100) {
        0 => job.centres.push(0.0),
        1 => drop(job.centres.pop()),
        _ => {}
    }
    job
}

/// Centres of one kind for a job, and perhaps one number of any kind among them.
pub fn place(job: &mut Job, random: &mut Random) {
    match random.below(KINDS.len() + 4) {
        0 | 1 => beside_moves(job, random),
        2 | 3 => near_the_largest(job, random),
        kind => job.centres.iter_mut().for_each(|part| *part = KINDS[kind - 4](random)),
    }
    if !job.centres.is_empty() && random.chance(12) {
        let at = random.below(job.centres.len());
        job.centres[at] = odd(random);
    }
}

type Kind = fn(&mut Random) -> f64;

/// Plain places twice, short ones, zeros of either sign, and all sizes.
const KINDS: [Kind; 7] = [
    |random| double(Style::Plain, random),
    |random| double(Style::Plain, random),
    |random| double(Style::Short, random),
    |random| random.pick(&[0.0, -0.0]),
    |_| -0.0,
    |random| double(Style::Wide, random),
    |random| double(Style::Extreme, random),
];

/// Centres around the largest double, and moves that it feels.
fn near_the_largest(job: &mut Job, random: &mut Random) {
    let sizes = [f64::MAX, f64::MAX.next_down(), two(1023), two(970)];
    job.centres.iter_mut().for_each(|part| *part = random.sign() * random.pick(&sizes));
    if random.chance(70) {
        far(job, random.between(950, 1015));
    }
}

/// Errors so much larger and links so much lighter: the impulses are what they were, and the bodies
/// move by so much more.
fn far(job: &mut Job, exponent: i32) {
    let scale = |value: &mut f64| *value = (*value * two(exponent)).clamp(f64::MIN, f64::MAX);
    job.masses.iter_mut().for_each(scale);
    job.tolerances.iter_mut().for_each(scale);
    job.numbers.chunks_exact_mut(ROW_NUMBERS).for_each(|row| scale(&mut row[ERROR]));
}

/// Each part where what it moves by matters to the last bit: as much, so that nothing is left or a
/// unit is, or so much more that half a unit is added.
fn beside_moves(job: &mut Job, random: &mut Random) {
    let found = model::delivered(&Job { centres: vec![0.0; job.centres.len()], ..job.clone() });
    for (part, by) in job.centres.iter_mut().zip(&found.centres) {
        *part = match random.below(4) {
            0 => -by,
            1 => beside(-by, random),
            2 => by * two(53),
            _ => by * (two(53) + f64::from(random.between(-3, 3))),
        };
        if !part.is_finite() {
            *part = -0.0;
        }
    }
}
