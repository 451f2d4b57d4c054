//! Several mechanisms on one bench (document 02, g): drawn one by one, some with a fault of their own,
//! hung on shared frames of zero mass, their rows dealt out by turns.

use super::centres::place;
use super::doubles::Style;
use super::mechanism::{Plan, Shape, build};
use super::rules::under_rules;
use super::shifts::with_shift;
use super::velocities::in_motion;
use super::{Sizes, driven, faults, job, settings};
use crate::job::*;
use crate::random::Random;

const MOST_ROWS: usize = 512;
const MOST_BODIES: usize = 256;

/// Bench `index` of `seed`, of positions: one in ten is a job as any other, with bodies that stand.
pub fn bench(seed: u64, index: u64) -> Job {
    let mut random = Random::of(seed.rotate_left(32) ^ 0x6e0b, index);
    if random.chance(10) {
        let mut job = job(seed, index, Sizes::Any);
        stand(&mut job, &mut random);
        return job;
    }
    let mut bench = mechanisms(&mut random);
    with_settings(&mut bench, &mut random);
    if random.chance(50) {
        place(&mut bench, &mut random);
    }
    bench
}

/// The same of velocities.
pub fn moving_bench(seed: u64, index: u64) -> Job {
    let mut random = Random::of(seed.rotate_left(32) ^ 0x6e0c, index);
    if random.chance(10) {
        let mut job = driven(seed, index);
        stand(&mut job, &mut random);
        return job;
    }
    let bench = mechanisms(&mut random);
    let mut bench = in_motion(bench, &mut random);
    with_settings(&mut bench, &mut random);
    if !bench.residuals.is_empty() && random.chance(2) {
        let at = random.below(bench.residuals.len());
        bench.residuals[at] = random.pick(&[f64::NAN, f64::INFINITY, f64::NEG_INFINITY]);
    }
    bench
}

/// Rules and shift as the driver's other jobs have them; now and then something wrong with the whole.
fn with_settings(bench: &mut Job, random: &mut Random) {
    if random.chance(20) {
        under_rules(bench, random);
    }
    if random.chance(20) {
        with_shift(bench, random);
    }
    if random.chance(8) {
        faults::any(bench, random);
    }
}

/// So many mechanisms, one or two frames, and rows in any order.
fn mechanisms(random: &mut Random) -> Job {
    let mut bench = Job::default();
    settings(&mut bench, random);
    let frames = random.pick(&[1, 1, 1, 2, 3]);
    (0..frames).for_each(|_| bench.push_mass(0.0, [0.0; 3]));
    for body in 0..frames {
        signs(&mut bench, body, random);
    }
    let many = match random.below(1000) {
        0..700 => 1 + random.below(4),
        700..990 => 1 + random.below(12),
        990..997 => 40 + random.below(60),
        _ => 170,
    };
    let hung = random.pick(&[30, 80, 100]);
    for owner in 0..many {
        let mut own = mechanism(many, random);
        (own.mode, own.limit, own.tolerances) = (bench.mode, bench.limit, bench.tolerances);
        if random.chance(25) {
            faults::own(&mut own, random);
        }
        let frame = random.chance(hung).then(|| random.below(frames));
        put(&mut bench, &own, frame, 7 * owner as u32, random);
    }
    let rows = bench.rows;
    bench.limit = random.pick(&[bench.limit, bench.limit, 2 * rows + 2, 300]);
    if random.chance(30) {
        stand(&mut bench, random);
    }
    if random.chance(70) {
        deal(&mut bench, random);
    }
    bench
}

fn mechanism(many: usize, random: &mut Random) -> Job {
    let rows_a_joint = random.pick(&[1, 1, 2, 3, 3]);
    let most = if many >= 40 { 1 } else { random.pick(&[1, 2, 4, 8]) };
    let joints = 1 + random.below(most);
    let shape = random.pick(&Shape::ALL);
    let style = if random.chance(60) { Style::Short } else { random.pick(&Style::MOSTLY_MILD) };
    build(&Plan { shape, joints, rows_a_joint, style }, random)
}

/// Adds a mechanism's bodies and rows, one of its bodies being the frame where there is one.
fn put(bench: &mut Job, own: &Job, frame: Option<usize>, owner: u32, random: &mut Random) {
    let first = bench.bodies;
    let (rows, bodies) = ((bench.rows + own.rows) as usize, (first + own.bodies) as usize);
    if rows > MOST_ROWS || bodies > MOST_BODIES {
        return;
    }
    bench.masses.extend(&own.masses);
    bench.centres.extend(&own.centres);
    bench.bodies += own.bodies;
    let hung = frame.map(|frame| (random.below(own.bodies as usize) as u32, frame as u32));
    let body = |own: u32| match hung {
        Some((body, frame)) if body == own => frame,
        _ => first + own,
    };
    bench.numbers.extend(&own.numbers);
    for words in own.words.chunks_exact(ROW_WORDS) {
        let mut words: [u32; ROW_WORDS] = words.try_into().expect("eight words");
        (words[BODY_A], words[BODY_B]) = (body(words[BODY_A]), body(words[BODY_B]));
        words[OWNER] += owner;
        bench.words.extend(words);
    }
    bench.rows += own.rows;
}

/// Ten zeros, each of either sign.
fn signs(job: &mut Job, body: usize, random: &mut Random) {
    let either = random.chance(40);
    let mass = &mut job.masses[MASS_NUMBERS * body..][..MASS_NUMBERS];
    mass.fill_with(|| if either { random.pick(&[0.0, -0.0]) } else { 0.0 });
}

/// Some bodies stand: all of their mass numbers are zero, or all but one.
fn stand(job: &mut Job, random: &mut Random) {
    let percent = random.pick(&[5, 20, 50]);
    for body in 0..job.masses.len() / MASS_NUMBERS {
        if random.chance(percent) {
            signs(job, body, random);
            if random.chance(15) {
                let at = MASS_NUMBERS * body + random.below(MASS_NUMBERS);
                job.masses[at] = random.pick(&[1.0, f64::from_bits(1), -f64::from_bits(1)]);
            }
        }
    }
}

/// The rows in another order, with residuals where there are some.
fn deal(job: &mut Job, random: &mut Random) {
    let mut order: Vec<usize> = (0..job.rows as usize).collect();
    for at in (1..order.len()).rev() {
        order.swap(at, random.below(at + 1));
    }
    let numbers =
        order.iter().flat_map(|row| job.numbers[ROW_NUMBERS * row..][..ROW_NUMBERS].to_vec());
    let numbers = numbers.collect();
    let words = order.iter().flat_map(|row| job.words[ROW_WORDS * row..][..ROW_WORDS].to_vec());
    (job.words, job.numbers) = (words.collect(), numbers);
}
