//! Jobs built to stand on an edge.

use super::Sizes;
use super::doubles::{Style, double, odd};
use super::examples::{chain_along_x, examples, two_rows};
use super::large::many_pairs;
use super::overflows::*;
use super::thresholds::*;
use crate::job::*;
use crate::random::Random;

type Edge = fn(&mut Random) -> Job;

const EDGES: [Edge; 25] = [
    threshold_diagonal,
    threshold_residual_product,
    threshold_first_product,
    threshold_renewal,
    threshold_denominator,
    threshold_pivot,
    pair_overflow,
    indefinite,
    tiny_residual,
    multiplier_overflow,
    impulses_near_overflow,
    final_impulse_overflow,
    final_impulse_overflow,
    factor_overflow,
    update_overflow,
    renewal_overflow,
    renewal_overflow,
    long_run,
    recurrence_overflow,
    diagonal_overflow,
    replaced_diagonals,
    edge_of_tolerance,
    any_example,
    order_of_rows,
    empty_tables,
];

pub fn job(random: &mut Random, sizes: Sizes) -> Job {
    if sizes == Sizes::Any && random.below(400) == 0 {
        return many_pairs(random);
    }
    let mut job = random.pick(&EDGES)(random);
    if random.chance(85) {
        job.mode = random.pick(&[0, 1, 2]);
    }
    job
}

fn any_example(random: &mut Random) -> Job {
    let examples = examples();
    examples[random.below(examples.len())].job.clone()
}

/// Not symmetric: the factor reads one side's coupling, the operator both.
fn indefinite(random: &mut Random) -> Job {
    let mut job = two_rows(1.0, [[1.0, 0.0, 0.0], [0.0, 1.0, 0.0]], [-1.0, 1.0]);
    job.set(0, ANGULAR_A, &[1.0, 0.0, 0.0]);
    job.set(1, ANGULAR_A, &[0.0, 1.0, 0.0]);
    job.set(0, ERROR, &[double(Style::Short, random)]);
    let size = double(Style::Short, random) * two(random.between(0, 6));
    job.masses[2] = size;
    job.masses[4] = random.pick(&[0.0, 0.0, -size]);
    job.limit = 1 + random.below(9) as u32;
    job
}

/// Five to eight rows of one joint, on all six freedoms of a body.
fn long_run(random: &mut Random) -> Job {
    let mut job = Job { limit: 12, tolerances: [1e-9; 2], ..Job::default() };
    job.push_mass(0.5, [1.0, 2.0, 0.75]);
    job.push_mass(random.pick(&[0.0, 1.0]), [0.5; 3]);
    for row in 0..5 + random.below(4) {
        job.push_row(0, 1);
        job.set(row, LINEAR_A + row % 6, &[1.0]);
        job.set(row, LINEAR_B + (row + row / 6) % 6, &[double(Style::Short, random)]);
        job.set(row, ERROR, &[double(Style::Short, random)]);
        job.set_word(row, OWNER, 3);
    }
    if random.chance(30) {
        job.push_mass(1.0, [1.0; 3]);
        let row = random.below(job.rows as usize);
        job.set_word(row, BODY_B, 2);
    }
    job
}

fn tiny_residual(random: &mut Random) -> Job {
    let errors = [0; 2].map(|_| random.sign() * two(random.between(-560, -500)));
    let mut job = chain_along_x(random.pick(&[0.5, 1.0, 2.0]), &errors[..1 + random.below(2)]);
    job.tolerances = [random.pick(&[0.0, -0.0, f64::from_bits(1), two(-800)]); 2];
    job
}

/// Rows with a replaced diagonal among rows that move.
pub fn replaced_diagonals(random: &mut Random) -> Job {
    let mut job = chain_along_x(1.0, &[0.0, -0.5, 0.0]);
    job.tolerances[0] = random.pick(&[0.001, 0.001, 0.0005, 0.0011, 0.25]);
    for row in [0, 2] {
        let error = random.pick(&[0.0, -0.0, 0.001, 0.0011, -0.0005]);
        job.set(row, ERROR, &[error]);
        if random.chance(70) {
            let tiny = random.pick(&[0.0, -0.0, two(-540), two(-511)]);
            job.set(row, LINEAR_A, &[tiny, 0.0, 0.0]);
            job.set(row, LINEAR_B, &[tiny, 0.0, 0.0]);
        }
    }
    job
}

/// One of the tolerances is the last that 26 and 27 let pass, or the first that they do not.
fn edge_of_tolerance(random: &mut Random) -> Job {
    let mut job = chain_along_x(0.5, &[double(Style::Short, random)]);
    let least = f64::from_bits(1);
    let edges = [0.0, -0.0, least, -least, f64::MAX, f64::INFINITY, f64::NEG_INFINITY, f64::NAN];
    job.tolerances[random.below(2)] = random.pick(&edges);
    job.set_word(0, DIMENSION, random.below(2) as u32);
    job.limit = random.below(4) as u32;
    job
}

/// An early row that fails 9 or 8 before a late row that fails 7, and the reverse.
fn order_of_rows(random: &mut Random) -> Job {
    let mut job = chain_along_x(1.0, &[-0.25, 0.5, 0.75]);
    let mut order = [0, 1, 2];
    order.swap(0, random.below(3));
    job.set(order[0], ERROR, &[random.pick(&[f64::NAN, f64::INFINITY, 0.5])]);
    job.set(order[1], LINEAR_A, &[random.pick(&[0.0, 1e200, 1.0]), 0.0, 0.0]);
    job.set(order[1], LINEAR_B, &[0.0; 3]);
    job.set(order[2], TARGET_VELOCITY, &[random.pick(&[f64::NAN, 0.0])]);
    job
}

/// No rows, whatever the limit, also where 27 looks at the tolerances, or rows without bodies.
fn empty_tables(random: &mut Random) -> Job {
    let mut job = Job { limit: random.below(3) as u32, ..Job::default() };
    job.tolerances = [0; 2].map(|_| if random.chance(50) { odd(random) } else { random.unit() });
    let bodies = random.below(4);
    (0..bodies).for_each(|_| job.push_mass(0.5, [1.0; 3]));
    if bodies > 0 && random.chance(40) {
        job.masses[MASS_NUMBERS * bodies - 1] = odd(random);
    }
    if bodies < 2 && random.chance(50) {
        let row = job.push_row(0, 1);
        job.set(row, ERROR, &[odd(random)]);
    }
    job
}
