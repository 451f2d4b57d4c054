//! Jobs by seed and index: a mechanism, its numbers, and what is wrong with it.

mod benches;
mod centres;
pub mod doubles;
mod edges;
mod examples;
mod faults;
mod fixed;
mod large;
mod mechanism;
mod overflows;
mod pins;
mod rules;
mod shifts;
mod thresholds;
mod velocities;

pub use benches::{bench, moving_bench};
pub use centres::{centred, centred_pin, fixed_centres, from_the_origin, place};
pub use examples::{chain_along_x, examples, push_x_row};
pub use fixed::fixed;
pub use large::star;
pub use mechanism::{Shape, joined};
pub use pins::pin;
pub use rules::{ruled, split};
pub use shifts::shifted;
pub use velocities::{
    driven, fixed_velocities, moving, push_velocity_row, sheets, v1, velocity_chain, velocity_pin,
};

use crate::job::Job;
use crate::random::Random;
use doubles::{Style, double};
use mechanism::Plan;

/// How large a job may get: the recorded list keeps to small ones.
#[derive(Clone, Copy, PartialEq)]
pub enum Sizes {
    Small,
    Any,
}

pub fn job(seed: u64, index: u64, sizes: Sizes) -> Job {
    let mut random = Random::of(seed, index);
    if random.chance(20) {
        return edges::job(&mut random, sizes);
    }
    let mut job = mechanism::build(&plan(&mut random, sizes), &mut random);
    settings(&mut job, &mut random);
    let faults = random.pick(&[0, 0, 1, 1, 1, 2, 3]);
    for _ in 0..faults {
        faults::any(&mut job, &mut random);
    }
    job
}

fn plan(random: &mut Random, sizes: Sizes) -> Plan {
    let shape = random.pick(&Shape::ALL);
    let rows_a_joint = random.pick(&[1, 1, 1, 2, 3, 3, 4, 6]);
    Plan {
        shape,
        joints: row_target(random, sizes).div_ceil(rows_a_joint).max(1),
        rows_a_joint,
        style: random.pick(&Style::MOSTLY_MILD),
    }
}

/// Mostly small: a mistake shows on few rows, and few rows are quickly run.
fn row_target(random: &mut Random, sizes: Sizes) -> usize {
    let draw = random.below(1000);
    match (sizes, draw) {
        (Sizes::Small, 0..900) => 1 + random.below(5),
        (Sizes::Small, _) => 1 + random.below(12),
        (Sizes::Any, 0..700) => 1 + random.below(8),
        (Sizes::Any, 700..950) => 1 + random.below(24),
        (Sizes::Any, 950..997) => 1 + random.below(128),
        (Sizes::Any, _) => 1 + random.below(512),
    }
}

fn settings(job: &mut Job, random: &mut Random) {
    job.mode = random.pick(&[0, 0, 1, 1, 2]);
    let rows = job.rows;
    job.limit = random.pick(&[1, 1, 2, 3, 5, rows.max(1), 2 * rows + 2, 300]);
    let shared = random.pick(&[0.0, 1e-12, 1e-9, 1e-6, 1e-3, 0.5, 4.0]);
    job.tolerances = [shared, shared];
    if random.chance(30) {
        job.tolerances[1] = double(Style::Plain, random).abs();
    }
}
