//! The inputs that are about velocities (document 02, a).

use super::{Difference, told};
use crate::generator::{self, push_velocity_row, velocity_chain};
use crate::job::*;
use reference::Prepared;

fn v1() -> Job {
    generator::v1(0.001)
}

/// 20, and what the Rust has written at 17.
pub fn refusals() -> Vec<Difference> {
    let odd = Job { residuals: vec![f64::NAN], ..v1() };
    let mut invalid = odd.clone();
    invalid.set(0, ACCUMULATED_IMPULSE, &[f64::NAN]);
    let light = |residuals: &[f64]| {
        let mut job = velocity_chain(residuals);
        let masses = job.masses.iter_mut().step_by(MASS_NUMBERS);
        masses.for_each(|inverse_mass| *inverse_mass = two(-1000));
        job.set(residuals.len() - 1, ACCUMULATED_IMPULSE, &[f64::MAX]);
        job
    };
    let named = |name, input, job| Difference { name, input, job };
    vec![
        named("20", "V1, residual NaN", odd),
        named("20-7", "the same, accumulated impulse NaN", invalid),
        named(
            "17-velocity-bodies",
            "V1, inverse masses 2^-1000, accumulated impulse the largest double",
            light(&[0.25]),
        ),
        named(
            "17-velocity-impulses",
            "two such rows in a chain, the second's accumulated impulse so",
            light(&[0.25, 0.25]),
        ),
    ]
}

/// Two calls on one scratch, and the second on a fresh one.
struct Reuse {
    name: &'static str,
    input: &'static str,
    first: Job,
    second: Job,
}

/// The second job has the rows of the first; its residuals, masses, limit and mode may be others.
pub fn reuse() {
    for Reuse { name, input, first, second } in reuses() {
        let mut prepared = Prepared::new(&first.numbers, &first.words, &first.masses, &[]);
        prepared.lend(&first.residuals);
        let before = prepared.solve_velocity(first.limit as usize, first.tolerances, first.mode);
        let before = told(before, prepared.solution());
        prepared.lend(&second.residuals);
        prepared.exchange_masses(&second.masses);
        let (limit, tolerances) = (second.limit as usize, second.tolerances);
        let again = prepared.solve_velocity_again(limit, tolerances, second.mode);
        println!("{name}: {input}");
        println!("  Rust, first: {before}");
        println!("  reused:      {}", told(again, prepared.solution()));
        println!("  fresh:       {}", super::rust(&second));
        println!("  document 02: {}", super::document(&second));
    }
}

fn reuses() -> Vec<Reuse> {
    let zeros = |residual: f64| {
        let mut job = velocity_chain(&[residual]);
        job.set(0, LINEAR_A, &[0.0; ERROR]);
        job
    };
    let rows = |count: usize, mode: u32| {
        let mut job = v1();
        for _ in 1..count {
            push_velocity_row(&mut job, 0, 1, 0.25);
        }
        (0..count).for_each(|row| job.set_word(row, OWNER, 0));
        Job { mode, ..job }
    };
    let mut heavy = v1();
    heavy.masses[0] = 2.0;
    heavy.masses[MASS_NUMBERS] = 2.0;
    let root = |mode: u32| {
        let mut job = Job { mode, residuals: vec![0.75], ..v1() };
        job.masses.iter_mut().step_by(MASS_NUMBERS).for_each(|inverse_mass| *inverse_mass = 1.0);
        job
    };
    let named = |name, input, first, second| Reuse { name, input, first, second };
    vec![
        named("reuse-5", "V1 at limit 0, then at 4", Job { limit: 0, ..v1() }, v1()),
        named("reuse-9", "one row of zeros, residual 0.25, then 0", zeros(0.25), zeros(0.0)),
        named("reuse-11", "seven rows in mode 2, then in mode 0", rows(7, 2), rows(7, 0)),
        named("reuse-13", "two equal rows in mode 1, then in mode 0", rows(2, 1), rows(2, 0)),
        named("reuse-masses", "V1, then with inverse masses 2", v1(), heavy),
        named(
            "reuse-mode",
            "V1, inverse masses 1, residual 0.75, in mode 0, then in mode 1",
            root(0),
            root(1),
        ),
        named(
            "reuse-replaced",
            "one row of zeros, tolerance 0.001, residual 0.0005, twice",
            zeros(0.0005),
            zeros(0.0005),
        ),
    ]
}
