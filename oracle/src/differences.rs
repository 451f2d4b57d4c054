//! docs/DIFFERENCES.md's inputs, run on the reference.

mod velocities;

use crate::generator::{chain_along_x, from_the_origin, push_x_row, star};
use crate::inertia;
use crate::job::*;
use crate::judge::{gained, run_reference};
use crate::model::{self, Checked};
use reference::Outcome;

struct Difference {
    name: &'static str,
    input: &'static str,
    job: Job,
}

fn p1() -> Job {
    chain_along_x(0.5, &[-0.25])
}

/// Refusals that the Rust gives elsewhere, later, or not at all.
fn refusals() -> Vec<Difference> {
    let mut moved = chain_along_x(two(-1000), &[-0.25]);
    moved.set(0, MULTIPLIER, &[f64::MAX]);
    let mut written = chain_along_x(two(-1000), &[-0.25, -0.25]);
    written.set(1, MULTIPLIER, &[f64::MAX]);
    let mut bystander = p1();
    bystander.push_mass(f64::NAN, [0.0; 3]);
    let mut infinite = p1();
    infinite.masses[0] = f64::INFINITY;
    let mut empty = Job::default();
    empty.push_mass(f64::NAN, [0.0; 3]);
    let closed = Job { tolerances: [1.0; 2], ..bystander.clone() };
    let mut many = Job { tolerances: [1.0; 2], limit: 1, ..Job::default() };
    (0..2).for_each(|_| many.push_mass(0.5, [0.0; 3]));
    (0..513).for_each(|_| push_x_row(&mut many, 0, 1, 0.0));
    let mut worn = Job { mode: INCOMPLETE_CHOLESKY, shift: two(-20), ..p1() };
    push_x_row(&mut worn, 0, 1, -0.25);
    worn.set(1, LINEAR_A, &[1.0, two(-28), 0.0]);
    let at = |tolerances, job: Job| Job { tolerances, ..job };
    let under = |rules: &[(u32, u32, u32, f64)], job: Job| {
        let mut table = Rules::default();
        rules.iter().for_each(|rule| table.push(rule.0, rule.1, rule.2, rule.3));
        Job { rules: Some(table), ..job }
    };
    let unused = under(&[(0, 0, 255, 0.001), (1, 7, 6, 0.001)], p1());
    let none = under(&[(0, 1, 255, 0.001), (1, 0, 255, 0.001)], p1());
    let twice = under(&[(0, 0, 255, 0.001), (0, 0, 0, 0.001)], p1());
    let mut kinds = chain_along_x(1.0, &[-1.0, 0.0]);
    kinds.set_word(1, KEY, 7);
    let kinds = under(&[(0, 0, 6, 0.001), (0, 7, 7, 1.0)], kinds);
    let kinds = Job { limit: 1, ..kinds };
    let mut odd_centre = p1();
    odd_centre.centres[4] = f64::NAN;
    let mut at_the_largest = chain_along_x(two(960), &[-two(971)]);
    at_the_largest.centres[0] = f64::MAX;
    let mut within = chain_along_x(two(960), &[-two(971).next_down()]);
    within.centres[0] = f64::MAX;
    let origin = from_the_origin(two(209), two(1018), two(-821));
    let named = |name, input, job| Difference { name, input, job };
    vec![
        named("17-bodies", "P1, inverse masses 2^-1000, multiplier the largest double", moved),
        named("17-multipliers", "two such rows in a chain, the second's multiplier so", written),
        named("6-overflow", "P1, inverse mass of body 0 infinite", infinite),
        named("6-bystander", "P1, a third body in no row of inverse mass NaN", bystander),
        named("6-count-0", "the same at tolerance 1", closed),
        named("6-no-rows", "no rows, one body of inverse mass NaN", empty),
        named("6-centre", "P1, a number of body 1's centre NaN", odd_centre),
        named("17-centre", AT_THE_LARGEST, at_the_largest),
        named("17-centre-less", "the same, the error one unit smaller", within),
        named("17-origin", FROM_THE_ORIGIN, origin),
        named("10", "mode 1, a star of 182 rows", star(182)),
        named("3", "513 rows that are closed", many),
        named("26-infinite", "P1, linear tolerance infinite", at([f64::INFINITY, 0.001], p1())),
        named("26-nan", "P1, angular tolerance NaN", at([0.001, f64::NAN], p1())),
        named("26-no-rows", "no rows, tolerances -1", at([-1.0; 2], Job::default())),
        named("27", "P1, a second rule over keys 7 to 6, which no row uses", unused),
        named("28-none", "P1, whose key is 0, under rules over keys 1 to 255", none),
        named("28-several", "P1, a second rule over key 0", twice),
        named("rules", "P4, limit 1, the second row's key 7, tolerance 1 for that key", kinds),
        named("25", "P1 with shift 1.5", Job { shift: 1.5, ..p1() }),
        named("shift", "P1's row and one with linear_a (1, 2^-28, 0), mode 1, shift 2^-20", worn),
    ]
}

const AT_THE_LARGEST: &str = "P1, inverse masses 2^960, error -2^971, so that body 0 moves by 2^970; its centre the largest double";
const FROM_THE_ORIGIN: &str = "two rows that all but cancel, alpha about 2^20, the second body of inverse mass 2^1018; centres +0.0";

/// What the Rust does and Hestenes and Stiefel 1952 or Meijerink and van der Vorst 1977 do not.
fn methods() -> Vec<Difference> {
    let roots = Job { mode: INCOMPLETE_CHOLESKY, ..chain_along_x(1.0, &[-0.75]) };
    let mut preconditioned = chain_along_x(1.0, &[-1.0, 1.0]);
    preconditioned.masses[20] = 3.0;
    preconditioned.limit = 1;
    let replaced = chain_along_x(0.0, &[0.0005]);
    let mut carried = chain_along_x(0.5, &[-1.0]);
    carried.limit = 200;
    push_x_row(&mut carried, 0, 1, 0.5);
    carried.set(1, LINEAR_A, &[1.0, two(-26), 0.0]);
    let mut opposite = chain_along_x(0.5, &[-1.0]);
    push_x_row(&mut opposite, 0, 1, 1.0);
    let small = Job { tolerances: [1e-170; 2], ..chain_along_x(0.5, &[1e-160]) };
    let renewal = chain_along_x(1.0, &[two(-510), 0.0]);
    let renewal = Job { limit: 1, tolerances: [0.0; 2], ..renewal };
    let named = |name, input, job| Difference { name, input, job };
    vec![
        named("roots", "P1, inverse masses 1, error -0.75, mode 1", roots.clone()),
        named("roots-none", "the same in mode 0: one row needs no root", Job { mode: 0, ..roots }),
        named(
            "preconditioned",
            "P4 with errors -1 and 1, third inverse mass 3, limit 1",
            preconditioned,
        ),
        named("replaced", "P1, inverse masses 0, error 0.0005", replaced),
        named(
            "carried",
            "P1, error -1, limit 200; a second row with linear_a (1, 2^-26, 0), error 0.5",
            carried,
        ),
        named("threshold-14", "P7", small),
        named("threshold-15", "P5", opposite),
        named("last-renewal", "P4 with errors 2^-510 and 0, tolerance 0", renewal),
    ]
}

pub fn run() -> bool {
    for difference in refusals().iter().chain(&velocities::refusals()).chain(&methods()) {
        println!("{}: {}", difference.name, difference.input);
        println!("  Rust:        {}", rust(&difference.job));
        // Neither the Rust nor document 01 has a shift or rules, or judges a tolerance or a centre.
        let Job { rules, shift, .. } = &difference.job;
        let same = rules.is_none() && *shift == 0.0 && model::tolerances_fit(&difference.job);
        let same = same && difference.job.kind == Kind::Position && !placed(&difference.job);
        let measure = if same { "01" } else { "02" };
        println!("  document {measure}: {}", document(&difference.job));
    }
    velocities::reuse();
    inertia::differences();
    true
}

/// A body has a centre other than +0.0, or ends up beyond the doubles.
fn placed(job: &Job) -> bool {
    let moved = model::delivered(job).centres;
    job.centres.iter().any(|part| part.to_bits() != 0) || !moved.iter().all(|part| part.is_finite())
}

/// What a caller that lends rules is told, and without rules what the job program prints.
fn document(job: &Job) -> String {
    let by_file = job.rules.is_none() && job.kind == Kind::Position;
    let solved = if by_file { model::solve_file(job) } else { model::solve(job) };
    match solved.answer {
        Answer::Refused(number) => format!("refusal {number}, nothing written"),
        Answer::Accepted { flag, count, linear, angular } => {
            let mut text = accepted(flag, count as usize, linear, angular, &solved.solution);
            if job.kind == Kind::Position && placed(job) {
                text += &format!(", body 0 at {:e}", solved.centres[0]);
            }
            format!("{text}; {}", check(job, &solved.solution))
        }
    }
}

/// The closing check's verdict, the largest |r| that it measured, and the gap, which adds E.
fn check(job: &Job, list: &[f64]) -> String {
    match model::closing_check(job, list) {
        Err(refusal) => format!("check refuses by {refusal}"),
        Ok(Checked { closed, gap: [linear, angular], measured, .. }) => {
            let sizes = measured.into_iter().map(|found| found.r.abs());
            let (largest, verdict) =
                (sizes.fold(0.0, f64::max), if closed { "closed" } else { "open" });
            format!("check {verdict}, |r| {largest:e}, gap {linear:e} {angular:e}")
        }
    }
}

fn rust(job: &Job) -> String {
    let (outcome, prepared) = run_reference(job, job.tolerances);
    let told = told(outcome, prepared.solution());
    if let Outcome::Accepted { .. } = outcome {
        let beyond = prepared.next_centers().iter().position(Option::is_none);
        let beyond = beyond.filter(|_| job.kind == Kind::Position);
        return told + &beyond.map_or(String::new(), overflows);
    }
    let moved = prepared.applied().iter().filter(|applied| applied.is_some()).count();
    let changed = |(old, new): (&f64, &f64)| old.to_bits() != new.to_bits();
    let (old, new) = (job.accumulated(), gained(job, &prepared));
    let written = old.iter().zip(&new).filter(|pair| changed(*pair)).count();
    let what = match job.kind {
        Kind::Position => "multipliers",
        Kind::Velocity => "accumulated impulses",
    };
    format!("{told}, {moved} bodies moved, {written} {what} written")
}

fn told(outcome: Outcome, solution: &[f64]) -> String {
    match outcome {
        Outcome::Accepted { count, converged, linear, angular } => {
            accepted(converged, count, linear, angular, solution)
        }
        Outcome::NotAvailable => "Ok(None)".to_string(),
        Outcome::Error(error) => format!("Err({error:?})"),
    }
}

/// What the two statements for a new centre say of a body.
fn overflows(body: usize) -> String {
    format!(", the centre of body {body} overflows")
}

/// The solution is told where it is short.
fn accepted(flag: bool, count: usize, linear: f64, angular: f64, solution: &[f64]) -> String {
    let flag = u32::from(flag);
    let mut text =
        format!("accepted, flag {flag}, count {count}, residuals {linear:e} {angular:e}");
    if count > 0 && solution.len() <= 2 {
        let bits = solution.iter().map(|value| format!(" {:016x}", value.to_bits()));
        text += &format!(", solution{}", bits.collect::<String>());
    }
    text
}
