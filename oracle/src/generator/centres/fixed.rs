//! The recorded jobs with centres that are not drawn.

use crate::generator::examples::chain_along_x;
use crate::job::*;

pub fn fixed_centres() -> Vec<Job> {
    let in_modes = |job: Job| (0..=BLOCK_JACOBI).map(move |mode| Job { mode, ..job.clone() });
    let all = places().into_iter().chain(at_the_largest()).chain(odd_centres());
    all.flat_map(in_modes).collect()
}

/// P1 with its bodies at these places.
fn p1_at(first: [f64; 3], second: [f64; 3]) -> Job {
    Job { centres: [first, second].concat(), ..chain_along_x(0.5, &[-0.25]) }
}

/// P1 at rest and moved: zeros of either sign, places that the move undoes, halves of a unit; at
/// count 0, without rows, with a body in no row, and a row that turns its bodies alone.
fn places() -> Vec<Job> {
    let far = [two(50), two(51), -two(50)];
    let mut turned = p1_at([-0.0; 3], [0.5, -0.0, 0.25]);
    turned.set(0, LINEAR_A, &[0.0, 0.0, 0.0, 1.0, 0.5, 0.0]);
    turned.set(0, LINEAR_B, &[0.0, 0.0, 0.0, -1.0, 0.0, 0.0]);
    turned.masses[1] = 0.5;
    let at_once = Job { tolerances: [1.0; 2], ..p1_at([-0.0; 3], [1e-300, -0.0, 3.0]) };
    let mut bystander = p1_at([1.0, 2.0, 3.0], [1.0, -0.0, 3.0]);
    bystander.push_mass(0.5, [1.0; 3]);
    bystander.centres[6..].copy_from_slice(&[-0.0, 0.0, 7.5]);
    let mut empty = Job::default();
    empty.push_mass(0.5, [1.0; 3]);
    empty.centres.copy_from_slice(&[-0.0, 1.5, f64::MIN]);
    let mut fixed = p1_at([-0.0; 3], [-0.0; 3]);
    fixed.masses[MASS_NUMBERS] = -0.0;
    vec![
        p1_at([0.25, 0.5, 1.0], [-1.0, -0.0, 0.5]),
        p1_at([-0.125, -0.0, 0.0], [0.125, 0.0, -0.0]),
        p1_at([-0.0; 3], [-0.0; 3]),
        p1_at(far, far.map(|part| -part)),
        p1_at([0.1, 0.2, 0.3], [1e-17, 1e17, f64::from_bits(1)]),
        p1_at([f64::MAX, f64::MIN, f64::MAX], [f64::MAX, 0.0, 0.0]),
        turned,
        at_once,
        bystander,
        empty,
        fixed,
    ]
}

/// P1 with links so light that body 0 moves by half its error: its centre, at the largest double, by
/// half a unit, which leaves the doubles, or by a little less, which does not.
fn at_the_largest() -> Vec<Job> {
    let unit = two(971);
    let largest = |error: f64, centre: f64| {
        let mut job = chain_along_x(two(960), &[error]);
        job.centres[0] = centre;
        job
    };
    vec![
        largest(-unit, f64::MAX),
        largest(-unit.next_down(), f64::MAX),
        largest(unit, f64::MIN),
        largest(unit.next_down(), f64::MIN),
        largest(unit, f64::MAX),
        largest(-unit, 0.0),
    ]
}

/// 6 by each part of a centre, of a body in no row and without rows too, and beside each refusal
/// that is judged before it or after it.
fn odd_centres() -> Vec<Job> {
    let signalling = f64::from_bits(0x7ff0_0000_0000_0001);
    let values = [f64::NAN, f64::INFINITY, f64::NEG_INFINITY, signalling];
    let mut jobs = Vec::new();
    for (at, value) in (0..6).zip(values.into_iter().cycle()) {
        let mut job = p1_at([0.5; 3], [-0.5; 3]);
        job.centres[at] = value;
        jobs.push(job);
    }
    let mut empty = Job::default();
    empty.push_mass(0.5, [1.0; 3]);
    let mut bystander = p1_at([0.0; 3], [0.0; 3]);
    bystander.push_mass(0.5, [1.0; 3]);
    let changed = |change: fn(&mut Job)| {
        let mut job = p1_at([0.0; 3], [0.0; 3]);
        change(&mut job);
        job
    };
    let beside = [
        empty,
        bystander,
        changed(|job| job.set_word(0, KEY, 256)),     // 4
        changed(|job| job.tolerances[1] = -1.0),      // 27
        changed(|job| job.limit = 0),                 // 5
        changed(|job| job.masses[0] = f64::INFINITY), // 6 by a mass
        changed(|job| job.set_word(0, BODY_B, 2)),    // 7
        changed(|job| job.set(0, LINEAR_A, &[f64::MAX, 0.0])), // 8
        changed(|job| job.masses.fill(0.0)),          // 9
        changed(|job| job.tolerances = [1.0; 2]),     // count 0
    ];
    for (mut job, value) in beside.into_iter().zip(values.into_iter().cycle()) {
        *job.centres.last_mut().expect("it has a body") = value;
        jobs.push(job);
    }
    jobs
}
