//! Times of a solve, of positions and of velocities: the reference as published and without its timer
//! lines, and an implementation if one is given; and of an implementation's closing check. Buffers
//! stay warm; nothing but the solve or the check is timed.

use crate::generator::{Shape, joined, split};
use crate::implementation::{CheckOutputs, Implementation, Outputs};
use crate::job::*;
use crate::random::Random;
use std::hint::black_box;
use std::time::{Duration, Instant};

pub mod eigen;
pub mod groups;
pub mod program;

/// Name, shape, joints and rows a joint.
const FAMILIES: [(&str, Shape, usize, usize); 15] = [
    ("chain", Shape::Chain, 1, 1),
    ("chain", Shape::Chain, 1, 3),
    ("chain", Shape::Chain, 4, 3),
    ("chain", Shape::Chain, 16, 3),
    ("chain", Shape::Chain, 42, 3),
    ("chain", Shape::Chain, 21, 6),
    ("chain", Shape::Chain, 85, 3),
    ("chain", Shape::Chain, 128, 4),
    ("chain", Shape::Chain, 170, 3),
    ("loop", Shape::Loop, 16, 3),
    ("loop", Shape::Loop, 42, 3),
    ("loop", Shape::Loop, 170, 3),
    ("loop", Shape::Loop, 256, 2),
    ("tree", Shape::Tree, 42, 3),
    ("tree", Shape::Tree, 128, 4),
];

/// Links of one size, each turned a little against the one before, so that a loop closes;
/// the first three rows of a joint hold its pin, the others its turning.
fn mechanism(shape: Shape, joints: usize, rows_a_joint: usize, mode: u32) -> Job {
    let mut random = Random::of(7, joints as u64);
    let (pairs, bodies) = joined(shape, joints, &mut random);
    let mut job = Job { limit: 2000, mode, tolerances: [1e-6; 2], ..Job::default() };
    (0..bodies).for_each(|_| job.push_mass(0.5, [1.5, 2.0, 1.25]));
    let rod = |body: u32| {
        let angle = std::f64::consts::TAU * f64::from(body) / bodies as f64;
        [0.5 * angle.cos(), 0.5 * angle.sin(), 0.05]
    };
    for (owner, &(a, b)) in pairs.iter().enumerate() {
        for place in 0..rows_a_joint {
            let row = job.push_row(a, b);
            joint_row(&mut job, row, place, [rod(a), negated(rod(b))]);
            job.set_word(row, OWNER, owner as u32);
            job.set(row, ERROR, &[(random.unit() - 0.5) * 0.02]);
        }
    }
    job
}

/// The same for speeds, its errors turned into residuals.
fn in_motion(job: Job) -> Job {
    let residuals = job.numbers.chunks_exact(ROW_NUMBERS).map(|row| -row[ERROR]).collect();
    Job { kind: Kind::Velocity, residuals, centres: Vec::new(), ..job }
}

fn of_kind(kind: Kind, job: Job) -> Job {
    match kind {
        Kind::Position => job,
        Kind::Velocity => in_motion(job),
    }
}

fn negated(vector: [f64; 3]) -> [f64; 3] {
    vector.map(|value| -value)
}

fn crossed([a, b, c]: [f64; 3], [x, y, z]: [f64; 3]) -> [f64; 3] {
    [b * z - c * y, c * x - a * z, a * y - b * x]
}

fn joint_row(job: &mut Job, row: usize, place: usize, arms: [[f64; 3]; 2]) {
    let mut axis = [0.0; 3];
    axis[place % 3] = 1.0;
    if place < 3 {
        job.set(row, LINEAR_A, &axis);
        job.set(row, ANGULAR_A, &crossed(arms[0], axis));
        job.set(row, LINEAR_B, &negated(axis));
        job.set(row, ANGULAR_B, &negated(crossed(arms[1], axis)));
    } else {
        job.set(row, ANGULAR_A, &axis);
        job.set(row, ANGULAR_B, &negated(axis));
        job.set_word(row, DIMENSION, 1);
    }
}

/// Times of one solve in microseconds.
#[derive(Clone, Copy)]
struct Times {
    minimum: f64,
    median: f64,
}

type Solve<'a> = Box<dyn FnMut() + 'a>;

/// Takes turns, so that all see the same machine: each turn runs a solve for about
/// 100 µs or once, for a second and 15 turns at least.
fn times(mut solves: Vec<Solve>) -> Vec<Times> {
    let batches: Vec<u32> = solves.iter_mut().map(batch).collect();
    let mut found = vec![Vec::new(); solves.len()];
    let started = Instant::now();
    while found[0].len() < 15 || started.elapsed() < Duration::from_secs(1) {
        for (solve, (batch, times)) in solves.iter_mut().zip(batches.iter().zip(&mut found)) {
            times.push(run(*batch, solve));
        }
    }
    found.into_iter().map(summary).collect()
}

/// How many solves fill 100 µs, by the second run: the first fills the buffers.
fn batch(solve: &mut Solve) -> u32 {
    run(1, solve);
    (100.0 / run(1, solve)).clamp(1.0, 2000.0) as u32
}

fn run(batch: u32, solve: &mut Solve) -> f64 {
    let started = Instant::now();
    (0..batch).for_each(|_| solve());
    started.elapsed().as_secs_f64() * 1e6 / f64::from(batch)
}

fn summary(mut times: Vec<f64>) -> Times {
    times.sort_by(f64::total_cmp);
    Times { minimum: times[0], median: times[times.len() / 2] }
}

/// The solve of a reference. What gains the solution goes on growing from run to run; nothing that a
/// solve does depends on it. A velocity solve begins with a fresh scratch, whose buffers are warm.
macro_rules! of_reference {
    ($name:ident, $reference:ident) => {
        fn $name(job: &Job) -> Solve<'_> {
            let mut prepared =
                $reference::Prepared::new(&job.numbers, &job.words, &job.masses, &job.centres);
            prepared.lend(&job.residuals);
            let (limit, mode) = (job.limit as usize, job.mode);
            match job.kind {
                Kind::Position => Box::new(move || {
                    let cholesky = mode == INCOMPLETE_CHOLESKY;
                    black_box(prepared.solve(limit, job.tolerances, cholesky));
                }),
                Kind::Velocity => Box::new(move || {
                    black_box(prepared.solve_velocity(limit, job.tolerances, mode));
                }),
            }
        }
    };
}

of_reference!(published, reference);
of_reference!(untimed, reference_untimed);

fn implemented<'a>(implementation: &'a Implementation, job: &Job) -> Solve<'a> {
    let (mut job, rules) = (job.clone(), job.rules());
    let mut to = Outputs {
        solution: vec![0.0; job.rows as usize],
        impulses: vec![0.0; IMPULSE_NUMBERS * job.bodies as usize],
        centres: vec![0.0; CENTRE_NUMBERS * job.bodies as usize],
        rule_numbers: vec![0; job.rows as usize],
    };
    implementation.lend(&job);
    Box::new(move || {
        black_box(implementation.solve(&mut job, &rules, &mut to));
    })
}

/// The same job under 64 rules, 32 of each dimension, all keys in use; they agree, so that the
/// Rust, which has none, does the same steps.
fn under_64_rules(job: Job) -> Job {
    let mut random = Random::of(7, 64);
    let mut rules = Rules::default();
    for dimension in 0..2 {
        for [first, last] in split(MOST_RULES / 2, &mut random) {
            rules.push(dimension, first, last, job.tolerances[dimension as usize]);
        }
    }
    let mut job = Job { rules: Some(rules), ..job };
    (0..job.rows).for_each(|row| job.set_word(row as usize, KEY, row % (MOST_KEY + 1)));
    job
}

const HEAD: &str = "| job | rows | mode | count | published min | median | untimed min | median |";
const OWN_HEAD: &str = " port min | median | port / published | port / untimed |";

/// Of positions a table in modes 0 and 1, which the Rust has, and of velocities one in all modes.
pub fn tables(library: Option<&str>) -> Result<bool, String> {
    println!("positions");
    table(library, Kind::Position, &[0, INCOMPLETE_CHOLESKY])?;
    println!("velocities");
    table(library, Kind::Velocity, &[0, INCOMPLETE_CHOLESKY, BLOCK_JACOBI])?;
    Ok(true)
}

/// One table: minimum and median in µs for each, and ratios of minima.
fn table(library: Option<&str>, kind: Kind, modes: &[u32]) -> Result<(), String> {
    let implementation = library.map(|path| Implementation::open_timed(path, kind)).transpose()?;
    if implementation.as_ref().is_some_and(|own| !own.solves()) {
        return Err("the library has no function that solves".to_string());
    }
    let head = format!("{HEAD}{}", implementation.as_ref().map_or("", |_| OWN_HEAD));
    println!("{head}\n|{}", "---|".repeat(head.matches('|').count() - 1));
    for &mode in modes {
        for (name, shape, joints, rows_a_joint) in FAMILIES {
            let job = of_kind(kind, mechanism(shape, joints, rows_a_joint, mode));
            let label = format!("{name} {joints}×{rows_a_joint}");
            print_row(&label, &job, implementation.as_ref());
        }
        // 512 rows under 64 rules; at tolerance 1 no step is made, and the rules weigh most.
        let job = of_kind(kind, mechanism(Shape::Chain, 128, 4, mode));
        let met = Job { tolerances: [1.0; 2], ..job.clone() };
        for (label, job) in [
            ("chain 128×4, 64 rules", under_64_rules(job)),
            ("chain 128×4, met at once", met.clone()),
            ("chain 128×4, met at once, 64 rules", under_64_rules(met)),
        ] {
            print_row(label, &job, implementation.as_ref());
        }
    }
    Ok(())
}

fn print_row(label: &str, job: &Job, implementation: Option<&Implementation>) {
    let [refusal, count, flag, ..] = crate::model::solve(job).answer.words();
    let met = if (refusal, flag) == (0, 1) { "" } else { " (not met)" };
    let mut solves = vec![published(job), untimed(job)];
    solves.extend(implementation.map(|own| implemented(own, job)));
    let found = times(solves);
    print!("| {label} | {} | {} | {count}{met} |", job.rows, job.mode);
    for times in &found {
        print!(" {} | {} |", short(times.minimum), short(times.median));
    }
    if let [published, untimed, own] = &found[..] {
        let ratio = |to: &Times| own.minimum / to.minimum;
        print!(" {:.2} | {:.2} |", ratio(published), ratio(untimed));
    }
    println!();
}

/// Three digits at least.
fn short(value: f64) -> String {
    let places = if value < 10.0 { 2 } else { usize::from(value < 100.0) };
    format!("{value:.places$}")
}

/// The check with its list, which must be closed.
fn listed<'a>(own: &'a Implementation, job: &Job, list: &[f64]) -> Result<Solve<'a>, String> {
    let (job, rules, list) = (job.clone(), job.rules(), list.to_vec());
    let [rule_numbers, margin_rows] = [(); 2].map(|()| vec![0; job.rows as usize]);
    let mut to = CheckOutputs { rule_numbers, margin_rows, margins: vec![0.0; job.rows as usize] };
    let [refusal, closed, ..] = own.margins(&job, &rules, &list, &mut to);
    if (refusal, closed) != (0, 1) {
        return Err(format!("the check with its list is not closed: {refusal}, {closed}"));
    }
    Ok(Box::new(move || {
        black_box(own.margins(&job, &rules, black_box(&list), &mut to));
    }))
}

/// Errors that grow, or shrink, from row to row; they are measured as they are by zeros for multipliers.
fn graded(job: &Job, growing: bool) -> Job {
    let mut job = Job { tolerances: [1.0; 2], ..job.clone() };
    let rows = job.rows as usize;
    for row in 0..rows {
        let place = if growing { row } else { rows - 1 - row };
        job.set(row, ERROR, &[(place + 1) as f64 * two(-20)]);
    }
    job
}

/// The closing check of 512 rows on 256 bodies, with the solve's own multipliers, under two rules
/// and under 64, and with its list, whose cost hangs on how far the rows are from its order; beside
/// three products of the reference's operator on the same table and list.
pub fn closing(library: &str) -> Result<bool, String> {
    let own = Implementation::open(library, Kind::Position)?;
    let job = mechanism(Shape::Loop, 256, 2, INCOMPLETE_CHOLESKY);
    let list = crate::model::solve(&job).solution;
    let ruled = under_64_rules(job.clone());
    let (two, many) = (job.rules(), ruled.rules());
    let [mut numbers, mut more] = [(); 2].map(|()| vec![0; job.rows as usize]);
    let [refusal, closed, ..] = own.close(&job, &two, &list, &mut numbers);
    let [again, ..] = own.close(&ruled, &many, &list, &mut more);
    if let Some(refusal) = [refusal, again].into_iter().find(|refusal| *refusal != 0) {
        return Err(format!("the check is refused by {refusal}: no time of a verdict"));
    }
    let mut operator =
        reference::Operator::new(&job.numbers, &job.words, &job.masses, &job.centres);
    operator.product(&list).map_err(|error| format!("{error:?}"))?;
    let zeros = vec![0.0; job.rows as usize];
    let solves: Vec<Solve> = vec![
        Box::new(|| {
            black_box(own.close(&job, &two, black_box(&list), &mut numbers));
        }),
        Box::new(|| {
            black_box(own.close(&ruled, &many, black_box(&list), &mut more));
        }),
        listed(&own, &job, &list)?,
        listed(&own, &graded(&job, false), &zeros)?,
        listed(&own, &graded(&job, true), &zeros)?,
        Box::new(|| {
            for _ in 0..3 {
                let _ = black_box(operator.product(black_box(&list)));
            }
        }),
    ];
    let verdict = if closed == 1 { "closed" } else { "open" };
    println!("{} rows, {} bodies: {verdict}; µs, minimum and median", job.rows, job.bodies);
    let names = [
        "closing check",
        "under 64 rules",
        "with its list",
        "with its list, rows in its order",
        "with its list, rows the other way round",
        "three products of the Rust",
    ];
    for (name, times) in names.iter().zip(&times(solves)) {
        println!("{name}: {} {}", short(times.minimum), short(times.median));
    }
    Ok(true)
}
