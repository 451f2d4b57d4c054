//! Times of a solve by groups: three clocks of 42 rows by groups and as one table, and 512 rows in 1, 3
//! and 170 groups.

use super::{Solve, implemented, mechanism, short, times};
use crate::generator::Shape;
use crate::implementation::Implementation;
use crate::job::*;
use crate::model::{self, Bench};
use std::hint::black_box;

/// Chains side by side, of so many joints and rows a joint each, that hang on a frame of zero mass.
fn bench(chains: &[(usize, usize)], mode: u32) -> Job {
    let mut job = Job { limit: 2000, mode, tolerances: [1e-6; 2], ..Job::default() };
    job.push_mass(0.0, [0.0; 3]);
    for &(joints, rows_a_joint) in chains {
        let own = mechanism(Shape::Chain, joints, rows_a_joint, mode);
        let (first, owner) = (job.bodies, job.rows);
        let body = |body: u32| if body == 0 { 0 } else { first + body - 1 };
        job.masses.extend(&own.masses[MASS_NUMBERS..]);
        job.centres.extend(&own.centres[CENTRE_NUMBERS..]);
        job.bodies += own.bodies - 1;
        job.numbers.extend(&own.numbers);
        for words in own.words.chunks_exact(ROW_WORDS) {
            let mut words: [u32; ROW_WORDS] = words.try_into().expect("eight words");
            (words[BODY_A], words[BODY_B]) = (body(words[BODY_A]), body(words[BODY_B]));
            words[OWNER] += owner;
            job.words.extend(words);
        }
        job.rows += own.rows;
    }
    job
}

fn lent(job: &Job) -> Bench {
    let (rows, bodies) = (job.rows as usize, job.bodies as usize);
    Bench {
        numbers: job.numbers.clone(),
        solution: vec![0.0; rows],
        impulses: vec![0.0; IMPULSE_NUMBERS * bodies],
        centres: vec![0.0; CENTRE_NUMBERS * bodies],
        rule_numbers: vec![0; rows],
        group_numbers: vec![0; rows],
        group_answers: vec![0; 3 * rows],
        group_maxima: vec![0.0; 2 * rows],
        group_count: vec![0; 1],
    }
}

/// What gains the solution goes on growing from run to run; nothing that a solve does depends on it.
fn by_groups<'a>(own: &'a Implementation, job: &Job) -> Solve<'a> {
    let (job, rules, mut to) = (job.clone(), job.rules(), lent(job));
    Box::new(move || {
        black_box(own.solve_groups(&job, &rules, &mut to));
    })
}

/// Minimum and median in µs, and the ratio of minima.
pub fn table(library: &str) -> Result<bool, String> {
    let own = Implementation::open(library, Kind::Position)?;
    if !own.solves() || !own.groups() {
        return Err("the library has no function that solves, or none by groups".to_string());
    }
    println!(
        "| bench | rows | groups | mode | counts | by groups min | median | one table min | median | groups / table |"
    );
    println!("|---|---|---|---|---|---|---|---|---|---|");
    let parts = [vec![(1, 3); 169], vec![(1, 5)]].concat();
    for mode in [0, INCOMPLETE_CHOLESKY] {
        for (name, chains) in [
            ("three clocks of 42 rows", &[(14, 3); 3][..]),
            ("one chain", &[(128, 4)]),
            ("three chains", &[(57, 3), (57, 3), (34, 5)]),
            ("170 parts", &parts),
        ] {
            print_row(name, &bench(chains, mode), &own)?;
        }
    }
    Ok(true)
}

/// Beside the one table, which is refused where the frame joins more pairs than there may be.
fn print_row(name: &str, job: &Job, own: &Implementation) -> Result<(), String> {
    let groups = model::solve_groups(job, &mut lent(job))
        .map_err(|refusal| format!("{name} is refused by {refusal}"))?;
    let met = |solved: &Solved| match solved.answer {
        Answer::Accepted { flag: true, count, .. } => Ok(count),
        answer => Err(format!("{name} comes to {answer:?}")),
    };
    let counts: Vec<u32> =
        groups.iter().map(|(_, solved)| met(solved)).collect::<Result<_, _>>()?;
    let (least, most) = (counts.iter().min().unwrap_or(&0), counts.iter().max().unwrap_or(&0));
    let start = format!("| {name} | {} | {} | {}", job.rows, groups.len(), job.mode);
    let whole = model::solve(job);
    if whole.answer.refusal() != 0 {
        let found = times(vec![by_groups(own, job)]);
        let (minimum, median) = (short(found[0].minimum), short(found[0].median));
        let refusal = whole.answer.refusal();
        println!("{start} | {least} to {most} | {minimum} | {median} | refused by {refusal} | | |");
        return Ok(());
    }
    let found = times(vec![by_groups(own, job), implemented(own, job)]);
    println!(
        "{start} | {least} to {most}, {} | {} | {} | {} | {} | {:.2} |",
        met(&whole)?,
        short(found[0].minimum),
        short(found[0].median),
        short(found[1].minimum),
        short(found[1].median),
        found[0].minimum / found[1].minimum
    );
    Ok(())
}
