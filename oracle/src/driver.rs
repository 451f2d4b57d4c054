//! The differential driver: an implementation against the judge, job by job.

mod effect;
pub mod groups;
mod margins;

use crate::closing_jobs::closing_job;
use crate::generator::{Sizes, centred, driven, job, ruled, shifted};
use crate::implementation::{Implementation, Outputs};
use crate::job::{Answer, CENTRE_NUMBERS, Job, Kind, ROW_NUMBERS, Solved, same_bits};
use crate::judge::judge;
use crate::model::{Checked, Judged};
use crate::random::Random;
use crate::tally::Tally;
use crate::{job_file, model};
use effect::Effect;
use margins::Lists;
use std::collections::BTreeMap;
use std::path::Path;

/// Fills lent outputs beforehand: what stays as it was shows.
const UNTOUCHED: f64 = f64::from_bits(0x7ff8_0000_5eed_5eed);
const UNTOUCHED_WORD: u32 = 0x5eed_5eed;

/// Prints each mismatch and the closing line; true where there is none.
pub fn run(library: &str, jobs: u64, seed: u64, home: &Path) -> Result<bool, String> {
    drive(library, jobs, seed, home, |seed, index| job(seed, index, Sizes::Any))
}

/// The same with a shift for each job. Those of shift 0 are held to the Rust too.
pub fn shifts(library: &str, jobs: u64, seed: u64, home: &Path) -> Result<bool, String> {
    drive(library, jobs, seed, home, shifted)
}

/// The same with a table of rules for each job. Where the rules of a dimension agree, it is held to
/// the Rust too.
pub fn rules(library: &str, jobs: u64, seed: u64, home: &Path) -> Result<bool, String> {
    drive(library, jobs, seed, home, ruled)
}

/// The same with centres for each job's bodies.
pub fn centres(library: &str, jobs: u64, seed: u64, home: &Path) -> Result<bool, String> {
    drive(library, jobs, seed, home, centred)
}

/// Velocity jobs, some under rules and some with a shift, and their closing checks.
pub fn velocities(library: &str, jobs: u64, seed: u64, home: &Path) -> Result<bool, String> {
    drive(library, jobs, seed, home, driven)
}

/// The jobs of a seed, each as `draw` has it.
fn drive(
    library: &str,
    jobs: u64,
    seed: u64,
    home: &Path,
    draw: fn(u64, u64) -> Job,
) -> Result<bool, String> {
    let kind = draw(seed, 0).kind;
    let implementation = Implementation::open(library, kind)?;
    if !implementation.solves() {
        println!("no function that solves: closing checks alone");
    }
    let mut mismatches = 0;
    let mut verdicts = BTreeMap::new();
    let mut solves = Tally::default();
    let mut effect = Effect::default();
    let mut lists = Lists::default();
    for index in 0..jobs {
        let job = draw(seed, index);
        let mut random = Random::of(!seed, index);
        let (solved, found) = compare_solve(&implementation, &job, &mut random);
        solves.add(job.mode, &solved.answer);
        effect.add(&job, &solved);
        let name = format!("{seed}-{index}");
        if !found.is_empty() {
            println!("job {name}, shift {:e}, {:?}: {}", job.shift, job.rules, found.join("; "));
            save_job(home, &name, &job)?;
        }
        let (closing, list) = closing_job(&job, &solved, &mut random);
        let checked = model::closing_check(&closing, &list);
        let given = (&closing, &list[..]);
        let (told, mut differ) = compare_check(&implementation, given, &checked, &mut random);
        differ.extend(lists.compare(&implementation, given, &checked, &mut random));
        *verdicts.entry(told).or_insert(0) += 1;
        if !differ.is_empty() {
            println!("closing check {name}, {:?}: {}", closing.rules, differ.join("; "));
            save_job(home, &format!("{name}-closing"), &closing)?;
            save(home, &format!("{name}-closing.list"), &doubles(&list))?;
        }
        mismatches += u64::from(!found.is_empty() || !differ.is_empty());
    }
    if implementation.solves() {
        solves.print();
        effect.print();
    }
    print_verdicts(&verdicts);
    lists.print();
    println!("{jobs} jobs, {mismatches} mismatches");
    Ok(mismatches == 0)
}

/// A check: refusal and verdict as the model has them, and every difference from it, the bits of
/// the gap and the rule numbers too.
fn compare_check(
    own: &Implementation,
    (job, list): (&Job, &[f64]),
    checked: &Judged<Checked>,
    random: &mut Random,
) -> ([u64; 2], Vec<String>) {
    let short = usize::from(random.below(200) == 0);
    let rows = job.rows.min(600) as usize;
    let mut numbers = vec![UNTOUCHED_WORD; rows.saturating_sub(short)];
    let fits = numbers.len() == job.rows as usize;
    let refused = Err(3);
    let checked = if fits { checked } else { &refused };
    let wanted = model::check_words(checked);
    let given = own.close(job, &job.rules(), list, &mut numbers);
    let mut found = Vec::new();
    if given != wanted {
        found.push(format!("{given:x?}, wanted {wanted:x?}"));
    }
    if !as_judged(&numbers, checked.as_ref().ok().map(|checked| &checked.rules[..])) {
        found.push("rule numbers".to_string());
    }
    if !own.cleared() {
        found.push("work memory is not cleared".to_string());
    }
    ([wanted[0], wanted[1]], found)
}

/// Rule numbers are these, or as they were where there are none.
fn as_judged(numbers: &[u32], wanted: Option<&[u32]>) -> bool {
    let untouched = || numbers.iter().all(|number| *number == UNTOUCHED_WORD);
    wanted.map_or_else(untouched, |wanted| numbers == wanted)
}

fn print_verdicts(verdicts: &BTreeMap<[u64; 2], u64>) {
    let name = |[refusal, closed]: [u64; 2]| match (refusal, closed) {
        (0, 0) => "open".to_string(),
        (0, _) => "closed".to_string(),
        _ => format!("refused {refusal}"),
    };
    let counts: Vec<String> =
        verdicts.iter().map(|(key, count)| format!("{} {count}", name(*key))).collect();
    println!("closing checks: {}", counts.join(", "));
}

/// One solve; what it should have been, and every difference from it.
fn compare_solve(
    implementation: &Implementation,
    job: &Job,
    random: &mut Random,
) -> (Solved, Vec<String>) {
    let (mut to, fits) = outputs(job, random);
    let judged = judge(job);
    let wanted = if fits { judged.solved } else { Solved::refused(3) };
    if !implementation.solves() {
        return (wanted, judged.dispute.into_iter().collect());
    }
    let mut given = job.clone();
    let answer = implementation.solve(&mut given, &job.rules(), &mut to);
    let mut found = differences(job, &wanted, answer, &given, &to);
    if !implementation.cleared() {
        found.push("work memory is not cleared".to_string());
    }
    found.extend(judged.dispute);
    (wanted, found)
}

/// The outputs of a solve, one of them now and then too short; and whether all fit.
fn outputs(job: &Job, random: &mut Random) -> (Outputs, bool) {
    let which = if random.below(200) == 0 { random.below(4) } else { 4 };
    let each = if job.kind == Kind::Position { CENTRE_NUMBERS } else { 0 };
    let lent = |place: usize, count: u32, each: usize| {
        (each * count.min(600) as usize).saturating_sub(usize::from(place == which))
    };
    let to = Outputs {
        solution: vec![UNTOUCHED; lent(0, job.rows, 1)],
        impulses: vec![UNTOUCHED; lent(1, job.bodies, 6)],
        rule_numbers: vec![UNTOUCHED_WORD; lent(2, job.rows, 1)],
        centres: vec![UNTOUCHED; lent(3, job.bodies, each)],
    };
    let (rows, bodies) = (job.rows as usize, job.bodies as usize);
    let Outputs { solution, impulses, centres, rule_numbers } = &to;
    let lengths = [solution.len(), impulses.len(), centres.len(), rule_numbers.len()];
    (to, lengths == [rows, 6 * bodies, each * bodies, rows])
}

fn differences(
    job: &Job,
    wanted: &Solved,
    answer: [u64; 5],
    given: &Job,
    to: &Outputs,
) -> Vec<String> {
    let mut found = Vec::new();
    let mut hold = |same: bool, what: &str| {
        if !same {
            found.push(what.to_string());
        }
    };
    let words = wanted.answer.words();
    hold(answer == words, &format!("answer {answer:x?}, wanted {words:x?}"));
    hold(same_bits(&given.numbers, &after(job, wanted)), "row numbers");
    if let Answer::Accepted { .. } = wanted.answer {
        hold(same_bits(&to.solution, &wanted.solution), "solution");
        hold(same_bits(&to.impulses, &wanted.impulses), "impulses");
        hold(same_bits(&to.centres, &wanted.centres), "new centres");
        hold(as_judged(&to.rule_numbers, Some(&wanted.rules)), "rule numbers");
    } else {
        hold(untouched(&to.solution), "solution was written after a refusal");
        hold(untouched(&to.impulses), "impulses were written after a refusal");
        hold(untouched(&to.centres), "new centres were written after a refusal");
        hold(as_judged(&to.rule_numbers, None), "rule numbers were written after a refusal");
    }
    found
}

fn untouched(values: &[f64]) -> bool {
    values.iter().all(|value| value.to_bits() == UNTOUCHED.to_bits())
}

/// The rows' numbers as the solve must leave them.
fn after(job: &Job, wanted: &Solved) -> Vec<f64> {
    let mut numbers = job.numbers.clone();
    for (row, sum) in numbers.chunks_exact_mut(ROW_NUMBERS).zip(&wanted.accumulated) {
        row[job.kind.gains()] = *sum;
    }
    numbers
}

/// The job as a file with centres; of a velocity job, which has none, the residuals beside it.
fn save_job(home: &Path, name: &str, job: &Job) -> Result<(), String> {
    let spare = u32::from(job.kind == Kind::Position);
    save(home, &format!("{name}.job"), &job_file::write(&Job { spare, ..job.clone() }))?;
    match job.kind {
        Kind::Position => Ok(()),
        Kind::Velocity => save(home, &format!("{name}.residuals"), &doubles(&job.residuals)),
    }
}

fn doubles(values: &[f64]) -> Vec<u8> {
    values.iter().flat_map(|value| value.to_le_bytes()).collect()
}

/// A saved job has the program's layout; the program itself takes 128 rows at most.
fn save(home: &Path, name: &str, bytes: &[u8]) -> Result<(), String> {
    let folder = home.join("target/mismatches");
    std::fs::create_dir_all(&folder)
        .and_then(|()| std::fs::write(folder.join(name), bytes))
        .map_err(|error| error.to_string())?;
    println!("  saved as oracle/target/mismatches/{name}");
    Ok(())
}
