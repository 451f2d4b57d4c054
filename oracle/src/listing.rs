//! What the job program prints of a job file, the program that lists its margins, and the one that
//! lists its rows' gaps.

use crate::job::{Answer, Job, OWNER, Solved};
use crate::model::{self, Checked, Judged, Measured, Place};
use crate::{generator, job_file};
use std::fmt::Write;
use std::path::Path;

pub fn of_file(file: &[u8]) -> String {
    sheet(file, rows_and_bodies, nowhere)
}

/// The same of a job that has been read.
pub fn of_read(job: &Job) -> String {
    of_job(job, rows_and_bodies, nowhere)
}

/// The same lines up to the verdict and, where that is closed, the list.
pub fn margins_of_file(file: &[u8]) -> String {
    sheet(file, |text, job, _, checked| margins(text, job, checked), nowhere)
}

/// The same lines up to the verdict and, where there is one, each row's measured number; of a refused
/// job where it was turned back.
pub fn gaps_of_file(file: &[u8]) -> String {
    sheet(file, |text, job, _, checked| gaps(text, job, checked), refused_at)
}

/// What follows the verdict: of the job, its solve and its check.
type Rest = fn(&mut String, &Job, &Solved, &Judged<Checked>);

/// What follows the refusal of a job that was read.
type Turned = fn(&Job, u32) -> String;

fn sheet(file: &[u8], rest: Rest, turned: Turned) -> String {
    match job_file::read(file) {
        Err(refusal) => refused(refusal),
        Ok(job) => of_job(&job, rest, turned),
    }
}

fn refused(number: u32) -> String {
    format!("solve {number} 0 0\n")
}

fn nowhere(_: &Job, _: u32) -> String {
    String::new()
}

/// The first row, with its owner, the first body, or the limit.
fn refused_at(job: &Job, number: u32) -> String {
    match model::place(job, number) {
        None => String::new(),
        Some(Place::Row(row)) => format!("refused row {row} {}\n", job.word(row, OWNER)),
        Some(Place::Body(body)) => format!("refused body {body}\n"),
        Some(Place::Limit) => "refused limit\n".to_string(),
    }
}

fn of_job(job: &Job, rest: Rest, turned: Turned) -> String {
    let solved = model::solve_file(job);
    match solved.answer {
        Answer::Refused(number) => refused(number) + &turned(job, number),
        Answer::Accepted { flag, count, linear, angular } => {
            let checked = model::closing_check(job, &solved.solution);
            let mut text = format!("solve 0 {count} {}\n", u32::from(flag));
            writeln!(text, "gap{}", gap(&checked)).unwrap();
            writeln!(text, "carried{}", hexadecimal(&[linear, angular])).unwrap();
            writeln!(text, "close {}", verdict(&checked)).unwrap();
            rest(&mut text, job, &solved, &checked);
            text
        }
    }
}

/// What the check measured; past the solve it refuses by 18 alone.
fn gap(checked: &Judged<Checked>) -> String {
    checked.as_ref().map_or_else(|_| " none".to_string(), |found| hexadecimal(&found.gap))
}

/// 0 open, 1 closed, or the check's refusal.
pub fn verdict(checked: &Judged<Checked>) -> u32 {
    checked.as_ref().map_or_else(|refusal| *refusal, |found| u32::from(found.closed))
}

fn rows_and_bodies(text: &mut String, job: &Job, solved: &Solved, _: &Judged<Checked>) {
    delivered(text, solved, job.spare == 1);
}

/// A body's new centre is told of a file that has centres.
fn delivered(text: &mut String, solved: &Solved, centres: bool) {
    for (row, multiplier) in solved.accumulated.iter().enumerate() {
        writeln!(text, "row {row}{}", hexadecimal(&[*multiplier])).unwrap();
    }
    let bodies = solved.impulses.chunks_exact(6).zip(solved.centres.chunks_exact(3));
    for (body, (six, centre)) in bodies.enumerate() {
        let told = if centres { hexadecimal(centre) } else { String::new() };
        writeln!(text, "body {body}{}{told}", hexadecimal(six)).unwrap();
    }
}

/// A line for each row of the list: the row and its number.
fn margins(text: &mut String, job: &Job, checked: &Judged<Checked>) {
    let list = checked.as_ref().ok().and_then(|found| model::margins(job, found));
    for (row, number) in list.into_iter().flatten() {
        writeln!(text, "margin {row}{}", hexadecimal(&[number])).unwrap();
    }
}

/// A line for each row: its owner, its number, its rule's tolerance, and whether it is within.
fn gaps(text: &mut String, job: &Job, checked: &Judged<Checked>) {
    let Ok(found) = checked else { return };
    let tolerances = job.rules().tolerances;
    let rows = found.measured.iter().map(Measured::reach).zip(&found.rules);
    for (row, (number, rule)) in rows.enumerate() {
        let tolerance = tolerances[*rule as usize];
        let owner = job.word(row, OWNER);
        let within = u32::from(number <= tolerance);
        writeln!(text, "measured {row} {owner}{} {within}", hexadecimal(&[number, tolerance]))
            .unwrap();
    }
}

fn hexadecimal(values: &[f64]) -> String {
    values.iter().map(|value| format!(" {:016x}", value.to_bits())).collect()
}

/// Writes document 01's table as job files, prints what the program prints of each, and
/// holds it to what the documents say.
pub fn examples(home: &Path) -> Result<bool, String> {
    let folder = home.join("target/examples");
    std::fs::create_dir_all(&folder).map_err(|error| error.to_string())?;
    let mut good = true;
    for example in generator::examples() {
        let file = job_file::write(&example.job);
        let path = folder.join(format!("{}.job", example.name));
        std::fs::write(&path, &file).map_err(|error| error.to_string())?;
        let listing = of_file(&file);
        let lines: Vec<&str> = listing.lines().collect();
        let stands = example.says.iter().all(|line| lines.contains(line));
        println!("{}: {}", example.name, if stands { "as the documents say" } else { "DIFFERS" });
        print!("{listing}");
        good &= stands;
    }
    Ok(good)
}
