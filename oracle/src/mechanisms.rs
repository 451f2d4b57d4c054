//! The program that solves by groups (document 02, g), as a process: generated, damaged and random
//! files through its standard input, many of them several mechanisms on one bench, and what it
//! prints held to a partition worked straight from the document's words and to the model's sheet of
//! each group's rows alone.

use crate::generator::{Sizes, job as generated};
use crate::job::*;
use crate::judge::judge;
use crate::model::{self, Judged};
use crate::program::{printed, save, shown};
use crate::random::Random;
use crate::{file_jobs, job_file, listing};
use std::collections::BTreeMap;
use std::fmt::Write;
use std::path::Path;

/// A job file's most rows and bodies.
const MOST_ROWS: u32 = 128;
const MOST_BODIES: u32 = 64;

/// Prints each mismatch and the tally; true where there is no mismatch.
pub fn run(program: &str, files: u64, seed: u64, home: &Path) -> Result<bool, String> {
    let mut tally = BTreeMap::new();
    let mut mismatches = 0u64;
    for index in 0..files {
        let mut random = Random::of(!seed, index);
        let file = file(seed, index, &mut random);
        let wanted = of_file(&file);
        let disputed = disputed(&file);
        let given = printed(program, &[], &file, &mut random)?;
        *tally.entry(counted(&wanted)).or_insert(0u64) += 1;
        if given != Ok(wanted.into_bytes()) || disputed.is_some() {
            mismatches += 1;
            let name = save(home, seed, index, &file)?;
            let said = given.map_or_else(|said| said, |text| shown(&text));
            println!("file {index}: {said} {}, saved as {name}", disputed.unwrap_or_default());
        }
    }
    for (what, count) in &tally {
        println!("{count} with {what}");
    }
    println!("{files} files, {mismatches} mismatches");
    Ok(mismatches == 0)
}

/// The first line, with more than three groups counted as one kind, and whether a group is refused.
fn counted(text: &str) -> String {
    let words: Vec<&str> = text.lines().next().unwrap_or_default().split(' ').collect();
    let groups: usize = words[2].parse().unwrap_or_default();
    let refused = |line: &&str| line.starts_with("solve ") && !line.starts_with("solve 0 ");
    let some = match text.lines().filter(refused).count() {
        0 => "",
        n if n == groups => ", all refused",
        _ => ", some refused",
    };
    let told = if groups > 3 { "4 and more".to_string() } else { groups.to_string() };
    format!("`groups {}`, {told} groups{some}", words[1])
}

/// What the reference says against the model's solve of a group's rows alone.
fn disputed(file: &[u8]) -> Option<String> {
    let job = job_file::read(file).ok()?;
    whole(&job).ok()?;
    groups(&job).iter().find_map(|rows| judge(&alone(&job, rows)).dispute)
}

// ---- what is printed

pub fn of_file(file: &[u8]) -> String {
    let passed = job_file::read(file).and_then(|job| whole(&job).map(|()| job));
    let job = match passed {
        Err(refusal) => return format!("groups {refusal} 0\n"),
        Ok(job) => job,
    };
    let groups = groups(&job);
    let mut text = format!("groups 0 {}\n", groups.len());
    for (group, rows) in groups.iter().enumerate() {
        let members: String = rows.iter().map(|row| format!(" {row}")).collect();
        writeln!(text, "group {group} {}{members}", rows.len()).unwrap();
        text += &listing::of_read(&alone(&job, rows));
    }
    text
}

/// The refusals of the file and of its whole table once 1 and 2 have passed: 3 of the mode, 4, then 26
/// of the two tolerances, then 6 and 7. Shift 0 and two rules over all keys meet none of 25, 27 and 28.
fn whole(job: &Job) -> Judged<()> {
    let valid = |table: model::Table| table.rows.iter().all(|row| row.valid);
    let tests: [(u32, &dyn Fn() -> bool); 5] = [
        (3, &|| job.mode <= BLOCK_JACOBI),
        (4, &|| model::words_fit(job)),
        (26, &|| model::tolerances_fit(job)),
        (6, &|| model::masses_finite(job)),
        (7, &|| model::Table::of(job).is_ok_and(valid)),
    ];
    tests.iter().find(|(_, passes)| !passes()).map_or(Ok(()), |(number, _)| Err(*number))
}

/// "rows sharing a body, directly or through further rows, belong together and no others do, except
/// that a body whose ten mass numbers are all zero joins nothing. Groups come by lowest row".
fn groups(job: &Job) -> Vec<Vec<usize>> {
    let rows = job.rows as usize;
    let mut together: Vec<Vec<bool>> =
        (0..rows).map(|i| (0..rows).map(|j| i == j || share(job, i, j)).collect()).collect();
    for through in 0..rows {
        for i in 0..rows {
            for j in 0..rows {
                let reached = together[i][through] && together[through][j];
                together[i][j] |= reached;
            }
        }
    }
    let first = |row: &usize| (0..*row).all(|earlier| !together[*row][earlier]);
    let members = |row: usize| (0..rows).filter(|other| together[row][*other]).collect();
    (0..rows).filter(first).map(members).collect()
}

/// The two rows have a body in common, and it joins.
fn share(job: &Job, i: usize, j: usize) -> bool {
    let bodies = |row: usize| [job.word(row, BODY_A), job.word(row, BODY_B)];
    bodies(i).into_iter().any(|body| bodies(j).contains(&body) && joins(job, body as usize))
}

fn joins(job: &Job, body: usize) -> bool {
    job.masses[MASS_NUMBERS * body..MASS_NUMBERS * (body + 1)].iter().any(|number| *number != 0.0)
}

/// The job of these rows, in their order, with all bodies.
fn alone(job: &Job, rows: &[usize]) -> Job {
    let mut own =
        Job { numbers: Vec::new(), words: Vec::new(), rows: rows.len() as u32, ..job.clone() };
    for row in rows {
        own.numbers.extend(&job.numbers[ROW_NUMBERS * row..ROW_NUMBERS * (row + 1)]);
        own.words.extend(&job.words[ROW_WORDS * row..ROW_WORDS * (row + 1)]);
    }
    own
}

// ---- benches

/// One to four generated jobs on one bench, in any order of rows, some on one frame.
fn file(seed: u64, index: u64, random: &mut Random) -> Vec<u8> {
    let mut choices = Random::of(seed ^ 0xbe7c, index);
    let mut file = file_jobs::any_with(seed, index, random, |job| {
        for more in 0..choices.below(4) as u64 {
            let other = generated(seed ^ (0x9e7c + more), index, Sizes::Small);
            add(job, &other, &mut choices);
        }
        if choices.chance(60) {
            mix(job, &mut choices);
        }
        if choices.chance(40) {
            no_mass(job, &mut choices);
        }
    });
    file_jobs::cut_limit(&mut file);
    file
}

/// The lists are as long as the counts say, and no body is beyond them.
fn sound(job: &Job) -> bool {
    let (rows, bodies) = (job.rows as usize, job.bodies as usize);
    job.numbers.len() == ROW_NUMBERS * rows
        && job.words.len() == ROW_WORDS * rows
        && job.masses.len() == MASS_NUMBERS * bodies
        && job.centres.len() == CENTRE_NUMBERS * bodies
}

/// Another job's rows and bodies behind these; in half of them its first body is the bench's.
fn add(job: &mut Job, other: &Job, random: &mut Random) {
    let room = job.rows.saturating_add(other.rows) <= MOST_ROWS
        && job.bodies.saturating_add(other.bodies) <= MOST_BODIES;
    if !room || !sound(job) || !sound(other) || job.bodies == 0 {
        return;
    }
    let (before, on_frame) = (job.bodies, random.chance(50));
    let moved = |body: u32| match body {
        0 if on_frame => 0,
        body if body < other.bodies => before + body,
        beyond => beyond,
    };
    for words in other.words.chunks_exact(ROW_WORDS) {
        let mut words = words.to_vec();
        words[BODY_A] = moved(words[BODY_A]);
        words[BODY_B] = moved(words[BODY_B]);
        job.words.extend(words);
    }
    job.numbers.extend(&other.numbers);
    job.masses.extend(&other.masses);
    job.centres.extend(&other.centres);
    job.rows += other.rows;
    job.bodies += other.bodies;
}

/// The rows in another order.
fn mix(job: &mut Job, random: &mut Random) {
    if !sound(job) {
        return;
    }
    let mut order: Vec<usize> = (0..job.rows as usize).collect();
    for last in (1..order.len()).rev() {
        order.swap(last, random.below(last + 1));
    }
    *job = alone(job, &order);
}

/// A body without mass, the first one mostly; of either sign of zero, and now and then with one
/// number left.
fn no_mass(job: &mut Job, random: &mut Random) {
    if !sound(job) || job.bodies == 0 {
        return;
    }
    let body = if random.chance(70) { 0 } else { random.below(job.bodies as usize) };
    let left = if random.chance(15) { Some(random.below(MASS_NUMBERS)) } else { None };
    for place in (0..MASS_NUMBERS).filter(|place| Some(*place) != left) {
        job.masses[MASS_NUMBERS * body + place] = if random.chance(30) { -0.0 } else { 0.0 };
    }
}
