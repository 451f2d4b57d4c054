//! Solves by groups (document 02, g) against the model: every lent number, and after a refusal of the
//! whole table none of them.

use super::{UNTOUCHED, UNTOUCHED_WORD, save_job};
use crate::generator::{bench, moving_bench};
use crate::implementation::Implementation;
use crate::job::{CENTRE_NUMBERS, IMPULSE_NUMBERS, Job, Kind, same_bits};
use crate::judge::judge;
use crate::model::{self, Bench, Groups, Judged};
use crate::random::Random;
use crate::tally::Tally;
use std::collections::BTreeMap;
use std::path::Path;

/// Tables of positions, then as many of velocities.
pub fn run(library: &str, tables: u64, seed: u64, home: &Path) -> Result<bool, String> {
    println!("positions");
    let positions = drive(library, tables, seed, home, bench)?;
    println!("velocities");
    let velocities = drive(library, tables, seed, home, moving_bench)?;
    Ok(positions && velocities)
}

fn drive(
    library: &str,
    tables: u64,
    seed: u64,
    home: &Path,
    draw: fn(u64, u64) -> Job,
) -> Result<bool, String> {
    let implementation = Implementation::open(library, draw(seed, 0).kind)?;
    if !implementation.groups() {
        return Err("the library has no function that solves by groups".to_string());
    }
    let (mut mismatches, mut met) = (0, Met::default());
    for index in 0..tables {
        let job = draw(seed, index);
        let to = lent(&job, &mut Random::of(!seed, index));
        let (mut wanted, mut found) = (to.clone(), to);
        let judged = model::solve_groups(&job, &mut wanted);
        let answer = implementation.solve_groups(&job, &job.rules(), &mut found);
        met.add(&job, &judged);
        let mut differ = differences(&judged, answer, &wanted, &found);
        if index % 16 == 0 {
            differ.extend(disputes(&job, &judged));
        }
        if !differ.is_empty() {
            mismatches += 1;
            println!("table {seed}-{index}, mode {}: {}", job.mode, differ.join("; "));
            save_job(home, &format!("{seed}-{index}-groups"), &job)?;
        }
    }
    met.print();
    println!("{tables} tables, {mismatches} mismatches");
    Ok(mismatches == 0)
}

/// What is lent, one slice now and then shorter or longer by one.
fn lent(job: &Job, random: &mut Random) -> Bench {
    let which = if random.below(50) == 0 { random.below(8) } else { 8 };
    let other = random.pick(&[1, -1]);
    let (rows, bodies) = (job.rows.min(600) as usize, job.bodies.min(600) as usize);
    let placed = if job.kind == Kind::Position { bodies } else { 0 };
    let length = |place: usize, length: usize| {
        length.saturating_add_signed(if place == which { other } else { 0 })
    };
    let doubles = |place: usize, count: usize| vec![UNTOUCHED; length(place, count)];
    let words = |place: usize, count: usize| vec![UNTOUCHED_WORD; length(place, count)];
    Bench {
        numbers: job.numbers.clone(),
        solution: doubles(0, rows),
        impulses: doubles(1, IMPULSE_NUMBERS * bodies),
        centres: if job.kind == Kind::Position {
            doubles(2, CENTRE_NUMBERS * placed)
        } else {
            vec![]
        },
        rule_numbers: words(3, rows),
        group_numbers: words(4, rows),
        group_answers: words(5, 3 * rows),
        group_maxima: doubles(6, 2 * rows),
        group_count: words(7, 1),
    }
}

fn differences(judged: &Judged<Groups>, answer: u64, wanted: &Bench, found: &Bench) -> Vec<String> {
    let mut differ = Vec::new();
    let refusal = u64::from(*judged.as_ref().err().unwrap_or(&0));
    if answer != refusal {
        differ.push(format!("refusal {answer}, wanted {refusal}"));
    }
    for (what, wanted, found) in [
        ("row numbers", &wanted.numbers, &found.numbers),
        ("solution", &wanted.solution, &found.solution),
        ("impulses", &wanted.impulses, &found.impulses),
        ("new centres", &wanted.centres, &found.centres),
        ("maxima", &wanted.group_maxima, &found.group_maxima),
    ] {
        if !same_bits(wanted, found) {
            differ.push(what.to_string());
        }
    }
    for (what, wanted, found) in [
        ("rule numbers", &wanted.rule_numbers, &found.rule_numbers),
        ("group numbers", &wanted.group_numbers, &found.group_numbers),
        ("answers", &wanted.group_answers, &found.group_answers),
        ("group count", &wanted.group_count, &found.group_count),
    ] {
        if wanted != found {
            differ.push(format!("{what} {found:?}, wanted {wanted:?}"));
        }
    }
    differ
}

/// Where the reference, on a group's rows alone, differs from the model.
fn disputes(job: &Job, judged: &Judged<Groups>) -> Vec<String> {
    let groups = judged.iter().flatten();
    groups.filter_map(|(rows, _)| judge(&model::only(job, rows)).dispute).collect()
}

/// What the tables come to.
#[derive(Default)]
struct Met {
    whole: BTreeMap<u32, u64>,
    groups: Tally,
    counts: BTreeMap<usize, u64>,
    several: u64,
    mixed: u64,
    dealt: u64,
}

impl Met {
    fn add(&mut self, job: &Job, judged: &Judged<Groups>) {
        *self.whole.entry(judged.as_ref().err().copied().unwrap_or(0)).or_default() += 1;
        let Ok(groups) = judged else {
            return;
        };
        groups.iter().for_each(|(_, solved)| self.groups.add(job.mode, &solved.answer));
        let refused = groups.iter().filter(|(_, solved)| solved.answer.refusal() != 0).count();
        let runs = |rows: &[usize]| rows.windows(2).any(|two| two[0] + 1 != two[1]);
        *self.counts.entry(groups.len().min(9)).or_default() += 1;
        self.several += u64::from(groups.len() > 1);
        self.mixed += u64::from(refused > 0 && refused < groups.len());
        self.dealt += u64::from(groups.iter().any(|(rows, _)| runs(rows)));
    }

    fn print(&self) {
        let listed = |map: Vec<String>| map.join(", ");
        let whole = self.whole.iter().map(|(refusal, count)| match refusal {
            0 => format!("passed {count}"),
            _ => format!("refused {refusal} {count}"),
        });
        println!("whole tables: {}", listed(whole.collect()));
        let counts = self.counts.iter().map(|(groups, count)| match groups {
            9 => format!("9 and more {count}"),
            _ => format!("{groups} {count}"),
        });
        println!("groups a table: {}", listed(counts.collect()));
        self.groups.print();
        println!(
            "{} tables of several groups, {} with accepted and refused ones, {} with a group whose rows do not follow each other",
            self.several, self.mixed, self.dealt
        );
    }
}
