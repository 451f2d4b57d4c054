//! The recorded solves that crates/solve_recorded replays: writes them, judges them anew, and counts
//! what they meet.

mod making;

use crate::blocks;
use crate::cover::Cover;
use crate::job::{BLOCK_JACOBI, Job, Kind, Solved};
use crate::judge::judge;
use crate::listing::verdict;
use crate::model;
use crate::packing::{Entry, pack_list};
use crate::tally::{Outcome, Tally};
use crate::unpacking::unpack_all;
use making::{List, Recording};
use std::path::Path;

/// What the program reads, four lists one straight after the other, and what it must print.
const LISTS: &str = "../crates/solve_recorded/stdin";
const PRINTED: &str = "../crates/solve_recorded/stdout";
/// The lists of positions take no more than this, and those of velocities.
const MOST_BYTES: [usize; 2] = [2_000_000, 1_200_000];
/// What the lists have, and whose answers.
const NAMES: [&str; 4] = [
    "positions, answers of the reference",
    "positions, answers by definition",
    "velocities, answers of the reference",
    "velocities, answers by definition",
];

/// The check is given the solution; where the solve was refused, +0.0 for each row.
fn closing_word(job: &Job, solved: &Solved) -> u32 {
    let mut list = solved.solution.clone();
    list.resize(job.rows as usize, 0.0);
    verdict(&model::closing_check(job, &list))
}

pub fn make(home: &Path) -> Result<bool, String> {
    let both = [Recording::of_positions()?, Recording::of_velocities()?];
    let mut bytes = Vec::new();
    let mut names = NAMES.iter();
    for (recording, most) in both.iter().zip(MOST_BYTES) {
        let before = bytes.len();
        for (list, name) in recording.lists.iter().zip(names.by_ref()) {
            let packed = pack_list(&list.entries);
            println!("{name}: {} jobs, {} bytes", list.entries.len(), packed.len());
            list.tally.print();
            bytes.extend(packed);
        }
        if bytes.len() - before > most {
            return Err(format!("{} bytes are more than {most}", bytes.len() - before));
        }
    }
    let lists = both.iter().flat_map(|recording| &recording.lists);
    let printed = printed(&lists.map(|list: &List| &list.tally).collect::<Vec<&Tally>>());
    println!("{} bytes; the program prints:\n{printed}", bytes.len());
    std::fs::write(home.join(LISTS), bytes)
        .and_then(|()| std::fs::write(home.join(PRINTED), printed))
        .map_err(|error| error.to_string())?;
    let mut full = true;
    for recording in both.iter().filter(|recording| !recording.cover.complete()) {
        recording.cover.print();
        full = false;
    }
    Ok(full)
}

/// What the program prints where no job differs; at count 0 the flag is 1.
fn printed(tallies: &[&Tally]) -> String {
    let count = |of: fn(&Outcome) -> bool| tallies.iter().map(|tally| tally.count(of)).sum::<u64>();
    let jobs = count(|_| true);
    let met = count(|outcome| matches!(outcome, Outcome::CountZero | Outcome::FlagOne));
    let open = count(|outcome| matches!(outcome, Outcome::FlagZero));
    let refused = count(|outcome| matches!(outcome, Outcome::Refused(_)));
    format!(
        "{jobs} jobs\n{met} accepted with flag 1\n{open} accepted with flag 0\n{refused} refused\n0 differ\n"
    )
}

fn read(home: &Path) -> Result<[Vec<Entry>; 4], String> {
    unpack_all(&std::fs::read(home.join(LISTS)).map_err(|error| format!("{LISTS}: {error}"))?)
}

/// Reads the lists back, judges every job of them anew, holds mode 2 of the positions to the blocks
/// that the Rust has, and tallies all for what is printed.
pub fn replay(home: &Path) -> Result<bool, String> {
    let all = read(home)?;
    let mut good = true;
    for (at, entries) in all.iter().enumerate() {
        let differ = entries.iter().filter(|entry| !stands(entry, at % 2 == 0)).count();
        println!("{}: {} jobs, {differ} differ", NAMES[at], entries.len());
        good &= differ == 0;
    }
    let positions = all.iter().flatten().filter(|entry| entry.job.kind == Kind::Position);
    let blocks = positions.filter(|entry| entry.job.mode == BLOCK_JACOBI);
    let witnessed: Vec<bool> = blocks.filter_map(|entry| blocks::witnessed(&entry.job)).collect();
    let differ = witnessed.iter().filter(|same| !**same).count();
    println!("mode 2: {} jobs as the velocity side's blocks, {differ} differ", witnessed.len());
    good &= differ == 0;
    let mut tally = Tally::default();
    all.iter().flatten().for_each(|entry| tally.add(entry.job.mode, &entry.solved.answer));
    let wanted = std::fs::read_to_string(home.join(PRINTED)).map_err(|error| error.to_string())?;
    let same = wanted == printed(&[&tally]);
    println!("what the program prints: {}", if same { "as the lists have it" } else { "DIFFERS" });
    Ok(good && same)
}

fn stands(entry: &Entry, compared: bool) -> bool {
    let judged = judge(&entry.job);
    judged.dispute.is_none()
        && judged.compared == compared
        && judged.solved.same(&entry.solved)
        && closing_word(&entry.job, &judged.solved) == entry.closing
}

/// Counts what the lists meet; false where an item has too few jobs.
pub fn cover(home: &Path) -> Result<bool, String> {
    let all = read(home)?;
    let mut full = true;
    for (kind, name, lists) in
        [(Kind::Position, "positions", &all[..2]), (Kind::Velocity, "velocities", &all[2..])]
    {
        let mut cover = Cover::new(kind);
        for entry in lists.iter().flatten() {
            let met = cover.met(&entry.job, &entry.solved)?;
            cover.add(&met);
        }
        println!("{name}:");
        cover.print();
        full &= cover.complete();
    }
    Ok(full)
}
