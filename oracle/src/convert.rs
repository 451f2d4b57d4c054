//! The converter itself, as a process: generated, damaged and random files through its standard
//! input, and what it writes held to the model of `written`.

use crate::job::Job;
use crate::program::{printed, save};
use crate::random::Random;
use crate::written::{NEW, NONE, OLD, converted, job, sections};
use crate::{file_jobs, program};
use std::collections::BTreeMap;
use std::ffi::OsString;
use std::os::unix::ffi::OsStringExt;
use std::path::Path;

type Arguments = Vec<OsString>;

/// Prints each mismatch and the tally of answers; true where there is no mismatch.
pub fn run(program: &str, files: u64, seed: u64, home: &Path) -> Result<bool, String> {
    let mut tally = Tally::default();
    for index in 0..files {
        let mut random = Random::of(!seed, index);
        let file = file(seed, index, &mut random);
        let asked = arguments(&mut random);
        let wanted = converted(&file, layout_of(&asked));
        let given = printed(program, &asked, &file, &mut random)?;
        let mut wrong = given != Ok(text(&wanted));
        tally.add(&file, &asked, &wanted);
        if let (Ok(written), false) = (&wanted, wrong) {
            wrong = !reads_back(&file, written);
            if random.chance(25) {
                tally.back += 1;
                wrong |= !there_and_back(program, &file, written, &mut random)?;
            }
        }
        if wrong {
            tally.mismatches += 1;
            let name = save(home, seed, index, &file)?;
            let said = given.map_or_else(|said| said, |text| program::shown(&text));
            println!("file {index}, {asked:?}: {said}, saved as {name}");
        }
    }
    tally.print(files);
    Ok(tally.mismatches == 0)
}

/// What the program writes: the file, or one line.
pub fn text(answer: &Result<Vec<u8>, u32>) -> Vec<u8> {
    match answer {
        Ok(file) => file.clone(),
        Err(number) => format!("convert {number}\n").into_bytes(),
    }
}

/// One argument, `old` or `new`; anything else is a layout word that there is none of.
pub fn layout_of(arguments: &[OsString]) -> u32 {
    match arguments {
        [word] if word == "old" => OLD,
        [word] if word == "new" => NEW,
        _ => NONE,
    }
}

/// "a written file reads back as its job"
fn reads_back(file: &[u8], written: &[u8]) -> bool {
    match (job(file), job(written)) {
        (Some((given, _)), Some((found, _))) => given == found,
        _ => false,
    }
}

/// What was written goes through the program once more, into the layout of the first file: that is
/// the written form of the first file, and the file itself where it was written.
fn there_and_back(
    program: &str,
    file: &[u8],
    written: &[u8],
    random: &mut Random,
) -> Result<bool, String> {
    let Some((_, layout)) = job(file) else { return Ok(false) };
    let word = if layout == NEW { "new" } else { "old" };
    let back = printed(program, &[word.into()], written, random)?;
    Ok(back == Ok(text(&converted(file, layout))))
}

/// A file of either spare, its numbers of any bits, and bytes that belong to nothing of any value.
fn file(seed: u64, index: u64, random: &mut Random) -> Vec<u8> {
    let mut other = Random::of(seed ^ 0xc027, index);
    let mut file = file_jobs::any_with(seed, index, random, |job| strange(job, &mut other));
    if random.chance(50) {
        strew(&mut file, random);
    }
    file
}

fn strange(job: &mut Job, random: &mut Random) {
    if job.spare == 1 && random.chance(60) {
        job.centres.fill(0.0);
        if random.chance(40) && !job.centres.is_empty() {
            let at = random.below(job.centres.len());
            job.centres[at] = bits(random);
        }
    }
    for list in [&mut job.numbers, &mut job.masses] {
        if random.chance(40) && !list.is_empty() {
            for _ in 0..=random.below(4) {
                let at = random.below(list.len());
                list[at] = bits(random);
            }
        }
    }
    if random.chance(20) {
        job.tolerances[random.below(2)] = bits(random);
    }
    if random.chance(20) {
        job.limit = random.next() as u32;
    }
}

/// A NaN with a payload, quiet or signalling, of either sign; a zero; the least double; any bits.
fn bits(random: &mut Random) -> f64 {
    let payload = random.next() & 0x8007_ffff_ffff_ffff | 1;
    f64::from_bits(match random.below(6) {
        0 | 1 => 0x7ff8_0000_0000_0000 | payload,
        2 | 3 => 0x7ff0_0000_0000_0000 | payload,
        4 => random.pick(&[0, 1 << 63, 1]),
        _ => random.next(),
    })
}

fn strew(file: &mut [u8], random: &mut Random) {
    let Some(held) = sections(file) else { return };
    let end = file.len() - 48;
    for (at, byte) in file[..end].iter_mut().enumerate() {
        if !held.iter().any(|section| section.contains(&at)) {
            *byte = random.below(256) as u8;
        }
    }
}

/// `old` or `new`, and one in sixteen times what names no layout.
fn arguments(random: &mut Random) -> Arguments {
    if random.below(16) > 0 {
        return vec![random.pick(&["old", "new"]).into()];
    }
    let words: &[&[u8]] = random.pick(&[
        &[] as &[&[u8]],
        &[b""],
        &[b"o"],
        &[b"ol"],
        &[b"olD"],
        &[b"NEW"],
        &[b"net"],
        &[b"odl"],
        &[b"old "],
        &[b"newer"],
        &[b"0"],
        &[b"--new"],
        &[b"\xff\xfe\xfd"],
        &[b"old", b"new"],
        &[b"new", b"new"],
        &[b"new", b""],
        &[b"older than any word that a program of three letters has room for"],
    ]);
    words.iter().map(|word| OsString::from_vec(word.to_vec())).collect()
}

#[derive(Default)]
struct Tally {
    /// By layout where the file is written, by number where it is refused.
    written: BTreeMap<u32, u64>,
    refused: BTreeMap<u32, u64>,
    unmoved: u64,
    unnamed: u64,
    back: u64,
    mismatches: u64,
}

impl Tally {
    fn add(&mut self, file: &[u8], asked: &[OsString], wanted: &Result<Vec<u8>, u32>) {
        let layout = layout_of(asked);
        self.unnamed += u64::from(layout == NONE);
        match wanted {
            Ok(written) => {
                *self.written.entry(layout).or_default() += 1;
                self.unmoved += u64::from(written == file);
            }
            Err(number) => *self.refused.entry(*number).or_default() += 1,
        }
    }

    fn print(&self, files: u64) {
        for (layout, count) in &self.written {
            println!("{count} written, {}", if *layout == NEW { "new" } else { "old" });
        }
        for (number, count) in &self.refused {
            println!("{count} with `convert {number}`");
        }
        println!(
            "{} written as they were, {} there and back, {} asked for no layout",
            self.unmoved, self.back, self.unnamed
        );
        println!("{files} files, {} mismatches", self.mismatches);
    }
}
