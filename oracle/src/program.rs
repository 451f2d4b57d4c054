//! The job program itself, and those that list margins and gaps, as a process: generated, damaged and
//! random files through its standard input, and what it prints held to what the model prints, whose
//! solve, the line `carried` with it, is held to the Rust.

use crate::judge::judge;
use crate::random::Random;
use crate::{file_jobs, job_file, listing};
use std::collections::BTreeMap;
use std::ffi::OsString;
use std::io::{Read, Write};
use std::path::Path;
use std::process::{Command, Stdio};
use std::time::{Duration, Instant};

/// A program that takes longer hangs.
const LIMIT: Duration = Duration::from_secs(10);

/// What a program prints of a file, and what is counted of that.
type Sheet = (fn(&[u8]) -> String, fn(&str) -> String);

/// The job program: prints each mismatch and the tally of refusals; true where there is no mismatch.
pub fn run(program: &str, files: u64, seed: u64, home: &Path) -> Result<bool, String> {
    held(program, files, seed, home, (listing::of_file, refusal))
}

/// The same of the program that lists margins; accepted jobs by the verdict.
pub fn margins(program: &str, files: u64, seed: u64, home: &Path) -> Result<bool, String> {
    held(program, files, seed, home, (listing::margins_of_file, verdict))
}

/// The same of the program that lists gaps.
pub fn gaps(program: &str, files: u64, seed: u64, home: &Path) -> Result<bool, String> {
    held(program, files, seed, home, (listing::gaps_of_file, gapped))
}

/// The verdict, or the refusal and what kind of place it has.
fn gapped(sheet: &str) -> String {
    match sheet.lines().nth(1) {
        Some(line) if line.starts_with("refused ") => {
            let place = line.split(' ').nth(1).unwrap_or_default();
            format!("{} at a `{place}`", refusal(sheet))
        }
        _ => verdict(sheet),
    }
}

/// `solve` and the refusal, as a sheet has it.
fn refusal(sheet: &str) -> String {
    let number = sheet.split(' ').nth(1).unwrap_or_default();
    format!("`solve {number}`")
}

/// The same, and of an accepted job its line `close` and whether there is a list.
fn verdict(sheet: &str) -> String {
    let lines = ["\nmargin ", "\nmeasured "];
    let listed = if lines.iter().any(|line| sheet.contains(line)) { " and a list" } else { "" };
    match sheet.lines().find(|line| line.starts_with("close ")) {
        Some(line) => format!("{}, `{line}`{listed}", refusal(sheet)),
        None => refusal(sheet),
    }
}

fn held(
    program: &str,
    files: u64,
    seed: u64,
    home: &Path,
    (listing, counted): Sheet,
) -> Result<bool, String> {
    let mut tally = BTreeMap::new();
    let mut mismatches = 0u64;
    for index in 0..files {
        let mut random = Random::of(!seed, index);
        let file = file_jobs::any(seed, index, &mut random);
        let wanted = listing(&file);
        let disputed = job_file::read(&file).ok().and_then(|job| judge(&job).dispute);
        let given = printed(program, &[], &file, &mut random)?;
        *tally.entry(counted(&wanted)).or_insert(0u64) += 1;
        if given != Ok(wanted.into_bytes()) || disputed.is_some() {
            mismatches += 1;
            let name = save(home, seed, index, &file)?;
            let said = given.map_or_else(|said| said, |text| shown(&text));
            println!("file {index}: {said} {}, saved as {name}", disputed.unwrap_or_default());
        }
    }
    for (what, count) in &tally {
        println!("{count} with {what}");
    }
    println!("{files} files, {mismatches} mismatches");
    Ok(mismatches == 0)
}

/// Keeps a file that went wrong; where it is.
pub fn save(home: &Path, seed: u64, index: u64, file: &[u8]) -> Result<String, String> {
    let name = format!("{seed}-{index}.job");
    let folder = home.join("target/mismatches");
    std::fs::create_dir_all(&folder)
        .and_then(|()| std::fs::write(folder.join(&name), file))
        .map_err(|error| error.to_string())?;
    Ok(format!("oracle/target/mismatches/{name}"))
}

/// The beginning of what a program gave, in one line.
pub fn shown(text: &[u8]) -> String {
    let first = &text[..text.len().min(200)];
    format!("{} bytes, \"{}\"", text.len(), first.escape_ascii())
}

/// What it gave, or how the program failed. The file is written in pieces, so that reads are short.
pub fn printed(
    program: &str,
    arguments: &[OsString],
    file: &[u8],
    random: &mut Random,
) -> Result<Result<Vec<u8>, String>, String> {
    let mut child = Command::new(program)
        .args(arguments)
        .stdin(Stdio::piped())
        .stdout(Stdio::piped())
        .spawn()
        .map_err(|error| format!("{program}: {error}"))?;
    let cut = random.below(file.len() + 1);
    if let Some(mut input) = child.stdin.take() {
        let _ = input.write_all(&file[..cut]).and_then(|()| input.write_all(&file[cut..]));
    }
    // Read as it comes: a pipe holds no more than 64 KiB, and groups print more.
    let output = child.stdout.take();
    let reader = std::thread::spawn(move || {
        let mut text = Vec::new();
        output.map_or(Ok(0), |mut output| output.read_to_end(&mut text)).map(|_| text)
    });
    let start = Instant::now();
    let status = loop {
        match child.try_wait().map_err(|error| error.to_string())? {
            Some(status) => break status,
            None if start.elapsed() > LIMIT => {
                let _ = child.kill();
                let _ = child.wait();
                return Ok(Err("it hangs".to_string()));
            }
            None => std::thread::sleep(Duration::from_micros(20)),
        }
    };
    let text = reader.join().map_err(|_| "the reader of its output failed".to_string())?;
    let text = text.map_err(|error| error.to_string())?;
    Ok(if status.success() { Ok(text) } else { Err(status.to_string()) })
}
