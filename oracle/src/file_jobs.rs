//! Job files in every placement, some damaged, each with what the job program prints.

use crate::generator::{Sizes, job, place};
use crate::job::Job;
use crate::random::Random;
use crate::{job_file, listing};
use std::path::Path;

const TRAILER_WORDS: usize = 12;

/// Writes FOLDER/INDEX.job and FOLDER/INDEX.out, all of this spare, but for damaged ones.
pub fn write(folder: &str, jobs: u64, seed: u64, spare: u32) -> Result<bool, String> {
    let folder = Path::new(folder);
    std::fs::create_dir_all(folder).map_err(|error| error.to_string())?;
    for index in 0..jobs {
        let mut random = Random::of(!seed, index);
        let file = file(seed, index, spare, &mut random, |_| ());
        let save = |ending: &str, bytes: &[u8]| {
            std::fs::write(folder.join(format!("{index}.{ending}")), bytes)
        };
        save("job", &file)
            .and_then(|()| save("out", listing::of_file(&file).as_bytes()))
            .map_err(|error| error.to_string())?;
    }
    println!("{jobs} job files with their listings");
    Ok(true)
}

/// The choices of a spare of 1 are drawn apart, so that files of spare 0 are what they were.
fn file(
    seed: u64,
    index: u64,
    spare: u32,
    random: &mut Random,
    change: impl FnOnce(&mut Job),
) -> Vec<u8> {
    let sizes = if random.chance(80) { Sizes::Small } else { Sizes::Any };
    let mut job = Job { spare, ..job(seed, index, sizes) };
    if spare == 1 {
        place(&mut job, &mut Random::of(seed ^ 0xce27, index));
    }
    change(&mut job);
    let mut file = placed(&job, random);
    if random.chance(25) {
        damage(&mut file, random);
    }
    file
}

/// A file as above, or one damaged anywhere, or bytes at random, now and then with a stored
/// length that is right.
pub fn any(seed: u64, index: u64, random: &mut Random) -> Vec<u8> {
    let mut file = any_with(seed, index, random, |_| ());
    cut_limit(&mut file);
    file
}

/// The same with a change to the job that it is made of, and its limit as it is.
pub fn any_with(
    seed: u64,
    index: u64,
    random: &mut Random,
    change: impl FnOnce(&mut Job),
) -> Vec<u8> {
    let spare = random.below(2) as u32;
    let mut file = file(seed, index, spare, random, change);
    match random.below(4) {
        0 => flip(&mut file, random),
        1 if random.chance(30) => {
            let length = random.pick(&[0, 1, 47, 48, 49, 300, 4_000, 65_535, 65_536, 65_537]);
            file = (0..length).map(|_| random.below(256) as u8).collect();
            if random.chance(70) {
                store_length(&mut file, spare);
            }
        }
        _ => {}
    }
    file
}

/// A job that never meets its tolerance runs to its limit, which may be four thousand million.
pub fn cut_limit(file: &mut [u8]) {
    const MOST: u32 = 5_000;
    let Some(at) = file.len().checked_sub(4 * (TRAILER_WORDS - 2)) else { return };
    let limit = u32::from_le_bytes(file[at..at + 4].try_into().unwrap());
    file[at..at + 4].copy_from_slice(&limit.min(MOST).to_le_bytes());
}

/// One to eight bits that are not what they were.
fn flip(file: &mut [u8], random: &mut Random) {
    if file.is_empty() {
        return;
    }
    for _ in 0..=random.below(8) {
        let at = random.below(file.len());
        file[at] ^= 1 << random.below(8);
    }
}

/// The length and the spare as documents 01 and 02 have them.
fn store_length(file: &mut [u8], spare: u32) {
    let length = file.len();
    if length >= 48 {
        file[length - 8..length - 4].copy_from_slice(&(length as u32).to_le_bytes());
        file[length - 4..].copy_from_slice(&spare.to_le_bytes());
    }
}

/// Rows or masses first, with gaps; a count that no longer fits its list is written as it is.
fn placed(job: &Job, random: &mut Random) -> Vec<u8> {
    let gaps = [0; 2].map(|_| random.pick(&[0, 0, 1, 7, 64]));
    let centres = if job.spare == 1 { 8 * job.centres.len() } else { 0 };
    let (rows, masses) = (248 * (job.words.len() / 8), 8 * job.masses.len() + centres);
    if random.chance(50) {
        job_file::write_at(job, gaps[0], gaps[0] + rows + gaps[1])
    } else {
        job_file::write_at(job, gaps[0] + masses + gaps[1], gaps[0])
    }
}

/// A wrong length, or one word of the trailer that is not what it was.
fn damage(file: &mut Vec<u8>, random: &mut Random) {
    match random.below(6) {
        0 => file.truncate(random.below(file.len())),
        1 => file.push(0),
        2 => file.resize(65_536 + random.below(2), 0),
        _ => {
            let at = file.len() - 4 * (1 + random.below(TRAILER_WORDS));
            let near = u32::from_le_bytes(file[at..at + 4].try_into().unwrap());
            let values = [0, 1, near.wrapping_add(1), near.wrapping_sub(1), near ^ 248, u32::MAX];
            file[at..at + 4].copy_from_slice(&random.pick(&values).to_le_bytes());
        }
    }
}
