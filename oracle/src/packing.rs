//! The format of the recorded solves (oracle/README.md says it byte by byte).

use crate::job::*;

pub const MAGIC: &[u8; 8] = b"KAPITSA1";
pub const ROW_RECORD: usize = ROW_NUMBERS + ROW_WORDS;
pub const DELIVERY_RECORD: usize = 2;
pub const RESIDUAL_RECORD: usize = 1;

/// A job with what it came to: its answer, and the closing check's word on its solution.
pub struct Entry {
    pub job: Job,
    pub solved: Solved,
    pub closing: u32,
}

pub fn pack_list(entries: &[Vec<u8>]) -> Vec<u8> {
    let mut bytes = MAGIC.to_vec();
    bytes.extend((entries.len() as u32).to_le_bytes());
    bytes.extend(0_u32.to_le_bytes());
    entries.iter().for_each(|entry| bytes.extend(entry));
    bytes
}

/// A position job has no residuals, a velocity job no centres: each has its own in that place.
pub fn pack(entry: &Entry) -> Vec<u8> {
    let Entry { job, solved, closing } = entry;
    let mut bytes = header(job, &solved.answer, *closing);
    pack_records(&mut bytes, &row_words(job), ROW_RECORD);
    pack_records(&mut bytes, &bits(&job.masses), MASS_NUMBERS);
    pack_records(&mut bytes, &bits(&job.centres), CENTRE_NUMBERS);
    pack_records(&mut bytes, &bits(&job.residuals), RESIDUAL_RECORD);
    if let Answer::Accepted { .. } = solved.answer {
        let delivered = solved.solution.iter().zip(&solved.accumulated);
        let delivered: Vec<u64> = delivered.flat_map(|(s, a)| [s.to_bits(), a.to_bits()]).collect();
        pack_records(&mut bytes, &delivered, DELIVERY_RECORD);
        pack_records(&mut bytes, &bits(&solved.impulses), IMPULSE_NUMBERS);
        pack_records(&mut bytes, &bits(&solved.centres), CENTRE_NUMBERS);
    }
    bytes
}

/// How much of it the centres take, those given and those delivered.
pub fn centre_bytes(entry: &Entry) -> usize {
    let mut bytes = Vec::new();
    pack_records(&mut bytes, &bits(&entry.job.centres), CENTRE_NUMBERS);
    pack_records(&mut bytes, &bits(&entry.solved.centres), CENTRE_NUMBERS);
    bytes.len()
}

fn header(job: &Job, answer: &Answer, closing: u32) -> Vec<u8> {
    let [refusal, count, flag, linear, angular] = answer.words();
    let tolerances = job.tolerances.map(f64::to_bits);
    let mut bytes = Vec::new();
    let mut words =
        |values: &[u32]| bytes.extend(values.iter().flat_map(|word| word.to_le_bytes()));
    words(&[job.rows, job.bodies, job.limit, job.mode]);
    words(&[refusal as u32, count as u32, flag as u32, closing]);
    for double in [tolerances[0], tolerances[1], linear, angular] {
        bytes.extend(double.to_le_bytes());
    }
    bytes
}

fn bits(values: &[f64]) -> Vec<u64> {
    values.iter().map(|value| value.to_bits()).collect()
}

fn row_words(job: &Job) -> Vec<u64> {
    let rows = job.numbers.chunks_exact(ROW_NUMBERS).zip(job.words.chunks_exact(ROW_WORDS));
    let words = rows.flat_map(|(numbers, words)| {
        bits(numbers).into_iter().chain(words.iter().map(|word| u64::from(*word)))
    });
    words.collect()
}

/// Each record: its codes, four to a byte, then what the codes call for.
fn pack_records(bytes: &mut Vec<u8>, words: &[u64], size: usize) {
    let mut before = vec![0; size];
    for record in words.chunks_exact(size) {
        let codes: Vec<u8> =
            record.iter().zip(&before).map(|(word, old)| code(*word, *old)).collect();
        for four in codes.chunks(4) {
            let packed = four.iter().enumerate().map(|(place, code)| code << (2 * place));
            bytes.push(packed.sum());
        }
        for (word, code) in record.iter().zip(codes) {
            match code {
                0 => {}
                1 => bytes.extend(&word.to_le_bytes()[6..]),
                2 => bytes.extend(&word.to_le_bytes()),
                _ => bytes.extend(&word.to_le_bytes()[..2]),
            }
        }
        before.copy_from_slice(record);
    }
}

fn code(word: u64, before: u64) -> u8 {
    if word == before {
        0
    } else if word << 16 == 0 {
        1
    } else if word >> 16 == 0 {
        3
    } else {
        2
    }
}
