//! Document 01's job file: sections anywhere, then a trailer of 48 bytes. A spare of 1 marks masses
//! with their centres (document 02, d).

use crate::job::{CENTRE_NUMBERS, Job, MASS_NUMBERS, ROW_NUMBERS, ROW_WORDS};

const ROW_BYTES: usize = 8 * ROW_NUMBERS + 4 * ROW_WORDS;
const CENTRE_BYTES: usize = 8 * CENTRE_NUMBERS;
const TRAILER_BYTES: usize = 48;
const MAX_BYTES: usize = 65_536;
const MAX_ROWS: u32 = 128;
const MAX_BODIES: u32 = 64;

/// 80 bytes, and three doubles more where the spare is 1.
fn mass_bytes(spare: u32) -> usize {
    8 * MASS_NUMBERS + if spare == 1 { CENTRE_BYTES } else { 0 }
}

/// Rows from byte `row_offset`, masses from `mass_offset`; bytes between are 0.
pub fn write_at(job: &Job, row_offset: usize, mass_offset: usize) -> Vec<u8> {
    let (rows, masses) = (row_section(job), mass_section(job));
    let end = (row_offset + rows.len()).max(mass_offset + masses.len());
    let mut file = vec![0; end];
    file[row_offset..row_offset + rows.len()].copy_from_slice(&rows);
    file[mass_offset..mass_offset + masses.len()].copy_from_slice(&masses);
    let counts = [job.rows, job.bodies, job.limit, job.mode];
    let offsets = [row_offset as u32, mass_offset as u32];
    file.extend(counts.iter().chain(&offsets).flat_map(|word| word.to_le_bytes()));
    file.extend(job.tolerances.iter().flat_map(|value| value.to_le_bytes()));
    file.extend(((end + TRAILER_BYTES) as u32).to_le_bytes());
    file.extend(job.spare.to_le_bytes());
    file
}

/// Rows first, masses straight after. A count that does not fit its list is written as it is.
pub fn write(job: &Job) -> Vec<u8> {
    write_at(job, 0, ROW_BYTES * (job.words.len() / ROW_WORDS))
}

fn row_section(job: &Job) -> Vec<u8> {
    let mut bytes = Vec::new();
    let rows = job.numbers.chunks_exact(ROW_NUMBERS).zip(job.words.chunks_exact(ROW_WORDS));
    for (numbers, words) in rows {
        bytes.extend(numbers.iter().flat_map(|value| value.to_le_bytes()));
        bytes.extend(words.iter().flat_map(|word| word.to_le_bytes()));
    }
    bytes
}

/// Masses as the spare has them; one cut short, or without its centre, is written as far as it goes.
fn mass_section(job: &Job) -> Vec<u8> {
    let mut centres = job.centres.chunks(CENTRE_NUMBERS);
    let mut bytes = Vec::new();
    for mass in job.masses.chunks(MASS_NUMBERS) {
        let centre = centres.next().filter(|_| job.spare == 1).unwrap_or_default();
        bytes.extend(mass.iter().chain(centre).flat_map(|value| value.to_le_bytes()));
    }
    bytes
}

fn word(file: &[u8], at: usize) -> u32 {
    u32::from_le_bytes(file[at..at + 4].try_into().unwrap())
}

fn double(file: &[u8], at: usize) -> f64 {
    f64::from_le_bytes(file[at..at + 8].try_into().unwrap())
}

/// Reads a job as the job program does, refusing by 1 and 2.
pub fn read(file: &[u8]) -> Result<Job, u32> {
    if file.len() < TRAILER_BYTES || file.len() > MAX_BYTES {
        return Err(1);
    }
    let trailer = file.len() - TRAILER_BYTES;
    let at = |place: usize| word(file, trailer + 4 * place);
    if at(10) as usize != file.len() || at(11) > 1 {
        return Err(1);
    }
    if at(0) > MAX_ROWS || at(1) > MAX_BODIES {
        return Err(2);
    }
    let rows = at(4) as usize..at(4) as usize + ROW_BYTES * at(0) as usize;
    let masses = at(5) as usize..at(5) as usize + mass_bytes(at(11)) * at(1) as usize;
    let overlap = !rows.is_empty()
        && !masses.is_empty()
        && rows.start < masses.end
        && masses.start < rows.end;
    if overlap || rows.end > trailer || masses.end > trailer {
        return Err(2);
    }
    Ok(read_sections(file, rows, masses, trailer))
}

type Section = std::ops::Range<usize>;

fn read_sections(file: &[u8], rows: Section, masses: Section, trailer: usize) -> Job {
    let spare = word(file, trailer + 44);
    let doubles = |from: usize, count: usize| (0..count).map(move |k| double(file, from + 8 * k));
    let bodies = || masses.clone().step_by(mass_bytes(spare));
    let centre = |body: usize| match spare {
        1 => doubles(body + 8 * MASS_NUMBERS, CENTRE_NUMBERS).collect(),
        _ => vec![0.0; CENTRE_NUMBERS],
    };
    let starts = || rows.clone().step_by(ROW_BYTES);
    let numbers = starts().flat_map(|row| doubles(row, ROW_NUMBERS));
    let words = starts()
        .map(|row| row + 8 * ROW_NUMBERS)
        .flat_map(|row| (0..ROW_WORDS).map(move |k| word(file, row + 4 * k)));
    Job {
        numbers: numbers.collect(),
        words: words.collect(),
        masses: bodies().flat_map(|body| doubles(body, MASS_NUMBERS)).collect(),
        centres: bodies().flat_map(centre).collect(),
        tolerances: [double(file, trailer + 24), double(file, trailer + 32)],
        rows: word(file, trailer),
        bodies: word(file, trailer + 4),
        limit: word(file, trailer + 8),
        mode: word(file, trailer + 12),
        spare,
        ..Job::default()
    }
}
