//! Reads the recorded solves with a byte cursor, as a program without Rust would.

use crate::job::*;
use crate::packing::{DELIVERY_RECORD, Entry, MAGIC, RESIDUAL_RECORD, ROW_RECORD};

struct Cursor<'a> {
    bytes: &'a [u8],
    at: usize,
}

impl Cursor<'_> {
    fn little(&mut self, size: usize) -> Result<u64, String> {
        let taken = self.bytes.get(self.at..self.at + size).ok_or("the list ends early")?;
        self.at += size;
        Ok(taken.iter().rev().fold(0, |word, byte| (word << 8) | u64::from(*byte)))
    }

    fn word(&mut self) -> Result<u32, String> {
        Ok(self.little(4)? as u32)
    }

    fn double(&mut self) -> Result<f64, String> {
        Ok(f64::from_bits(self.little(8)?))
    }

    fn records(&mut self, count: usize, size: usize) -> Result<Vec<u64>, String> {
        let mut words = vec![0; count * size];
        for record in 0..count {
            let codes = self.at;
            self.at += size.div_ceil(4);
            for place in 0..size {
                let at = record * size + place;
                let byte = *self.bytes.get(codes + place / 4).ok_or("the list ends early")?;
                words[at] = match (byte >> (2 * (place % 4))) & 3 {
                    0 => {
                        if record == 0 {
                            0
                        } else {
                            words[at - size]
                        }
                    }
                    1 => self.little(2)? << 48,
                    2 => self.little(8)?,
                    _ => self.little(2)?,
                };
            }
        }
        Ok(words)
    }

    fn doubles(&mut self, count: usize, size: usize) -> Result<Vec<f64>, String> {
        Ok(self.records(count, size)?.into_iter().map(f64::from_bits).collect())
    }
}

/// Two lists of positions and two of velocities, one straight after the other, to the end of the
/// bytes.
pub fn unpack_all(bytes: &[u8]) -> Result<[Vec<Entry>; 4], String> {
    let mut cursor = Cursor { bytes, at: 0 };
    let mut next = |kind: Kind| list(&mut cursor, kind);
    let all = [
        next(Kind::Position)?,
        next(Kind::Position)?,
        next(Kind::Velocity)?,
        next(Kind::Velocity)?,
    ];
    if cursor.at == bytes.len() { Ok(all) } else { Err("bytes follow the lists".to_string()) }
}

fn list(cursor: &mut Cursor, kind: Kind) -> Result<Vec<Entry>, String> {
    if cursor.little(8)? != u64::from_le_bytes(*MAGIC) {
        return Err("this is not a recorded list".to_string());
    }
    let count = cursor.word()?;
    cursor.word()?;
    (0..count).map(|_| entry(cursor, kind)).collect()
}

fn entry(cursor: &mut Cursor, kind: Kind) -> Result<Entry, String> {
    let mut job = Job { kind, rows: cursor.word()?, bodies: cursor.word()?, ..Job::default() };
    (job.limit, job.mode) = (cursor.word()?, cursor.word()?);
    let (refusal, count, flag) = (cursor.word()?, cursor.word()?, cursor.word()? == 1);
    let closing = cursor.word()?;
    job.tolerances = [cursor.double()?, cursor.double()?];
    let (linear, angular) = (cursor.double()?, cursor.double()?);
    let (rows, bodies) = (job.rows as usize, job.bodies as usize);
    for row in cursor.records(rows, ROW_RECORD)?.chunks_exact(ROW_RECORD) {
        job.numbers.extend(row[..ROW_NUMBERS].iter().map(|bits| f64::from_bits(*bits)));
        job.words.extend(row[ROW_NUMBERS..].iter().map(|word| *word as u32));
    }
    job.masses = cursor.doubles(bodies, MASS_NUMBERS)?;
    match kind {
        Kind::Position => job.centres = cursor.doubles(bodies, CENTRE_NUMBERS)?,
        Kind::Velocity => job.residuals = cursor.doubles(rows, RESIDUAL_RECORD)?,
    }
    let mut solved = Solved::refused(refusal);
    if refusal == 0 {
        solved.answer = Answer::Accepted { flag, count, linear, angular };
        for pair in cursor.doubles(rows, DELIVERY_RECORD)?.chunks_exact(DELIVERY_RECORD) {
            solved.solution.push(pair[0]);
            solved.accumulated.push(pair[1]);
        }
        solved.impulses = cursor.doubles(bodies, IMPULSE_NUMBERS)?;
        if kind == Kind::Position {
            solved.centres = cursor.doubles(bodies, CENTRE_NUMBERS)?;
        }
        // Of the two rules that the tolerances stand for, a row is under that of its dimension.
        solved.rules = (0..rows).map(|row| job.word(row, DIMENSION)).collect();
    }
    Ok(Entry { job, solved, closing })
}
