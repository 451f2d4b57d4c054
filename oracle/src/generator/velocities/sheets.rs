//! V1 to V5, and what is said of them.

use super::edges::{chain, push_row};
use crate::job::*;

/// A sheet in one mode, and its answer's refusal, count and flag.
pub struct Sheet {
    pub name: &'static str,
    pub job: Job,
    pub says: [u64; 3],
}

const COUNT_0: [u64; 3] = [0, 0, 1];

fn refused(number: u64) -> [u64; 3] {
    [number, 0, 0]
}

/// V1: P1's row with residual 0.25, any error, position off.
pub fn v1(tolerance: f64) -> Job {
    let mut job = Job { tolerances: [tolerance; 2], ..chain(&[0.25]) };
    job.set(0, ERROR, &[7.5]);
    job.set_word(0, POSITION_ENABLED, 0);
    job
}

/// V2: two equal rows of one owner, residuals 0.001 and −0.001 at tolerance 0.001.
fn v2() -> Job {
    let mut job = chain(&[0.001]);
    let row = push_row(&mut job, 0, 1, -0.001);
    job.set_word(row, OWNER, 0);
    job
}

/// V3: P1's row and a row of zeros of another owner, residuals 0.001.
fn v3() -> Job {
    let mut job = chain(&[0.001]);
    let row = push_row(&mut job, 0, 1, 0.001);
    job.set(row, LINEAR_A, &[0.0; ERROR]);
    job
}

/// V4: rows that meet 9, nothing and 7.
fn v4() -> Job {
    let mut job = chain(&[0.25, 0.25, 0.25]);
    job.set(0, LINEAR_A, &[0.0; ERROR]);
    job.set(2, ACCUMULATED_IMPULSE, &[f64::NAN]);
    job
}

/// V5: a residual NaN with a NaN accumulated impulse.
fn v5() -> Job {
    let mut job = chain(&[f64::NAN]);
    job.set(0, ACCUMULATED_IMPULSE, &[f64::NAN]);
    job
}

pub fn sheets() -> Vec<Sheet> {
    let mut heavy = v5();
    heavy.masses[0] = f64::NAN;
    let in_modes = |name: &'static str, job: Job, says: [[u64; 3]; 3]| {
        (0..3).map(move |mode| Sheet {
            name,
            job: Job { mode, ..job.clone() },
            says: says[mode as usize],
        })
    };
    let mut all = Vec::new();
    all.extend(in_modes("V1", v1(0.001), [[0, 1, 1]; 3]));
    all.extend(in_modes("V2", v2(), [COUNT_0, refused(13), refused(13)]));
    all.extend(in_modes("V3", v3(), [COUNT_0, COUNT_0, refused(13)]));
    all.extend(in_modes("V4", v4(), [refused(7); 3]));
    all.extend(in_modes("V5", v5(), [refused(20); 3]));
    all.extend(in_modes("V5, limit 0", Job { limit: 0, ..v5() }, [refused(5); 3]));
    all.extend(in_modes("V5, a NaN mass", heavy, [refused(6); 3]));
    all
}
