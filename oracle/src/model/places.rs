//! Where a job was turned back: the first row or body that fails the test of the refusal's number.

use super::groups::only;
use super::steps::begin;
use super::table::{Table, opens, words_fit};
use super::{Judged, all_finite};
use crate::job::*;

pub enum Place {
    Row(usize),
    Body(usize),
    /// A limit of 0, which is no row's.
    Limit,
}

/// Of 4 to 9 and 11; any other number has no place.
pub fn place(job: &Job, number: u32) -> Option<Place> {
    let alone = |row: usize| only(job, &[row]);
    let found = |fails: &dyn Fn(usize) -> bool| {
        (0..job.rows as usize).find(|row| fails(*row)).map(Place::Row)
    };
    match number {
        4 => found(&|row| !words_fit(&alone(row))),
        5 if job.limit == 0 => Some(Place::Limit),
        5 => found(&|row| !opens(&alone(row))),
        6 => (0..job.bodies as usize).find(|body| !finite(job, *body)).map(Place::Body),
        7..=9 => found(&|row| stepped(job, row) == Err(number)),
        11 => found(&|row| run_begins(job, row) && !one_block(job, row)),
        _ => None,
    }
}

/// A body's ten mass numbers and its centre.
fn finite(job: &Job, body: usize) -> bool {
    all_finite(&job.masses[MASS_NUMBERS * body..][..MASS_NUMBERS])
        && all_finite(&job.centres[CENTRE_NUMBERS * body..][..CENTRE_NUMBERS])
}

/// Step 0 of the rows up to this one.
fn stepped(job: &Job, row: usize) -> Judged<()> {
    let rows: Vec<usize> = (0..=row).collect();
    Table::of(&only(job, &rows)).and_then(|table| begin(&table)).map(|_| ())
}

fn run_begins(job: &Job, row: usize) -> bool {
    row == 0 || job.word(row, OWNER) != job.word(row - 1, OWNER)
}

/// At most six rows of one owner from this one on, all on its body pair.
fn one_block(job: &Job, start: usize) -> bool {
    let same = |row: &usize| job.word(*row, OWNER) == job.word(start, OWNER);
    let run: Vec<usize> = (start..job.rows as usize).take_while(same).collect();
    let pair = |row: usize| [BODY_A, BODY_B].map(|place| job.word(row, place));
    run.len() <= 6 && run.into_iter().all(|row| pair(row) == pair(start))
}
