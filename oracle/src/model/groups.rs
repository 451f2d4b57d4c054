//! Several mechanisms on one bench (document 02, g): which rows belong together, and each group solved
//! as a table of its rows alone.

use super::table::{Table, counts_fit, masses_finite, residuals_finite, shift_fits, words_fit};
use super::{Judged, pass, solve};
use crate::job::*;

/// All that a solve by groups is lent to write into; numbers are the rows'.
#[derive(Clone)]
pub struct Bench {
    pub numbers: Vec<f64>,
    pub solution: Vec<f64>,
    pub impulses: Vec<f64>,
    /// Of positions alone.
    pub centres: Vec<f64>,
    pub rule_numbers: Vec<u32>,
    pub group_numbers: Vec<u32>,
    /// Three words a group: its refusal or 0, count, flag.
    pub group_answers: Vec<u32>,
    /// Two numbers a group: linear, angular.
    pub group_maxima: Vec<f64>,
    pub group_count: Vec<u32>,
}

/// What the groups come to, in their order: rows ascending, and the solve of these rows alone.
pub type Groups = Vec<(Vec<usize>, Solved)>;

/// Solves by groups into what is lent; a refusal of the whole table writes nothing.
pub fn solve_groups(job: &Job, to: &mut Bench) -> Judged<Groups> {
    pass(3, lent_fits(job, to))?;
    judge_whole(job)?;
    still_bodies(job, to);
    let groups: Groups =
        groups_of(job).into_iter().map(|rows| (rows.clone(), solve(&only(job, &rows)))).collect();
    for (number, (rows, solved)) in groups.iter().enumerate() {
        rows.iter().for_each(|row| to.group_numbers[*row] = number as u32);
        deliver(job, number, rows, solved, to);
    }
    to.group_count[0] = groups.len() as u32;
    Ok(groups)
}

/// Refusal 3 of what is written.
fn lent_fits(job: &Job, to: &Bench) -> bool {
    let (rows, bodies) = (job.rows as usize, job.bodies as usize);
    let placed = if job.kind == Kind::Position { bodies } else { 0 };
    let words = [&to.rule_numbers, &to.group_numbers, &to.group_answers, &to.group_count];
    let doubles = [&to.solution, &to.impulses, &to.centres, &to.group_maxima];
    words.map(Vec::len) == [rows, rows, 3 * rows, 1]
        && doubles.map(Vec::len)
            == [rows, IMPULSE_NUMBERS * bodies, CENTRE_NUMBERS * placed, 2 * rows]
}

/// "Refusals 3, 4, 6, 7, 20 and 25 judge the whole table first", 27 and 28 with them.
fn judge_whole(job: &Job) -> Judged<()> {
    pass(3, job.mode <= BLOCK_JACOBI && counts_fit(job))?;
    pass(25, shift_fits(job.shift))?;
    pass(4, words_fit(job))?;
    let table = Table::of(job)?;
    pass(6, masses_finite(job))?;
    pass(20, residuals_finite(job))?;
    pass(7, table.rows.iter().all(|row| row.valid))
}

/// "a body whose ten mass numbers are all zero joins nothing"
fn joins(job: &Job, body: u32) -> bool {
    let at = MASS_NUMBERS * body as usize;
    job.masses[at..at + MASS_NUMBERS].iter().any(|number| *number != 0.0)
}

/// The bodies of a row that join it to others.
fn joining(job: &Job, row: usize) -> Vec<u32> {
    let both = [BODY_A, BODY_B].map(|place| job.word(row, place));
    both.into_iter().filter(|body| joins(job, *body)).collect()
}

/// From each row that is in no group yet, lowest first, all that share a body with a row reached.
fn groups_of(job: &Job) -> Vec<Vec<usize>> {
    let bodies: Vec<Vec<u32>> = (0..job.rows as usize).map(|row| joining(job, row)).collect();
    let mut reached = vec![false; bodies.len()];
    let mut groups = Vec::new();
    for first in 0..bodies.len() {
        if reached[first] {
            continue;
        }
        reached[first] = true;
        let (mut group, mut next) = (vec![first], 0);
        while next < group.len() {
            let from = &bodies[group[next]];
            for row in 0..bodies.len() {
                if !reached[row] && from.iter().any(|body| bodies[row].contains(body)) {
                    reached[row] = true;
                    group.push(row);
                }
            }
            next += 1;
        }
        group.sort_unstable();
        groups.push(group);
    }
    groups
}

/// "a solve of its rows alone, in their order", with all bodies.
pub fn only(job: &Job, rows: &[usize]) -> Job {
    fn picked<T: Copy>(list: &[T], each: usize, rows: &[usize]) -> Vec<T> {
        rows.iter().flat_map(|row| list[each * row..each * (row + 1)].iter().copied()).collect()
    }
    let residuals = match job.kind {
        Kind::Position => Vec::new(),
        Kind::Velocity => picked(&job.residuals, 1, rows),
    };
    Job {
        numbers: picked(&job.numbers, ROW_NUMBERS, rows),
        words: picked(&job.words, ROW_WORDS, rows),
        residuals,
        rows: rows.len() as u32,
        ..job.clone()
    }
}

/// "Such a zero-mass body, or one in no row, is given impulses of +0.0", and keeps its centre.
fn still_bodies(job: &Job, to: &mut Bench) {
    for body in 0..job.bodies as usize {
        let in_a_row = (0..job.rows as usize).any(|row| joining(job, row).contains(&(body as u32)));
        if !in_a_row {
            to.impulses[IMPULSE_NUMBERS * body..][..IMPULSE_NUMBERS].fill(0.0);
            if job.kind == Kind::Position {
                let three = CENTRE_NUMBERS * body..CENTRE_NUMBERS * (body + 1);
                to.centres[three.clone()].copy_from_slice(&job.centres[three]);
            }
        }
    }
}

/// A group's words, and of an accepted one its numbers: of its rows, and of the bodies that join them.
fn deliver(job: &Job, number: usize, rows: &[usize], solved: &Solved, to: &mut Bench) {
    let words = solved.answer.words().map(|word| word as u32);
    to.group_answers[3 * number..][..3].copy_from_slice(&words[..3]);
    let Answer::Accepted { linear, angular, .. } = solved.answer else {
        return;
    };
    to.group_maxima[2 * number..][..2].copy_from_slice(&[linear, angular]);
    for (place, row) in rows.iter().copied().enumerate() {
        to.solution[row] = solved.solution[place];
        to.rule_numbers[row] = solved.rules[place];
        to.numbers[ROW_NUMBERS * row + job.kind.gains()] = solved.accumulated[place];
        for body in joining(job, row) {
            let six = IMPULSE_NUMBERS * body as usize;
            to.impulses[six..][..IMPULSE_NUMBERS]
                .copy_from_slice(&solved.impulses[six..][..IMPULSE_NUMBERS]);
            if job.kind == Kind::Position {
                let three = CENTRE_NUMBERS * body as usize;
                to.centres[three..][..CENTRE_NUMBERS]
                    .copy_from_slice(&solved.centres[three..][..CENTRE_NUMBERS]);
            }
        }
    }
}
