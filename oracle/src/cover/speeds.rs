//! What a recorded velocity job meets that a position job cannot (document 02, a).

use super::items::{ENOUGH, Items};
use crate::job::*;
use crate::model::{Begun, Table, begin, opened, solve};

/// Each is about one slip: the job has another answer with it.
#[derive(Default)]
pub struct Speeds {
    count_0_first: bool,
    row_by_row: bool,
    multiplier_bounds: bool,
    position_enabled: bool,
    multiplier_in_the_sum: bool,
    error_read: bool,
    /// A residual is not finite; and what a job that is refused by 20 would be refused by else.
    odd: bool,
    else_by: u32,
    /// A residual of −0.0 at a count above 0.
    minus_zero: bool,
}

/// The refusals that are judged before the opening test, and it.
fn before_6(refusal: u32) -> bool {
    matches!(refusal, 3..=5 | 25..)
}

impl Speeds {
    pub fn of(job: &Job, solved: &Solved) -> Self {
        let refusal = solved.answer.refusal();
        let stepped = matches!(solved.answer, Answer::Accepted { count: 1.., .. });
        let another = |other: &Job| !solve(other).same(solved);
        let off = job.words.chunks_exact(ROW_WORDS).any(|words| words[POSITION_ENABLED] == 0);
        let bounds = traded(job, MIN_MULTIPLIER, MIN_IMPULSE);
        let sums = traded(job, MULTIPLIER, ACCUMULATED_IMPULSE);
        let errors = job.numbers.chunks_exact(ROW_NUMBERS).map(|row| -row[ERROR]);
        let by_error = Job { residuals: errors.collect(), ..job.clone() };
        let finite = |value: &f64| if value.is_finite() { *value } else { 0.0 };
        let plain = Job { residuals: job.residuals.iter().map(finite).collect(), ..job.clone() };
        let minus_zero = |value: &f64| value.to_bits() == (-0.0_f64).to_bits();
        Speeds {
            count_0_first: false,
            row_by_row: refused_row_by_row(job).is_some_and(|other| other != refusal),
            multiplier_bounds: another(&traded(&bounds, MAX_MULTIPLIER, MAX_IMPULSE)),
            position_enabled: off && !before_6(refusal),
            multiplier_in_the_sum: (stepped || refusal == 17) && another(&sums),
            error_read: another(&by_error),
            odd: !job.residuals.iter().all(|value| value.is_finite()),
            else_by: if refusal == 20 { solve(&plain).answer.refusal() } else { 0 },
            minus_zero: stepped && job.residuals.iter().any(minus_zero),
        }
    }

    /// The factor turns the job back although step 0 is within tolerance.
    pub fn at_factor(&mut self, refusal: u32, table: &Table, begun: &Begun) {
        self.count_0_first = (10..=13).contains(&refusal) && table.meets(&begun.residual);
    }
}

/// The job with two numbers of each row in each other's place.
fn traded(job: &Job, one: usize, other: usize) -> Job {
    let mut job = job.clone();
    job.numbers.chunks_exact_mut(ROW_NUMBERS).for_each(|row| row.swap(one, other));
    job
}

/// What turns the job back where 7 is judged row by row with 8 and 9; None where nothing does so far.
fn refused_row_by_row(job: &Job) -> Option<u32> {
    opened(job).and_then(|table| begin(&table)).err()
}

pub fn speeds(items: &mut Items) {
    for mode in 0..3 {
        let mut slip = |name: &str, met: fn(&Speeds) -> bool| {
            let name = format!("another answer with {name}");
            items.add(mode, ENOUGH, &name, move |seen| met(&seen.speeds));
        };
        if mode > 0 {
            slip("the count 0 test before the factor", |speeds| speeds.count_0_first);
        }
        slip("7 judged row by row with 8 and 9", |speeds| speeds.row_by_row);
        slip("multiplier bounds read in 5", |speeds| speeds.multiplier_bounds);
        slip("position_enabled read in 5", |speeds| speeds.position_enabled);
        slip("the multiplier in the sum", |speeds| speeds.multiplier_in_the_sum);
        slip("the error in the residual's place", |speeds| speeds.error_read);
        items.add(mode, ENOUGH, "a residual of −0.0, a step made", |seen| seen.speeds.minus_zero);
        for later in [7, 8, 9] {
            let name = format!("refused by 20, else by {later}");
            let met = move |seen: &super::Seen| seen.refusal == 20 && seen.speeds.else_by == later;
            items.add(mode, 1, &name, met);
        }
        for earlier in [4, 27, 5, 6] {
            let name = format!("refused by {earlier}, else by 20");
            let met = move |seen: &super::Seen| seen.refusal == earlier && seen.speeds.odd;
            items.add(mode, 1, &name, met);
        }
    }
}
