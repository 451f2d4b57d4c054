//! The reference behind the C functions that an implementation offers: the model's
//! refusal numbers, held to the reference on every call. The driver runs this library,
//! built at opt-level 0, against the same judge at opt-level 3.
#![allow(dead_code, unused_imports)]

mod job;
mod judge;
mod model;

use job::{Answer, CENTRE_NUMBERS, IMPULSE_NUMBERS, Job, Kind, ROW_NUMBERS, Rules};
use std::slice::{from_raw_parts, from_raw_parts_mut};

/// The reference and the model differ: an answer that no job has.
const DISPUTED: u64 = 1000;

/// A slice as C lends it.
type Lent<T> = (*const T, usize);

/// # Safety
/// The pointer is followed by the number of elements that it lends.
unsafe fn copied<T: Copy>((pointer, length): Lent<T>) -> Vec<T> {
    unsafe { from_raw_parts(pointer, length) }.to_vec()
}

/// What every call lends: rows, masses, what stands in the centres' place, and rules.
struct Tables {
    numbers: Lent<f64>,
    words: Lent<u32>,
    masses: Lent<f64>,
    lent: Lent<f64>,
    rule_words: Lent<u32>,
    rule_tolerances: Lent<f64>,
}

impl Tables {
    /// # Safety
    /// Every pointer is followed by the number of elements that it lends.
    unsafe fn job(self, kind: Kind, rows: u32, bodies: u32) -> Job {
        let rules = Rules {
            words: unsafe { copied(self.rule_words) },
            tolerances: unsafe { copied(self.rule_tolerances) },
        };
        let lent = unsafe { copied(self.lent) };
        let (centres, residuals) = match kind {
            Kind::Position => (lent, Vec::new()),
            Kind::Velocity => (Vec::new(), lent),
        };
        Job {
            kind,
            numbers: unsafe { copied(self.numbers) },
            words: unsafe { copied(self.words) },
            masses: unsafe { copied(self.masses) },
            centres,
            residuals,
            rules: Some(rules),
            rows,
            bodies,
            ..Job::default()
        }
    }
}

struct Outputs<'a> {
    solution: &'a mut [f64],
    impulses: &'a mut [f64],
    new_centres: &'a mut [f64],
    rule_numbers: &'a mut [u32],
}

fn solve(job: &Job, numbers: &mut [f64], to: Outputs) -> [u64; 5] {
    let (rows, bodies) = (job.rows as usize, job.bodies as usize);
    let Outputs { solution, impulses, new_centres, rule_numbers } = to;
    let lengths = [solution.len(), impulses.len(), new_centres.len(), rule_numbers.len()];
    let centres = if job.kind == Kind::Position { CENTRE_NUMBERS * bodies } else { 0 };
    if lengths != [rows, IMPULSE_NUMBERS * bodies, centres, rows] {
        return Answer::Refused(3).words();
    }
    let judged = judge::judge(job);
    if judged.dispute.is_some() {
        return [DISPUTED, 0, 0, 0, 0];
    }
    let solved = judged.solved;
    if let Answer::Accepted { .. } = solved.answer {
        solution.copy_from_slice(&solved.solution);
        impulses.copy_from_slice(&solved.impulses);
        new_centres.copy_from_slice(&solved.centres);
        rule_numbers.copy_from_slice(&solved.rules);
        for (row, sum) in numbers.chunks_exact_mut(ROW_NUMBERS).zip(solved.accumulated) {
            row[job.kind.gains()] = sum;
        }
    }
    solved.answer.words()
}

/// A proposal (document 02, l): the solve on a copy of the rows, and what it started from.
struct Proposed<'a> {
    words: &'a mut [u32],
    started: &'a mut [f64],
}

fn propose(job: &Job, to: Outputs, proposed: Proposed) -> [u64; 3] {
    if (proposed.words.len(), proposed.started.len()) != (4, job.rows as usize) {
        return [3, 0, 0];
    }
    let [refusal, count, flag, linear, angular] = solve(job, &mut job.numbers.clone(), to);
    if refusal == 0 {
        proposed.words.copy_from_slice(&[job.rows, flag as u32, count as u32, 0]);
        for (to, row) in proposed.started.iter_mut().zip(job.numbers.chunks_exact(ROW_NUMBERS)) {
            *to = row[job.kind.gains()];
        }
    }
    [refusal, linear, angular]
}

/// 0, or 3, 29 or 30, which write nothing.
fn commit(
    numbers: &mut [f64],
    rows: u32,
    proposed: &mut [u32],
    solution: &[f64],
    started: &[f64],
) -> u64 {
    let &mut [proposed_rows, _, count, ref mut mark] = proposed else {
        return 3;
    };
    let lent = [numbers.len(), solution.len(), started.len()];
    let proposed_rows = proposed_rows as usize;
    if rows > 512 || lent != [ROW_NUMBERS * rows as usize, proposed_rows, proposed_rows] {
        return 3;
    }
    if *mark != 0 {
        return 29;
    }
    let place = Kind::Position.gains();
    let same = |(row, start): (&[f64], &f64)| row[place].to_bits() == start.to_bits();
    if rows as usize != proposed_rows || !numbers.chunks_exact(ROW_NUMBERS).zip(started).all(same) {
        return 30;
    }
    if count != 0 {
        for (row, gain) in numbers.chunks_exact_mut(ROW_NUMBERS).zip(solution) {
            row[place] += gain;
        }
    }
    *mark = 1;
    0
}

/// What a check with its list is lent for it.
struct Lists<'a> {
    rows: &'a mut [u32],
    numbers: &'a mut [f64],
}

impl Lists<'_> {
    /// # Safety
    /// Each pointer is followed by the number of elements that it lends.
    unsafe fn lent(rows: (*mut u32, usize), numbers: (*mut f64, usize)) -> Self {
        Self {
            rows: unsafe { from_raw_parts_mut(rows.0, rows.1) },
            numbers: unsafe { from_raw_parts_mut(numbers.0, numbers.1) },
        }
    }
}

fn check(job: &Job, list: &[f64], rule_numbers: &mut [u32], margins: Option<Lists>) -> [u64; 4] {
    let rows = job.rows as usize;
    let lists = margins.as_ref().map_or([rows; 2], |to| [to.rows.len(), to.numbers.len()]);
    let fits = rule_numbers.len() == rows && lists == [rows; 2];
    let checked = if fits { model::closing_check(job, list) } else { Err(3) };
    if let Ok(found) = &checked {
        rule_numbers.copy_from_slice(&found.rules);
        if let (Some(to), Some(list)) = (margins, model::margins(job, found)) {
            for (place, (row, number)) in list.into_iter().enumerate() {
                (to.rows[place], to.numbers[place]) = (row, number);
            }
        }
    }
    model::check_words(&checked)
}

/// # Safety
/// Every pointer is followed by the number of elements that it lends.
#[unsafe(no_mangle)]
#[allow(clippy::too_many_arguments)]
#[rustfmt::skip]
pub unsafe extern "C" fn kapitsa_solve_position(
    numbers: *mut f64, numbers_len: usize,
    words: *const u32, words_len: usize,
    masses: *const f64, masses_len: usize,
    centres: *const f64, centres_len: usize,
    rule_words: *const u32, rule_words_len: usize,
    rule_tolerances: *const f64, rule_tolerances_len: usize,
    rows: u32, bodies: u32, limit: u32, mode: u32, shift: f64,
    solution: *mut f64, solution_len: usize,
    impulses: *mut f64, impulses_len: usize,
    new_centres: *mut f64, new_centres_len: usize,
    rule_numbers: *mut u32, rule_numbers_len: usize,
    answer: *mut u64, answer_len: usize,
) {
    let tables = Tables {
        numbers: (numbers, numbers_len), words: (words, words_len), masses: (masses, masses_len),
        lent: (centres, centres_len), rule_words: (rule_words, rule_words_len),
        rule_tolerances: (rule_tolerances, rule_tolerances_len),
    };
    let job = unsafe { tables.job(Kind::Position, rows, bodies) };
    let to = Outputs {
        solution: unsafe { from_raw_parts_mut(solution, solution_len) },
        impulses: unsafe { from_raw_parts_mut(impulses, impulses_len) },
        new_centres: unsafe { from_raw_parts_mut(new_centres, new_centres_len) },
        rule_numbers: unsafe { from_raw_parts_mut(rule_numbers, rule_numbers_len) },
    };
    let numbers = unsafe { from_raw_parts_mut(numbers, numbers_len) };
    let found = solve(&Job { limit, mode, shift, ..job }, numbers, to);
    unsafe { from_raw_parts_mut(answer, answer_len) }.copy_from_slice(&found);
}

/// # Safety
/// Every pointer is followed by the number of elements that it lends.
#[unsafe(no_mangle)]
#[allow(clippy::too_many_arguments)]
#[rustfmt::skip]
pub unsafe extern "C" fn kapitsa_propose_position(
    numbers: *const f64, numbers_len: usize,
    words: *const u32, words_len: usize,
    masses: *const f64, masses_len: usize,
    centres: *const f64, centres_len: usize,
    rule_words: *const u32, rule_words_len: usize,
    rule_tolerances: *const f64, rule_tolerances_len: usize,
    rows: u32, bodies: u32, limit: u32, mode: u32, shift: f64,
    proposal: *mut u32, proposal_len: usize,
    solution: *mut f64, solution_len: usize,
    impulses: *mut f64, impulses_len: usize,
    new_centres: *mut f64, new_centres_len: usize,
    started: *mut f64, started_len: usize,
    rule_numbers: *mut u32, rule_numbers_len: usize,
    answer: *mut u64, answer_len: usize,
) {
    let tables = Tables {
        numbers: (numbers, numbers_len), words: (words, words_len), masses: (masses, masses_len),
        lent: (centres, centres_len), rule_words: (rule_words, rule_words_len),
        rule_tolerances: (rule_tolerances, rule_tolerances_len),
    };
    let job = unsafe { tables.job(Kind::Position, rows, bodies) };
    let to = Outputs {
        solution: unsafe { from_raw_parts_mut(solution, solution_len) },
        impulses: unsafe { from_raw_parts_mut(impulses, impulses_len) },
        new_centres: unsafe { from_raw_parts_mut(new_centres, new_centres_len) },
        rule_numbers: unsafe { from_raw_parts_mut(rule_numbers, rule_numbers_len) },
    };
    let proposed = Proposed {
        words: unsafe { from_raw_parts_mut(proposal, proposal_len) },
        started: unsafe { from_raw_parts_mut(started, started_len) },
    };
    let found = propose(&Job { limit, mode, shift, ..job }, to, proposed);
    unsafe { from_raw_parts_mut(answer, answer_len) }.copy_from_slice(&found);
}

/// # Safety
/// Every pointer is followed by the number of elements that it lends.
#[unsafe(no_mangle)]
#[allow(clippy::too_many_arguments)]
#[rustfmt::skip]
pub unsafe extern "C" fn kapitsa_commit_proposal(
    numbers: *mut f64, numbers_len: usize, rows: u32,
    proposal: *mut u32, proposal_len: usize,
    solution: *const f64, solution_len: usize,
    started: *const f64, started_len: usize,
    answer: *mut u64, answer_len: usize,
) {
    let found = unsafe {
        commit(
            from_raw_parts_mut(numbers, numbers_len), rows,
            from_raw_parts_mut(proposal, proposal_len),
            from_raw_parts(solution, solution_len), from_raw_parts(started, started_len),
        )
    };
    unsafe { from_raw_parts_mut(answer, answer_len) }.copy_from_slice(&[found]);
}

/// # Safety
/// Every pointer is followed by the number of elements that it lends.
#[unsafe(no_mangle)]
#[allow(clippy::too_many_arguments)]
#[rustfmt::skip]
pub unsafe extern "C" fn kapitsa_solve_velocity(
    numbers: *mut f64, numbers_len: usize,
    words: *const u32, words_len: usize,
    masses: *const f64, masses_len: usize,
    residuals: *const f64, residuals_len: usize,
    rule_words: *const u32, rule_words_len: usize,
    rule_tolerances: *const f64, rule_tolerances_len: usize,
    rows: u32, bodies: u32, limit: u32, mode: u32, shift: f64,
    solution: *mut f64, solution_len: usize,
    impulses: *mut f64, impulses_len: usize,
    rule_numbers: *mut u32, rule_numbers_len: usize,
    answer: *mut u64, answer_len: usize,
) {
    let tables = Tables {
        numbers: (numbers, numbers_len), words: (words, words_len), masses: (masses, masses_len),
        lent: (residuals, residuals_len), rule_words: (rule_words, rule_words_len),
        rule_tolerances: (rule_tolerances, rule_tolerances_len),
    };
    let job = unsafe { tables.job(Kind::Velocity, rows, bodies) };
    let to = Outputs {
        solution: unsafe { from_raw_parts_mut(solution, solution_len) },
        impulses: unsafe { from_raw_parts_mut(impulses, impulses_len) },
        new_centres: &mut [],
        rule_numbers: unsafe { from_raw_parts_mut(rule_numbers, rule_numbers_len) },
    };
    let numbers = unsafe { from_raw_parts_mut(numbers, numbers_len) };
    let found = solve(&Job { limit, mode, shift, ..job }, numbers, to);
    unsafe { from_raw_parts_mut(answer, answer_len) }.copy_from_slice(&found);
}

/// A check by this name, of this kind of job, with what it takes for its list.
macro_rules! checks {
    ($name:ident, $kind:expr, [$($list:ident: $of:ty),*], $lists:expr) => {
        /// # Safety
        /// Every pointer is followed by the number of elements that it lends.
        #[unsafe(no_mangle)]
        #[allow(clippy::too_many_arguments)]
        #[rustfmt::skip]
        pub unsafe extern "C" fn $name(
            numbers: *const f64, numbers_len: usize,
            words: *const u32, words_len: usize,
            masses: *const f64, masses_len: usize,
            lent: *const f64, lent_len: usize,
            rule_words: *const u32, rule_words_len: usize,
            rule_tolerances: *const f64, rule_tolerances_len: usize,
            rows: u32, bodies: u32,
            multipliers: *const f64, multipliers_len: usize,
            rule_numbers: *mut u32, rule_numbers_len: usize,
            $($list: $of,)*
            answer: *mut u64, answer_len: usize,
        ) {
            let tables = Tables {
                numbers: (numbers, numbers_len), words: (words, words_len),
                masses: (masses, masses_len), lent: (lent, lent_len),
                rule_words: (rule_words, rule_words_len),
                rule_tolerances: (rule_tolerances, rule_tolerances_len),
            };
            let job = unsafe { tables.job($kind, rows, bodies) };
            let list = unsafe { from_raw_parts(multipliers, multipliers_len) };
            let rule_numbers = unsafe { from_raw_parts_mut(rule_numbers, rule_numbers_len) };
            let found = check(&job, list, rule_numbers, $lists);
            unsafe { from_raw_parts_mut(answer, answer_len) }.copy_from_slice(&found);
        }
    };
}

checks!(kapitsa_closing_check, Kind::Position, [], None);
checks!(kapitsa_velocity_closing_check, Kind::Velocity, [], None);
checks!(
    kapitsa_closing_margins,
    Kind::Position,
    [rows_to: *mut u32, rows_to_len: usize, numbers_to: *mut f64, numbers_to_len: usize],
    Some(unsafe { Lists::lent((rows_to, rows_to_len), (numbers_to, numbers_to_len)) })
);
checks!(
    kapitsa_velocity_closing_margins,
    Kind::Velocity,
    [rows_to: *mut u32, rows_to_len: usize, numbers_to: *mut f64, numbers_to_len: usize],
    Some(unsafe { Lists::lent((rows_to, rows_to_len), (numbers_to, numbers_to_len)) })
);

/// A solve by groups (document 02, g) by this name, of this kind of job, with what it takes for centres.
macro_rules! groups {
    ($name:ident, $kind:expr, [$($place:ident: $of:ty),*], $centres:expr) => {
        /// # Safety
        /// Every pointer is followed by the number of elements that it lends.
        #[unsafe(no_mangle)]
        #[allow(clippy::too_many_arguments)]
        #[rustfmt::skip]
        pub unsafe extern "C" fn $name(
            numbers: *mut f64, numbers_len: usize,
            words: *const u32, words_len: usize,
            masses: *const f64, masses_len: usize,
            lent: *const f64, lent_len: usize,
            rule_words: *const u32, rule_words_len: usize,
            rule_tolerances: *const f64, rule_tolerances_len: usize,
            rows: u32, bodies: u32, limit: u32, mode: u32, shift: f64,
            solution: *mut f64, solution_len: usize,
            impulses: *mut f64, impulses_len: usize,
            $($place: $of,)*
            rule_numbers: *mut u32, rule_numbers_len: usize,
            group_numbers: *mut u32, group_numbers_len: usize,
            group_answers: *mut u32, group_answers_len: usize,
            group_maxima: *mut f64, group_maxima_len: usize,
            group_count: *mut u32, group_count_len: usize,
            answer: *mut u64, answer_len: usize,
        ) {
            let tables = Tables {
                numbers: (numbers, numbers_len), words: (words, words_len),
                masses: (masses, masses_len), lent: (lent, lent_len),
                rule_words: (rule_words, rule_words_len),
                rule_tolerances: (rule_tolerances, rule_tolerances_len),
            };
            let job = unsafe { tables.job($kind, rows, bodies) };
            let centres: &mut [f64] = $centres;
            let mut to = unsafe {
                model::Bench {
                    numbers: copied((numbers, numbers_len)),
                    solution: copied((solution, solution_len)),
                    impulses: copied((impulses, impulses_len)),
                    centres: centres.to_vec(),
                    rule_numbers: copied((rule_numbers, rule_numbers_len)),
                    group_numbers: copied((group_numbers, group_numbers_len)),
                    group_answers: copied((group_answers, group_answers_len)),
                    group_maxima: copied((group_maxima, group_maxima_len)),
                    group_count: copied((group_count, group_count_len)),
                }
            };
            let found = model::solve_groups(&Job { limit, mode, shift, ..job }, &mut to);
            centres.copy_from_slice(&to.centres);
            unsafe {
                from_raw_parts_mut(numbers, numbers_len).copy_from_slice(&to.numbers);
                from_raw_parts_mut(solution, solution_len).copy_from_slice(&to.solution);
                from_raw_parts_mut(impulses, impulses_len).copy_from_slice(&to.impulses);
                from_raw_parts_mut(rule_numbers, rule_numbers_len).copy_from_slice(&to.rule_numbers);
                from_raw_parts_mut(group_numbers, group_numbers_len).copy_from_slice(&to.group_numbers);
                from_raw_parts_mut(group_answers, group_answers_len).copy_from_slice(&to.group_answers);
                from_raw_parts_mut(group_maxima, group_maxima_len).copy_from_slice(&to.group_maxima);
                from_raw_parts_mut(group_count, group_count_len).copy_from_slice(&to.group_count);
                let refusal = found.err().unwrap_or(0).into();
                from_raw_parts_mut(answer, answer_len).copy_from_slice(&[refusal]);
            }
        }
    };
}

groups!(
    kapitsa_solve_groups,
    Kind::Position,
    [new_centres: *mut f64, new_centres_len: usize],
    unsafe { from_raw_parts_mut(new_centres, new_centres_len) }
);
groups!(kapitsa_solve_velocity_groups, Kind::Velocity, [], &mut []);
