//! The closing checks, alone, with each row's gap and with their lists of margins.

use super::tables::counts;
use super::{Tables, VelocityTables, Work};
use crate::control::DefaultControl;
use crate::{archive, ByDimension, Margin, Refusal, Rules, Verdict, ROW_WORDS};

/// The verdict of a check and the measured gap.
#[derive(Clone, Copy, Debug, PartialEq)]
pub struct Judged {
    /// Whether every joint closes.
    pub verdict: Verdict,
    /// The measured gap of the linear rows and of the angular ones: no row's exact gap is larger.
    pub gap: ByDimension,
}

/// What a check with each row's gap writes, one a row.
#[derive(Debug)]
pub struct Measured<'a> {
    /// The number of its rule.
    pub rule_numbers: &'a mut [u32],
    /// Its measured gap.
    pub gaps: &'a mut [f64],
}

/// A closing check of the archive, in the default mode: what it judges. `$beside` is what it reads beside
/// rows, masses and rules, `$list` what it writes beside the rest, if anything.
#[rustfmt::skip]
macro_rules! check {
    ($function:ident, $numbers:ident, $tables:ident, $beside:ident, $rules:ident, $multipliers:ident,
     $rule_numbers:ident, [$($list:expr),*], $work:ident) => {{
        let (n, b) = counts($tables.words, $tables.masses)?;
        let work = $work.of_check(n, b);
        let mut verdict = [Verdict::Open as u32];
        let mut gap = [0.0; 2];
        let control = DefaultControl::set();
        // SAFETY: each pointer and length is of one slice, and what is written overlaps no other.
        let refusal = unsafe {
            archive::$function(
                $numbers.as_ptr(), $numbers.len(),
                $tables.words.as_ptr(), $tables.words.len(),
                $tables.masses.as_ptr(), $tables.masses.len(),
                $tables.$beside.as_ptr(), $tables.$beside.len(),
                $rules.words.as_ptr(), $rules.words.len(),
                $rules.tolerances.as_ptr(), $rules.tolerances.len(), n as u32, b as u32,
                $multipliers.as_ptr(), $multipliers.len(),
                $rule_numbers.as_mut_ptr(), $rule_numbers.len(),
                $($list.as_mut_ptr(), $list.len(),)*
                verdict.as_mut_ptr(), verdict.len(), gap.as_mut_ptr(), gap.len(),
                work.impulses.as_mut_ptr(), work.impulses.len(),
                work.size_impulses.as_mut_ptr(), work.size_impulses.len(),
                work.values.as_mut_ptr(), work.values.len(),
                work.sizes.as_mut_ptr(), work.sizes.len(),
            )
        };
        drop(control);
        Refusal::judge(refusal)?;
        let verdict = if verdict == [1] { Verdict::Closed } else { Verdict::Open };
        Judged { verdict, gap: gap.into() }
    }};
}

/// Measures every joint's gap from `multipliers`, the gains since the errors were measured, and judges
/// each row by its own rule, whose number is written only where the answer is `Ok`. The centres must be
/// finite; nothing else of it reads them.
#[inline(never)]
pub fn closing_check(
    numbers: &[f64],
    tables: &Tables,
    rules: &Rules,
    multipliers: &[f64],
    rule_numbers: &mut [u32],
    work: &mut Work,
) -> Result<Judged, Refusal> {
    #[rustfmt::skip]
    let judged = check!(
        kapitsa_closing_check, numbers, tables, centres, rules, multipliers, rule_numbers, [], work
    );
    Ok(judged)
}

/// The same of speeds, -residual in the error's place: `multipliers` are the gains since the residuals
/// were measured.
#[inline(never)]
pub fn velocity_closing_check(
    numbers: &[f64],
    tables: &VelocityTables,
    rules: &Rules,
    multipliers: &[f64],
    rule_numbers: &mut [u32],
    work: &mut Work,
) -> Result<Judged, Refusal> {
    #[rustfmt::skip]
    let judged = check!(
        kapitsa_velocity_closing_check, numbers, tables, residuals, rules, multipliers, rule_numbers,
        [], work
    );
    Ok(judged)
}

/// Memory for the list of as many rows as there are words for.
fn lists(words: &[u32]) -> (Vec<u32>, Vec<f64>) {
    let rows = words.len() / ROW_WORDS;
    (vec![0; rows], vec![0.0; rows])
}

/// The list, which there is where the check says closed.
fn listed(judged: Judged, rows: &[u32], numbers: &[f64]) -> Option<Vec<Margin>> {
    let each = rows.iter().zip(numbers);
    (judged.verdict == Verdict::Closed)
        .then(|| each.map(|(row, number)| Margin { row: *row as usize, gap: *number }).collect())
}

/// [`closing_check`], and where it says closed the list of each row's margin: linear rows before angular
/// ones, the largest number first within each dimension, the lower row first among equals.
#[inline(never)]
pub fn closing_margins(
    numbers: &[f64],
    tables: &Tables,
    rules: &Rules,
    multipliers: &[f64],
    rule_numbers: &mut [u32],
    work: &mut Work,
) -> Result<(Judged, Option<Vec<Margin>>), Refusal> {
    let (mut rows, mut gaps) = lists(tables.words);
    #[rustfmt::skip]
    let judged = check!(
        kapitsa_closing_margins, numbers, tables, centres, rules, multipliers, rule_numbers,
        [rows, gaps], work
    );
    Ok((judged, listed(judged, &rows, &gaps)))
}

/// The same of speeds: [`velocity_closing_check`] with its list, in m/s and rad/s.
#[inline(never)]
pub fn velocity_closing_margins(
    numbers: &[f64],
    tables: &VelocityTables,
    rules: &Rules,
    multipliers: &[f64],
    rule_numbers: &mut [u32],
    work: &mut Work,
) -> Result<(Judged, Option<Vec<Margin>>), Refusal> {
    let (mut rows, mut gaps) = lists(tables.words);
    #[rustfmt::skip]
    let judged = check!(
        kapitsa_velocity_closing_margins, numbers, tables, residuals, rules, multipliers, rule_numbers,
        [rows, gaps], work
    );
    Ok((judged, listed(judged, &rows, &gaps)))
}

/// [`closing_check`], and each row's measured gap, closed or open: `gaps`, one a row, has the smallest
/// tolerance at which the row closes, and is written only where the answer is `Ok`.
#[inline(never)]
pub fn closing_gaps(
    numbers: &[f64],
    tables: &Tables,
    rules: &Rules,
    multipliers: &[f64],
    to: Measured,
    work: &mut Work,
) -> Result<Judged, Refusal> {
    let Measured { rule_numbers, gaps } = to;
    #[rustfmt::skip]
    let judged = check!(
        kapitsa_closing_gaps, numbers, tables, centres, rules, multipliers, rule_numbers, [gaps], work
    );
    Ok(judged)
}

/// The same of speeds: [`velocity_closing_check`] with each row's gap, in m/s and rad/s.
#[inline(never)]
pub fn velocity_closing_gaps(
    numbers: &[f64],
    tables: &VelocityTables,
    rules: &Rules,
    multipliers: &[f64],
    to: Measured,
    work: &mut Work,
) -> Result<Judged, Refusal> {
    let Measured { rule_numbers, gaps } = to;
    #[rustfmt::skip]
    let judged = check!(
        kapitsa_velocity_closing_gaps, numbers, tables, residuals, rules, multipliers, rule_numbers,
        [gaps], work
    );
    Ok(judged)
}
