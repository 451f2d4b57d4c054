//! Tolerances by kind of joint (document 02, k): which rule a row is judged by.

use super::table::tolerance_fits;
use super::{Judged, pass};
use crate::job::*;

/// Each row's rule, or 27 and 28 in their order. 27 judges rules that no row uses too.
pub fn rules_of_rows(job: &Job) -> Judged<Vec<u32>> {
    let rules = job.rules();
    pass(27, rules.each().all(fits))?;
    job.words.chunks_exact(ROW_WORDS).map(|words| rule_of(&rules, words)).collect()
}

/// Refusal 27's test: no dimension over 1, first not above last, no key over 255, a tolerance that
/// 26 lets pass.
fn fits(([dimension, first, last], tolerance): ([u32; 3], f64)) -> bool {
    dimension <= 1 && first <= last && last <= MOST_KEY && tolerance_fits(tolerance)
}

/// The one rule that the row is under; 28 where there is none or a second.
fn rule_of(rules: &Rules, words: &[u32]) -> Judged<u32> {
    let holds =
        |rule: [u32; 3]| rule[0] == words[DIMENSION] && (rule[1]..=rule[2]).contains(&words[KEY]);
    let mut under = (0..).zip(rules.each()).filter(|(_, (rule, _))| holds(*rule));
    match (under.next(), under.next()) {
        (Some((number, _)), None) => Ok(number),
        _ => Err(28),
    }
}

/// Linear and angular tolerance where all rules of a dimension agree: there the Rust is the
/// measure. 0 where a dimension has no rule, and so no row.
pub fn agreed(job: &Job) -> Option<[f64; 2]> {
    let rules = job.rules();
    let of = |dimension: u32| {
        let mut own = rules.each().filter(|(rule, _)| rule[0] == dimension).map(|(_, given)| given);
        let first = own.next().unwrap_or(0.0);
        own.all(|other| other == first).then_some(first)
    };
    Some([of(0)?, of(1)?])
}
