//! The check with its list (document 02, m) against the model, and what a row's number means.

use super::{UNTOUCHED, UNTOUCHED_WORD, as_judged, untouched};
use crate::implementation::{CheckOutputs, Implementation};
use crate::job::{DIMENSION, Job, KEY, MOST_RULES, Rules};
use crate::model::{self, Checked, Judged, Margin};
use crate::random::Random;

/// What the lists of the jobs come to.
#[derive(Default)]
pub struct Lists {
    lists: u64,
    rows: u64,
    both: u64,
    equal: u64,
    alone: u64,
}

impl Lists {
    /// One check with its list, a slice of it now and then of another length: every difference from
    /// the model's check and from its list. Where it is closed, one row is judged alone now and then.
    pub fn compare(
        &mut self,
        own: &Implementation,
        (job, list): (&Job, &[f64]),
        checked: &Judged<Checked>,
        random: &mut Random,
    ) -> Vec<String> {
        let (to, fits) = outputs(job, random);
        let refused = Err(3);
        let checked = if fits { checked } else { &refused };
        let wanted = checked.as_ref().ok().and_then(|found| model::margins(job, found));
        let mut found = differences(own, (job, list), to, checked, wanted.as_deref());
        if let (Ok(checked), Some(wanted)) = (checked, &wanted) {
            self.add(job, wanted);
            if !wanted.is_empty() && job.rows as usize <= MOST_RULES && random.chance(25) {
                self.alone += 1;
                found.extend(judged_alone(own, (job, list), checked, random.pick(wanted), random));
            }
        }
        found
    }

    fn add(&mut self, job: &Job, list: &[Margin]) {
        let dimension = |margin: &Margin| job.word(margin.0 as usize, DIMENSION);
        let pairs = || list.windows(2).map(|two| (&two[0], &two[1]));
        let same = |(one, other): (&Margin, &Margin)| dimension(one) == dimension(other);
        self.lists += 1;
        self.rows += list.len() as u64;
        self.both += u64::from(!pairs().all(same));
        self.equal += u64::from(pairs().any(|two| same(two) && two.0.1 == two.1.1));
    }

    pub fn print(&self) {
        println!(
            "margins: {} lists of {} rows, {} with both dimensions, {} with equals; {} rows judged alone",
            self.lists, self.rows, self.both, self.equal, self.alone
        );
    }
}

/// What is lent for the answer, one slice now and then shorter or longer by one; and whether all fit.
fn outputs(job: &Job, random: &mut Random) -> (CheckOutputs, bool) {
    let which = if random.below(100) == 0 { random.below(3) } else { 3 };
    let other = random.pick(&[1, -1]);
    let rows = job.rows.min(600) as usize;
    let lent = |place: usize| rows.saturating_add_signed(if place == which { other } else { 0 });
    let to = CheckOutputs {
        rule_numbers: vec![UNTOUCHED_WORD; lent(0)],
        margin_rows: vec![UNTOUCHED_WORD; lent(1)],
        margins: vec![UNTOUCHED; lent(2)],
    };
    let lengths = [to.rule_numbers.len(), to.margin_rows.len(), to.margins.len()];
    (to, lengths == [job.rows as usize; 3])
}

fn differences(
    own: &Implementation,
    (job, list): (&Job, &[f64]),
    mut to: CheckOutputs,
    checked: &Judged<Checked>,
    wanted: Option<&[Margin]>,
) -> Vec<String> {
    let words = model::check_words(checked);
    let given = own.margins(job, &job.rules(), list, &mut to);
    let mut found = Vec::new();
    let mut hold = |same: bool, what: &str| {
        if !same {
            found.push(format!("with its list: {what}"));
        }
    };
    hold(given == words, &format!("{given:x?}, wanted {words:x?}"));
    let rules = checked.as_ref().ok().map(|checked| &checked.rules[..]);
    hold(as_judged(&to.rule_numbers, rules), "rule numbers");
    match wanted {
        Some(wanted) => hold(same_list(&to, wanted), "the list"),
        None => hold(no_list(&to), "a list was written where there is none"),
    }
    hold(own.cleared(), "work memory is not cleared");
    found
}

fn same_list(to: &CheckOutputs, wanted: &[Margin]) -> bool {
    let bits = |number: &f64| number.to_bits();
    to.margin_rows.iter().eq(wanted.iter().map(|(row, _)| row))
        && to.margins.iter().map(bits).eq(wanted.iter().map(|(_, number)| bits(number)))
}

fn no_list(to: &CheckOutputs) -> bool {
    as_judged(&to.margin_rows, None) && untouched(&to.margins)
}

/// "Judging one row alone, the others by their own": by its number it closes, with the same list; by
/// a tolerance from 0 below that, where it is above 0, it opens, and there is no list.
fn judged_alone(
    own: &Implementation,
    (job, list): (&Job, &[f64]),
    checked: &Checked,
    (row, number): Margin,
    random: &mut Random,
) -> Vec<String> {
    let below = [number.next_down(), number * random.unit(), 0.0, -0.0];
    let tolerance = random.pick(&below);
    let mut found = Vec::new();
    for (tolerance, closes) in [(number, true), (tolerance, false)] {
        if !closes && number == 0.0 {
            continue;
        }
        let alone = with_own_rules(job, checked, row, tolerance);
        let lent = || vec![UNTOUCHED_WORD; job.rows as usize];
        let margins = vec![UNTOUCHED; job.rows as usize];
        let mut to = CheckOutputs { rule_numbers: lent(), margin_rows: lent(), margins };
        let [refusal, closed, ..] = own.margins(&alone, &alone.rules(), list, &mut to);
        let wanted = if closes { model::margins(job, checked) } else { None };
        let listed = wanted.map_or_else(|| no_list(&to), |wanted| same_list(&to, &wanted));
        if (refusal, closed) != (0, u64::from(closes)) || !listed {
            found.push(format!("row {row} alone at {tolerance:e}: {refusal}, {closed}"));
        }
    }
    found
}

/// A rule for each row, which has a key of its own: the tolerance that it was judged by, and of one
/// row this one.
fn with_own_rules(job: &Job, checked: &Checked, row: u32, tolerance: f64) -> Job {
    let (given, mut alone, mut rules) = (job.rules(), job.clone(), Rules::default());
    for (key, number) in (0..).zip(&checked.rules) {
        let own = if key == row { tolerance } else { given.tolerances[*number as usize] };
        rules.push(job.word(key as usize, DIMENSION), key, key, own);
        alone.set_word(key as usize, KEY, key);
    }
    alone.rules = Some(rules);
    alone
}
