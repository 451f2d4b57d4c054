//! Jobs with a table of rules: drawn as any other, then given one in place of the two tolerances.

use super::doubles::{beside, odd};
use super::{Sizes, job};
use crate::job::*;
use crate::random::Random;

/// What is done to a table that is sound: half of the tables stay as they are.
type Change = fn(&mut Rules, &Job, &mut Random);

const CHANGES: [Change; 12] = [
    odd_rule, odd_rule, odd_rule, once_more, once_more, one_less, one_less, narrowed, unused,
    unused, beyond_64, lengths,
];

/// Job `index` of `seed` as `job` draws it, often with few kinds of keys, and its rules.
pub fn ruled(seed: u64, index: u64) -> Job {
    let mut random = Random::of(seed.rotate_left(32) ^ 0x2b1e, index);
    let mut job = job(seed, index, Sizes::Any);
    under_rules(&mut job, &mut random);
    job
}

/// Gives a job its rules.
pub fn under_rules(job: &mut Job, random: &mut Random) {
    if random.chance(50) {
        few_keys(job, random);
    }
    let mut rules = sound(job, random);
    if random.chance(50) {
        random.pick(&CHANGES)(&mut rules, job, random);
    }
    job.rules = Some(rules);
}

/// Pins, slides and gears: each key that 4 lets pass becomes one of a few.
fn few_keys(job: &mut Job, random: &mut Random) {
    let kinds = [0, 255, random.below(256) as u32, random.below(256) as u32];
    for words in job.words.chunks_exact_mut(ROW_WORDS) {
        if words[KEY] <= MOST_KEY {
            words[KEY] = random.pick(&kinds);
        }
    }
}

/// All keys of both dimensions under one rule each: 2 to 64 rules in any order, with tolerances
/// that agree within a dimension or do not.
fn sound(job: &Job, random: &mut Random) -> Rules {
    let most = random.pick(&[1, 2, 3, 8, 32]);
    let parts = if most == 32 { [32; 2] } else { [(); 2].map(|()| 1 + random.below(most)) };
    let (agree, mut list) = (random.chance(50), Vec::new());
    for dimension in 0..2 {
        let given = job.tolerances[dimension as usize];
        for [first, last] in split(parts[dimension as usize], random) {
            let tolerance = if agree { given } else { other(given, random) };
            list.push(([dimension, first, last], tolerance));
        }
    }
    shuffled(&mut list, random);
    let mut rules = Rules::default();
    list.into_iter()
        .for_each(|([dimension, first, last], by)| rules.push(dimension, first, last, by));
    rules
}

/// 0 to 255 in so many stretches, one after the other.
pub fn split(parts: usize, random: &mut Random) -> Vec<[u32; 2]> {
    let mut starts = vec![0];
    while starts.len() < parts {
        let start = 1 + random.below(255) as u32;
        if !starts.contains(&start) {
            starts.push(start);
        }
    }
    starts.sort_unstable();
    let ends = starts[1..].iter().map(|start| start - 1).chain([MOST_KEY]);
    starts.iter().zip(ends).map(|(first, last)| [*first, last]).collect()
}

fn shuffled<T>(list: &mut [T], random: &mut Random) {
    for at in (1..list.len()).rev() {
        list.swap(at, random.below(at + 1));
    }
}

/// A tolerance beside the given one, far from it, or 0 in either sign.
fn other(given: f64, random: &mut Random) -> f64 {
    match random.below(6) {
        0 => given,
        1 => beside(given, random),
        2 => given * two(random.between(-20, 20)),
        3 => random.unit(),
        4 => random.pick(&[0.0, -0.0, 1e-12, 1e-6, 1e-3]),
        _ => given * 0.5,
    }
}

fn any_rule(rules: &Rules, random: &mut Random) -> usize {
    random.below(rules.tolerances.len())
}

/// Refusal 27, of a rule that rows use or none does; some of the changes 27 lets pass.
fn odd_rule(rules: &mut Rules, job: &Job, random: &mut Random) {
    let mut rule = any_rule(rules, random);
    if random.chance(40) {
        unused(rules, job, random);
        rule = rules.tolerances.len() - 1;
    }
    let many = [2, 255, 256, u32::MAX];
    let [dimension, first, last] = [0, 1, 2].map(|place| RULE_WORDS * rule + place);
    match random.below(5) {
        0 => rules.words[dimension] = random.pick(&many),
        1 => rules.words[first] = rules.words[last].wrapping_add(1),
        2 => rules.words[last] = random.pick(&many),
        3 => rules.words[first] = random.pick(&[0, 255, 256, u32::MAX]),
        _ => rules.tolerances[rule] = odd(random),
    }
}

/// A rule once more, or part of it: 28 where a row lies there.
fn once_more(rules: &mut Rules, _: &Job, random: &mut Random) {
    let rule = any_rule(rules, random);
    let [dimension, first, last] = [0, 1, 2].map(|place| rules.words[RULE_WORDS * rule + place]);
    let tolerance = rules.tolerances[rule];
    let within = first + random.below((last - first + 1) as usize) as u32;
    let (first, last) =
        random.pick(&[(first, last), (within, last), (first, within), (within, within)]);
    rules.push(dimension, first, last, tolerance);
}

/// No rule, or one taken away: 28 where a row lay there.
fn one_less(rules: &mut Rules, _: &Job, random: &mut Random) {
    if random.chance(20) {
        *rules = Rules::default();
        return;
    }
    let rule = any_rule(rules, random);
    rules.words.drain(RULE_WORDS * rule..RULE_WORDS * (rule + 1));
    rules.tolerances.remove(rule);
}

/// Each rule as short as its rows allow, those without rows gone; one perhaps shorter still.
fn narrowed(rules: &mut Rules, job: &Job, random: &mut Random) {
    let mut narrow = Rules::default();
    for ([dimension, first, last], tolerance) in rules.each() {
        let rows = job.words.chunks_exact(ROW_WORDS).filter(|words| words[DIMENSION] == dimension);
        let keys = rows.map(|words| words[KEY]).filter(|key| (first..=last).contains(key));
        let keys: Vec<u32> = keys.collect();
        if let (Some(least), Some(most)) = (keys.iter().min(), keys.iter().max()) {
            narrow.push(dimension, *least, *most, tolerance);
        }
    }
    if !narrow.tolerances.is_empty() && random.chance(40) {
        let rule = any_rule(&narrow, random);
        let [first, last] = [1, 2].map(|place| RULE_WORDS * rule + place);
        if narrow.words[first] < narrow.words[last] {
            narrow.words[first] += random.below(2) as u32;
            narrow.words[last] -= 1;
        }
    }
    *rules = narrow;
}

/// Rules that no row is under, over each other too: the answer is the same without them, but that
/// the Rust is the measure only where they agree with the others.
fn unused(rules: &mut Rules, job: &Job, random: &mut Random) {
    let borne = |dimension: u32, key: u32| {
        let mut rows = job.words.chunks_exact(ROW_WORDS);
        rows.any(|words| words[DIMENSION] == dimension && words[KEY] == key)
    };
    for _ in 0..1 + random.below(4) {
        let (dimension, key) = (random.below(2) as u32, random.below(256) as u32);
        let tolerance = random.pick(&[job.tolerances[dimension as usize], 0.0, 0.25]);
        if rules.tolerances.len() < MOST_RULES && !borne(dimension, key) {
            rules.push(dimension, key, key, tolerance);
        }
    }
}

/// 64 rules or 65, the last ones where no row need be: 3 where there is one too many.
fn beyond_64(rules: &mut Rules, _: &Job, random: &mut Random) {
    let most = MOST_RULES + random.below(2);
    let key = random.below(256) as u32;
    while rules.tolerances.len() < most {
        rules.push(random.below(2) as u32, key, key, 0.5);
    }
}

/// Refusal 3: words and tolerances that do not belong together.
fn lengths(rules: &mut Rules, _: &Job, random: &mut Random) {
    match random.below(4) {
        0 => rules.words.push(0),
        1 => rules.words.truncate(rules.words.len() - 1),
        2 => rules.tolerances.push(0.5),
        _ => rules.tolerances.truncate(rules.tolerances.len() - 1),
    }
}
