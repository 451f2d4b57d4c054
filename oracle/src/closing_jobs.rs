//! Lists of multipliers, and tolerances, for the closing check.

use crate::job::{Job, Kind, ROW_NUMBERS, Solved, two};
use crate::model::{self, Checked};
use crate::random::Random;

/// A job's table with a list, some of them on the edge of a verdict or of refusal 18.
pub fn closing_job(job: &Job, solved: &Solved, random: &mut Random) -> (Job, Vec<f64>) {
    let mut job = job.clone();
    let rows = job.numbers.len() / ROW_NUMBERS;
    let mut list = solved.solution.clone();
    list.resize(rows, 0.0);
    match random.below(8) {
        0 => list.iter_mut().for_each(|value| *value = random.sign() * random.unit()),
        1 if rows > 0 => list[random.below(rows)] = edge(random),
        2 if rows > 0 => job.numbers[random.below(ROW_NUMBERS * rows)] = edge(random),
        3 if !job.masses.is_empty() => {
            let at = random.below(job.masses.len());
            job.masses[at] = edge(random);
        }
        4 | 5 => at_reach(&mut job, &list, random),
        6 if random.chance(20) => list.push(0.0),
        7 if job.kind == Kind::Velocity && !job.residuals.is_empty() => {
            let at = random.below(job.residuals.len());
            job.residuals[at] = edge(random);
        }
        7 if !job.centres.is_empty() && random.chance(40) => {
            let at = random.below(job.centres.len());
            job.centres[at] = edge(random);
        }
        _ => {}
    }
    (job, list)
}

/// 2^-150, 2^150, one unit beside them, and what has no size.
fn edge(random: &mut Random) -> f64 {
    let (low, high) = (two(-150), two(150));
    let sizes = [low, low.next_down(), low.next_up(), high, high.next_down(), high.next_up()];
    let odd = [-0.0, f64::NAN, f64::INFINITY, f64::MIN_POSITIVE];
    if random.chance(80) { random.sign() * random.pick(&sizes) } else { random.pick(&odd) }
}

/// Both tolerances at the largest reach, or one unit below it; where there are rules, each at the
/// largest reach of its own rows, and one of them perhaps a unit below.
fn at_reach(job: &mut Job, list: &[f64], random: &mut Random) {
    let Ok(Checked { gap: [linear, angular], rules: numbers, measured, .. }) =
        model::closing_check(job, list)
    else {
        return;
    };
    let Some(rules) = &mut job.rules else {
        let largest = linear.max(angular);
        let tolerance = if random.chance(50) { largest } else { largest.next_down() };
        job.tolerances = [tolerance; 2];
        return;
    };
    rules.tolerances.fill(0.0);
    for (number, found) in numbers.iter().zip(&measured) {
        let tolerance = &mut rules.tolerances[*number as usize];
        *tolerance = tolerance.max(found.reach());
    }
    if !numbers.is_empty() && random.chance(50) {
        let tolerance = &mut rules.tolerances[random.pick(&numbers) as usize];
        *tolerance = if *tolerance > 0.0 { tolerance.next_down() } else { *tolerance };
    }
}
