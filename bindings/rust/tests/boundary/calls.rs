//! The calls, each in a floating-point mode, and all that they leave.

use crate::jobs::Job;
use kapitsa::slices::{
    closing_check, closing_margins, solve_position, solve_velocity, velocity_closing_check,
    velocity_closing_margins, Delivered, Judged, Tables, VelocityDelivered, VelocityTables, Work,
};
use kapitsa::{Answer, Margin, Mode, Refusal, Verdict};
use std::arch::asm;

/// Rust itself assumes the default mode: in another one nothing is computed here.
pub fn expect(holds: bool, what: &str) {
    assert!(holds, "{what}");
}

pub const DEFAULT: u32 = 0x1f80;

pub const MODES: [(&str, u32); 7] = [
    ("default", DEFAULT),
    ("rounding down", 0x3f80),
    ("rounding up", 0x5f80),
    ("rounding to zero", 0x7f80),
    ("FTZ and DAZ", 0x9fc0),
    ("all flags raised", 0x1fbf),
    ("no exception masked", 0),
];

/// What `call` gives in this mode, and the mode that it leaves.
#[inline(never)]
pub fn within<T>(mode: u32, call: impl FnOnce() -> T) -> (T, u32) {
    let (mut before, mut after) = (0u32, 0u32);
    unsafe {
        asm!("stmxcsr [{}]", "ldmxcsr [{}]", in(reg) &raw mut before, in(reg) &raw const mode);
    }
    let found = call();
    unsafe {
        asm!("stmxcsr [{}]", "ldmxcsr [{}]", in(reg) &raw mut after, in(reg) &raw const before);
    }
    (found, after)
}

pub const KEPT: u32 = 0x5eed;

pub const KEPT_BITS: u64 = 0x5eed_5eed_5eed_5eed;

pub type Solved = Result<(bool, u32, [u64; 2]), Refusal>;

pub type Told = Result<(Verdict, [u64; 2]), Refusal>;

/// Each row of a list, and its number's bits.
pub type List = Option<Vec<(usize, u64)>>;

/// Everything that a solve and the check of its solution leave, doubles as bits; the rule numbers
/// of both, and the new centres, `KEPT` where nothing was written; and the list of margins.
#[derive(Debug, PartialEq)]
pub struct Outcome {
    pub solved: Solved,
    pub checked: Told,
    pub margins: List,
    pub numbers: Vec<u64>,
    pub new_centres: Vec<u64>,
    pub rules: [Vec<u32>; 2],
}

/// What is lent of a job to write into.
pub struct Lent {
    pub numbers: Vec<f64>,
    pub solution: Vec<f64>,
    pub impulses: Vec<f64>,
    pub new_centres: Vec<f64>,
    pub rules: [Vec<u32>; 2],
}

pub fn positions(job: &Job, mode: Mode, to: &mut Lent, work: &mut Work) -> (Solved, Told) {
    let Job { words, masses, centres, rules, .. } = job;
    let tables = Tables { words, masses, centres };
    let delivered = Delivered {
        solution: &mut to.solution,
        impulses: &mut to.impulses,
        new_centres: &mut to.new_centres,
        rule_numbers: &mut to.rules[0],
    };
    let solved = solve_position(&mut to.numbers, &tables, &job.settings(mode), delivered, work);
    let checked = closing_check(&to.numbers, &tables, rules, &to.solution, &mut to.rules[1], work);
    (solved.map(answered), checked.map(told))
}

pub fn velocities(
    job: &Job,
    residuals: &[f64],
    mode: Mode,
    to: &mut Lent,
    work: &mut Work,
) -> (Solved, Told) {
    let Job { words, masses, rules, .. } = job;
    let tables = VelocityTables { words, masses, residuals };
    let delivered = VelocityDelivered {
        solution: &mut to.solution,
        impulses: &mut to.impulses,
        rule_numbers: &mut to.rules[0],
    };
    let solved = solve_velocity(&mut to.numbers, &tables, &job.settings(mode), delivered, work);
    let checked =
        velocity_closing_check(&to.numbers, &tables, rules, &to.solution, &mut to.rules[1], work);
    (solved.map(answered), checked.map(told))
}

/// Flag, count and maxima, as bits.
pub fn answered(answer: Answer) -> (bool, u32, [u64; 2]) {
    let maxima = [answer.residual.linear, answer.residual.angular];
    (answer.converged, answer.iterations, maxima.map(f64::to_bits))
}

/// Verdict and gap, as bits.
fn told(found: Judged) -> (Verdict, [u64; 2]) {
    (found.verdict, [found.gap.linear, found.gap.angular].map(f64::to_bits))
}

/// The check with its list, of a job that has residuals for velocities.
pub fn listed(
    job: &Job,
    multipliers: &[f64],
    numbers: &mut [u32],
    work: &mut Work,
) -> (Told, List) {
    let Job { words, masses, centres, rules, .. } = job;
    let found = match &job.residuals {
        None => {
            let tables = Tables { words, masses, centres };
            closing_margins(&job.numbers, &tables, rules, multipliers, numbers, work)
        }
        Some(residuals) => {
            let tables = VelocityTables { words, masses, residuals };
            velocity_closing_margins(&job.numbers, &tables, rules, multipliers, numbers, work)
        }
    };
    let bits = |margin: Margin| (margin.row, margin.gap.to_bits());
    match found {
        Err(refusal) => (Err(refusal), None),
        Ok((judged, list)) => {
            (Ok(told(judged)), list.map(|list| list.into_iter().map(bits).collect()))
        }
    }
}

/// The list of a check that answered this; with its list it answers the same, rule numbers too.
pub fn list_of(
    job: &Job,
    multipliers: &[f64],
    checked: Told,
    rules: &[u32],
    work: &mut Work,
) -> List {
    let mut numbers = vec![KEPT; rules.len()];
    let (told, list) = listed(job, multipliers, &mut numbers, work);
    assert_eq!(told, checked, "as the check without a list");
    assert_eq!(list.is_some(), checked.is_ok_and(|(verdict, _)| verdict == Verdict::Closed));
    assert_eq!(numbers, rules, "the rule numbers of the check without a list");
    list
}

pub fn outcome(job: &Job, mode: Mode, work: &mut Work) -> Outcome {
    let rows = job.words.len() / 8;
    let bodies = job.masses.len() / 10;
    let mut to = Lent {
        numbers: job.numbers.clone(),
        solution: vec![0.0; rows],
        impulses: vec![0.0; 6 * bodies],
        new_centres: vec![f64::from_bits(KEPT_BITS); 3 * bodies],
        rules: [vec![KEPT; rows], vec![KEPT; rows]],
    };
    let (solved, checked) = match &job.residuals {
        None => positions(job, mode, &mut to, work),
        Some(residuals) => velocities(job, residuals, mode, &mut to, work),
    };
    let Lent { numbers, solution, impulses, new_centres, rules } = to;
    let margins = list_of(job, &solution, checked, &rules[1], work);
    let bits = |list: Vec<f64>| list.iter().map(|number| number.to_bits()).collect();
    let numbers = bits([numbers, solution, impulses].concat());
    Outcome { solved, checked, margins, numbers, new_centres: bits(new_centres), rules }
}

/// The bits of 17 · 2^-52 and of +0.0.
pub const P1_GAP: [u64; 2] = [0x3cf1_0000_0000_0000, 0];

/// Closed, and the linear gap, which is the only one, within 1e-9.
pub fn closed((verdict, [linear, angular]): (Verdict, [u64; 2])) -> bool {
    verdict == Verdict::Closed && linear <= 1e-9f64.to_bits() && angular == 0
}

pub const ALL: [Mode; 3] = [Mode::Diagonal, Mode::IncompleteCholesky, Mode::BlockJacobi];

/// What the solve is refused by, in this mode, and the check: neither writes anything then.
pub fn refused(job: &Job, mode: Mode, told: [Option<Refusal>; 2], what: &str) {
    let mut work = Work::default();
    for (name, control) in MODES {
        let (found, _) = within(control, || outcome(job, mode, &mut work));
        let refusals = [found.solved.err(), found.checked.err()];
        expect(refusals == told, &format!("{what}, {mode:?}, {name}"));
        let mut numbers = found.numbers.iter().zip(&job.numbers);
        expect(numbers.all(|(l, r)| *l == r.to_bits()), "the rows stay");
        let written = &found.numbers[job.numbers.len()..];
        expect(written.iter().all(|bits| *bits == 0), "solution and impulses stay");
        for (refusal, rules) in told.iter().zip(&found.rules) {
            let kept = rules.iter().all(|number| *number == KEPT);
            expect(kept == refusal.is_some(), "rule numbers stay");
        }
    }
}

/// The same in every mode.
pub fn all_refused(job: &Job, told: [Option<Refusal>; 2], what: &str) {
    for mode in ALL {
        refused(job, mode, told, what);
    }
}

pub fn both_refused(job: &Job, refusal: Refusal, what: &str) {
    all_refused(job, [Some(refusal); 2], what);
}

pub fn bits_of(numbers: &[f64]) -> Vec<u64> {
    numbers.iter().map(|number| number.to_bits()).collect()
}
