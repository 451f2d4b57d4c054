//! Propose, look, then commit (document 02, l): a library's two steps against its own undivided solve, bit
//! for bit, with changes between the steps.

use crate::generator::{Sizes, centred, job, ruled, shifted};
use crate::implementation::{Implementation, Outputs};
use crate::job::{
    CENTRE_NUMBERS, IMPULSE_NUMBERS, Job, Kind, MULTIPLIER, ROW_NUMBERS, Rules, same_bits,
};
use crate::library::Library;
use crate::random::Random;
use std::collections::BTreeMap;
use std::ffi::c_void;

#[rustfmt::skip]
type Propose = unsafe extern "C" fn(
    *const f64, usize, *const u32, usize, *const f64, usize, *const f64, usize,
    *const u32, usize, *const f64, usize, u32, u32, u32, u32, f64,
    *mut u32, usize, *mut f64, usize, *mut f64, usize, *mut f64, usize, *mut f64, usize,
    *mut u32, usize, *mut u64, usize,
);
#[rustfmt::skip]
type Commit = unsafe extern "C" fn(
    *mut f64, usize, u32, *mut u32, usize, *const f64, usize, *const f64, usize, *mut u64, usize,
);

/// Fills lent outputs beforehand: what stays as it was shows.
const UNTOUCHED: f64 = f64::from_bits(0x7ff8_0000_5eed_5eed);
const UNTOUCHED_WORD: u32 = 0x5eed_5eed;

struct Steps {
    propose: Propose,
    commit: Commit,
}

/// What a proposal is lent to write into; rows, flag, count and mark are its words.
#[derive(Clone)]
struct Proposal {
    words: [u32; 4],
    started: Vec<f64>,
    to: Outputs,
}

/// Everything lent, as bits.
fn bits(proposal: &Proposal, numbers: &[f64]) -> Vec<u64> {
    let Outputs { solution, impulses, centres, rule_numbers } = &proposal.to;
    let doubles = [numbers, &proposal.started, solution, impulses, centres].concat();
    let words = proposal.words.iter().chain(rule_numbers).map(|word| u64::from(*word));
    doubles.iter().map(|number| number.to_bits()).chain(words).collect()
}

impl Steps {
    fn open(path: &str) -> Result<Self, String> {
        let library = Library::open(path)?;
        let propose = library.function("oracle_propose_position")?;
        let commit = library.function("oracle_commit_proposal")?;
        Ok(Self {
            propose: unsafe { std::mem::transmute::<*mut c_void, Propose>(propose) },
            commit: unsafe { std::mem::transmute::<*mut c_void, Commit>(commit) },
        })
    }

    #[rustfmt::skip]
    /// Refusal and the bits of both maxima.
    fn propose(&self, job: &Job, rules: &Rules, proposal: &mut Proposal) -> [u64; 3] {
        let mut answer = [u64::MAX; 3];
        let Proposal { words, started, to } = proposal;
        let Outputs { solution, impulses, centres, rule_numbers } = to;
        unsafe {
            (self.propose)(
                job.numbers.as_ptr(), job.numbers.len(),
                job.words.as_ptr(), job.words.len(),
                job.masses.as_ptr(), job.masses.len(),
                job.centres.as_ptr(), job.centres.len(),
                rules.words.as_ptr(), rules.words.len(),
                rules.tolerances.as_ptr(), rules.tolerances.len(),
                job.rows, job.bodies, job.limit, job.mode, job.shift,
                words.as_mut_ptr(), words.len(),
                solution.as_mut_ptr(), solution.len(),
                impulses.as_mut_ptr(), impulses.len(),
                centres.as_mut_ptr(), centres.len(),
                started.as_mut_ptr(), started.len(),
                rule_numbers.as_mut_ptr(), rule_numbers.len(),
                answer.as_mut_ptr(), answer.len(),
            );
        }
        answer
    }

    #[rustfmt::skip]
    fn commit(&self, numbers: &mut [f64], rows: u32, proposal: &mut Proposal) -> u64 {
        let mut answer = [u64::MAX];
        let Proposal { words, started, to } = proposal;
        unsafe {
            (self.commit)(
                numbers.as_mut_ptr(), numbers.len(), rows,
                words.as_mut_ptr(), words.len(),
                to.solution.as_ptr(), to.solution.len(),
                started.as_ptr(), started.len(),
                answer.as_mut_ptr(), answer.len(),
            );
        }
        answer[0]
    }
}

/// Prints each mismatch and the closing line; true where there is none.
pub fn run(library: &str, jobs: u64, seed: u64) -> Result<bool, String> {
    let own = Implementation::open(library, Kind::Position)?;
    let steps = Steps::open(library)?;
    let (mut mismatches, mut told) = (0, BTreeMap::new());
    for index in 0..jobs {
        let any: fn(u64, u64) -> Job = |seed, index| job(seed, index, Sizes::Any);
        let draw = [any, shifted, ruled, centred];
        let job = draw[(index % 4) as usize](seed, index);
        let mut random = Random::of(!seed, index);
        let found = compare(&own, &steps, &job, &mut random, &mut told);
        if !found.is_empty() {
            println!("job {seed}-{index}: {}", found.join("; "));
        }
        mismatches += u64::from(!found.is_empty());
    }
    let counts: Vec<String> = told.iter().map(|(what, count)| format!("{what} {count}")).collect();
    println!("{}", counts.join(", "));
    println!("{jobs} jobs, {mismatches} mismatches");
    Ok(mismatches == 0)
}

fn outputs(job: &Job) -> Outputs {
    let (rows, bodies) = (job.rows.min(600) as usize, job.bodies.min(600) as usize);
    Outputs {
        solution: vec![UNTOUCHED; rows],
        impulses: vec![UNTOUCHED; IMPULSE_NUMBERS * bodies],
        centres: vec![UNTOUCHED; CENTRE_NUMBERS * bodies],
        rule_numbers: vec![UNTOUCHED_WORD; rows],
    }
}

fn compare(
    own: &Implementation,
    steps: &Steps,
    job: &Job,
    random: &mut Random,
    told: &mut BTreeMap<String, u64>,
) -> Vec<String> {
    let (mut whole, mut at_once) = (job.clone(), outputs(job));
    let answer = own.solve(&mut whole, &job.rules(), &mut at_once);
    let started = vec![UNTOUCHED; job.rows.min(600) as usize];
    let mut proposal = Proposal { words: [UNTOUCHED_WORD; 4], started, to: outputs(job) };
    let before = bits(&proposal, &job.numbers);
    let [refusal, maxima @ ..] = steps.propose(job, &job.rules(), &mut proposal);
    let mut found = Vec::new();
    let mut hold = |same: bool, what: &str| {
        if !same {
            found.push(what.to_string());
        }
    };
    hold(own.cleared(), "work memory is not cleared");
    if refusal != 0 {
        *told.entry("refused".to_string()).or_insert(0) += 1;
        hold(answer[0] == refusal, "refused otherwise than the solve");
        hold(bits(&proposal, &job.numbers) == before, "a refused solve makes a proposal");
        return found;
    }
    let [rows, flag, count, mark] = proposal.words;
    hold(answer == [0, count.into(), flag.into(), maxima[0], maxima[1]], "answer");
    hold((rows, mark) == (job.rows, 0), "rows, or a mark");
    hold(same_bits(&proposal.started, &job.accumulated()), "started");
    let same = same_bits(&proposal.to.solution, &at_once.solution)
        && same_bits(&proposal.to.impulses, &at_once.impulses)
        && same_bits(&proposal.to.centres, &at_once.centres)
        && proposal.to.rule_numbers == at_once.rule_numbers;
    hold(same, "what is delivered");
    let mut refused = |numbers: &[f64], rows: u32, proposal: &Proposal, number: u64| {
        let (mut lent, mut given) = (numbers.to_vec(), proposal.clone());
        *told.entry(format!("commit {number}")).or_insert(0) += 1;
        let answered = steps.commit(&mut lent, rows, &mut given);
        answered == number && bits(&given, &lent) == bits(proposal, numbers)
    };
    if rows > 0 {
        let mut changed = job.numbers.clone();
        let at = ROW_NUMBERS * random.below(rows as usize) + MULTIPLIER;
        changed[at] = f64::from_bits(changed[at].to_bits() ^ (1 << random.below(64)));
        hold(refused(&changed, rows, &proposal, 30), "30 for a bit");
        let fewer = &job.numbers[ROW_NUMBERS..];
        hold(refused(fewer, rows - 1, &proposal, 30), "30 for a row less");
        hold(refused(fewer, rows, &proposal, 3), "3 for the numbers");
    }
    if rows < 512 {
        let more = [&job.numbers[..], &[0.0; ROW_NUMBERS]].concat();
        hold(refused(&more, rows + 1, &proposal, 30), "30 for a row more");
    }
    let mut numbers = job.numbers.clone();
    if rows > 0 {
        // What a commit does not look at: it stays as it is.
        let at = ROW_NUMBERS * random.below(rows as usize) + random.pick(&[0, 15, 18, 23, 25, 26]);
        numbers[at] = f64::from_bits(random.next());
        whole.numbers[at] = numbers[at];
    }
    let (kept, words) = (proposal.clone(), [rows, flag, count, 1]);
    hold(steps.commit(&mut numbers, rows, &mut proposal) == 0, "not committed");
    let wanted = Proposal { words, ..kept };
    hold(
        bits(&proposal, &numbers) == bits(&wanted, &whole.numbers),
        "as the undivided solve leaves it",
    );
    hold(refused(&numbers, rows, &proposal, 29), "29 the second time");
    hold(refused(&job.numbers, rows, &proposal, 29), "29 though all is as it was");
    let name = if count == 0 { "committed with count 0" } else { "committed" };
    *told.entry(name.to_string()).or_insert(0) += 1;
    found
}
