//! Propose, look, then commit.

use crate::calls::*;
use crate::jobs::*;
use kapitsa::slices::{propose_position, Tables, Work};
use kapitsa::{Mode, Proposal, Refusal};

/// A proposal of a job, whose rows it only reads.
fn proposed(job: &Job, mode: Mode, work: &mut Work) -> Result<Proposal, Refusal> {
    let Job { words, masses, centres, .. } = job;
    let tables = Tables { words, masses, centres };
    propose_position(&job.numbers, &tables, &job.settings(mode), work)
}

/// A commit that is turned back so, and writes nothing.
fn not_committed(from: &mut Proposal, rows: &[f64], told: Refusal, what: &str) {
    let (mut numbers, marked) = (rows.to_vec(), from.is_committed());
    expect(from.commit_numbers(&mut numbers) == Err(told), what);
    expect(bits_of(&numbers) == bits_of(rows), &format!("{what}: nothing is written"));
    expect(from.is_committed() == marked, &format!("{what}: nor marked"));
}

/// A proposal and its commit leave what the solve leaves, in every mode; a second commit is 29.
fn as_the_solve(job: &Job, mode: Mode) {
    let mut work = Work::default();
    let wanted = outcome(job, mode, &mut work);
    for (name, control) in MODES {
        let (found, after) = within(control, || proposed(job, mode, &mut work));
        expect(after == control, &format!("{mode:?}, {name}: the mode is left"));
        let mut found = match (found, &wanted.solved) {
            (Ok(found), Ok(_)) => found,
            (found, told) => {
                let told = told.as_ref().err();
                expect(found.err().as_ref() == told, "refused as the solve");
                continue;
            }
        };
        let mut numbers = job.numbers.clone();
        let answer = found.answer();
        expect(wanted.solved == Ok(answered(answer)), "the answer of the solve");
        let multipliers: Vec<f64> = numbers.chunks(27).map(|row| row[24]).collect();
        expect(bits_of(found.started()) == bits_of(&multipliers), "started");
        let (committed, after) = within(control, || found.commit_numbers(&mut numbers));
        expect(committed == Ok(()) && after == control, "committed");
        let each = found.impulses().into_iter();
        let impulses: Vec<f64> = each.flat_map(|i| [i.linear, i.angular].concat()).collect();
        let left = [&numbers[..], found.solution(), &impulses].concat();
        expect(bits_of(&left) == wanted.numbers, &format!("{mode:?}, {name}: as the solve"));
        expect(
            bits_of(found.new_centres().as_flattened()) == wanted.new_centres,
            "the same centres",
        );
        expect(found.rule_numbers() == wanted.rules[0], "the same rules");
        not_committed(&mut found, &numbers, Refusal::Committed, "a second time");
        not_committed(&mut found, &job.numbers, Refusal::Committed, "29 before 30");
    }
}

#[test]
fn proposals() {
    let mut off = chain();
    off.words[5] = 0;
    let (still, small) = (p1(0.0, 0.001), 2f64.powi(-20));
    for mode in ALL {
        for job in
            [&p1(-0.25, 0.001), &chain(), &worn(0.0), &worn(small), &off, &still, &Job::default()]
        {
            as_the_solve(job, mode);
        }
    }
    let mut work = Work::default();
    let mut job = still;
    job.numbers[24] = -0.0;
    let mut found = proposed(&job, Mode::Diagonal, &mut work).expect("count 0");
    for other in [0.0, f64::from_bits(1), f64::INFINITY, f64::NAN, -f64::NAN] {
        let mut numbers = job.numbers.clone();
        numbers[24] = other;
        not_committed(&mut found, &numbers, Refusal::Moved, "not -0.0 any more");
    }
    job.numbers[15] = f64::NAN; // which a commit does not read
    let committed = found.commit_numbers(&mut job.numbers);
    expect(committed == Ok(()), "committed, whatever else has changed");
    expect(job.numbers[24].to_bits() == (-0.0f64).to_bits(), "count 0 keeps the bits of -0.0");
    let mut job = chain();
    let mut found = proposed(&job, Mode::Diagonal, &mut work).expect("the chain is solved");
    let mut other = proposed(&job, Mode::Diagonal, &mut work).expect("once more");
    for rows in [0, 2, 4] {
        let mut numbers = job.numbers.clone();
        numbers.resize(27 * rows, 0.0);
        not_committed(&mut found, &numbers, Refusal::Moved, "more rows, or fewer");
    }
    for length in [80, 82, 27 * 513] {
        let mut numbers = job.numbers.clone();
        numbers.resize(length, 0.0);
        not_committed(&mut found, &numbers, Refusal::Length, "no such rows");
    }
    expect(found.commit_numbers(&mut job.numbers) == Ok(()), "as it was again");
    not_committed(&mut other, &job.numbers, Refusal::Moved, "another from the same start");
}
