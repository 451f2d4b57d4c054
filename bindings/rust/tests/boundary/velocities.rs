//! Linkages in motion.

use crate::calls::*;
use crate::jobs::*;
use kapitsa::slices::Work;
use kapitsa::{Dimension, Refusal};

/// The numbers of a job of positions, bit for bit, but that the accumulated impulses grow.
#[test]
fn as_positions() {
    let mut work = Work::default();
    for job in [p1(-0.25, 0.001), chain(), worn(1.0 / 1_048_576.0)] {
        for mode in ALL {
            let places = outcome(&job, mode, &mut work);
            let mut moving = of_velocities(job.clone());
            moving.numbers.chunks_mut(27).for_each(|row| row[24] = 3.5); // accumulated_multiplier
            let found = outcome(&moving, mode, &mut work);
            expect(found.solved.is_ok() && found.solved == places.solved, "solved alike");
            expect(found.checked.is_ok() && found.checked == places.checked, "checked alike");
            expect(found.margins.is_some() && found.margins == places.margins, "one list");
            expect(found.rules == places.rules, "the same rules");
            let rows = job.numbers.len();
            let same = found.numbers[rows..] == places.numbers[rows..];
            expect(same, "solution and impulses alike");
            let mut wanted: Vec<u64> = moving.numbers.iter().map(|n| n.to_bits()).collect();
            for row in 0..rows / 27 {
                wanted[27 * row + 25] = found.numbers[rows + row];
            }
            expect(found.numbers[..rows] == wanted, "accumulated impulses alone");
            let kept = found.new_centres.iter().all(|bits| *bits == KEPT_BITS);
            expect(kept, "no centres");
        }
    }
}

/// P1's row and one more on the same bodies, with these residuals.
fn two_speeds(residuals: [f64; 2], owner: u32) -> Job {
    let mut job = p1(0.0, 0.001);
    job.row(0, 1, owner, 0.0);
    Job { residuals: Some(residuals.to_vec()), ..of_velocities(job) }
}

/// V2 to V4; V1 is P1 above.
#[test]
fn sheets() {
    let mut work = Work::default();
    let mut equal = two_speeds([0.001, -0.001], 0);
    (equal.numbers[25], equal.numbers[27 + 25]) = (-0.0, 0.1); // with count 0 these bits stay
    let mut zeros = two_speeds([0.001, 0.001], 1);
    (zeros.numbers[27], zeros.numbers[27 + 9]) = (0.0, 0.0);
    let mut angular = zeros.clone();
    angular.words[8 + 1] = Dimension::Angular as u32; // its residual becomes 0, and so its maximum
    for (job, refusing, what) in [
        (&equal, 1, "V2, equal rows"),
        (&zeros, 2, "V3, a row of zeros"),
        (&angular, 2, "V3, an angular row of zeros"),
    ] {
        for (number, mode) in ALL.into_iter().enumerate() {
            if number >= refusing {
                refused(job, mode, [Some(Refusal::Pivot), None], what);
                continue;
            }
            let found = outcome(job, mode, &mut work);
            expect(found.solved == Ok((true, 0, [0.001f64.to_bits(), 0])), what);
            let mut numbers = found.numbers.iter().zip(&job.numbers);
            expect(numbers.all(|(l, r)| *l == r.to_bits()), "the rows stay at count 0");
        }
    }
    zeros.residuals = Some(vec![0.001, 0.001f64.next_up()]);
    let immovable = [Some(Refusal::Immovable), None];
    all_refused(&zeros, immovable, "9 for zeros");
    let mut order = of_velocities(chain());
    for number in [0, 3, 9, 13] {
        order.numbers[number] = 0.0;
    }
    all_refused(&order, immovable, "9 alone");
    order.words[8 * 2 + 3] = 7; // body_b
    both_refused(&order, Refusal::Row, "V4, 7 of the last row before 9 of the first");
}

/// 20 and its place, V5.
#[test]
fn odd_residuals() {
    for (row, odd) in [f64::NAN, f64::INFINITY, f64::NEG_INFINITY].into_iter().enumerate() {
        let mut job = of_velocities(chain());
        job.residuals.as_mut().expect("of velocities")[row] = odd;
        both_refused(&job, Refusal::Speed, "20 by a residual");
    }
    let mut job = of_velocities(p1(f64::NAN, 0.001));
    job.numbers[25] = f64::NAN;
    both_refused(&job, Refusal::Speed, "V5, 20 before 7");
    job.masses[13] = f64::NAN;
    both_refused(&job, Refusal::Mass, "V5, 6 before 20");
    job.limit = 0;
    let told = [Some(Refusal::Opening), Some(Refusal::Mass)];
    all_refused(&job, told, "V5, 5 before 20");
    job.words[5] = 2;
    both_refused(&job, Refusal::Word, "4 before 20, by position_enabled too");
    for length in [0, 2] {
        job.residuals = Some(vec![f64::NAN; length]);
        both_refused(&job, Refusal::Length, "3 by the length of residuals");
    }
}

/// The opening test reads the bounds of the impulse, and none of the multiplier.
#[test]
fn opening() {
    let mut work = Work::default();
    let opening = [Some(Refusal::Opening), None];
    let row = [Some(Refusal::Row); 2];
    for (number, value, told) in [
        (18, 1.0, opening),
        (19, 1.0, opening),
        (22, f64::MIN, opening),
        (23, f64::MAX, opening),
        (20, f64::NEG_INFINITY, [None; 2]),
        (21, f64::INFINITY, [None; 2]),
        (20, 1.0, row),
        (21, f64::NAN, row),
        (15, f64::INFINITY, row),
    ] {
        let mut job = of_velocities(chain());
        job.numbers[27 + number] = value;
        if told != [None; 2] {
            all_refused(&job, told, "5 and 7 by a number of a row");
            continue;
        }
        for mode in ALL {
            let found = outcome(&job, mode, &mut work);
            expect(found.checked.is_ok_and(closed), "no bound of the multiplier is read");
        }
    }
}

/// The second row's accumulated impulse is the largest double and gains a unit: 17, and the first
/// row is not written either.
#[test]
fn largest_impulse() {
    let mut job = two_speeds([1.0, 1.0], 1);
    for (number, value) in [(0, 0.0), (1, 1.0), (9, 0.0), (10, -1.0), (25, f64::MAX)] {
        job.numbers[27 + number] = value;
    }
    (job.masses[0], job.masses[10]) = (2f64.powi(-972), 2f64.powi(-972));
    let told = [Some(Refusal::Result), Some(Refusal::Range)];
    all_refused(&job, told, "17 by an accumulated impulse");
    job.residuals = Some(vec![1.0, 0.125]); // an eighth of a unit is rounded away
    for mode in ALL {
        let found = outcome(&job, mode, &mut Work::default());
        expect(found.solved.is_ok_and(|(flag, ..)| flag), "no 17");
        expect(found.numbers[27 + 25] == f64::MAX.to_bits(), "the largest impulse");
    }
}
