//! Shifts of mode 1, and 25 of every mode.

use crate::calls::*;
use crate::jobs::*;
use kapitsa::slices::Work;
use kapitsa::{Mode, Refusal};

fn shifts_of(of: Kind) {
    let mut work = Work::default();
    let cholesky = Mode::IncompleteCholesky;
    for shift in [0.0, -0.0] {
        let found = outcome(&of(worn(shift)), cholesky, &mut work);
        expect(found.solved == Err(Refusal::Pivot), "13 for near-equal rows");
    }
    let found = outcome(&of(worn(1.0 / 1_048_576.0)), cholesky, &mut work); // 2^-20
    expect(found.solved.is_ok_and(|(flag, ..)| flag), "near-equal rows with a shift");
    expect(found.checked.is_ok_and(closed), "near-equal rows are closed");
    for mode in ALL {
        let plain = outcome(&of(chain()), mode, &mut work);
        for shift in [-0.0, 0.5, 1.0] {
            let found = outcome(&of(Job { shift, ..chain() }), mode, &mut work);
            let same = mode != cholesky || shift == 0.0;
            expect((found == plain) == same, "the bits of shift 0 but in mode 1");
        }
        let above = 1.0 + f64::EPSILON;
        let below = -f64::from_bits(1);
        for shift in [above, below, -1.0, f64::INFINITY, f64::NEG_INFINITY, f64::NAN] {
            for job in [chain(), Job::default()] {
                let job = of(Job { shift, ..job });
                for (name, control) in MODES {
                    let (found, _) = within(control, || outcome(&job, mode, &mut work));
                    expect(found.solved == Err(Refusal::Shift), &format!("25, {name}"));
                    let mut numbers = found.numbers.iter().zip(&job.numbers);
                    let kept = numbers.all(|(left, right)| *left == right.to_bits());
                    expect(kept, "multipliers stay after 25");
                }
            }
        }
    }
}

#[test]
fn shifts_of_positions() {
    shifts_of(of_positions);
}

#[test]
fn shifts_of_velocities() {
    shifts_of(of_velocities);
}
