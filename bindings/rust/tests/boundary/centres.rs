//! Where each link ends up: of positions alone.

use crate::calls::*;
use crate::jobs::*;
use kapitsa::slices::Work;
use kapitsa::{Mode, Refusal, Rules, Verdict};

/// P1, which moves its bodies by 1/8 along x, the one there and the other back.
#[test]
fn centres() {
    let mut work = Work::default();
    let at = |centres: [f64; 6]| Job { centres: centres.to_vec(), ..p1(-0.25, 0.001) };
    let bits = |centres: [f64; 6]| centres.map(f64::to_bits).to_vec();
    let (far, unit) = (f64::MAX, 0.25); // 2^50 has units of 1/4
    let large = 1_125_899_906_842_624.0; // 2^50
    for (from, to) in [
        ([0.0; 6], [0.125, 0.0, 0.0, -0.125, 0.0, 0.0]),
        ([-0.0; 6], [0.125, 0.0, 0.0, -0.125, 0.0, 0.0]),
        ([-0.125, 1.0, -0.0, 0.125, 0.5, 2.0], [0.0, 1.0, 0.0, 0.0, 0.5, 2.0]),
        ([large, 0.0, 0.0, large + unit, 0.0, 0.0], [large, 0.0, 0.0, large, 0.0, 0.0]),
        ([far, -far, far, -far, far, 0.0], [far, -far, far, -far, far, 0.0]),
    ] {
        for mode in ALL {
            let found = outcome(&at(from), mode, &mut work);
            expect(found.new_centres == bits(to), "where P1's bodies end up");
            expect(found.checked == Ok((Verdict::Closed, P1_GAP)), "the same check");
            for (name, control) in MODES {
                let (again, _) = within(control, || outcome(&at(from), mode, &mut work));
                expect(again == found, &format!("{mode:?}, {name}: the same centres"));
            }
        }
        let met = Job { rules: Rules::two(1.0, 1.0), ..at(from) };
        let found = outcome(&met, Mode::Diagonal, &mut work);
        expect(found.new_centres == bits(from), "centres at count 0");
        let empty = Job { numbers: vec![], words: vec![], ..met };
        let found = outcome(&empty, Mode::Diagonal, &mut work);
        expect(found.new_centres == bits(from), "centres without rows");
    }
    let refused = |job: &Job, refusal, what: &str| {
        for (mode, (name, control)) in ALL.iter().flat_map(|mode| MODES.map(|two| (mode, two))) {
            let mut work = Work::default();
            let (found, _) = within(control, || outcome(job, *mode, &mut work));
            expect(found.solved == Err(refusal), &format!("{what}, {name}"));
            let kept = found.new_centres.iter().all(|bits| *bits == KEPT_BITS);
            expect(kept, "new centres stay after a refusal");
            let mut numbers = found.numbers.iter().zip(&job.numbers);
            expect(numbers.all(|(l, r)| *l == r.to_bits()), "multipliers stay");
        }
    };
    for (place, odd) in [f64::NAN, f64::INFINITY, f64::NEG_INFINITY].repeat(2).iter().enumerate() {
        let mut job = at([0.5; 6]);
        job.centres[place] = *odd;
        refused(&job, Refusal::Mass, "6 by a centre");
        let found = outcome(&job, Mode::Diagonal, &mut work);
        expect(found.checked == Err(Refusal::Mass), "6 by a centre, the check");
    }
    let half = 2f64.powi(970); // half a unit of the largest double
    let mut beyond = p1(-2.0 * half, 0.001);
    (beyond.masses[0], beyond.masses[10]) = (2f64.powi(960), 2f64.powi(960));
    beyond.centres = vec![f64::MAX, 0.0, 0.0, 0.0, 0.0, 0.0];
    refused(&beyond, Refusal::Result, "17 by a new centre");
    beyond.numbers[15] = -(2.0 * half).next_down();
    let found = outcome(&beyond, Mode::Diagonal, &mut work);
    expect(found.new_centres[0] == f64::MAX.to_bits(), "a unit less, and no 17");
    for length in [0, 5, 7] {
        let job = Job { centres: vec![0.0; length], ..at([0.0; 6]) };
        refused(&job, Refusal::Length, "3 by the length of centres");
    }
}
