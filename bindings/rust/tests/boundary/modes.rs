//! Floating-point modes: FTZ and DAZ, the four roundings, unmasked exceptions.

use crate::calls::*;
use crate::jobs::*;
use kapitsa::slices::Work;
use kapitsa::{Refusal, Verdict};

/// Document 01's P1, and V1 for velocities, among others.
fn floating_point_modes_of(of: Kind) {
    let tiny = of(p1(f64::from_bits(1), 0.0));
    let below_zero = of(p1(0.0, -f64::from_bits(1)));
    let mut work = Work::default();
    for mode in ALL {
        let sheet = of(p1(-0.25, 0.001));
        let grows = if sheet.residuals.is_some() { 25 } else { 24 };
        let found = outcome(&sheet, mode, &mut work);
        expect(found.solved == Ok((true, 1, [0; 2])), "P1");
        expect(found.checked == Ok((Verdict::Closed, P1_GAP)), "P1 is closed");
        expect(found.margins == Some(vec![(0, P1_GAP[0])]), "P1's number");
        expect(found.numbers[grows] == 0.25f64.to_bits(), "P1's multiplier");
        for (exponent, verdict) in [(-47, Verdict::Closed), (-48, Verdict::Open)] {
            let found = outcome(&of(p1(-0.25, 2f64.powi(exponent))), mode, &mut work);
            expect(found.checked == Ok((verdict, P1_GAP)), "closed at 2^-47, open at 2^-48");
            expect(found.margins.is_some() == (exponent == -47), "a list where it is closed");
        }
        let found = outcome(&of(chain()), mode, &mut work);
        expect(found.solved.is_ok_and(|(flag, ..)| flag), "the chain is solved");
        expect(found.checked.is_ok_and(closed), "the chain is closed");
        let found = outcome(&of(p1(-0.25, f64::EPSILON)), mode, &mut work);
        expect(found.checked == Ok((Verdict::Open, P1_GAP)), "P1 is open, its gap the same");
        let mut angular = sheet.clone();
        angular.words[1] = 1;
        let found = outcome(&angular, mode, &mut work);
        let turned = [P1_GAP[1], P1_GAP[0]];
        expect(found.checked == Ok((Verdict::Closed, turned)), "P1 of an angular row");
        let found = outcome(&tiny, mode, &mut work);
        expect(found.solved == Err(Refusal::Residual), "14 for a subnormal error");
        expect(found.checked == Err(Refusal::Range), "18 for a subnormal error");
        let found = outcome(&below_zero, mode, &mut work);
        expect(found.solved == Err(Refusal::Rule), "27 for a tolerance below zero");
        expect(found.checked == Err(Refusal::Rule), "27 by the check too");
        for job in [sheet, of(chain()), tiny.clone(), below_zero.clone()] {
            let wanted = outcome(&job, mode, &mut work);
            for (name, control) in MODES {
                let (found, after) = within(control, || outcome(&job, mode, &mut work));
                expect(found == wanted, &format!("{mode:?}, {name}: the same bits"));
                expect(after == control, &format!("{mode:?}, {name}: the mode is left"));
            }
        }
    }
}

#[test]
fn floating_point_modes_of_positions() {
    floating_point_modes_of(of_positions);
}

#[test]
fn floating_point_modes_of_velocities() {
    floating_point_modes_of(of_velocities);
}
