//! Lengths, empty jobs, the limits and beyond.

use crate::calls::*;
use crate::jobs::*;
use kapitsa::slices::Work;
use kapitsa::{Refusal, Rules, Verdict};

type Tried = (Result<u32, Refusal>, Told);

/// A solve in each mode, its count, and a check over zeros: numbers, words, masses, solution,
/// impulses, new centres or residuals, and rule numbers of these lengths, and three centre numbers
/// a mass.
fn tried(
    [numbers, words, masses, solution, impulses, beside, rules]: [usize; 7],
    shift: f64,
    speeds: bool,
) -> [Tried; 3] {
    let job = Job {
        words: vec![0; words],
        masses: vec![0.0; masses],
        centres: vec![0.0; 3 * (masses / 10)],
        rules: Rules::two(1.0, 1.0),
        shift,
        limit: 1,
        residuals: speeds.then(|| vec![0.0; beside]),
        numbers: vec![0.0; numbers],
    };
    let mut to = Lent {
        numbers: vec![0.0; numbers],
        solution: vec![0.0; solution],
        impulses: vec![0.0; impulses],
        new_centres: vec![0.0; beside],
        rules: [vec![0; rules], vec![0; rules]],
    };
    let mut work = Work::default();
    ALL.map(|mode| {
        let (solved, checked) = match &job.residuals {
            Some(residuals) => velocities(&job, residuals, mode, &mut to, &mut work),
            None => positions(&job, mode, &mut to, &mut work),
        };
        let (told, _) = listed(&job, &to.solution, &mut to.rules[1], &mut work);
        assert_eq!(told, checked, "as the check without a list");
        (solved.map(|(_, count, _)| count), checked)
    })
}

#[test]
fn lengths() {
    let accepted = (Ok(0), Ok((Verdict::Closed, [0; 2])));
    let refused = (Err(Refusal::Length), Err(Refusal::Length));
    let fitting = (Err(Refusal::Opening), Err(Refusal::Row)); // zeros make no row
    for (lengths, wanted, what) in [
        ([0, 0, 0, 0, 0, 0, 0], accepted, "an empty job"),
        ([0, 0, 10 * 256, 0, 6 * 256, 3 * 256, 0], accepted, "256 bodies"),
        ([0, 0, 10 * 257, 0, 6 * 257, 3 * 257, 0], refused, "257 bodies"),
        ([27 * 512, 8 * 512, 2560, 512, 1536, 768, 512], fitting, "512 rows"),
        ([27 * 513, 8 * 513, 2560, 513, 1536, 768, 513], refused, "513 rows"),
        ([26, 8, 20, 1, 12, 6, 1], refused, "numbers too short"),
        ([27, 9, 20, 1, 12, 6, 1], refused, "words too long"),
        ([27, 8, 21, 1, 12, 6, 1], refused, "masses too long"),
        ([27, 8, 20, 0, 12, 6, 1], refused, "solution and multipliers too short"),
        ([27, 8, 20, 1, 12, 6, 0], refused, "rule numbers too short"),
        ([27, 8, 20, 1, 12, 6, 2], refused, "rule numbers too long"),
        ([27, 8, 20, 1, 12, 6, 1], fitting, "one row"),
    ] {
        for speeds in [false, true] {
            let mut lengths = lengths;
            if speeds {
                lengths[5] = lengths[1] / 8; // a residual a row
            }
            expect(tried(lengths, 0.0, speeds) == [wanted; 3], what);
            // 25 is right after 3.
            let solved = if wanted == refused { refused.0 } else { Err(Refusal::Shift) };
            expect(tried(lengths, f64::NAN, speeds) == [(solved, wanted.1); 3], what);
        }
    }
    for shift in [0.0, f64::NAN] {
        for (beside, speeds) in [(6, false), (1, true)] {
            let found = tried([27, 8, 20, 1, 11, beside, 1], shift, speeds)[0].0;
            expect(found == Err(Refusal::Length), "impulses too short");
        }
        for moved in [0, 5, 7] {
            let found = tried([27, 8, 20, 1, 12, moved, 1], shift, false)[0].0;
            expect(found == Err(Refusal::Length), "new centres of another length");
        }
        for residuals in [0, 2, 6] {
            let found = tried([27, 8, 20, 1, 12, residuals, 1], shift, true);
            expect(found == [refused; 3], "residuals of another length");
        }
    }
}
