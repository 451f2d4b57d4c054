//! Velocity jobs (document 02, a) on the reference and the model.

use crate::generator::{self, Sizes};
use crate::job::Answer;
use crate::judge::judge;
use crate::model;
use crate::tally;

/// Outcomes of generated velocity jobs by mode, the reference held to the model on each.
pub fn tally(jobs: u64, seed: u64) -> bool {
    tally::run(jobs, seed, |seed, index| generator::moving(seed, index, Sizes::Any))
}

/// V1 to V5 in each mode, held to what is said of them; V1's check at 2^-47 and 2^-48.
pub fn sheets() -> bool {
    let mut good = true;
    for sheet in generator::sheets() {
        let judged = judge(&sheet.job);
        let words = judged.solved.answer.words();
        let same = words[..3] == sheet.says && judged.dispute.is_none();
        let told = match judged.solved.answer {
            Answer::Refused(number) => format!("refused by {number}"),
            Answer::Accepted { count, flag, .. } => {
                let list = judged.solved.accumulated;
                format!("count {count}, flag {}, accumulated {list:?}", u32::from(flag))
            }
        };
        let by = if judged.compared { "the Rust" } else { "the definition" };
        let differs = if same { "" } else { " DIFFERS" };
        println!("{}, mode {}: {told}, by {by}{differs}", sheet.name, sheet.job.mode);
        good &= same;
    }
    for (exponent, closed) in [(-47, true), (-48, false)] {
        let found = model::closing_check(&generator::v1(crate::job::two(exponent)), &[0.25]);
        let same = found.is_ok_and(|found| found.closed == closed);
        let told = if closed { "closed" } else { "open" };
        let differs = if same { "" } else { " DIFFERS" };
        println!("V1's check at 2^{exponent}: {told}{differs}");
        good &= same;
    }
    good
}
