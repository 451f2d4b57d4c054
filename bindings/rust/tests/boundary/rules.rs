//! Tolerances by kind of joint: 27, 28, and each row judged by its own.

use crate::calls::*;
use crate::jobs::*;
use kapitsa::slices::Work;
use kapitsa::{Dimension, Mode, Refusal, Rules, Verdict, MAX_KEY, MAX_RULES};

fn rules_of(of: Kind) {
    let mut work = Work::default();
    for mode in ALL {
        let plain = outcome(&of(kinds(Rules::two(1e-9, 1e-9))), mode, &mut work);
        expect(plain.solved.is_ok_and(|(flag, ..)| flag), "two rules");
        expect(plain.checked.is_ok_and(|(verdict, _)| verdict == Verdict::Closed), "closed");
        expect(plain.rules == [[0, 0, 1], [0, 0, 1]], "the rule numbers of two rules");
        let aside = three([1e-9; 3]).with(Dimension::Angular, 0, 29, 0.0);
        for rules in [three([1e-9; 3]), aside] {
            let found = outcome(&of(kinds(rules)), mode, &mut work);
            expect(found.rules == [[2, 1, 0], [2, 1, 0]], "a rule a row");
            expect(found.numbers == plain.numbers, "the bits of two rules");
            let same = found.solved == plain.solved && found.checked == plain.checked;
            expect(same, "the answers of two rules");
        }
        let at_once = outcome(&of(kinds(three([1.0; 3]))), mode, &mut work);
        expect(at_once.solved.is_ok_and(|(flag, count, _)| flag && count == 0), "count 0");
        expect(at_once.rules[0] == [2, 1, 0], "rule numbers at count 0");
        for row in 0..3 {
            let mut tolerances = [1.0; 3];
            tolerances[row] = 1e-9;
            let found = outcome(&of(kinds(three(tolerances))), mode, &mut work);
            expect(found.solved.is_ok_and(|(_, count, _)| count > 0), "steps for one row");
        }
    }
    refused_rules(of, &mut work);
}

/// 27 and 28 by solve and check, in every mode: nothing is written.
fn refused_rules(of: Kind, work: &mut Work) {
    let two = || Rules::two(1e-9, 1e-9);
    let words = |words: [u32; 3]| {
        let mut rules = two();
        rules.words.extend(words);
        rules.tolerances.push(0.5);
        rules
    };
    let odd = |tolerance| two().with(Dimension::Linear, 40, 40, tolerance);
    let again = two().with(Dimension::Angular, 30, 30, 1e-9);
    let linear = Rules::default().with(Dimension::Linear, 0, MAX_KEY, 1e-9);
    for (rules, refusal, what) in [
        (words([0, 41, 40]), Refusal::Rule, "first above last"),
        (words([2, 40, 40]), Refusal::Rule, "dimension 2"),
        (words([1, 40, 256]), Refusal::Rule, "last key 256"),
        (words([0, u32::MAX, u32::MAX]), Refusal::Rule, "the largest keys"),
        (odd(-f64::from_bits(1)), Refusal::Rule, "a tolerance below zero that no row uses"),
        (odd(f64::INFINITY), Refusal::Rule, "an infinite tolerance"),
        (odd(f64::NAN), Refusal::Rule, "a tolerance that is NaN"),
        (again, Refusal::RulesOfRow, "a second rule over a row"),
        (linear, Refusal::RulesOfRow, "no rule for a row"),
        (Rules::default(), Refusal::RulesOfRow, "no rule at all"),
    ] {
        let job = of(kinds(rules.clone()));
        for (mode, (name, control)) in ALL.iter().flat_map(|mode| MODES.map(|two| (mode, two))) {
            let (found, _) = within(control, || outcome(&job, *mode, work));
            let told = (found.solved, found.checked);
            expect(told == (Err(refusal), Err(refusal)), &format!("{what}, {name}"));
            expect(found.rules == [[KEPT; 3], [KEPT; 3]], "rule numbers stay");
            let mut numbers = found.numbers.iter().zip(&job.numbers);
            expect(numbers.all(|(l, r)| *l == r.to_bits()), "multipliers stay");
        }
        let empty = outcome(&of(Job { rules, ..Job::default() }), Mode::Diagonal, work);
        let wanted = if refusal == Refusal::Rule { Some(refusal) } else { None };
        let told = [empty.solved.err(), empty.checked.err()];
        expect(told == [wanted; 2], "27 without rows, and no 28");
    }
    let mut many = two();
    (2..MAX_RULES).for_each(|_| many = many.clone().with(Dimension::Linear, 40, 40, 0.5));
    let most = outcome(&of(kinds(many.clone())), Mode::Diagonal, work);
    expect(most.solved.is_ok() && most.checked.is_ok(), "64 rules");
    let [mut longer, mut shorter] = [two(), two()];
    longer.words.push(0);
    shorter.tolerances.pop();
    for rules in [many.with(Dimension::Linear, 40, 40, 0.5), longer, shorter] {
        let found = outcome(&of(kinds(rules)), Mode::Diagonal, work);
        let told = (found.solved, found.checked);
        expect(told == (Err(Refusal::Length), Err(Refusal::Length)), "3 by the rules' lengths");
        expect(found.rules == [[KEPT; 3], [KEPT; 3]], "rule numbers stay after 3");
    }
}

#[test]
fn rules_of_positions() {
    rules_of(of_positions);
}

#[test]
fn rules_of_velocities() {
    rules_of(of_velocities);
}
