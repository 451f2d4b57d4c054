//! Several mechanisms on one bench.

use crate::calls::*;
use crate::jobs::*;
use kapitsa::slices::{
    solve_groups, solve_velocity_groups, Delivered, Tables, VelocityDelivered, VelocityTables,
};
use kapitsa::{Group, Mode, Refusal, Rules, MAX_BODIES, MAX_ROWS};

/// What a solve by groups leaves, doubles as bits: its groups, and all that is lent.
#[derive(Clone, Debug, PartialEq)]
struct Grouped {
    groups: Result<Vec<(Vec<usize>, Solved)>, Refusal>,
    numbers: Vec<u64>,
    solution: Vec<u64>,
    impulses: Vec<u64>,
    new_centres: Vec<u64>,
    rules: Vec<u32>,
}

/// A solve by groups; memory that is lent of another length where `more` says so, each in its place:
/// solution, impulses, new centres, rule numbers.
fn grouped(job: &Job, mode: Mode, more: [isize; 4]) -> Grouped {
    let (rows, bodies) = (job.words.len() / 8, job.masses.len() / 10);
    let lent = |place: usize, length: usize| length.saturating_add_signed(more[place]);
    let kept = |length: usize| vec![f64::from_bits(KEPT_BITS); length];
    let (mut numbers, mut solution) = (job.numbers.clone(), kept(lent(0, rows)));
    let (mut impulses, mut new_centres) = (kept(lent(1, 6 * bodies)), kept(lent(2, 3 * bodies)));
    let mut rule_numbers = vec![KEPT; lent(3, rows)];
    let Job { words, masses, centres, .. } = job;
    let settings = job.settings(mode);
    let (solution_to, impulses_to, rules_to) = (&mut solution, &mut impulses, &mut rule_numbers);
    let found = match &job.residuals {
        None => {
            let to = Delivered {
                solution: solution_to,
                impulses: impulses_to,
                new_centres: &mut new_centres,
                rule_numbers: rules_to,
            };
            solve_groups(&mut numbers, &Tables { words, masses, centres }, &settings, to)
        }
        Some(residuals) => {
            let to = VelocityDelivered {
                solution: solution_to,
                impulses: impulses_to,
                rule_numbers: rules_to,
            };
            let tables = VelocityTables { words, masses, residuals };
            solve_velocity_groups(&mut numbers, &tables, &settings, to)
        }
    };
    let each = |group: Group| (group.rows, group.answer.map(answered));
    let groups = found.map(|found| found.into_iter().map(each).collect());
    Grouped {
        groups,
        numbers: bits_of(&numbers),
        solution: bits_of(&solution),
        impulses: bits_of(&impulses),
        new_centres: bits_of(&new_centres),
        rules: rule_numbers,
    }
}

/// Two chains that hang on one frame, their rows by turns, and a body in no row.
fn two_mechanisms() -> Job {
    let mut job = Job { rules: Rules::two(1e-9, 1e-9), limit: 50, ..Job::default() };
    for (a, b, error) in [(0, 3, 0.25), (1, 0, -0.1), (4, 3, 0.1), (1, 2, 0.3)] {
        let owner = job.words.len() as u32 / 8;
        job.row(a, b, owner, error);
    }
    for inverse in [0.0, 1.0, 0.25, 4.0, 1.0, 1.0] {
        job.mass(inverse, 0.0);
    }
    job
}

/// The rows of each group, of which each is as alone; the bodies of none, and those of each.
fn grouped_well(job: &Job, mode: Mode, wanted: &[&[usize]], what: &str) {
    let found = grouped(job, mode, [0; 4]);
    let groups = found.groups.clone().unwrap_or_default();
    let rows: Vec<&[usize]> = groups.iter().map(|group| &group.0[..]).collect();
    expect(found.groups.is_ok() && rows == wanted, what);
    let still = |body: usize| job.masses[10 * body..10 * body + 10].iter().all(|m| *m == 0.0);
    let of = |row: usize| [2, 3].map(|place| job.words[8 * row + place] as usize);
    let mut in_none: Vec<usize> = (0..job.masses.len() / 10).collect();
    for (rows, answer) in &groups {
        let alone = grouped(&only(job, rows), mode, [0; 4]);
        let own = vec![((0..rows.len()).collect::<Vec<_>>(), *answer)];
        expect(alone.groups == Ok(own), what);
        for (k, row) in rows.iter().enumerate() {
            let same = found.numbers[27 * row..27 * row + 27] == alone.numbers[27 * k..27 * k + 27]
                && (found.solution[*row], found.rules[*row]) == (alone.solution[k], alone.rules[k])
                && (found.rules[*row] == KEPT) == answer.is_err();
            expect(same, what);
            for body in of(*row).into_iter().filter(|body| !still(*body)) {
                in_none.retain(|other| *other != body);
                let six = 6 * body..6 * body + 6;
                let three = 3 * body..3 * body + 3;
                let kept = found.impulses[six.clone()].iter().all(|part| *part == KEPT_BITS);
                let same = found.impulses[six.clone()] == alone.impulses[six]
                    && found.new_centres[three.clone()] == alone.new_centres[three]
                    && kept == answer.is_err();
                expect(same, what);
            }
        }
    }
    for body in in_none {
        let centre = bits_of(&job.centres[3 * body..3 * body + 3]);
        let placed = job.residuals.is_some() || found.new_centres[3 * body..3 * body + 3] == centre;
        expect(found.impulses[6 * body..6 * body + 6] == [0; 6] && placed, what);
    }
}

/// Refused as a whole, and nothing is written.
fn whole_refused(job: &Job, more: [isize; 4], refusal: Refusal, what: &str) {
    for mode in [Mode::Diagonal, Mode::IncompleteCholesky, Mode::BlockJacobi] {
        let found = grouped(job, mode, more);
        let kept = |list: &[u64]| list.iter().all(|number| *number == KEPT_BITS);
        let untouched = found.numbers == bits_of(&job.numbers)
            && [&found.solution, &found.impulses, &found.new_centres].into_iter().all(|l| kept(l))
            && found.rules.iter().all(|rule| *rule == KEPT);
        expect(found.groups == Err(refusal) && untouched, what);
    }
}

fn groups_of(of: Kind) {
    let job = of(two_mechanisms());
    let wanted: [&[usize]; 2] = [&[0, 2], &[1, 3]];
    for mode in [Mode::Diagonal, Mode::IncompleteCholesky, Mode::BlockJacobi] {
        grouped_well(&job, mode, &wanted, "two mechanisms on one frame");
        let found = grouped(&job, mode, [0; 4]);
        for (name, word) in MODES {
            let (again, left) = within(word, || grouped(&job, mode, [0; 4]));
            expect(again == found && left & !0x3f == word & !0x3f, name);
        }
        let mut other = job.clone();
        other.masses[..10].fill(-0.0);
        grouped_well(&other, mode, &wanted, "a frame of -0.0");
        other.masses[9] = f64::from_bits(1);
        grouped_well(&other, mode, &[&[0, 1, 2, 3]], "a frame that moves");
        let mut other = two_mechanisms();
        other.row(1, 2, 4, -0.3);
        let other = of(other);
        grouped_well(&other, mode, &[&[0, 2], &[1, 3, 4]], "rows that contradict");
        let groups = grouped(&other, mode, [0; 4]).groups.unwrap_or_default();
        let pivot = groups.len() == 2 && groups[0].1.is_ok() && groups[1].1 == Err(Refusal::Pivot);
        expect(pivot == (mode == Mode::IncompleteCholesky), "refused by 13 in mode 1");
        let limit_0 = Job { limit: 0, ..job.clone() };
        grouped_well(&limit_0, mode, &wanted, "limit 0: each group is refused by 5");
        grouped_well(&only(&job, &[]), mode, &[], "no rows");
    }
    let mut job = job;
    for place in 0..4 {
        for more in [-1, 1] {
            let mut lent = [0; 4];
            lent[place] = more;
            if place != 2 || job.residuals.is_none() {
                whole_refused(&job, lent, Refusal::Length, "another length");
            }
        }
    }
    // Each refusal, and with it what is judged later.
    job.limit = 0;
    job.numbers[27 + 25] = f64::NAN;
    whole_refused(&job, [0; 4], Refusal::Row, "7");
    if let Some(residuals) = &mut job.residuals {
        residuals[3] = f64::INFINITY;
        whole_refused(&job, [0; 4], Refusal::Speed, "20");
    } else {
        job.centres[17] = f64::INFINITY;
        whole_refused(&job, [0; 4], Refusal::Mass, "6 by a centre");
    }
    job.masses[59] = f64::NAN;
    whole_refused(&job, [0; 4], Refusal::Mass, "6");
    job.rules.words[1] = 1;
    whole_refused(&job, [0; 4], Refusal::RulesOfRow, "28");
    job.rules.tolerances[1] = -1.0;
    whole_refused(&job, [0; 4], Refusal::Rule, "27");
    job.words[8] = 256;
    whole_refused(&job, [0; 4], Refusal::Word, "4");
    job.shift = f64::NAN;
    whole_refused(&job, [0; 4], Refusal::Shift, "25");
}

/// 512 rows: one chain, and 170 parts on a frame.
fn largest_benches_of(of: Kind) {
    let mut chain = Job { rules: Rules::two(1e-9, 1e-9), limit: 400, ..Job::default() };
    let mut parts = chain.clone();
    for i in 0..MAX_ROWS as u32 {
        let (place, part) = (i / 3, (i / 3).min(169));
        let axis = i as usize % 3;
        for (row, error) in [
            (chain.row(place, place + 1, place, 0.0), 0.001 * f64::from(i % 7)),
            (parts.row(part + 1, 0, part, 0.0), 0.001 * f64::from(part % 7)),
        ] {
            (row[0], row[9]) = (0.0, 0.0);
            (row[axis], row[9 + axis], row[15]) = (1.0, -1.0, error);
        }
    }
    for j in 0..MAX_BODIES {
        let inverse = if j == 0 { 0.0 } else { [0.25, 1.0, 4.0][j % 3] };
        chain.mass(inverse, 0.0);
        parts.mass(inverse, 0.0);
    }
    let all: Vec<usize> = (0..MAX_ROWS).collect();
    let mut each: Vec<&[usize]> = all[..507].chunks(3).collect();
    each.push(&all[507..]);
    for mode in [Mode::Diagonal, Mode::IncompleteCholesky, Mode::BlockJacobi] {
        grouped_well(&of(chain.clone()), mode, &[&all], "512 rows in one group");
        grouped_well(&of(parts.clone()), mode, &each, "512 rows in 170 groups");
    }
}

#[test]
fn groups_of_positions() {
    groups_of(of_positions);
}

#[test]
fn groups_of_velocities() {
    groups_of(of_velocities);
}

#[test]
fn largest_benches_of_positions() {
    largest_benches_of(of_positions);
}

#[test]
fn largest_benches_of_velocities() {
    largest_benches_of(of_velocities);
}
