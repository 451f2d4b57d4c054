//! Three clocks on one frame, as bindings/c/examples/bench.c has them: a scan of a bench, solved by groups
//! in mode 1. The frame stands, so that it joins nothing, and each clock is a group of its own. The second
//! clock's first pin was scanned twice: as one table the bench is refused for it by 13; by groups that
//! clock alone is, and the other two come out closed.

use kapitsa::{Body, Joint, Mode, Refusal, Row, Rules, Solver, Table};

const CLOCKS: usize = 3;
const PINS: usize = 3;
const TWICE: usize = 1;
/// Of each pin, along x and y.
const GAPS: [[f64; 2]; PINS] = [[3e-4, -2e-4], [5e-4, 1e-4], [-4e-4, 2.5e-4]];

/// A frame and these clocks. Each wheel's pin hangs on the wheel before it, the first on the frame. In the
/// clock that was scanned twice the third pin is the first once more, and the third wheel is in no row.
fn bench(clocks: std::ops::Range<usize>) -> Table {
    let mut table = Table::new();
    let frame = table.add_body(Body::fixed());
    for clock in clocks {
        let wheels = [0, 1, 2].map(|pin| {
            let place = [0.1 * pin as f64, 0.3 * clock as f64, 0.0];
            table.add_body(Body::point(0.25).at(place))
        });
        for (pin, gap) in GAPS.into_iter().enumerate() {
            let hangs = if clock == TWICE && pin == 2 { 0 } else { pin };
            let on = if hangs == 0 { frame } else { wheels[hangs - 1] };
            let [x, y] = gap.map(|gap| gap * (1 + clock) as f64);
            table.add_joint(
                Joint::between(on, wheels[hangs])
                    .row(Row::linear([1.0, 0.0, 0.0]).error(x))
                    .row(Row::linear([0.0, 1.0, 0.0]).error(y)),
            );
        }
    }
    table
}

fn main() -> Result<(), Refusal> {
    let mut solver = Solver::new(Rules::two(1e-9, 1e-9)).mode(Mode::IncompleteCholesky).limit(100);
    let mut table = bench(0..CLOCKS);
    let scanned = table.clone();
    let whole = solver.solve(&mut table).err();
    println!("as one table: {:?}", whole);
    assert_eq!(whole, Some(Refusal::Pivot));
    let solved = solver.solve_groups(&mut table)?;
    println!("by groups: {} groups", solved.groups.len());
    assert_eq!(solved.groups.len(), CLOCKS);
    for (clock, group) in solved.groups.iter().enumerate() {
        let rows = 2 * PINS * clock..2 * PINS * (clock + 1);
        assert!(group.rows.iter().copied().eq(rows.clone()));
        let answer = match group.answer {
            Ok(answer) => answer,
            Err(refusal) => {
                println!("clock {clock}: {refusal}");
                assert_eq!((clock, refusal), (TWICE, Refusal::Pivot));
                assert!(rows.clone().all(|row| table.multiplier(row) == scanned.multiplier(row)));
                continue;
            }
        };
        // A closing check is of one table: the clock by itself, with its own part of the solution.
        let checked = solver.check(&bench(clock..clock + 1), &solved.solution[rows])?;
        let (count, flag) = (answer.iterations, u32::from(answer.converged));
        println!(
            "clock {clock}: count {count}, flag {flag}, {:?}, {:.2e}",
            checked.verdict, checked.gap.linear
        );
        assert!(checked.is_closed());
        for wheel in 1 + PINS * clock..1 + PINS * (clock + 1) {
            let [to, from] = [&solved.new_centres[wheel][..], &table.tables().centres[3 * wheel..]];
            println!("  wheel {wheel} moves by {:.2e}, {:.2e}", to[0] - from[0], to[1] - from[1]);
        }
    }
    assert_eq!(solved.impulses[0], Default::default(), "the frame stands");
    Ok(())
}
