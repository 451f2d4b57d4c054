//! Bodies, rows and joints: what a table makes of them, and what solver and check give back.

use kapitsa::slices::{solve_position, Delivered, Tables, Work};
use kapitsa::*;

const X: [f64; 3] = [1.0, 0.0, 0.0];

/// Document 01's P1, its bodies at 1 and 2 m.
fn p1() -> Table {
    let mut table = Table::new();
    let [a, b] = [1.0, 2.0].map(|x| table.add_body(Body::point(2.0).at([x, 0.5, 0.0])));
    table.add_joint(Joint::between(a, b).row(Row::linear(X).error(-0.25)));
    table
}

#[test]
fn layout_of_a_row() {
    let row = Row::linear(X).arms([0.0, 2.0, 0.0], [0.0, 0.0, 3.0]).error(0.5).key(7);
    let row = row.multiplier(1.5).impulse(2.5);
    let mut wanted = [0.0; ROW_NUMBERS];
    (wanted[0], wanted[9]) = (1.0, -1.0);
    wanted[5] = -2.0; // the arm (0, 2, 0) times x
    wanted[13] = -3.0; // the arm (0, 0, 3) times -x
    wanted[15] = 0.5;
    (wanted[20], wanted[21]) = (f64::NEG_INFINITY, f64::INFINITY);
    (wanted[22], wanted[23]) = (f64::NEG_INFINITY, f64::INFINITY);
    (wanted[24], wanted[25]) = (1.5, 2.5);
    assert_eq!(row.numbers(), &wanted);
    let mut table = Table::new();
    let [a, b, c] = [1.0, 2.0, 4.0].map(|mass| table.add_body(Body::point(mass)));
    assert_eq!(table.add_joint(Joint::between(c, a).row(row)), 0..1);
    assert_eq!(table.add_joint(Joint::between(a, b).row(Row::angular(X).key(255))), 1..2);
    assert_eq!(table.tables().words, [7, 0, 2, 0, 0, 1, 0, 0, 255, 1, 0, 1, 0, 1, 1, 0]);
    assert_eq!((table.multiplier(0), table.impulse(0), table.multiplier(1)), (1.5, 2.5, 0.0));
    let turns = &table.numbers()[ROW_NUMBERS..];
    assert_eq!(
        (&turns[0..3], &turns[3..6], &turns[12..15]),
        (&[0.0; 3][..], &X[..], &[-1.0, -0.0, -0.0][..])
    );
}

#[test]
fn bodies() -> Result<(), Refusal> {
    let inertia = [2.0, 1.0, 0.0, 1.0, 2.0, 0.0, 0.0, 0.0, 4.0];
    let body = Body::new(2.0, &inertia)?.at([1.0, 2.0, 3.0]);
    assert_eq!(body.mass_numbers()[0], 0.5);
    assert_eq!(body.mass_numbers()[1..], inverse_spd(&inertia)?);
    let mut table = Table::new();
    let id = table.add_body(body);
    assert_eq!((table.centre(id), id.index(), table.bodies()), ([1.0, 2.0, 3.0], 0, 1));
    assert_eq!(Body::new(2.0, &[0.0; 9]), Err(Refusal::Definite));
    assert_eq!(Body::fixed().mass_numbers(), &[0.0; 10]);
    Ok(())
}

#[test]
fn ball_joint() -> Result<(), Refusal> {
    let mut table = Table::new();
    let inertia = [0.1, 0.0, 0.0, 0.0, 0.2, 0.0, 0.0, 0.0, 0.3];
    let frame = table.add_body(Body::fixed());
    let link = table.add_body(Body::new(0.5, &inertia)?);
    let rows = table.add_joint(Joint::between(frame, link).ball(
        [0.0; 3],
        [0.1, -0.2, 0.3],
        [1e-3, -2e-3, 5e-4],
    ));
    assert_eq!(rows, 0..3);
    for mode in [Mode::Diagonal, Mode::IncompleteCholesky, Mode::BlockJacobi] {
        let mut solver = Solver::new(Rules::two(1e-9, 1e-9)).mode(mode);
        let mut table = table.clone();
        assert!(!solver.check(&table, &[0.0; 3])?.is_closed());
        let solved = solver.solve(&mut table)?;
        assert!(solver.check(&table, &solved.solution)?.is_closed(), "{mode:?}");
        assert_eq!(solved.new_centres[0], [0.0; 3], "the frame stands");
    }
    Ok(())
}

/// The bits of the calls on slices.
#[test]
fn as_on_slices() -> Result<(), Refusal> {
    let (mut table, mut lent) = (p1(), p1());
    let mut solver = Solver::new(Rules::two(1e-6, 1e-6));
    let solved = solver.solve(&mut table)?;
    let (mut solution, mut impulses, mut rule_numbers) = ([9.0; 1], [9.0; 12], [9; 1]);
    let mut new_centres = [9.0; 6];
    let to = Delivered {
        solution: &mut solution,
        impulses: &mut impulses,
        new_centres: &mut new_centres,
        rule_numbers: &mut rule_numbers,
    };
    let (numbers, tables) = lent.split();
    let answer = solve_position(numbers, &tables, solver.settings(), to, &mut Work::default())?;
    assert_eq!(table, lent);
    assert_eq!(solved.answer, answer);
    assert_eq!((solved.solution, solved.rule_numbers), (solution.to_vec(), rule_numbers.to_vec()));
    assert_eq!(solved.new_centres.as_flattened(), new_centres);
    let pressed = solved.impulses.iter().flat_map(|impulse| [impulse.linear, impulse.angular]);
    assert!(pressed.flatten().eq(impulses));
    Ok(())
}

#[test]
fn what_a_check_tells() -> Result<(), Refusal> {
    let mut table = p1();
    let mut solver = Solver::new(Rules::default().with(Dimension::Linear, 0, 255, 1e-6));
    let solved = solver.solve(&mut table)?;
    let closed = solver.check(&table, &solved.solution)?;
    let gap = 17.0 * f64::EPSILON;
    assert_eq!(
        (closed.verdict, closed.gap),
        (Verdict::Closed, ByDimension { linear: gap, angular: 0.0 })
    );
    assert_eq!(closed.margins, Some(vec![Margin { row: 0, gap }]));
    assert_eq!((closed.row_gap(0), closed.row_gap(1)), (Some(gap), None));
    assert_eq!(closed.rule_numbers, [0]);
    solver.settings_mut().rules.tolerances[0] = gap.next_down();
    let open = solver.check(&table, &solved.solution)?;
    assert_eq!((open.verdict, open.gap, &open.margins), (Verdict::Open, closed.gap, &None));
    assert_eq!((open.gaps, open.rule_numbers), (closed.gaps, closed.rule_numbers));
    Ok(())
}

/// Nothing of the table is written, and the next call is none the worse for it.
#[test]
fn after_a_refusal() -> Result<(), Refusal> {
    let mut solver = Solver::new(Rules::two(1e-6, 1e-6)).limit(0);
    let mut table = p1();
    assert_eq!(solver.solve(&mut table).err(), Some(Refusal::Opening));
    assert_eq!(table, p1());
    solver.settings_mut().limit = 4;
    assert_eq!(solver.check(&table, &[]).err(), Some(Refusal::Length));
    assert_eq!(solver.solve_velocity(&mut table, &[f64::NAN]).err(), Some(Refusal::Speed));
    assert_eq!(table, p1());
    assert!(solver.solve(&mut table)?.answer.converged);
    let many = Tables { words: &[0; 8 * 513], masses: &[], centres: &[] };
    let found = slices::propose_position(&[], &many, solver.settings(), &mut Work::default());
    assert_eq!(found.err(), Some(Refusal::Length));
    Ok(())
}

#[test]
fn refused_group() -> Result<(), Refusal> {
    let mut bench = Table::new();
    let frame = bench.add_body(Body::fixed());
    let clocks = [0.5, 0.25].map(|mass| bench.add_body(Body::point(mass).at([mass, 0.0, 0.0])));
    for (clock, times) in clocks.into_iter().zip([1, 2]) {
        let pin = Joint::between(frame, clock).row(Row::linear(X).error(1e-3));
        for _ in 0..times {
            bench.add_joint(pin.clone());
        }
    }
    let scanned = bench.clone();
    let mut solver = Solver::new(Rules::two(1e-9, 1e-9)).mode(Mode::IncompleteCholesky);
    let solved = solver.solve_groups(&mut bench)?;
    assert_eq!(solved.groups[1], Group { rows: vec![1, 2], answer: Err(Refusal::Pivot) });
    assert!(solved.groups[0].answer?.converged);
    assert_eq!(solved.rule_numbers, [Some(0), None, None]);
    assert_eq!((solved.solution[1], solved.impulses[2]), (0.0, Impulse::default()));
    assert_eq!(solved.new_centres[2], scanned.centre(clocks[1]));
    assert_eq!(bench.multiplier(1), 0.0);
    assert_ne!(bench.multiplier(0), 0.0);
    let speeds = solver.solve_velocity_groups(&mut bench, &[0.5; 3])?;
    assert_eq!((speeds.groups.len(), speeds.new_centres.len()), (2, 0));
    assert_ne!(bench.impulse(0), 0.0);
    Ok(())
}

#[test]
fn speeds_of_rows() {
    let mut table = Table::new();
    let [a, b] = [0; 2].map(|_| table.add_body(Body::point(1.0)));
    table.add_joint(Joint::between(a, b).row(Row::linear(X).arms([0.0, 2.0, 0.0], [0.0; 3])));
    table.add_joint(Joint::between(b, a).row(Row::angular([0.0, 0.0, 1.0])));
    let speeds = [[0.5, 9.0, 9.0, 0.0, 0.0, 0.25], [0.125, 0.0, 0.0, 0.0, 0.0, 1.0]];
    assert_eq!(table.row_speed(0, &speeds), 0.5 - 2.0 * 0.25 - 0.125);
    assert_eq!(table.row_speed(1, &speeds), 1.0 - 0.25);
}

#[test]
fn where_it_was_refused() {
    let mut table = p1();
    let frame = table.add_body(Body::fixed());
    table.add_joint(Joint::between(frame, frame).row(Row::linear(X)));
    let mut solver = Solver::new(Rules::two(1e-6, 1e-6));
    let refusal = solver.solve(&mut table).expect_err("a body and itself");
    assert_eq!(refusal, Refusal::Row);
    assert_eq!(solver.first_refused(&table, refusal), Some(Place::Row(1)));
    let refusal = solver.solve_velocity(&mut table, &[0.0, 0.0]).expect_err("of speeds too");
    assert_eq!(solver.first_refused_velocity(&table, &[0.0; 2], refusal), Some(Place::Row(1)));
    let light = table.add_body(Body::point(0.0));
    assert_eq!(solver.solve(&mut table).err(), Some(Refusal::Mass));
    assert_eq!(solver.first_refused(&table, Refusal::Mass), Some(Place::Body(light)));
    assert_eq!(solver.first_refused(&table, Refusal::Pivot), None);
    solver.settings_mut().limit = 0;
    assert_eq!(solver.first_refused(&table, Refusal::Opening), Some(Place::Limit));
    solver.settings_mut().rules.tolerances[1] = -1.0;
    assert_eq!(solver.first_refused(&table, Refusal::Rule), Some(Place::Rule(1)));
}
