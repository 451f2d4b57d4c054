//! No state is shared: eight threads call everything at once, and every answer is that of a call alone.

use kapitsa::*;
use std::thread;

const THREADS: usize = 8;
const ROUNDS: usize = 20;

/// A chain of so many ball joints that hangs on a frame, and gapes.
fn chain(joints: usize) -> Table {
    let mut table = Table::new();
    let mut last = table.add_body(Body::fixed());
    for i in 0..joints {
        let inertia =
            [0.1, 0.01, 0.0, 0.01, 0.2, 0.0, 0.0, 0.0, 0.3].map(|n| n * (1 + i % 3) as f64);
        let mass = Body::new(0.5 + i as f64 / 7.0, &inertia).expect("it has an inverse");
        let next = table.add_body(mass.at([0.1 * i as f64, 0.0, 0.0]));
        let gap = [1e-4, -3e-4, 2e-4].map(|gap| gap * (1 + i % 5) as f64);
        table.add_joint(Joint::between(last, next).ball(
            [0.05, 0.01, 0.0],
            [-0.05, 0.0, 0.02],
            gap,
        ));
        last = next;
    }
    table
}

/// All that the calls give of a table, as text: it tells every bit of a number apart, -0.0 too.
fn all_answers(joints: usize, mode: Mode) -> String {
    let table = chain(joints);
    let residuals: Vec<f64> = (0..table.rows()).map(|row| 0.01 * (row % 7) as f64 - 0.02).collect();
    let mut solver = Solver::new(Rules::two(1e-9, 1e-9)).mode(mode).limit(6);
    let [mut solved, mut moved, mut grouped, mut kept] = [(); 4].map(|()| table.clone());
    let answer = solver.solve(&mut solved).expect("solved");
    let checked = solver.check(&table, &answer.solution).expect("checked");
    let speeds = solver.solve_velocity(&mut moved, &residuals).expect("solved");
    let fits = solver.check_velocity(&table, &residuals, &speeds.solution).expect("checked");
    let groups = solver.solve_groups(&mut grouped).expect("solved");
    let more = solver.solve_velocity_groups(&mut grouped, &residuals).expect("solved");
    let mut proposal = solver.propose(&kept).expect("proposed");
    proposal.commit(&mut kept).expect("committed");
    assert_eq!(kept, solved, "what is committed is what a solve leaves");
    let answers = (answer, checked, speeds, fits, groups, more, proposal);
    format!("{answers:?} {solved:?} {moved:?} {grouped:?}")
}

const CALLS: [(usize, Mode); 6] = [
    (2, Mode::Diagonal),
    (2, Mode::IncompleteCholesky),
    (2, Mode::BlockJacobi),
    (12, Mode::Diagonal),
    (12, Mode::IncompleteCholesky),
    (12, Mode::BlockJacobi),
];

#[test]
fn eight_at_once() {
    let alone = CALLS.map(|(joints, mode)| all_answers(joints, mode));
    thread::scope(|scope| {
        for first in 0..THREADS {
            let alone = &alone;
            // The default stack of a thread, 2 MiB, is enough for the solve by groups.
            scope.spawn(move || {
                for call in (0..ROUNDS * CALLS.len()).map(|i| (i + first) % CALLS.len()) {
                    let (joints, mode) = CALLS[call];
                    assert!(all_answers(joints, mode) == alone[call], "{joints} joints, {mode:?}");
                }
            });
        }
    });
}

/// What is made on one thread may be used on another.
#[test]
fn sent_and_shared() {
    fn of<T: Send + Sync>() {}
    of::<(Table, Solver, Proposal, Rules, slices::Work)>();
    let mut solver = Solver::new(Rules::two(1e-9, 1e-9));
    let mut table = chain(2);
    let wanted = solver.clone().solve(&mut table.clone()).expect("solved");
    let found = thread::spawn(move || solver.solve(&mut table)).join().expect("ended");
    assert_eq!(found, Ok(wanted));
}

/// A megabyte of stack is enough.
#[test]
fn stack_of_a_thread() {
    let wanted = all_answers(2, Mode::IncompleteCholesky);
    let thread = thread::Builder::new().stack_size(1 << 20);
    let found = thread.spawn(|| all_answers(2, Mode::IncompleteCholesky)).expect("started").join();
    assert!(found.expect("ended") == wanted);
}
