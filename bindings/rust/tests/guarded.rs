//! Nothing outside of what is lent is read or written: each slice lies by itself between two pages that
//! nobody may touch, once right before the one and once right behind the other; a call that strays by one
//! byte ends the test. And lengths that do not fit, up to the largest that can be lent.

use kapitsa::slices::*;
use kapitsa::*;
use std::ffi::{c_int, c_long, c_void};
use std::ptr;
use std::slice;

extern "C" {
    fn mmap(
        at: *mut c_void,
        size: usize,
        protection: c_int,
        flags: c_int,
        file: c_int,
        from: c_long,
    ) -> *mut c_void;
    fn mprotect(at: *mut c_void, size: usize, protection: c_int) -> c_int;
    fn munmap(at: *mut c_void, size: usize) -> c_int;
}

// Linux on x86-64
const PAGE: usize = 4096;
const NOTHING: c_int = 0;
const READ_AND_WRITE: c_int = 3;
const PRIVATE_ANONYMOUS_NORESERVE: c_int = 0x4022;

#[derive(Clone, Copy, Debug, PartialEq)]
enum Place {
    BeforeAGuard,
    BehindAGuard,
}

/// So many numbers between two guard pages, zeros at first, given back when dropped.
struct Guarded<T> {
    mapped: *mut u8,
    size: usize,
    first: *mut T,
    length: usize,
}

impl<T: Copy> Guarded<T> {
    fn new(length: usize, place: Place) -> Self {
        let bytes = length * size_of::<T>();
        let room = bytes.next_multiple_of(PAGE);
        let size = room + 2 * PAGE;
        // SAFETY: new memory of the program's own.
        let mapped =
            unsafe { mmap(ptr::null_mut(), size, NOTHING, PRIVATE_ANONYMOUS_NORESERVE, -1, 0) }
                .cast::<u8>();
        assert_ne!(mapped as isize, -1, "mmap");
        // SAFETY: what lies between the two guards; the pages are whole.
        let opened = unsafe { mprotect(mapped.add(PAGE).cast(), room, READ_AND_WRITE) };
        assert_eq!(opened, 0, "mprotect");
        let from = if place == Place::BeforeAGuard { PAGE + room - bytes } else { PAGE };
        // SAFETY: within what was mapped.
        let first = unsafe { mapped.add(from) }.cast();
        Self { mapped, size, first, length }
    }

    fn from(numbers: &[T], length: usize, place: Place) -> Self {
        let mut to = Self::new(length, place);
        let copied = numbers.len().min(length);
        to.as_mut()[..copied].copy_from_slice(&numbers[..copied]);
        to
    }

    fn as_mut(&mut self) -> &mut [T] {
        // SAFETY: so many numbers, all zeros or written, of this alone.
        unsafe { slice::from_raw_parts_mut(self.first, self.length) }
    }

    fn get(&self) -> &[T] {
        // SAFETY: the same.
        unsafe { slice::from_raw_parts(self.first, self.length) }
    }
}

impl<T> Drop for Guarded<T> {
    fn drop(&mut self) {
        // SAFETY: what `new` mapped, which nobody else has.
        unsafe { munmap(self.mapped.cast(), self.size) };
    }
}

/// What is lent, in the order of `SLICES`.
struct Lent {
    numbers: Guarded<f64>,
    words: Guarded<u32>,
    masses: Guarded<f64>,
    centres: Guarded<f64>,
    residuals: Guarded<f64>,
    multipliers: Guarded<f64>,
    solution: Guarded<f64>,
    impulses: Guarded<f64>,
    new_centres: Guarded<f64>,
    rule_numbers: Guarded<u32>,
}

const SLICES: usize = 10;
const ONLY_NUMBERS: [bool; SLICES] =
    [true, false, false, false, false, false, false, false, false, false];

/// Each slice as long as it should be, and so much more.
fn lengths(table: &Table, more: [isize; SLICES]) -> [usize; SLICES] {
    let (n, b) = (table.rows(), table.bodies());
    let mut lengths = [27 * n, 8 * n, 10 * b, 3 * b, n, n, n, 6 * b, 3 * b, n];
    for (length, more) in lengths.iter_mut().zip(more) {
        *length = length.saturating_add_signed(more);
    }
    lengths
}

fn lend(table: &Table, solution: &[f64], place: Place, more: [isize; SLICES]) -> Lent {
    let residuals = residuals(table);
    let Tables { words, masses, centres } = table.tables();
    let l = lengths(table, more);
    Lent {
        numbers: Guarded::from(table.numbers(), l[0], place),
        words: Guarded::from(words, l[1], place),
        masses: Guarded::from(masses, l[2], place),
        centres: Guarded::from(centres, l[3], place),
        residuals: Guarded::from(&residuals, l[4], place),
        multipliers: Guarded::from(solution, l[5], place),
        solution: Guarded::new(l[6], place),
        impulses: Guarded::new(l[7], place),
        new_centres: Guarded::new(l[8], place),
        rule_numbers: Guarded::new(l[9], place),
    }
}

fn residuals(table: &Table) -> Vec<f64> {
    (0..table.rows()).map(|row| 0.001 * (row % 7) as f64).collect()
}

impl Lent {
    fn tables(&self) -> Tables<'_> {
        Tables { words: self.words.get(), masses: self.masses.get(), centres: self.centres.get() }
    }

    fn velocity_tables(&self) -> VelocityTables<'_> {
        let (words, masses) = (self.words.get(), self.masses.get());
        VelocityTables { words, masses, residuals: self.residuals.get() }
    }

    /// All bits of it.
    fn bits(&self) -> Vec<u64> {
        let doubles = [&self.numbers, &self.solution, &self.impulses, &self.new_centres];
        let doubles = doubles.into_iter().flat_map(|list| list.get().iter().map(|n| n.to_bits()));
        doubles.chain(self.rule_numbers.get().iter().map(|number| u64::from(*number))).collect()
    }
}

/// A call on what is lent, and what it tells as text; and which slices it takes.
struct Call {
    name: &'static str,
    takes: [bool; SLICES],
    call: fn(&mut Lent, &Settings, &mut Work) -> Result<String, Refusal>,
}

fn delivered<'a>(
    [solution, impulses, new_centres]: [&'a mut Guarded<f64>; 3],
    rule_numbers: &'a mut Guarded<u32>,
) -> Delivered<'a> {
    Delivered {
        solution: solution.as_mut(),
        impulses: impulses.as_mut(),
        new_centres: new_centres.as_mut(),
        rule_numbers: rule_numbers.as_mut(),
    }
}

macro_rules! call {
    ($name:literal, $takes:expr, |$lent:ident, $settings:ident, $work:ident| $call:expr) => {
        Call {
            name: $name,
            takes: $takes,
            call: |$lent, $settings, $work| $call.map(|told| format!("{told:?}")),
        }
    };
}

/// The slices of a solve and of a check, of positions and of velocities.
const fn takes(solves: bool, speeds: bool) -> [bool; SLICES] {
    let mut takes = [true; SLICES];
    takes[3] = !speeds;
    takes[4] = speeds;
    takes[5] = !solves;
    takes[6] = solves;
    takes[7] = solves;
    takes[8] = solves && !speeds;
    takes
}

fn calls() -> [Call; 9] {
    const PROPOSES: [bool; SLICES] =
        [true, true, true, true, false, false, false, false, false, false];
    [
        call!("solve_position", takes(true, false), |lent, settings, work| {
            let Lent {
                numbers,
                words,
                masses,
                centres,
                solution,
                impulses,
                new_centres,
                rule_numbers,
                ..
            } = lent;
            let tables =
                Tables { words: words.get(), masses: masses.get(), centres: centres.get() };
            let to = delivered([solution, impulses, new_centres], rule_numbers);
            solve_position(numbers.as_mut(), &tables, settings, to, work)
        }),
        call!("solve_groups", takes(true, false), |lent, settings, _work| {
            let Lent {
                numbers,
                words,
                masses,
                centres,
                solution,
                impulses,
                new_centres,
                rule_numbers,
                ..
            } = lent;
            let tables =
                Tables { words: words.get(), masses: masses.get(), centres: centres.get() };
            let to = delivered([solution, impulses, new_centres], rule_numbers);
            solve_groups(numbers.as_mut(), &tables, settings, to)
        }),
        call!("solve_velocity", takes(true, true), |lent, settings, work| {
            let Lent {
                numbers, words, masses, residuals, solution, impulses, rule_numbers, ..
            } = lent;
            let tables = VelocityTables {
                words: words.get(),
                masses: masses.get(),
                residuals: residuals.get(),
            };
            let (solution, impulses) = (solution.as_mut(), impulses.as_mut());
            let to = VelocityDelivered { solution, impulses, rule_numbers: rule_numbers.as_mut() };
            solve_velocity(numbers.as_mut(), &tables, settings, to, work)
        }),
        call!("solve_velocity_groups", takes(true, true), |lent, settings, _work| {
            let Lent {
                numbers, words, masses, residuals, solution, impulses, rule_numbers, ..
            } = lent;
            let tables = VelocityTables {
                words: words.get(),
                masses: masses.get(),
                residuals: residuals.get(),
            };
            let (solution, impulses) = (solution.as_mut(), impulses.as_mut());
            let to = VelocityDelivered { solution, impulses, rule_numbers: rule_numbers.as_mut() };
            solve_velocity_groups(numbers.as_mut(), &tables, settings, to)
        }),
        call!("propose_position", PROPOSES, |lent, settings, work| {
            propose_position(lent.numbers.get(), &lent.tables(), settings, work)
        }),
        call!("closing_check", takes(false, false), |lent, settings, work| {
            let (numbers, mut rules) = (lent.numbers.get(), vec![0; lent.rule_numbers.get().len()]);
            closing_check(
                numbers,
                &lent.tables(),
                &settings.rules,
                lent.multipliers.get(),
                &mut rules,
                work,
            )
        }),
        call!("closing_margins", takes(false, false), |lent, settings, work| {
            let (numbers, mut rules) = (lent.numbers.get(), vec![0; lent.rule_numbers.get().len()]);
            closing_margins(
                numbers,
                &lent.tables(),
                &settings.rules,
                lent.multipliers.get(),
                &mut rules,
                work,
            )
        }),
        call!("velocity_closing_check", takes(false, true), |lent, settings, work| {
            let (numbers, mut rules) = (lent.numbers.get(), vec![0; lent.rule_numbers.get().len()]);
            let tables = lent.velocity_tables();
            velocity_closing_check(
                numbers,
                &tables,
                &settings.rules,
                lent.multipliers.get(),
                &mut rules,
                work,
            )
        }),
        call!("velocity_closing_margins", takes(false, true), |lent, settings, work| {
            let (numbers, mut rules) = (lent.numbers.get(), vec![0; lent.rule_numbers.get().len()]);
            let tables = lent.velocity_tables();
            velocity_closing_margins(
                numbers,
                &tables,
                &settings.rules,
                lent.multipliers.get(),
                &mut rules,
                work,
            )
        }),
    ]
}

/// A chain of so many joints of three rows, and bodies in no row.
fn chain(joints: usize, bodies: usize) -> Table {
    let mut table = Table::new();
    let all: Vec<BodyId> = (0..bodies)
        .map(|j| {
            table.add_body(Body::point([4.0, 1.0, 1.0][j % 3]).at([0.125 * j as f64, 0.0, 0.0]))
        })
        .collect();
    for i in 0..joints {
        let gap = [0, 1, 2].map(|k| 0.0009765625 * ((3 * i + k) % 7) as f64);
        table.add_joint(Joint::between(all[i], all[i + 1]).ball([0.0; 3], [0.0; 3], gap));
    }
    table
}

fn settings(mode: Mode) -> Settings {
    Settings { limit: 4, mode, ..Settings::new(Rules::two(1e-9, 1e-9)) }
}

const MODES: [Mode; 3] = [Mode::Diagonal, Mode::IncompleteCholesky, Mode::BlockJacobi];

#[test]
fn within_what_is_lent() {
    for (table, mode) in
        [chain(1, 3), chain(170, 256)].iter().flat_map(|table| MODES.map(|mode| (table, mode)))
    {
        let (settings, mut work) = (settings(mode), Work::default());
        let solution =
            Solver::from(settings.clone()).solve(&mut table.clone()).expect("solved").solution;
        for call in calls() {
            let found = [Place::BeforeAGuard, Place::BehindAGuard].map(|place| {
                let mut lent = lend(table, &solution, place, [0; SLICES]);
                let told = (call.call)(&mut lent, &settings, &mut work);
                (told.expect(call.name), lent.bits())
            });
            assert_eq!(found[0], found[1], "{}, {mode:?}", call.name);
        }
    }
}

/// One slice of another length than it should have: none, one less, one more, and as many more as a
/// length of 32 bits would not show.
#[test]
fn other_lengths() {
    let table = chain(1, 3);
    for (mode, call) in MODES.into_iter().flat_map(|mode| calls().map(|call| (mode, call))) {
        for (slice, _) in call.takes.iter().enumerate().filter(|(_, takes)| **takes) {
            for more in [isize::MIN, -1, 1, 1 << 32] {
                let mut lent_more = [0; SLICES];
                lent_more[slice] = more;
                let mut lent = lend(&table, &[0.0; 3], Place::BeforeAGuard, lent_more);
                let before = lent.rule_numbers.get().len();
                let told = (call.call)(&mut lent, &settings(mode), &mut Work::default());
                // of a check for speeds no other length tells of bodies: its rows then name none
                let no_bodies =
                    slice == 2 && more == isize::MIN && call.name.starts_with("velocity_");
                let wanted = if no_bodies { Refusal::Row } else { Refusal::Length };
                assert_eq!(told.err(), Some(wanted), "{}, slice {slice}, {more}", call.name);
                assert!(lent.solution.get().iter().take(3).all(|n| n.to_bits() == 0));
                assert!(before == 0 || lent.rule_numbers.get()[0] == 0);
            }
        }
    }
}

#[test]
fn commits() {
    let mut table = chain(1, 3);
    let mut proposal = Solver::from(settings(Mode::Diagonal)).propose(&table).expect("proposed");
    for more in [isize::MIN, -1, 1, 1 << 32] {
        let mut other = ONLY_NUMBERS.map(isize::from);
        other[0] *= more;
        let mut lent = lend(&table, &[0.0; 3], Place::BeforeAGuard, other);
        let told = proposal.commit_numbers(lent.numbers.as_mut()).expect_err("another length");
        assert_eq!(told, if more == isize::MIN { Refusal::Moved } else { Refusal::Length });
    }
    let mut lent = lend(&table, &[0.0; 3], Place::BehindAGuard, [0; SLICES]);
    proposal.commit_numbers(lent.numbers.as_mut()).expect("committed");
    Solver::from(settings(Mode::Diagonal)).solve(&mut table).expect("solved");
    assert_eq!(lent.numbers.get(), table.numbers());
}
