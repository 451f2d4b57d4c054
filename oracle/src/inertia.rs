//! Document 02 c against the Rust: the recorded matrices that crates/inertia_recorded replays, and
//! drawn ones through the same program.
//!
//! A record is 32 little-endian words of 64 bits, a double as its bits:
//!
//! | words | a matrix | a factor by hand |
//! |---|---|---|
//! | 0 to 8 | its numbers by columns | its three rows |
//! | 9 | by bytes from the lowest: the numbers of factor, solve and inverse (0 where accepted), 0 | 0, that of solve, 0, 1 |
//! | 10 to 16 | where factored: the triangle by rows up to the diagonal, and the scale | word 16: the scale |
//! | 17 to 19 | the right-hand side | the same |
//! | 20 to 22 | where solved: the solution | the same |
//! | 23 to 31 | where inverted: the inverse by columns | |
//!
//! What is not there is 0. Solve is called where the matrix is factored.

mod matrices;
mod plus_zero;

use kapitsa_math::{Cholesky3, CholeskyError, Mat3, Vec3};
use matrices::Case;
use std::collections::BTreeMap;
use std::io::Write;
use std::path::Path;
use std::process::{Command, Stdio};

const LIST: &str = "../crates/inertia_recorded/stdin";
const PRINTED: &str = "../crates/inertia_recorded/stdout";
const WORDS: usize = 32;
const SEED: u64 = 23;
const CANDIDATES: u64 = 200_000;
/// Records that one process is lent.
const LENT: u64 = 20_000;

#[derive(Clone, Copy)]
struct Record {
    words: [u64; WORDS],
    by_hand: bool,
    /// The inverse's number, or of a factor by hand the solve's.
    number: u8,
    /// The solve's number, or the factor's where there is none.
    solve: u8,
    /// A zero of the triangle or the solution has another sign in the port.
    sign: bool,
}

fn number_of(error: CholeskyError) -> u8 {
    match error {
        CholeskyError::NonFiniteInput => 21,
        CholeskyError::NotSymmetric => 22,
        CholeskyError::NotPositiveDefinite => 23,
        CholeskyError::ResultOutOfRange => 12,
    }
}

fn put(words: &mut [u64], values: &[f64]) {
    words.iter_mut().zip(values).for_each(|(word, value)| *word = value.to_bits());
}

fn vector(v: [f64; 3]) -> Vec3 {
    Vec3::new(v[0], v[1], v[2])
}

/// The solve's number; its solution is put into its words.
fn solved(words: &mut [u64; WORDS], factor: Cholesky3, rhs: [f64; 3]) -> u8 {
    match factor.solve(vector(rhs)) {
        Ok(v) => {
            put(&mut words[20..], &[v.x, v.y, v.z]);
            0
        }
        Err(error) => number_of(error),
    }
}

/// What the inverse's three solves give, told apart where `inverse_spd` folds.
fn inverse_number(factor: Cholesky3) -> u8 {
    [Vec3::X, Vec3::Y, Vec3::Z]
        .into_iter()
        .find_map(|unit| factor.solve(unit).err().map(number_of))
        .unwrap_or(0)
}

/// `inverse_spd` itself, whose kind must be that of the number.
fn inverted(words: &mut [u64; WORDS], matrix: Mat3, number: u8) {
    match reference::inverse_spd(matrix) {
        Ok(inverse) => {
            assert_eq!(number, 0, "inverse_spd accepts what factor or solve refuse");
            put(&mut words[23..], &inverse.to_cols_array());
        }
        Err(contact) => assert_eq!(contact, number == 22 || number == 23, "refused by {number}"),
    }
}

fn matrix_record(columns: [f64; 9], rhs: [f64; 3]) -> Record {
    let mut words = [0; WORDS];
    put(&mut words, &columns);
    put(&mut words[17..], &rhs);
    let matrix = Mat3::from_cols_array(columns);
    let (solve, inverse);
    let factor = match matrix.factor_spd() {
        Ok(factor) => {
            let ([a, b, c], scale) = factor.parts();
            assert_eq!([a[1], a[2], b[2]].map(f64::to_bits), [0; 3]);
            put(&mut words[10..], &[a[0], b[0], b[1], c[0], c[1], c[2], scale]);
            solve = solved(&mut words, factor, rhs);
            inverse = inverse_number(factor);
            0
        }
        Err(error) => {
            solve = 0;
            inverse = number_of(error);
            inverse
        }
    };
    inverted(&mut words, matrix, inverse);
    words[9] = u64::from_le_bytes([factor, solve, inverse, 0, 0, 0, 0, 0]);
    let solve = if factor == 0 { solve } else { factor };
    let sign = plus_zero::shows(columns, rhs);
    Record { words, by_hand: false, number: inverse, solve, sign }
}

fn hand_record(rows: [f64; 9], scale: f64, rhs: [f64; 3]) -> Record {
    let mut words = [0; WORDS];
    put(&mut words, &rows);
    put(&mut words[16..], &[scale]);
    put(&mut words[17..], &rhs);
    let lower = [0, 3, 6].map(|at| [rows[at], rows[at + 1], rows[at + 2]]);
    let solve = solved(&mut words, Cholesky3::of_parts(lower, scale), rhs);
    words[9] = u64::from_le_bytes([0, solve, 0, 1, 0, 0, 0, 0]);
    Record { words, by_hand: true, number: solve, solve, sign: false }
}

fn record_of(case: Case) -> Record {
    match case {
        Case::Matrix(columns, rhs) => matrix_record(columns, rhs),
        Case::ByHand(rows, scale, rhs) => hand_record(rows, scale, rhs),
    }
}

/// How many of each are drawn: by hand or not, the inverse's number, the solve's.
fn quota(record: &Record) -> usize {
    match (record.by_hand, record.number, record.solve) {
        (true, 0, _) => 120,
        (true, _, _) => 60,
        (_, 0, 0) => 900,
        (_, 0, _) => 75,
        (_, 12, 0) => 150,
        (_, 12, _) => 75,
        (_, 21, _) => 60,
        (_, 22, _) => 200,
        (_, _, _) => 300,
    }
}

fn list() -> Vec<Record> {
    let mut list: Vec<Record> = matrices::fixed().into_iter().map(record_of).collect();
    let mut drawn = BTreeMap::new();
    for index in 0..CANDIDATES {
        let record = record_of(matrices::drawn(SEED, index));
        let key = (record.by_hand, record.number, record.solve);
        let count = drawn.entry(key).or_insert(0);
        if *count < quota(&record) {
            *count += 1;
            list.push(record);
        }
    }
    for ((by_hand, number, solve), count) in drawn {
        let what = if by_hand { "by hand" } else { "matrix" };
        println!("{what}, {number}, solve {solve}: {count} drawn");
    }
    list
}

fn bytes_of(list: &[Record]) -> Vec<u8> {
    list.iter().flat_map(|record| record.words).flat_map(u64::to_le_bytes).collect()
}

/// What the program must print.
fn counted(list: &[Record]) -> String {
    let matrices = || list.iter().filter(|record| !record.by_hand);
    let of = |number| matrices().filter(|record| record.number == number).count();
    format!(
        "{} matrices\n{} inverted\n{} refused by 21\n{} refused by 22\n{} refused by 23\n\
         {} refused by 12\n{} factors by hand\n\
         {} with a zero of the other sign in the triangle or the solution\n0 differ\n",
        matrices().count(),
        of(0),
        of(21),
        of(22),
        of(23),
        of(12),
        list.len() - matrices().count(),
        list.iter().filter(|record| record.sign).count()
    )
}

pub fn record(home: &Path) -> Result<bool, String> {
    let list = list();
    let printed = counted(&list);
    let write = |name: &str, bytes: &[u8]| {
        std::fs::write(home.join(name), bytes).map_err(|error| format!("{name}: {error}"))
    };
    write(LIST, &bytes_of(&list))?;
    write(PRINTED, printed.as_bytes())?;
    print!("{} bytes; the program prints:\n{printed}", list.len() * WORDS * 8);
    Ok(true)
}

/// docs/DIFFERENCES.md's inputs of document 02 c.
pub fn differences() {
    let identity = [1.0, -0.0, 0.0, -0.0, 1.0, 0.0, 0.0, 0.0, 1.0];
    let rust = Mat3::from_cols_array(identity).factor_spd().expect("it is definite");
    let port = Cholesky3::of_parts(plus_zero::triangle(identity, 1.0), 1.0);
    println!("triangle: the identity with -0.0 at (1, 0) and (0, 1)");
    println!("  Rust:        row 1 is {:?}", rust.parts().0[1]);
    println!("  document 02: row 1 is {:?}", port.parts().0[1]);
    println!("solution: the same, right-hand side (1, -0.0, 0)");
    for (name, factor) in [("Rust:       ", rust), ("document 02:", port)] {
        let v = factor.solve(vector([1.0, -0.0, 0.0])).expect("it is finite");
        println!("  {name} {:?}", [v.x, v.y, v.z]);
    }
    let ones = |at: usize, value: f64| {
        let mut columns = [1.0, 0.0, 0.0, 0.0, 1.0, 0.0, 0.0, 0.0, 1.0];
        columns[at] = value;
        columns
    };
    let folded = [
        ("21", "the identity with a NaN at (0, 0)", ones(0, f64::NAN)),
        ("22", "the identity with 1 at (0, 1)", ones(3, 1.0)),
        ("23", "the identity with 0 at (2, 2)", ones(8, 0.0)),
        ("12", "the identity with 2^-1074 at (2, 2)", ones(8, f64::from_bits(1))),
    ];
    for (number, input, columns) in folded {
        let contact = reference::inverse_spd(Mat3::from_cols_array(columns)).expect_err(number);
        let kind = if contact { "InvalidContact" } else { "ArithmeticOverflow" };
        println!("{number}: {input}\n  Rust:        inverse_spd gives Err({kind})");
        println!("  document 02: refusal {}", matrix_record(columns, [0.0; 3]).number);
    }
}

/// What the program prints of a list.
fn printed(program: &str, list: &[Record]) -> Result<String, String> {
    let mut child = Command::new(program)
        .stdin(Stdio::piped())
        .stdout(Stdio::piped())
        .spawn()
        .map_err(|error| format!("{program}: {error}"))?;
    let mut pipe = child.stdin.take().ok_or("no pipe")?;
    pipe.write_all(&bytes_of(list)).map_err(|error| format!("{program}: {error}"))?;
    drop(pipe);
    let output = child.wait_with_output().map_err(|error| format!("{program}: {error}"))?;
    String::from_utf8(output.stdout).map_err(|_| format!("{program} prints no text"))
}

/// COUNT matrices, and a factor by hand beside every fifth of them.
pub fn drive(program: &str, count: u64, seed: u64) -> Result<bool, String> {
    let mut sums = [0u64; 9];
    let mut names = Vec::new();
    let mut same_counts = true;
    let mut index = 0;
    let mut left = count;
    while left > 0 {
        let mut list = Vec::new();
        while left > 0 && (list.len() as u64) < LENT {
            let record = record_of(matrices::drawn(seed, index));
            index += 1;
            left -= u64::from(!record.by_hand);
            list.push(record);
        }
        let text = printed(program, &list)?;
        same_counts &= text == counted(&list);
        let lines: Vec<(&str, &str)> =
            text.lines().filter_map(|line| line.split_once(' ')).collect();
        for (sum, (number, _)) in sums.iter_mut().zip(&lines) {
            *sum += number.parse::<u64>().map_err(|_| format!("'{number}' is not a number"))?;
        }
        names = lines.iter().map(|(_, name)| name.to_string()).collect();
    }
    sums.iter().zip(&names).for_each(|(sum, name)| println!("{sum} {name}"));
    Ok(same_counts && names.len() == 9 && sums[8] == 0)
}
