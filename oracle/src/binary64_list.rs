//! Writes the recorded list of `crates/binary64_recorded` to standard output: what Rust's own f64 functions give, as bits.
//! With two words, `PROGRAM COUNT`, it lends that program, `crates/binary64_recorded/out/binary64_recorded`, lists of random patterns instead until there
//! were COUNT of them, and tells how many differ; a differing list ends it with status 1.
//!
//! A record is five little-endian words of 64 bits: the bits of x; the bits of x.sqrt(), or all ones where x is a NaN or
//! negative (refusal 19); the bits of x.abs(); 1 where x is a NaN and 2 where it is finite; and the bits of x.max(y) with y the x of
//! the next record (of the first, after the last). A NaN's bits are written as 7ff8000000000000.
use std::io::Write;
use std::process::{Command, Stdio};

const RECORDS: usize = 4800;
const REFUSED: u64 = u64::MAX;
const NAN: u64 = 0x7ff8_0000_0000_0000;
const DIGITS: u64 = (1 << 52) - 1;

/// splitmix64: the same numbers on every machine.
struct Random(u64);

impl Random {
    fn next(&mut self) -> u64 {
        self.0 = self.0.wrapping_add(0x9e37_79b9_7f4a_7c15);
        let mut z = self.0;
        z = (z ^ (z >> 30)).wrapping_mul(0xbf58_476d_1ce4_e5b9);
        z = (z ^ (z >> 27)).wrapping_mul(0x94d0_49bb_1331_11eb);
        z ^ (z >> 31)
    }
}

fn with_neighbours(list: &mut Vec<u64>, bits: u64) {
    list.extend([bits.wrapping_sub(1), bits, bits.wrapping_add(1)]);
}

/// Zeros, infinities, NaNs, the ends of the subnormal and the normal numbers, and numbers whose roots end or round at a boundary.
fn thresholds(list: &mut Vec<u64>) {
    for sign in [0, 1 << 63] {
        for bits in [0, 1, 2, 3, 4, DIGITS - 1, DIGITS, DIGITS + 1, DIGITS + 2, 0x7fef_ffff_ffff_ffff, 0x7ff0_0000_0000_0000] {
            list.push(sign | bits);
        }
        for bits in [0x7ff0_0000_0000_0001, 0x7ff4_0000_0000_0000, NAN, 0x7ff8_0000_dead_beef, 0x7fff_ffff_ffff_ffff] {
            list.push(sign | bits);
        }
    }
    for value in [0.25, 0.5, 1.0, 2.0, 3.0, 4.0, 9.0, 1e-160, 1e-170, 1e308, f64::MIN_POSITIVE, 2f64.powi(-150), 2f64.powi(150)] {
        with_neighbours(list, value.to_bits());
    }
}

/// Exact squares of numbers of at most 26 digits, at many exponents, with their neighbours.
fn squares(list: &mut Vec<u64>, random: &mut Random) {
    for _ in 0..300 {
        let root = (random.next() >> 38) as f64 * 2f64.powi((random.next() % 400) as i32 - 200);
        with_neighbours(list, (root * root).to_bits());
    }
}

fn inputs() -> Vec<u64> {
    let mut random = Random(754);
    let mut list = Vec::new();
    thresholds(&mut list);
    squares(&mut list, &mut random);
    for exponent in 0..2048 {
        list.push(exponent << 52 | random.next() & DIGITS);
    }
    for _ in 0..500 {
        let shift = random.next() % 52;
        list.push((random.next() & DIGITS) >> shift);
    }
    while list.len() < RECORDS {
        list.push(random.next());
    }
    assert_eq!(list.len(), RECORDS);
    list
}

fn bits(x: f64) -> u64 {
    if x.is_nan() { NAN } else { x.to_bits() }
}

fn record(x: f64, y: f64) -> [u64; 5] {
    let refused = x.is_nan() || x < 0.0;
    let root = if refused { REFUSED } else { bits(x.sqrt()) };
    let class = x.is_nan() as u64 + 2 * x.is_finite() as u64;
    [x.to_bits(), root, bits(x.abs()), class, bits(x.max(y))]
}

fn listed(list: &[u64]) -> Vec<u8> {
    let mut out = Vec::new();
    for (index, &input) in list.iter().enumerate() {
        let next = list[(index + 1) % list.len()];
        for word in record(f64::from_bits(input), f64::from_bits(next)) {
            out.extend(word.to_le_bytes());
        }
    }
    out
}

/// Half of the patterns are any 64 bits, half are above zero: of any bits half are refused.
fn random_inputs(random: &mut Random) -> Vec<u64> {
    (0..RECORDS).map(|index| if index % 2 == 0 { random.next() } else { random.next() % 0x7ff0_0000_0000_0000 }).collect()
}

/// The program's last number: how many records differ.
fn differing(program: &str, list: &[u8]) -> u64 {
    let mut child = Command::new(program).stdin(Stdio::piped()).stdout(Stdio::piped()).spawn().expect("the program starts");
    child.stdin.take().expect("a pipe").write_all(list).expect("the program reads the list");
    let output = child.wait_with_output().expect("the program ends");
    let text = String::from_utf8(output.stdout).expect("the program prints text");
    let lines: Vec<&str> = text.lines().collect();
    assert_eq!(lines[0], format!("{RECORDS} records"));
    lines[2].strip_suffix(" differ").expect("a tally").parse().expect("a number")
}

fn drive(program: &str, count: usize) -> bool {
    let mut random = Random(2);
    let lists = count.div_ceil(RECORDS);
    let differ: u64 = (0..lists).map(|_| differing(program, &listed(&random_inputs(&mut random)))).sum();
    println!("{} patterns, {differ} differ", lists * RECORDS);
    differ == 0
}

fn main() {
    let words: Vec<String> = std::env::args().skip(1).collect();
    if let [program, count] = &words[..] {
        std::process::exit(!drive(program, count.parse().expect("how many patterns")) as i32);
    }
    std::io::stdout().write_all(&listed(&inputs())).expect("the list is written");
}
