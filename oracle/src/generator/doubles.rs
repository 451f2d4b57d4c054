//! Numbers of several kinds.

use crate::job::two;
use crate::random::Random;

#[derive(Clone, Copy, PartialEq)]
pub enum Style {
    /// Small whole numbers: exact sums, exact zeros.
    Whole,
    /// Few significant bits: short to record.
    Short,
    Plain,
    Wide,
    Extreme,
}

impl Style {
    pub const MOSTLY_MILD: [Style; 8] = [
        Style::Whole,
        Style::Short,
        Style::Short,
        Style::Short,
        Style::Plain,
        Style::Plain,
        Style::Wide,
        Style::Extreme,
    ];
}

pub fn double(style: Style, random: &mut Random) -> f64 {
    match style {
        Style::Whole => f64::from(random.between(-3, 3)),
        Style::Short => {
            let eighths = f64::from(random.between(8, 15));
            random.sign() * eighths * two(random.between(-6, 0))
        }
        Style::Plain => random.sign() * random.unit(),
        Style::Wide => scaled(random, 40),
        Style::Extreme => scaled(random, 1022),
    }
}

fn scaled(random: &mut Random, exponents: i32) -> f64 {
    random.sign() * (1.0 + random.unit()) * two(random.between(-exponents, exponents))
}

/// Above zero, for masses.
pub fn positive(style: Style, random: &mut Random) -> f64 {
    let size = double(style, random).abs();
    if size > 0.0 { size } else { 1.0 }
}

pub const ODD: [f64; 18] = [
    0.0,
    -0.0,
    f64::NAN,
    // A signalling NaN with a payload, and a negative one: a NaN is no one pattern.
    f64::from_bits(0x7ff0_0000_0000_0001),
    f64::from_bits(0xfff8_0000_0000_0007),
    f64::INFINITY,
    f64::NEG_INFINITY,
    f64::MAX,
    f64::MIN,
    f64::MIN_POSITIVE,
    -f64::MIN_POSITIVE,
    f64::from_bits(0x000f_ffff_ffff_ffff),
    f64::from_bits(0x0010_0000_0000_0001),
    f64::from_bits(1),
    f64::from_bits(0x8000_0000_0000_0001),
    1e154,
    1e-160,
    -1.0,
];

pub fn odd(random: &mut Random) -> f64 {
    random.pick(&ODD)
}

/// One unit up, one down, or as it is.
pub fn beside(value: f64, random: &mut Random) -> f64 {
    match random.below(3) {
        0 => value.next_up(),
        1 => value.next_down(),
        _ => value,
    }
}
