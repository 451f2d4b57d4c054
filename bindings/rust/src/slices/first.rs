//! Where a solve was turned back.

use super::tables::counts;
use super::{Tables, VelocityTables};
use crate::control::DefaultControl;
use crate::{archive, Place, Refusal, Settings};

/// Of a solve of positions that was refused so, given what it was given: what the refusal is about.
/// `None` where it judges nothing one by one, where nothing fails its test and where a length does not
/// fit.
pub fn first_refused(
    numbers: &[f64],
    tables: &Tables,
    settings: &Settings,
    refusal: Refusal,
) -> Option<Place> {
    found(0, numbers, tables.words, tables.masses, tables.centres, settings, refusal)
}

/// The same of a solve of velocities.
pub fn first_refused_velocity(
    numbers: &[f64],
    tables: &VelocityTables,
    settings: &Settings,
    refusal: Refusal,
) -> Option<Place> {
    found(1, numbers, tables.words, tables.masses, tables.residuals, settings, refusal)
}

#[inline(never)]
fn found(
    velocities: u32,
    numbers: &[f64],
    words: &[u32],
    masses: &[f64],
    beside: &[f64],
    settings: &Settings,
    refusal: Refusal,
) -> Option<Place> {
    let (rows, bodies) = counts(words, masses).ok()?;
    let Settings { rules, limit, .. } = settings;
    let mut place = [0; 2];
    let control = DefaultControl::set();
    // SAFETY: each pointer and length is of one slice, and what is written overlaps no other.
    #[rustfmt::skip]
    let told = unsafe {
        archive::kapitsa_first_refused(
            velocities, refusal.number(), numbers.as_ptr(), numbers.len(), words.as_ptr(), words.len(),
            masses.as_ptr(), masses.len(), beside.as_ptr(), beside.len(),
            rules.words.as_ptr(), rules.words.len(), rules.tolerances.as_ptr(), rules.tolerances.len(),
            rows as u32, bodies as u32, *limit, place.as_mut_ptr(), place.len(),
        )
    };
    drop(control);
    Refusal::judge(told).ok()?;
    Place::of(place)
}
