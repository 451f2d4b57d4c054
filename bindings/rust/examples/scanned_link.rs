//! A scanned link: its mass and its 3 by 3 local inertia become a body; and the inertias that are turned
//! back.

use kapitsa::{Body, Refusal};

const LINK: [f64; 9] = [2.0, 1.0, 0.0, 1.0, 2.0, 0.0, 0.0, 0.0, 4.0];

/// The refusal of the link with one number changed.
fn changed(at: usize, number: f64) -> Option<Refusal> {
    let mut inertia = LINK;
    inertia[at] = number;
    let refusal = Body::new(2.0, &inertia).err();
    refusal.inspect(|refusal| println!("{refusal:#}"))
}

fn main() -> Result<(), Refusal> {
    let body = Body::new(2.0, &LINK)?;
    let mass = body.mass_numbers();
    println!("mass {mass:?}");
    assert_eq!((mass[0], mass[9]), (0.5, 0.25));
    assert!((mass[1] - 2.0 / 3.0).abs() < 1e-15 && (mass[2] + 1.0 / 3.0).abs() < 1e-15);
    assert_eq!(changed(5, f64::NAN), Some(Refusal::Number));
    assert_eq!(changed(3, 1.0 + 1e-12), Some(Refusal::Symmetry));
    assert_eq!(changed(8, 0.0), Some(Refusal::Definite));
    assert_eq!(changed(8, f64::from_bits(2)), Some(Refusal::Value));
    Ok(())
}
