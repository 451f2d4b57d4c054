//! What is counted of the recorded jobs, and how many jobs are enough.

use super::Seen;
use super::slip::{SLIPS, Slip};
use super::speeds::speeds;
use crate::job::Kind;

/// Enough jobs of an item, and of one that takes a large table.
pub const ENOUGH: usize = 10;
const ENOUGH_LARGE: usize = 2;

/// The refusals of each mode's factor and of the recurrence.
const REFUSALS: [(u32, u32); 8] =
    [(1, 10), (2, 11), (1, 12), (2, 12), (1, 13), (2, 13), (1, 16), (2, 16)];

/// The refusals that 27 comes before: a job meets both, and is refused by 27.
const BEHIND_27: [u32; 5] = [5, 6, 7, 8, 9];

/// What document 01's 16 can be of, in the order of a step.
#[rustfmt::skip]
const NOT_FINITE: [&str; 10] = [
    "z", "residual · z", "impulses", "product", "direction · product",
    "alpha", "solution", "residual", "beta", "direction",
];

pub struct Item {
    pub mode: u32,
    pub name: String,
    pub enough: usize,
    /// It is about where the links lie and end up.
    pub centred: bool,
    pub met: Box<dyn Fn(&Seen) -> bool>,
}

#[derive(Default)]
pub struct Items(Vec<Item>);

impl Items {
    pub fn add(
        &mut self,
        mode: u32,
        enough: usize,
        name: &str,
        met: impl Fn(&Seen) -> bool + 'static,
    ) {
        let (name, met) = (name.to_string(), Box::new(met));
        self.0.push(Item { mode, name, enough, centred: false, met });
    }

    /// The items from here on are about centres.
    fn centred(&mut self, from: usize) {
        self.0[from..].iter_mut().for_each(|item| item.centred = true);
    }
}

/// What positions meet, and what velocities do: all but the centres of it, and what is their own.
pub fn items(kind: Kind) -> Vec<Item> {
    let mut items = Items::default();
    for (slip, name, modes) in SLIPS {
        if kind == Kind::Velocity && slip.of_centres() {
            continue;
        }
        let enough = if slip == Slip::CountAfterValues { ENOUGH_LARGE } else { ENOUGH };
        let name = format!("another answer with {name}");
        let from = items.0.len();
        for &mode in modes {
            items.add(mode, enough, &name, move |seen| seen.changed.contains(&slip));
        }
        if slip.of_centres() {
            items.centred(from);
        }
    }
    factors(&mut items);
    for mode in 0..3 {
        for what in NOT_FINITE {
            let name = format!("16, {what} not finite");
            items.add(mode, ENOUGH, &name, move |seen| seen.not_finite == what);
        }
    }
    tolerances(&mut items);
    limits(&mut items, kind);
    let from = items.0.len();
    match kind {
        Kind::Position => {
            centres(&mut items);
            items.centred(from);
        }
        Kind::Velocity => speeds(&mut items),
    }
    items.0
}

/// Pairs, replaced diagonals, blocks and the refusals.
fn factors(items: &mut Items) {
    let beside = |seen: &Seen| seen.pairs.absent > 0 && seen.pairs.zero > 0;
    items.add(1, ENOUGH, "an absent pair beside a stored zero", beside);
    items.add(1, ENOUGH, "two rows that share two bodies", |seen| seen.pairs.twice > 0);
    for mode in 0..3 {
        items.add(mode, ENOUGH, "a replaced diagonal", |seen| seen.replaced);
    }
    // In mode 2 a replaced row is refused by 13 at the latest.
    for mode in 0..2 {
        let met = |seen: &Seen| seen.replaced && seen.accepted;
        items.add(mode, ENOUGH, "a replaced diagonal, accepted", met);
    }
    for rows in 1..=6 {
        let name = format!("a block of {rows} row{}, accepted", if rows == 1 { "" } else { "s" });
        items.add(2, ENOUGH, &name, move |seen| seen.accepted && seen.blocks.contains(&rows));
    }
    for (mode, refusal) in REFUSALS {
        let enough = if refusal == 10 { ENOUGH_LARGE } else { ENOUGH };
        let name = format!("refused by {refusal}");
        items.add(mode, enough, &name, move |seen| seen.refusal == refusal);
    }
}

/// Refusal 27 by a tolerance: alone, in a job without rows, beside later refusals; what it lets pass.
fn tolerances(items: &mut Items) {
    for mode in 0..3 {
        items.add(mode, ENOUGH, "refused by 27", |seen| seen.refusal == 27);
        let alone = |seen: &Seen| seen.refusal == 27 && seen.rows == 0;
        items.add(mode, 1, "refused by 27, no rows", alone);
        for later in BEHIND_27 {
            let name = format!("refused by 27, else by {later}");
            items.add(mode, 1, &name, move |seen| seen.refusal == 27 && seen.else_by == later);
        }
        let before = |seen: &Seen| seen.refusal == 4 && seen.odd_tolerance;
        items.add(mode, 1, "refused by 4, else by 27", before);
        items.add(mode, 1, "a tolerance of −0.0, not refused", |seen| seen.minus_zero);
    }
}

/// Refusals 6 and 17 by a centre, beside others, without rows and without a centre; what keeps its
/// bits.
fn centres(items: &mut Items) {
    for mode in 0..3 {
        let odd = |seen: &Seen| seen.refusal == 6 && seen.centres.odd;
        items.add(mode, ENOUGH, "refused by 6, by a centre", odd);
        items.add(mode, 1, "refused by 6, by a centre, no rows", move |seen| {
            odd(seen) && seen.rows == 0
        });
        for later in [7, 9] {
            let name = format!("refused by 6, by a centre, else by {later}");
            let met = move |seen: &Seen| odd(seen) && seen.centres.else_by == later;
            items.add(mode, 1, &name, met);
        }
        for earlier in [4, 27, 5] {
            let name = format!("refused by {earlier}, else by 6, by a centre");
            let met = move |seen: &Seen| seen.refusal == earlier && seen.centres.odd;
            items.add(mode, 1, &name, met);
        }
        items.add(mode, ENOUGH, "refused by 17, by a new centre", |seen| seen.centres.turn_back);
        items.add(mode, 1, "refused by 17, by a new centre, all centres +0.0", |seen| {
            seen.centres.turn_back && seen.centres.none
        });
        let kept = |seen: &Seen| seen.centres.minus_zero_kept;
        items.add(mode, 1, "a centre of −0.0 at count 0", kept);
    }
}

/// The most rows, bodies and pairs; of velocities one job each is enough.
fn limits(items: &mut Items, kind: Kind) {
    let enough = if kind == Kind::Position { ENOUGH_LARGE } else { 1 };
    for mode in 0..3 {
        let rows = |seen: &Seen| seen.accepted && seen.rows == 512;
        let bodies = |seen: &Seen| seen.accepted && seen.bodies == 256;
        items.add(mode, enough, "512 rows, accepted", rows);
        items.add(mode, enough, "256 bodies, accepted", bodies);
        let rows = |seen: &Seen| seen.refusal == 3 && seen.rows == 513;
        let bodies = |seen: &Seen| seen.refusal == 3 && seen.bodies == 257;
        items.add(mode, 1, "513 rows, refused by 3", rows);
        items.add(mode, 1, "257 bodies, refused by 3", bodies);
    }
    let most = |seen: &Seen| seen.accepted && seen.pairs.stored == 16_384;
    let over = |seen: &Seen| seen.refusal == 10 && seen.pairs.stored == 16_385;
    items.add(1, enough, "16,384 pairs, accepted", most);
    items.add(1, enough, "16,385 pairs, refused by 10", over);
}
