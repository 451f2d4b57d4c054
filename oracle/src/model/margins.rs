//! What would open the joint (document 02, m).

use super::closing::{Checked, Measured};
use crate::job::{DIMENSION, Job};

/// A row, and the smallest tolerance at which it still closes.
pub type Margin = (u32, f64);

/// Where the check says closed, each row once: linear rows before angular, largest first within each
/// dimension, lower row first among equals, whose order a stable sort keeps.
pub fn margins(job: &Job, checked: &Checked) -> Option<Vec<Margin>> {
    let mut list: Vec<Margin> = (0..).zip(checked.measured.iter().map(Measured::reach)).collect();
    list.sort_by(|(row, number), (other, than)| {
        let dimension = |row: &u32| job.word(*row as usize, DIMENSION);
        dimension(row).cmp(&dimension(other)).then(than.total_cmp(number))
    });
    checked.closed.then_some(list)
}
