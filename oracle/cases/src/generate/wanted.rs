//! Wanted columns of a read.

use super::row::{any_column, unknown_column};
use crate::rng::Rng;

#[derive(Debug, Clone, Copy, PartialEq, Eq, PartialOrd, Ord)]
pub enum Sort {
    All,
    Reversed,
    None,
    One,
    /// Any order, with repeats and unknown numbers.
    Mixed,
    /// Each column once or not, in any order.
    Shuffled,
    Unknown,
    /// Thousands of numbers.
    Long,
}

impl Sort {
    pub const ALL: [Sort; 8] = [
        Sort::All,
        Sort::Reversed,
        Sort::None,
        Sort::One,
        Sort::Mixed,
        Sort::Shuffled,
        Sort::Unknown,
        Sort::Long,
    ];
}

/// A list of this sort for a schema of so many columns.
pub fn wanted(rng: &mut Rng, columns: usize, sort: Sort) -> Vec<u16> {
    let all = 0..columns as u16;
    match sort {
        Sort::All => all.collect(),
        Sort::Reversed => all.rev().collect(),
        Sort::None => vec![],
        Sort::One => vec![rng.between(0, columns) as u16],
        Sort::Mixed => {
            let length = rng.pick(&[1, 2, 5, 30, 300]);
            mixed(rng, columns, length)
        }
        Sort::Shuffled => {
            let mut columns: Vec<u16> = all.filter(|_| rng.one_in(2)).collect();
            for i in (1..columns.len()).rev() {
                columns.swap(i, rng.between(0, i));
            }
            columns
        }
        Sort::Unknown => (0..rng.between(1, 9))
            .map(|_| unknown_column(rng, columns).min(0xFFFF) as u16)
            .collect(),
        Sort::Long => {
            let length = rng.pick(&[3_000, 66_000]);
            mixed(rng, columns, length)
        }
    }
}

fn mixed(rng: &mut Rng, columns: usize, length: usize) -> Vec<u16> {
    (0..length)
        .map(|_| any_column(rng, columns) as u16)
        .collect()
}

/// A list of a sort at random; a long one seldom.
pub fn any_wanted(rng: &mut Rng, columns: usize) -> (Sort, Vec<u16>) {
    let sort = match rng.below(1024) {
        0 => Sort::Long,
        1..=255 => Sort::Mixed,
        _ => rng.pick(&Sort::ALL[..7]),
    };
    (sort, wanted(rng, columns, sort))
}

/// Every subset of so many columns, rising.
pub fn subsets(columns: usize) -> impl Iterator<Item = Vec<u16>> {
    (0..1_u32 << columns).map(move |members| {
        let is_member = |&column: &u16| members >> column & 1 == 1;
        (0..columns as u16).filter(is_member).collect()
    })
}
