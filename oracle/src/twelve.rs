//! The twelve-month spending of document 02, which the Rust has not, from the points of the Rust's `spending`.

use std::collections::BTreeMap;
use std::iter::successors;

use mkperth_core::Date;

/// A year, and a month of it from 1 to 12.
pub type Month = (i32, u32);

/// A row: the month's first day, its twelve-month sum, and the mark.
#[derive(Debug, Clone, Copy, PartialEq, Eq)]
pub struct Row {
    pub first: Date,
    pub sum: i64,
    pub mark: bool,
}

/// The exact sum of each listed month.
pub fn listed(points: &[(Date, i64)]) -> BTreeMap<Month, i128> {
    let mut months = BTreeMap::new();
    for (day, amount) in points {
        let (year, month, _) = day.ymd();
        *months.entry((year, month)).or_insert(0) += i128::from(*amount);
    }
    months
}

/// Each month from the first listed to the last, with its sum and those of the eleven before it, an unlisted one 0.
pub fn sums(points: &[(Date, i64)]) -> Vec<(Month, i128)> {
    let listed = listed(points);
    let Some((last, _)) = listed.last_key_value() else { return Vec::new() };
    let first = listed.keys().next().copied();
    let months = successors(first, |month| Some(after(*month))).take_while(|month| month <= last);
    let of = |month: Month| listed.get(&month).copied().unwrap_or(0);
    months.map(|month| (month, twelve(month).map(of).sum())).collect()
}

/// The rows; none where a sum is outside signed 64 bits.
pub fn rows(points: &[(Date, i64)]) -> Option<Vec<Row>> {
    let sums = sums(points);
    let largest = sums.iter().map(|(_, sum)| *sum).max();
    let marked = sums.iter().position(|(_, sum)| Some(*sum) == largest);
    let row = |(k, ((year, month), sum)): (usize, &(Month, i128))| {
        let first = Date::from_ymd(*year, *month, 1).expect("a month of a date");
        Some(Row { first, sum: i64::try_from(*sum).ok()?, mark: marked == Some(k) })
    };
    sums.iter().enumerate().map(row).collect()
}

/// A month and the eleven before it, the latest first.
fn twelve(month: Month) -> impl Iterator<Item = Month> {
    successors(Some(month), |month| Some(before(*month))).take(12)
}

fn after((year, month): Month) -> Month {
    if month == 12 { (year + 1, 1) } else { (year, month + 1) }
}

fn before((year, month): Month) -> Month {
    if month == 1 { (year - 1, 12) } else { (year, month - 1) }
}
