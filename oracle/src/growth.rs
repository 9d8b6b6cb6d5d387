//! Books in which one count grows and the others stay: activities, assignments, days.

use crate::book::*;

/// How much a book has of each; the days are those of every activity.
#[derive(Debug, Clone, Copy)]
pub struct Extent {
    pub activities: u64,
    pub assignments: u64,
    pub days: u64,
}

/// What stays where another count grows.
pub const FIXED: Extent = Extent { activities: 100, assignments: 200, days: 365 };

/// What grows, and the extents that it takes.
pub fn series() -> [(&'static str, Vec<(u64, Extent)>); 3] {
    let grow = |counts: &[u64], with: fn(u64) -> Extent| {
        counts.iter().map(|count| (*count, with(*count))).collect()
    };
    [
        ("activities", grow(&[10, 50, 100, 250, 500], |activities| Extent { activities, ..FIXED })),
        (
            "assignments",
            grow(&[0, 100, 500, 1_000, 2_000], |assignments| Extent { assignments, ..FIXED }),
        ),
        ("days", grow(&[30, 365, 3_650, 36_525], |days| Extent { days, ..FIXED })),
    ]
}

const RESOURCES: u64 = 20;

/// The book of an extent: in each ten activities one stands above nine, all begin on the first day, and half of the work
/// is done by the data date.
pub fn book(extent: Extent) -> Book {
    let Extent { activities, assignments, days } = extent;
    let leaves: Vec<u64> = (0..activities).filter(|index| index % 10 != 0).collect();
    let leaf = |k: u64| leaves[(k % leaves.len() as u64) as usize];
    Book {
        data_date: Some(FIRST_DAY + days / 2),
        calendars: vec![Calendar { week: 31, region: 1, ..Default::default() }],
        activities: (0..activities).map(|index| activity(index, days)).collect(),
        resources: (0..RESOURCES).map(|index| resource(index, days)).collect(),
        assignments: (0..assignments).map(|k| assignment(k, leaf(k))).collect(),
        ..Default::default()
    }
}

fn activity(index: u64, days: u64) -> Activity {
    Activity {
        parent: (index % 10 != 0).then_some(index - index % 10),
        status: 1,
        early_start: FIRST_DAY,
        early_finish: FIRST_DAY + days - 1,
        actual_start: Some(FIRST_DAY),
        working_minutes: 480 * days,
        remaining_minutes: 240 * days,
        percent: Some(5_000),
        ..Default::default()
    }
}

/// Three prices, from the first day, a third and two thirds of the days on.
fn resource(index: u64, days: u64) -> Resource {
    let price = |k: u64| (Some(FIRST_DAY + k * days / 3), 100 * (1 + index + k) as i64);
    Resource { kind: index % 3, prices: (0..3).map(price).collect() }
}

fn assignment(k: u64, activity: u64) -> Assignment {
    let resource = Some(k % RESOURCES);
    Assignment { activity, resource, planned: 48_000, actual: 20_000, remaining: 30_000 }
}
