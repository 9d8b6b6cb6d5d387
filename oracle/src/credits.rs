//! Books with price results outside 64 bits, most of them below: units and prices of opposite signs, whose results are
//! at the ends of 64 bits, beside them and far beyond, on a day and over several.

use mkperth_sched::costs::days_of;

use crate::arguments::EDGES;
use crate::book::{Assignment, Book, LAST_DAY, Resource};
use crate::project::Stage;
use crate::random::{Random, Size};

/// Puts such resources and assignments into a book with activities, beside expenses and baseline lines at the ends of 64
/// bits; at times nothing but a few hundredths is planned.
pub fn put(book: &mut Book, random: &mut Random) {
    if random.one_in(3) {
        move_apart(book, random);
    }
    if random.one_in(2) {
        book.baseline = None;
    }
    for line in book.baseline.iter_mut().flatten() {
        line.cost = random.pick(&[line.cost, line.cost, 1, i64::MIN]);
    }
    for expense in &mut book.expenses {
        for amount in [&mut expense.planned, &mut expense.actual, &mut expense.remaining] {
            *amount = random.pick(&[*amount, *amount, *amount, 0, 1, i64::MIN, i64::MAX]);
        }
    }
    book.resources = (0..random.within(1, 4)).map(|_| resource(book, random)).collect();
    let stage = Stage::new(book.clone());
    let count = random.within(1, 8);
    book.assignments = (0..count).map(|_| assignment(&stage, random)).collect();
    if random.one_in(5) {
        book.assignments.iter_mut().for_each(|a| a.planned = 0);
        book.expenses.iter_mut().for_each(|e| e.planned = random.signed_within(-2, 2));
    }
}

/// Each activity weeks, months or a year later than the one before.
fn move_apart(book: &mut Book, random: &mut Random) {
    let gap = random.pick(&[20, 100, 400]);
    for (k, activity) in (0u64..).zip(&mut book.activities) {
        let later = |day: u64| (day + k * gap).min(LAST_DAY);
        activity.early_start = later(activity.early_start);
        activity.early_finish = later(activity.early_finish);
        activity.actual_start = activity.actual_start.map(later);
        activity.actual_finish = activity.actual_finish.map(later);
    }
}

/// One with up to four prices, mostly of the same sign, and from about an activity's start on.
fn resource(book: &Book, random: &mut Random) -> Resource {
    let starts: Vec<u64> = book.activities.iter().map(|activity| activity.early_start).collect();
    let (count, sign) = (random.pick(&[1, 1, 2, 4]), random.pick(&[1, -1]));
    let dated = |random: &mut Random| (random.pick(&starts) + random.below(4)).min(LAST_DAY);
    let from = |random: &mut Random| (!random.one_in(3)).then(|| dated(random));
    let signed = |random: &mut Random| {
        let size = price(random);
        if random.one_in(6) { -size } else { size }
    };
    let prices = (0..count).map(|_| (from(random), sign * signed(random))).collect();
    Resource { kind: random.below(3), prices }
}

/// A price above 0, mostly one that divides an edge.
fn price(random: &mut Random) -> i64 {
    match random.below(6) {
        0 => random.amount(Size::Ends).saturating_abs().max(1),
        1 => random.signed_within(1, 20),
        2 => 1 << random.within(7, 62),
        _ => random.edge_factors().1.abs(),
    }
}

/// One whose units are chosen by a price of its resource and by the days that they are spread over.
fn assignment(stage: &Stage, random: &mut Random) -> Assignment {
    let activity = random.below(stage.book.activities.len() as u64);
    let resource = random.below(stage.book.resources.len() as u64);
    let (_, price) = random.pick(&stage.book.resources[resource as usize].prices);
    let days = days_of(&stage.project, activity as usize, &stage.schedule);
    let days = days.map_or([1; 3], |d| [d.planned.len(), d.actual.len(), d.remaining.len()]);
    let [planned, actual, remaining] = days.map(|days| units(price, days as i64, random));
    let resource = (!random.one_in(10)).then_some(resource);
    Assignment { activity, resource, planned, actual, remaining }
}

/// Units with a result about an end of 64 bits, mostly the lower one, on each day or on all together; at times with up
/// to twelve zeros too many, or few.
fn units(price: i64, days: i64, random: &mut Random) -> i64 {
    let size = i128::from(price.unsigned_abs());
    let exact: Vec<i128> = EDGES.into_iter().filter(|edge| edge % size == 0).collect();
    let edge = random.pick(if exact.is_empty() { &EDGES } else { &exact });
    let together = i64::try_from(edge / size).unwrap_or(i64::MAX);
    let units = match random.below(8) {
        0 => return random.amount(Size::Small),
        1..=3 => together.saturating_mul(10i64.pow(random.within(1, 12) as u32)),
        4 => together,
        _ => together.checked_mul(days.max(1)).unwrap_or(together),
    };
    let below = !random.one_in(6);
    if below == (price < 0) { units } else { -units }
}
