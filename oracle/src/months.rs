//! Books for the twelve-month sums: charged on few days with months and years between, often none or below zero, and
//! with sums at the ends of 64 bits and beyond.

use mkperth_core::UNIT;

use crate::book::{Activity, Assignment, Book, Calendar, Expense, FIRST_DAY, LAST_DAY, Resource};
use crate::leaf;
use crate::project::date;
use crate::random::{Random, Size};
use crate::twelve;

/// A day and the amount charged on it.
pub type Charge = (u64, i64);

/// How the amounts of a book are chosen.
#[derive(Debug, Clone, Copy, PartialEq, Eq)]
enum Amounts {
    /// From −2 to 2, so that sums tie.
    Few,
    /// None above zero.
    Negative,
    Any,
    /// They bring the twelve-month sum to an end of 64 bits, beside it, or to 0.
    Aimed,
}

/// A book of that kind.
pub fn book(random: &mut Random) -> Book {
    let charges = charges(random);
    let mut book = charged(&charges);
    if random.one_in(5) {
        stretch(&mut book, random);
    }
    if random.one_in(5) {
        assign(&mut book, random);
    }
    book.data_date = random.pick(&[None, Some(charges[0].0), Some(20_000)]);
    for k in 1..book.activities.len() {
        let above = random.below(k as u64);
        book.activities[k].parent = random.one_in(4).then_some(above);
        book.activities[k].status = random.below(3);
    }
    book
}

/// A book with those charges: an activity of one day, with an expense, for each.
pub fn charged(charges: &[Charge]) -> Book {
    let activity = |(day, _): &Charge| Activity {
        early_start: *day,
        early_finish: *day,
        ..Default::default()
    };
    let expense = |(k, (_, planned)): (usize, &Charge)| Expense {
        activity: k as u64,
        accrual: k as u64 % 3,
        planned: *planned,
        ..Default::default()
    };
    Book {
        calendars: vec![Calendar { week: 127, ..Default::default() }],
        activities: charges.iter().map(activity).collect(),
        expenses: charges.iter().enumerate().map(expense).collect(),
        ..Default::default()
    }
}

/// One activity more, over many days, with an amount spread over them.
fn stretch(book: &mut Book, random: &mut Random) {
    let early_start = book.activities[0].early_start;
    let early_finish = (early_start + random.within(1, 1_500)).min(LAST_DAY);
    let planned = random.amount(Size::Mixed);
    let activity = book.activities.len() as u64;
    book.activities.push(Activity { early_start, early_finish, ..Default::default() });
    book.expenses.push(Expense { activity, accrual: 2, planned, ..Default::default() });
}

/// Assignments of a resource that costs what its units count, and of one without a price, which is charged with 0.
fn assign(book: &mut Book, random: &mut Random) {
    let priced = Resource { prices: vec![(None, UNIT)], ..Default::default() };
    book.resources = vec![priced, Resource::default()];
    for activity in 0..book.activities.len() as u64 {
        if random.one_in(3) {
            let (resource, planned) = (Some(random.below(2)), random.amount(Size::Mixed));
            book.assignments.push(Assignment { activity, resource, planned, ..Default::default() });
        }
    }
}

/// At least one charge, none on an earlier day than the one before; at times from 1 January 2000 on, at times up to 31 December 2099.
fn charges(random: &mut Random) -> Vec<Charge> {
    let kinds = [Amounts::Few, Amounts::Negative, Amounts::Any, Amounts::Aimed, Amounts::Aimed];
    let amounts = random.pick(&kinds);
    let gap = match amounts {
        Amounts::Aimed => random.pick(&[30, 30, 30, 400, 40_000]),
        _ => random.pick(&[30, 400, 4_000, 40_000]),
    };
    let first = random.within(FIRST_DAY, LAST_DAY);
    let mut day = random.pick(&[FIRST_DAY, 20_000, first]);
    let mut charges = Vec::new();
    for _ in 0..random.pick(&[1, 2, 4, 6, 12]) {
        charge(&mut charges, day, amounts, random);
        day = later(charges.last().map_or(day, |(day, _)| *day), gap, random);
        if day > LAST_DAY {
            break;
        }
    }
    if random.one_in(5) {
        charge(&mut charges, LAST_DAY, amounts, random);
    }
    charges
}

/// A later day: the next, one at a month's turn, with a large gap up to thirteen months on, or any up to `gap` days on.
fn later(day: u64, gap: u64, random: &mut Random) -> u64 {
    match random.below(4) {
        0 => day + 1,
        1 => {
            let (year, month, _) = date(day).ymd();
            let on = if gap > 30 { random.pick(&[1, 10, 11, 12, 13]) } else { 1 };
            let months = month - 1 + on;
            let turn = leaf::from_ymd(year + (months / 12) as i32, months % 12 + 1, 1);
            (turn.expect("a month's first day") as u64 - random.below(2)).max(day)
        }
        _ => day + random.within(1, gap),
    }
}

/// Charges from that day on, one or a few on days that follow.
fn charge(charges: &mut Vec<Charge>, day: u64, amounts: Amounts, random: &mut Random) {
    let amount = match amounts {
        Amounts::Few => random.signed_within(-2, 2),
        Amounts::Negative => random.signed_within(-20, 0),
        Amounts::Any => random.amount(Size::Mixed),
        Amounts::Aimed => return aim(charges, day, random),
    };
    charges.push((day, amount));
}

/// Charges from that day on that bring its month's sum where it is wanted, if there are days enough.
fn aim(charges: &mut Vec<Charge>, day: u64, random: &mut Random) {
    let sum = sum_with(charges, day);
    let other = if sum > 0 { i64::MIN } else { i64::MAX };
    let end = random.pick(&[other, other, i64::MAX, i64::MIN, 0]);
    let near = if random.one_in(8) { random.signed_within(-1, 1) } else { 0 };
    let mut missing = i128::from(end) + i128::from(near) - sum;
    for day in day..=LAST_DAY.min(day + 4) {
        let amount = missing.clamp(i64::MIN.into(), i64::MAX.into()) as i64;
        charges.push((day, amount));
        missing -= i128::from(amount);
        if missing == 0 {
            return;
        }
    }
}

/// The sum of the twelve months up to that day's, were 0 charged on it.
fn sum_with(charges: &[Charge], day: u64) -> i128 {
    let with = charges.iter().copied().chain([(day, 0)]);
    let points: Vec<_> = with.map(|(day, amount)| (date(day), amount)).collect();
    twelve::sums(&points).last().map_or(0, |(_, sum)| *sum)
}
