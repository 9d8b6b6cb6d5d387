//! The twelve-month spending held against document 02 and against sums by days, and what the kind `months` makes.

use std::collections::BTreeMap;

use mkperth_core::Date;
use mkperth_sched::spending;

use super::Tally;
use crate::book::{FIRST_DAY, LAST_DAY};
use crate::calls::{Answer, SUM_OUTSIDE, named};
use crate::encode::encode;
use crate::generate;
use crate::months::{Charge, charged};
use crate::project::{Stage, date};
use crate::twelve::{self, Month, Row};

const MAX: i64 = i64::MAX;
/// 1 January, 1 February and 1 March 2024, and 1 January 2025.
const DAYS: [u64; 4] = [19_723, 19_754, 19_783, 20_089];

/// What the call returns, and its rows: first day, sum, mark.
type Answered = (Answer, Vec<(u64, i64, u64)>);

/// What the call answers for a book with those charges.
fn answered(charges: &[Charge]) -> Answered {
    let call = named("twelve_months").expect("a call of that name");
    let mut out = vec![0; 3 * 1_200];
    let (number, at) = call.answer(&encode(&charged(charges)), &[], &mut out);
    let count = if number == 0 { at as usize } else { 0 };
    let row = |row: &[u64]| (row[0], row[1] as i64, row[2]);
    ((number, at), out.chunks(3).take(count).map(row).collect())
}

pub fn small_figures(tally: &mut Tally) {
    let [january, february, march, next] = DAYS;
    let rows = |charges: &[Charge]| answered(charges).1;
    let gap = vec![(january, 5, 0), (february, 5, 0), (march, 12, 1)];
    tally.equal("a month between", rows(&[(january, 5), (march, 7)]), gap);
    let tie = vec![(january, 5, 1), (february, 4, 0), (march, 5, 0)];
    tally.equal("a tie", rows(&[(january, 5), (february, -1), (march, 1)]), tie);
    let negative = vec![(january, -5, 0), (february, -7, 0), (march, -3, 1)];
    tally.equal("by value", rows(&[(january, -5), (february, -2), (march, 4)]), negative);
    let thirteen = rows(&[(january, 1), (next, 10)]);
    tally.equal("the thirteenth", thirteen[11..].to_vec(), vec![(20_058, 1, 0), (next, 10, 1)]);
    let long = rows(&[(january, -5), (20_148, -7)]);
    let end = vec![(20_058, -5, 0), (next, 0, 1), (20_120, 0, 0), (20_148, -7, 0)];
    tally.equal("a mark where nothing is listed", long[11..].to_vec(), end);
    let century = rows(&[(FIRST_DAY, 3), (LAST_DAY, 4)]);
    let ends = (century.len(), century[0], century[1_199]);
    tally.equal("all months", ends, (1_200, (10_957, 3, 0), (47_451, 4, 1)));
    tally.equal("a point of 0", rows(&[(20_000, 0)]), vec![(19_997, 0, 1)]);
    tally.equal("no point", answered(&[]), ((0, 0), vec![]));
}

pub fn large_figures(tally: &mut Tally) {
    let [january, february, _, next] = DAYS;
    let outside = || ((SUM_OUTSIDE, 0), vec![]);
    let same_day = answered(&[(january, MAX), (january, MAX)]);
    tally.equal("twice MAX on a day", same_day, ((0, 1), vec![(january, MAX, 1)]));
    let two_days = [(january, MAX), (january + 1, MAX)];
    tally.equal("twice MAX on two days", answered(&two_days), outside());
    let back = answered(&[two_days[0], two_days[1], (january + 2, -MAX)]);
    tally.equal("exact within the month", back, ((0, 1), vec![(january, MAX, 1)]));
    let months = [(january, -MAX), (february, MAX), (february + 1, MAX), (next, 0)];
    let inside = vec![(january, -MAX, 0), (february, MAX, 1)];
    tally.equal("a month outside", answered(&months[..3]), ((0, 2), inside));
    tally.equal("outside when January drops out", answered(&months), outside());
    let lower = answered(&[(january, -MAX), (february, -1)]);
    let expected = vec![(january, -MAX, 1), (february, i64::MIN, 0)];
    tally.equal("the lower end", lower, ((0, 2), expected));
    tally.equal("below it", answered(&[(january, -MAX), (february, -2)]), outside());
    let call = named("twelve_months").expect("a call of that name");
    let nothing_lent = call.answer(&encode(&charged(&two_days)), &[], &mut []);
    tally.equal("11 before 10", nothing_lent, (SUM_OUTSIDE, 0));
}

/// The points of the spending of a made book.
fn points(seed: u64) -> Vec<(Date, i64)> {
    let stage = Stage::new(generate::book("months", seed).unwrap_or_default());
    spending(&stage.project, &stage.schedule)
}

/// Rows by days: their first days are those of all months from the first point's to the last's, a sum is that of the
/// points from the first day of the month eleven months before on, and the mark is as document 02 has it.
pub fn sums_by_days(tally: &mut Tally, books: u64) {
    for seed in 0..books.div_ceil(2) {
        let points = points(seed);
        let (Some(first), Some(last)) = (points.first(), points.last()) else { continue };
        let is_first = |day: &u64| date(*day).ymd().2 == 1;
        let start = (0..=first.0.days() as u64).rev().find(is_first).unwrap_or(0);
        let days: Vec<u64> = (start..=last.0.days() as u64).filter(is_first).collect();
        let sums: Vec<i128> = days.iter().map(|day| sum_by_days(&points, date(*day))).collect();
        let largest = sums.iter().max().and_then(|max| sums.iter().position(|sum| sum == max));
        let row = |(k, day): (usize, &u64)| {
            let sum = i64::try_from(sums[k]).ok()?;
            Some(Row { first: date(*day), sum, mark: largest == Some(k) })
        };
        let expected: Option<Vec<Row>> = days.iter().enumerate().map(row).collect();
        tally.holds(twelve::rows(&points) == expected, || format!("seed {seed}: rows"));
    }
}

/// The sum of the points of the year that ends with the month that begins on that day.
fn sum_by_days(points: &[(Date, i64)], first: Date) -> i128 {
    let (year, month, _) = first.ymd();
    let from = match month {
        12 => Date::from_ymd(year, 1, 1),
        _ => Date::from_ymd(year - 1, month + 1, 1),
    };
    let last = (28..=31).filter_map(|day| Date::from_ymd(year, month, day)).next_back();
    let inside = |day: Date| from.is_some_and(|from| from <= day) && Some(day) <= last;
    points.iter().filter(|(day, _)| inside(*day)).map(|(_, amount)| i128::from(*amount)).sum()
}

/// Whatever makes these sums hard is met in one of thirty made books or more.
pub fn what_is_made(tally: &mut Tally) {
    const BOOKS: u64 = 300;
    let mut met: BTreeMap<&str, u64> = BTreeMap::new();
    for seed in 0..BOOKS {
        for (name, holds) in features(&points(seed)) {
            *met.entry(name).or_default() += u64::from(holds);
        }
    }
    for (name, count) in met {
        tally.holds(count >= BOOKS / 30, || format!("{name}: in {count} of {BOOKS} books"));
    }
}

/// What is hard about these points.
fn features(points: &[(Date, i64)]) -> [(&'static str, bool); 12] {
    let (listed, sums) = (twelve::listed(points), twelve::sums(points));
    let rows = twelve::rows(points);
    let accepted = rows.iter().flatten();
    let marked = accepted.clone().find(|row| row.mark);
    let ties = accepted.clone().filter(|row| marked.is_some_and(|m| m.sum == row.sum)).count();
    let is_word = |sum: &i128| i64::try_from(*sum).is_ok();
    let has = |month: Month| listed.contains_key(&month);
    let number = |(year, month): &Month| 12 * year + *month as i32;
    let months: Vec<i32> = listed.keys().map(number).collect();
    let unlisted = |row: &Row| !has((row.first.ymd().0, row.first.ymd().1));
    [
        ("a sum outside 64 bits", rows.is_none()),
        ("the last sum inside, an earlier one not", {
            rows.is_none() && sums.last().is_some_and(|(_, sum)| is_word(sum))
        }),
        ("accepted, a month outside", rows.is_some() && !listed.values().all(is_word)),
        ("a gap over twelve months", months.windows(2).any(|pair| pair[1] - pair[0] > 12)),
        ("a year apart", months.windows(2).any(|pair| pair[1] - pair[0] == 12)),
        ("a tie", ties > 1),
        ("a mark where nothing is listed", marked.is_some_and(unlisted)),
        ("a month of 0", listed.values().any(|sum| *sum == 0)),
        ("the largest sum below 0", marked.is_some_and(|row| row.sum < 0)),
        ("a sum at an end", accepted.clone().any(|row| [MAX, i64::MIN].contains(&row.sum))),
        ("January 2000", has((2000, 1))),
        ("December 2099", has((2099, 12))),
    ]
}
