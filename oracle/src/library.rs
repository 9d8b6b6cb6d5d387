//! What the archive exports: the leaf functions and the calls over books, each in one table.
//! An export that the archive does not have is left out of its table.
// An archive may have no export of one of the tables.
#![allow(dead_code, unused_imports)]

use std::fmt::{Debug, Write};
use std::hint::black_box;
use std::time::Instant;

use crate::book::{FIRST_DAY, LAST_DAY};
use crate::calls::{Answer, Call, EARNED_WIDTH};
use crate::leaf as rust;
use crate::random::Random;

/// A leaf function on both sides; a float is its bits, an absent value the least number.
pub trait Leaf {
    fn name(&self) -> &'static str;

    /// The first arguments of `count` for which the sides differ, with both results.
    fn difference(&self, random: &mut Random, count: usize) -> Option<String>;

    /// The nanoseconds of a call, the Rust's and the archive's, over the same arguments.
    fn times(&self, random: &mut Random, count: usize) -> (f64, f64);
}

struct Pair<A> {
    name: &'static str,
    arguments: fn(&mut Random) -> A,
    rust: fn(A) -> i64,
    archive: fn(A) -> i64,
}

impl<A: Copy + Debug> Leaf for Pair<A> {
    fn name(&self) -> &'static str {
        self.name
    }

    fn difference(&self, random: &mut Random, count: usize) -> Option<String> {
        (0..count).map(|_| (self.arguments)(random)).find_map(|arguments| {
            let (expected, found) = ((self.rust)(arguments), (self.archive)(arguments));
            (expected != found).then(|| format!("{arguments:?}: {found}, the Rust {expected}"))
        })
    }

    fn times(&self, random: &mut Random, count: usize) -> (f64, f64) {
        let arguments: Vec<A> = (0..count).map(|_| (self.arguments)(random)).collect();
        (nanoseconds(self.rust, &arguments), nanoseconds(self.archive, &arguments))
    }
}

/// The time of one call, over all arguments; the results are summed, so that none is left out.
fn nanoseconds<A: Copy>(function: fn(A) -> i64, arguments: &[A]) -> f64 {
    let start = Instant::now();
    let sum = arguments.iter().fold(0i64, |sum, a| sum.wrapping_add(function(black_box(*a))));
    black_box(sum);
    start.elapsed().as_nanos() as f64 / arguments.len() as f64
}

const NONE: i64 = i64::MIN;

fn or_none(value: Option<i32>) -> i64 {
    value.map_or(NONE, i64::from)
}

/// Year, month and day in one number: month and day above the year's bits.
fn date_number((year, month, day): (i32, u32, u32)) -> i64 {
    ((i64::from(month) * 100 + i64::from(day)) << 20).wrapping_add(i64::from(year))
}

/// Declares the exported leaf functions that the archive has, and makes their table.
macro_rules! leaves {
    ($($export:literal $name:ident($($argument:ident: $type:ty),*) -> $result:ty;
        $arguments:expr, $rust:expr, $archive:expr;)*) => {
        unsafe extern "C" {
            $(#[cfg(export = $export)] safe fn $name($($argument: $type),*) -> $result;)*
        }

        /// The leaf functions that the archive exports.
        #[allow(clippy::vec_init_then_push)]
        pub fn leaves() -> Vec<Box<dyn Leaf>> {
            #[allow(unused_mut)]
            let mut table: Vec<Box<dyn Leaf>> = Vec::new();
            $(#[cfg(export = $export)] table.push(Box::new(Pair {
                name: $export,
                arguments: $arguments,
                rust: $rust,
                archive: $archive,
            }));)*
            table
        }
    };
}

leaves! {
    "parts_saturating_add" parts_saturating_add(a: i64, b: i64) -> i64;
        Random::amount_pair, |(a, b)| a.saturating_add(b), |(a, b)| parts_saturating_add(a, b);
    "parts_priced" parts_priced(units: i64, price: i64) -> i64;
        Random::units_and_price, |(u, p)| rust::priced(u, p), |(u, p)| parts_priced(u, p);
    "parts_spent" parts_spent(actual: i64, budget: i64) -> i64;
        Random::actual_and_budget, |(a, b)| rust::spent(a, b).unwrap_or(NONE), |(a, b)| parts_spent(a, b);
    "parts_has_spent" parts_has_spent(actual: i64, budget: i64) -> u64;
        Random::actual_and_budget,
        |(a, b)| i64::from(rust::spent(a, b).is_some()), |(a, b)| parts_has_spent(a, b) as i64;
    "parts_share" parts_share(amount: i64, n: u64, k: u64) -> i64;
        |r| { let (a, n, k) = r.shares(); (a, n, k.min(n - 1)) },
        |(a, n, k)| rust::share(a, n, k), |(a, n, k)| parts_share(a, n, k);
    "parts_cumulative" parts_cumulative(amount: i64, n: u64, k: u64) -> i64;
        Random::shares, |(a, n, k)| rust::cumulative(a, n, k), |(a, n, k)| parts_cumulative(a, n, k);
    "parts_whole" parts_whole(x: f64) -> i64;
        Random::float, rust::whole, |x| parts_whole(x);
    "parts_ratio" parts_ratio(a: i64, b: i64) -> f64;
        |r| { let (a, b) = r.amount_pair(); (a, if b == 0 { 1 } else { b }) },
        |(a, b)| rust::ratio(a, b).map_or(NONE, |x| x.to_bits() as i64),
        |(a, b)| parts_ratio(a, b).to_bits() as i64;
    "parts_earned" parts_earned(budget: i64, done: f64) -> i64;
        Random::budget_and_done, |(b, d)| rust::earned(b, d), |(b, d)| parts_earned(b, d);
    "parts_from_ymd" parts_from_ymd(year: i32, month: u32, day: u32) -> i64;
        Random::year_month_day,
        |(y, m, d)| or_none(rust::from_ymd(y, m, d)), |(y, m, d)| parts_from_ymd(y, m, d);
    "parts_ymd" parts_ymd(days: i32) -> i64;
        Random::any_days,
        |days| rust::ymd(days).map_or(NONE, date_number), |days| parts_ymd(days);
    "parts_weekday" parts_weekday(days: i32) -> i64;
        Random::any_days,
        |days| or_none(rust::weekday(days)), |days| parts_weekday(days);
    "parts_is_holiday" parts_is_holiday(days: i32) -> u64;
        Random::holiday_days,
        |days| i64::from(rust::is_holiday(days)), |days| parts_is_holiday(days) as i64;
    "parts_easter" parts_easter(year: i32) -> i64;
        Random::any_year, |year| or_none(rust::easter(year)), |year| parts_easter(year);
}

type Verdict = unsafe extern "C" fn(*const u8, usize, *mut u64) -> u64;
type Plain = unsafe extern "C" fn(*const u8, usize, *mut u64, usize, *mut u64) -> u64;
type One = unsafe extern "C" fn(*const u8, usize, u64, *mut u64, usize, *mut u64) -> u64;
type Two = unsafe extern "C" fn(*const u8, usize, u64, u64, *mut u64, usize, *mut u64) -> u64;

/// An exported call, by how many values it is asked; the verdict is lent nothing.
#[derive(Clone, Copy)]
pub enum Export {
    Verdict(Verdict),
    Plain(Plain),
    One(One),
    Two(Two),
}

/// A call over books on both sides.
pub struct BookCall {
    pub rust: &'static Call,
    export: Export,
}

impl BookCall {
    /// What the archive answers, with its rows in `out`.
    pub fn answer(&self, book: &[u8], asked: &[u64], out: &mut [u64]) -> Answer {
        let (bytes, length) = (book.as_ptr(), book.len());
        let (lent, numbers) = (out.as_mut_ptr(), out.len());
        let mut at = u64::MAX;
        // The book and the lent numbers are slices of those lengths, `at` is one number.
        let returned = unsafe {
            match self.export {
                Export::Verdict(call) => call(bytes, length, &mut at),
                Export::Plain(call) => call(bytes, length, lent, numbers, &mut at),
                Export::One(call) => call(bytes, length, asked[0], lent, numbers, &mut at),
                Export::Two(call) => {
                    call(bytes, length, asked[0], asked[1], lent, numbers, &mut at)
                }
            }
        };
        (returned, at)
    }
}

/// Declares the exported calls that the archive has, and makes their table.
macro_rules! book_calls {
    ($($export:literal $name:ident $call:literal $kind:ident($($asked:ident),*);)*) => {
        unsafe extern "C" {
            #[cfg(export = "surukeva_verdict")]
            fn surukeva_verdict(book: *const u8, length: usize, at: *mut u64) -> u64;
            $(#[cfg(export = $export)]
            fn $name(book: *const u8, length: usize, $($asked: u64,)*
                out: *mut u64, numbers: usize, at: *mut u64) -> u64;)*
        }

        /// The calls over books that the archive exports.
        #[allow(clippy::vec_init_then_push)]
        pub fn book_calls() -> Vec<BookCall> {
            #[allow(unused_mut)]
            let mut table = Vec::new();
            #[cfg(export = "surukeva_verdict")]
            table.push(BookCall {
                rust: crate::calls::named("verdict").expect("a call of that name"),
                export: Export::Verdict(surukeva_verdict),
            });
            $(#[cfg(export = $export)] table.push(BookCall {
                rust: crate::calls::named($call).expect("a call of that name"),
                export: Export::$kind($name),
            });)*
            table
        }
    };
}

book_calls! {
    "surukeva_costs" surukeva_costs "costs" Plain();
    "surukeva_project_cost" surukeva_project_cost "project_cost" Plain();
    "surukeva_actual_by_kind" surukeva_actual_by_kind "actual_by_kind" Plain();
    "surukeva_spending" surukeva_spending "spending" Two(from, to);
    "surukeva_earned_value" surukeva_earned_value "earned_value" One(day);
    "surukeva_project_earned" surukeva_project_earned "project_earned" One(day);
    "surukeva_planned_curve" surukeva_planned_curve "planned_curve" Two(from, to);
    "surukeva_performance" surukeva_performance "performance" One(activity);
    "surukeva_indices" surukeva_indices "indices" Two(activity, day);
    "surukeva_project_indices" surukeva_project_indices "project_indices" One(day);
    "surukeva_period_points" surukeva_period_points "period_points" Plain();
    "surukeva_variances" surukeva_variances "variances" Plain();
    "surukeva_budget" surukeva_budget "budget" Plain();
    "surukeva_funding" surukeva_funding "funding" Plain();
    "surukeva_spending_by_month" surukeva_spending_by_month "spending_by_month" Plain();
    "surukeva_outline" surukeva_outline "outline" One(day);
    "surukeva_twelve_months" surukeva_twelve_months "twelve_months" Plain();
}

/// The calls that the status is made of.
pub struct Status {
    earned: BookCall,
    total: BookCall,
    curve: BookCall,
}

impl Status {
    /// They, if the archive exports all of them.
    pub fn new() -> Option<Status> {
        let named = |name: &str| book_calls().into_iter().find(|call| call.rust.name == name);
        Some(Status {
            earned: named("earned_value")?,
            total: named("project_earned")?,
            curve: named("planned_curve")?,
        })
    }

    /// The text of the status program, from the rows that the archive puts into `lent`.
    pub fn text(&self, book: &[u8], lent: &mut [u64]) -> String {
        let mut text = String::new();
        let day = data_date(book);
        let (number, count) = self.earned.answer(book, &[day], lent);
        if number != 0 {
            return format!("refused {number} {count}\n");
        }
        for (index, row) in lent.chunks(EARNED_WIDTH).take(count as usize).enumerate() {
            text.push_str(&index.to_string());
            earned(&mut text, row);
        }
        self.total.answer(book, &[day], lent);
        text.push_str("total");
        earned(&mut text, &lent[..EARNED_WIDTH]);
        let (_, count) = self.curve.answer(book, &[FIRST_DAY, LAST_DAY], lent);
        for point in lent.chunks(2).take(count as usize) {
            text.push_str(&point[0].to_string());
            figures(&mut text, &point[1..]);
            text.push('\n');
        }
        text
    }
}

/// Signed numbers, each behind a blank.
fn figures(text: &mut String, numbers: &[u64]) {
    for number in numbers {
        write!(text, " {}", *number as i64).expect("text takes all");
    }
}

/// The five figures of a row of earned value, what is spent, and the line's end.
fn earned(text: &mut String, row: &[u64]) {
    figures(text, &row[..5]);
    match row[5] {
        0 => text.push_str(" -"),
        _ => figures(text, &row[6..]),
    }
    text.push('\n');
}

/// The data date behind the edition and its mark, the last day if there is none.
fn data_date(book: &[u8]) -> u64 {
    if book.get(1) != Some(&1) {
        return LAST_DAY;
    }
    let groups = book[2..].iter().take(3);
    let last = groups.clone().position(|byte| *byte < 0x80).unwrap_or(0);
    groups.take(last + 1).enumerate().map(|(k, byte)| u64::from(byte & 0x7f) << (7 * k)).sum()
}
