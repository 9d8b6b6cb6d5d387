//! Vectors of the leaf functions and of the verdict, one a line: `NAME ARGUMENT.. = EXPECTED..`.

use std::fmt::Display;

use mkperth_sched::Cost;

use crate::damage::Damage;
use crate::leaf;
use crate::random::Random;
use crate::sample::{self, MUTATED};
use crate::verdicts;

/// A leaf function: its name, and how a vector's arguments and results are made.
type Leaf = (&'static str, fn(&mut Random) -> String);

/// Every leaf function, and the verdict.
pub const LEAVES: [Leaf; 24] = [
    ("saturating_add", |r| {
        let (a, b) = r.amount_pair();
        format!("{a} {b} = {}", a.saturating_add(b))
    }),
    ("saturating_sub", |r| {
        let (a, b) = r.amount_pair();
        format!("{a} {b} = {}", a.saturating_sub(b))
    }),
    ("priced", |r| {
        let (units, price) = r.units_and_price();
        format!("{units} {price} = {}", leaf::priced(units, price))
    }),
    ("spent", |r| {
        let (actual, budget) = r.actual_and_budget();
        format!("{actual} {budget} = {}", optional(leaf::spent(actual, budget)))
    }),
    ("share", |r| {
        let (amount, n, k) = r.shares();
        let k = k.min(n - 1);
        format!("{amount} {n} {k} = {}", leaf::share(amount, n, k))
    }),
    ("cumulative", |r| {
        let (amount, n, k) = r.shares();
        format!("{amount} {n} {k} = {}", leaf::cumulative(amount, n, k))
    }),
    ("cost_add", |r| {
        let (a, b) = (r.cost(), r.cost());
        format!("{} {} = {}", cost(a), cost(b), cost(leaf::cost_add(a, b)))
    }),
    ("at_completion", |r| {
        let c = r.cost();
        format!("{} = {}", cost(c), c.at_completion())
    }),
    ("variance", |r| {
        let c = r.cost();
        format!("{} = {}", cost(c), c.variance())
    }),
    ("to_bits", |r| {
        let z = r.any_amount();
        format!("{z} = {}", z as u64)
    }),
    ("from_bits", |r| {
        let u = r.any_amount() as u64;
        format!("{u} = {}", u as i64)
    }),
    ("nearest", |r| {
        let z = if r.one_in(4) { r.between_floats() } else { r.any_amount() };
        format!("{z} = {}", leaf::nearest(z).to_bits())
    }),
    ("whole", |r| {
        let x = r.float();
        format!("{} = {}", x.to_bits(), leaf::whole(x))
    }),
    ("ratio", |r| {
        let (a, b) = if r.one_in(20) { (r.any_amount(), 0) } else { r.amount_pair() };
        format!("{a} {b} = {}", optional(leaf::ratio(a, b).map(f64::to_bits)))
    }),
    ("product", |r| {
        let (x, y) = r.float_pair();
        format!("{} {} = {}", x.to_bits(), y.to_bits(), (x * y).to_bits())
    }),
    ("clamp01", |r| {
        let x = r.float();
        format!("{} = {}", x.to_bits(), leaf::clamp01(x).to_bits())
    }),
    ("earned", |r| {
        let (budget, done) = r.budget_and_done();
        format!("{budget} {} = {}", done.to_bits(), leaf::earned(budget, done))
    }),
    ("from_ymd", |r| {
        let (y, m, d) = r.year_month_day();
        format!("{y} {m} {d} = {}", optional(leaf::from_ymd(y, m, d)))
    }),
    ("ymd", |r| {
        let days = r.any_days();
        let ymd = leaf::ymd(days).map(|(y, m, d)| format!("1 {y} {m} {d}"));
        format!("{days} = {}", ymd.unwrap_or("0 0 0 0".into()))
    }),
    ("from_days", |r| {
        let days = r.any_days();
        format!("{days} = {}", optional(leaf::from_days(days)))
    }),
    ("weekday", |r| {
        let days = r.any_days();
        format!("{days} = {}", optional(leaf::weekday(days)))
    }),
    ("easter", |r| {
        let year = r.any_year();
        format!("{year} = {}", optional(leaf::easter(year)))
    }),
    ("is_holiday", |r| {
        let days = r.holiday_days();
        format!("{days} = {}", u8::from(leaf::is_holiday(days)))
    }),
    ("verdict", |r| verdicts::line(&short_book(r))),
];

/// A whole, damaged or changed book that fits in a line.
fn short_book(random: &mut Random) -> Vec<u8> {
    let damage = random.pick(&Damage::ALL).name();
    let kind = random.pick(&["small", MUTATED, damage, damage]);
    let bytes = sample::bytes(kind, random.number()).filter(|bytes| bytes.len() <= 2_000);
    bytes.unwrap_or_default()
}

/// `count` vectors of each leaf function.
pub fn text(seed: u64, count: usize) -> String {
    let mut text = String::new();
    for (index, (name, vector)) in LEAVES.iter().enumerate() {
        let mut random = Random::new(seed.wrapping_mul(64).wrapping_add(index as u64));
        for _ in 0..count {
            text.push_str(&format!("{name} {}\n", vector(&mut random)));
        }
    }
    text
}

fn cost(c: Cost) -> String {
    format!("{} {} {}", c.budget, c.actual, c.remaining)
}

fn optional<T: Display>(value: Option<T>) -> String {
    value.map_or("0 0".into(), |value| format!("1 {value}"))
}
