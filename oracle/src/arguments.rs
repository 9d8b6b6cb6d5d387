//! Arguments of the leaf functions, made so that saturation, ties and limits are met often.

use std::sync::LazyLock;

use mkperth_sched::Cost;

use crate::leaf;
use crate::random::{Random, Size};

/// The first and the last day of the years −9999 to 9999.
pub const FIRST_DATE: i64 = -4_371_587;
pub const LAST_DATE: i64 = 2_932_896;

/// Units × price where the result is 2^63, and beside it by a hundredth and by one.
pub const EDGES: [i128; 8] =
    [END, END + 1, END + 99, END + 100, END + 101, END - 1, END - 100, END - 101];
const END: i128 = 100 << 63;

/// Some divisors of each, all so large that the other factor is inside 64 bits.
static DIVISORS: LazyLock<[Vec<i128>; 8]> = LazyLock::new(|| {
    EDGES.map(|edge| (101..=20_000).filter(|divisor| edge % divisor == 0).collect())
});

impl Random {
    pub fn any_amount(&mut self) -> i64 {
        match self.below(12) {
            0..3 => self.number() as i64,
            3 => self.between_floats(),
            _ => self.amount(Size::Mixed),
        }
    }

    /// An amount half way between two floats, or beside such an amount.
    pub fn between_floats(&mut self) -> i64 {
        let odd = (self.within(1 << 53, (1 << 54) - 1) | 1) as i64;
        let half_way = odd << self.below(10);
        let amount = half_way.saturating_add(self.pick(&[0, 0, 1, -1]));
        if self.one_in(2) { -amount } else { amount }
    }

    /// Two amounts, often with a sum or a difference at an end of 64 bits.
    pub fn amount_pair(&mut self) -> (i64, i64) {
        let a = self.any_amount();
        let end = self.pick(&[i64::MAX, i64::MIN, 0]);
        let near = end.wrapping_sub(a).wrapping_add(self.signed_within(-2, 2));
        match self.below(4) {
            0 => (a, near),
            1 => (a, near.wrapping_neg()),
            _ => (a, self.any_amount()),
        }
    }

    pub fn cost(&mut self) -> Cost {
        let (actual, remaining) = self.amount_pair();
        Cost { budget: self.any_amount(), actual, remaining }
    }

    /// Units and a price, often with a result at an end of 64 bits.
    pub fn units_and_price(&mut self) -> (i64, i64) {
        if self.one_in(4) {
            return self.edge_factors();
        }
        let a = self.any_amount();
        let end = self.pick(&[i64::MAX, i64::MIN]);
        if a == 0 || self.one_in(2) {
            return (a, self.any_amount());
        }
        let b = i128::from(end) * 100 / i128::from(a) + i128::from(self.signed_within(-2, 2));
        let b = i64::try_from(b).unwrap_or_else(|_| self.any_amount());
        if self.one_in(2) { (b, a) } else { (a, b) }
    }

    /// Two factors of one of the edges, mostly of opposite signs.
    pub fn edge_factors(&mut self) -> (i64, i64) {
        let k = self.below(EDGES.len() as u64) as usize;
        let divisor = self.pick(&DIVISORS[k]);
        let (small, large) = (divisor as i64, (EDGES[k] / divisor) as i64);
        let (a, b) = if self.one_in(2) { (small, large) } else { (large, small) };
        let (below, above) = (self.pick(&[(-a, b), (a, -b)]), self.pick(&[(a, b), (-a, -b)]));
        if self.one_in(4) { above } else { below }
    }

    /// Actual and budget, often with a quotient at an end of 64 bits, or without a budget.
    pub fn actual_and_budget(&mut self) -> (i64, i64) {
        let (a, b) = (self.any_amount(), self.any_amount());
        let small = self.signed_within(-1_000, 1_000);
        match self.below(6) {
            0 | 1 => self.edge_share(),
            2 => (a, small),
            3 => (a, 0),
            _ => (a, b),
        }
    }

    /// Actual and budget with a quotient at an end of 64 bits or beside it: the budget is at most 10,000. Multiples of 625
    /// have a quotient of −2^63 without a rest.
    fn edge_share(&mut self) -> (i64, i64) {
        let (whole, any) = (625 * self.signed_within(1, 16), self.signed_within(1, 10_000));
        let budget = self.pick(&[whole, any, 10_000 - any % 20]) * self.pick(&[1, -1]);
        let end = self.pick(&[i64::MAX, i64::MIN, i64::MIN]);
        let quotient = i128::from(end) + i128::from(self.signed_within(-1, 1));
        let product = quotient * i128::from(budget);
        let actual = product / 10_000 + product.signum() * i128::from(self.below(2));
        (actual.clamp(i64::MIN.into(), i64::MAX.into()) as i64, budget)
    }

    /// An amount, a count of days, and a place up to it, often where the shares change.
    pub fn shares(&mut self) -> (i64, u64, u64) {
        let n = match self.below(40) {
            0 => self.within(1, 36_525),
            1..5 => self.pick(&[1, 2, 3, 7, 100, 366]),
            _ => self.within(1, 400),
        };
        let amount = match self.below(3) {
            0 => (n as i64).saturating_mul(self.any_amount()),
            1 => self.signed_within(-(n as i64) - 2, n as i64 + 2),
            _ => self.any_amount(),
        };
        let turn = (amount % n as i64).unsigned_abs();
        let near = (turn + self.below(3)).saturating_sub(1).min(n);
        let any = self.within(0, n);
        (amount, n, self.pick(&[near, near, any, 0, n]))
    }

    /// Any float that is a number.
    pub fn float(&mut self) -> f64 {
        loop {
            let x = match self.below(10) {
                0 => f64::from_bits(self.number()),
                1 => {
                    self.pick(&[0.0, -0.0, 1.0, -1.0, 0.5, -0.5, f64::INFINITY, f64::NEG_INFINITY])
                }
                2 => f64::from_bits(self.wide()),
                3 => self.any_amount() as f64 + 0.5,
                4 => self.signed_within(-9_000_000, 9_000_000) as f64 / 2.0,
                5 => neighbour(9e15, self.signed_within(-4, 4)) * self.pick(&[1.0, -1.0]),
                6 => self.any_amount() as f64,
                7 => self.small_float(),
                8 => neighbour(self.amount(Size::Small) as f64 + 0.5, self.signed_within(-2, 2)),
                _ => leaf::ratio(self.any_amount(), self.any_amount()).unwrap_or(0.0),
            };
            if !x.is_nan() {
                return x;
            }
        }
    }

    /// Least numbers and their like: subnormal, or about one.
    fn small_float(&mut self) -> f64 {
        let subnormal = f64::from_bits(self.below(1 << 52));
        let about_one = neighbour(1.0, self.signed_within(-3, 3));
        self.pick(&[subnormal, -subnormal, about_one, f64::MIN_POSITIVE, 0.49999999999999994])
    }

    /// Two floats with a finite product.
    pub fn float_pair(&mut self) -> (f64, f64) {
        loop {
            let (x, y) = (self.float(), self.float());
            if x.is_finite() && y.is_finite() && (x * y).is_finite() {
                return (x, y);
            }
        }
    }

    /// How much is done, from 0 to 1.
    pub fn done(&mut self) -> f64 {
        let percent = self.signed_within(0, 10_000) as f64 / 10_000.0;
        let (a, b) = (self.any_amount(), self.any_amount());
        let quotient = leaf::clamp01(leaf::ratio(a, b).unwrap_or(-0.0));
        let any = leaf::clamp01(self.float());
        self.pick(&[percent, percent, 0.5, quotient, any, 1.0, -0.0])
    }

    /// A budget and how much of it is done, often where the product is a half or at the clamp.
    pub fn budget_and_done(&mut self) -> (i64, f64) {
        let done = self.done();
        let limit = self.pick(&[9e15, -9e15]);
        let budget = match self.below(4) {
            0 if done > 0.0 => ((limit / done) as i64).saturating_add(self.signed_within(-3, 3)),
            1 => self.signed_within(-2_000, 2_000),
            2 if done > 0.0 => ((self.amount(Size::Real) as f64 + 0.5) / done) as i64,
            _ => self.any_amount(),
        };
        (budget, done)
    }

    /// A number of days: dates, the ends of the years, or any.
    pub fn any_days(&mut self) -> i32 {
        match self.below(6) {
            0 => self.number() as i32,
            1 => (self.pick(&[FIRST_DATE, LAST_DATE]) + self.signed_within(-3, 3)) as i32,
            2 => self.pick(&[i32::MIN, i32::MAX, 0, -1, -719_468, -719_469]),
            _ => self.date_days(),
        }
    }

    /// The days of a date of the years −9999 to 9999, often about a month's or a year's turn.
    pub fn date_days(&mut self) -> i32 {
        let year = self.year();
        let any = self.within(1, 12) as u32;
        let month = self.pick(&[1, 2, 3, any]);
        let turn = leaf::from_ymd(year, month, 1).unwrap_or(0);
        let days = match self.below(4) {
            0 => self.signed_within(FIRST_DATE, LAST_DATE) as i32,
            1 => self.signed_within(10_957, 47_481) as i32,
            _ => turn + self.signed_within(-2, 40) as i32,
        };
        days.clamp(FIRST_DATE as i32, LAST_DATE as i32)
    }

    /// A day at or beside a holiday, or any date.
    pub fn holiday_days(&mut self) -> i32 {
        let year = self.year();
        let fixed =
            [(1, 1), (4, 21), (5, 1), (9, 7), (10, 12), (11, 2), (11, 15), (11, 20), (12, 25)];
        let (month, day) = self.pick(&fixed);
        let offset = self.pick(&[-48, -47, -2, 60]);
        let near = match self.below(4) {
            0 => return self.date_days(),
            1 => leaf::from_ymd(year, month, day),
            _ => leaf::easter(year).map(|easter| easter + offset),
        };
        let days = near.unwrap_or(0) + self.signed_within(-1, 1) as i32;
        days.clamp(FIRST_DATE as i32, LAST_DATE as i32)
    }

    /// A year of the range, often a leap year's or a century's neighbour.
    pub fn year(&mut self) -> i32 {
        let century = 100 * self.signed_within(-99, 99);
        let any = self.signed_within(-9_999, 9_999);
        let year = match self.below(5) {
            0 => century + self.signed_within(-1, 4),
            1 => self.signed_within(2_000, 2_099),
            2 => self.pick(&[-9_999, 9_999, 0, -1, 1, 4, 2_023, 2_024, 2_100]),
            _ => any,
        };
        year.clamp(-9_999, 9_999) as i32
    }

    /// A year of the range or beside it.
    pub fn any_year(&mut self) -> i32 {
        let outside = [-10_000, 10_000, i32::MIN, i32::MAX, self.number() as i32];
        if self.one_in(12) { self.pick(&outside) } else { self.year() }
    }

    /// Year, month and day, mostly near a valid date.
    pub fn year_month_day(&mut self) -> (i32, u32, u32) {
        let any = self.number() as u32;
        let month = self.within(1, 12) as u32;
        let day = self.within(1, 31) as u32;
        (
            self.any_year(),
            self.pick(&[month, month, month, month, 2, 2, 0, 13, any]),
            self.pick(&[day, day, day, day, 28, 29, 30, 31, 32, 0, any]),
        )
    }
}

/// The float that many steps of its bits from another.
fn neighbour(x: f64, steps: i64) -> f64 {
    f64::from_bits(x.to_bits().wrapping_add_signed(steps))
}
