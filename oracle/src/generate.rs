//! Accepted books, by kind and seed.

use crate::book::*;
use crate::calls::{Asked, Call};
use crate::credits;
use crate::encode::{encode, groups};
use crate::months;
use crate::random::{Random, Size};
use crate::trees;

/// The kinds of accepted book that the Rust answers quickly, the smallest first.
const QUICK: [&str; 13] = [
    "small",
    "ends",
    "offset",
    "tree",
    "outline",
    "months",
    "credits",
    "calendar",
    "money",
    "periods",
    "long",
    "large",
    "programme",
];
/// The others; `any` is one of the quick ones, `example` is document 01's, whatever the seed.
const OTHERS: [&str; 4] = ["full", "worst", "any", "example"];

/// Every kind of accepted book.
pub fn kinds() -> impl Iterator<Item = &'static str> {
    QUICK.into_iter().chain(OTHERS)
}

/// The book of a kind and a seed, at most `LONGEST` bytes when written.
pub fn book(kind: &str, seed: u64) -> Option<Book> {
    let mut random = Random::new(seed);
    let book = match kind {
        "any" => {
            let small = random.one_in(2);
            let kind = if small { random.pick(&QUICK[..8]) } else { random.pick(&QUICK) };
            return book(kind, random.number());
        }
        "offset" => offset(&mut random),
        "outline" => outline(&mut random),
        "months" => months::book(&mut random),
        "credits" => with_credits(&mut random),
        "full" => full(&mut random),
        "worst" => worst(&mut random),
        "programme" => crate::programme::book(&mut random),
        "example" => example(),
        _ => Maker { shape: shape(kind, &mut random)?, random }.book(),
    };
    Some(fitted(book))
}

/// The book that document 01 prints the status of.
pub fn example() -> Book {
    let dates =
        Activity { status: 1, early_start: 19_723, early_finish: 19_725, ..Default::default() };
    let below = Activity {
        parent: Some(0),
        actual_start: Some(19_723),
        working_minutes: 1_440,
        remaining_minutes: 960,
        percent: Some(5_000),
        ..dates.clone()
    };
    let expense = Expense { activity: 1, accrual: 2, planned: 1_000, actual: 400, remaining: 600 };
    Book {
        data_date: Some(19_724),
        calendars: vec![Calendar { week: 31, ..Default::default() }],
        activities: vec![dates, below],
        expenses: vec![expense],
        ..Default::default()
    }
}

/// A small book with budgets from expenses alone: often none, or one that takes the one before back.
fn offset(random: &mut Random) -> Book {
    let mut book = book("small", random.number()).unwrap_or_default();
    book.assignments.clear();
    book.baseline = None;
    let mut before = 0i64;
    for expense in &mut book.expenses {
        expense.planned = match random.below(3) {
            0 => 0,
            1 => before.saturating_neg(),
            _ => expense.planned,
        };
        before = expense.planned;
    }
    book
}

/// A book with one of `trees`, up to 500 activities and few other records.
fn outline(random: &mut Random) -> Book {
    let small = small_shape(random);
    let most = random.pick(&[6, 20, 60, 150, 500]);
    let activities = if random.one_in(2) { most } else { random.within(1, most) };
    let expenses = activities.min(80);
    let shape = Shape { activities, expenses, tree: Tree::None, filled: true, ..small };
    let mut book = Maker { random: Random::new(random.number()), shape }.book();
    let parents = trees::parents(activities, random);
    book.activities.iter_mut().zip(parents).for_each(|(activity, parent)| activity.parent = parent);
    book
}

/// A small book with activities, and with the resources and assignments of `credits`.
fn with_credits(random: &mut Random) -> Book {
    let small = small_shape(random);
    let shape = Shape { activities: small.activities + 2, ..small };
    let mut book = Maker { random: Random::new(random.number()), shape }.book();
    credits::put(&mut book, random);
    book
}

/// What a call is asked: mostly what the book has, at times what it has not.
pub fn asked(call: &Call, book: &Book, random: &mut Random) -> Vec<u64> {
    let activities = book.activities.len() as u64;
    let day = |random: &mut Random| match random.below(4) {
        0 => random.within(FIRST_DAY, LAST_DAY),
        1 => random.pick(&[FIRST_DAY, LAST_DAY]),
        _ => near_a_day(book, random),
    };
    let value = |kind: &Asked, random: &mut Random| match (kind, random.one_in(12)) {
        (Asked::Activity, false) if activities > 0 => random.below(activities),
        (Asked::Activity, _) => {
            let any = activities + random.wide() / 2;
            random.pick(&[activities, activities + 1, 1 << 32, u64::MAX, any])
        }
        (Asked::Date, false) => day(random),
        (Asked::Date, true) => {
            let any = random.wide();
            random.pick(&[0, FIRST_DAY - 1, LAST_DAY + 1, u64::MAX, 1 << 32 | FIRST_DAY, any])
        }
    };
    let mut asked: Vec<u64> = call.asked.iter().map(|kind| value(kind, random)).collect();
    if call.asked == [Asked::Date, Asked::Date] {
        match random.below(6) {
            0 => {}
            1 | 2 => asked = vec![FIRST_DAY, LAST_DAY],
            _ => asked.sort_unstable(),
        }
    }
    asked
}

/// A day at or beside an activity's or a baseline line's.
fn near_a_day(book: &Book, random: &mut Random) -> u64 {
    let mut days: Vec<u64> = book.data_date.into_iter().chain([20_000]).collect();
    if !book.activities.is_empty() {
        let activity = &book.activities[random.below(book.activities.len() as u64) as usize];
        days.extend([activity.early_start, activity.early_finish]);
    }
    if let Some(line) = book.baseline.iter().flatten().next() {
        days.extend([line.start, line.finish]);
    }
    (random.pick(&days) + random.below(5)).saturating_sub(2).clamp(FIRST_DAY, LAST_DAY)
}

/// How parents are chosen.
#[derive(Debug, Clone, Copy, PartialEq, Eq)]
enum Tree {
    None,
    /// Under an earlier activity.
    Forest,
    /// Each under the one before.
    Deep,
    /// Anything, itself and circles included.
    Any,
}

/// The greatest counts of a generated book, and how its days and amounts are chosen.
struct Shape {
    activities: u64,
    calendars: u64,
    calendar_days: u64,
    resources: u64,
    prices: u64,
    assignments: u64,
    expenses: u64,
    lines: u64,
    budgets: u64,
    plan: u64,
    log: u64,
    funds: u64,
    periods: u64,
    records: u64,
    first_day: u64,
    last_day: u64,
    longest_span: u64,
    size: Size,
    tree: Tree,
    /// Lists have their greatest counts.
    filled: bool,
}

fn small_shape(random: &mut Random) -> Shape {
    let first_day = random.within(FIRST_DAY, LAST_DAY - 60);
    Shape {
        activities: random.within(0, 8),
        calendars: random.within(1, 3),
        calendar_days: 4,
        resources: random.within(0, 3),
        prices: 4,
        assignments: random.within(0, 8),
        expenses: random.within(0, 6),
        lines: random.within(0, 8),
        budgets: random.within(0, 5),
        plan: 3,
        log: random.within(0, 6),
        funds: random.within(0, 3),
        periods: random.within(0, 4),
        records: random.within(0, 8),
        first_day,
        last_day: first_day + random.pick(&[3, 20, 60]),
        longest_span: random.pick(&[1, 4, 30]),
        size: random.pick(&[Size::Small, Size::Real, Size::Wide, Size::Mixed]),
        tree: random.pick(&[Tree::None, Tree::Forest, Tree::Deep, Tree::Any]),
        filled: false,
    }
}

fn shape(kind: &str, random: &mut Random) -> Option<Shape> {
    let small = small_shape(random);
    let size = random.pick(&[Size::Real, Size::Wide, Size::Mixed]);
    Some(match kind {
        "small" => small,
        "ends" => Shape { size: Size::Ends, activities: small.activities + 1, ..small },
        "tree" => Shape {
            activities: random.within(1, 60),
            tree: random.pick(&[Tree::Forest, Tree::Deep, Tree::Any]),
            expenses: 80,
            ..small
        },
        "calendar" => Shape {
            calendars: 16,
            calendar_days: random.pick(&[10, 60, 366]),
            last_day: (small.first_day + random.pick(&[60, 800])).min(LAST_DAY),
            longest_span: 400,
            ..small
        },
        "money" => Shape {
            activities: random.within(1, 40),
            resources: 20,
            prices: 40,
            assignments: 150,
            expenses: 100,
            budgets: 60,
            plan: 120,
            log: 200,
            funds: 100,
            size,
            ..small
        },
        "periods" => Shape { activities: 12, periods: 40, records: 300, size, ..small },
        "long" => Shape {
            activities: random.within(1, 12),
            first_day: FIRST_DAY,
            last_day: LAST_DAY,
            longest_span: LAST_DAY - FIRST_DAY,
            ..small
        },
        "large" => large_shape(small, random, size),
        _ => return None,
    })
}

/// Near the greatest counts, over few days, so that the Rust answers quickly.
fn large_shape(small: Shape, random: &mut Random, size: Size) -> Shape {
    Shape {
        activities: 500,
        calendars: 16,
        calendar_days: 20,
        resources: 200,
        prices: 5,
        assignments: random.within(500, 2_000),
        expenses: random.within(200, 1_000),
        lines: random.within(100, 1_000),
        budgets: 501,
        plan: 4,
        log: 500,
        funds: 100,
        periods: random.pick(&[0, 3, 240]),
        records: random.within(0, 2_000),
        last_day: small.first_day + 10,
        longest_span: 5,
        size,
        filled: true,
        ..small
    }
}

struct Maker {
    random: Random,
    shape: Shape,
}

impl Maker {
    fn book(mut self) -> Book {
        let technique = self.random.below(6);
        let calendars = self.shape.calendars.max(1);
        let count = self.count(self.shape.activities);
        let resources = self.count(self.shape.resources);
        let periods = self.count(self.shape.periods);
        // Nothing can be named where there is no activity.
        let most = |most: u64| if count > 0 { most } else { 0 };
        let assignments = most(self.shape.assignments);
        let expenses = most(self.shape.expenses);
        Book {
            data_date: self.data_date(),
            technique,
            share: if technique == 5 { self.percent() } else { 0 },
            forecast: self.random.below(4),
            calendars: self.list(calendars, Self::calendar),
            activities: (0..count).map(|index| self.activity(index, count)).collect(),
            resources: self.list(resources, Self::resource),
            assignments: self.list(assignments, |m| m.assignment(count, resources)),
            expenses: self.list(expenses, |m| m.expense(count)),
            baseline: self.baseline(count),
            budgets: self.budgets(count),
            log: self.list(self.shape.log, |m| m.change(count)),
            funds: self.list(self.shape.funds, Self::amount),
            periods: self.list(periods, |m| m.day()),
            records: self.records(count, periods),
        }
    }

    /// A count up to the greatest, or the greatest itself.
    fn count(&mut self, most: u64) -> u64 {
        if self.shape.filled { most } else { self.random.within(most / 2, most) }
    }

    fn list<T>(&mut self, count: u64, mut item: impl FnMut(&mut Self) -> T) -> Vec<T> {
        (0..count).map(|_| item(self)).collect()
    }

    fn amount(&mut self) -> i64 {
        self.random.amount(self.shape.size)
    }

    fn day(&mut self) -> u64 {
        match self.random.below(40) {
            0 => FIRST_DAY,
            1 => LAST_DAY,
            _ => self.random.within(self.shape.first_day, self.shape.last_day),
        }
    }

    /// A start and a finish, at times the wrong way round.
    fn span(&mut self) -> (u64, u64) {
        let start = self.random.within(self.shape.first_day, self.shape.last_day);
        let finish = start + self.random.within(0, self.shape.longest_span);
        let finish = finish.min(LAST_DAY);
        if self.random.one_in(12) { (finish, start) } else { (start, finish) }
    }

    fn optional<T>(&mut self, value: impl FnOnce(&mut Self) -> T) -> Option<T> {
        if self.random.one_in(3) { None } else { Some(value(self)) }
    }

    /// Among the other days where there is much to price: the Rust holds every dated amount.
    fn data_date(&mut self) -> Option<u64> {
        let (first, last) = (self.shape.first_day, self.shape.last_day);
        if self.random.one_in(4) {
            None
        } else if self.shape.assignments > 20 {
            Some(self.random.within(first, last))
        } else {
            Some(self.day())
        }
    }

    /// Hundredths of a percent, at times outside 0 to 10,000.
    fn percent(&mut self) -> i64 {
        match self.random.below(8) {
            0 => self.random.amount(Size::Ends),
            1 => self.random.pick(&[-1, 0, 1, 5_000, 9_999, 10_000, 10_001]),
            _ => self.random.signed_within(0, 10_000),
        }
    }

    fn minutes(&mut self) -> u64 {
        match self.random.below(8) {
            0 => 0,
            1 => MOST_MINUTES,
            _ => self.random.below(20_000),
        }
    }

    fn rising_days(&mut self) -> Vec<u64> {
        let count = self.random.within(0, self.shape.calendar_days);
        let mut days = self.list(count, Self::day);
        days.sort_unstable();
        days.dedup();
        days
    }

    fn calendar(&mut self) -> Calendar {
        let days = self.rising_days();
        let week = self.random.below(128);
        Calendar {
            week: self.random.pick(&[0, 31, 31, 63, 127, week]),
            region: self.random.below(2),
            holidays: self.rising_days(),
            extra_days: self.rising_days(),
            exceptions: days.iter().map(|day| (*day, self.random.below(2))).collect(),
        }
    }

    fn parent(&mut self, index: u64, count: u64) -> Option<u64> {
        let loose = self.random.one_in(5);
        match self.shape.tree {
            Tree::None => None,
            Tree::Any => (!loose).then(|| self.random.below(count)),
            _ if index == 0 => None,
            Tree::Deep => (!self.random.one_in(40)).then_some(index - 1),
            Tree::Forest => (!loose).then(|| self.random.below(index)),
        }
    }

    fn activity(&mut self, index: u64, count: u64) -> Activity {
        let (early_start, early_finish) = self.span();
        let (actual_start, actual_finish) = self.span();
        Activity {
            parent: self.parent(index, count),
            calendar: self.optional(|m| m.random.below(m.shape.calendars.max(1))),
            status: self.random.below(3),
            early_start,
            early_finish,
            actual_start: self.optional(|_| actual_start),
            actual_finish: if self.random.one_in(2) { None } else { Some(actual_finish) },
            working_minutes: self.minutes(),
            remaining_minutes: self.minutes(),
            percent: self.optional(Self::percent),
        }
    }

    fn resource(&mut self) -> Resource {
        let prices = self.random.within(0, self.shape.prices);
        Resource {
            kind: self.random.below(3),
            prices: self.list(prices, |m| (m.optional(Self::day), m.amount())),
        }
    }

    fn assignment(&mut self, activities: u64, resources: u64) -> Assignment {
        let some = resources > 0 && !self.random.one_in(10);
        Assignment {
            activity: self.random.below(activities),
            resource: some.then(|| self.random.below(resources)),
            planned: self.amount(),
            actual: self.amount(),
            remaining: self.amount(),
        }
    }

    fn expense(&mut self, activities: u64) -> Expense {
        Expense {
            activity: self.random.below(activities),
            accrual: self.random.below(3),
            planned: self.amount(),
            actual: self.amount(),
            remaining: self.amount(),
        }
    }

    fn baseline(&mut self, activities: u64) -> Option<Vec<BaselineLine>> {
        if self.random.one_in(3) {
            return None;
        }
        let lines = if activities > 0 { self.shape.lines } else { 0 };
        Some(self.list(lines, |m| m.baseline_line(activities)))
    }

    fn baseline_line(&mut self, activities: u64) -> BaselineLine {
        let (start, finish) = self.span();
        BaselineLine {
            activity: self.random.below(activities),
            start,
            finish,
            minutes: self.minutes(),
            cost: self.amount(),
        }
    }

    fn budgets(&mut self, activities: u64) -> Vec<Budget> {
        let mut owners: Vec<Option<u64>> = (0..activities).map(Some).collect();
        owners.push(None);
        let count = self.shape.budgets.min(owners.len() as u64);
        self.list(count, |m| Budget {
            activity: owners.swap_remove(m.random.below(owners.len() as u64) as usize),
            original: m.amount(),
            plan: {
                let months = m.random.within(0, m.shape.plan);
                m.list(months, Self::amount)
            },
        })
    }

    fn change(&mut self, activities: u64) -> Change {
        let named = activities > 0 && !self.random.one_in(4);
        Change {
            activity: named.then(|| self.random.below(activities)),
            amount: self.amount(),
            status: self.random.below(3),
        }
    }

    fn records(&mut self, activities: u64, periods: u64) -> Vec<Record> {
        let none = activities == 0 || periods == 0;
        let count = if none { 0 } else { self.shape.records };
        self.list(count, |m| Record {
            period: m.random.below(periods),
            activity: m.random.below(activities),
            earned: m.amount(),
            labor: m.amount(),
            nonlabor: m.amount(),
            material: m.amount(),
            expense: m.amount(),
        })
    }
}

/// Drops records, assignments, expenses, plans and lines until the book is short enough.
fn fitted(mut book: Book) -> Book {
    while encode(&book).len() > LONGEST {
        let shorter = |count: usize| count - count.div_ceil(20);
        book.records.truncate(shorter(book.records.len()));
        book.assignments.truncate(shorter(book.assignments.len()));
        book.expenses.truncate(shorter(book.expenses.len()));
        book.log.truncate(shorter(book.log.len()));
        book.budgets.iter_mut().for_each(|b| b.plan.truncate(shorter(b.plan.len())));
        let lines = book.baseline.as_mut();
        lines.into_iter().for_each(|lines| lines.truncate(shorter(lines.len())));
    }
    book
}

/// A book of exactly `LONGEST` bytes: 2,000 records whose amounts take up what is missing.
fn full(random: &mut Random) -> Book {
    let mut shape = small_shape(random);
    (shape.activities, shape.periods, shape.records, shape.filled) = (3, 2, 2_000, true);
    shape.size = Size::Small;
    let mut book = Maker { random: Random::new(random.number()), shape }.book();
    let mut missing = LONGEST - encode(&book).len();
    for record in &mut book.records {
        for amount in [&mut record.earned, &mut record.labor, &mut record.expense] {
            let extra = missing.min(random.within(7, 9) as usize);
            *amount = of_length(extra + 1);
            missing -= extra;
        }
    }
    book
}

/// The least amount from zero up whose number takes that many bytes.
fn of_length(bytes: usize) -> i64 {
    let amount = if bytes > 1 { 1i64 << (7 * (bytes - 1) - 1) } else { 0 };
    debug_assert_eq!(groups((amount as u64) << 1).len(), bytes);
    amount
}

/// The greatest work: 500 activities over all days, 2,000 assignments with two prices each.
fn worst(random: &mut Random) -> Book {
    let activity = |index: u64| Activity {
        parent: None,
        calendar: None,
        status: 1,
        early_start: FIRST_DAY,
        early_finish: LAST_DAY,
        actual_start: Some(FIRST_DAY),
        actual_finish: None,
        working_minutes: 14_400,
        remaining_minutes: index,
        percent: Some(5_000),
    };
    let resource =
        |price: i64| Resource { kind: 0, prices: vec![(None, price), (Some(20_000), 7)] };
    let mut amount = || random.signed_within(1, 900_000);
    let assignment = |index: u64, amount: i64| Assignment {
        activity: index % 500,
        resource: Some(index % 20),
        planned: amount,
        actual: amount / 3,
        remaining: amount / 2,
    };
    Book {
        data_date: Some((FIRST_DAY + LAST_DAY) / 2),
        calendars: vec![Calendar { week: 127, ..Default::default() }],
        activities: (0..500).map(activity).collect(),
        resources: (0..20).map(|_| resource(amount())).collect(),
        assignments: (0..2_000).map(|index| assignment(index, amount())).collect(),
        ..Default::default()
    }
}
