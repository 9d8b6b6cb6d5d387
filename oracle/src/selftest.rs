//! The oracle held against documents 01 and 02 and against itself.

mod credits;
mod months;

use mkperth_core::{EtcTechnique, Price, Resource};
use mkperth_sched::Earned;
use mkperth_sched::costs::spread;

use crate::arguments::{FIRST_DATE, LAST_DATE};
use crate::book::{Activity, Book, Calendar, Expense, LONGEST, decode};
use crate::calls::{CALLS, Call, MOST_NUMBERS, SUM_OUTSIDE};
use crate::damage::{Damage, damaged};
use crate::encode::encode;
use crate::generate;
use crate::leaf;
use crate::outline;
use crate::project::{Stage, date};
use crate::random::Random;
use crate::status;
use crate::vectors;

/// Counts what holds, and prints what does not.
#[derive(Default)]
pub struct Tally {
    section: &'static str,
    held: usize,
    pub failed: usize,
}

impl Tally {
    fn section(&mut self, name: &'static str) {
        self.report();
        self.section = name;
        self.held = 0;
    }

    fn report(&self) {
        if !self.section.is_empty() {
            println!("{}: {} held", self.section, self.held);
        }
    }

    fn holds(&mut self, holds: bool, what: impl FnOnce() -> String) {
        if holds {
            self.held += 1;
        } else {
            self.failed += 1;
            println!("FAILED {}: {}", self.section, what());
        }
    }

    fn equal<T: PartialEq + std::fmt::Debug>(&mut self, what: &str, found: T, expected: T) {
        let text = || format!("{what}: {found:?}, expected {expected:?}");
        self.holds(found == expected, text);
    }
}

/// Runs every test, with `books` generated books for each that takes any.
pub fn run(books: u64) -> Tally {
    let mut tally = Tally::default();
    tally.section("example");
    example(&mut tally);
    tally.section("reference figures");
    reference_money(&mut tally);
    reference_prices_and_dates(&mut tally);
    tally.section("credits");
    credits::figures(&mut tally);
    credits::what_is_made(&mut tally);
    tally.section("outline");
    outline_orders(&mut tally);
    outline_texts(&mut tally);
    outline_promises(&mut tally, books);
    tally.section("twelve months");
    months::small_figures(&mut tally);
    months::large_figures(&mut tally);
    months::sums_by_days(&mut tally, books);
    months::what_is_made(&mut tally);
    tally.section("written and read back");
    round_trips(&mut tally, books);
    tally.section("damaged copies");
    damaged_copies(&mut tally, books);
    tally.section("lent slices");
    lent_slices(&mut tally, books);
    tally.section("sizes");
    sizes(&mut tally);
    tally.report();
    tally
}

fn example(tally: &mut Tally) {
    let expected = "0 1000 667 500 400 600 4000\n1 1000 667 500 400 600 4000\n\
        total 1000 667 500 400 600 4000\n19723 334\n19724 667\n19725 1000\n";
    tally.equal("status", status::text(&encode(&generate::example())).as_str(), expected);
    tally.equal("status of no bytes", status::text(&[]).as_str(), "refused 2 0\n");
    let expected = "1 0 1000 667 500 400 600 4000\n2 1 1000 667 500 400 600 4000\n";
    tally.equal("outline", outline::text(&encode(&generate::example())).as_str(), expected);
    tally.equal("outline of no bytes", outline::text(&[]).as_str(), "refused 2 0\n");
}

fn reference_money(tally: &mut Tally) {
    let shares = |amount: i64| (0..3).map(|k| leaf::share(amount, 3, k)).collect::<Vec<_>>();
    tally.equal("-7 over 3 days", shares(-7), vec![-3, -2, -2]);
    tally.equal("2 over 3 days", shares(2), vec![1, 1, 0]);
    tally.equal("no days", spread(5, &[]), Vec::new());
    tally.equal("150 units at -333", leaf::priced(150, -333), -499);
    tally.equal("MAX units at 100", leaf::priced(i64::MAX, 100), i64::MAX);
    tally.equal("-MAX units at 101", leaf::priced(-i64::MAX, 101), i64::MIN);
    tally.equal("-5 half done", leaf::earned(-5, 0.5), -3);
    tally.equal("10^16 completed", leaf::earned(10i64.pow(16), 1.0), 9_000_000_000_000_000);
    let e = Earned { budget: 1_000, earned: -100, planned: 200, actual: 100, remaining: 0 };
    tally.equal("CpiSpi leaves", e.etc(EtcTechnique::CpiSpi), 2_200);
    tally.equal("Cpi leaves", e.etc(EtcTechnique::Cpi), 1_100);
}

fn reference_prices_and_dates(tally: &mut Tally) {
    let price_on = |prices: &[(Option<u64>, i64)], day: u64| {
        let price = |(from, per_unit): &(Option<u64>, i64)| Price {
            from: from.map(date),
            per_unit: *per_unit,
        };
        let prices = prices.iter().map(price).collect();
        Resource { prices, ..Default::default() }.price_on(date(day))
    };
    let undated = [(None, 100), (Some(20_000), 200), (Some(20_000), 300)];
    tally.equal("price before", price_on(&undated, 19_999), 100);
    tally.equal("price of the day", price_on(&undated, 20_000), 300);
    tally.equal("first price", price_on(&[(Some(20_010), 70), (Some(20_000), 60)], 19_000), 70);
    tally.equal("29 February 2000", leaf::from_ymd(2000, 2, 29), Some(11_016));
    tally.equal("29 February 2100", leaf::from_ymd(2100, 2, 29), None);
    tally.equal("Easter 2024", leaf::easter(2024), Some(19_813));
    tally.equal("first date", leaf::from_ymd(-9999, 1, 1).map(i64::from), Some(FIRST_DATE));
    tally.equal("last date", leaf::from_ymd(9999, 12, 31).map(i64::from), Some(LAST_DATE));
    tally.equal("before the first", leaf::from_days(FIRST_DATE as i32 - 1), None);
    tally.equal("after the last", leaf::from_days(LAST_DATE as i32 + 1), None);
}

/// A book of one day, with those parents, and planned expenses of those activities.
fn tree(parents: &[Option<u64>], expenses: &[(u64, i64)]) -> Book {
    let activity = |parent: &Option<u64>| Activity {
        parent: *parent,
        early_start: 20_000,
        early_finish: 20_000,
        ..Default::default()
    };
    let expense = |(activity, planned): &(u64, i64)| Expense {
        activity: *activity,
        accrual: 2,
        planned: *planned,
        ..Default::default()
    };
    Book {
        calendars: vec![Calendar { week: 127, ..Default::default() }],
        activities: parents.iter().map(activity).collect(),
        expenses: expenses.iter().map(expense).collect(),
        ..Default::default()
    }
}

fn outline_orders(tally: &mut Tally) {
    let order = |parents: &[Option<u64>]| outline::order(&tree(parents, &[]));
    let mixed = order(&[Some(3), None, Some(3), None, Some(0)]);
    tally.equal("a branch at a time", mixed, vec![(1, 1), (1, 3), (2, 0), (3, 4), (2, 2)]);
    let chain = order(&[Some(1), Some(2), None]);
    tally.equal("as many levels as activities", chain, vec![(1, 2), (2, 1), (3, 0)]);
    let beside = order(&[Some(0), Some(0), None, Some(2)]);
    tally.equal("beside a circle", beside, vec![(1, 2), (2, 3)]);
    tally.equal("on a circle and hanging on it", order(&[Some(0), Some(0)]), vec![]);
    tally.equal("a circle of two", order(&[Some(1), Some(0), Some(1), None]), vec![(1, 3)]);
    tally.equal("tops alone", order(&[None, None]), vec![(1, 0), (1, 1)]);
    tally.equal("no activity", order(&[]), vec![]);
    let deepest: Vec<_> = (1..=500).map(|k| (k < 500).then_some(k)).collect();
    let expected: Vec<_> = (1..=500).map(|level| (level, 500 - level)).collect();
    tally.equal("500 levels", order(&deepest), expected);
}

fn outline_texts(tally: &mut Tally) {
    let text = |parents: &[Option<u64>], expenses: &[(u64, i64)]| {
        outline::text(&encode(&tree(parents, expenses)))
    };
    let circle = [Some(0), Some(0), None, Some(2)];
    let beside = text(&circle, &[(1, 100), (3, 7)]);
    tally.equal("beside a circle", beside.as_str(), "1 2 7 7 0 0 0 0\n2 3 7 7 0 0 0 0\n");
    let own = text(&[None, Some(0)], &[(0, 100), (1, 1)]);
    tally.equal("a parent's own", own.as_str(), "1 0 1 1 0 0 0 0\n2 1 1 1 0 0 0 0\n");
    tally.equal("all on a circle", text(&circle[..2], &[(1, 100)]).as_str(), "");
    tally.equal("no budget", text(&[None], &[]).as_str(), "1 0 0 0 0 0 0 -\n");
}

/// Document 02's promise: every top and every activity below one appears, one time, and after its parent; children and
/// tops in index order, a whole branch before the next one's.
fn outline_promises(tally: &mut Tally, books: u64) {
    for seed in 0..books.div_ceil(2) {
        let Some(book) = generate::book("outline", seed) else { continue };
        let mut listed = vec![false; book.activities.len()];
        // The activity before, behind all that it stands under.
        let mut branch: Vec<u64> = Vec::new();
        for (level, index) in outline::order(&book) {
            let above = level as usize - 1;
            let rises = branch.get(above).is_none_or(|sibling| *sibling < index);
            branch.truncate(above);
            let parent = book.activities[index as usize].parent;
            let under = branch.len() == above && branch.last().copied() == parent;
            let first = !std::mem::replace(&mut listed[index as usize], true);
            tally.holds(rises && under && first, || format!("seed {seed}: {level} {index}"));
            branch.push(index);
        }
        let due = |a: &Activity| a.parent.is_none_or(|parent| listed[parent as usize]);
        let all = book.activities.iter().zip(&listed).all(|(a, listed)| *listed || !due(a));
        tally.holds(all, || format!("seed {seed}: an activity is left out"));
    }
}

fn round_trips(tally: &mut Tally, books: u64) {
    for kind in generate::kinds() {
        let count = if kind == "worst" { 1 } else { books.div_ceil(8) };
        for seed in 0..count {
            let Some(book) = generate::book(kind, seed) else {
                tally.holds(false, || format!("no book of kind {kind}"));
                continue;
            };
            let bytes = encode(&book);
            tally.holds(decode(&bytes) == Ok(book), || format!("{kind} {seed}: read back"));
            let again = generate::book(kind, seed).map(|book| encode(&book));
            tally.holds(again == Some(bytes), || format!("{kind} {seed}: made again"));
        }
    }
    tally.holds(vectors::text(7, 20) == vectors::text(7, 20), || "vectors made again".into());
}

/// Every kind of damage has its refusal, in the verdict and in a call, and touches nothing.
fn damaged_copies(tally: &mut Tally, books: u64) {
    for damage in Damage::ALL {
        let (mut met, mut seed) = (0, 0);
        while met < books && seed < 50 * books {
            seed += 1;
            let mut random = Random::new(seed);
            let Some(book) = generate::book("any", seed) else { continue };
            let Some((bytes, refusal)) = damaged(&book, damage, &mut random) else { continue };
            met += 1;
            let what = || format!("{} {seed}: {:?}", damage.name(), decode(&bytes).err());
            tally.holds(decode(&bytes) == Err(refusal), what);
            let call = &CALLS[random.below(CALLS.len() as u64) as usize];
            let asked = generate::asked(call, &book, &mut random);
            let mut out = [7; 12];
            let answer = call.answer(&bytes, &asked, &mut out);
            let expected = (refusal.number, refusal.place as u64);
            tally.equal(call.name, (answer, out), (expected, [7; 12]));
        }
        tally.holds(met == books, || format!("{}: {met} books only", damage.name()));
    }
}

/// Refusals 8, 9 and 11 come before 10, rows fit exactly, and the rest of the slice stays.
fn lent_slices(tally: &mut Tally, books: u64) {
    for seed in 0..books.div_ceil(4) {
        let Some(book) = generate::book("any", seed) else { continue };
        let stage = Stage::new(book);
        let mut random = Random::new(seed);
        for call in &CALLS {
            // The Rust costs the whole book twice for each period.
            if call.name == "period_points" && stage.book.activities.len() > 60 {
                continue;
            }
            let asked = generate::asked(call, &stage.book, &mut random);
            slice_of_call(tally, call, &stage, &asked);
        }
    }
}

fn slice_of_call(tally: &mut Tally, call: &Call, stage: &Stage, asked: &[u64]) {
    let rows = call.stage_rows(stage, asked);
    let needed = rows.as_ref().map_or(0, Vec::len);
    let mut long = vec![3; needed + 5];
    let answer = call.lend(&rows, &mut long);
    let what = || format!("{} {asked:?}: {answer:?}", call.name);
    let rest = long[needed..].iter().all(|number| *number == 3);
    if answer.0 != 0 {
        let first = call.lend(&rows, &mut []) == answer;
        tally.holds(matches!(answer, (8 | 9 | SUM_OUTSIDE, 0)) && rest && first, what);
        return;
    }
    let mut exact = vec![4; needed];
    let fits = call.lend(&rows, &mut exact) == answer && exact[..] == long[..needed];
    tally.holds(rest && fits && needed <= MOST_NUMBERS, what);
    if needed > 0 {
        let mut short = vec![5; needed - 1];
        let refused = call.lend(&rows, &mut short) == (10, 0);
        tally.holds(refused && short.iter().all(|number| *number == 5), what);
    }
}

/// Exactly 60,000 bytes are read, one more is not.
fn sizes(tally: &mut Tally) {
    let full = generate::book("full", 1).unwrap_or_default();
    let mut bytes = encode(&full);
    tally.equal("full book", bytes.len(), LONGEST);
    tally.holds(decode(&bytes).is_ok(), || "full book is refused".into());
    bytes.push(0);
    tally.equal("one byte more", decode(&bytes).err().map(|r| (r.number, r.place)), Some((1, 0)));
    bytes.truncate(LONGEST - 1);
    let cut = decode(&bytes).err().map(|r| (r.number, r.place));
    tally.equal("one byte less", cut, Some((2, LONGEST - 1)));
}
