//! Results below 64 bits held against document 02, and what the kind `credits` makes.

use std::collections::BTreeMap;

use mkperth_core::{Date, UNIT};
use mkperth_sched::costs::{days_of, spread};
use mkperth_sched::{earned_value, spending};

use super::Tally;
use crate::arguments::EDGES;
use crate::book::LAST_DAY;
use crate::generate;
use crate::leaf;
use crate::project::{Stage, date};
use crate::twelve;

const MAX: i64 = i64::MAX;
const MIN: i64 = i64::MIN;

/// Both ends, and beside them: cut toward zero first, then held against 64 bits.
pub fn figures(tally: &mut Tally) {
    for (what, units, price, expected) in [
        ("-2^63", MIN, 100, MIN),
        ("-2^63 - 0.01", 8_619_973_866_219_416_643, -107, MIN),
        ("-2^63 - 1", 8_540_159_293_384_051_675, -108, MIN),
        ("-2^63 - 1, units below zero", -8_540_159_293_384_051_675, 108, MIN),
        ("-2^63 + 1", -MAX, 100, -MAX),
        ("2^63", MIN, -100, MAX),
        ("2^63 - 1", -MAX, -100, MAX),
        ("the lowest result", MIN, MAX, MIN),
        ("the largest result", MIN, MIN, MAX),
    ] {
        tally.equal(what, leaf::priced(units, price), expected);
    }
    for (actual, budget, expected) in [
        (-MAX, 1, MIN),
        (MAX, -1, MIN),
        (-MAX, -1, MAX),
        (MAX, 1, MAX),
        (MIN, 10_000, MIN),
        (MIN, 9_999, MIN),
        (-MAX, 10_000, -MAX),
        (MIN, -10_000, MAX),
    ] {
        let what = || format!("{actual} spent of {budget}: {:?}", leaf::spent(actual, budget));
        tally.holds(leaf::spent(actual, budget) == Some(expected), what);
    }
    tally.equal("-2^63 spent of none", leaf::spent(MIN, 0), None);
}

/// What is hard about these books is met in many of them.
pub fn what_is_made(tally: &mut Tally) {
    const BOOKS: u64 = 400;
    let mut met: BTreeMap<&str, (u64, u64)> = BTreeMap::new();
    for seed in 0..BOOKS {
        let stage = Stage::new(generate::book("credits", seed).unwrap_or_default());
        for (name, least, holds) in of_prices(&stage).into_iter().chain(of_figures(&stage)) {
            met.entry(name).or_insert((least, 0)).1 += u64::from(holds);
        }
    }
    for (name, (least, count)) in met {
        let enough = 100 * count >= least * BOOKS;
        tally.holds(enough, || format!("{name}: in {count} of {BOOKS} books"));
    }
}

/// A feature, the least percent of the books that is to have it, and whether a book has it.
type Feature = (&'static str, u64, bool);

/// The units × price of each day: planned, actual and remaining, a list for every assignment with a resource.
fn products(stage: &Stage) -> [Vec<Vec<i128>>; 3] {
    let mut products = [(); 3].map(|()| Vec::new());
    for a in &stage.book.assignments {
        let resource = a.resource.map(|k| &stage.project.resources[k as usize]);
        let days = days_of(&stage.project, a.activity as usize, &stage.schedule);
        let (Some(resource), Some(days)) = (resource, days) else { continue };
        let spans =
            [(a.planned, days.planned), (a.actual, days.actual), (a.remaining, days.remaining)];
        for (lists, (units, days)) in products.iter_mut().zip(spans) {
            let product =
                |(day, u): (Date, i64)| i128::from(u) * i128::from(resource.price_on(day));
            lists.push(spread(units, &days).into_iter().map(product).collect());
        }
    }
    products
}

fn of_prices(stage: &Stage) -> Vec<Feature> {
    let products = products(stage);
    let all = || products.iter().flatten().flatten();
    let result = |product: &i128| product / i128::from(UNIT);
    let below = |product: &i128| result(product) < MIN.into();
    let above = |product: &i128| result(product) > MAX.into();
    let inside = |product: &i128| *product != 0 && !below(product) && !above(product);
    let of = |kind: usize| products[kind].iter().flatten().any(below);
    let is = |wanted: i128| all().any(|product| result(product) == wanted);
    let together = |days: &Vec<i128>| days.iter().all(inside) && below(&days.iter().sum());
    let [end, by_a_hundredth, ..] = EDGES.map(|edge| -edge);
    vec![
        ("below 64 bits", 40, all().any(below)),
        ("above 64 bits", 20, all().any(above)),
        ("inside 64 bits", 50, all().any(inside)),
        ("each day inside, together below", 15, products.iter().flatten().any(together)),
        ("-2^63", 10, all().any(|product| *product == end)),
        ("-2^63 - 0.01", 3, all().any(|product| *product == by_a_hundredth)),
        ("-2^63 - 1", 4, is(i128::from(MIN) - 1)),
        ("2^63 - 1", 2, is(MAX.into())),
        ("2^63", 5, is(i128::from(MAX) + 1)),
        ("planned below", 20, of(0)),
        ("actual below", 20, of(1)),
        ("remaining below", 20, of(2)),
    ]
}

fn of_figures(stage: &Stage) -> Vec<Feature> {
    let rows = earned_value(&stage.project, &stage.schedule, date(LAST_DAY));
    let share = |actual: i64, budget: i64| {
        (i128::from(actual) * 10_000).checked_div(i128::from(budget)).unwrap_or(0)
    };
    let twelve = twelve::rows(&spending(&stage.project, &stage.schedule));
    vec![
        ("a share spent below 64 bits", 3, {
            rows.iter().any(|e| share(e.actual, e.budget) < MIN.into())
        }),
        ("a budget of -2^63", 12, rows.iter().any(|e| e.budget == MIN)),
        ("an actual cost of -2^63", 8, rows.iter().any(|e| e.actual == MIN)),
        ("a twelve-month sum outside", 20, twelve.is_none()),
        ("twelve-month sums", 20, twelve.is_some_and(|rows| !rows.is_empty())),
    ]
}
