//! The calls, from a book's bytes to rows in lent memory, answered by the Rust; the order of the outline and the
//! twelve-month sums, which it has not, are `outline`'s and `twelve`'s.

use mkperth_core::Date;
use mkperth_sched::{
    ActualByKind, BudgetLine, Cost, Earned, PeriodPoint, Variance, actual_by_kind, budget, costs,
    earned_value, funding, performance, period_points, planned_curve, project_cost, project_earned,
    spending, spending_by_month, variances,
};

use crate::book::{FIRST_DAY, LAST_DAY, decode};
use crate::outline;
use crate::project::{Stage, date};
use crate::twelve;

use Rows::{Always, Inside};

/// What a call is asked, beside the book.
#[derive(Debug, Clone, Copy, PartialEq, Eq)]
pub enum Asked {
    Activity,
    Date,
}

/// A call: its name, what it is asked, the numbers of a row (0 if it has none), and how the rows
/// are made.
pub struct Call {
    pub name: &'static str,
    pub asked: &'static [Asked],
    pub width: usize,
    rows: Rows,
}

/// How rows are made: of every accepted book, or of one whose sums are inside signed 64 bits.
enum Rows {
    Always(fn(&Stage, &[u64]) -> Vec<u64>),
    Inside(fn(&Stage) -> Option<Vec<u64>>),
}

const NOTHING: &[Asked] = &[];
const ACTIVITY: &[Asked] = &[Asked::Activity];
const DATE: &[Asked] = &[Asked::Date];
const DATES: &[Asked] = &[Asked::Date, Asked::Date];
const ACTIVITY_AND_DATE: &[Asked] = &[Asked::Activity, Asked::Date];

/// The numbers of a row of earned value: five figures, then what is spent, which may be absent.
pub const EARNED_WIDTH: usize = 7;
/// The numbers of a row of the outline: level, index, and that activity's earned value.
pub const OUTLINE_WIDTH: usize = 2 + EARNED_WIDTH;

/// Every call.
pub const CALLS: [Call; 18] = [
    Call { name: "verdict", asked: NOTHING, width: 0, rows: Always(|_, _| Vec::new()) },
    Call { name: "costs", asked: NOTHING, width: 3, rows: Always(costs_rows) },
    Call { name: "project_cost", asked: NOTHING, width: 3, rows: Always(project_cost_row) },
    Call { name: "actual_by_kind", asked: NOTHING, width: 6, rows: Always(kind_rows) },
    Call { name: "spending", asked: DATES, width: 2, rows: Always(spending_rows) },
    Call { name: "earned_value", asked: DATE, width: EARNED_WIDTH, rows: Always(earned_rows) },
    Call {
        name: "project_earned",
        asked: DATE,
        width: EARNED_WIDTH,
        rows: Always(project_earned_row),
    },
    Call { name: "planned_curve", asked: DATES, width: 2, rows: Always(curve_rows) },
    Call { name: "performance", asked: ACTIVITY, width: 1, rows: Always(performance_row) },
    Call { name: "indices", asked: ACTIVITY_AND_DATE, width: 9, rows: Always(indices_row) },
    Call { name: "project_indices", asked: DATE, width: 9, rows: Always(project_indices_row) },
    Call { name: "period_points", asked: NOTHING, width: 7, rows: Always(period_rows) },
    Call { name: "variances", asked: NOTHING, width: 5, rows: Always(variance_rows) },
    Call { name: "budget", asked: NOTHING, width: 10, rows: Always(budget_rows) },
    Call { name: "funding", asked: NOTHING, width: 2, rows: Always(funding_row) },
    Call { name: "spending_by_month", asked: NOTHING, width: 2, rows: Always(month_rows) },
    Call { name: "outline", asked: DATE, width: OUTLINE_WIDTH, rows: Always(outline_rows) },
    Call { name: "twelve_months", asked: NOTHING, width: 3, rows: Inside(twelve_rows) },
];

/// The call of that name.
pub fn named(name: &str) -> Option<&'static Call> {
    CALLS.iter().find(|call| call.name == name)
}

/// The refusal of a book with a sum outside signed 64 bits, after 9 and before 10.
pub const SUM_OUTSIDE: u64 = 11;

/// The number a call returns, and its count of rows or the place of the refusal.
pub type Answer = (u64, u64);

impl Call {
    /// Answers the call: its rows go to the front of `out`, the rest of it is left alone.
    pub fn answer(&self, book: &[u8], asked: &[u64], out: &mut [u64]) -> Answer {
        self.lend(&self.rows(book, asked), out)
    }

    /// The numbers of the rows in order, or what the call returns without looking at `out`.
    pub fn rows(&self, book: &[u8], asked: &[u64]) -> Result<Vec<u64>, Answer> {
        let book = decode(book).map_err(|refusal| (refusal.number, refusal.place as u64))?;
        if self.width == 0 {
            return Ok(Vec::new());
        }
        self.stage_rows(&Stage::new(book), asked)
    }

    /// The same over a book that was accepted before.
    pub fn stage_rows(&self, stage: &Stage, asked: &[u64]) -> Result<Vec<u64>, Answer> {
        if let Some(refusal) = self.refusal(stage, asked) {
            return Err((refusal, 0));
        }
        match self.rows {
            Always(rows) => Ok(rows(stage, asked)),
            Inside(rows) => rows(stage).ok_or((SUM_OUTSIDE, 0)),
        }
    }

    /// Writes the rows where they fit.
    pub fn lend(&self, rows: &Result<Vec<u64>, Answer>, out: &mut [u64]) -> Answer {
        let rows = match rows {
            Ok(rows) => rows,
            Err(refusal) => return *refusal,
        };
        let Some(lent) = out.get_mut(..rows.len()) else {
            return (10, 0);
        };
        lent.copy_from_slice(rows);
        (0, self.count(rows))
    }

    /// How many rows those numbers make.
    fn count(&self, rows: &[u64]) -> u64 {
        rows.len().checked_div(self.width).unwrap_or(0) as u64
    }

    /// 8 for an activity that is not there, then 9 for a date outside D.
    fn refusal(&self, stage: &Stage, asked: &[u64]) -> Option<u64> {
        let wrong = |kind: Asked, holds: &dyn Fn(u64) -> bool| {
            self.asked.iter().zip(asked).any(|(k, value)| *k == kind && !holds(*value))
        };
        if wrong(Asked::Activity, &|index| index < stage.book.activities.len() as u64) {
            return Some(8);
        }
        wrong(Asked::Date, &|day| (FIRST_DAY..=LAST_DAY).contains(&day)).then_some(9)
    }
}

fn optional(value: Option<u64>) -> [u64; 2] {
    value.map_or([0, 0], |value| [1, value])
}

fn cost(c: &Cost) -> [u64; 3] {
    [c.budget, c.actual, c.remaining].map(|v| v as u64)
}

/// Actual × 10,000 / budget toward zero; outside 64 bits the end on its side, none for budget 0.
pub fn spent(actual: i64, budget: i64) -> Option<i64> {
    let share = (i128::from(actual) * 10_000).checked_div(i128::from(budget))?;
    Some(share.clamp(i64::MIN.into(), i64::MAX.into()) as i64)
}

fn earned(e: &Earned) -> [u64; EARNED_WIDTH] {
    let [present, share] = optional(spent(e.actual, e.budget).map(|share| share as u64));
    let [budget, planned, earned, actual, remaining] =
        [e.budget, e.planned, e.earned, e.actual, e.remaining].map(|v| v as u64);
    [budget, planned, earned, actual, remaining, present, share]
}

fn points(points: Vec<(Date, i64)>) -> Vec<u64> {
    points.iter().flat_map(|(day, amount)| [day.days() as u64, *amount as u64]).collect()
}

/// The points between the two asked days, both included.
fn between(mut all: Vec<(Date, i64)>, asked: &[u64]) -> Vec<u64> {
    let (from, to) = (date(asked[0]), date(asked[1]));
    all.retain(|(day, _)| from <= *day && *day <= to);
    points(all)
}

fn costs_rows(s: &Stage, _: &[u64]) -> Vec<u64> {
    costs(&s.project, &s.schedule).iter().flat_map(cost).collect()
}

fn project_cost_row(s: &Stage, _: &[u64]) -> Vec<u64> {
    cost(&project_cost(&s.project, &s.schedule)).to_vec()
}

fn kind_rows(s: &Stage, _: &[u64]) -> Vec<u64> {
    let row = |k: &ActualByKind| {
        [
            k.labor_cost,
            k.nonlabor_cost,
            k.material_cost,
            k.expense_cost,
            k.labor_units,
            k.nonlabor_units,
        ]
        .map(|v| v as u64)
    };
    actual_by_kind(&s.project, &s.schedule).iter().flat_map(row).collect()
}

fn spending_rows(s: &Stage, asked: &[u64]) -> Vec<u64> {
    between(spending(&s.project, &s.schedule), asked)
}

fn earned_rows(s: &Stage, asked: &[u64]) -> Vec<u64> {
    earned_value(&s.project, &s.schedule, date(asked[0])).iter().flat_map(earned).collect()
}

fn project_earned_row(s: &Stage, asked: &[u64]) -> Vec<u64> {
    earned(&project_earned(&s.project, &s.schedule, date(asked[0]))).to_vec()
}

fn curve_rows(s: &Stage, asked: &[u64]) -> Vec<u64> {
    between(planned_curve(&s.project, &s.schedule), asked)
}

fn performance_row(s: &Stage, asked: &[u64]) -> Vec<u64> {
    let technique = s.project.earned_value.technique;
    vec![performance(&s.project, &s.schedule, asked[0] as usize, technique).to_bits()]
}

fn indices_row(s: &Stage, asked: &[u64]) -> Vec<u64> {
    let all = earned_value(&s.project, &s.schedule, date(asked[1]));
    indices(s, &all[asked[0] as usize])
}

fn project_indices_row(s: &Stage, asked: &[u64]) -> Vec<u64> {
    indices(s, &project_earned(&s.project, &s.schedule, date(asked[0])))
}

fn indices(s: &Stage, e: &Earned) -> Vec<u64> {
    let forecast = s.project.earned_value.etc;
    let mut row = [e.etc(forecast), e.eac(forecast), e.vac(forecast)].map(|v| v as u64).to_vec();
    for index in [e.cpi(), e.spi(), e.tcpi()] {
        row.extend(optional(index.map(f64::to_bits)));
    }
    row
}

fn period_rows(s: &Stage, _: &[u64]) -> Vec<u64> {
    let row = |p: &PeriodPoint| {
        let mut row = vec![index_of(&p.period), p.finish.days() as u64, p.planned as u64];
        row.extend(optional(p.earned.map(|v| v as u64)));
        row.extend(optional(p.actual.map(|v| v as u64)));
        row
    };
    period_points(&s.project, &s.schedule).iter().flat_map(row).collect()
}

fn variance_rows(s: &Stage, _: &[u64]) -> Vec<u64> {
    let row = |v: &Option<Variance>| {
        v.map_or([0; 5], |v| [1, v.start, v.finish, v.duration, v.cost].map(|v| v as u64))
    };
    variances(&s.project, &s.schedule).iter().flat_map(row).collect()
}

fn budget_rows(s: &Stage, _: &[u64]) -> Vec<u64> {
    let row = |l: &BudgetLine| {
        let mut row = optional(l.wbs.as_deref().map(index_of)).to_vec();
        row.push(l.depth as u64);
        row.extend([l.original, l.current, l.proposed, l.distributed, l.planned].map(|v| v as u64));
        row.extend(optional(l.scheduled.map(|v| v as u64)));
        row
    };
    budget(&s.project, Some(&s.schedule)).iter().flat_map(row).collect()
}

fn funding_row(s: &Stage, _: &[u64]) -> Vec<u64> {
    let (funded, unfunded) = funding(&s.project);
    vec![funded as u64, unfunded as u64]
}

fn month_rows(s: &Stage, _: &[u64]) -> Vec<u64> {
    points(spending_by_month(&s.project, &s.schedule))
}

fn outline_rows(s: &Stage, asked: &[u64]) -> Vec<u64> {
    let all = earned_value(&s.project, &s.schedule, date(asked[0]));
    let row = |(level, index): outline::Entry| {
        [level, index].into_iter().chain(earned(&all[index as usize]))
    };
    outline::order(&s.book).into_iter().flat_map(row).collect()
}

fn twelve_rows(s: &Stage) -> Option<Vec<u64>> {
    let row = |row: twelve::Row| [row.first.days() as u64, row.sum as u64, u64::from(row.mark)];
    let rows = twelve::rows(&spending(&s.project, &s.schedule))?;
    Some(rows.into_iter().flat_map(row).collect())
}

fn index_of(name: &str) -> u64 {
    name.parse().expect("a name is an index")
}

/// The most numbers any call writes.
pub const MOST_NUMBERS: usize = 2 * (LAST_DAY - FIRST_DAY + 1) as usize;

/// An answer in one line: number, count or place, then the rows.
pub fn line(call: &Call, rows: &Result<Vec<u64>, Answer>) -> String {
    let rows = match rows {
        Ok(rows) => rows,
        Err((number, place)) => return format!("{number} {place}"),
    };
    let mut text = format!("0 {}", call.count(rows));
    for row in rows.chunks(call.width.max(1)) {
        text.push_str(" |");
        row.iter().for_each(|number| text.push_str(&format!(" {number}")));
    }
    text
}
