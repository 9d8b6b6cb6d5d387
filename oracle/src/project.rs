//! A decoded book as the Rust's project and schedule. Every name is the index it stands for.

use mkperth_core as core;
use mkperth_core::{
    Accrual, Baseline, BaselineActivity, BudgetChange, Budgeting, ChangeStatus, Date, EarnedValue,
    EtcTechnique, EvTechnique, FinancialPeriod, Fund, PeriodRecord, Price, Project, Region,
    ResourceKind, SpendingMonth, WbsBudget,
};
use mkperth_sched::{Schedule, Scheduled, Status};

use crate::book::{self, Book};

/// A book ready for the Rust's calls.
pub struct Stage {
    pub book: Book,
    pub project: Project,
    pub schedule: Schedule,
}

impl Stage {
    pub fn new(book: Book) -> Stage {
        Stage { project: project(&book), schedule: schedule(&book), book }
    }
}

/// A day of the book as a date.
pub fn date(day: u64) -> Date {
    Date::from_days(day as i32).expect("a day of the book")
}

fn name(index: u64) -> String {
    index.to_string()
}

/// The `number`-th of an enumeration's cases, in the order the Rust declares them.
fn case<T: Copy>(cases: &[T], number: u64) -> T {
    cases[number as usize]
}

fn numbered<T, U>(list: &[T], make: impl Fn(u64, &T) -> U) -> Vec<U> {
    list.iter().enumerate().map(|(index, item)| make(index as u64, item)).collect()
}

fn project(book: &Book) -> Project {
    let mut calendars = numbered(&book.calendars, calendar);
    let calendar = calendars.remove(0);
    Project {
        name: String::new(),
        start: date(book::FIRST_DAY),
        calendar,
        calendars,
        lag_calendar: Default::default(),
        float_kind: Default::default(),
        critical_by: Default::default(),
        data_date: book.data_date.map(date),
        progress_mode: Default::default(),
        must_finish_by: None,
        activities: numbered(&book.activities, activity),
        relationships: Vec::new(),
        bands: Vec::new(),
        markers: Vec::new(),
        month_marks: Vec::new(),
        resources: numbered(&book.resources, resource),
        roles: Vec::new(),
        assignments: book.assignments.iter().map(assignment).collect(),
        comments: Vec::new(),
        levelling: Default::default(),
        baselines: book.baseline.iter().map(|lines| baseline(lines)).collect(),
        baseline_in_use: book.baseline.as_ref().map(|_| String::new()),
        expenses: book.expenses.iter().map(expense).collect(),
        cost_accounts: Vec::new(),
        currency: String::new(),
        budget: budgeting(book),
        earned_value: earned_value(book),
        classification: Default::default(),
        external: Vec::new(),
        organisation: Default::default(),
        extra: Default::default(),
    }
}

fn calendar(index: u64, calendar: &book::Calendar) -> core::Calendar {
    let periods = |working: u64| vec![(8 * 60, 12 * 60); working as usize];
    core::Calendar {
        name: name(index),
        week: std::array::from_fn(|weekday| calendar.week >> weekday & 1 == 1),
        holidays: calendar.holidays.iter().map(|day| date(*day)).collect(),
        extra_days: calendar.extra_days.iter().map(|day| date(*day)).collect(),
        exceptions: calendar.exceptions.iter().map(|(day, w)| (date(*day), periods(*w))).collect(),
        region: (calendar.region == 1).then_some(Region::Brazil),
        periods: Default::default(),
    }
}

/// Its minutes are given, so `working_minutes` returns them.
fn activity(index: u64, activity: &book::Activity) -> core::Activity {
    core::Activity {
        id: name(index),
        duration_minutes: Some(activity.working_minutes as i64),
        actual_start: activity.actual_start.map(date),
        actual_finish: activity.actual_finish.map(date),
        calendar: activity.calendar.map(name),
        parent: activity.parent.map(name),
        percent_complete: activity.percent,
        ..Default::default()
    }
}

fn resource(index: u64, resource: &book::Resource) -> core::Resource {
    let kinds = [ResourceKind::Labor, ResourceKind::Nonlabor, ResourceKind::Material];
    let price =
        |(from, per_unit): &(Option<u64>, i64)| Price { from: from.map(date), per_unit: *per_unit };
    core::Resource {
        id: name(index),
        kind: case(&kinds, resource.kind),
        prices: resource.prices.iter().map(price).collect(),
        ..Default::default()
    }
}

/// What is left is given, so `remaining_units` returns it.
fn assignment(assignment: &book::Assignment) -> core::Assignment {
    core::Assignment {
        activity: name(assignment.activity),
        resource: assignment.resource.map(name),
        planned: assignment.planned,
        actual: assignment.actual,
        remaining: Some(assignment.remaining),
        ..Default::default()
    }
}

/// What is left is given, so `remaining_cost` returns it.
fn expense(expense: &book::Expense) -> core::Expense {
    core::Expense {
        activity: name(expense.activity),
        planned: expense.planned,
        actual: expense.actual,
        remaining: Some(expense.remaining),
        accrual: case(&Accrual::ALL, expense.accrual),
        ..Default::default()
    }
}

fn baseline(lines: &[book::BaselineLine]) -> Baseline {
    let line = |line: &book::BaselineLine| BaselineActivity {
        id: name(line.activity),
        start: date(line.start),
        finish: date(line.finish),
        duration: line.minutes as i64,
        cost: line.cost,
    };
    Baseline { name: String::new(), activities: lines.iter().map(line).collect() }
}

fn budgeting(book: &Book) -> Budgeting {
    let month = |amount: &i64| SpendingMonth { month: date(book::FIRST_DAY), amount: *amount };
    let budget = |budget: &book::Budget| WbsBudget {
        wbs: budget.activity.map(name),
        original: budget.original,
        plan: budget.plan.iter().map(month).collect(),
    };
    let fund = |amount: &i64| Fund { source: String::new(), amount: *amount };
    Budgeting {
        budgets: book.budgets.iter().map(budget).collect(),
        log: numbered(&book.log, change),
        sources: Vec::new(),
        funds: book.funds.iter().map(fund).collect(),
    }
}

fn change(index: u64, change: &book::Change) -> BudgetChange {
    BudgetChange {
        number: index as u32 + 1,
        wbs: change.activity.map(name),
        date: date(book::FIRST_DAY),
        amount: change.amount,
        status: case(&ChangeStatus::ALL, change.status),
        responsible: String::new(),
        reason: String::new(),
    }
}

fn earned_value(book: &Book) -> EarnedValue {
    let techniques = [
        EvTechnique::Physical,
        EvTechnique::Duration,
        EvTechnique::Units,
        EvTechnique::ZeroHundred,
        EvTechnique::FiftyFifty,
        EvTechnique::Custom(book.share),
    ];
    EarnedValue {
        technique: case(&techniques, book.technique),
        etc: case(&EtcTechnique::ALL, book.forecast),
        periods: numbered(&book.periods, period),
        records: book.records.iter().map(record).collect(),
    }
}

fn period(index: u64, finish: &u64) -> FinancialPeriod {
    FinancialPeriod { name: name(index), start: date(*finish), finish: date(*finish) }
}

fn record(record: &book::Record) -> PeriodRecord {
    PeriodRecord {
        period: name(record.period),
        activity: name(record.activity),
        earned: record.earned,
        labor_cost: record.labor,
        nonlabor_cost: record.nonlabor,
        material_cost: record.material,
        expense_cost: record.expense,
        ..Default::default()
    }
}

fn schedule(book: &Book) -> Schedule {
    Schedule {
        activities: numbered(&book.activities, scheduled),
        finish: date(book::LAST_DAY),
        ignored: Vec::new(),
    }
}

fn scheduled(index: u64, activity: &book::Activity) -> Scheduled {
    let statuses = [Status::NotStarted, Status::InProgress, Status::Completed];
    let (early_start, early_finish) = (date(activity.early_start), date(activity.early_finish));
    Scheduled {
        id: name(index),
        early_start,
        early_finish,
        late_start: early_start,
        late_finish: early_finish,
        total_float: 0,
        free_float: 0,
        total_float_minutes: 0,
        free_float_minutes: 0,
        critical: false,
        longest_path: false,
        status: case(&statuses, activity.status),
        remaining_minutes: activity.remaining_minutes as i64,
    }
}
