//! Programmes as they occur: 430 activities in a tree of three levels, with the dates, the
//! prices and the progress that such a programme has.

use crate::book::*;
use crate::random::Random;

const STAGES: u64 = 6;
const GROUPS: u64 = 30;
const ACTIVITIES: u64 = 430;

/// A programme of 430 activities over some three years.
pub fn book(random: &mut Random) -> Book {
    let first_day = random.within(FIRST_DAY + 365, LAST_DAY - 4 * 365);
    let data_date = first_day + random.within(100, 800);
    let technique = random.below(6);
    let activities: Vec<Activity> =
        (0..ACTIVITIES).map(|index| activity(random, index, first_day, data_date)).collect();
    let resources = random.within(40, 80);
    let leaves = STAGES + GROUPS..ACTIVITIES;
    Book {
        data_date: Some(data_date),
        technique,
        share: if technique == 5 { 2_500 } else { 0 },
        forecast: random.below(4),
        calendars: calendars(random, first_day),
        baseline: Some(leaves.clone().map(|i| line(random, i, &activities)).collect()),
        resources: (0..resources).map(|_| resource(random, first_day)).collect(),
        assignments: (0..1_000).map(|_| assignment(random, &activities, resources)).collect(),
        expenses: (0..200).map(|_| expense(random, &activities)).collect(),
        budgets: (0..STAGES + GROUPS).map(|index| budget(random, index)).collect(),
        log: (0..60).map(|_| change(random)).collect(),
        funds: (0..5).map(|_| random.signed_within(1_000_000, 900_000_000)).collect(),
        periods: (0..24).map(|month| first_day + 30 * (month + 1)).collect(),
        records: (0..600).map(|_| record(random)).collect(),
        activities,
    }
}

/// Monday to Friday with Brazil's holidays, and Monday to Saturday with days of its own.
fn calendars(random: &mut Random, first_day: u64) -> Vec<Calendar> {
    let mut days: Vec<u64> = (0..20).map(|_| first_day + random.below(1_000)).collect();
    days.sort_unstable();
    days.dedup();
    let (holidays, exceptions) = days.split_at(days.len() / 2);
    vec![
        Calendar { week: 31, region: 1, ..Default::default() },
        Calendar {
            week: 63,
            region: 0,
            holidays: holidays.to_vec(),
            extra_days: Vec::new(),
            exceptions: exceptions.iter().map(|day| (*day, random.below(2))).collect(),
        },
    ]
}

/// The stages come first, then the groups under them, then the work under the groups.
fn parent(random: &mut Random, index: u64) -> Option<u64> {
    if index < STAGES {
        None
    } else if index < STAGES + GROUPS {
        Some((index - STAGES) % STAGES)
    } else {
        Some(STAGES + random.below(GROUPS))
    }
}

fn activity(random: &mut Random, index: u64, first_day: u64, data_date: u64) -> Activity {
    let early_start = first_day + random.below(1_000);
    let early_finish = early_start + random.pick(&[0, 2, 4, 9, 18, 30, 60, 120]);
    let status = match data_date {
        day if early_finish < day => 2,
        day if early_start < day => 1,
        _ => 0,
    };
    let working_minutes = (early_finish - early_start + 1) * 480;
    Activity {
        parent: parent(random, index),
        calendar: random.one_in(4).then_some(1),
        status,
        early_start,
        early_finish,
        actual_start: (status > 0).then_some(early_start),
        actual_finish: (status == 2).then_some(early_finish),
        working_minutes,
        remaining_minutes: if status == 1 { random.below(working_minutes) } else { 0 },
        percent: (status == 1).then(|| random.signed_within(0, 10_000)),
    }
}

fn line(random: &mut Random, activity: u64, activities: &[Activity]) -> BaselineLine {
    let planned = &activities[activity as usize];
    let shift = random.below(15);
    BaselineLine {
        activity,
        start: planned.early_start - shift,
        finish: planned.early_finish - shift,
        minutes: planned.working_minutes,
        cost: random.signed_within(10_000, 9_000_000),
    }
}

fn resource(random: &mut Random, first_day: u64) -> Resource {
    let mut prices = vec![(None, random.signed_within(1_500, 25_000))];
    for year in 1..random.within(1, 4) {
        prices.push((Some(first_day + 300 * year), random.signed_within(1_500, 25_000)));
    }
    Resource { kind: random.pick(&[0, 0, 0, 1, 2]), prices }
}

/// What is planned, done and left, by the status of the activity.
fn amounts(random: &mut Random, activity: &Activity, most: i64) -> (i64, i64, i64) {
    let planned = random.signed_within(100, most);
    let done = random.signed_within(0, planned);
    match activity.status {
        0 => (planned, 0, planned),
        1 => (planned, done, planned - done),
        _ => (planned, planned + random.signed_within(0, 400), 0),
    }
}

fn assignment(random: &mut Random, activities: &[Activity], resources: u64) -> Assignment {
    let activity = random.within(STAGES + GROUPS, ACTIVITIES - 1);
    let (planned, actual, remaining) = amounts(random, &activities[activity as usize], 96_000);
    let resource = (!random.one_in(50)).then(|| random.below(resources));
    Assignment { activity, resource, planned, actual, remaining }
}

fn expense(random: &mut Random, activities: &[Activity]) -> Expense {
    let activity = random.within(STAGES + GROUPS, ACTIVITIES - 1);
    let (planned, actual, remaining) = amounts(random, &activities[activity as usize], 5_000_000);
    Expense { activity, accrual: random.below(3), planned, actual, remaining }
}

fn budget(random: &mut Random, index: u64) -> Budget {
    Budget {
        activity: index.checked_sub(1),
        original: random.signed_within(1_000_000, 90_000_000),
        plan: (0..12).map(|_| random.signed_within(0, 7_000_000)).collect(),
    }
}

fn change(random: &mut Random) -> Change {
    Change {
        activity: (!random.one_in(6)).then(|| random.below(STAGES + GROUPS)),
        amount: random.signed_within(-500_000, 900_000),
        status: random.below(3),
    }
}

fn record(random: &mut Random) -> Record {
    Record {
        period: random.below(24),
        activity: random.within(STAGES + GROUPS, ACTIVITIES - 1),
        earned: random.signed_within(0, 900_000),
        labor: random.signed_within(0, 500_000),
        nonlabor: random.signed_within(0, 90_000),
        material: random.signed_within(0, 90_000),
        expense: random.signed_within(0, 50_000),
    }
}
