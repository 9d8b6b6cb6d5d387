//! The text of the status program, and what other programs' texts share with it.

use std::fmt::Write;

use mkperth_core::Date;
use mkperth_sched::{Earned, earned_value, planned_curve, project_earned};

use crate::book::{LAST_DAY, decode};
use crate::calls::spent;
use crate::project::{Stage, date};

/// What the status program prints for a book.
pub fn text(book: &[u8]) -> String {
    report(book, lines)
}

/// What a program prints for a book: its lines at the data date, or at the last day where there is none; else the
/// refusal.
pub fn report(book: &[u8], lines: fn(&Stage, Date) -> String) -> String {
    match decode(book) {
        Err(refusal) => format!("refused {} {}\n", refusal.number, refusal.place),
        Ok(book) => {
            let at = date(book.data_date.unwrap_or(LAST_DAY));
            lines(&Stage::new(book), at)
        }
    }
}

fn lines(s: &Stage, at: Date) -> String {
    let mut text = String::new();
    for (index, e) in earned_value(&s.project, &s.schedule, at).iter().enumerate() {
        writeln!(text, "{index} {}", figures(e)).expect("text takes all");
    }
    let total = project_earned(&s.project, &s.schedule, at);
    writeln!(text, "total {}", figures(&total)).expect("text takes all");
    for (day, planned) in planned_curve(&s.project, &s.schedule) {
        writeln!(text, "{} {planned}", day.days()).expect("text takes all");
    }
    text
}

/// The six figures of a line, `-` for a share that is absent.
pub fn figures(e: &Earned) -> String {
    let spent = spent(e.actual, e.budget).map_or("-".into(), |share| share.to_string());
    format!("{} {} {} {} {} {spent}", e.budget, e.planned, e.earned, e.actual, e.remaining)
}
