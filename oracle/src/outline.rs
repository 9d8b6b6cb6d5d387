//! The outline of document 02, which the Rust has not: which activities it has in which order, and the text of the
//! outline program.

use std::fmt::Write;
use std::iter::successors;

use mkperth_core::Date;
use mkperth_sched::earned_value;

use crate::book::Book;
use crate::project::Stage;
use crate::status::{figures, report};

/// An activity of the outline: its level, 1 for a top, and its index.
pub type Entry = (u64, u64);

/// The activities of the outline, in its order. In the order of their keys a parent stands before its children, and
/// its whole branch before the next one; the level is the length of the key.
pub fn order(book: &Book) -> Vec<Entry> {
    let indices = 0..book.activities.len() as u64;
    let mut keys: Vec<Vec<u64>> = indices.filter_map(|index| key(book, index)).collect();
    keys.sort_unstable();
    keys.iter().filter_map(|key| Some((key.len() as u64, *key.last()?))).collect()
}

/// The indices from the activity's top down to it; none where it is on a circle or hangs on one: the walk up is then
/// longer than there are activities.
fn key(book: &Book, index: u64) -> Option<Vec<u64>> {
    let parent = |index: &u64| book.activities[*index as usize].parent;
    let most = book.activities.len();
    let mut key: Vec<u64> = successors(Some(index), parent).take(most + 1).collect();
    key.reverse();
    (key.len() <= most).then_some(key)
}

/// What the outline program prints for a book.
pub fn text(book: &[u8]) -> String {
    report(book, lines)
}

fn lines(s: &Stage, at: Date) -> String {
    let all = earned_value(&s.project, &s.schedule, at);
    let mut text = String::new();
    for (level, index) in order(&s.book) {
        let figures = figures(&all[index as usize]);
        writeln!(text, "{level} {index} {figures}").expect("text takes all");
    }
    text
}
