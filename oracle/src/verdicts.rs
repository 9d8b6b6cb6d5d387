//! Books with their verdicts, for the replay: the trap books, and a book with every kind of field that is
//! damaged at each of its bytes.

use crate::book::{
    Activity, Assignment, BaselineLine, Book, Budget, Calendar, Change, Expense, Record, Resource,
    decode,
};
use crate::encode::encode;
use crate::traps;

/// A book in hexadecimal digits, the sign, and the number and place of its verdict.
pub fn line(bytes: &[u8]) -> String {
    let digits: String = bytes.iter().map(|byte| format!("{byte:02x}")).collect();
    let (number, place) = decode(bytes).map_or_else(|no| (no.number, no.place), |_| (0, 0));
    format!("{digits} = {number} {place}")
}

/// The trap books of a file, then the damaged books.
pub fn text(traps: &str) -> String {
    let books = traps::books(traps).into_iter().map(|(_, bytes)| bytes).chain(damaged());
    books.map(|bytes| format!("verdict {}\n", line(&bytes))).collect()
}

/// The book with every kind of field, whole and then at each byte: cut off, behind a number that is not in
/// its shortest form, and behind the largest number; and with what must rise or be named once repeated.
fn damaged() -> Vec<Vec<u8>> {
    let book = every_field();
    let whole = encode(&book);
    let with = |k: usize, bytes: &[u8]| [&whole[..k], bytes, &whole[k..]].concat();
    let largest = [[0xff; 9].as_slice(), &[1]].concat();
    let mut books = vec![whole.clone(), with(whole.len(), &[0])];
    books.extend(repeated(&book).iter().map(encode));
    for k in 0..whole.len() {
        books.extend([whole[..k].to_vec(), with(k, &[0x80, 0]), with(k, &largest)]);
    }
    books
}

/// Copies of a book in which a date does not rise, or a budget is named twice.
fn repeated(book: &Book) -> [Book; 5] {
    let mut copies = [(); 5].map(|()| book.clone());
    let [holidays, extra, exceptions, activity, project] = &mut copies;
    holidays.calendars[0].holidays.push(11_000);
    extra.calendars[0].extra_days.push(10_999);
    exceptions.calendars[0].exceptions.push((11_002, 0));
    activity.budgets.push(book.budgets[1].clone());
    project.budgets.push(book.budgets[0].clone());
    copies
}

/// A book in which every list has an element and every value is there.
fn every_field() -> Book {
    let budget = |activity| Budget { activity, original: -3, plan: vec![4] };
    Book {
        data_date: Some(11_010),
        technique: 5,
        share: 2_500,
        forecast: 3,
        calendars: vec![calendar()],
        activities: vec![activity()],
        resources: vec![Resource { kind: 1, prices: vec![(Some(11_001), -70)] }],
        assignments: vec![Assignment { resource: Some(0), planned: 5, ..Default::default() }],
        expenses: vec![Expense { accrual: 2, planned: -6, ..Default::default() }],
        baseline: Some(vec![BaselineLine { start: 11_003, finish: 11_004, ..Default::default() }]),
        budgets: vec![budget(None), budget(Some(0))],
        log: vec![Change { activity: Some(0), amount: 7, status: 1 }],
        funds: vec![8],
        periods: vec![11_005],
        records: vec![Record { earned: 9, ..Default::default() }],
    }
}

fn calendar() -> Calendar {
    Calendar {
        week: 31,
        region: 1,
        holidays: vec![11_000],
        extra_days: vec![11_001],
        exceptions: vec![(11_002, 1)],
    }
}

fn activity() -> Activity {
    Activity {
        parent: Some(0),
        calendar: Some(0),
        status: 2,
        early_start: 11_003,
        early_finish: 11_004,
        actual_start: Some(11_003),
        actual_finish: Some(11_004),
        working_minutes: 480,
        remaining_minutes: 0,
        percent: Some(10_000),
    }
}
