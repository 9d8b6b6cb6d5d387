//! Calls over the trap books and over short made ones, with what they leave in lent memory, for the replay.

use crate::book::{Book, FIRST_DAY, LAST_DAY, decode};
use crate::calls::{Asked, CALLS, Call, SUM_OUTSIDE};
use crate::encode::encode;
use crate::generate;
use crate::traps;

/// A longer lent slice is left out.
const MOST_LENT: usize = 600;
/// How many books are made beside the trap books, for the twelve-month sums and for results below 64 bits, and how long
/// they may be.
const MADE: usize = 12;
const MADE_MONTHS: usize = 6;
const MADE_CREDITS: usize = 4;
const MOST_BYTES: usize = 700;

/// Number k of a lent slice before the call.
fn lent_number(k: usize) -> u64 {
    1_000_003 * (k as u64 + 1)
}

/// A line: `call NAME BOOK ASKED.. LENT = NUMBER AT NUMBER..`, all numbers of the lent slice after the call.
fn line(call: &Call, bytes: &[u8], asked: &[u64], lent: usize) -> String {
    let mut out: Vec<u64> = (0..lent).map(lent_number).collect();
    let (number, at) = call.answer(bytes, asked, &mut out);
    let digits: String = bytes.iter().map(|byte| format!("{byte:02x}")).collect();
    let words = |numbers: &[u64]| numbers.iter().map(|n| format!(" {n}")).collect::<String>();
    format!("call {} {digits}{} {lent} = {number} {at}{}\n", call.name, words(asked), words(&out))
}

/// What a call is asked of a book: what it has, a part of it, and what is refused, alone and together.
fn questions(call: &Call, book: &Book) -> Vec<Vec<u64>> {
    let day = book.activities.first().map_or(20_000, |activity| activity.early_start);
    let beyond = if day.is_multiple_of(2) { LAST_DAY + 1 } else { FIRST_DAY - 1 };
    let count = book.activities.len() as u64;
    let last = count.saturating_sub(1);
    match call.asked {
        [Asked::Date, Asked::Date] => each(&[
            [FIRST_DAY, LAST_DAY],
            [day, day],
            [day + 1, day + 3],
            [day + 1, day],
            [FIRST_DAY - 1, LAST_DAY],
            [FIRST_DAY, LAST_DAY + 1],
        ]),
        [Asked::Date] => each(&[[day - 1], [day], [day + 1], [day + 3], [LAST_DAY], [beyond]]),
        [Asked::Activity] => each(&[[0], [last], [count]]),
        [Asked::Activity, Asked::Date] => {
            each(&[[last, day + 1], [count, day + 1], [last, beyond], [count, beyond]])
        }
        _ => vec![Vec::new()],
    }
}

/// Those questions, none of them twice in a row.
fn each<const N: usize>(asked: &[[u64; N]]) -> Vec<Vec<u64>> {
    let mut questions: Vec<Vec<u64>> = asked.iter().map(|values| values.to_vec()).collect();
    questions.dedup();
    questions
}

/// The lines of a call on one book: a slice that fits, a longer one, one that is too short by one, and an empty one. Where
/// the call is refused, a single slice; for a sum outside 64 bits also an empty one and one of twenty rows.
fn lines(call: &Call, bytes: &[u8], asked: &[u64]) -> String {
    let mut lengths = match call.rows(bytes, asked) {
        Ok(rows) => vec![rows.len(), rows.len() + 3, rows.len().saturating_sub(1), 0],
        Err((SUM_OUTSIDE, _)) => vec![0, 3, 60],
        Err(_) => vec![3],
    };
    lengths.retain(|length| *length <= MOST_LENT);
    lengths.sort_unstable();
    lengths.dedup();
    lengths.iter().map(|length| line(call, bytes, asked, *length)).collect()
}

/// The trap books of a file, then short ones of some quick kinds, for the twelve-month sums, and for results below 64 bits.
fn books(file: &str) -> Vec<Vec<u8>> {
    let stored = traps::books(file).into_iter().map(|(_, bytes)| bytes);
    let kinds = made(&["small", "ends", "tree", "calendar", "money"]).take(MADE);
    let (months, credits) = (made(&["months"]), made(&["credits"]));
    stored.chain(kinds).chain(months.take(MADE_MONTHS)).chain(credits.take(MADE_CREDITS)).collect()
}

/// Short books of those kinds, in turn.
fn made(kinds: &[&'static str]) -> impl Iterator<Item = Vec<u8>> {
    let books =
        (1..=60).flat_map(|seed| kinds.iter().filter_map(move |kind| generate::book(kind, seed)));
    books.map(|book| encode(&book)).filter(|bytes| bytes.len() <= MOST_BYTES)
}

/// The lines of every call on those books; the verdict, which leaves no rows, has vectors of its own.
pub fn text(file: &str) -> String {
    let books = books(file);
    let calls = CALLS.iter().filter(|call| call.name != "verdict");
    let on_book = |call, bytes: &[u8]| -> String {
        let book = decode(bytes).unwrap_or_default();
        questions(call, &book).iter().map(|asked| lines(call, bytes, asked)).collect()
    };
    calls.flat_map(|call| books.iter().map(move |bytes| on_book(call, bytes))).collect()
}
