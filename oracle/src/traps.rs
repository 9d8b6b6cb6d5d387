//! Holds the stored trap books against the Rust: every answer, and every figure named.

use std::collections::HashMap;

use crate::calls;
use crate::status;

/// How many lines agreed, and a text for each that did not.
#[derive(Default)]
pub struct Outcome {
    pub books: usize,
    pub agreed: usize,
    pub differences: Vec<String>,
}

/// Checks the text of a file of trap books.
pub fn check(text: &str) -> Outcome {
    let mut outcome = Outcome::default();
    let mut books: HashMap<String, Vec<u8>> = HashMap::new();
    let mut open = String::new();
    for line in text.lines().filter(|line| !line.is_empty() && !line.starts_with('#')) {
        if let Some(rest) = line.strip_prefix("book ") {
            let (name, digits) = rest.split_once(' ').unwrap_or((rest, "-"));
            open = name.to_string();
            books.insert(open.clone(), bytes(digits));
            outcome.books += 1;
            continue;
        }
        let found = match line.strip_prefix("figure ").and_then(|rest| rest.split_once(' ')) {
            Some((name, figure)) => books.get(name).and_then(|book| figure_holds(book, figure)),
            None => books.get(&open).and_then(|book| answer_holds(book, line)),
        };
        match found {
            Some(text) if text.is_empty() => outcome.agreed += 1,
            Some(text) => outcome.differences.push(format!("{open}: {line}\n  but {text}")),
            None => outcome.differences.push(format!("{open}: cannot be read: {line}")),
        }
    }
    outcome
}

/// The names and the bytes of the books of such a text.
pub fn books(text: &str) -> Vec<(&str, Vec<u8>)> {
    let stored = text.lines().filter_map(|line| line.strip_prefix("book ")?.split_once(' '));
    stored.map(|(name, digits)| (name, bytes(digits))).collect()
}

/// The bytes that hexadecimal digits stand for.
pub fn bytes(digits: &str) -> Vec<u8> {
    let pair = |k: usize| u8::from_str_radix(digits.get(k..k + 2)?, 16).ok();
    (0..digits.len() / 2).filter_map(|k| pair(2 * k)).collect()
}

/// The line that the oracle prints for a call and what it is asked, in words.
pub fn answer(book: &[u8], words: &str) -> Option<String> {
    let mut words = words.split(' ');
    let name = words.next()?;
    if name == "status" {
        return Some(status::text(book).trim_end().replace('\n', " / "));
    }
    let call = calls::named(name)?;
    let asked: Vec<u64> = words.map(|word| word.parse().ok()).collect::<Option<_>>()?;
    if asked.len() != call.asked.len() {
        return None;
    }
    Some(calls::line(call, &call.rows(book, &asked)))
}

/// Nothing if the answer holds, else what the oracle answers.
fn answer_holds(book: &[u8], line: &str) -> Option<String> {
    let (words, expected) = line.split_once(" = ")?;
    let found = answer(book, words)?;
    Some(if found == expected { String::new() } else { found })
}

fn figure_holds(book: &[u8], figure: &str) -> Option<String> {
    let (words, expected) = figure.split_once(" = ")?;
    let (words, column) = words.rsplit_once(' ')?;
    let (words, row) = words.rsplit_once(' ')?;
    let answer = answer(book, words)?;
    let row = answer.split(" | ").nth(row.parse::<usize>().ok()? + 1)?;
    let number = row.split(' ').nth(column.parse().ok()?)?;
    let found = (number.parse::<u64>().ok()? as i64).to_string();
    Some(if found == expected { String::new() } else { found })
}
