//! Holds a program that prints a text against the oracle: on the trap books and on made ones, whole and damaged.

use std::io::{Error, ErrorKind, Write};
use std::process::{Command, Stdio};

use crate::book::decode;
use crate::random::Random;
use crate::sample;
use crate::traps;

/// What a program is to print for a book.
pub type Text = fn(&[u8]) -> String;

/// How many books the program was run on, how many of them are refused, and a text for each that differs.
#[derive(Default)]
pub struct Outcome {
    pub books: usize,
    pub refused: usize,
    pub differences: Vec<String>,
}

/// Runs the program on the trap books of a file, and on `count` made ones.
pub fn compare(program: &str, text: Text, seed: u64, count: u64, file: &str) -> Outcome {
    let mut outcome = Outcome::default();
    for (name, book) in traps::books(file) {
        outcome.add(program, text, &format!("trap book {name}"), &book);
    }
    let mut random = Random::new(seed);
    for k in 0..count {
        let (_, book) = sample::drawn("any", 8, &mut random);
        outcome.add(program, text, &format!("made book {k}"), &book);
    }
    outcome
}

impl Outcome {
    fn add(&mut self, program: &str, text: Text, name: &str, book: &[u8]) {
        self.books += 1;
        self.refused += usize::from(decode(book).is_err());
        let found = match printed(program, book) {
            Ok(bytes) => String::from_utf8_lossy(&bytes).into_owned(),
            Err(error) => format!("{program}: {error}"),
        };
        if let Some(line) = difference(&text(book), &found) {
            self.differences.push(format!("{name}: {line}"));
        }
    }
}

/// The first line that is not the oracle's.
fn difference(expected: &str, found: &str) -> Option<String> {
    if expected == found {
        return None;
    }
    let (mut oracle, mut ours) = (expected.lines(), found.lines());
    for number in 1.. {
        match (oracle.next(), ours.next()) {
            (None, None) => break,
            (a, b) if a == b => {}
            (a, b) => return Some(format!("line {number} is {b:?}, the oracle's {a:?}")),
        }
    }
    Some("the lines end otherwise".into())
}

/// What the program prints for a book.
fn printed(program: &str, book: &[u8]) -> Result<Vec<u8>, Error> {
    let mut child = Command::new(program).stdin(Stdio::piped()).stdout(Stdio::piped()).spawn()?;
    if let Some(mut input) = child.stdin.take() {
        // A book that is too long need not be read to its end.
        match input.write_all(book) {
            Err(error) if error.kind() != ErrorKind::BrokenPipe => return Err(error),
            _ => {}
        }
    }
    let output = child.wait_with_output()?;
    // To print nothing may be right, to fail never is.
    match output.status.success() {
        true => Ok(output.stdout),
        false => Err(Error::other(output.status.to_string())),
    }
}
