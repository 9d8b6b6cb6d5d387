//! The oracle's commands.

use std::io::{Read, Write, stdin, stdout};
use std::process::ExitCode;

use oracle::damage::Damage;
use oracle::statuses::Text;
use oracle::{
    called, generate, outline, sample, selftest, status, statuses, traps, vectors, verdicts,
};

const USAGE: &str = "oracle answer CALL [ASKED..] < BOOK
oracle status < BOOK
oracle outline < BOOK
oracle statuses PROGRAM SEED COUNT TRAPS
oracle outlines PROGRAM SEED COUNT TRAPS
oracle traps FILE
oracle generate KIND SEED > BOOK
oracle sample KIND SEED
oracle vectors SEED COUNT
oracle verdicts TRAPS
oracle calls TRAPS
oracle selftest [BOOKS]";

fn main() -> ExitCode {
    let words: Vec<String> = std::env::args().skip(1).collect();
    let words: Vec<&str> = words.iter().map(String::as_str).collect();
    let done = match words[..] {
        ["answer", ..] if words.len() > 1 => answer(&words[1..].join(" ")),
        ["status"] => print(status::text(&standard_input()).as_bytes()),
        ["outline"] => print(outline::text(&standard_input()).as_bytes()),
        ["statuses", ..] => compare_texts("status", status::text, &words[1..]),
        ["outlines", ..] => compare_texts("outline", outline::text, &words[1..]),
        ["traps", file] => check_traps(file),
        ["generate", kind, seed] => {
            number(seed).and_then(|seed| sample::bytes(kind, seed)).and_then(|bytes| print(&bytes))
        }
        ["sample", kind, seed] => number(seed)
            .and_then(|seed| sample::text(kind, seed))
            .and_then(|text| print(text.as_bytes())),
        ["vectors", seed, count] => number(seed)
            .zip(number(count))
            .and_then(|(seed, count)| print(vectors::text(seed, count as usize).as_bytes())),
        ["verdicts", file] => std::fs::read_to_string(file)
            .ok()
            .and_then(|traps| print(verdicts::text(&traps).as_bytes())),
        ["calls", file] => std::fs::read_to_string(file)
            .ok()
            .and_then(|traps| print(called::text(&traps).as_bytes())),
        ["selftest"] => selftest(400),
        ["selftest", books] => number(books).and_then(selftest),
        _ => None,
    };
    match done {
        Some(true) => ExitCode::SUCCESS,
        Some(false) => ExitCode::FAILURE,
        None => {
            eprintln!("{USAGE}");
            eprintln!("kinds: {}", kinds().join(" "));
            ExitCode::from(2)
        }
    }
}

fn kinds() -> Vec<&'static str> {
    let damages = Damage::ALL.iter().map(|damage| damage.name());
    generate::kinds().chain(damages).chain([sample::MUTATED]).collect()
}

fn number(word: &str) -> Option<u64> {
    word.parse().ok()
}

fn standard_input() -> Vec<u8> {
    let mut bytes = Vec::new();
    stdin().lock().read_to_end(&mut bytes).expect("standard input can be read");
    bytes
}

/// Prints; a reader that has seen enough is no failure.
fn print(bytes: &[u8]) -> Option<bool> {
    let _ = stdout().lock().write_all(bytes);
    Some(true)
}

fn answer(words: &str) -> Option<bool> {
    let line = traps::answer(&standard_input(), words)?;
    print(format!("{line}\n").as_bytes())
}

fn check_traps(file: &str) -> Option<bool> {
    let text = std::fs::read_to_string(file).ok()?;
    let outcome = traps::check(&text);
    outcome.differences.iter().for_each(|text| println!("{text}"));
    let differ = outcome.differences.len();
    println!("{} books, {} lines agree, {differ} differ", outcome.books, outcome.agreed);
    Some(differ == 0)
}

/// Runs a program that is to print that text: its path, a seed, how many books are made, and a file of trap books.
fn compare_texts(name: &str, text: Text, words: &[&str]) -> Option<bool> {
    let [program, seed, count, file] = words else { return None };
    let traps = std::fs::read_to_string(file).ok()?;
    let outcome = statuses::compare(program, text, number(seed)?, number(count)?, &traps);
    outcome.differences.iter().for_each(|text| println!("{name} DIFFERS on {text}"));
    let (refused, differ) = (outcome.refused, outcome.differences.len());
    println!("{name}: {} books, {refused} refused, {differ} differ", outcome.books);
    Some(differ == 0)
}

fn selftest(books: u64) -> Option<bool> {
    let tally = selftest::run(books);
    println!("{} failed", tally.failed);
    Some(tally.failed == 0)
}
