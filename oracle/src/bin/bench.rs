//! Times the Rust and the archive in one process, from the same arguments and the same bytes,
//! and prints a table: the median of several runs, in nanoseconds for each call.
//!
//!     bench [SEED [RUNS [KIND..]]]
//!     bench growth [RUNS]
//!
//! The kinds are those of the books that the calls are timed over. `growth` prints how the times grow with
//! the counts of activities, assignments and days, in microseconds.

use std::hint::black_box;
use std::time::Instant;

use oracle::book::{Book, FIRST_DAY, LAST_DAY};
use oracle::calls::{Asked, Call, MOST_NUMBERS};
use oracle::encode::encode;
use oracle::generate;
use oracle::growth::{self, Extent, FIXED};
use oracle::library::{BookCall, Leaf, Status, book_calls, leaves};
use oracle::random::Random;
use oracle::status;

/// The arguments that a leaf function is run over.
const ARGUMENTS: usize = 100_000;
/// A call over a book is repeated for this long in a run, and at least once.
const NANOSECONDS: u128 = 20_000_000;

fn main() {
    let words: Vec<String> = std::env::args().skip(1).collect();
    let number = |index: usize| words.get(index).and_then(|word| word.parse().ok());
    if words.first().is_some_and(|word| word == "growth") {
        return print_growth(number(1).unwrap_or(5).max(1));
    }
    let (seed, runs) = (number(0).unwrap_or(1), number(1).unwrap_or(7).max(1));
    println!("| call | over | Rust, ns | ours, ns | ours / Rust |");
    println!("|---|---|---:|---:|---:|");
    for leaf in leaves() {
        time_leaf(leaf.as_ref(), seed, runs);
    }
    let books = books(seed, words.get(2..).unwrap_or_default());
    for call in book_calls() {
        for (name, book) in &books {
            let (rust, ours) = call_times(&call, book, runs);
            row(call.rust.name, name, rust, ours);
        }
    }
    if let Some(calls) = Status::new() {
        books.iter().for_each(|(name, book)| time_status(&calls, name, book, runs));
    }
}

/// The books of those kinds; without any, the example of document 01 and two kinds.
fn books(seed: u64, kinds: &[String]) -> Vec<(String, Book)> {
    let made = |kind: &str| Some((kind.to_string(), generate::book(kind, seed)?));
    if kinds.is_empty() {
        return ["example", "programme", "large"].into_iter().filter_map(made).collect();
    }
    kinds.iter().filter_map(|kind| made(kind)).collect()
}

/// The calls whose growth is printed.
const GROWING: [&str; 4] = ["project_cost", "spending", "project_earned", "planned_curve"];

/// A table for each count that grows.
fn print_growth(runs: u64) {
    let calls: Vec<BookCall> =
        book_calls().into_iter().filter(|call| GROWING.contains(&call.rust.name)).collect();
    let Extent { activities, assignments, days } = FIXED;
    println!(
        "Where they do not grow: {activities} activities, {assignments} assignments, {days} days."
    );
    for (name, extents) in growth::series() {
        print!("\n| {name} |");
        calls.iter().for_each(|call| print!(" {}: Rust, µs | ours, µs |", call.rust.name));
        println!("\n|---:|{}", "---:|---:|".repeat(calls.len()));
        for (count, extent) in extents {
            let book = growth::book(extent);
            print!("| {count} |");
            for call in &calls {
                let (rust, ours) = call_times(call, &book, runs);
                print!(" {:.1} | {:.1} |", rust / 1000.0, ours / 1000.0);
            }
            println!();
        }
    }
}

fn row(name: &str, over: &str, rust: f64, ours: f64) {
    println!("| {name} | {over} | {rust:.1} | {ours:.1} | {:.2} |", ours / rust);
}

fn median(mut times: Vec<f64>) -> f64 {
    times.sort_by(f64::total_cmp);
    times[times.len() / 2]
}

fn time_leaf(leaf: &dyn Leaf, seed: u64, runs: u64) {
    let times = (0..runs).map(|_| leaf.times(&mut Random::new(seed), ARGUMENTS));
    let (rust, ours): (Vec<f64>, Vec<f64>) = times.unzip();
    row(leaf.name(), "arguments", median(rust), median(ours));
}

/// What a timed call is asked: the last activity, the data date, or all days.
fn asked(call: &Call, book: &Book) -> Vec<u64> {
    let activity = book.activities.len().saturating_sub(1) as u64;
    let day = book.data_date.unwrap_or(20_000);
    let value = |kind: Asked| if kind == Asked::Activity { activity } else { day };
    match call.asked {
        [Asked::Date, Asked::Date] => vec![FIRST_DAY, LAST_DAY],
        asked => asked.iter().map(|kind| value(*kind)).collect(),
    }
}

/// The nanoseconds of a call on a book, the Rust's and the archive's.
fn call_times(call: &BookCall, book: &Book, runs: u64) -> (f64, f64) {
    let (bytes, asked) = (encode(book), asked(call.rust, book));
    let rust = |out: &mut [u64]| call.rust.answer(black_box(&bytes), &asked, out);
    let ours = |out: &mut [u64]| call.answer(black_box(&bytes), &asked, out);
    medians(rust, ours, runs)
}

/// The whole text of the status program, made in this process on both sides.
fn time_status(calls: &Status, name: &str, book: &Book, runs: u64) {
    let bytes = encode(book);
    let rust = |_: &mut [u64]| status::text(black_box(&bytes)).len();
    let ours = |out: &mut [u64]| calls.text(black_box(&bytes), out).len();
    let (rust, ours) = medians(rust, ours, runs);
    row("status", name, rust, ours);
}

fn medians<R>(
    rust: impl Fn(&mut [u64]) -> R,
    ours: impl Fn(&mut [u64]) -> R,
    runs: u64,
) -> (f64, f64) {
    let times = (0..runs).map(|_| (time_of(&rust), time_of(&ours)));
    let (rust, ours): (Vec<f64>, Vec<f64>) = times.unzip();
    (median(rust), median(ours))
}

/// The nanoseconds of one call.
fn time_of<R>(call: impl Fn(&mut [u64]) -> R) -> f64 {
    let mut out = vec![0; MOST_NUMBERS];
    let start = Instant::now();
    let mut calls = 0;
    while calls == 0 || start.elapsed().as_nanos() < NANOSECONDS {
        black_box(call(&mut out));
        calls += 1;
    }
    start.elapsed().as_nanos() as f64 / f64::from(calls)
}
