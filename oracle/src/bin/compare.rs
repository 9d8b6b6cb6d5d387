//! Holds the archive against the Rust: leaf functions over random arguments, calls over random
//! books, whole and damaged, with lent slices that are too short, fit, or are longer.
//!
//!     compare [SEED [ARGUMENTS [BOOKS [TRAPS [KIND]]]]]
//!
//! TRAPS is a file such as books/traps.txt: every call on every book of it comes first. The random
//! books are of one KIND, `any` if none is named.

use std::process::ExitCode;

use oracle::book::{Book, decode};
use oracle::calls::Answer;
use oracle::generate;
use oracle::library::{BookCall, book_calls, leaves};
use oracle::random::Random;
use oracle::sample;
use oracle::traps;

/// How often each call is asked of a trap book.
const TRAP_QUESTIONS: usize = 12;

fn main() -> ExitCode {
    let numbers: Vec<u64> = std::env::args().skip(1).filter_map(|word| word.parse().ok()).collect();
    let number = |index: usize, usual: u64| numbers.get(index).copied().unwrap_or(usual);
    let (seed, arguments, books) = (number(0, 1), number(1, 200_000), number(2, 500));
    let traps = std::env::args().nth(4).map_or(0, |file| compare_traps(&file, seed));
    let kind = std::env::args().nth(5).unwrap_or("any".to_string());
    assert!(generate::kinds().any(|known| known == kind), "no kind of book {kind}");
    let differences =
        traps + compare_leaves(seed, arguments as usize) + compare_books(&kind, seed, books);
    println!("{differences} differences");
    if differences == 0 { ExitCode::SUCCESS } else { ExitCode::FAILURE }
}

fn compare_leaves(seed: u64, count: usize) -> usize {
    let mut differences = 0;
    for leaf in leaves() {
        match leaf.difference(&mut Random::new(seed), count) {
            None => println!("{}: {count} arguments agree", leaf.name()),
            Some(text) => {
                println!("{} DIFFERS at {text}", leaf.name());
                differences += 1;
            }
        }
    }
    differences
}

/// Every call on every trap book, asked near its days and beyond them.
fn compare_traps(file: &str, seed: u64) -> usize {
    let text = std::fs::read_to_string(file).expect("the trap books can be read");
    let books = traps::books(&text);
    let mut differences = 0;
    for call in book_calls() {
        let mut random = Random::new(seed);
        for (name, bytes) in &books {
            let book = decode(bytes).unwrap_or_default();
            let agrees = (0..TRAP_QUESTIONS).all(|_| {
                let asked = generate::asked(call.rust, &book, &mut random);
                let (rust, archive) = answers(&call, bytes, &asked, &mut random);
                rust == archive
            });
            if !agrees {
                println!("{} DIFFERS on trap book {name}", call.rust.name);
                differences += 1;
            }
        }
        println!("{}: {} trap books compared", call.rust.name, books.len());
    }
    differences
}

/// Every call on every book, until a call differs.
fn compare_books(kind: &str, seed: u64, books: u64) -> usize {
    let mut differences = 0;
    for call in book_calls() {
        let mut random = Random::new(seed);
        let mut refused = 0;
        let difference = (0..books).find_map(|_| {
            let seed = random.number();
            let outcome = compare_call(&call, kind, seed);
            refused += u64::from(outcome.is_ok_and(|number| number != 0));
            outcome.err().map(|()| seed)
        });
        match difference {
            None => println!("{}: {books} books agree, {refused} refused", call.rust.name),
            Some(seed) => {
                println!("{} DIFFERS on book {seed}", call.rust.name);
                explain(&call, kind, seed);
                differences += 1;
            }
        }
    }
    differences
}

/// The bytes of a book of the kind and what the call is asked, by seed.
fn question(call: &BookCall, kind: &str, random: &mut Random) -> (Vec<u8>, Vec<u64>) {
    // A call is mostly asked of whole books, the verdict mostly of damaged ones.
    let whole = if call.rust.name == "verdict" { 3 } else { 8 };
    loop {
        let (book, bytes) = sample::drawn(kind, whole, random);
        if is_quick(call, &book) || random.one_in(20) {
            return (bytes, generate::asked(call.rust, &book, random));
        }
    }
}

/// Whether the Rust answers at once: for each period it costs the whole book twice.
fn is_quick(call: &BookCall, book: &Book) -> bool {
    call.rust.name != "period_points" || book.activities.len() * book.periods.len() < 4_000
}

/// How many numbers to lend where that many are needed.
fn lent_length(needed: usize, random: &mut Random) -> usize {
    let any = random.below(needed as u64 + 1) as usize;
    random.pick(&[needed, needed, needed + 1, needed + 40, needed.saturating_sub(1), any, 0])
}

type Side = (Answer, Vec<u64>);

/// Both sides' answers and lent numbers, the Rust's first.
fn both_sides(call: &BookCall, kind: &str, seed: u64) -> (Side, Side) {
    let mut random = Random::new(seed);
    let (bytes, asked) = question(call, kind, &mut random);
    answers(call, &bytes, &asked, &mut random)
}

/// The same for a book and what is asked, with a lent slice of a random length and random numbers.
fn answers(call: &BookCall, bytes: &[u8], asked: &[u64], random: &mut Random) -> (Side, Side) {
    let rows = call.rust.rows(bytes, asked);
    let length = lent_length(rows.as_ref().map_or(8, Vec::len), random);
    let lent: Vec<u64> = (0..length).map(|_| random.number()).collect();
    let (mut expected, mut found) = (lent.clone(), lent);
    let rust = call.rust.lend(&rows, &mut expected);
    let archive = call.answer(bytes, asked, &mut found);
    ((rust, expected), (archive, found))
}

/// The number that both return, if all of their answers and lent numbers agree.
fn compare_call(call: &BookCall, kind: &str, seed: u64) -> Result<u64, ()> {
    let (rust, archive) = both_sides(call, kind, seed);
    if rust == archive { Ok(rust.0.0) } else { Err(()) }
}

fn explain(call: &BookCall, kind: &str, seed: u64) {
    let (bytes, asked) = question(call, kind, &mut Random::new(seed));
    let ((rust, expected), (archive, found)) = both_sides(call, kind, seed);
    println!("  {} bytes, asked {asked:?}, lent {}", bytes.len(), found.len());
    println!("  returned {archive:?}, the Rust {rust:?}");
    let first = expected.iter().zip(&found).position(|(a, b)| a != b);
    if let Some(k) = first {
        println!("  number {k} is {}, the Rust's {}", found[k], expected[k]);
    }
    keep(&bytes, call.rust.name);
}

/// Prints a short book, and leaves a long one in the folder for temporary files.
fn keep(bytes: &[u8], name: &str) {
    if bytes.len() <= 2_000 {
        let digits: String = bytes.iter().map(|byte| format!("{byte:02x}")).collect();
        println!("  book {digits}");
        return;
    }
    let path = std::env::temp_dir().join(format!("{name}.book"));
    match std::fs::write(&path, bytes) {
        Ok(()) => println!("  the book is in {}", path.display()),
        Err(error) => println!("  the book cannot be kept: {error}"),
    }
}
