//! Books with their answers, in the form of the stored trap books.

use crate::book::{Book, decode};
use crate::calls::{CALLS, line};
use crate::damage::{Damage, damaged, mutated};
use crate::encode::encode;
use crate::generate;
use crate::random::Random;
use crate::status;

/// The bytes of a book of a kind, or of a damaged copy of a small book.
pub fn bytes(kind: &str, seed: u64) -> Option<Vec<u8>> {
    match Damage::named(kind) {
        Some(damage) => damaged_copy(damage, &mut Random::new(seed)),
        None if kind == MUTATED => {
            let mut random = Random::new(seed);
            Some(mutated(encode(&small_book(&mut random)?), &mut random))
        }
        None => generate::book(kind, seed).map(|book| encode(&book)),
    }
}

/// The kind of copy that has a few bytes changed.
pub const MUTATED: &str = "mutated";

fn small_book(random: &mut Random) -> Option<Book> {
    generate::book(random.pick(&["small", "ends", "tree"]), random.number())
}

fn damaged_copy(damage: Damage, random: &mut Random) -> Option<Vec<u8>> {
    loop {
        let book = small_book(random)?;
        if let Some((bytes, _)) = damaged(&book, damage, random) {
            return Some(bytes);
        }
    }
}

/// A made book of a kind and its bytes; of `whole` such books one is damaged, and one has a few bytes changed.
pub fn drawn(kind: &str, whole: u64, random: &mut Random) -> (Book, Vec<u8>) {
    let book = generate::book(kind, random.number()).unwrap_or_default();
    let damage = random.pick(&Damage::ALL);
    let bytes = match (random.below(whole), damaged(&book, damage, random)) {
        (0, Some((bytes, _))) => bytes,
        (1, _) => mutated(encode(&book), random),
        _ => encode(&book),
    };
    (book, bytes)
}

/// A book with the answers to every call and its status; a refused book with its verdict.
pub fn text(kind: &str, seed: u64) -> Option<String> {
    let bytes = bytes(kind, seed)?;
    let digits: String = bytes.iter().map(|byte| format!("{byte:02x}")).collect();
    let digits = if digits.is_empty() { "-" } else { &digits };
    let mut text = format!("book {kind}-{seed} {digits}\n");
    let book = decode(&bytes).unwrap_or_default();
    let mut random = Random::new(seed);
    let calls = if decode(&bytes).is_ok() { &CALLS[..] } else { &CALLS[..1] };
    for call in calls {
        let asked = generate::asked(call, &book, &mut random);
        let words: String = asked.iter().map(|value| format!(" {value}")).collect();
        let answer = line(call, &call.rows(&bytes, &asked));
        text.push_str(&format!("{}{words} = {answer}\n", call.name));
    }
    let status = status::text(&bytes);
    text.push_str(&format!("status = {}\n\n", status.trim_end().replace('\n', " / ")));
    Some(text)
}
