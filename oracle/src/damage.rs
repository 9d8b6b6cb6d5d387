//! Damaged copies of accepted books, each with the refusal that document 01 gives it.

use crate::book::{Book, Budget, FIRST_DAY, LAST_DAY, LONGEST, Refusal, limits};
use crate::encode::{Field, Kind, encode, encode_noting, groups};
use crate::random::Random;

/// What is wrong with a book.
#[derive(Debug, Clone, Copy, PartialEq, Eq)]
pub enum Damage {
    TooLong,
    Cut,
    LongForm,
    TenthByte,
    OutOfRange,
    Index,
    Count,
    NotRising,
    BudgetTwice,
    Trailing,
}

impl Damage {
    pub const ALL: [Damage; 10] = [
        Damage::TooLong,
        Damage::Cut,
        Damage::LongForm,
        Damage::TenthByte,
        Damage::OutOfRange,
        Damage::Index,
        Damage::Count,
        Damage::NotRising,
        Damage::BudgetTwice,
        Damage::Trailing,
    ];

    /// The command's word for it.
    pub fn name(self) -> &'static str {
        match self {
            Damage::TooLong => "too-long",
            Damage::Cut => "cut",
            Damage::LongForm => "long-form",
            Damage::TenthByte => "tenth-byte",
            Damage::OutOfRange => "out-of-range",
            Damage::Index => "index",
            Damage::Count => "count",
            Damage::NotRising => "not-rising",
            Damage::BudgetTwice => "budget-twice",
            Damage::Trailing => "trailing",
        }
    }

    pub fn named(name: &str) -> Option<Damage> {
        Damage::ALL.into_iter().find(|damage| damage.name() == name)
    }
}

/// A damaged copy and its refusal; none where the book has nothing to damage that way.
pub fn damaged(book: &Book, damage: Damage, random: &mut Random) -> Option<(Vec<u8>, Refusal)> {
    let copy = match damage {
        Damage::TooLong => too_long(encode(book), random),
        Damage::Cut => cut(encode(book), random),
        Damage::Trailing => trailing(encode(book), random),
        Damage::BudgetTwice => budget_twice(book, random)?,
        _ => wrong_number(book, damage, random)?,
    };
    (damage == Damage::TooLong || copy.0.len() <= LONGEST).then_some(copy)
}

/// A copy with a few bytes changed, dropped or put in, which may be accepted or not.
pub fn mutated(mut bytes: Vec<u8>, random: &mut Random) -> Vec<u8> {
    for _ in 0..random.within(1, 4) {
        let at = random.below(bytes.len() as u64 + 1) as usize;
        let any = random.number() as u8;
        let byte = random.pick(&[any, 0, 1, 2, 0x7f, 0x80, 0x81, 0xff]);
        match random.below(4) {
            0 => bytes.insert(at, byte),
            1 if at < bytes.len() => drop(bytes.remove(at)),
            _ if at < bytes.len() => bytes[at] = byte,
            _ => bytes.push(byte),
        }
    }
    bytes
}

fn refusal(number: u64, place: usize) -> Refusal {
    Refusal { number, place }
}

fn too_long(mut bytes: Vec<u8>, random: &mut Random) -> (Vec<u8>, Refusal) {
    let more = if random.one_in(2) { 1 } else { random.within(1, 5_000) };
    let filler = random.number() as u8;
    bytes.resize(LONGEST + more as usize, filler);
    (bytes, refusal(1, 0))
}

fn cut(mut bytes: Vec<u8>, random: &mut Random) -> (Vec<u8>, Refusal) {
    let length = random.below(bytes.len() as u64) as usize;
    bytes.truncate(length);
    (bytes, refusal(2, length))
}

fn trailing(mut bytes: Vec<u8>, random: &mut Random) -> (Vec<u8>, Refusal) {
    let length = bytes.len();
    for _ in 0..random.within(1, 12) {
        bytes.push(random.number() as u8);
    }
    (bytes, refusal(7, length))
}

/// Names the activity of one budget again in a later one.
fn budget_twice(book: &Book, random: &mut Random) -> Option<(Vec<u8>, Refusal)> {
    let mut book = book.clone();
    if book.budgets.is_empty() || book.budgets.len() as u64 == limits::BUDGETS.1 {
        return None;
    }
    let first = random.below(book.budgets.len() as u64) as usize;
    let second = random.within(first as u64 + 1, book.budgets.len() as u64) as usize;
    let again = Budget { activity: book.budgets[first].activity, ..Default::default() };
    book.budgets.insert(second, again);
    let (mut bytes, fields) = encode_noting(&book);
    let mark = fields.iter().filter(|f| f.kind == Kind::BudgetMark).nth(second)?;
    let named = fields.iter().rfind(|f| f.place == mark.place)?;
    spoil_tail(&mut bytes, named.end, random);
    Some((bytes, refusal(6, mark.place)))
}

/// Replaces one number by another that is refused.
fn wrong_number(book: &Book, damage: Damage, random: &mut Random) -> Option<(Vec<u8>, Refusal)> {
    let (mut bytes, fields) = encode_noting(book);
    let fits = |field: &&Field| suits(damage, field);
    let suited = fields.iter().filter(fits).count() as u64;
    if suited == 0 {
        return None;
    }
    let field = fields.iter().filter(fits).nth(random.below(suited) as usize)?;
    let number = match damage {
        Damage::LongForm => long_form(&bytes[field.at..field.end], random),
        Damage::TenthByte => tenth_byte(random),
        _ => groups(wrong_value(damage, field.kind, random)),
    };
    let end = field.at + number.len();
    bytes.splice(field.at..field.end, number);
    spoil_tail(&mut bytes, end, random);
    let refused = match damage {
        Damage::LongForm | Damage::TenthByte => refusal(3, field.at),
        Damage::Count => refusal(5, field.place),
        Damage::NotRising => refusal(6, field.place),
        _ => refusal(4, field.place),
    };
    Some((bytes, refused))
}

fn suits(damage: Damage, field: &Field) -> bool {
    match (damage, field.kind) {
        (Damage::LongForm, _) => field.end - field.at < 10,
        (Damage::TenthByte, _) => true,
        (Damage::OutOfRange, Kind::Range(..) | Kind::Rising(_) | Kind::BudgetMark) => true,
        (Damage::Index, Kind::Index(_)) => true,
        (Damage::Count, Kind::Count(..)) => true,
        (Damage::NotRising, Kind::Rising(_)) => true,
        _ => false,
    }
}

/// The same number with groups of zero behind it.
fn long_form(number: &[u8], random: &mut Random) -> Vec<u8> {
    let mut longer = number.to_vec();
    if let Some(last) = longer.last_mut() {
        *last |= 0x80;
    }
    let zeros = random.below(10 - number.len() as u64) as usize;
    longer.resize(number.len() + zeros, 0x80);
    longer.push(0);
    longer
}

/// Nine bytes that go on, and a tenth that is not 1.
fn tenth_byte(random: &mut Random) -> Vec<u8> {
    let mut bytes: Vec<u8> = (0..9).map(|_| random.number() as u8 | 0x80).collect();
    let any = random.within(2, 255) as u8;
    bytes.push(random.pick(&[0, 2, 0x7f, 0x80, 0x81, 0xff, any]));
    bytes
}

fn wrong_value(damage: Damage, kind: Kind, random: &mut Random) -> u64 {
    match kind {
        Kind::Rising(previous) if damage == Damage::NotRising => {
            let any = random.within(FIRST_DAY, previous);
            random.pick(&[previous, FIRST_DAY, any])
        }
        Kind::Range(low, high) | Kind::Count(low, high) => outside(low, high, random),
        Kind::Index(count) => above(count, random),
        Kind::BudgetMark => above(2, random),
        _ => outside(FIRST_DAY, LAST_DAY, random),
    }
}

fn outside(low: u64, high: u64, random: &mut Random) -> u64 {
    if low > 0 && random.one_in(2) {
        let any = random.below(low);
        random.pick(&[low - 1, 0, any])
    } else {
        above(high + 1, random)
    }
}

/// A number from `least` up.
fn above(least: u64, random: &mut Random) -> u64 {
    let any = random.within(least, u64::MAX);
    random.pick(&[least, least + 1, least + 128, any, u64::MAX])
}

/// What stands behind the refused number does not matter: at times it is cut off or overwritten.
fn spoil_tail(bytes: &mut Vec<u8>, end: usize, random: &mut Random) {
    match random.below(4) {
        0 => bytes.truncate(end),
        1 => bytes[end..].iter_mut().for_each(|byte| *byte = random.number() as u8),
        _ => {}
    }
}
