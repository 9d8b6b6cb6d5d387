//! A project's earned value, forecast and budget, asked of the library. Usage: main BOOK

#[link(name = "surukeva", kind = "static")]
unsafe extern "C" {
    fn surukeva_project_earned(book: *const u8, len: usize, date: u64, out: *mut u64, out_len: usize, at: &mut u64) -> u64;
    fn surukeva_project_indices(book: *const u8, len: usize, date: u64, out: *mut u64, out_len: usize, at: &mut u64) -> u64;
    fn surukeva_budget(book: *const u8, len: usize, out: *mut u64, out_len: usize, at: &mut u64) -> u64;
}

const STATUS_DATE: u64 = 19724; // 2 January 2024
const EARNED_WIDTH: usize = 7; // of a row of earned value
const MOST_LINES: usize = 501; // of a budget

/// The number and the place of a refusal.
type Refusal = (u64, u64);

/// The rows of a call that is lent room for `most` of them.
fn rows<const N: usize>(most: usize, call: impl FnOnce(*mut u64, usize, &mut u64) -> u64) -> Result<Vec<[u64; N]>, Refusal> {
    let (mut out, mut at) = (vec![[0; N]; most], 0);
    match call(out.as_mut_ptr().cast(), most * N, &mut at) {
        0 => Ok(out[..at as usize].to_vec()),
        number => Err((number, at)),
    }
}

/// A share that is absent is 0 and 0, else it is 1 and hundredths of a percent.
fn share(present: u64, bits: u64) -> String {
    if present == 0 { "none".into() } else { (bits as i64).to_string() }
}

/// An index that is absent is 0 and 0, else it is 1 and the bits of a double.
fn index(present: u64, bits: u64) -> String {
    if present == 0 { "none".into() } else { format!("{:.4}", f64::from_bits(bits)) }
}

/// A call reads the bytes of the book and writes to the lent numbers, and to nothing else.
fn status(book: &[u8]) -> Result<(), Refusal> {
    let (bytes, len) = (book.as_ptr(), book.len());
    let row: [u64; EARNED_WIDTH] = rows(1, |out, n, at| unsafe { surukeva_project_earned(bytes, len, STATUS_DATE, out, n, at) })?[0];
    let [budget, planned, earned, actual, ..] = row.map(|bits| bits as i64);
    println!("budget {budget}\nplanned value {planned}\nearned value {earned}\nactual cost {actual}");
    println!("spent of the budget {}", share(row[5], row[6]));

    let row: [u64; 9] = rows(1, |out, n, at| unsafe { surukeva_project_indices(bytes, len, STATUS_DATE, out, n, at) })?[0];
    println!("estimate at completion {}\nvariance at completion {}", row[1] as i64, row[2] as i64);
    println!("cost performance index {}", index(row[3], row[4]));
    println!("schedule performance index {}", index(row[5], row[6]));
    println!("to-complete performance index {}", index(row[7], row[8]));

    let lines: Vec<[u64; 10]> = rows(MOST_LINES, |out, n, at| unsafe { surukeva_budget(bytes, len, out, n, at) })?;
    for line in lines {
        let owner = if line[0] == 0 { "the project".into() } else { format!("activity {}", line[1]) };
        println!("budget of {owner}: depth {}, current {}, scheduled {}", line[2], line[4] as i64, line[9] as i64);
    }
    Ok(())
}

fn main() {
    let path = std::env::args().nth(1).expect("usage: main BOOK");
    let book = std::fs::read(path).expect("the book can be read");
    if let Err((number, place)) = status(&book) {
        println!("refused {number} {place}");
        std::process::exit(1);
    }
}
