//! Parts of lines that several test programs print.

pub use compare::listing::refused;
use compare::operations::Refusal;
use compare::tree::{sum, Repair};

/// More masses than these are printed as a sum and a check number.
const MOST_PRINTED: usize = 16;

/// The line of a case of no known kind.
pub const NO_KIND: &str = "no such kind";

/// The text that an operation writes to a buffer of so many bytes, or the line of its refusal.
pub fn text(room: usize, operation: impl FnOnce(&mut [u8]) -> Result<usize, Refusal>) -> String {
    let mut buffer = vec![0; room];
    match operation(&mut buffer) {
        Ok(length) => String::from_utf8_lossy(&buffer[..length]).into_owned(),
        Err(refusal) => refused(refusal) + "\n",
    }
}

/// Numbers, a space before each.
pub fn spaced<T: std::fmt::Display>(numbers: impl IntoIterator<Item = T>) -> String {
    numbers.into_iter().map(|number| format!(" {number}")).collect()
}

/// The sum of each mass times its place, counted from 1, modulo 1000000007.
fn check_number(masses: &[i64]) -> i128 {
    let sum: i128 = (1..).zip(masses).map(|(place, &mass)| place * i128::from(mass)).sum();
    sum.rem_euclid(1_000_000_007)
}

/// The sum given and the check number.
pub fn check(sum: u64, masses: &[i64]) -> String {
    format!(" sum {sum} check {}", check_number(masses))
}

/// The masses, or the sum given and the check number if there are many.
pub fn masses(masses: &[i64], sum: u64) -> String {
    if masses.len() > MOST_PRINTED {
        check(sum, masses)
    } else {
        spaced(masses)
    }
}

/// The same of 32-bit numbers, with their own sum.
pub fn words(words: &[u32]) -> String {
    let wide: Vec<i64> = words.iter().map(|&word| i64::from(word)).collect();
    masses(&wide, sum(words))
}

/// What a repair gives beside the masses, or its refusal.
pub fn repaired(result: Result<Repair, Refusal>) -> String {
    repaired_as("done", result)
}

/// The same with another word before what it gives.
pub fn repaired_as(word: &str, result: Result<Repair, Refusal>) -> String {
    match result {
        Ok(repair) => format!("{word} {} {} {} {}", repair.outcome, repair.total, repair.change, repair.shared),
        Err(refusal) => refused(refusal),
    }
}
